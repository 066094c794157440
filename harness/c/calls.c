/* Holds persimmonjib.h to the archive. At compile time: every size, and every field's offset against a struct of the same fields.
 * At run time: every prototype and every call number, what a built record holds at each offset, every refusal by the input that
 * docs/REFERENCE.md names, and every ending. It is compiled as C99 and as C++11, and prints one line. */
#include "persimmonjib.h"

#include <stdio.h>

#define JOINED(a, b) a##b
#define NAMED(line) JOINED(assert_at_line_, line)
#define ASSERT(claim) typedef char NAMED(__LINE__)[(claim) ? 1 : -1]
#define OFFSET(record, field, at) ASSERT(offsetof(struct record, field) == (at))
#define SIZE(record, bytes) ASSERT(sizeof(struct record) == (bytes))

/* ---- records, as structs of eight-byte fields ---- */
struct sheet {
    uint64_t chemistry;
    double r_particle, d_s_ref, c_s_max, theta_init, thickness, epsilon_s, area, e_a_ds, k_bv, t_ref;
};
struct particle {
    struct sheet sheet;
    uint64_t n_nodes;
    double c_s[PJ_PARTICLE_PLACES];
};
struct config {
    uint64_t n_nodes;
    double v_min, v_max, faraday, r_gas, r_electrolyte_ohm_m2;
};
struct cell {
    struct config config;
    struct particle anode, cathode;
    double time_s;
};
struct report {
    double voltage, current, theta_neg, theta_pos, theta_neg_avg, theta_pos_avg, time_s;
    uint64_t cutoff, sub_steps;
};
struct electrolyte_params {
    double d_e_ref, kappa_ref, t_plus, bruggeman, c_e_init, e_a_de, e_a_kappa, t_ref;
};
struct regions {
    struct electrolyte_params params;
    double l_neg, l_sep, l_pos, eps_neg, eps_sep, eps_pos;
    uint64_t n_neg, n_sep, n_pos;
};
struct electrolyte {
    struct regions regions;
    double c_e[PJ_ELECTROLYTE_PLACES];
};
struct dfn_params {
    double l_neg, l_sep, l_pos, area;
    double r_neg, d_s_neg_ref, c_s_neg_max, eps_neg, theta_neg_0, k_neg;
    double r_pos, d_s_pos_ref, c_s_pos_max, eps_pos, theta_pos_0, k_pos;
    double c_e0, d_e0, gamma_e, t_plus, kappa0, eps_e_elec, eps_e_sep, brugg, temperature_k;
    uint64_t ocv_neg_count;
    double ocv_neg_coeffs[PJ_COEFFICIENT_PLACES];
    uint64_t ocv_pos_count;
    double ocv_pos_coeffs[PJ_COEFFICIENT_PLACES];
};
struct dfn_config {
    uint64_t n_x_neg, n_x_pos, n_r;
    double v_min, v_max;
};
struct dfn_cell {
    struct dfn_params params;
    struct dfn_config config;
    double c_s_neg[PJ_DFN_SOLID_PLACES], c_s_pos[PJ_DFN_SOLID_PLACES], c_e[PJ_DFN_ELECTROLYTE_PLACES];
    double time_s, voltage, current, theta_neg_surf, theta_pos_surf;
};
struct dfn_report {
    double voltage, current, time_s, theta_neg, theta_pos, delta_c_e_max;
    uint64_t cutoff, newton_iter;
};
struct solution {
    double x[PJ_SOLUTION_PLACES];
};
struct ending {
    uint64_t how, rows;
};
struct found {
    uint64_t how, row;
};
struct phase {
    uint64_t kind;
    double number;
};
struct phases {
    struct phase places[PJ_PHASE_PLACES];
};
struct new_particle {
    struct sheet sheet;
    uint64_t n_nodes;
};
struct new_cell {
    struct config config;
    struct sheet anode, cathode;
};
struct new_dfn {
    struct dfn_params params;
    struct dfn_config config;
};
struct cell_step {
    struct cell cell;
    struct report report;
};
struct cell_run {
    struct cell cell;
    struct ending ending;
};
struct dfn_step {
    struct dfn_cell cell;
    struct dfn_report report;
};
struct dfn_run {
    struct dfn_cell cell;
    struct ending ending;
};

SIZE(sheet, PJ_SHEET_BYTES);
SIZE(particle, PJ_PARTICLE_BYTES);
SIZE(config, PJ_CONFIG_BYTES);
SIZE(cell, PJ_CELL_BYTES);
SIZE(report, PJ_REPORT_BYTES);
SIZE(electrolyte_params, PJ_ELECTROLYTE_PARAMS_BYTES);
SIZE(regions, PJ_REGIONS_BYTES);
SIZE(electrolyte, PJ_ELECTROLYTE_BYTES);
SIZE(dfn_params, PJ_DFN_PARAMS_BYTES);
SIZE(dfn_config, PJ_DFN_CONFIG_BYTES);
SIZE(dfn_cell, PJ_DFN_CELL_BYTES);
SIZE(dfn_report, PJ_DFN_REPORT_BYTES);
SIZE(solution, PJ_SOLUTION_BYTES);
SIZE(ending, PJ_ENDING_BYTES);
SIZE(found, PJ_FOUND_BYTES);
SIZE(phase, PJ_PHASE_BYTES);
SIZE(phases, PJ_PHASES_BYTES);
SIZE(new_particle, PJ_NEW_PARTICLE_BYTES);
SIZE(new_cell, PJ_NEW_CELL_BYTES);
SIZE(new_dfn, PJ_NEW_DFN_BYTES);
SIZE(cell_step, PJ_CELL_STEP_BYTES);
SIZE(cell_run, PJ_CELL_RUN_BYTES);
SIZE(dfn_step, PJ_DFN_STEP_BYTES);
SIZE(dfn_run, PJ_DFN_RUN_BYTES);
ASSERT(sizeof(double) == PJ_NUMBER_BYTES);

OFFSET(sheet, chemistry, PJ_AT_SHEET_CHEMISTRY);
OFFSET(sheet, r_particle, PJ_AT_SHEET_R_PARTICLE);
OFFSET(sheet, d_s_ref, PJ_AT_SHEET_D_S_REF);
OFFSET(sheet, c_s_max, PJ_AT_SHEET_C_S_MAX);
OFFSET(sheet, theta_init, PJ_AT_SHEET_THETA_INIT);
OFFSET(sheet, thickness, PJ_AT_SHEET_THICKNESS);
OFFSET(sheet, epsilon_s, PJ_AT_SHEET_EPSILON_S);
OFFSET(sheet, area, PJ_AT_SHEET_AREA);
OFFSET(sheet, e_a_ds, PJ_AT_SHEET_E_A_DS);
OFFSET(sheet, k_bv, PJ_AT_SHEET_K_BV);
OFFSET(sheet, t_ref, PJ_AT_SHEET_T_REF);
OFFSET(particle, sheet, PJ_AT_PARTICLE_SHEET);
OFFSET(particle, n_nodes, PJ_AT_PARTICLE_N_NODES);
OFFSET(particle, c_s, PJ_AT_PARTICLE_C_S);
OFFSET(config, n_nodes, PJ_AT_CONFIG_N_NODES);
OFFSET(config, v_min, PJ_AT_CONFIG_V_MIN);
OFFSET(config, v_max, PJ_AT_CONFIG_V_MAX);
OFFSET(config, faraday, PJ_AT_CONFIG_FARADAY);
OFFSET(config, r_gas, PJ_AT_CONFIG_R_GAS);
OFFSET(config, r_electrolyte_ohm_m2, PJ_AT_CONFIG_R_ELECTROLYTE_OHM_M2);
OFFSET(cell, config, PJ_AT_CELL_CONFIG);
OFFSET(cell, anode, PJ_AT_CELL_ANODE);
OFFSET(cell, cathode, PJ_AT_CELL_CATHODE);
OFFSET(cell, time_s, PJ_AT_CELL_TIME_S);
OFFSET(cell_step, report, PJ_AT_CELL_REPORT);
OFFSET(cell_run, ending, PJ_AT_CELL_ENDING);
OFFSET(report, voltage, PJ_AT_REPORT_VOLTAGE);
OFFSET(report, current, PJ_AT_REPORT_CURRENT);
OFFSET(report, theta_neg, PJ_AT_REPORT_THETA_NEG);
OFFSET(report, theta_pos, PJ_AT_REPORT_THETA_POS);
OFFSET(report, theta_neg_avg, PJ_AT_REPORT_THETA_NEG_AVG);
OFFSET(report, theta_pos_avg, PJ_AT_REPORT_THETA_POS_AVG);
OFFSET(report, time_s, PJ_AT_REPORT_TIME_S);
OFFSET(report, cutoff, PJ_AT_REPORT_CUTOFF);
OFFSET(report, sub_steps, PJ_AT_REPORT_SUB_STEPS);
OFFSET(electrolyte_params, d_e_ref, PJ_AT_ELECTROLYTE_PARAMS_D_E_REF);
OFFSET(electrolyte_params, kappa_ref, PJ_AT_ELECTROLYTE_PARAMS_KAPPA_REF);
OFFSET(electrolyte_params, t_plus, PJ_AT_ELECTROLYTE_PARAMS_T_PLUS);
OFFSET(electrolyte_params, bruggeman, PJ_AT_ELECTROLYTE_PARAMS_BRUGGEMAN);
OFFSET(electrolyte_params, c_e_init, PJ_AT_ELECTROLYTE_PARAMS_C_E_INIT);
OFFSET(electrolyte_params, e_a_de, PJ_AT_ELECTROLYTE_PARAMS_E_A_DE);
OFFSET(electrolyte_params, e_a_kappa, PJ_AT_ELECTROLYTE_PARAMS_E_A_KAPPA);
OFFSET(electrolyte_params, t_ref, PJ_AT_ELECTROLYTE_PARAMS_T_REF);
OFFSET(regions, params, PJ_AT_REGIONS_PARAMS);
OFFSET(regions, l_neg, PJ_AT_REGIONS_L_NEG);
OFFSET(regions, l_sep, PJ_AT_REGIONS_L_SEP);
OFFSET(regions, l_pos, PJ_AT_REGIONS_L_POS);
OFFSET(regions, eps_neg, PJ_AT_REGIONS_EPS_NEG);
OFFSET(regions, eps_sep, PJ_AT_REGIONS_EPS_SEP);
OFFSET(regions, eps_pos, PJ_AT_REGIONS_EPS_POS);
OFFSET(regions, n_neg, PJ_AT_REGIONS_N_NEG);
OFFSET(regions, n_sep, PJ_AT_REGIONS_N_SEP);
OFFSET(regions, n_pos, PJ_AT_REGIONS_N_POS);
OFFSET(electrolyte, regions, PJ_AT_ELECTROLYTE_REGIONS);
OFFSET(electrolyte, c_e, PJ_AT_ELECTROLYTE_C_E);
OFFSET(dfn_params, l_neg, PJ_AT_DFN_PARAMS_L_NEG);
OFFSET(dfn_params, l_sep, PJ_AT_DFN_PARAMS_L_SEP);
OFFSET(dfn_params, l_pos, PJ_AT_DFN_PARAMS_L_POS);
OFFSET(dfn_params, area, PJ_AT_DFN_PARAMS_AREA);
OFFSET(dfn_params, r_neg, PJ_AT_DFN_PARAMS_R_NEG);
OFFSET(dfn_params, d_s_neg_ref, PJ_AT_DFN_PARAMS_D_S_NEG_REF);
OFFSET(dfn_params, c_s_neg_max, PJ_AT_DFN_PARAMS_C_S_NEG_MAX);
OFFSET(dfn_params, eps_neg, PJ_AT_DFN_PARAMS_EPS_NEG);
OFFSET(dfn_params, theta_neg_0, PJ_AT_DFN_PARAMS_THETA_NEG_0);
OFFSET(dfn_params, k_neg, PJ_AT_DFN_PARAMS_K_NEG);
OFFSET(dfn_params, r_pos, PJ_AT_DFN_PARAMS_R_POS);
OFFSET(dfn_params, d_s_pos_ref, PJ_AT_DFN_PARAMS_D_S_POS_REF);
OFFSET(dfn_params, c_s_pos_max, PJ_AT_DFN_PARAMS_C_S_POS_MAX);
OFFSET(dfn_params, eps_pos, PJ_AT_DFN_PARAMS_EPS_POS);
OFFSET(dfn_params, theta_pos_0, PJ_AT_DFN_PARAMS_THETA_POS_0);
OFFSET(dfn_params, k_pos, PJ_AT_DFN_PARAMS_K_POS);
OFFSET(dfn_params, c_e0, PJ_AT_DFN_PARAMS_C_E0);
OFFSET(dfn_params, d_e0, PJ_AT_DFN_PARAMS_D_E0);
OFFSET(dfn_params, gamma_e, PJ_AT_DFN_PARAMS_GAMMA_E);
OFFSET(dfn_params, t_plus, PJ_AT_DFN_PARAMS_T_PLUS);
OFFSET(dfn_params, kappa0, PJ_AT_DFN_PARAMS_KAPPA0);
OFFSET(dfn_params, eps_e_elec, PJ_AT_DFN_PARAMS_EPS_E_ELEC);
OFFSET(dfn_params, eps_e_sep, PJ_AT_DFN_PARAMS_EPS_E_SEP);
OFFSET(dfn_params, brugg, PJ_AT_DFN_PARAMS_BRUGG);
OFFSET(dfn_params, temperature_k, PJ_AT_DFN_PARAMS_TEMPERATURE_K);
OFFSET(dfn_params, ocv_neg_count, PJ_AT_DFN_PARAMS_OCV_NEG_COUNT);
OFFSET(dfn_params, ocv_neg_coeffs, PJ_AT_DFN_PARAMS_OCV_NEG_COEFFS);
OFFSET(dfn_params, ocv_pos_count, PJ_AT_DFN_PARAMS_OCV_POS_COUNT);
OFFSET(dfn_params, ocv_pos_coeffs, PJ_AT_DFN_PARAMS_OCV_POS_COEFFS);
OFFSET(dfn_config, n_x_neg, PJ_AT_DFN_CONFIG_N_X_NEG);
OFFSET(dfn_config, n_x_pos, PJ_AT_DFN_CONFIG_N_X_POS);
OFFSET(dfn_config, n_r, PJ_AT_DFN_CONFIG_N_R);
OFFSET(dfn_config, v_min, PJ_AT_DFN_CONFIG_V_MIN);
OFFSET(dfn_config, v_max, PJ_AT_DFN_CONFIG_V_MAX);
OFFSET(dfn_cell, params, PJ_AT_DFN_CELL_PARAMS);
OFFSET(dfn_cell, config, PJ_AT_DFN_CELL_CONFIG);
OFFSET(dfn_cell, c_s_neg, PJ_AT_DFN_CELL_C_S_NEG);
OFFSET(dfn_cell, c_s_pos, PJ_AT_DFN_CELL_C_S_POS);
OFFSET(dfn_cell, c_e, PJ_AT_DFN_CELL_C_E);
OFFSET(dfn_cell, time_s, PJ_AT_DFN_CELL_TIME_S);
OFFSET(dfn_cell, voltage, PJ_AT_DFN_CELL_VOLTAGE);
OFFSET(dfn_cell, current, PJ_AT_DFN_CELL_CURRENT);
OFFSET(dfn_cell, theta_neg_surf, PJ_AT_DFN_CELL_THETA_NEG_SURF);
OFFSET(dfn_cell, theta_pos_surf, PJ_AT_DFN_CELL_THETA_POS_SURF);
OFFSET(dfn_step, report, PJ_AT_DFN_CELL_REPORT);
OFFSET(dfn_run, ending, PJ_AT_DFN_CELL_ENDING);
OFFSET(dfn_report, voltage, PJ_AT_DFN_REPORT_VOLTAGE);
OFFSET(dfn_report, current, PJ_AT_DFN_REPORT_CURRENT);
OFFSET(dfn_report, time_s, PJ_AT_DFN_REPORT_TIME_S);
OFFSET(dfn_report, theta_neg, PJ_AT_DFN_REPORT_THETA_NEG);
OFFSET(dfn_report, theta_pos, PJ_AT_DFN_REPORT_THETA_POS);
OFFSET(dfn_report, delta_c_e_max, PJ_AT_DFN_REPORT_DELTA_C_E_MAX);
OFFSET(dfn_report, cutoff, PJ_AT_DFN_REPORT_CUTOFF);
OFFSET(dfn_report, newton_iter, PJ_AT_DFN_REPORT_NEWTON_ITER);
OFFSET(ending, how, PJ_AT_ENDING_HOW);
OFFSET(ending, rows, PJ_AT_ENDING_ROWS);
OFFSET(found, how, PJ_AT_FOUND_HOW);
OFFSET(found, row, PJ_AT_FOUND_ROW);
OFFSET(phase, kind, PJ_AT_PHASE_KIND);
OFFSET(phase, number, PJ_AT_PHASE_NUMBER);
OFFSET(new_particle, sheet, PJ_AT_NEW_PARTICLE_SHEET);
OFFSET(new_particle, n_nodes, PJ_AT_NEW_PARTICLE_N_NODES);
OFFSET(new_cell, config, PJ_AT_NEW_CELL_CONFIG);
OFFSET(new_cell, anode, PJ_AT_NEW_CELL_ANODE);
OFFSET(new_cell, cathode, PJ_AT_NEW_CELL_CATHODE);
OFFSET(new_dfn, params, PJ_AT_NEW_DFN_PARAMS);
OFFSET(new_dfn, config, PJ_AT_NEW_DFN_CONFIG);

/* ---- what is expected at run time ---- */
static int failures, checks;

static void expect(int line, int holds, const char *claim)
{
    checks++;
    if (!holds) {
        failures++;
        fprintf(stderr, "calls.c:%d: %s\n", line, claim);
    }
}

#define EXPECT(claim) expect(__LINE__, (claim), #claim)
#define EXPECT_F64(image, at, number) EXPECT(pj_get_f64(image, at) == (number))
#define EXPECT_U64(image, at, whole) EXPECT(pj_get_u64(image, at) == (whole))

static const double T = 298.15;
static const uint8_t empty[1] = {0};

static uint8_t graphite[PJ_SHEET_BYTES], lfp[PJ_SHEET_BYTES], nmc[PJ_SHEET_BYTES], electrolyte_params[PJ_ELECTROLYTE_PARAMS_BYTES];
static uint8_t new_particle[PJ_NEW_PARTICLE_BYTES], particle[PJ_PARTICLE_BYTES], config[PJ_CONFIG_BYTES];
static uint8_t new_cell[PJ_NEW_CELL_BYTES], cell_lfp[PJ_CELL_BYTES], cell_nmc[PJ_CELL_BYTES], cell_of[PJ_CELL_BYTES];
static uint8_t regions[PJ_REGIONS_BYTES], electrolyte[PJ_ELECTROLYTE_BYTES];
static uint8_t params_nmc[PJ_DFN_PARAMS_BYTES], params_lfp[PJ_DFN_PARAMS_BYTES];
static uint8_t new_dfn[PJ_NEW_DFN_BYTES], dfn[PJ_DFN_CELL_BYTES];

/* A number of a record; a refusal is a failure. */
static double number(int line, pj_number_call_t call, const uint8_t *image, size_t bytes, double x, double y)
{
    uint8_t answer[PJ_NUMBER_BYTES] = {0};
    expect(line, pj_number(call, image, bytes, x, y, answer, sizeof answer) == PJ_REFUSAL_NONE, "pj_number is not refused");
    return pj_get_f64(answer, 0);
}

#define NUMBER(call, image, bytes, x, y) number(__LINE__, call, image, bytes, x, y)

static uint64_t build(pj_build_call_t call, const uint8_t *image, size_t bytes, uint8_t *answer, size_t answer_bytes)
{
    return pj_build(call, image, bytes, answer, answer_bytes);
}

static int near(double x, double y)
{
    double gap = x < y ? y - x : x - y;
    return gap <= 1e-9 * (y < 0 ? -y : y);
}

/* The binary64 with this pattern. */
static double of_bits(uint64_t word)
{
    double number;
    memcpy(&number, &word, sizeof number);
    return number;
}

static void ready_sheets(void)
{
    static const double numbers_lfp[10] = {2.5e-6, 1e-14, 22806.0, 0.20, 80e-6, 0.50, 0.0626, 20000.0, 2e-11, 298.15};
    static const double numbers_nmc[10] = {5e-6, 1.5e-14, 49000.0, 0.15, 90e-6, 0.55, 0.0626, 25000.0, 2e-11, 298.15};
    size_t i;
    EXPECT(build(PJ_BUILD_GRAPHITE_ANODE, empty, 0, graphite, sizeof graphite) == PJ_REFUSAL_NONE);
    EXPECT(build(PJ_BUILD_LFP_CATHODE, empty, 0, lfp, sizeof lfp) == PJ_REFUSAL_NONE);
    EXPECT(build(PJ_BUILD_NMC_CATHODE, empty, 0, nmc, sizeof nmc) == PJ_REFUSAL_NONE);
    EXPECT_U64(graphite, PJ_AT_SHEET_CHEMISTRY, PJ_CHEMISTRY_GRAPHITE);
    EXPECT_U64(lfp, PJ_AT_SHEET_CHEMISTRY, PJ_CHEMISTRY_LFP);
    EXPECT_U64(nmc, PJ_AT_SHEET_CHEMISTRY, PJ_CHEMISTRY_NMC);
    EXPECT_F64(graphite, PJ_AT_SHEET_R_PARTICLE, 12.5e-6);
    EXPECT_F64(graphite, PJ_AT_SHEET_D_S_REF, 3.9e-14);
    EXPECT_F64(graphite, PJ_AT_SHEET_C_S_MAX, 31833.0);
    EXPECT_F64(graphite, PJ_AT_SHEET_THETA_INIT, 0.80);
    EXPECT_F64(graphite, PJ_AT_SHEET_THICKNESS, 100e-6);
    EXPECT_F64(graphite, PJ_AT_SHEET_EPSILON_S, 0.60);
    EXPECT_F64(graphite, PJ_AT_SHEET_AREA, 0.0626);
    EXPECT_F64(graphite, PJ_AT_SHEET_E_A_DS, 35000.0);
    EXPECT_F64(graphite, PJ_AT_SHEET_K_BV, 2e-11);
    EXPECT_F64(graphite, PJ_AT_SHEET_T_REF, 298.15);
    for (i = 0; i < 10; i++) {
        EXPECT_F64(lfp, PJ_AT_SHEET_R_PARTICLE + 8 * i, numbers_lfp[i]);
        EXPECT_F64(nmc, PJ_AT_SHEET_R_PARTICLE + 8 * i, numbers_nmc[i]);
    }
}

static void ready_electrolyte_params(void)
{
    EXPECT(build(PJ_BUILD_LIPF6_EC_DMC, empty, 0, electrolyte_params, sizeof electrolyte_params) == PJ_REFUSAL_NONE);
    EXPECT_F64(electrolyte_params, PJ_AT_ELECTROLYTE_PARAMS_D_E_REF, 7.5e-11);
    EXPECT_F64(electrolyte_params, PJ_AT_ELECTROLYTE_PARAMS_KAPPA_REF, 1.1);
    EXPECT_F64(electrolyte_params, PJ_AT_ELECTROLYTE_PARAMS_T_PLUS, 0.364);
    EXPECT_F64(electrolyte_params, PJ_AT_ELECTROLYTE_PARAMS_BRUGGEMAN, 1.5);
    EXPECT_F64(electrolyte_params, PJ_AT_ELECTROLYTE_PARAMS_C_E_INIT, 1000.0);
    EXPECT_F64(electrolyte_params, PJ_AT_ELECTROLYTE_PARAMS_E_A_DE, 17000.0);
    EXPECT_F64(electrolyte_params, PJ_AT_ELECTROLYTE_PARAMS_E_A_KAPPA, 12000.0);
    EXPECT_F64(electrolyte_params, PJ_AT_ELECTROLYTE_PARAMS_T_REF, 298.15);
}

static void ready_dfn_params(void)
{
    EXPECT(build(PJ_BUILD_NMC_GRAPHITE, empty, 0, params_nmc, sizeof params_nmc) == PJ_REFUSAL_NONE);
    EXPECT(build(PJ_BUILD_LFP_GRAPHITE, empty, 0, params_lfp, sizeof params_lfp) == PJ_REFUSAL_NONE);
    EXPECT_F64(params_nmc, PJ_AT_DFN_PARAMS_L_NEG, 88e-6);
    EXPECT_F64(params_nmc, PJ_AT_DFN_PARAMS_L_SEP, 25e-6);
    EXPECT_F64(params_nmc, PJ_AT_DFN_PARAMS_L_POS, 80e-6);
    EXPECT_F64(params_nmc, PJ_AT_DFN_PARAMS_AREA, 1.0);
    EXPECT_F64(params_nmc, PJ_AT_DFN_PARAMS_R_NEG, 12.5e-6);
    EXPECT_F64(params_nmc, PJ_AT_DFN_PARAMS_D_S_NEG_REF, 3.9e-14);
    EXPECT_F64(params_nmc, PJ_AT_DFN_PARAMS_C_S_NEG_MAX, 31833.0);
    EXPECT_F64(params_nmc, PJ_AT_DFN_PARAMS_EPS_NEG, 0.3);
    EXPECT_F64(params_nmc, PJ_AT_DFN_PARAMS_THETA_NEG_0, 0.8);
    EXPECT_F64(params_nmc, PJ_AT_DFN_PARAMS_K_NEG, 1e-5);
    EXPECT_F64(params_nmc, PJ_AT_DFN_PARAMS_R_POS, 8.5e-6);
    EXPECT_F64(params_nmc, PJ_AT_DFN_PARAMS_D_S_POS_REF, 1e-14);
    EXPECT_F64(params_nmc, PJ_AT_DFN_PARAMS_C_S_POS_MAX, 51218.0);
    EXPECT_F64(params_nmc, PJ_AT_DFN_PARAMS_EPS_POS, 0.3);
    EXPECT_F64(params_nmc, PJ_AT_DFN_PARAMS_THETA_POS_0, 0.5);
    EXPECT_F64(params_nmc, PJ_AT_DFN_PARAMS_K_POS, 3e-6);
    EXPECT_F64(params_nmc, PJ_AT_DFN_PARAMS_C_E0, 1200.0);
    EXPECT_F64(params_nmc, PJ_AT_DFN_PARAMS_D_E0, 2.6e-10);
    EXPECT_F64(params_nmc, PJ_AT_DFN_PARAMS_GAMMA_E, 0.5);
    EXPECT_F64(params_nmc, PJ_AT_DFN_PARAMS_T_PLUS, 0.38);
    EXPECT_F64(params_nmc, PJ_AT_DFN_PARAMS_KAPPA0, 1.0);
    EXPECT_F64(params_nmc, PJ_AT_DFN_PARAMS_EPS_E_ELEC, 0.3);
    EXPECT_F64(params_nmc, PJ_AT_DFN_PARAMS_EPS_E_SEP, 0.4);
    EXPECT_F64(params_nmc, PJ_AT_DFN_PARAMS_BRUGG, 1.5);
    EXPECT_F64(params_nmc, PJ_AT_DFN_PARAMS_TEMPERATURE_K, 298.15);
    EXPECT_U64(params_nmc, PJ_AT_DFN_PARAMS_OCV_NEG_COUNT, 2);
    EXPECT_F64(params_nmc, PJ_AT_DFN_PARAMS_OCV_NEG_COEFFS, -1.5);
    EXPECT_F64(params_nmc, PJ_AT_DFN_PARAMS_OCV_NEG_COEFFS + 8, 1.2);
    EXPECT_U64(params_nmc, PJ_AT_DFN_PARAMS_OCV_POS_COUNT, 2);
    EXPECT_F64(params_nmc, PJ_AT_DFN_PARAMS_OCV_POS_COEFFS, -2.0);
    EXPECT_F64(params_nmc, PJ_AT_DFN_PARAMS_OCV_POS_COEFFS + 8, 4.5);
    EXPECT_F64(params_lfp, PJ_AT_DFN_PARAMS_D_S_NEG_REF, 2e-14);
    EXPECT_F64(params_lfp, PJ_AT_DFN_PARAMS_D_S_POS_REF, 5.9e-18);
    EXPECT_F64(params_lfp, PJ_AT_DFN_PARAMS_C_S_POS_MAX, 26390.0);
    EXPECT_F64(params_lfp, PJ_AT_DFN_PARAMS_K_POS, 1e-6);
    EXPECT_F64(params_lfp, PJ_AT_DFN_PARAMS_OCV_POS_COEFFS, -0.1);
    EXPECT_F64(params_lfp, PJ_AT_DFN_PARAMS_OCV_POS_COEFFS + 8, 3.45);
}

static void new_particles(void)
{
    memcpy(new_particle + PJ_AT_NEW_PARTICLE_SHEET, graphite, sizeof graphite);
    pj_put_u64(new_particle, PJ_AT_NEW_PARTICLE_N_NODES, 5);
    EXPECT(build(PJ_BUILD_PARTICLE, new_particle, sizeof new_particle, particle, sizeof particle) == PJ_REFUSAL_NONE);
    EXPECT(memcmp(particle + PJ_AT_PARTICLE_SHEET, graphite, sizeof graphite) == 0);
    EXPECT_U64(particle, PJ_AT_PARTICLE_N_NODES, 5);
    EXPECT_F64(particle, PJ_AT_PARTICLE_C_S + 8 * 4, 0.80 * 31833.0);
    EXPECT_U64(particle, PJ_AT_PARTICLE_C_S + 8 * 5, 0);
}

static void new_cells(void)
{
    pj_put_u64(config, PJ_AT_CONFIG_N_NODES, 11);
    pj_put_f64(config, PJ_AT_CONFIG_V_MIN, 3.0);
    pj_put_f64(config, PJ_AT_CONFIG_V_MAX, 4.2);
    pj_put_f64(config, PJ_AT_CONFIG_FARADAY, 96485.0);
    pj_put_f64(config, PJ_AT_CONFIG_R_GAS, 8.314);
    pj_put_f64(config, PJ_AT_CONFIG_R_ELECTROLYTE_OHM_M2, 2e-4);
    EXPECT(build(PJ_BUILD_CELL_LFP, config, sizeof config, cell_lfp, sizeof cell_lfp) == PJ_REFUSAL_NONE);
    EXPECT(build(PJ_BUILD_CELL_NMC, config, sizeof config, cell_nmc, sizeof cell_nmc) == PJ_REFUSAL_NONE);
    EXPECT(memcmp(cell_nmc + PJ_AT_CELL_CONFIG, config, sizeof config) == 0);
    EXPECT(memcmp(cell_nmc + PJ_AT_CELL_ANODE, graphite, sizeof graphite) == 0);
    EXPECT(memcmp(cell_nmc + PJ_AT_CELL_CATHODE, nmc, sizeof nmc) == 0);
    EXPECT_F64(cell_nmc, PJ_AT_CELL_TIME_S, 0.0);
    memcpy(new_cell + PJ_AT_NEW_CELL_CONFIG, config, sizeof config);
    memcpy(new_cell + PJ_AT_NEW_CELL_ANODE, graphite, sizeof graphite);
    memcpy(new_cell + PJ_AT_NEW_CELL_CATHODE, lfp, sizeof lfp);
    EXPECT(build(PJ_BUILD_CELL, new_cell, sizeof new_cell, cell_of, sizeof cell_of) == PJ_REFUSAL_NONE);
    EXPECT(memcmp(cell_of, cell_lfp, sizeof cell_of) == 0);
}

static void new_electrolytes(void)
{
    memcpy(regions + PJ_AT_REGIONS_PARAMS, electrolyte_params, sizeof electrolyte_params);
    pj_put_f64(regions, PJ_AT_REGIONS_L_NEG, 1e-4);
    pj_put_f64(regions, PJ_AT_REGIONS_L_SEP, 2.5e-5);
    pj_put_f64(regions, PJ_AT_REGIONS_L_POS, 8e-5);
    pj_put_f64(regions, PJ_AT_REGIONS_EPS_NEG, 0.3);
    pj_put_f64(regions, PJ_AT_REGIONS_EPS_SEP, 0.4);
    pj_put_f64(regions, PJ_AT_REGIONS_EPS_POS, 0.35);
    pj_put_u64(regions, PJ_AT_REGIONS_N_NEG, 1);
    pj_put_u64(regions, PJ_AT_REGIONS_N_SEP, 1);
    pj_put_u64(regions, PJ_AT_REGIONS_N_POS, 1);
    EXPECT(build(PJ_BUILD_ELECTROLYTE, regions, sizeof regions, electrolyte, sizeof electrolyte) == PJ_REFUSAL_NONE);
    EXPECT(memcmp(electrolyte + PJ_AT_ELECTROLYTE_REGIONS, regions, sizeof regions) == 0);
    EXPECT_F64(electrolyte, PJ_AT_ELECTROLYTE_C_E + 8 * 2, 1000.0);
    EXPECT_U64(electrolyte, PJ_AT_ELECTROLYTE_C_E + 8 * 3, 0);
}

static void new_dfn_cells(void)
{
    memcpy(new_dfn + PJ_AT_NEW_DFN_PARAMS, params_nmc, sizeof params_nmc);
    pj_put_u64(new_dfn, PJ_AT_NEW_DFN_CONFIG + PJ_AT_DFN_CONFIG_N_X_NEG, 3);
    pj_put_u64(new_dfn, PJ_AT_NEW_DFN_CONFIG + PJ_AT_DFN_CONFIG_N_X_POS, 1);
    pj_put_u64(new_dfn, PJ_AT_NEW_DFN_CONFIG + PJ_AT_DFN_CONFIG_N_R, 6);
    pj_put_f64(new_dfn, PJ_AT_NEW_DFN_CONFIG + PJ_AT_DFN_CONFIG_V_MIN, 2.5);
    pj_put_f64(new_dfn, PJ_AT_NEW_DFN_CONFIG + PJ_AT_DFN_CONFIG_V_MAX, 4.3);
    EXPECT(build(PJ_BUILD_DFN, new_dfn, sizeof new_dfn, dfn, sizeof dfn) == PJ_REFUSAL_NONE);
    EXPECT(memcmp(dfn + PJ_AT_DFN_CELL_PARAMS, new_dfn, PJ_AT_DFN_CELL_C_S_NEG) == 0);
    EXPECT_F64(dfn, PJ_AT_DFN_CELL_C_S_NEG + 8 * 17, 0.8 * 31833.0);
    EXPECT_U64(dfn, PJ_AT_DFN_CELL_C_S_NEG + 8 * 18, 0);
    EXPECT_F64(dfn, PJ_AT_DFN_CELL_C_S_POS + 8 * 5, 0.5 * 51218.0);
    EXPECT_U64(dfn, PJ_AT_DFN_CELL_C_S_POS + 8 * 6, 0);
    EXPECT_F64(dfn, PJ_AT_DFN_CELL_C_E + 8 * 4, 1200.0);
    EXPECT_U64(dfn, PJ_AT_DFN_CELL_C_E + 8 * 5, 0);
    EXPECT_F64(dfn, PJ_AT_DFN_CELL_TIME_S, 0.0);
    EXPECT_F64(dfn, PJ_AT_DFN_CELL_VOLTAGE, 3.8);
    EXPECT_F64(dfn, PJ_AT_DFN_CELL_CURRENT, 0.0);
    EXPECT_F64(dfn, PJ_AT_DFN_CELL_THETA_NEG_SURF, 0.8);
    EXPECT_F64(dfn, PJ_AT_DFN_CELL_THETA_POS_SURF, 0.5);
}

static void numbers(void)
{
    const double u_graphite = NUMBER(PJ_NUMBER_OCP, graphite, sizeof graphite, 0.80, 0), u_nmc = NUMBER(PJ_NUMBER_OCP, nmc, sizeof nmc, 0.15, 0);
    EXPECT(NUMBER(PJ_NUMBER_D_S, graphite, sizeof graphite, T, 0) == 3.9e-14);
    EXPECT(near(NUMBER(PJ_NUMBER_SPECIFIC_AREA, graphite, sizeof graphite, 0, 0), 144000.0));
    EXPECT(near(u_nmc, 4.2 - 1.5 * 0.15 + 1.2 * 0.0225 - 0.6 * 0.003375 + 0.08));
    EXPECT(NUMBER(PJ_NUMBER_DOCP_DTHETA, nmc, sizeof nmc, 0.5, 0) < -0.5);
    EXPECT(near(NUMBER(PJ_NUMBER_SPHERE_VOLUME, empty, 0, 1e-5, 0), 4.18879020478639e-15));
    EXPECT(near(NUMBER(PJ_NUMBER_DT_STABLE, particle, sizeof particle, T, 0), 0.5 * 3.125e-6 * 3.125e-6 / 3.9e-14));
    EXPECT(near(NUMBER(PJ_NUMBER_THETA_SURFACE, particle, sizeof particle, 0, 0), 0.80));
    EXPECT(near(NUMBER(PJ_NUMBER_THETA_AVG, particle, sizeof particle, 0, 0), 0.80));
    EXPECT(near(NUMBER(PJ_NUMBER_C_AVG, particle, sizeof particle, 0, 0), 0.80 * 31833.0));
    EXPECT(near(NUMBER(PJ_NUMBER_OCP_SURFACE, particle, sizeof particle, 0, 0), u_graphite));
    EXPECT(near(NUMBER(PJ_NUMBER_OCV, cell_nmc, sizeof cell_nmc, 0, 0), u_nmc - u_graphite));
    EXPECT(near(NUMBER(PJ_NUMBER_SOC_ESTIMATE, cell_nmc, sizeof cell_nmc, 0, 0), 1.0));
    EXPECT(NUMBER(PJ_NUMBER_D_E, electrolyte_params, sizeof electrolyte_params, 0, T) == 7.5e-11);
    EXPECT(NUMBER(PJ_NUMBER_KAPPA, electrolyte_params, sizeof electrolyte_params, 0, T) == 1.1);
    EXPECT(near(NUMBER(PJ_NUMBER_D_E_EFF, electrolyte_params, sizeof electrolyte_params, 0.25, T), 7.5e-11 * 0.125));
    EXPECT(near(NUMBER(PJ_NUMBER_KAPPA_EFF, electrolyte_params, sizeof electrolyte_params, 0.25, T), 1.1 * 0.125));
    EXPECT(NUMBER(PJ_NUMBER_N_TOTAL, electrolyte, sizeof electrolyte, 0, 0) == 3.0);
    EXPECT(NUMBER(PJ_NUMBER_ELECTROLYTE_AVG, electrolyte, sizeof electrolyte, 0, 0) == 1000.0);
    EXPECT(NUMBER(PJ_NUMBER_ELECTROLYTE_DT_STABLE, electrolyte, sizeof electrolyte, T, 0) > 0.0);
}

/* An image of layout version 1, which had no t_ref, is not taken for one of this version, even where its length is that of another record. */
static void earlier_layout(void)
{
    enum { SHEET = PJ_AT_SHEET_T_REF, PROFILE = PJ_PARTICLE_BYTES - PJ_SHEET_BYTES, PARTICLE = SHEET + PROFILE };
    static uint8_t with_nodes[SHEET + 8], run[PJ_CONFIG_BYTES + 2 * PARTICLE + 8 + PJ_ENDING_BYTES], answer[PJ_CELL_STEP_BYTES];
    uint8_t *anode = run + PJ_CONFIG_BYTES, *cathode = anode + PARTICLE;
    memcpy(with_nodes, graphite, SHEET);
    pj_put_u64(with_nodes, SHEET, 11);
    EXPECT(pj_number(PJ_NUMBER_D_S, with_nodes, SHEET, T, 0, answer, PJ_NUMBER_BYTES) == PJ_REFUSAL_LENGTH);
    EXPECT(sizeof with_nodes == PJ_SHEET_BYTES && sizeof run == PJ_CELL_BYTES);
    EXPECT(pj_number(PJ_NUMBER_D_S, with_nodes, sizeof with_nodes, T, 0, answer, PJ_NUMBER_BYTES) == PJ_REFUSAL_SHEET);
    memcpy(run, cell_nmc, PJ_CONFIG_BYTES);
    memcpy(anode, cell_nmc + PJ_AT_CELL_ANODE, SHEET);
    memcpy(anode + SHEET, cell_nmc + PJ_AT_CELL_ANODE + PJ_SHEET_BYTES, PROFILE);
    memcpy(cathode, cell_nmc + PJ_AT_CELL_CATHODE, SHEET);
    memcpy(cathode + SHEET, cell_nmc + PJ_AT_CELL_CATHODE + PJ_SHEET_BYTES, PROFILE);
    EXPECT(pj_cell_step(run, sizeof run - PJ_ENDING_BYTES, 3.0, 1.0, T, answer, sizeof answer) == PJ_REFUSAL_LENGTH);
    EXPECT(pj_cell_step(run, sizeof run, 3.0, 1.0, T, answer, sizeof answer) == PJ_REFUSAL_GRID);
    pj_put_u64(anode, PJ_AT_PARTICLE_N_NODES, 11);
    pj_put_u64(run, PJ_AT_CELL_CATHODE + PJ_AT_PARTICLE_N_NODES, 11);
    EXPECT(pj_cell_step(run, sizeof run, 3.0, 1.0, T, answer, sizeof answer) == PJ_REFUSAL_SHEET);
}

/* At t_ref a rate is its reference value; each electrode of a cell has its own. */
static void reference_temperatures(void)
{
    static uint8_t sheet[PJ_SHEET_BYTES], salt[PJ_ELECTROLYTE_PARAMS_BYTES], given[PJ_NEW_CELL_BYTES], step[PJ_CELL_STEP_BYTES];
    memcpy(sheet, graphite, sizeof sheet);
    memcpy(salt, electrolyte_params, sizeof salt);
    pj_put_f64(sheet, PJ_AT_SHEET_T_REF, 293.15);
    pj_put_f64(salt, PJ_AT_ELECTROLYTE_PARAMS_T_REF, 293.15);
    EXPECT(NUMBER(PJ_NUMBER_D_S, sheet, sizeof sheet, 293.15, 0) == 3.9e-14 && NUMBER(PJ_NUMBER_D_S, sheet, sizeof sheet, T, 0) > 3.9e-14);
    EXPECT(NUMBER(PJ_NUMBER_D_E, salt, sizeof salt, 0, 293.15) == 7.5e-11 && NUMBER(PJ_NUMBER_D_E, salt, sizeof salt, 0, T) > 7.5e-11);
    EXPECT(NUMBER(PJ_NUMBER_KAPPA, salt, sizeof salt, 0, 293.15) == 1.1 && NUMBER(PJ_NUMBER_KAPPA, salt, sizeof salt, 0, T) > 1.1);

    memcpy(given, new_cell, sizeof given);
    pj_put_f64(given, PJ_AT_NEW_CELL_ANODE + PJ_AT_SHEET_D_S_REF, 1e-8);
    pj_put_f64(given, PJ_AT_NEW_CELL_CATHODE + PJ_AT_SHEET_T_REF, 350.0);
    EXPECT(build(PJ_BUILD_CELL, given, sizeof given, cell_of, sizeof cell_of) == PJ_REFUSAL_NONE);
    EXPECT(pj_cell_step(cell_of, sizeof cell_of, 3.0, 0.01, 350.0, step, sizeof step) == PJ_REFUSAL_DIFFUSIVITY);
    pj_put_f64(given, PJ_AT_NEW_CELL_ANODE + PJ_AT_SHEET_T_REF, 350.0);
    EXPECT(build(PJ_BUILD_CELL, given, sizeof given, cell_of, sizeof cell_of) == PJ_REFUSAL_NONE);
    EXPECT(pj_cell_step(cell_of, sizeof cell_of, 3.0, 0.01, 350.0, step, sizeof step) == PJ_REFUSAL_NONE);
}

/* The signs that the header states. */
static void single_particle_steps(void)
{
    static uint8_t moved[PJ_PARTICLE_BYTES], step[PJ_CELL_STEP_BYTES];
    const uint8_t *report = step + PJ_AT_CELL_REPORT;
    EXPECT(pj_particle_step(particle, sizeof particle, 1e-6, 1.0, T, moved, sizeof moved) == PJ_REFUSAL_NONE);
    EXPECT(pj_get_f64(moved, PJ_AT_PARTICLE_C_S + 8 * 4) > pj_get_f64(particle, PJ_AT_PARTICLE_C_S + 8 * 4));

    EXPECT(pj_cell_step(cell_nmc, sizeof cell_nmc, 3.0, 10.0, T, step, sizeof step) == PJ_REFUSAL_NONE);
    EXPECT(pj_get_f64(report, PJ_AT_REPORT_VOLTAGE) < NUMBER(PJ_NUMBER_OCV, cell_nmc, sizeof cell_nmc, 0, 0));
    EXPECT_F64(report, PJ_AT_REPORT_CURRENT, 3.0);
    EXPECT(pj_get_f64(report, PJ_AT_REPORT_THETA_NEG) < 0.80);
    EXPECT(pj_get_f64(report, PJ_AT_REPORT_THETA_POS) > 0.15);
    EXPECT_F64(report, PJ_AT_REPORT_THETA_NEG, NUMBER(PJ_NUMBER_THETA_SURFACE, step + PJ_AT_CELL_ANODE, PJ_PARTICLE_BYTES, 0, 0));
    EXPECT_F64(report, PJ_AT_REPORT_THETA_POS, NUMBER(PJ_NUMBER_THETA_SURFACE, step + PJ_AT_CELL_CATHODE, PJ_PARTICLE_BYTES, 0, 0));
    EXPECT_F64(report, PJ_AT_REPORT_THETA_NEG_AVG, NUMBER(PJ_NUMBER_THETA_AVG, step + PJ_AT_CELL_ANODE, PJ_PARTICLE_BYTES, 0, 0));
    EXPECT_F64(report, PJ_AT_REPORT_THETA_POS_AVG, NUMBER(PJ_NUMBER_THETA_AVG, step + PJ_AT_CELL_CATHODE, PJ_PARTICLE_BYTES, 0, 0));
    EXPECT_F64(report, PJ_AT_REPORT_TIME_S, 10.0);
    EXPECT_F64(step, PJ_AT_CELL_TIME_S, 10.0);
    EXPECT_U64(report, PJ_AT_REPORT_CUTOFF, 0);
    EXPECT(1 <= pj_get_u64(report, PJ_AT_REPORT_SUB_STEPS) && pj_get_u64(report, PJ_AT_REPORT_SUB_STEPS) <= 4096);
}

/* The voltage of the NMC cell with this resistance after a step at this current. */
static double voltage_at(double current_a, double resistance)
{
    static uint8_t given[PJ_CELL_BYTES], step[PJ_CELL_STEP_BYTES];
    memcpy(given, cell_nmc, sizeof given);
    pj_put_f64(given, PJ_AT_CELL_CONFIG + PJ_AT_CONFIG_R_ELECTROLYTE_OHM_M2, resistance);
    EXPECT(pj_cell_step(given, sizeof given, current_a, 10.0, T, step, sizeof step) == PJ_REFUSAL_NONE);
    return pj_get_f64(step + PJ_AT_CELL_REPORT, PJ_AT_REPORT_VOLTAGE);
}

/* The drop in the electrolyte lowers the voltage on discharge and raises it on charge. */
static void ohmic_drops(void)
{
    const double drop = 3.0 / 0.0626 * 1e-3;
    EXPECT(near(voltage_at(3.0, 0.0) - voltage_at(3.0, 1e-3), drop));
    EXPECT(near(voltage_at(-3.0, 1e-3) - voltage_at(-3.0, 0.0), drop));
    EXPECT(voltage_at(0.0, 1.0) == voltage_at(0.0, 0.0) && voltage_at(-0.0, 1.0) == voltage_at(0.0, 0.0));
}

/* The count of sub-steps of a step of this cell, 0 where it is refused with 7. */
static uint64_t sub_steps_in(const uint8_t *cell, double dt)
{
    static uint8_t step[PJ_CELL_STEP_BYTES];
    const uint64_t refusal = pj_cell_step(cell, PJ_CELL_BYTES, 3.0, dt, T, step, sizeof step);
    EXPECT(refusal == PJ_REFUSAL_NONE || refusal == PJ_REFUSAL_SUB_STEPS);
    return refusal == PJ_REFUSAL_NONE ? pj_get_u64(step + PJ_AT_CELL_REPORT, PJ_AT_REPORT_SUB_STEPS) : 0;
}

/* A sub-step is at most 0.30 h^2/(2 D), 0.9375 s of the LFP cell, and the longest intervals are those of the header. */
static void sub_steps(void)
{
    EXPECT(sub_steps_in(cell_lfp, 0.9) == 1 && sub_steps_in(cell_lfp, 1.0) == 2 && sub_steps_in(cell_lfp, 60.0) == 64);
    EXPECT(sub_steps_in(cell_lfp, 3840.0) == 4096 && sub_steps_in(cell_lfp, 3840.1) == 0);
    EXPECT(sub_steps_in(cell_nmc, 10240.0) == 4096 && sub_steps_in(cell_nmc, 10240.1) == 0);
}

static void dfn_steps(void)
{
    static uint8_t salted[PJ_ELECTROLYTE_BYTES], dfn_step[PJ_DFN_STEP_BYTES];
    const uint8_t *dfn_report = dfn_step + PJ_AT_DFN_CELL_REPORT;
    EXPECT(pj_electrolyte_step(electrolyte, sizeof electrolyte, 1.0, -1.0, 0.01, T, salted, sizeof salted) == PJ_REFUSAL_NONE);
    EXPECT(pj_get_f64(salted, PJ_AT_ELECTROLYTE_C_E) > 1000.0 && pj_get_f64(salted, PJ_AT_ELECTROLYTE_C_E + 16) < 1000.0);

    /* the anode of a DFN cell fills on discharge: a fault that is kept */
    EXPECT(pj_dfn_step(dfn, sizeof dfn, 20.0, 10.0, dfn_step, sizeof dfn_step) == PJ_REFUSAL_NONE);
    EXPECT(0.0 < pj_get_f64(dfn_report, PJ_AT_DFN_REPORT_VOLTAGE) && pj_get_f64(dfn_report, PJ_AT_DFN_REPORT_VOLTAGE) < 5.0);
    EXPECT_F64(dfn_step, PJ_AT_DFN_CELL_VOLTAGE, pj_get_f64(dfn_report, PJ_AT_DFN_REPORT_VOLTAGE));
    EXPECT_F64(dfn_report, PJ_AT_DFN_REPORT_CURRENT, 20.0);
    EXPECT_F64(dfn_step, PJ_AT_DFN_CELL_CURRENT, 20.0);
    EXPECT_F64(dfn_report, PJ_AT_DFN_REPORT_TIME_S, 10.0);
    EXPECT_F64(dfn_step, PJ_AT_DFN_CELL_TIME_S, 10.0);
    EXPECT(pj_get_f64(dfn_report, PJ_AT_DFN_REPORT_THETA_NEG) > 0.8);
    EXPECT(pj_get_f64(dfn_report, PJ_AT_DFN_REPORT_THETA_POS) < 0.5);
    EXPECT_F64(dfn_step, PJ_AT_DFN_CELL_THETA_NEG_SURF, pj_get_f64(dfn_report, PJ_AT_DFN_REPORT_THETA_NEG));
    EXPECT_F64(dfn_step, PJ_AT_DFN_CELL_THETA_POS_SURF, pj_get_f64(dfn_report, PJ_AT_DFN_REPORT_THETA_POS));
    EXPECT(pj_get_f64(dfn_report, PJ_AT_DFN_REPORT_DELTA_C_E_MAX) > 0.0);
    EXPECT_U64(dfn_report, PJ_AT_DFN_REPORT_CUTOFF, 0);
    EXPECT_U64(dfn_report, PJ_AT_DFN_REPORT_NEWTON_ITER, 1);
}

enum { ROWS = 200, GROUPS = PJ_GROUPS(ROWS) };

ASSERT(PJ_GROUPS(0) == 0 && PJ_GROUPS(1) == 1 && PJ_GROUPS(64) == 1 && PJ_GROUPS(65) == 2 && GROUPS == 4);

static double rows[PJ_ROW_DOUBLES * ROWS];
/* the summary, with a place before it and two behind it that are not lent */
static double lowest_around[GROUPS + 3], *const lowest = lowest_around + 1;
static uint8_t run[PJ_CELL_RUN_BYTES], dfn_run[PJ_DFN_RUN_BYTES];

/* A run of this cell at 5 A in steps of 10 s, from an ending of 0. */
static uint64_t discharge_of(const uint8_t *cell, double max_time_s, size_t rows_len, size_t lowest_len)
{
    pj_put_u64(run, PJ_AT_CELL_ENDING + PJ_AT_ENDING_HOW, 0);
    return pj_simulate_discharge(cell, PJ_CELL_BYTES, 5.0, 10.0, T, max_time_s, rows, rows_len, lowest, lowest_len, run, sizeof run);
}

static uint64_t discharge(double max_time_s, size_t rows_len)
{
    return discharge_of(cell_nmc, max_time_s, rows_len, GROUPS);
}

/* A run of this cell at this current in steps of 1 s. */
static uint64_t dfn_discharge(const uint8_t *cell, double current_a, double max_time_s, size_t rows_len, size_t lowest_len)
{
    return pj_run_galvanostatic(cell, PJ_DFN_CELL_BYTES, current_a, 1.0, max_time_s, rows, rows_len, lowest, lowest_len, dfn_run,
                                sizeof dfn_run);
}

#define EXPECT_ENDING(answer, at, how, count)         \
    EXPECT_U64(answer, (at) + PJ_AT_ENDING_HOW, how); \
    EXPECT_U64(answer, (at) + PJ_AT_ENDING_ROWS, count)

static void discharges(void)
{
    const double *last = rows + 155 * PJ_ROW_DOUBLES, *second = rows + PJ_ROW_DOUBLES;
    size_t i;
    EXPECT(discharge(36000.0, PJ_ROW_DOUBLES * ROWS) == PJ_REFUSAL_NONE);
    EXPECT_ENDING(run, PJ_AT_CELL_ENDING, PJ_ENDED_VOLTAGE, 156);
    EXPECT(last[PJ_CELL_ROW_VOLTAGE] < 3.0 && last[PJ_CELL_ROW_CURRENT] == 5.0 && last[PJ_CELL_ROW_TIME_S] == 1560.0 && last[PJ_CELL_ROW_CUTOFF] == 1.0);
    EXPECT(last[PJ_CELL_ROW_THETA_NEG] == NUMBER(PJ_NUMBER_THETA_SURFACE, run + PJ_AT_CELL_ANODE, PJ_PARTICLE_BYTES, 0, 0));
    EXPECT(last[PJ_CELL_ROW_THETA_POS] == NUMBER(PJ_NUMBER_THETA_SURFACE, run + PJ_AT_CELL_CATHODE, PJ_PARTICLE_BYTES, 0, 0));
    EXPECT(last[PJ_CELL_ROW_THETA_NEG_AVG] == NUMBER(PJ_NUMBER_THETA_AVG, run + PJ_AT_CELL_ANODE, PJ_PARTICLE_BYTES, 0, 0));
    EXPECT(last[PJ_CELL_ROW_THETA_POS_AVG] == NUMBER(PJ_NUMBER_THETA_AVG, run + PJ_AT_CELL_CATHODE, PJ_PARTICLE_BYTES, 0, 0));
    EXPECT(rows[PJ_CELL_ROW_CUTOFF] == 0.0);
    EXPECT(discharge(0.0, PJ_ROW_DOUBLES * ROWS) == PJ_REFUSAL_NONE);
    EXPECT_ENDING(run, PJ_AT_CELL_ENDING, PJ_ENDED_TIME, 0);

    /* of 15 doubles one row is used; what lies behind it stays */
    for (i = PJ_ROW_DOUBLES; i < 2 * PJ_ROW_DOUBLES; i++)
        rows[i] = -7.0;
    EXPECT(discharge(36000.0, 15) == PJ_REFUSAL_NONE);
    EXPECT_ENDING(run, PJ_AT_CELL_ENDING, PJ_ENDED_FULL, 1);
    EXPECT(second[0] == -7.0 && second[PJ_ROW_DOUBLES - 1] == -7.0);
    /* the run's clock is its own, the cell's goes on */
    memcpy(cell_of, run, sizeof cell_of);
    EXPECT(discharge_of(cell_of, 10.0, PJ_ROW_DOUBLES * ROWS, GROUPS) == PJ_REFUSAL_NONE);
    EXPECT_ENDING(run, PJ_AT_CELL_ENDING, PJ_ENDED_TIME, 1);
    EXPECT(rows[PJ_CELL_ROW_TIME_S] == 20.0);
}

/* A cell whose first step passes and whose second is refused. */
static void build_wild(uint8_t *wild)
{
    static uint8_t hot[PJ_NEW_DFN_BYTES];
    memcpy(hot, new_dfn, sizeof hot);
    pj_put_f64(hot, PJ_AT_DFN_PARAMS_C_E0, 1e5);
    pj_put_f64(hot, PJ_AT_DFN_PARAMS_GAMMA_E, 1000.0);
    EXPECT(build(PJ_BUILD_DFN, hot, sizeof hot, wild, PJ_DFN_CELL_BYTES) == PJ_REFUSAL_NONE);
}

static void galvanostatic_runs(void)
{
    static uint8_t wild[PJ_DFN_CELL_BYTES];
    /* a run of a DFN cell looks at the cell's clock, after a first row */
    EXPECT(dfn_discharge(dfn, 2.0, 0.0, PJ_ROW_DOUBLES * ROWS, GROUPS) == PJ_REFUSAL_NONE);
    EXPECT_ENDING(dfn_run, PJ_AT_DFN_CELL_ENDING, PJ_ENDED_TIME, 1);
    EXPECT(rows[PJ_DFN_ROW_VOLTAGE] == pj_get_f64(dfn_run, PJ_AT_DFN_CELL_VOLTAGE) && rows[PJ_DFN_ROW_CURRENT] == 2.0 && rows[PJ_DFN_ROW_TIME_S] == 1.0);
    EXPECT(rows[PJ_DFN_ROW_THETA_NEG] == pj_get_f64(dfn_run, PJ_AT_DFN_CELL_THETA_NEG_SURF));
    EXPECT(rows[PJ_DFN_ROW_THETA_POS] == pj_get_f64(dfn_run, PJ_AT_DFN_CELL_THETA_POS_SURF));
    EXPECT(rows[PJ_DFN_ROW_DELTA_C_E_MAX] > 0.0 && rows[PJ_DFN_ROW_CUTOFF] == 0.0 && rows[PJ_DFN_ROW_NEWTON_ITER] == 1.0);

    /* refused after a row: the answer is written; before one: it is left */
    build_wild(wild);
    pj_put_u64(dfn_run, PJ_AT_DFN_CELL_ENDING + PJ_AT_ENDING_HOW, 0);
    EXPECT(dfn_discharge(wild, 0.0, 100.0, PJ_ROW_DOUBLES * ROWS, GROUPS) == PJ_REFUSAL_NOT_FINITE);
    EXPECT_ENDING(dfn_run, PJ_AT_DFN_CELL_ENDING, PJ_ENDED_REFUSED, 1);
    EXPECT_F64(dfn_run, PJ_AT_DFN_CELL_TIME_S, 1.0);
    EXPECT(discharge(36000.0, 7) == PJ_REFUSAL_LENGTH);
    EXPECT_U64(run, PJ_AT_CELL_ENDING + PJ_AT_ENDING_HOW, 0);
}

/* ---- summaries of lowest voltages ---- */

/* Whether the places from the given row on hold -7 still. */
static int kept_from(size_t row)
{
    size_t i;
    for (i = PJ_ROW_DOUBLES * row; i < PJ_ROW_DOUBLES * ROWS; i++)
        if (rows[i] != -7.0)
            return 0;
    return 1;
}

/* Rows and summary, and what is beside the summary, as -7. */
static void clear_rows(void)
{
    size_t i;
    for (i = 0; i < PJ_ROW_DOUBLES * ROWS; i++)
        rows[i] = -7.0;
    for (i = 0; i < GROUPS + 3; i++)
        lowest_around[i] = -7.0;
}

/* Whether so many rows are written, and their summary, by a read of each group, and nothing else. */
static int summary_is_of(size_t count)
{
    double expected[GROUPS + 3];
    size_t i;
    for (i = 0; i < GROUPS + 3; i++)
        expected[i] = -7.0;
    for (i = 0; i < count; i++) {
        const double voltage = rows[PJ_ROW_DOUBLES * i];
        double *place = expected + 1 + i / PJ_GROUP_ROWS;
        if (i % PJ_GROUP_ROWS == 0 || voltage < *place)
            *place = voltage;
    }
    return kept_from(count) && (count == 0 || rows[PJ_ROW_DOUBLES * count - 1] != -7.0) && memcmp(lowest_around, expected, sizeof expected) == 0;
}

/* A discharge from cleared slices: its refusal, and how many rows it writes. */
static void summed(int line, double max_time_s, size_t rows_len, size_t lowest_len, uint64_t refusal, size_t made)
{
    const uint8_t *ending = run + PJ_AT_CELL_ENDING;
    clear_rows();
    expect(line, discharge_of(cell_nmc, max_time_s, rows_len, lowest_len) == refusal, "the run's refusal");
    expect(line, made == (pj_get_u64(ending, PJ_AT_ENDING_HOW) == 0 ? 0 : pj_get_u64(ending, PJ_AT_ENDING_ROWS)), "its rows");
    expect(line, summary_is_of(made), "rows and summary that are written");
}

#define EXPECT_SUMMED(max_time_s, rows_len, lowest_len, refusal, made) summed(__LINE__, max_time_s, rows_len, lowest_len, refusal, made)

static void summaries(void)
{
    static uint8_t wild[PJ_DFN_CELL_BYTES];
    EXPECT_SUMMED(36000.0, PJ_ROW_DOUBLES * ROWS, GROUPS, PJ_REFUSAL_NONE, 156);
    EXPECT_SUMMED(36000.0, PJ_ROW_DOUBLES * ROWS, GROUPS + 1, PJ_REFUSAL_NONE, 156);
    EXPECT_SUMMED(1.0, PJ_ROW_DOUBLES * ROWS, GROUPS, PJ_REFUSAL_NONE, 1);
    EXPECT_SUMMED(0.0, PJ_ROW_DOUBLES * ROWS, GROUPS, PJ_REFUSAL_NONE, 0);
    /* 519 doubles are 64 rows and one group, 520 one row more and two groups */
    EXPECT_SUMMED(36000.0, 504, 1, PJ_REFUSAL_NONE, 63);
    EXPECT_SUMMED(36000.0, 512, 1, PJ_REFUSAL_NONE, 64);
    EXPECT_SUMMED(36000.0, 519, 1, PJ_REFUSAL_NONE, 64);
    EXPECT_SUMMED(36000.0, 520, 2, PJ_REFUSAL_NONE, 65);
    EXPECT_SUMMED(36000.0, 520, 1, PJ_REFUSAL_LENGTH, 0);
    EXPECT_SUMMED(36000.0, PJ_ROW_DOUBLES, 0, PJ_REFUSAL_LENGTH, 0);
    /* the room for rows is counted, not the rows that are written: 156 would have three groups */
    EXPECT_SUMMED(36000.0, PJ_ROW_DOUBLES * ROWS, GROUPS - 1, PJ_REFUSAL_LENGTH, 0);
    EXPECT_SUMMED(0.0, PJ_ROW_DOUBLES * ROWS, GROUPS - 1, PJ_REFUSAL_LENGTH, 0);

    /* after 1 and before 2 to 5 */
    memcpy(cell_of, cell_nmc, sizeof cell_of);
    EXPECT_SUMMED(of_bits(UINT64_C(0x7FF8000000000000)), PJ_ROW_DOUBLES, 0, PJ_REFUSAL_LENGTH, 0);
    EXPECT_SUMMED(of_bits(UINT64_C(0x7FF8000000000000)), PJ_ROW_DOUBLES, 1, PJ_REFUSAL_INTERVAL, 0);
    pj_put_f64(cell_nmc, PJ_AT_CELL_TIME_S, -1.0);
    EXPECT_SUMMED(36000.0, PJ_ROW_DOUBLES, 0, PJ_REFUSAL_LENGTH, 0);
    EXPECT_SUMMED(36000.0, PJ_ROW_DOUBLES, 1, PJ_REFUSAL_SHEET, 0);
    pj_put_u64(cell_nmc, PJ_AT_CELL_CONFIG + PJ_AT_CONFIG_N_NODES, 2);
    EXPECT_SUMMED(36000.0, PJ_ROW_DOUBLES, 0, PJ_REFUSAL_GRID, 0);
    memcpy(cell_nmc, cell_of, sizeof cell_nmc);

    /* a DFN cell: full after three groups, the last of them short; a refused step; too few places */
    clear_rows();
    EXPECT(dfn_discharge(dfn, 2.0, 1e9, PJ_ROW_DOUBLES * 130, 3) == PJ_REFUSAL_NONE);
    EXPECT_ENDING(dfn_run, PJ_AT_DFN_CELL_ENDING, PJ_ENDED_FULL, 130);
    EXPECT(summary_is_of(130));
    build_wild(wild);
    clear_rows();
    EXPECT(dfn_discharge(wild, 0.0, 100.0, PJ_ROW_DOUBLES * ROWS, GROUPS) == PJ_REFUSAL_NOT_FINITE);
    EXPECT(summary_is_of(1));
    clear_rows();
    EXPECT(dfn_discharge(dfn, 2.0, 0.0, PJ_ROW_DOUBLES * ROWS, GROUPS - 1) == PJ_REFUSAL_LENGTH);
    EXPECT(summary_is_of(0));
}

/* ---- searches by the summary ---- */

/* The answer, with eight bytes before it and behind it. */
static uint8_t found_around[8 + PJ_FOUND_BYTES + 8], *const found = found_around + 8;

static uint64_t search(uint64_t which, size_t rows_len, size_t lowest_len, size_t count, double voltage, size_t answer_len)
{
    memset(found_around, 0xA5, sizeof found_around);
    return pj_first_below((pj_run_t)which, rows, rows_len, lowest, lowest_len, count, voltage, found, answer_len);
}

/* Whether nothing is written from a byte of the answer on, nor before the answer. */
static int answer_kept_from(size_t at)
{
    size_t i;
    for (i = 0; i < sizeof found_around; i++)
        if ((i < 8 || i >= 8 + at) && found_around[i] != 0xA5)
            return 0;
    return 1;
}

/* Whether the search in so many rows, with no place too many, answers with this row; with none where this is the count. */
static int finds(uint64_t which, size_t count, double voltage, size_t row)
{
    return search(which, PJ_ROW_DOUBLES * count, PJ_GROUPS(count), count, voltage, PJ_FOUND_BYTES) == PJ_REFUSAL_NONE
        && pj_get_u64(found, PJ_AT_FOUND_HOW) == (row < count ? PJ_FOUND_ROW : PJ_FOUND_NONE)
        && pj_get_u64(found, PJ_AT_FOUND_ROW) == (row < count ? row : 0) && answer_kept_from(PJ_FOUND_BYTES);
}

/* The first row under a voltage from the given one on, by a read of all; the count where there is none. */
static size_t read_from(size_t row, size_t count, double voltage)
{
    while (row < count && !(rows[PJ_ROW_DOUBLES * row] < voltage))
        row++;
    return row;
}

/* On what a run left the search is a full read: for every count, at each row's voltage and at the binary64 beside it on either side. */
static void searches_after_run(uint64_t which, size_t made)
{
    size_t count, row, wrong = 0, hits = 0;
    for (count = 0; count <= made; count++)
        for (row = 0; row < made; row++) {
            uint64_t word;
            int beside;
            memcpy(&word, &rows[PJ_ROW_DOUBLES * row], sizeof word);
            for (beside = -1; beside <= 1; beside++) {
                const double voltage = of_bits(word + (uint64_t)(int64_t)beside);
                const size_t first = read_from(0, count, voltage);
                wrong += !finds(which, count, voltage, first);
                hits += first < count;
            }
        }
    EXPECT(wrong == 0 && hits > 10000);
    EXPECT(finds(which, made, -10.0, made) && finds(which, made, 10.0, 0));
}

static void searches(void)
{
    clear_rows();
    EXPECT(discharge(36000.0, PJ_ROW_DOUBLES * ROWS) == PJ_REFUSAL_NONE);
    searches_after_run(PJ_RUN_DISCHARGE, 156);
    /* found in the first group, in a later one, in the last, which is short, and not among the rows before it */
    EXPECT(finds(PJ_RUN_DISCHARGE, 156, 3.7, read_from(0, 156, 3.7)) && read_from(0, 156, 3.7) < 64);
    EXPECT(finds(PJ_RUN_DISCHARGE, 156, 3.5, read_from(0, 156, 3.5)) && read_from(0, 156, 3.5) >= 64);
    EXPECT(finds(PJ_RUN_DISCHARGE, 156, 3.0, 155) && finds(PJ_RUN_DISCHARGE, 155, 3.0, 155));
    clear_rows();
    EXPECT(dfn_discharge(dfn, -2.0, 1e9, PJ_ROW_DOUBLES * 130, 3) == PJ_REFUSAL_NONE);
    searches_after_run(PJ_RUN_GALVANOSTATIC, 130);
}

/* Patterns that are special to binary64, and voltages. */
static const uint64_t patterns[] = {
    0, UINT64_C(1) << 63, 1, UINT64_C(0x8000000000000001), UINT64_C(0x7FEFFFFFFFFFFFFF), UINT64_C(0xFFEFFFFFFFFFFFFF),
    UINT64_C(0xFFF0000000000000), UINT64_C(0xFFF0000000000001), UINT64_C(0x400C000000000000), UINT64_C(0x400C000000000001),
    UINT64_C(0x4010000000000000), UINT64_C(0x7FF0000000000000), UINT64_C(0x7FF8000000000000), UINT64_MAX,
};
/* the last three are under no voltage */
enum { PATTERNS = sizeof patterns / sizeof patterns[0], NEVER_UNDER = PATTERNS - 3 };

static int is_finite(uint64_t word)
{
    return (word >> 52 & 0x7FF) != 0x7FF;
}

/* The rule of the header, read over whatever the slices hold. */
static size_t by_rule(size_t count, double voltage)
{
    size_t group, row;
    for (group = 0; PJ_GROUP_ROWS * group < count; group++) {
        const size_t end = PJ_GROUP_ROWS * (group + 1) < count ? PJ_GROUP_ROWS * (group + 1) : count;
        if (lowest[group] < voltage) {
            row = read_from(PJ_GROUP_ROWS * group, end, voltage);
            if (row < end)
                return row;
        }
    }
    return count;
}

static uint64_t drawn = 1;

static uint64_t draw(void)
{
    drawn = drawn * UINT64_C(6364136223846793005) + UINT64_C(1442695040888963407);
    return drawn >> 33;
}

/* Any patterns in rows and summary; few voltages are under any other; beside them stands what is under all. */
static void fill_with_garbage(void)
{
    const uint64_t rare = 1 + draw() % 200;
    size_t i;
    for (i = 0; i < PJ_ROW_DOUBLES * ROWS; i++)
        rows[i] = of_bits(UINT64_C(0xFFF0000000000000));
    for (i = 0; i < ROWS; i++)
        rows[PJ_ROW_DOUBLES * i] = of_bits(patterns[draw() % rare == 0 ? draw() % PATTERNS : NEVER_UNDER + draw() % 3]);
    for (i = 0; i < GROUPS + 3; i++)
        lowest_around[i] = of_bits(patterns[draw() % PATTERNS]);
}

/* Rows and summaries of NaNs, infinities, zeros of both signs and other patterns, which do not fit each other; neither is written. */
static void garbage_searches(void)
{
    static const size_t counts[] = {0, 1, 63, 64, 65, 127, 128, 129, 192, 193, ROWS};
    static double rows_before[PJ_ROW_DOUBLES * ROWS], lowest_before[GROUPS + 3];
    size_t turn, i, wrong = 0, none = 0, some = 0, other = 0;
    for (turn = 0; turn < 3000; turn++) {
        fill_with_garbage();
        memcpy(rows_before, rows, sizeof rows);
        memcpy(lowest_before, lowest_around, sizeof lowest_around);
        for (i = 0; i < sizeof counts / sizeof counts[0]; i++) {
            const uint64_t word = patterns[draw() % PATTERNS], which = 1 + draw() % 2;
            const size_t first = by_rule(counts[i], of_bits(word));
            if (!is_finite(word)) {
                wrong += search(which, PJ_ROW_DOUBLES * ROWS, GROUPS, counts[i], of_bits(word), PJ_FOUND_BYTES) != PJ_REFUSAL_SHEET;
                wrong += !answer_kept_from(0);
                continue;
            }
            wrong += !finds(which, counts[i], of_bits(word), first);
            none += first == counts[i];
            some += first < counts[i];
            other += first != read_from(0, counts[i], of_bits(word));
        }
        wrong += memcmp(rows, rows_before, sizeof rows) != 0 || memcmp(lowest_around, lowest_before, sizeof lowest_around) != 0;
    }
    EXPECT(wrong == 0);
    /* the last: not what a full read finds */
    EXPECT(none > 1000 && some > 1000 && other > 1000);
}

static void search_refused(int line, uint64_t which, size_t rows_len, size_t lowest_len, size_t count, double voltage, size_t answer_len,
                           uint64_t refusal)
{
    expect(line, search(which, rows_len, lowest_len, count, voltage, answer_len) == refusal, "the search's refusal");
    expect(line, answer_kept_from(0), "nothing is written");
}

#define EXPECT_NO_SEARCH(which, rows_len, lowest_len, count, voltage, answer_len, refusal) \
    search_refused(__LINE__, which, rows_len, lowest_len, count, voltage, answer_len, refusal)

/* 10 of the answer, the rows and the summary, and then 2 of the run and the voltage. */
static void refused_searches(void)
{
    static const size_t counts[] = {
        ROWS + 1, PJ_ROW_DOUBLES * ROWS, (size_t)1 << 32, ((size_t)1 << 61) - 1, (size_t)1 << 61, ((size_t)1 << 61) + 1,
        ((size_t)1 << 61) + 64, (size_t)1 << 63, SIZE_MAX - 63, SIZE_MAX,
    };
    static const uint64_t runs[] = {0, 3, UINT64_C(1) << 32, (UINT64_C(1) << 32) + 1, (UINT64_C(1) << 63) + 2, UINT64_MAX};
    static const uint64_t voltages[] = {
        UINT64_C(0x7FF0000000000000), UINT64_C(0xFFF0000000000000), UINT64_C(0x7FF8000000000000), UINT64_C(0xFFF8000000000000),
        UINT64_C(0x7FF0000000000001), UINT64_MAX,
    };
    const size_t all = PJ_ROW_DOUBLES * ROWS, bytes = PJ_FOUND_BYTES;
    size_t i;
    clear_rows();
    for (i = 0; i < sizeof counts / sizeof counts[0]; i++) {
        EXPECT_NO_SEARCH(PJ_RUN_DISCHARGE, all, GROUPS, counts[i], 3.0, bytes, PJ_REFUSAL_LENGTH);
        EXPECT_NO_SEARCH(PJ_RUN_DISCHARGE, 0, 0, counts[i], 3.0, bytes, PJ_REFUSAL_LENGTH);
    }
    for (i = 1; i <= ROWS; i++) {
        EXPECT_NO_SEARCH(PJ_RUN_GALVANOSTATIC, PJ_ROW_DOUBLES * i - 1, GROUPS, i, 3.0, bytes, PJ_REFUSAL_LENGTH);
        EXPECT_NO_SEARCH(PJ_RUN_GALVANOSTATIC, all, PJ_GROUPS(i) - 1, i, 3.0, bytes, PJ_REFUSAL_LENGTH);
        EXPECT(finds(PJ_RUN_GALVANOSTATIC, i, 3.0, 0));
    }
    for (i = 0; i < sizeof runs / sizeof runs[0]; i++) {
        EXPECT_NO_SEARCH(runs[i], all, GROUPS, ROWS, 3.0, bytes, PJ_REFUSAL_SHEET);
        EXPECT_NO_SEARCH(runs[i], 0, 0, 0, 3.0, bytes, PJ_REFUSAL_SHEET);
        EXPECT_NO_SEARCH(runs[i], all - 1, GROUPS, ROWS, 3.0, bytes, PJ_REFUSAL_LENGTH);
        EXPECT_NO_SEARCH(runs[i], all, GROUPS - 1, ROWS, 3.0, bytes, PJ_REFUSAL_LENGTH);
        EXPECT_NO_SEARCH(runs[i], all, GROUPS, ROWS, 3.0, bytes - 1, PJ_REFUSAL_LENGTH);
        EXPECT_NO_SEARCH(PJ_RUN_DISCHARGE, all, GROUPS, ROWS, of_bits(voltages[i]), bytes, PJ_REFUSAL_SHEET);
        EXPECT_NO_SEARCH(PJ_RUN_DISCHARGE, all, GROUPS - 1, ROWS, of_bits(voltages[i]), bytes, PJ_REFUSAL_LENGTH);
    }
    EXPECT_NO_SEARCH(PJ_RUN_DISCHARGE, all, GROUPS, ROWS, 3.0, 0, PJ_REFUSAL_LENGTH);
    EXPECT_NO_SEARCH(PJ_RUN_DISCHARGE, all, GROUPS, ROWS, 3.0, bytes + 1, PJ_REFUSAL_LENGTH);
    EXPECT(finds(PJ_RUN_DISCHARGE, 0, 3.0, 0) && finds(PJ_RUN_DISCHARGE, ROWS, -7.0, ROWS));
    EXPECT(summary_is_of(0));
}

/* ---- replays: a text of lines on cell_nmc ---- */
enum { LINES = 170 };

static uint8_t text[PJ_MOST_TEXT_BYTES + 1];

/* A replay of the first bytes of the text, from rows that hold -7 and an ending of 0. */
static uint64_t replay(size_t text_len, double temp_k, size_t rows_len)
{
    size_t i;
    for (i = 0; i < PJ_ROW_DOUBLES * ROWS; i++)
        rows[i] = -7.0;
    pj_put_u64(run, PJ_AT_CELL_ENDING + PJ_AT_ENDING_HOW, 0);
    return pj_replay(cell_nmc, sizeof cell_nmc, text, text_len, temp_k, rows, rows_len, run, sizeof run);
}

/* Three lines that differ: 10 s at 3 A, 60 s at 2 A, 0.5 s at -1 A. */
static void three_lines(void)
{
    pj_put_line(text, 0, 10.0, 3.0);
    pj_put_line(text, PJ_LINE_BYTES, 60.0, 2.0);
    pj_put_line(text, 2 * PJ_LINE_BYTES, 0.5, -1.0);
}

/* The rows are those of separate steps, and the line that the header shows is what pj_put_line writes. */
static void replayed_rows(void)
{
    static const double dt[3] = {10.0, 60.0, 0.5}, current[3] = {3.0, 2.0, -1.0};
    static uint8_t step[PJ_CELL_STEP_BYTES];
    size_t i;
    three_lines();
    EXPECT(memcmp(text + PJ_LINE_BYTES, "404E000000000000\t4000000000000000\n", PJ_LINE_BYTES) == 0);
    EXPECT(replay(3 * PJ_LINE_BYTES, T, PJ_ROW_DOUBLES * ROWS) == PJ_REFUSAL_NONE);
    EXPECT_ENDING(run, PJ_AT_CELL_ENDING, PJ_ENDED_DONE, 3);
    EXPECT(kept_from(3));
    memcpy(step, cell_nmc, sizeof cell_nmc);
    for (i = 0; i < 3; i++) {
        memcpy(cell_of, step, sizeof cell_of);
        EXPECT(pj_cell_step(cell_of, sizeof cell_of, current[i], dt[i], T, step, sizeof step) == PJ_REFUSAL_NONE);
        EXPECT(memcmp(rows + PJ_ROW_DOUBLES * i, step + PJ_AT_CELL_REPORT, PJ_AT_REPORT_CUTOFF) == 0);
        EXPECT(rows[PJ_ROW_DOUBLES * i + PJ_CELL_ROW_CUTOFF] == 0.0);
    }
    EXPECT(memcmp(run, step, PJ_CELL_BYTES) == 0);
}

static void replay_endings(void)
{
    static double discharged[PJ_ROW_DOUBLES * ROWS];
    size_t i;
    EXPECT(discharge(36000.0, PJ_ROW_DOUBLES * ROWS) == PJ_REFUSAL_NONE);
    memcpy(discharged, rows, sizeof rows);
    for (i = 0; i < LINES; i++)
        pj_put_line(text, PJ_LINE_BYTES * i, 10.0, 5.0);
    EXPECT(replay(LINES * PJ_LINE_BYTES, T, PJ_ROW_DOUBLES * ROWS) == PJ_REFUSAL_NONE);
    EXPECT_ENDING(run, PJ_AT_CELL_ENDING, PJ_ENDED_VOLTAGE, 156);
    EXPECT(memcmp(rows, discharged, 156 * PJ_ROW_DOUBLES * sizeof(double)) == 0 && kept_from(156));
    /* on the last line, and with room for no other row, it is the voltage all the same */
    EXPECT(replay(156 * PJ_LINE_BYTES, T, 156 * PJ_ROW_DOUBLES) == PJ_REFUSAL_NONE);
    EXPECT_ENDING(run, PJ_AT_CELL_ENDING, PJ_ENDED_VOLTAGE, 156);
    EXPECT(replay(2 * PJ_LINE_BYTES, T, 2 * PJ_ROW_DOUBLES) == PJ_REFUSAL_NONE);
    EXPECT_ENDING(run, PJ_AT_CELL_ENDING, PJ_ENDED_DONE, 2);
    EXPECT(replay(0, T, PJ_ROW_DOUBLES) == PJ_REFUSAL_NONE);
    EXPECT_ENDING(run, PJ_AT_CELL_ENDING, PJ_ENDED_DONE, 0);
    EXPECT(memcmp(run, cell_nmc, sizeof cell_nmc) == 0 && kept_from(0));
    /* one byte left is enough, whatever it is; the 15 doubles are one row */
    text[PJ_LINE_BYTES] = 'x';
    EXPECT(replay(PJ_LINE_BYTES + 1, T, 15) == PJ_REFUSAL_NONE);
    EXPECT_ENDING(run, PJ_AT_CELL_ENDING, PJ_ENDED_FULL, 1);
    EXPECT(kept_from(1));
}

/* A line that is none in its second place: the row above is kept, and the cell after it. */
static void wrong_line(int line, size_t text_len)
{
    expect(line, replay(text_len, T, PJ_ROW_DOUBLES * ROWS) == PJ_REFUSAL_LINE, "a line that is none is refused");
    expect(line, pj_get_u64(run, PJ_AT_CELL_ENDING + PJ_AT_ENDING_HOW) == PJ_ENDED_REFUSED, "it ends the replay");
    expect(line, pj_get_u64(run, PJ_AT_CELL_ENDING + PJ_AT_ENDING_ROWS) == 1, "one row is written");
    expect(line, rows[PJ_CELL_ROW_TIME_S] == 10.0 && kept_from(1), "the row above is kept");
    expect(line, pj_get_f64(run, PJ_AT_CELL_TIME_S) == 10.0, "the cell is that after the row");
    three_lines();
}

static void wrong_lines(void)
{
    static const char bytes[] = "/:@G`afg \r";
    size_t i, at;
    three_lines();
    for (i = 0; i < sizeof bytes; i++)
        for (at = 0; at < PJ_LINE_BYTES; at++) {
            text[PJ_LINE_BYTES + at] = (uint8_t)bytes[i];
            wrong_line(__LINE__, 3 * PJ_LINE_BYTES);
        }
    /* cut off, a blank line, CR LF */
    for (i = 1; i < PJ_LINE_BYTES; i++)
        wrong_line(__LINE__, PJ_LINE_BYTES + i);
    text[PJ_LINE_BYTES] = '\n';
    wrong_line(__LINE__, PJ_LINE_BYTES + 1);
    memcpy(text + 2 * PJ_LINE_BYTES - 1, "\r\n", 2);
    wrong_line(__LINE__, 2 * PJ_LINE_BYTES + 1);
}

/* A step that is refused after a row, and before one, where the answer is left as it was. */
static void refused_steps(void)
{
    static const struct {
        double dt, current_a;
        uint64_t refusal;
    } list[] = {
        {1.0, 2e6, PJ_REFUSAL_LOAD}, {0.0, 1.0, PJ_REFUSAL_INTERVAL}, {86400.0, 1.0, PJ_REFUSAL_SUB_STEPS}, {0.0, 2e6, PJ_REFUSAL_LOAD},
    };
    size_t i;
    memcpy(cell_of, cell_nmc, sizeof cell_of);
    /* a small particle needs many sub-steps */
    pj_put_f64(cell_nmc, PJ_AT_CELL_ANODE + PJ_AT_SHEET_R_PARTICLE, 1e-7);
    for (i = 0; i < sizeof list / sizeof list[0]; i++) {
        pj_put_line(text, 0, 0.01, 1.0);
        pj_put_line(text, PJ_LINE_BYTES, list[i].dt, list[i].current_a);
        EXPECT(replay(2 * PJ_LINE_BYTES, T, PJ_ROW_DOUBLES * ROWS) == list[i].refusal);
        EXPECT_ENDING(run, PJ_AT_CELL_ENDING, PJ_ENDED_REFUSED, 1);
        EXPECT(rows[PJ_CELL_ROW_TIME_S] == 0.01 && kept_from(1));
        EXPECT_F64(run, PJ_AT_CELL_TIME_S, 0.01);
        pj_put_line(text, 0, list[i].dt, list[i].current_a);
        EXPECT(replay(2 * PJ_LINE_BYTES, T, PJ_ROW_DOUBLES * ROWS) == list[i].refusal);
        EXPECT_U64(run, PJ_AT_CELL_ENDING + PJ_AT_ENDING_HOW, 0);
        EXPECT(kept_from(0));
    }
    memcpy(cell_nmc, cell_of, sizeof cell_nmc);
}

/* What is tested before the first line, each against one that comes after it: 12, 10 of a length, 1, 10 of the rows, 2, 5, 11. */
static void refused_replays(void)
{
    static uint8_t kept[PJ_CELL_RUN_BYTES];
    text[0] = 'x';
    EXPECT(replay(2 * PJ_LINE_BYTES, T, PJ_ROW_DOUBLES) == PJ_REFUSAL_LINE);
    memcpy(kept, run, sizeof run);
    EXPECT(replay(2 * PJ_LINE_BYTES, 500.0, PJ_ROW_DOUBLES) == PJ_REFUSAL_TEMPERATURE);
    memcpy(cell_of, cell_nmc, sizeof cell_of);
    pj_put_f64(cell_nmc, PJ_AT_CELL_TIME_S, -1.0);
    EXPECT(replay(2 * PJ_LINE_BYTES, 500.0, PJ_ROW_DOUBLES) == PJ_REFUSAL_SHEET);
    EXPECT(replay(2 * PJ_LINE_BYTES, 500.0, PJ_ROW_DOUBLES - 1) == PJ_REFUSAL_LENGTH);
    EXPECT(replay(0, 500.0, 0) == PJ_REFUSAL_LENGTH);
    pj_put_u64(cell_nmc, PJ_AT_CELL_CONFIG + PJ_AT_CONFIG_N_NODES, 2);
    EXPECT(replay(2 * PJ_LINE_BYTES, 500.0, 0) == PJ_REFUSAL_GRID);
    EXPECT(pj_replay(cell_nmc, sizeof cell_nmc - 1, text, 1, T, rows, 8, run, sizeof run) == PJ_REFUSAL_LENGTH);
    EXPECT(pj_replay(cell_nmc, sizeof cell_nmc, text, 1, T, rows, 8, run, sizeof run - 1) == PJ_REFUSAL_LENGTH);
    EXPECT(replay(PJ_MOST_TEXT_BYTES, 500.0, 0) == PJ_REFUSAL_GRID);
    EXPECT(replay(PJ_MOST_TEXT_BYTES + 1, 500.0, 0) == PJ_REFUSAL_FILE);
    EXPECT(pj_replay(cell_nmc, 0, text, PJ_MOST_TEXT_BYTES + 1, T, rows, 8, run, 0) == PJ_REFUSAL_FILE);
    EXPECT(memcmp(run, kept, sizeof run) == 0 && kept_from(0));
    memcpy(cell_nmc, cell_of, sizeof cell_nmc);

    /* a diffusivity is looked at with the first step: not where no line is left, and after the line itself */
    pj_put_f64(cell_nmc, PJ_AT_CELL_ANODE + PJ_AT_SHEET_D_S_REF, 1e-8);
    pj_put_f64(cell_nmc, PJ_AT_CELL_ANODE + PJ_AT_SHEET_E_A_DS, 5e4);
    EXPECT(replay(0, 350.0, PJ_ROW_DOUBLES) == PJ_REFUSAL_NONE);
    EXPECT(replay(PJ_LINE_BYTES, 350.0, PJ_ROW_DOUBLES) == PJ_REFUSAL_LINE);
    three_lines();
    EXPECT(replay(PJ_LINE_BYTES, 350.0, PJ_ROW_DOUBLES) == PJ_REFUSAL_DIFFUSIVITY);
    memcpy(cell_nmc, cell_of, sizeof cell_nmc);
}

/* ---- cycles: phases on cell_nmc ---- */
static uint8_t phases[PJ_PHASES_BYTES];

/* A cycle of the first phases, from rows that hold -7 and an ending of 0. */
static uint64_t cycle(size_t count, size_t repeats, size_t budget, double dt, double temp_k, size_t rows_len)
{
    size_t i;
    for (i = 0; i < PJ_ROW_DOUBLES * ROWS; i++)
        rows[i] = -7.0;
    pj_put_u64(run, PJ_AT_CELL_ENDING + PJ_AT_ENDING_HOW, 0);
    return pj_cycle(cell_nmc, sizeof cell_nmc, phases, sizeof phases, count, repeats, budget, dt, temp_k, rows, rows_len, run, sizeof run);
}

/* One that is accepted, in a slice of just the budget's rows: how it ended and after how many rows, behind which nothing is written. */
static void cycle_ends(int line, size_t count, size_t repeats, size_t budget, double dt, uint64_t how, uint64_t made)
{
    expect(line, cycle(count, repeats, budget, dt, T, PJ_ROW_DOUBLES * budget) == PJ_REFUSAL_NONE, "the cycle is not refused");
    expect(line, pj_get_u64(run, PJ_AT_CELL_ENDING + PJ_AT_ENDING_HOW) == how, "how it ended");
    expect(line, pj_get_u64(run, PJ_AT_CELL_ENDING + PJ_AT_ENDING_ROWS) == made, "how many rows it made");
    expect(line, kept_from(made) && rows[PJ_ROW_DOUBLES * made - 1] != -7.0, "the rows that are written");
}

#define EXPECT_CYCLE(count, repeats, budget, dt, how, made) cycle_ends(__LINE__, count, repeats, budget, dt, how, made)

/* 5 A out, a rest of 100 s, 5 A in, a rest of 0 s. */
static void four_phases(void)
{
    pj_put_phase(phases, 0, PJ_PHASE_DISCHARGE, 5.0);
    pj_put_phase(phases, 1, PJ_PHASE_REST, 100.0);
    pj_put_phase(phases, 2, PJ_PHASE_CHARGE, 5.0);
    pj_put_phase(phases, 3, PJ_PHASE_REST, 0.0);
}

/* Whether a row is that of a step from the cell of the answer before, whose answer stands here after it. */
static int row_is_step(const double *row, double current_a, double dt, uint8_t *step)
{
    memcpy(cell_of, step, sizeof cell_of);
    return pj_cell_step(cell_of, sizeof cell_of, current_a, dt, T, step, PJ_CELL_STEP_BYTES) == PJ_REFUSAL_NONE
        && memcmp(row, step + PJ_AT_CELL_REPORT, PJ_AT_REPORT_CUTOFF) == 0
        && row[PJ_CELL_ROW_CUTOFF] == (double)pj_get_u64(step, PJ_AT_CELL_REPORT + PJ_AT_REPORT_CUTOFF);
}

/* The rows are those of separate steps, phase by phase, bit for bit; so is the cell. */
static void cycled_rows(void)
{
    static const double current[4] = {5.0, 0.0, -5.0, 0.0};
    static const size_t rest[4] = {0, 2, 0, 1}; /* steps of 60 s in a rest */
    static uint8_t step[PJ_CELL_STEP_BYTES];
    size_t row, in_phase = 0, ended = 0, made;
    four_phases();
    EXPECT(cycle(4, 2, ROWS, 60.0, T, PJ_ROW_DOUBLES * ROWS) == PJ_REFUSAL_NONE);
    EXPECT_U64(run, PJ_AT_CELL_ENDING + PJ_AT_ENDING_HOW, PJ_ENDED_DONE);
    made = (size_t)pj_get_u64(run, PJ_AT_CELL_ENDING + PJ_AT_ENDING_ROWS);
    EXPECT(made <= ROWS && kept_from(made));
    memcpy(step, cell_nmc, sizeof cell_nmc);
    for (row = 0; row < made; row++) {
        const double *at = rows + PJ_ROW_DOUBLES * row;
        EXPECT(ended < 8 && row_is_step(at, current[ended % 4], 60.0, step));
        in_phase++;
        if (rest[ended % 4] == 0 ? at[PJ_CELL_ROW_CUTOFF] == 1.0 : in_phase == rest[ended % 4]) {
            in_phase = 0;
            ended++;
        }
    }
    EXPECT(ended == 8 && in_phase == 0 && made > 16);
    EXPECT(memcmp(run, step, PJ_CELL_BYTES) == 0);
    /* the last phase may end on the budget's last step; one step fewer is spent, with the same rows */
    EXPECT_CYCLE(4, 2, made, 60.0, PJ_ENDED_DONE, made);
    EXPECT_CYCLE(4, 2, made - 1, 60.0, PJ_ENDED_SPENT, made - 1);
    EXPECT_F64(run, PJ_AT_CELL_TIME_S, 60.0 * (double)(made - 1));
    /* the discharge alone, whose row with cutoff is the last */
    EXPECT_CYCLE(1, 1, ROWS, 10.0, PJ_ENDED_DONE, 156);
    EXPECT(rows[PJ_ROW_DOUBLES * 155 + PJ_CELL_ROW_CUTOFF] == 1.0);
    EXPECT_CYCLE(1, 1, 155, 10.0, PJ_ENDED_SPENT, 155);
}

/* Where every row has cutoff, a charge and a discharge take one step each, and a rest what its time takes. */
static void cycles_of_cutoffs(void)
{
    static uint8_t kept[PJ_CELL_BYTES];
    size_t i;
    memcpy(kept, cell_nmc, sizeof kept);
    pj_put_f64(cell_nmc, PJ_AT_CELL_CONFIG + PJ_AT_CONFIG_V_MIN, 10.0);
    four_phases();
    EXPECT_CYCLE(4, 1, 6, 60.0, PJ_ENDED_DONE, 5);
    EXPECT_CYCLE(4, 20, 100, 60.0, PJ_ENDED_DONE, 100);
    EXPECT_CYCLE(4, 20, 99, 60.0, PJ_ENDED_SPENT, 99);
    EXPECT_CYCLE(4, 20, 1, 60.0, PJ_ENDED_SPENT, 1);
    EXPECT_CYCLE(3, 1000, ROWS, 60.0, PJ_ENDED_SPENT, ROWS);
    for (i = 0; i < ROWS; i++) {
        const double *row = rows + PJ_ROW_DOUBLES * i;
        EXPECT(row[PJ_CELL_ROW_CUTOFF] == 1.0 && row[PJ_CELL_ROW_CURRENT] == (i % 4 == 0 ? 5.0 : i % 4 == 3 ? -5.0 : 0.0));
    }
    /* all eight places */
    for (i = 0; i < PJ_PHASE_PLACES; i++)
        pj_put_phase(phases, i, i % 2 == 0 ? PJ_PHASE_CHARGE : PJ_PHASE_DISCHARGE, (double)(i + 1));
    EXPECT_CYCLE(PJ_PHASE_PLACES, 2, 16, 1.0, PJ_ENDED_DONE, 16);
    for (i = 0; i < 16; i++)
        EXPECT(rows[PJ_ROW_DOUBLES * i + PJ_CELL_ROW_CURRENT] == (i % 2 == 0 ? -1.0 : 1.0) * (double)(i % PJ_PHASE_PLACES + 1));
    memcpy(cell_nmc, kept, sizeof kept);
}

/* A rest's clock is a sum, begins at 0 with each rest, and is compared after the step. Its current is +0. */
static void rest_clocks(void)
{
    size_t i;
    for (i = 0; i < 3; i++)
        pj_put_phase(phases, i, PJ_PHASE_REST, 1.0);
    EXPECT_CYCLE(1, 1, ROWS, 0.1, PJ_ENDED_DONE, 11);
    EXPECT_U64((const uint8_t *)rows, 8 * PJ_CELL_ROW_CURRENT, 0);
    EXPECT_CYCLE(3, 1, ROWS, 0.1, PJ_ENDED_DONE, 33);
    EXPECT_CYCLE(1, 3, ROWS, 0.1, PJ_ENDED_DONE, 33);
    EXPECT_CYCLE(1, 1, ROWS, 0.125, PJ_ENDED_DONE, 8);
    EXPECT_CYCLE(1, 1, ROWS, 0.5, PJ_ENDED_DONE, 2);
    EXPECT_CYCLE(1, 1, ROWS, 1.0, PJ_ENDED_DONE, 1);
    pj_put_phase(phases, 0, PJ_PHASE_REST, -0.0);
    EXPECT_CYCLE(1, 1, ROWS, 60.0, PJ_ENDED_DONE, 1);
    pj_put_phase(phases, 0, PJ_PHASE_REST, 1e9);
    EXPECT_CYCLE(1, 1, ROWS, 60.0, PJ_ENDED_SPENT, ROWS);
}

/* What stands behind the first phases is not looked at; among them a kind that is none is refused. */
static void places_beyond_count(void)
{
    static const uint64_t kinds[3] = {0, 4, UINT64_C(1) << 63};
    static const double numbers[3] = {-1.0, 0.0, 1e300};
    static double first[PJ_ROW_DOUBLES * ROWS];
    size_t i;
    four_phases();
    EXPECT_CYCLE(4, 1, 30, 60.0, PJ_ENDED_SPENT, 30);
    memcpy(first, rows, sizeof rows);
    for (i = 0; i < 3; i++) {
        pj_put_phase(phases, 4, kinds[i], numbers[i]);
        pj_put_phase(phases, 7, PJ_PHASE_CHARGE, numbers[i]);
        EXPECT_CYCLE(4, 1, 30, 60.0, PJ_ENDED_SPENT, 30);
        EXPECT(memcmp(rows, first, sizeof rows) == 0);
        EXPECT(cycle(5, 1, 30, 60.0, T, PJ_ROW_DOUBLES * ROWS) == PJ_REFUSAL_SHEET);
        EXPECT_U64(run, PJ_AT_CELL_ENDING + PJ_AT_ENDING_HOW, 0);
        EXPECT(kept_from(0));
    }
    memset(phases, 0, sizeof phases);
}

/* ---- cycles that are refused: each number against those that come after it; nothing is written ---- */
enum { FIVE_ROWS = 5 * PJ_ROW_DOUBLES };

static void cycle_refused(int line, size_t count, double dt, double temp_k, size_t rows_len, uint64_t refusal)
{
    expect(line, cycle(count, 1, 5, dt, temp_k, rows_len) == refusal, "the cycle's refusal");
    expect(line, pj_get_u64(run, PJ_AT_CELL_ENDING + PJ_AT_ENDING_HOW) == 0 && kept_from(0), "nothing is written");
}

#define EXPECT_REFUSED(count, dt, temp_k, rows_len, refusal) cycle_refused(__LINE__, count, dt, temp_k, rows_len, refusal)

/* From the last to the first: 7, 6, 5, 4, 3, 2, 10 of the rows, 1. */
static void refused_cycles(void)
{
    static uint8_t kept[PJ_CELL_BYTES];
    memcpy(kept, cell_nmc, sizeof kept);
    four_phases();
    /* a small particle needs many sub-steps */
    pj_put_f64(cell_nmc, PJ_AT_CELL_ANODE + PJ_AT_SHEET_R_PARTICLE, 1e-7);
    EXPECT_REFUSED(4, 86400.0, T, FIVE_ROWS, PJ_REFUSAL_SUB_STEPS);
    pj_put_f64(cell_nmc, PJ_AT_CELL_ANODE + PJ_AT_SHEET_D_S_REF, 1e-8);
    pj_put_f64(cell_nmc, PJ_AT_CELL_ANODE + PJ_AT_SHEET_E_A_DS, 5e4);
    EXPECT_REFUSED(4, 86400.0, 350.0, FIVE_ROWS, PJ_REFUSAL_DIFFUSIVITY);
    EXPECT_REFUSED(4, 86400.0, 500.0, FIVE_ROWS, PJ_REFUSAL_TEMPERATURE);
    EXPECT_REFUSED(4, 0.0, 500.0, FIVE_ROWS, PJ_REFUSAL_INTERVAL);
    pj_put_phase(phases, 3, PJ_PHASE_REST, -1.0);
    EXPECT_REFUSED(4, 1.0, 500.0, FIVE_ROWS, PJ_REFUSAL_INTERVAL);
    EXPECT_REFUSED(3, 1.0, 500.0, FIVE_ROWS, PJ_REFUSAL_TEMPERATURE);
    pj_put_phase(phases, 2, PJ_PHASE_CHARGE, -5.0);
    EXPECT_REFUSED(4, 0.0, 500.0, FIVE_ROWS, PJ_REFUSAL_LOAD);
    EXPECT_REFUSED(2, 0.0, 500.0, FIVE_ROWS, PJ_REFUSAL_INTERVAL);
    pj_put_phase(phases, 3, 4, -1.0);
    EXPECT_REFUSED(4, 0.0, 500.0, FIVE_ROWS, PJ_REFUSAL_SHEET);
    EXPECT_REFUSED(3, 0.0, 500.0, FIVE_ROWS, PJ_REFUSAL_LOAD);
    pj_put_f64(cell_nmc, PJ_AT_CELL_TIME_S, -1.0);
    EXPECT_REFUSED(3, 0.0, 500.0, FIVE_ROWS, PJ_REFUSAL_SHEET);
    EXPECT_REFUSED(4, 0.0, 500.0, FIVE_ROWS - 1, PJ_REFUSAL_LENGTH);
    EXPECT_REFUSED(4, 0.0, 500.0, 0, PJ_REFUSAL_LENGTH);
    EXPECT_REFUSED(0, 0.0, 500.0, 0, PJ_REFUSAL_GRID);
    EXPECT_REFUSED(9, 0.0, 500.0, 0, PJ_REFUSAL_GRID);
    pj_put_u64(cell_nmc, PJ_AT_CELL_CONFIG + PJ_AT_CONFIG_N_NODES, 2);
    EXPECT_REFUSED(4, 0.0, 500.0, 0, PJ_REFUSAL_GRID);
    memcpy(cell_nmc, kept, sizeof kept);
}

/* The other two counts; then the lengths of images, whatever else is wrong. */
static void refused_counts(void)
{
    static const size_t counts[4][2] = {{0, 5}, {1001, 5}, {1, 0}, {1, 100001}};
    static uint8_t kept[PJ_CELL_RUN_BYTES], nine[PJ_PHASES_BYTES + PJ_PHASE_BYTES];
    const size_t cell = sizeof cell_nmc, image = sizeof phases, answer = sizeof run;
    size_t i;
    for (i = 0; i < 4; i++) {
        EXPECT(cycle(4, counts[i][0], counts[i][1], 0.0, 500.0, 0) == PJ_REFUSAL_GRID);
        EXPECT_U64(run, PJ_AT_CELL_ENDING + PJ_AT_ENDING_HOW, 0);
    }
    memcpy(kept, run, sizeof run);
    four_phases();
    memcpy(nine, phases, sizeof phases);
    for (i = 0; i < 2; i++) {
        EXPECT(pj_cycle(cell_nmc, cell - 8, phases, image, i, 1, 5, 1.0, T, rows, FIVE_ROWS, run, answer) == PJ_REFUSAL_LENGTH);
        EXPECT(pj_cycle(cell_nmc, cell, phases, image - 1, i, 1, 5, 1.0, T, rows, FIVE_ROWS, run, answer) == PJ_REFUSAL_LENGTH);
        EXPECT(pj_cycle(cell_nmc, cell, phases, PJ_PHASE_BYTES, i, 1, 5, 1.0, T, rows, FIVE_ROWS, run, answer) == PJ_REFUSAL_LENGTH);
        EXPECT(pj_cycle(cell_nmc, cell, phases, 0, i, 1, 5, 1.0, T, rows, FIVE_ROWS, run, answer) == PJ_REFUSAL_LENGTH);
        EXPECT(pj_cycle(cell_nmc, cell, nine, sizeof nine, i, 1, 5, 1.0, T, rows, FIVE_ROWS, run, answer) == PJ_REFUSAL_LENGTH);
        EXPECT(pj_cycle(cell_nmc, cell, phases, image, i, 1, 5, 1.0, T, rows, FIVE_ROWS, run, answer - 1) == PJ_REFUSAL_LENGTH);
    }
    EXPECT(memcmp(run, kept, sizeof run) == 0 && kept_from(0));
}

/* The input that docs/REFERENCE.md names for each refusal. */
static void refusals(void)
{
    static uint8_t bad_config[PJ_CONFIG_BYTES], bad_particle[PJ_NEW_PARTICLE_BYTES], bad_cell[PJ_NEW_CELL_BYTES], bad_salt[PJ_ELECTROLYTE_BYTES];
    static uint8_t step[PJ_CELL_STEP_BYTES], kept[PJ_CELL_STEP_BYTES], solution[PJ_SOLUTION_BYTES], answer[PJ_NUMBER_BYTES];
    const double entries[4] = {0.0, 1.0, 1.0, 0.0}, right[2] = {3.0, 4.0};
    memset(step, 0xA5, sizeof step);
    memcpy(kept, step, sizeof step);

    memcpy(bad_config, config, sizeof config);
    pj_put_u64(bad_config, PJ_AT_CONFIG_N_NODES, 2);
    EXPECT(build(PJ_BUILD_CELL_LFP, bad_config, sizeof bad_config, step, PJ_CELL_BYTES) == PJ_REFUSAL_GRID);
    memcpy(bad_particle, new_particle, sizeof new_particle);
    pj_put_f64(bad_particle, PJ_AT_SHEET_THETA_INIT, 1.5);
    EXPECT(build(PJ_BUILD_PARTICLE, bad_particle, sizeof bad_particle, step, PJ_PARTICLE_BYTES) == PJ_REFUSAL_SHEET);
    EXPECT(pj_number((pj_number_call_t)20, empty, 0, 0, 0, answer, sizeof answer) == PJ_REFUSAL_SHEET);
    EXPECT(pj_build((pj_build_call_t)13, empty, 0, step, sizeof step) == PJ_REFUSAL_SHEET);
    EXPECT(pj_cell_step(cell_lfp, sizeof cell_lfp, 2e6, 10.0, T, step, sizeof step) == PJ_REFUSAL_LOAD);
    EXPECT(pj_cell_step(cell_lfp, sizeof cell_lfp, 3.0, 0.0, T, step, sizeof step) == PJ_REFUSAL_INTERVAL);
    EXPECT(pj_cell_step(cell_lfp, sizeof cell_lfp, 3.0, 10.0, 500.0, step, sizeof step) == PJ_REFUSAL_TEMPERATURE);

    memcpy(bad_cell, new_cell, sizeof new_cell);
    pj_put_f64(bad_cell, PJ_AT_NEW_CELL_ANODE + PJ_AT_SHEET_D_S_REF, 1e-8);
    pj_put_f64(bad_cell, PJ_AT_NEW_CELL_ANODE + PJ_AT_SHEET_E_A_DS, 5e4);
    EXPECT(build(PJ_BUILD_CELL, bad_cell, sizeof bad_cell, cell_of, sizeof cell_of) == PJ_REFUSAL_NONE);
    EXPECT(pj_cell_step(cell_of, sizeof cell_of, 3.0, 10.0, 350.0, step, sizeof step) == PJ_REFUSAL_DIFFUSIVITY);
    memcpy(bad_cell, new_cell, sizeof new_cell);
    pj_put_f64(bad_cell, PJ_AT_NEW_CELL_ANODE + PJ_AT_SHEET_R_PARTICLE, 1e-7);
    EXPECT(build(PJ_BUILD_CELL, bad_cell, sizeof bad_cell, cell_of, sizeof cell_of) == PJ_REFUSAL_NONE);
    EXPECT(pj_cell_step(cell_of, sizeof cell_of, 3.0, 86400.0, T, step, sizeof step) == PJ_REFUSAL_SUB_STEPS);

    memcpy(bad_salt, electrolyte, sizeof electrolyte);
    pj_put_f64(bad_salt, PJ_AT_ELECTROLYTE_C_E, 1.7e308);
    pj_put_f64(bad_salt, PJ_AT_ELECTROLYTE_C_E + 16, 1.7e308);
    EXPECT(pj_number(PJ_NUMBER_ELECTROLYTE_AVG, bad_salt, sizeof bad_salt, 0, 0, answer, sizeof answer) == PJ_REFUSAL_NOT_FINITE);
    EXPECT(pj_solve_dense(entries, 1, right, 1, 1, solution, sizeof solution) == PJ_REFUSAL_SINGULAR);
    EXPECT(pj_solve_dense(entries, 3, right, 2, 2, solution, sizeof solution) == PJ_REFUSAL_LENGTH);
    EXPECT(pj_cell_step(cell_lfp, sizeof cell_lfp, 3.0, 10.0, T, step, sizeof step - 1) == PJ_REFUSAL_LENGTH);
    EXPECT(memcmp(step, kept, sizeof step) == 0);

    EXPECT(pj_solve_dense(entries, 4, right, 2, 2, solution, sizeof solution) == PJ_REFUSAL_NONE);
    EXPECT_F64(solution, 0, 4.0);
    EXPECT_F64(solution, 8, 3.0);
    EXPECT_U64(solution, 16, 0);
}

int main(void)
{
#ifdef SIZE_FOR_A_CALL
    /* C++ refuses these; harness/c/run sees to it */
    EXPECT(pj_number(PJ_SHEET_BYTES, empty, 0, 0, 0, run, PJ_NUMBER_BYTES) == PJ_REFUSAL_SHEET);
    EXPECT(pj_first_below(PJ_BUILD_GRAPHITE_ANODE, rows, 0, rows, 0, 0, 0, run, PJ_FOUND_BYTES) == PJ_REFUSAL_NONE);
#endif
    EXPECT(PJ_LAYOUT_VERSION == 3);
    ready_sheets();
    ready_electrolyte_params();
    ready_dfn_params();
    new_particles();
    new_cells();
    new_electrolytes();
    new_dfn_cells();
    numbers();
    reference_temperatures();
    earlier_layout();
    single_particle_steps();
    ohmic_drops();
    sub_steps();
    dfn_steps();
    discharges();
    galvanostatic_runs();
    summaries();
    searches();
    garbage_searches();
    refused_searches();
    replayed_rows();
    replay_endings();
    wrong_lines();
    refused_steps();
    refused_replays();
    cycled_rows();
    cycles_of_cutoffs();
    rest_clocks();
    places_beyond_count();
    refused_cycles();
    refused_counts();
    refusals();
    if (failures != 0) {
        fprintf(stderr, "calls.c: %d of %d do not hold\n", failures, checks);
        return 1;
    }
    printf("calls.c: every size, offset, call, refusal and ending as the header has it, %d checks\n", checks);
    return 0;
}
