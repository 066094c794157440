/* Holds the ranges that persimmonjib.h states to the archive: each field and argument is accepted at both ends and refused one
 * binary64 or one whole number beyond, and as a NaN. Prints one line. */
#include "persimmonjib.h"

#include <float.h>
#include <stdio.h>

static int failures, checks;
static const double T = 298.15;
static const uint8_t empty[1] = {0};
static uint8_t answer[PJ_DFN_STEP_BYTES];

static void expect(int line, const char *what, uint64_t got, uint64_t wanted)
{
    checks++;
    if (got != wanted) {
        failures++;
        fprintf(stderr, "ranges.c:%d: %s: %d and not %d\n", line, what, (int)got, (int)wanted);
    }
}

/* The binary64 beside an end, above or below it. */
static double beside(double end, int above)
{
    uint64_t word;
    memcpy(&word, &end, sizeof word);
    if (end == 0.0)
        word = above ? 1 : UINT64_C(0x8000000000000001);
    else
        word += (end > 0.0) == above ? UINT64_C(1) : ~UINT64_C(0);
    memcpy(&end, &word, sizeof end);
    return end;
}

static double not_a_number(void)
{
    const uint64_t word = UINT64_C(0x7FF8000000000000);
    double nan;
    memcpy(&nan, &word, sizeof nan);
    return nan;
}

/* ---- fields, by a build that takes them ---- */
struct field {
    size_t at;
    double low, high;
};

struct count {
    size_t at;
    uint64_t low, high, refusal;
};

static uint64_t with_number(pj_build_call_t call, uint8_t *image, size_t bytes, size_t answer_bytes, size_t at, double number)
{
    const uint64_t kept = pj_get_u64(image, at);
    uint64_t refusal;
    pj_put_f64(image, at, number);
    refusal = pj_build(call, image, bytes, answer, answer_bytes);
    pj_put_u64(image, at, kept);
    return refusal;
}

static uint64_t with_count(pj_build_call_t call, uint8_t *image, size_t bytes, size_t answer_bytes, size_t at, uint64_t whole)
{
    const uint64_t kept = pj_get_u64(image, at);
    uint64_t refusal;
    pj_put_u64(image, at, whole);
    refusal = pj_build(call, image, bytes, answer, answer_bytes);
    pj_put_u64(image, at, kept);
    return refusal;
}

#define LENGTH(list) (sizeof list / sizeof list[0])

static void fields(int line, pj_build_call_t call, uint8_t *image, size_t bytes, size_t made, const struct field *list, size_t length)
{
    size_t i;
    for (i = 0; i < length; i++) {
        const struct field f = list[i];
        char what[40];
        sprintf(what, "field at %u", (unsigned)f.at);
        expect(line, what, with_number(call, image, bytes, made, f.at, f.low), PJ_REFUSAL_NONE);
        expect(line, what, with_number(call, image, bytes, made, f.at, f.high), PJ_REFUSAL_NONE);
        expect(line, what, with_number(call, image, bytes, made, f.at, beside(f.low, 0)), PJ_REFUSAL_SHEET);
        expect(line, what, with_number(call, image, bytes, made, f.at, beside(f.high, 1)), PJ_REFUSAL_SHEET);
        expect(line, what, with_number(call, image, bytes, made, f.at, not_a_number()), PJ_REFUSAL_SHEET);
    }
}

static void counts(int line, pj_build_call_t call, uint8_t *image, size_t bytes, size_t made, const struct count *list, size_t length)
{
    size_t i;
    for (i = 0; i < length; i++) {
        const struct count c = list[i];
        char what[40];
        sprintf(what, "count at %u", (unsigned)c.at);
        expect(line, what, with_count(call, image, bytes, made, c.at, c.low), PJ_REFUSAL_NONE);
        expect(line, what, with_count(call, image, bytes, made, c.at, c.high), PJ_REFUSAL_NONE);
        if (c.low > 0)
            expect(line, what, with_count(call, image, bytes, made, c.at, c.low - 1), c.refusal);
        expect(line, what, with_count(call, image, bytes, made, c.at, c.high + 1), c.refusal);
    }
}

static uint8_t new_particle[PJ_NEW_PARTICLE_BYTES], config[PJ_CONFIG_BYTES], regions[PJ_REGIONS_BYTES], new_dfn[PJ_NEW_DFN_BYTES];

static void sheets(void)
{
    static const struct field list[] = {
        {PJ_AT_SHEET_R_PARTICLE, 1e-8, 1e-3}, {PJ_AT_SHEET_D_S_REF, 1e-20, 1e-8}, {PJ_AT_SHEET_C_S_MAX, 1, 131072},
        {PJ_AT_SHEET_THETA_INIT, 0, 1}, {PJ_AT_SHEET_THICKNESS, 1e-7, 1e-2}, {PJ_AT_SHEET_EPSILON_S, 0.01, 1},
        {PJ_AT_SHEET_AREA, 1e-6, 1e4}, {PJ_AT_SHEET_E_A_DS, 0, 1e5}, {PJ_AT_SHEET_K_BV, 1e-16, 1},
        {PJ_AT_SHEET_T_REF, 200, 400},
    };
    static const struct count whole[] = {{PJ_AT_SHEET_CHEMISTRY, 1, 3, PJ_REFUSAL_SHEET}, {PJ_AT_NEW_PARTICLE_N_NODES, 3, 64, PJ_REFUSAL_GRID}};
    expect(__LINE__, "sheet", pj_build(PJ_BUILD_GRAPHITE_ANODE, empty, 0, new_particle, PJ_SHEET_BYTES), PJ_REFUSAL_NONE);
    pj_put_u64(new_particle, PJ_AT_NEW_PARTICLE_N_NODES, 5);
    fields(__LINE__, PJ_BUILD_PARTICLE, new_particle, sizeof new_particle, PJ_PARTICLE_BYTES, list, LENGTH(list));
    counts(__LINE__, PJ_BUILD_PARTICLE, new_particle, sizeof new_particle, PJ_PARTICLE_BYTES, whole, LENGTH(whole));
}

static void configs(void)
{
    static const struct field list[] = {
        {PJ_AT_CONFIG_V_MIN, -10, 10}, {PJ_AT_CONFIG_V_MAX, -10, 10}, {PJ_AT_CONFIG_FARADAY, 9e4, 1e5},
        {PJ_AT_CONFIG_R_GAS, 8, 9}, {PJ_AT_CONFIG_R_ELECTROLYTE_OHM_M2, 0, 1},
    };
    static const struct count whole[] = {{PJ_AT_CONFIG_N_NODES, 3, 64, PJ_REFUSAL_GRID}};
    pj_put_u64(config, PJ_AT_CONFIG_N_NODES, 11);
    pj_put_f64(config, PJ_AT_CONFIG_V_MIN, 2.5);
    pj_put_f64(config, PJ_AT_CONFIG_V_MAX, 4.2);
    pj_put_f64(config, PJ_AT_CONFIG_FARADAY, 96485.0);
    pj_put_f64(config, PJ_AT_CONFIG_R_GAS, 8.314);
    pj_put_f64(config, PJ_AT_CONFIG_R_ELECTROLYTE_OHM_M2, 2e-4);
    fields(__LINE__, PJ_BUILD_CELL_LFP, config, sizeof config, PJ_CELL_BYTES, list, LENGTH(list));
    counts(__LINE__, PJ_BUILD_CELL_NMC, config, sizeof config, PJ_CELL_BYTES, whole, LENGTH(whole));
}

static void electrolytes(void)
{
    static const struct field list[] = {
        {PJ_AT_ELECTROLYTE_PARAMS_D_E_REF, 1e-16, 1e-6}, {PJ_AT_ELECTROLYTE_PARAMS_KAPPA_REF, 1e-6, 100}, {PJ_AT_ELECTROLYTE_PARAMS_T_PLUS, 0, 1}, {PJ_AT_ELECTROLYTE_PARAMS_BRUGGEMAN, 0, 4},
        {PJ_AT_ELECTROLYTE_PARAMS_C_E_INIT, 1, 1e5}, {PJ_AT_ELECTROLYTE_PARAMS_E_A_DE, 0, 1e5}, {PJ_AT_ELECTROLYTE_PARAMS_E_A_KAPPA, 0, 1e5},
        {PJ_AT_ELECTROLYTE_PARAMS_T_REF, 200, 400},
        {PJ_AT_REGIONS_L_NEG, 1e-7, 1e-2}, {PJ_AT_REGIONS_L_SEP, 1e-7, 1e-2}, {PJ_AT_REGIONS_L_POS, 1e-7, 1e-2},
        {PJ_AT_REGIONS_EPS_NEG, 0.01, 1}, {PJ_AT_REGIONS_EPS_SEP, 0.01, 1}, {PJ_AT_REGIONS_EPS_POS, 0.01, 1},
    };
    static const struct count whole[] = {
        {PJ_AT_REGIONS_N_NEG, 1, 32, PJ_REFUSAL_GRID}, {PJ_AT_REGIONS_N_SEP, 1, 32, PJ_REFUSAL_GRID}, {PJ_AT_REGIONS_N_POS, 1, 32, PJ_REFUSAL_GRID}};
    size_t i;
    expect(__LINE__, "salt", pj_build(PJ_BUILD_LIPF6_EC_DMC, empty, 0, regions, PJ_ELECTROLYTE_PARAMS_BYTES), PJ_REFUSAL_NONE);
    for (i = 0; i < 3; i++) {
        pj_put_f64(regions, PJ_AT_REGIONS_L_NEG + 8 * i, 1e-4);
        pj_put_f64(regions, PJ_AT_REGIONS_EPS_NEG + 8 * i, 0.4);
        pj_put_u64(regions, PJ_AT_REGIONS_N_NEG + 8 * i, 2);
    }
    fields(__LINE__, PJ_BUILD_ELECTROLYTE, regions, sizeof regions, PJ_ELECTROLYTE_BYTES, list, LENGTH(list));
    counts(__LINE__, PJ_BUILD_ELECTROLYTE, regions, sizeof regions, PJ_ELECTROLYTE_BYTES, whole, LENGTH(whole));
}

enum { DFN_CONFIG = PJ_AT_NEW_DFN_CONFIG };

static void dfn_cells(void)
{
    static const struct field list[] = {
        {PJ_AT_DFN_PARAMS_L_NEG, 1e-7, 1e-2}, {PJ_AT_DFN_PARAMS_L_SEP, 1e-7, 1e-2}, {PJ_AT_DFN_PARAMS_L_POS, 1e-7, 1e-2},
        {PJ_AT_DFN_PARAMS_AREA, 1e-6, 1e4}, {PJ_AT_DFN_PARAMS_R_NEG, 1e-8, 1e-3}, {PJ_AT_DFN_PARAMS_D_S_NEG_REF, 1e-20, 1e-8},
        {PJ_AT_DFN_PARAMS_C_S_NEG_MAX, 1, 131072}, {PJ_AT_DFN_PARAMS_EPS_NEG, 0.01, 1}, {PJ_AT_DFN_PARAMS_THETA_NEG_0, 0, 1},
        {PJ_AT_DFN_PARAMS_K_NEG, 1e-16, 1}, {PJ_AT_DFN_PARAMS_R_POS, 1e-8, 1e-3}, {PJ_AT_DFN_PARAMS_D_S_POS_REF, 1e-20, 1e-8},
        {PJ_AT_DFN_PARAMS_C_S_POS_MAX, 1, 131072}, {PJ_AT_DFN_PARAMS_EPS_POS, 0.01, 1}, {PJ_AT_DFN_PARAMS_THETA_POS_0, 0, 1},
        {PJ_AT_DFN_PARAMS_K_POS, 1e-16, 1}, {PJ_AT_DFN_PARAMS_C_E0, 1, 1e5}, {PJ_AT_DFN_PARAMS_D_E0, 1e-16, 1e-6},
        {PJ_AT_DFN_PARAMS_GAMMA_E, 0, 1000}, {PJ_AT_DFN_PARAMS_T_PLUS, 0, 1}, {PJ_AT_DFN_PARAMS_KAPPA0, 1e-6, 100},
        {PJ_AT_DFN_PARAMS_EPS_E_ELEC, 0.01, 1}, {PJ_AT_DFN_PARAMS_EPS_E_SEP, 0.01, 1}, {PJ_AT_DFN_PARAMS_BRUGG, 0, 4},
        {PJ_AT_DFN_PARAMS_TEMPERATURE_K, 200, 400}, {PJ_AT_DFN_PARAMS_OCV_NEG_COEFFS, -1000, 1000},
        {PJ_AT_DFN_PARAMS_OCV_POS_COEFFS + 8, -1000, 1000}, {DFN_CONFIG + PJ_AT_DFN_CONFIG_V_MIN, -10, 10},
        {DFN_CONFIG + PJ_AT_DFN_CONFIG_V_MAX, -10, 10},
    };
    static const struct count grid[] = {
        {DFN_CONFIG + PJ_AT_DFN_CONFIG_N_X_NEG, 1, 16, PJ_REFUSAL_GRID}, {DFN_CONFIG + PJ_AT_DFN_CONFIG_N_X_POS, 1, 16, PJ_REFUSAL_GRID},
        {DFN_CONFIG + PJ_AT_DFN_CONFIG_N_R, 2, 32, PJ_REFUSAL_GRID}};
    static const struct count coefficients[] = {
        {PJ_AT_DFN_PARAMS_OCV_NEG_COUNT, 0, 16, PJ_REFUSAL_SHEET}, {PJ_AT_DFN_PARAMS_OCV_POS_COUNT, 0, 16, PJ_REFUSAL_SHEET}};
    size_t i;
    expect(__LINE__, "DFN parameters", pj_build(PJ_BUILD_NMC_GRAPHITE, empty, 0, new_dfn, PJ_DFN_PARAMS_BYTES), PJ_REFUSAL_NONE);
    for (i = 0; i < 3; i++)
        pj_put_u64(new_dfn, DFN_CONFIG + 8 * i, 3);
    pj_put_f64(new_dfn, DFN_CONFIG + PJ_AT_DFN_CONFIG_V_MIN, 2.5);
    pj_put_f64(new_dfn, DFN_CONFIG + PJ_AT_DFN_CONFIG_V_MAX, 4.3);
    fields(__LINE__, PJ_BUILD_DFN, new_dfn, sizeof new_dfn, PJ_DFN_CELL_BYTES, list, LENGTH(list));
    counts(__LINE__, PJ_BUILD_DFN, new_dfn, sizeof new_dfn, PJ_DFN_CELL_BYTES, grid, LENGTH(grid));
    /* places that are not used are +0: with none used, all of them */
    for (i = 0; i < 2; i++) {
        pj_put_u64(new_dfn, PJ_AT_DFN_PARAMS_OCV_NEG_COEFFS + 8 * i, 0);
        pj_put_u64(new_dfn, PJ_AT_DFN_PARAMS_OCV_POS_COEFFS + 8 * i, 0);
    }
    counts(__LINE__, PJ_BUILD_DFN, new_dfn, sizeof new_dfn, PJ_DFN_CELL_BYTES, coefficients, LENGTH(coefficients));
}

/* ---- arguments ---- */
/* coarse: a cell of three nodes, which takes 86,400 s in less than 4,096 sub-steps */
static uint8_t particle[PJ_PARTICLE_BYTES], cell[PJ_CELL_BYTES], coarse[PJ_CELL_BYTES], electrolyte[PJ_ELECTROLYTE_BYTES], dfn[PJ_DFN_CELL_BYTES];
/* a row for each step of the largest budget */
enum { MOST_STEPS = 100000 };
static double rows[PJ_ROW_DOUBLES * (MOST_STEPS + 1)], lowest[1];

/* Each call as a function of one of its arguments. */
static uint64_t flux(double x) { return pj_particle_step(particle, sizeof particle, x, 1.0, T, answer, PJ_PARTICLE_BYTES); }
static uint64_t particle_dt(double x) { return pj_particle_step(particle, sizeof particle, 0.0, x, T, answer, PJ_PARTICLE_BYTES); }
static uint64_t particle_temp(double x) { return pj_particle_step(particle, sizeof particle, 0.0, 1.0, x, answer, PJ_PARTICLE_BYTES); }
static uint64_t current(double x) { return pj_cell_step(cell, sizeof cell, x, 1.0, T, answer, PJ_CELL_STEP_BYTES); }
static uint64_t cell_temp(double x) { return pj_cell_step(cell, sizeof cell, 1.0, 1.0, x, answer, PJ_CELL_STEP_BYTES); }
static uint64_t source_neg(double x) { return pj_electrolyte_step(electrolyte, sizeof electrolyte, x, 0.0, 1.0, T, answer, PJ_ELECTROLYTE_BYTES); }
static uint64_t source_pos(double x) { return pj_electrolyte_step(electrolyte, sizeof electrolyte, 0.0, x, 1.0, T, answer, PJ_ELECTROLYTE_BYTES); }
static uint64_t salt_dt(double x) { return pj_electrolyte_step(electrolyte, sizeof electrolyte, 0.0, 0.0, x, T, answer, PJ_ELECTROLYTE_BYTES); }
static uint64_t salt_temp(double x) { return pj_electrolyte_step(electrolyte, sizeof electrolyte, 0.0, 0.0, 1.0, x, answer, PJ_ELECTROLYTE_BYTES); }
static uint64_t dfn_current(double x) { return pj_dfn_step(dfn, sizeof dfn, x, 1.0, answer, PJ_DFN_STEP_BYTES); }
static uint64_t dfn_dt(double x) { return pj_dfn_step(dfn, sizeof dfn, 0.0, x, answer, PJ_DFN_STEP_BYTES); }
/* A run of one row, which is one group. */
static uint64_t run(double current_a, double temp_k, double max_time_s)
{
    return pj_simulate_discharge(cell, sizeof cell, current_a, 1.0, temp_k, max_time_s, rows, PJ_ROW_DOUBLES, lowest, 1, answer, PJ_CELL_RUN_BYTES);
}

static uint64_t dfn_run(double current_a, double max_time_s)
{
    return pj_run_galvanostatic(dfn, sizeof dfn, current_a, 1.0, max_time_s, rows, PJ_ROW_DOUBLES, lowest, 1, answer, PJ_DFN_RUN_BYTES);
}

static uint64_t search(uint64_t which, double voltage)
{
    return pj_first_below(which, rows, PJ_ROW_DOUBLES, lowest, 1, 1, voltage, answer, PJ_FOUND_BYTES);
}

static uint64_t run_current(double x) { return run(x, T, 1.0); }
static uint64_t run_temp(double x) { return run(1.0, x, 1.0); }
static uint64_t run_limit(double x) { return run(1.0, T, x); }
static uint64_t dfn_run_current(double x) { return dfn_run(x, 1.0); }
static uint64_t dfn_run_limit(double x) { return dfn_run(0.0, x); }
static uint64_t chosen_voltage(double x) { return search(PJ_RUN_DISCHARGE, x); }
static uint64_t replay(double dt, double current_a, double temp_k)
{
    static uint8_t text[PJ_LINE_BYTES];
    pj_put_line(text, 0, dt, current_a);
    return pj_replay(coarse, sizeof coarse, text, sizeof text, temp_k, rows, PJ_ROW_DOUBLES, answer, PJ_CELL_RUN_BYTES);
}

static uint64_t replay_current(double x) { return replay(1.0, x, T); }
static uint64_t replay_dt(double x) { return replay(x, 0.0, T); }
static uint64_t replay_temp(double x) { return replay(1.0, 1.0, x); }

/* A cycle of one phase, of one step. */
static uint64_t one_phase(uint64_t kind, double number, double dt, double temp_k)
{
    static uint8_t phases[PJ_PHASES_BYTES];
    pj_put_phase(phases, 0, kind, number);
    return pj_cycle(coarse, sizeof coarse, phases, sizeof phases, 1, 1, 1, dt, temp_k, rows, PJ_ROW_DOUBLES, answer, PJ_CELL_RUN_BYTES);
}

static uint64_t charge_current(double x) { return one_phase(PJ_PHASE_CHARGE, x, 1.0, T); }
static uint64_t discharge_current(double x) { return one_phase(PJ_PHASE_DISCHARGE, x, 1.0, T); }
static uint64_t rest_time(double x) { return one_phase(PJ_PHASE_REST, x, 1.0, T); }
static uint64_t cycle_dt(double x) { return one_phase(PJ_PHASE_REST, 0.0, x, T); }
static uint64_t cycle_temp(double x) { return one_phase(PJ_PHASE_REST, 0.0, 1.0, x); }
static uint64_t theta(double x) { return pj_number(PJ_NUMBER_OCP, new_particle, PJ_SHEET_BYTES, x, 0.0, answer, PJ_NUMBER_BYTES); }
static uint64_t radius(double x) { return pj_number(PJ_NUMBER_SPHERE_VOLUME, empty, 0, x, 0.0, answer, PJ_NUMBER_BYTES); }
static uint64_t porosity(double x) { return pj_number(PJ_NUMBER_D_E_EFF, regions, PJ_ELECTROLYTE_PARAMS_BYTES, x, T, answer, PJ_NUMBER_BYTES); }
static uint64_t salt_k(double x) { return pj_number(PJ_NUMBER_KAPPA, regions, PJ_ELECTROLYTE_PARAMS_BYTES, 0.0, x, answer, PJ_NUMBER_BYTES); }

static uint64_t clock_s(double x)
{
    uint64_t refusal;
    pj_put_f64(cell, PJ_AT_CELL_TIME_S, x);
    refusal = pj_cell_step(cell, sizeof cell, 1.0, 1.0, T, answer, PJ_CELL_STEP_BYTES);
    pj_put_f64(cell, PJ_AT_CELL_TIME_S, 0.0);
    return refusal;
}

struct argument {
    const char *name;
    uint64_t (*call)(double);
    double low, high;
    uint64_t refusal;
};

static void arguments(void)
{
    static const struct argument list[] = {
        {"flux", flux, -1e13, 1e13, PJ_REFUSAL_LOAD}, {"current", current, -1e6, 1e6, PJ_REFUSAL_LOAD},
        {"source_neg", source_neg, -1e9, 1e9, PJ_REFUSAL_LOAD}, {"source_pos", source_pos, -1e9, 1e9, PJ_REFUSAL_LOAD},
        {"dfn_current", dfn_current, -1e6, 1e6, PJ_REFUSAL_LOAD}, {"run_current", run_current, -1e6, 1e6, PJ_REFUSAL_LOAD},
        {"dfn_run_current", dfn_run_current, -1e6, 1e6, PJ_REFUSAL_LOAD}, {"replay_current", replay_current, -1e6, 1e6, PJ_REFUSAL_LOAD},
        {"charge_current", charge_current, DBL_MIN, 1e6, PJ_REFUSAL_LOAD}, {"discharge_current", discharge_current, DBL_MIN, 1e6, PJ_REFUSAL_LOAD},
        {"rest_time", rest_time, 0, 1e9, PJ_REFUSAL_INTERVAL}, {"cycle_dt", cycle_dt, DBL_MIN, 86400, PJ_REFUSAL_INTERVAL},
        {"particle_dt", particle_dt, DBL_MIN, 86400, PJ_REFUSAL_INTERVAL}, {"salt_dt", salt_dt, DBL_MIN, 86400, PJ_REFUSAL_INTERVAL},
        {"dfn_dt", dfn_dt, DBL_MIN, 86400, PJ_REFUSAL_INTERVAL}, {"replay_dt", replay_dt, DBL_MIN, 86400, PJ_REFUSAL_INTERVAL},
        {"particle_temp", particle_temp, 200, 400, PJ_REFUSAL_TEMPERATURE}, {"cell_temp", cell_temp, 200, 400, PJ_REFUSAL_TEMPERATURE},
        {"salt_temp", salt_temp, 200, 400, PJ_REFUSAL_TEMPERATURE}, {"run_temp", run_temp, 200, 400, PJ_REFUSAL_TEMPERATURE},
        {"salt_k", salt_k, 200, 400, PJ_REFUSAL_TEMPERATURE}, {"replay_temp", replay_temp, 200, 400, PJ_REFUSAL_TEMPERATURE},
        {"cycle_temp", cycle_temp, 200, 400, PJ_REFUSAL_TEMPERATURE},
        {"run_limit", run_limit, -DBL_MAX, DBL_MAX, PJ_REFUSAL_INTERVAL}, {"dfn_run_limit", dfn_run_limit, -DBL_MAX, DBL_MAX, PJ_REFUSAL_INTERVAL},
        {"theta", theta, -DBL_MAX, DBL_MAX, PJ_REFUSAL_SHEET}, {"radius", radius, 1e-8, 1e-3, PJ_REFUSAL_SHEET},
        {"porosity", porosity, 0.01, 1, PJ_REFUSAL_SHEET}, {"clock", clock_s, 0, DBL_MAX, PJ_REFUSAL_SHEET},
        {"chosen_voltage", chosen_voltage, -DBL_MAX, DBL_MAX, PJ_REFUSAL_SHEET},
    };
    size_t i;
    for (i = 0; i < LENGTH(list); i++) {
        const struct argument a = list[i];
        /* an interval and a phase's current are open at 0 */
        const double below = a.low == DBL_MIN ? 0.0 : beside(a.low, 0);
        expect(__LINE__, a.name, a.call(a.low), PJ_REFUSAL_NONE);
        expect(__LINE__, a.name, a.call(a.high), PJ_REFUSAL_NONE);
        expect(__LINE__, a.name, a.call(below), a.refusal);
        expect(__LINE__, a.name, a.call(beside(a.high, 1)), a.refusal);
        expect(__LINE__, a.name, a.call(not_a_number()), a.refusal);
    }
}

/* The kinds of a phase, its current and its time about 0, and the counts of a cycle, each of which is one rest of 0 s. */
static void cycles(void)
{
    static const struct {
        size_t count, repeats, budget;
        uint64_t refusal;
    } list[] = {
        {1, 1, 1, PJ_REFUSAL_NONE}, {8, 1000, MOST_STEPS, PJ_REFUSAL_NONE},
        {0, 1, 1, PJ_REFUSAL_GRID}, {9, 1, 1, PJ_REFUSAL_GRID}, {1, 0, 1, PJ_REFUSAL_GRID}, {1, 1001, 1, PJ_REFUSAL_GRID},
        {1, 1, 0, PJ_REFUSAL_GRID}, {1, 1, MOST_STEPS + 1, PJ_REFUSAL_GRID}, {SIZE_MAX, 1, 1, PJ_REFUSAL_GRID},
        {1, SIZE_MAX, 1, PJ_REFUSAL_GRID}, {1, 1, SIZE_MAX, PJ_REFUSAL_GRID},
    };
    static uint8_t phases[PJ_PHASES_BYTES];
    size_t i;
    for (i = 0; i < PJ_PHASE_PLACES; i++)
        pj_put_phase(phases, i, PJ_PHASE_REST, 0.0);
    for (i = 0; i < LENGTH(list); i++)
        expect(__LINE__, "counts of a cycle",
               pj_cycle(coarse, sizeof coarse, phases, sizeof phases, list[i].count, list[i].repeats, list[i].budget, 1.0, T, rows,
                        LENGTH(rows), answer, PJ_CELL_RUN_BYTES),
               list[i].refusal);
    for (i = 0; i < 6; i++)
        expect(__LINE__, "a kind of phase", one_phase(i, 1.0, 1.0, T), 1 <= i && i <= 3 ? PJ_REFUSAL_NONE : PJ_REFUSAL_SHEET);
    expect(__LINE__, "a kind of phase", one_phase(UINT64_C(1) << 63, 1.0, 1.0, T), PJ_REFUSAL_SHEET);
    expect(__LINE__, "a kind of phase", one_phase((UINT64_C(1) << 32) + 1, 1.0, 1.0, T), PJ_REFUSAL_SHEET);
    expect(__LINE__, "a charge of -0 A", one_phase(PJ_PHASE_CHARGE, -0.0, 1.0, T), PJ_REFUSAL_LOAD);
    expect(__LINE__, "a discharge of -0 A", one_phase(PJ_PHASE_DISCHARGE, -0.0, 1.0, T), PJ_REFUSAL_LOAD);
    expect(__LINE__, "a charge of -1 A", one_phase(PJ_PHASE_CHARGE, -1.0, 1.0, T), PJ_REFUSAL_LOAD);
    expect(__LINE__, "a rest of -0 s", one_phase(PJ_PHASE_REST, -0.0, 1.0, T), PJ_REFUSAL_NONE);
}

/* Which run wrote the rows; the least lengths for counts about a group. */
static void searches(void)
{
    static const uint64_t far_off[] = {(UINT64_C(1) << 32) + 1, UINT64_C(1) << 63, UINT64_MAX};
    size_t i;
    for (i = 0; i < 5; i++)
        expect(__LINE__, "which run", search(i, 3.0), 1 <= i && i <= 2 ? PJ_REFUSAL_NONE : PJ_REFUSAL_SHEET);
    for (i = 0; i < LENGTH(far_off); i++)
        expect(__LINE__, "which run", search(far_off[i], 3.0), PJ_REFUSAL_SHEET);
    expect(__LINE__, "64 rows", pj_first_below(1, rows, 512, lowest, 1, 64, 3.0, answer, PJ_FOUND_BYTES), PJ_REFUSAL_NONE);
    expect(__LINE__, "a double too few", pj_first_below(1, rows, 511, lowest, 1, 64, 3.0, answer, PJ_FOUND_BYTES), PJ_REFUSAL_LENGTH);
    expect(__LINE__, "no group", pj_first_below(1, rows, 512, lowest, 0, 64, 3.0, answer, PJ_FOUND_BYTES), PJ_REFUSAL_LENGTH);
    expect(__LINE__, "65 rows", pj_first_below(1, rows, 520, lowest, 1, 65, 3.0, answer, PJ_FOUND_BYTES), PJ_REFUSAL_LENGTH);
}

static void orders(void)
{
    static double a[33 * 33], b[33];
    size_t i;
    for (i = 0; i < 33 * 33; i++)
        a[i] = i % 33 == 0 ? 1.0 : 0.0;
    expect(__LINE__, "order 0", pj_solve_dense(a, 0, b, 0, 0, answer, PJ_SOLUTION_BYTES), PJ_REFUSAL_NONE);
    expect(__LINE__, "order 32", pj_solve_dense(a, 32 * 32, b, 32, 32, answer, PJ_SOLUTION_BYTES), PJ_REFUSAL_NONE);
    expect(__LINE__, "order 33", pj_solve_dense(a, 33 * 33, b, 33, 33, answer, PJ_SOLUTION_BYTES), PJ_REFUSAL_GRID);
    a[1] = not_a_number();
    expect(__LINE__, "a NaN entry", pj_solve_dense(a, 4, b, 2, 2, answer, PJ_SOLUTION_BYTES), PJ_REFUSAL_SHEET);
}

int main(void)
{
    sheets();
    configs();
    electrolytes();
    dfn_cells();
    expect(__LINE__, "particle", pj_build(PJ_BUILD_PARTICLE, new_particle, sizeof new_particle, particle, sizeof particle), PJ_REFUSAL_NONE);
    expect(__LINE__, "cell", pj_build(PJ_BUILD_CELL_NMC, config, sizeof config, cell, sizeof cell), PJ_REFUSAL_NONE);
    pj_put_u64(config, PJ_AT_CONFIG_N_NODES, 3);
    expect(__LINE__, "coarse cell", pj_build(PJ_BUILD_CELL_NMC, config, sizeof config, coarse, sizeof coarse), PJ_REFUSAL_NONE);
    expect(__LINE__, "electrolyte", pj_build(PJ_BUILD_ELECTROLYTE, regions, sizeof regions, electrolyte, sizeof electrolyte), PJ_REFUSAL_NONE);
    expect(__LINE__, "DFN cell", pj_build(PJ_BUILD_DFN, new_dfn, sizeof new_dfn, dfn, sizeof dfn), PJ_REFUSAL_NONE);
    arguments();
    cycles();
    searches();
    orders();
    if (failures != 0) {
        fprintf(stderr, "ranges.c: %d of %d do not hold\n", failures, checks);
        return 1;
    }
    printf("ranges.c: every range as the header has it, %d checks\n", checks);
    return 0;
}
