/* How firmware calls the stepper: builds the ready cell graphite_nmc with 11 nodes, discharges it at 5 A down to 3 V into
 * a lent array, prints some of the rows and how the run ended, finds the first row under a chosen voltage, and shows a refusal.
 * harness/c/run compiles it and compares what it prints with expected.txt, which is the oracle's. */
#include "persimmonjib.h"

#include <inttypes.h>
#include <stdio.h>

enum { ROWS = 360, SHOWN = 15 };

static const char *const endings[] = {"", "voltage", "time", "full", "refused", "done"};
static const char *const refusals[] = {"none", "grid", "sheet", "load", "interval", "temperature",
                                       "diffusivity", "sub-steps", "not finite", "singular", "length", "line", "file"};

static const char *refusal_word(uint64_t refusal)
{
    return refusal <= PJ_REFUSAL_FILE ? refusals[refusal] : "?";
}

static int refused(const char *what, uint64_t refusal)
{
    fprintf(stderr, "%s: refused, %" PRIu64 " (%s)\n", what, refusal, refusal_word(refusal));
    return 1;
}

int main(void)
{
    static uint8_t config[PJ_CONFIG_BYTES], cell[PJ_CELL_BYTES], answer[PJ_CELL_RUN_BYTES], soc[PJ_NUMBER_BYTES];
    static double rows[PJ_ROW_DOUBLES * ROWS], lowest[PJ_GROUPS(ROWS)];
    const double current_a = 5.0, dt = 10.0, temp_k = 298.15, max_time_s = 3600.0, chosen = 3.5;

    pj_put_u64(config, PJ_AT_CONFIG_N_NODES, 11);
    pj_put_f64(config, PJ_AT_CONFIG_V_MIN, 3.0);
    pj_put_f64(config, PJ_AT_CONFIG_V_MAX, 4.2);
    pj_put_f64(config, PJ_AT_CONFIG_FARADAY, 96485.0);
    pj_put_f64(config, PJ_AT_CONFIG_R_GAS, 8.314);
    pj_put_f64(config, PJ_AT_CONFIG_R_ELECTROLYTE_OHM_M2, 2e-4);
    uint64_t refusal = pj_build(PJ_BUILD_CELL_NMC, config, sizeof config, cell, sizeof cell);
    if (refusal != PJ_REFUSAL_NONE)
        return refused("graphite_nmc", refusal);

    /* rows_len and lowest_len count doubles. The answer is new, so its ending is 0 unless the run writes it. */
    refusal = pj_simulate_discharge(cell, sizeof cell, current_a, dt, temp_k, max_time_s, rows, PJ_ROW_DOUBLES * ROWS, lowest,
                                    PJ_GROUPS(ROWS), answer, sizeof answer);
    uint64_t ending = pj_get_u64(answer, PJ_AT_CELL_ENDING + PJ_AT_ENDING_HOW);
    uint64_t count = pj_get_u64(answer, PJ_AT_CELL_ENDING + PJ_AT_ENDING_ROWS);
    if (refusal != PJ_REFUSAL_NONE)
        return refused(ending == PJ_ENDED_REFUSED ? "a later step" : "simulate_discharge", refusal);

    printf("graphite_nmc, 11 nodes, %.1f A, %.1f s a step, %.2f K\n", current_a, dt, temp_k);
    printf("  time_s   voltage          its bits  theta_neg  theta_pos\n");
    for (uint64_t i = 0; i < count; i++) {
        const double *row = rows + PJ_ROW_DOUBLES * i;
        uint64_t bits;
        memcpy(&bits, &row[PJ_CELL_ROW_VOLTAGE], sizeof bits);
        if ((i + 1) % SHOWN == 0 || i + 1 == count)
            printf("%8.1f  %8.6f  %016" PRIX64 "  %9.7f  %9.7f\n", row[PJ_CELL_ROW_TIME_S], row[PJ_CELL_ROW_VOLTAGE], bits,
                   row[PJ_CELL_ROW_THETA_NEG], row[PJ_CELL_ROW_THETA_POS]);
    }
    printf("ended by %s after %" PRIu64 " rows\n", endings[ending], count);

    /* The first row under a voltage, by the lowest voltages of groups of rows; a read of all rows finds the same. */
    static uint8_t found[PJ_FOUND_BYTES];
    refusal = pj_first_below(PJ_RUN_DISCHARGE, rows, PJ_ROW_DOUBLES * ROWS, lowest, PJ_GROUPS(ROWS), count, chosen, found, sizeof found);
    if (refusal != PJ_REFUSAL_NONE)
        return refused("first_below", refusal);
    if (pj_get_u64(found, PJ_AT_FOUND_HOW) == PJ_FOUND_NONE) {
        printf("no row under %.2f V\n", chosen);
        return 1;
    }
    uint64_t first = pj_get_u64(found, PJ_AT_FOUND_ROW), read = 0;
    while (read < count && !(rows[PJ_ROW_DOUBLES * read + PJ_CELL_ROW_VOLTAGE] < chosen))
        read++;
    const double *row = rows + PJ_ROW_DOUBLES * first;
    printf("first under %.2f V: row %" PRIu64 " from 0, %.6f V at %.1f s; a full read finds %s\n", chosen, first, row[PJ_CELL_ROW_VOLTAGE],
           row[PJ_CELL_ROW_TIME_S], read == first ? "the same" : "another");

    /* The answer begins with the cell after the run: it is handed in again. */
    refusal = pj_number(PJ_NUMBER_SOC_ESTIMATE, answer, PJ_CELL_BYTES, 0.0, 0.0, soc, sizeof soc);
    if (refusal != PJ_REFUSAL_NONE)
        return refused("soc_estimate", refusal);
    printf("state of charge %.6f\n", pj_get_f64(soc, 0));

    /* A refusal is a number, and nothing changes. */
    static uint8_t step[PJ_CELL_STEP_BYTES], kept[PJ_CELL_STEP_BYTES];
    refusal = pj_cell_step(answer, PJ_CELL_BYTES, current_a, dt, 500.0, step, sizeof step);
    printf("a step at 500 K is refused: %" PRIu64 ", %s; the answer is %s\n", refusal, refusal_word(refusal),
           memcmp(step, kept, sizeof step) == 0 ? "unchanged" : "changed");
    return 0;
}
