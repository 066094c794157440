/* The stepper for lithium cells, as C (C99) and C++ (C++11) call it: libboundary.a, made by harness/archive.
 *
 * docs/REFERENCE.md has the formulas and an input for each refusal; docs/DIFFERENCES.md where the model is wrong.
 *
 * RECORDS cross as images: words of eight bytes, the lowest byte first, with no gaps. A word is a whole number or the bit
 * pattern of a binary64; pj_get_u64, pj_get_f64, pj_put_u64 and pj_put_f64 below read and write them, at the bytes PJ_AT_...
 * Every pattern of a NaN is read as the NaN; an answer that is written holds no NaN and no infinity. Images may lie at any
 * address. Places of an array that are not used must be +0 by their bits.
 *
 * SLICES are a pointer and then a length: in bytes for images, answers and texts, in doubles for rows, lowest voltages and matrices. A pointer
 * must not be null, not even that of an empty slice; what one call is lent must not overlap; doubles are aligned to 8.
 *
 * EACH CALL RETURNS 0 or a PJ_REFUSAL_... Every length of an image and of an answer must be exact, else the call is refused with
 * PJ_REFUSAL_LENGTH before all else is looked at, but for a replay's text that is too long. A refusal changes nothing that was
 * lent; runs, below, are the exception.
 *
 * RANGES are closed, and no NaN and no infinity lies in one. A whole record is checked by every call.
 *
 * PLATFORM. The archive is for x86-64 (System V calling convention) and holds about 115 kB of code and tables. It leaves memcpy
 * and memset undefined, which the C library or the firmware has to supply, and needs nothing else: no heap, no file, no clock, no
 * C library beyond these two, no thread. Calls keep no state, so that they may run on several threads at once, each on memory of its own.
 *
 * FLOATING POINT. A call must find the processor as the System V convention has it at a program's start: round to nearest, all
 * floating-point exceptions masked, and neither flush-to-zero nor denormals-are-zero (MXCSR = 0x1F80). With both of the last on,
 * 2.1 in 100 drawn calls give other bits or another refusal (in 7.6 of 100 drawn lists of calls; harness/flush/run counts them), and
 * no proof covers that. A program that gcc links with -ffast-math starts with both on: turn them off around the calls.
 *
 * STACK. A call needs at most PJ_STACK_..._BYTES of it, whatever it is handed, and what memcpy and memset need besides.
 * harness/c/stack.py works the need out from the archive's code; harness/c/run fails where it is more than these.
 */
#ifndef PERSIMMONJIB_H
#define PERSIMMONJIB_H

#include <stddef.h>
#include <stdint.h>
#include <string.h>

/* Rises when a size, an offset, a number, the meaning of a field or what a call takes changes. Compare it with the one that you wrote for.
 * 2: a sheet and electrolyte parameters end with t_ref, so that these and the records that hold them are longer.
 * 3: pj_simulate_discharge and pj_run_galvanostatic take the summary of lowest voltages. */
#define PJ_LAYOUT_VERSION 3

#ifdef __cplusplus
extern "C" {
#endif

/* ---- what a call returns -------------------------------------------------------------------------------------------------- */

enum pj_refusal {
    PJ_REFUSAL_NONE = 0,
    PJ_REFUSAL_GRID = 1,        /* a count of nodes, a matrix's order or a cycle's count of phases, repeats or steps out of its limits */
    PJ_REFUSAL_SHEET = 2,       /* any other field, argument, place or clock out of range; a call number, phase's kind or run that is not listed */
    PJ_REFUSAL_LOAD = 3,        /* a current, flux or source not finite or too large; a phase's current not above 0 */
    PJ_REFUSAL_INTERVAL = 4,    /* dt not above 0 or above 86,400 s; a time limit that is not finite; a rest's time out of 0 to 1e9 s */
    PJ_REFUSAL_TEMPERATURE = 5, /* temp_k out of 200 to 400 K */
    PJ_REFUSAL_DIFFUSIVITY = 6, /* single-particle cell: diffusivity at temp_k out of 1e-20 to 1e-8 m^2/s */
    PJ_REFUSAL_SUB_STEPS = 7,   /* single-particle cell: dt needs more than 4,096 sub-steps */
    PJ_REFUSAL_NOT_FINITE = 8,  /* the result would hold a NaN or an infinity */
    PJ_REFUSAL_SINGULAR = 9,    /* pj_solve_dense: the largest pivot of a column is below 1e-14 */
    PJ_REFUSAL_LENGTH = 10,     /* a wrong length of image or answer; rows_len under 8, in a cycle under 8 * budget, in a search under
                                 * 8 * count; lowest_len under a run's or a search's groups of rows; a_len not n*n, b_len not n */
    PJ_REFUSAL_LINE = 11,       /* pj_replay: the next bytes of the text are not a line */
    PJ_REFUSAL_FILE = 12        /* pj_replay: a text longer than PJ_MOST_TEXT_BYTES */
};
/* Where several are met, one is returned: a call number that is not listed (2) or a text that is too long (12), then a wrong length of
 * image or answer (10), then the first of 1, 10, 2, 3, 4, 5, 6, 7, 8, 9. A replay tests 1, 10, 2, 5 before its first line, and then of each
 * line 11, 3, 4, 6, 7, 8. A cycle tests 1, 10, 2, 3, 4, 5, each of all its phases, before its first step. A search tests 10, of all three
 * lengths, and then 2, of a run that is not listed too. */

/* How a run ended: the first word after the cell in its answer. No ending is 0. */
enum pj_ending {
    PJ_ENDED_VOLTAGE = 1, /* the last row's voltage is below v_min or above v_max */
    PJ_ENDED_TIME = 2,    /* the time limit */
    PJ_ENDED_FULL = 3,    /* every whole row is written: hand the answer's cell in again, with the time that is left, to go on */
    PJ_ENDED_REFUSED = 4, /* a step or a line was refused; the call returned its number */
    PJ_ENDED_DONE = 5,    /* pj_replay: no line is left; pj_cycle: the last phase has ended */
    PJ_ENDED_SPENT = 6    /* pj_cycle: the budget of steps is made and the last phase has not ended */
};

/* What a search found: the first word of its answer. Neither is 0. */
enum pj_found {
    PJ_FOUND_ROW = 1, /* a row under the chosen voltage */
    PJ_FOUND_NONE = 2 /* no row under it */
};

/* ---- sizes of images, in bytes -------------------------------------------------------------------------------------------- */

enum pj_bytes {
    PJ_SHEET_BYTES = 88,
    PJ_PARTICLE_BYTES = 608,
    PJ_CONFIG_BYTES = 48,
    PJ_CELL_BYTES = 1272,
    PJ_REPORT_BYTES = 72,
    PJ_ELECTROLYTE_PARAMS_BYTES = 64,
    PJ_REGIONS_BYTES = 136,
    PJ_ELECTROLYTE_BYTES = 904,
    PJ_DFN_PARAMS_BYTES = 472,
    PJ_DFN_CONFIG_BYTES = 40,
    PJ_DFN_CELL_BYTES = 9008,
    PJ_DFN_REPORT_BYTES = 64,
    PJ_SOLUTION_BYTES = 256,
    PJ_ENDING_BYTES = 16,
    PJ_FOUND_BYTES = 16,
    PJ_PHASE_BYTES = 16,
    PJ_PHASES_BYTES = 128, /* PJ_PHASE_PLACES phases, one after the other */

    /* joined: what a call takes */
    PJ_NEW_PARTICLE_BYTES = 96, /* sheet, n_nodes */
    PJ_NEW_CELL_BYTES = 224,    /* config, anode's sheet, cathode's sheet */
    PJ_NEW_DFN_BYTES = 512,     /* DFN parameters, DFN config */
    /* joined: what a call answers */
    PJ_NUMBER_BYTES = 8,       /* one binary64 */
    PJ_CELL_STEP_BYTES = 1344, /* cell, report */
    PJ_CELL_RUN_BYTES = 1288,  /* cell, ending */
    PJ_DFN_STEP_BYTES = 9072,  /* DFN cell, DFN report */
    PJ_DFN_RUN_BYTES = 9024    /* DFN cell, ending */
};

/* Places of the arrays. */
enum pj_places {
    PJ_PARTICLE_PLACES = 64,
    PJ_ELECTROLYTE_PLACES = 96,
    PJ_DFN_SOLID_PLACES = 512,
    PJ_DFN_ELECTROLYTE_PLACES = 33,
    PJ_COEFFICIENT_PLACES = 16,
    PJ_SOLUTION_PLACES = 32,
    PJ_PHASE_PLACES = 8
};

/* ---- fields, by the byte of their record at which they begin -------------------------------------------------------------- */

enum pj_chemistry { PJ_CHEMISTRY_GRAPHITE = 1, PJ_CHEMISTRY_LFP = 2, PJ_CHEMISTRY_NMC = 3 };

enum pj_phase { PJ_PHASE_CHARGE = 1, PJ_PHASE_REST = 2, PJ_PHASE_DISCHARGE = 3 };

/* One enumeration, so that the offset of a record and of a field in it may be added. */
enum pj_at {
    /* a sheet */
    PJ_AT_SHEET_CHEMISTRY = 0,   /* whole: PJ_CHEMISTRY_... */
    PJ_AT_SHEET_R_PARTICLE = 8,  /* m, 1e-8 to 1e-3 */
    PJ_AT_SHEET_D_S_REF = 16,    /* m^2/s at t_ref, 1e-20 to 1e-8 */
    PJ_AT_SHEET_C_S_MAX = 24,    /* mol/m^3, 1 to 131,072 */
    PJ_AT_SHEET_THETA_INIT = 32, /* 0 to 1; 0 is empty of lithium, 1 is full */
    PJ_AT_SHEET_THICKNESS = 40,  /* m, 1e-7 to 1e-2 */
    PJ_AT_SHEET_EPSILON_S = 48,  /* share of active material, 0.01 to 1 */
    PJ_AT_SHEET_AREA = 56,       /* m^2, 1e-6 to 1e4; a cell uses its anode's */
    PJ_AT_SHEET_E_A_DS = 64,     /* J/mol, 0 to 1e5 */
    PJ_AT_SHEET_K_BV = 72,       /* m^2.5/(mol^0.5 s), 1e-16 to 1 */
    PJ_AT_SHEET_T_REF = 80,      /* K, the temperature of d_s_ref, 200 to 400, else PJ_REFUSAL_SHEET; 298.15 in the ready sheets */

    /* a particle */
    PJ_AT_PARTICLE_SHEET = 0,
    PJ_AT_PARTICLE_N_NODES = 88, /* whole, 3 to 64; take an odd one: the averages of an even one are wrong */
    PJ_AT_PARTICLE_C_S = 96,     /* mol/m^3, 64 places from centre to surface; the first n_nodes 0 to c_s_max, the rest +0 */

    /* the config of a single-particle cell */
    PJ_AT_CONFIG_N_NODES = 0,               /* whole, 3 to 64, of both particles */
    PJ_AT_CONFIG_V_MIN = 8,                 /* V, -10 to 10; the Rust's default 2.5; see the WARNINGS of pj_cell_step */
    PJ_AT_CONFIG_V_MAX = 16,                /* V, -10 to 10; may be below v_min; the Rust's default 4.2 */
    PJ_AT_CONFIG_FARADAY = 24,              /* C/mol, 9e4 to 1e5; the Rust's default 96485 */
    PJ_AT_CONFIG_R_GAS = 32,                /* J/(mol K), 8 to 9; the Rust's default 8.314 */
    PJ_AT_CONFIG_R_ELECTROLYTE_OHM_M2 = 40, /* ohm m^2, 0 to 1; the Rust's default 2e-4 */

    /* a single-particle cell */
    PJ_AT_CELL_CONFIG = 0,
    PJ_AT_CELL_ANODE = 48,    /* particle; its n_nodes is the config's, else PJ_REFUSAL_GRID */
    PJ_AT_CELL_CATHODE = 656, /* particle; likewise */
    PJ_AT_CELL_TIME_S = 1264, /* s, the cell's clock: finite, not below 0 */
    /* after the cell, in the answers of pj_cell_step, pj_simulate_discharge, pj_replay and pj_cycle */
    PJ_AT_CELL_REPORT = 1272,
    PJ_AT_CELL_ENDING = 1272,

    /* a step's report */
    PJ_AT_REPORT_VOLTAGE = 0,        /* V */
    PJ_AT_REPORT_CURRENT = 8,        /* A, as given: discharge above 0 */
    PJ_AT_REPORT_THETA_NEG = 16,     /* anode's surface, 0 to 1 */
    PJ_AT_REPORT_THETA_POS = 24,     /* cathode's surface, 0 to 1 */
    PJ_AT_REPORT_THETA_NEG_AVG = 32, /* anode's average */
    PJ_AT_REPORT_THETA_POS_AVG = 40, /* cathode's average */
    PJ_AT_REPORT_TIME_S = 48,        /* s, the cell's clock after the step */
    PJ_AT_REPORT_CUTOFF = 56,        /* whole: 1 where the voltage is below v_min or above v_max, else 0 */
    PJ_AT_REPORT_SUB_STEPS = 64,     /* whole, 1 to 4096 */

    /* electrolyte parameters */
    PJ_AT_ELECTROLYTE_PARAMS_D_E_REF = 0,    /* m^2/s at t_ref, 1e-16 to 1e-6 */
    PJ_AT_ELECTROLYTE_PARAMS_KAPPA_REF = 8,  /* S/m at t_ref, 1e-6 to 100 */
    PJ_AT_ELECTROLYTE_PARAMS_T_PLUS = 16,    /* 0 to 1 */
    PJ_AT_ELECTROLYTE_PARAMS_BRUGGEMAN = 24, /* 0 to 4 */
    PJ_AT_ELECTROLYTE_PARAMS_C_E_INIT = 32,  /* mol/m^3, 1 to 1e5 */
    PJ_AT_ELECTROLYTE_PARAMS_E_A_DE = 40,    /* J/mol, 0 to 1e5 */
    PJ_AT_ELECTROLYTE_PARAMS_E_A_KAPPA = 48, /* J/mol, 0 to 1e5 */
    PJ_AT_ELECTROLYTE_PARAMS_T_REF = 56,     /* K, 200 to 400, else PJ_REFUSAL_SHEET; 298.15 in the ready parameters */

    /* the regions of an electrolyte */
    PJ_AT_REGIONS_PARAMS = 0,
    PJ_AT_REGIONS_L_NEG = 64,    /* m, 1e-7 to 1e-2 */
    PJ_AT_REGIONS_L_SEP = 72,    /* m, 1e-7 to 1e-2 */
    PJ_AT_REGIONS_L_POS = 80,    /* m, 1e-7 to 1e-2 */
    PJ_AT_REGIONS_EPS_NEG = 88,  /* porosity, 0.01 to 1 */
    PJ_AT_REGIONS_EPS_SEP = 96,  /* porosity, 0.01 to 1 */
    PJ_AT_REGIONS_EPS_POS = 104, /* porosity, 0.01 to 1 */
    PJ_AT_REGIONS_N_NEG = 112,   /* whole, 1 to 32 */
    PJ_AT_REGIONS_N_SEP = 120,   /* whole, 1 to 32 */
    PJ_AT_REGIONS_N_POS = 128,   /* whole, 1 to 32 */

    /* an electrolyte */
    PJ_AT_ELECTROLYTE_REGIONS = 0,
    PJ_AT_ELECTROLYTE_C_E = 136, /* mol/m^3, 96 places; the first n_neg + n_sep + n_pos at least 1e-10, the rest +0 */

    /* DFN parameters */
    PJ_AT_DFN_PARAMS_L_NEG = 0,            /* m, 1e-7 to 1e-2 */
    PJ_AT_DFN_PARAMS_L_SEP = 8,            /* m, 1e-7 to 1e-2 */
    PJ_AT_DFN_PARAMS_L_POS = 16,           /* m, 1e-7 to 1e-2 */
    PJ_AT_DFN_PARAMS_AREA = 24,            /* m^2, 1e-6 to 1e4 */
    PJ_AT_DFN_PARAMS_R_NEG = 32,           /* m, 1e-8 to 1e-3 */
    PJ_AT_DFN_PARAMS_D_S_NEG_REF = 40,     /* m^2/s, 1e-20 to 1e-8 */
    PJ_AT_DFN_PARAMS_C_S_NEG_MAX = 48,     /* mol/m^3, 1 to 131,072 */
    PJ_AT_DFN_PARAMS_EPS_NEG = 56,         /* share of active material, 0.01 to 1 */
    PJ_AT_DFN_PARAMS_THETA_NEG_0 = 64,     /* 0 to 1 */
    PJ_AT_DFN_PARAMS_K_NEG = 72,           /* m^2.5/(mol^0.5 s), 1e-16 to 1 */
    PJ_AT_DFN_PARAMS_R_POS = 80,           /* m, 1e-8 to 1e-3 */
    PJ_AT_DFN_PARAMS_D_S_POS_REF = 88,     /* m^2/s, 1e-20 to 1e-8 */
    PJ_AT_DFN_PARAMS_C_S_POS_MAX = 96,     /* mol/m^3, 1 to 131,072 */
    PJ_AT_DFN_PARAMS_EPS_POS = 104,        /* share of active material, 0.01 to 1 */
    PJ_AT_DFN_PARAMS_THETA_POS_0 = 112,    /* 0 to 1 */
    PJ_AT_DFN_PARAMS_K_POS = 120,          /* m^2.5/(mol^0.5 s), 1e-16 to 1 */
    PJ_AT_DFN_PARAMS_C_E0 = 128,           /* mol/m^3, 1 to 1e5 */
    PJ_AT_DFN_PARAMS_D_E0 = 136,           /* m^2/s, 1e-16 to 1e-6 */
    PJ_AT_DFN_PARAMS_GAMMA_E = 144,        /* 0 to 1000 */
    PJ_AT_DFN_PARAMS_T_PLUS = 152,         /* 0 to 1 */
    PJ_AT_DFN_PARAMS_KAPPA0 = 160,         /* S/m, 1e-6 to 100 */
    PJ_AT_DFN_PARAMS_EPS_E_ELEC = 168,     /* porosity of the electrodes, 0.01 to 1 */
    PJ_AT_DFN_PARAMS_EPS_E_SEP = 176,      /* porosity of the separator, 0.01 to 1 */
    PJ_AT_DFN_PARAMS_BRUGG = 184,          /* 0 to 4 */
    PJ_AT_DFN_PARAMS_TEMPERATURE_K = 192,  /* K, 200 to 400, else PJ_REFUSAL_SHEET */
    PJ_AT_DFN_PARAMS_OCV_NEG_COUNT = 200,  /* whole, 0 to 16, else PJ_REFUSAL_SHEET */
    PJ_AT_DFN_PARAMS_OCV_NEG_COEFFS = 208, /* V, -1000 to 1000, 16 places, the highest power of theta first, the rest +0 */
    PJ_AT_DFN_PARAMS_OCV_POS_COUNT = 336,  /* whole, 0 to 16, else PJ_REFUSAL_SHEET */
    PJ_AT_DFN_PARAMS_OCV_POS_COEFFS = 344, /* V, -1000 to 1000, 16 places, as the anode's */

    /* a DFN config */
    PJ_AT_DFN_CONFIG_N_X_NEG = 0, /* whole, 1 to 16 */
    PJ_AT_DFN_CONFIG_N_X_POS = 8, /* whole, 1 to 16 */
    PJ_AT_DFN_CONFIG_N_R = 16,    /* whole, 2 to 32 */
    PJ_AT_DFN_CONFIG_V_MIN = 24,  /* V, -10 to 10 */
    PJ_AT_DFN_CONFIG_V_MAX = 32,  /* V, -10 to 10 */

    /* a DFN cell */
    PJ_AT_DFN_CELL_PARAMS = 0,
    PJ_AT_DFN_CELL_CONFIG = 472,
    PJ_AT_DFN_CELL_C_S_NEG = 512,  /* mol/m^3, 512 places, node ri of particle xi at xi * n_r + ri; 0 to c_s_neg_max, the rest +0 */
    PJ_AT_DFN_CELL_C_S_POS = 4608, /* mol/m^3, 512 places, likewise; 0 to c_s_pos_max, the rest +0 */
    PJ_AT_DFN_CELL_C_E = 8704,     /* mol/m^3, 33 places; the first n_x_neg + 1 + n_x_pos 1 to 1e5, the rest +0 */
    PJ_AT_DFN_CELL_TIME_S = 8968,  /* s, the cell's clock: finite, not below 0 */
    /* not checked, overwritten by a step; in a new cell the constant 3.8, then 0, theta_neg_0 and theta_pos_0 */
    PJ_AT_DFN_CELL_VOLTAGE = 8976,        /* V */
    PJ_AT_DFN_CELL_CURRENT = 8984,        /* A */
    PJ_AT_DFN_CELL_THETA_NEG_SURF = 8992, /* 0 to 1 */
    PJ_AT_DFN_CELL_THETA_POS_SURF = 9000, /* 0 to 1 */
    /* after the cell, in the answers of pj_dfn_step and pj_run_galvanostatic */
    PJ_AT_DFN_CELL_REPORT = 9008,
    PJ_AT_DFN_CELL_ENDING = 9008,

    /* a DFN report */
    PJ_AT_DFN_REPORT_VOLTAGE = 0,        /* V, clamped to 0 to 5 */
    PJ_AT_DFN_REPORT_CURRENT = 8,        /* A, as given */
    PJ_AT_DFN_REPORT_TIME_S = 16,        /* s, the cell's clock after the step */
    PJ_AT_DFN_REPORT_THETA_NEG = 24,     /* anode's surfaces, their mean */
    PJ_AT_DFN_REPORT_THETA_POS = 32,     /* cathode's surfaces, their mean */
    PJ_AT_DFN_REPORT_DELTA_C_E_MAX = 40, /* mol/m^3, the largest change of a place of c_e */
    PJ_AT_DFN_REPORT_CUTOFF = 48,        /* whole: 1 or 0, as above */
    PJ_AT_DFN_REPORT_NEWTON_ITER = 56,   /* whole, always 1 */

    /* an ending */
    PJ_AT_ENDING_HOW = 0,  /* whole: PJ_ENDED_... */
    PJ_AT_ENDING_ROWS = 8, /* whole: how many rows were written */

    /* what a search found */
    PJ_AT_FOUND_HOW = 0, /* whole: PJ_FOUND_ROW or PJ_FOUND_NONE */
    PJ_AT_FOUND_ROW = 8, /* whole: which row, counted from 0; 0 where there is none */

    /* a phase of pj_cycle */
    PJ_AT_PHASE_KIND = 0,   /* whole: PJ_PHASE_CHARGE, PJ_PHASE_REST or PJ_PHASE_DISCHARGE */
    PJ_AT_PHASE_NUMBER = 8, /* A, above 0 to 1e6, of a charge too, else PJ_REFUSAL_LOAD; of a rest s, 0 to 1e9, else PJ_REFUSAL_INTERVAL */

    /* the joined records that a build takes */
    PJ_AT_NEW_PARTICLE_SHEET = 0,
    PJ_AT_NEW_PARTICLE_N_NODES = 88,
    PJ_AT_NEW_CELL_CONFIG = 0,
    PJ_AT_NEW_CELL_ANODE = 48,
    PJ_AT_NEW_CELL_CATHODE = 136,
    PJ_AT_NEW_DFN_PARAMS = 0,
    PJ_AT_NEW_DFN_CONFIG = 472
};

/* ---- stack, in bytes, that each call needs at most, whatever it is handed -------------------------------------------------- */

enum pj_stack {
    PJ_STACK_NUMBER_BYTES = 8192,
    PJ_STACK_BUILD_BYTES = 32768,
    PJ_STACK_PARTICLE_STEP_BYTES = 8192,
    PJ_STACK_CELL_STEP_BYTES = 8192,
    PJ_STACK_ELECTROLYTE_STEP_BYTES = 8192,
    PJ_STACK_DFN_STEP_BYTES = 32768,
    PJ_STACK_SIMULATE_DISCHARGE_BYTES = 16384,
    PJ_STACK_RUN_GALVANOSTATIC_BYTES = 65536,
    PJ_STACK_REPLAY_BYTES = 16384,
    PJ_STACK_CYCLE_BYTES = 16384,
    PJ_STACK_FIRST_BELOW_BYTES = 256,
    PJ_STACK_SOLVE_DENSE_BYTES = 16384
};

/* ---- words of an image ---------------------------------------------------------------------------------------------------- */

/* The whole number at a byte of an image. */
static inline uint64_t pj_get_u64(const uint8_t *image, size_t at)
{
    uint64_t word = 0;
    size_t i;
    for (i = 0; i < 8; i++)
        word |= (uint64_t)image[at + i] << (8 * i);
    return word;
}

static inline void pj_put_u64(uint8_t *image, size_t at, uint64_t word)
{
    size_t i;
    for (i = 0; i < 8; i++)
        image[at + i] = (uint8_t)(word >> (8 * i));
}

/* The binary64 at a byte of an image. Place i of an array is at 8 * i after its first byte. */
static inline double pj_get_f64(const uint8_t *image, size_t at)
{
    uint64_t word = pj_get_u64(image, at);
    double number;
    memcpy(&number, &word, sizeof number);
    return number;
}

static inline void pj_put_f64(uint8_t *image, size_t at, double number)
{
    uint64_t word;
    memcpy(&word, &number, sizeof word);
    pj_put_u64(image, at, word);
}

/* ---- numbers and records --------------------------------------------------------------------------------------------------- */

/* In C++ the number of a call, or of a run, is an enumeration of its own: a size or a build's number is not taken for it. */
#ifdef __cplusplus
#define PJ_CALL_ENUM(name) enum name : uint64_t
enum pj_number_call : uint64_t;
enum pj_build_call : uint64_t;
enum pj_run : uint64_t;
typedef pj_number_call pj_number_call_t;
typedef pj_build_call pj_build_call_t;
typedef pj_run pj_run_t;
#else
#define PJ_CALL_ENUM(name) enum name
typedef uint64_t pj_number_call_t;
typedef uint64_t pj_build_call_t;
typedef uint64_t pj_run_t;
#endif

/* pj_number: a number from an image and at most two arguments. The answer is one binary64, a count of nodes too. temp_k is
 * 200 to 400 K, theta any finite number, r 1e-8 to 1e-3 m, porosity 0.01 to 1. An argument marked - is not looked at;
 * parameters are an electrolyte's. */
PJ_CALL_ENUM(pj_number_call) {
    /*                              image        x         y           gives */
    PJ_NUMBER_D_S = 1,           /* sheet        temp_k    -           m^2/s */
    PJ_NUMBER_SPECIFIC_AREA = 2, /* sheet        -         -           1/m */
    PJ_NUMBER_OCP = 3,           /* sheet        theta     -           V */
    PJ_NUMBER_DOCP_DTHETA = 4,   /* sheet        theta     -           V */
    PJ_NUMBER_SPHERE_VOLUME = 5, /* empty        r         -           m^3 */
    PJ_NUMBER_DT_STABLE = 6,     /* particle     temp_k    -           s */
    PJ_NUMBER_THETA_SURFACE = 7, /* particle     -         -           0 to 1 */
    PJ_NUMBER_THETA_AVG = 8,     /* particle     -         -           1; wrong where n_nodes is even */
    PJ_NUMBER_C_AVG = 9,         /* particle     -         -           mol/m^3; wrong where n_nodes is even */
    PJ_NUMBER_OCP_SURFACE = 10,  /* particle     -         -           V */
    PJ_NUMBER_OCV = 11,          /* cell         -         -           V */
    PJ_NUMBER_SOC_ESTIMATE = 12, /* cell         -         -           0 to 1, of the fixed window 0.20 to 0.80 of the anode */
    PJ_NUMBER_D_E = 13,          /* parameters   -         temp_k      m^2/s */
    PJ_NUMBER_KAPPA = 14,        /* parameters   -         temp_k      S/m */
    PJ_NUMBER_D_E_EFF = 15,      /* parameters   porosity  temp_k      m^2/s */
    PJ_NUMBER_KAPPA_EFF = 16,    /* parameters   porosity  temp_k      S/m */
    PJ_NUMBER_N_TOTAL = 17,      /* electrolyte  -         -           count of nodes */
    PJ_NUMBER_ELECTROLYTE_AVG = 18, /* electrolyte -         -           mol/m^3, its c_avg */
    PJ_NUMBER_ELECTROLYTE_DT_STABLE = 19 /* electrolyte temp_k    -           s, its dt_stable; too long where porosities differ */
};

uint64_t pj_number(pj_number_call_t call, const uint8_t *image, size_t image_len, double x, double y,
                   uint8_t *answer, size_t answer_len);

/* pj_build: a ready record, or a new one. */
PJ_CALL_ENUM(pj_build_call) {
    /*                              image                             answer */
    PJ_BUILD_GRAPHITE_ANODE = 1, /* empty                             sheet */
    PJ_BUILD_LFP_CATHODE = 2,    /* empty                             sheet; WARNING: see pj_cell_step */
    PJ_BUILD_NMC_CATHODE = 3,    /* empty                             sheet */
    PJ_BUILD_LIPF6_EC_DMC = 4,   /* empty                             an electrolyte's parameters */
    PJ_BUILD_NMC_GRAPHITE = 5,   /* empty                             DFN parameters */
    PJ_BUILD_LFP_GRAPHITE = 6,   /* empty                             DFN parameters */
    PJ_BUILD_PARTICLE = 7,       /* PJ_NEW_PARTICLE_BYTES             particle, all at theta_init */
    PJ_BUILD_CELL_LFP = 8,       /* config                            cell graphite_lfp, clock at 0; WARNING: see pj_cell_step */
    PJ_BUILD_CELL_NMC = 9,       /* config                            cell graphite_nmc, clock at 0 */
    PJ_BUILD_CELL = 10,          /* PJ_NEW_CELL_BYTES                 cell, clock at 0 */
    PJ_BUILD_ELECTROLYTE = 11,   /* regions                           electrolyte, all at c_e_init */
    PJ_BUILD_DFN = 12            /* PJ_NEW_DFN_BYTES                  DFN cell, clock at 0 */
};

uint64_t pj_build(pj_build_call_t call, const uint8_t *image, size_t image_len, uint8_t *answer, size_t answer_len);

/* ---- steps: the answer begins with the new record, so that it can be handed in again ---------------------------------------- */

/* One step of a particle, in one piece: dt above h^2/(6 D) makes its centre swing (PJ_NUMBER_DT_STABLE is three times that).
 * j_n     mol/(m^2 s), at most 1e13 in size; above 0 fills the particle, below 0 empties it
 * dt      s, above 0, at most 86,400
 * temp_k  K, 200 to 400
 * answer  particle, PJ_PARTICLE_BYTES
 * WARNING: a node that would go below 0 or above c_s_max is set to that end, and the lithium beyond it is lost without a word. */
uint64_t pj_particle_step(const uint8_t *particle, size_t particle_len, double j_n, double dt, double temp_k,
                          uint8_t *answer, size_t answer_len);

/* One step of a single-particle cell.
 * current_a  A, at most 1e6 in size; above 0 discharges, below 0 charges
 * dt         s, above 0, at most 86,400, and at most 4,096 sub-steps, each at most 0.30 h^2/(2 D) of either electrode:
 *            PJ_BUILD_CELL_LFP with 11 nodes takes up to 3,840 s at 298.15 K, PJ_BUILD_CELL_NMC up to 10,240 s
 * temp_k     K, 200 to 400
 * answer     cell and report, PJ_CELL_STEP_BYTES
 * WARNINGS, faults of the model that the port keeps:
 * - a full or empty particle is clamped and charge is lost without a word. Once theta_neg or theta_pos of a report is 0 or 1 its
 *   averages, its state of charge and all that follows are no longer the cell's, and the voltage may stay above v_min for ever;
 * - with an LFP cathode the voltage rises during most of a discharge, since the curve of the Rust rises with lithium;
 * - a graphite anode below about 0.1 makes the voltage of any cell rise a little before it falls.
 * The drop in the electrolyte, current_a / area * r_electrolyte_ohm_m2, is subtracted with its sign: it lowers the voltage on
 * discharge and raises it on charge. (Rows of a charge from an earlier release, in which it lowered both, are too low by twice that.)
 * In an earlier release sub-steps were up to half as long again: that LFP cell took up to 5,760 s, that NMC cell up to 15,360 s, the centre of a
 * particle could swing, and rows of the two differ from today's by fractions of a millivolt. */
uint64_t pj_cell_step(const uint8_t *cell, size_t cell_len, double current_a, double dt, double temp_k,
                      uint8_t *answer, size_t answer_len);

/* One step of an electrolyte, in one piece.
 * j_n_neg, j_n_pos  mol/(m^3 s) in anode and cathode, at most 1e9 in size; above 0 adds salt, below 0 takes it out
 * dt                s, above 0, at most 86,400
 * temp_k            K, 200 to 400
 * answer            electrolyte, PJ_ELECTROLYTE_BYTES
 * WARNINGS: salt is not conserved where two regions meet; what would fall below 1e-10 becomes 1e-10. */
uint64_t pj_electrolyte_step(const uint8_t *electrolyte, size_t electrolyte_len, double j_n_neg, double j_n_pos, double dt,
                             double temp_k, uint8_t *answer, size_t answer_len);

/* One step of a Doyle-Fuller-Newman cell, in one piece. Its temperature is a field of its parameters.
 * current_a  A, at most 1e6 in size; above 0 is meant as discharge
 * dt_s       s, above 0, at most 86,400
 * answer     DFN cell and DFN report, PJ_DFN_STEP_BYTES
 * WARNINGS, faults of the model that the port keeps: on discharge the anode FILLS and the cathode EMPTIES, overpotentials raise the
 * voltage, and so the voltage rises; the electrolyte's salt moves the wrong way and meets its clamps 100 and 3000 in one step; particles are
 * clamped as above. Do not set a limit from these rows. */
uint64_t pj_dfn_step(const uint8_t *cell, size_t cell_len, double current_a, double dt_s,
                     uint8_t *answer, size_t answer_len);

/* ---- runs ------------------------------------------------------------------------------------------------------------------- */

/* The width of a row. rows_len counts doubles: PJ_ROW_DOUBLES for each row, never sizeof rows, which counts bytes and would have the
 * run write over what lies behind. Under 8 is refused with 10, in a cycle under 8 * budget; of other lengths the whole rows are used. */
#define PJ_ROW_DOUBLES 8

/* The places of a row; all are doubles. */
enum pj_cell_row {
    PJ_CELL_ROW_VOLTAGE = 0,       /* V */
    PJ_CELL_ROW_CURRENT = 1,       /* A */
    PJ_CELL_ROW_THETA_NEG = 2,     /* anode's surface */
    PJ_CELL_ROW_THETA_POS = 3,     /* cathode's surface */
    PJ_CELL_ROW_THETA_NEG_AVG = 4, /* anode's average */
    PJ_CELL_ROW_THETA_POS_AVG = 5, /* cathode's average */
    PJ_CELL_ROW_TIME_S = 6,        /* s, the cell's clock */
    PJ_CELL_ROW_CUTOFF = 7         /* 1.0 or 0.0 (in a report a whole number) */
};

enum pj_dfn_row {
    PJ_DFN_ROW_VOLTAGE = 0,       /* V */
    PJ_DFN_ROW_CURRENT = 1,       /* A */
    PJ_DFN_ROW_TIME_S = 2,        /* s, the cell's clock */
    PJ_DFN_ROW_THETA_NEG = 3,     /* anode's surfaces, their mean */
    PJ_DFN_ROW_THETA_POS = 4,     /* cathode's surfaces, their mean */
    PJ_DFN_ROW_DELTA_C_E_MAX = 5, /* mol/m^3 */
    PJ_DFN_ROW_CUTOFF = 6,        /* 1.0 or 0.0 (in a report a whole number) */
    PJ_DFN_ROW_NEWTON_ITER = 7    /* always 1.0 */
};

/* The summary of a run's rows: the lowest voltage of each group of 64 rows, of equals the first. Place g is that of rows 64 * g to
 * 64 * g + 63, as far as they are written, so that the last group may be short. pj_simulate_discharge and pj_run_galvanostatic keep it
 * in `lowest` beside their rows, with each row that they write, and pj_first_below finds by it the first row under a voltage without
 * reading all of them.
 *
 * lowest_len counts doubles: one for each group of all whole rows that rows_len has room for, however many the run will write. Fewer
 * are refused with 10 before the first step, more are taken. Places after the last row's group keep their content, and after a refused
 * step the summary is that of the rows before it.
 *
 *     double rows[PJ_ROW_DOUBLES * 1000], lowest[PJ_GROUPS(1000)];
 */
#define PJ_GROUP_ROWS 64
#define PJ_GROUPS(rows) ((rows) / PJ_GROUP_ROWS + ((rows) % PJ_GROUP_ROWS != 0))

/* A run steps until the voltage, the time limit, the end of a replay's text or the room for rows ends it, tested after each row in this
 * order, a cycle until the end of its last phase or of its budget does, or until a step or a line is refused. Places after its last row keep
 * their content.
 *
 * A run that returns 0 has written its answer. One that returns a refusal has written it only if it finished a row: the cell
 * after these rows, PJ_ENDED_REFUSED, and their count. Refused before its first row it leaves the answer AS IT WAS: an old answer is
 * not to be taken for a new one. To tell, put 0 at the ending first:
 *
 *     pj_put_u64(answer, PJ_AT_CELL_ENDING + PJ_AT_ENDING_HOW, 0);
 *     refusal = pj_simulate_discharge(..);
 *     written = pj_get_u64(answer, PJ_AT_CELL_ENDING + PJ_AT_ENDING_HOW) != 0;
 */

/* current_a, dt, temp_k  as in pj_cell_step, with its WARNINGS: a run may sit at one voltage until its time is over
 * max_time_s             s, any finite number. It is compared with the run's own clock, which starts at 0 in each call, before each
 *                        step: at 0 or below there is no row. (time_s in a row is the cell's clock, which goes on.)
 * lowest                 summary of the rows, at least PJ_GROUPS(rows_len / PJ_ROW_DOUBLES) places
 * answer                 cell and ending, PJ_CELL_RUN_BYTES */
uint64_t pj_simulate_discharge(const uint8_t *cell, size_t cell_len, double current_a, double dt, double temp_k, double max_time_s,
                               double *rows, size_t rows_len, double *lowest, size_t lowest_len, uint8_t *answer, size_t answer_len);

/* current_a, dt_s  as in pj_dfn_step, with its WARNINGS
 * max_time_s       s, any finite number. It is compared with the CELL's clock, after each step: there is always a first row, and a
 *                  cell that is handed in again past the limit makes one row and ends.
 * lowest           summary of the rows, at least PJ_GROUPS(rows_len / PJ_ROW_DOUBLES) places
 * answer           DFN cell and ending, PJ_DFN_RUN_BYTES */
uint64_t pj_run_galvanostatic(const uint8_t *cell, size_t cell_len, double current_a, double dt_s, double max_time_s,
                              double *rows, size_t rows_len, double *lowest, size_t lowest_len, uint8_t *answer, size_t answer_len);

/* Which of the two wrote the rows that are searched. */
PJ_CALL_ENUM(pj_run) {
    PJ_RUN_DISCHARGE = 1,    /* pj_simulate_discharge */
    PJ_RUN_GALVANOSTATIC = 2 /* pj_run_galvanostatic */
};

/* The first of a run's rows whose voltage is under a chosen one.
 * which    the run that wrote the rows; any other number is refused with 2
 * rows     as the run left them, PJ_ROW_DOUBLES for each row of count or more
 * lowest   as the run left it, a place for each group of count rows, PJ_GROUPS(count), or more
 * count    how many rows are looked at, from the first: all that the run wrote, as its ending says, or fewer; 0 finds none
 * voltage  V, any finite number, else refused with 2
 * answer   what was found, PJ_FOUND_BYTES: PJ_FOUND_ROW and the row, whose voltage is rows[PJ_ROW_DOUBLES * row], or PJ_FOUND_NONE
 *
 * A group is passed over unless its place in lowest is under the voltage. In another the rows below count are read from the first, and
 * the first that is under the voltage is the answer; where none is, the next group follows. On rows and summary as a run left them the
 * answer is that of a read of all rows from the first. Whatever else they hold, it is the first row under the voltage in the groups
 * that are not passed over; a NaN is under no voltage, in rows and in lowest. Rows of pj_replay and pj_cycle have no summary.
 *
 * Refused with 10 before all else: answer_len not PJ_FOUND_BYTES, rows_len under 8 * count, lowest_len under PJ_GROUPS(count). A refusal
 * leaves the answer as it was. */
uint64_t pj_first_below(pj_run_t which, const double *rows, size_t rows_len, const double *lowest, size_t lowest_len, size_t count,
                        double voltage, uint8_t *answer, size_t answer_len);

/* A replay is a run under a recorded load: a text of lines, each of which makes a step and a row. A line is PJ_LINE_BYTES bytes: interval
 * (s) and current (A), each as the 16 hexadecimal digits 0-9 A-F of its binary64's bits, the highest first, a tab between them and a line feed
 * after them, in the last line too. Lower case, CR, blanks, an empty line and a cut one are refused. 60 s at 2 A:
 *
 *     404E000000000000<tab>4000000000000000<line feed>
 */
#define PJ_LINE_BYTES 34
#define PJ_MOST_TEXT_BYTES 65536 /* 1,927 lines, and 18 bytes that are none */

/* Writes the digits of a number, or a line, at a byte of a text. */
static inline void pj_put_digits(uint8_t *text, size_t at, double number)
{
    uint64_t word;
    size_t i;
    memcpy(&word, &number, sizeof word);
    for (i = 0; i < 16; i++)
        text[at + i] = (uint8_t)"0123456789ABCDEF"[word >> (60 - 4 * i) & 15];
}

static inline void pj_put_line(uint8_t *text, size_t at, double dt, double current_a)
{
    pj_put_digits(text, at, dt);
    text[at + 16] = '\t';
    pj_put_digits(text, at + 17, current_a);
    text[at + 33] = '\n';
}

/* text    lines, at most PJ_MOST_TEXT_BYTES; none at all is PJ_ENDED_DONE with no row. Interval and current of a line as in
 *         pj_cell_step, with its WARNINGS. What follows the line of the last row is not looked at: PJ_ENDED_FULL says only that a byte is left
 * temp_k  K, 200 to 400, of all lines
 * answer  cell and ending, PJ_CELL_RUN_BYTES; the count of rows is the index, from 0, of the line that was refused. To go on after
 *         PJ_ENDED_FULL hand in the answer's cell and the text from PJ_LINE_BYTES times that count on */
uint64_t pj_replay(const uint8_t *cell, size_t cell_len, const uint8_t *text, size_t text_len, double temp_k,
                   double *rows, size_t rows_len, uint8_t *answer, size_t answer_len);

/* A cycle is a run through the phases of a charger: charges and discharges, each up to its first row with cutoff, and rests, each for a time.
 * The first `count` phases of a list are made one after the other, and all of this `repeats` times, as long as a budget of steps lasts.
 * 5 A out, 10 minutes of rest and 2.5 A in, three times, in steps of 10 s, of which there may be 2,000:
 *
 *     uint8_t phases[PJ_PHASES_BYTES] = {0};
 *     pj_put_phase(phases, 0, PJ_PHASE_DISCHARGE, 5.0);
 *     pj_put_phase(phases, 1, PJ_PHASE_REST, 600.0);
 *     pj_put_phase(phases, 2, PJ_PHASE_CHARGE, 2.5);
 *     refusal = pj_cycle(cell, sizeof cell, phases, sizeof phases, 3, 3, 2000, 10.0, 298.15, rows, PJ_ROW_DOUBLES * 2000, answer,
 *                        sizeof answer);
 */

/* Writes a phase at its place, from 0, in an image of phases. */
static inline void pj_put_phase(uint8_t *phases, size_t place, uint64_t kind, double number)
{
    pj_put_u64(phases, PJ_PHASE_BYTES * place + PJ_AT_PHASE_KIND, kind);
    pj_put_f64(phases, PJ_PHASE_BYTES * place + PJ_AT_PHASE_NUMBER, number);
}

/* phases   PJ_PHASES_BYTES. Places from count on may hold anything; all before are tested, those of phases that are never reached too
 * count    phases of the list, 1 to PJ_PHASE_PLACES
 * repeats  how often the list is made, 1 to 1,000
 * budget   steps at most, 1 to 100,000
 * dt       s, above 0, at most 86,400, and at most 4,096 sub-steps; of every step
 * temp_k   K, 200 to 400; of every step
 * rows     PJ_ROW_DOUBLES for each step of the budget, or more
 * answer   cell and ending, PJ_CELL_RUN_BYTES; it does not say in which phase a spent cycle stands
 *
 * Every step is that of pj_cell_step, with its WARNINGS, and makes a row: a charge applies its current negated, a rest +0, a discharge its
 * current. A phase makes at least one step. A charge or discharge has ended after its first row with cutoff, below v_min or above v_max,
 * whichever it is; a rest, whatever its rows' cutoff, after the first row at which its own clock is not below its time. This clock is 0 when
 * the rest begins and gains dt with each step, as a sum of binary64: a rest of 1 s in steps of 0.1 s takes eleven. Where the last phase of
 * the last repeat has ended, the cycle ends with PJ_ENDED_DONE, on the last step of the budget too; else, where the budget is made, with
 * PJ_ENDED_SPENT, as that of a cell that never leaves its voltage window does. It never ends with PJ_ENDED_VOLTAGE, _TIME or _FULL.
 *
 * Refused before the first step, the first that is met: 10 a length of cell, phases or answer; 1 the cell's grid, count, repeats or budget;
 * 10 rows_len; 2 the cell, or the kind of a phase; 3 the current of a phase; 4 dt, or the time of a rest; 5 temp_k. A step may be refused with
 * 6 or 7, and since these come from the cell's sheets, dt and temp_k alone, it is the first one if any: with no row, nothing is written. */
uint64_t pj_cycle(const uint8_t *cell, size_t cell_len, const uint8_t *phases, size_t phases_len, size_t count, size_t repeats,
                  size_t budget, double dt, double temp_k, double *rows, size_t rows_len, uint8_t *answer, size_t answer_len);

/* ---- linear equations ------------------------------------------------------------------------------------------------------- */

/* a x = b, n equations, by elimination with pivots.
 * a       n * n finite numbers, row after row
 * b       n finite numbers
 * n       0 to 32
 * answer  solution, PJ_SOLUTION_BYTES: 32 places, those from n on +0 */
uint64_t pj_solve_dense(const double *a, size_t a_len, const double *b, size_t b_len, size_t n,
                        uint8_t *answer, size_t answer_len);

#ifdef __cplusplus
}
#endif

#endif
