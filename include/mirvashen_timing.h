/* Mirvashen's start timing for C: one bit a unit, from which a decoder learns where in time a TrueHD/MLP stream begins.
 *
 * Link target/staticlib/libtiming_exports.a (`bindings/archives` writes it; x86-64 Linux). The library has no state, allocates
 * nothing and calls nothing. Each call is proved equal to document 01's rules for every record (crates/timing_exports/specs).
 *
 * THE RECORD IS LENT: fourteen words, yours to keep, copy and compare. A call reads them and writes the record afterwards in their place. Any bit
 * pattern is taken, and a word is the number that it holds, however wide: a state above 15, a counter above 3 or a bit count above 65,535 is number 1,
 * and then no word is written. The fault's words are never read.
 *
 * WHAT C ITSELF MAKES UNDEFINED, and nothing more: a pointer that does not point to a writable MvTiming, that is null or misaligned, or whose words
 * another thread uses meanwhile.
 *
 * NUMBERS
 *   0  the step is taken, the reset is done
 *   1  the record doesn't fit                      unchanged
 */
#ifndef MIRVASHEN_TIMING_H
#define MIRVASHEN_TIMING_H

#include <stdint.h>

#ifdef __cplusplus
extern "C" {
#endif

/* What MvTiming.fault says, in document 01's words. The next step or reset drops it. */
enum {
    MV_TIMING_NO_FAULT = 0,
    MV_TIMING_ZERO_AFTER_END = 1,   /* "extra 0 after the data field end" */
    MV_TIMING_ZERO_IN_FIELD = 2,    /* "extra 0 in the datafield" */
    MV_TIMING_INVALID_ZERO = 3,     /* "invalid 0 in the datafield" */
    MV_TIMING_SEQUENCE = 4          /* a field that doesn't continue the one before it */
};

typedef struct MvTiming {
    uint64_t state;   /* 0 to 15 */
    uint64_t counter; /* fields since the last lead-in, 0 to 3 */
    uint64_t bits;    /* bits of the field so far, 0 to 65,535 */
    uint64_t timing, unit, output;                                /* the field: what it spells, the unit it began in, that unit's output timing */
    uint64_t previous_timing, previous_unit, previous_output;     /* the field before it */
    uint64_t fault;                                               /* what the last step found wrong: the codes above */
    uint64_t fault_timing, fault_unit;                            /* what the fault names: a fault in the form .fault_unit alone, a Sequence fault */
    uint64_t fault_previous_timing, fault_previous_unit;          /* all four; zeros in place of what it doesn't name */
} MvTiming;

typedef struct MvTimingAnswer {
    uint32_t number; /* the table above */
    uint32_t start;  /* the stream's start in samples, modulo 2^32, if there is one; else 0 */
    uint8_t present; /* is there a start? */
} MvTimingAnswer;

/* A fresh record. What the words held is not looked at. */
void mv_timing_fresh(MvTiming *timing);

/* One unit's bit: its number, the samples in each unit, its output timing, and the bit, which is one unless it is zero; numbers 0 and 1. A start is
 * answered where a field ends that is the first since the counter was cleared. */
MvTimingAnswer mv_timing_update(MvTiming *timing, uint64_t unit, uint64_t samples, uint64_t output, uint8_t bit);

/* At a branch the bits begin anew: state, counter and fault are cleared; numbers 0 and 1. */
uint32_t mv_timing_reset_for_branch(MvTiming *timing);

#ifdef __cplusplus
}
#endif
#endif
