/* Feeds bits, one a unit, through include/mirvashen_timing.h and prints a line for each start and each fault.
 *     timing BITS [SAMPLES [OUTPUT]]     BITS: 0 and 1, and B for a branch; SAMPLES in each unit, 40 where none is named; OUTPUT: unit 0's
 * output timing, 800 where none is named, which goes up by SAMPLES with each unit and wraps at 65,536.
 * The exit status is 0, 1 where a fault was found, 2 where BITS can't be read. */
#include "mirvashen_timing.h"

#include <inttypes.h>
#include <stdio.h>
#include <stdlib.h>

static void print_fault(uint64_t unit, const MvTiming *t) {
    static const char *const words[] = {"", "extra 0 after the data field end", "extra 0 in the datafield", "invalid 0 in the datafield"};
    if (t->fault == MV_TIMING_SEQUENCE)
        printf("FAULT %" PRIu64 " sequence: %" PRIu64 " at unit %" PRIu64 " after %" PRIu64 " at unit %" PRIu64 "\n", unit, t->fault_timing, t->fault_unit,
               t->fault_previous_timing, t->fault_previous_unit);
    else
        printf("FAULT %" PRIu64 " %s: field of unit %" PRIu64 "\n", unit, words[t->fault], t->fault_unit);
}

int main(int argc, char **argv) {
    if (argc < 2) {
        fprintf(stderr, "timing BITS [SAMPLES [OUTPUT]]\n");
        return 2;
    }
    uint64_t samples = argc > 2 ? strtoull(argv[2], NULL, 10) : 40;
    uint64_t output = argc > 3 ? strtoull(argv[3], NULL, 10) : 800;
    uint64_t unit = 0, faults = 0;
    MvTiming timing;
    mv_timing_fresh(&timing);
    for (const char *bit = argv[1]; *bit; bit++) {
        if (*bit == 'B') {
            mv_timing_reset_for_branch(&timing); /* never refused: the record began fresh */
            continue;
        }
        if (*bit != '0' && *bit != '1') {
            fprintf(stderr, "timing: '%c' is no bit\n", *bit);
            return 2;
        }
        MvTimingAnswer a = mv_timing_update(&timing, unit, samples, (output + unit * samples) & 0xFFFF, *bit == '1');
        if (a.present)
            printf("START %" PRIu64 " %" PRIu32 "\n", unit, a.start);
        if (timing.fault != MV_TIMING_NO_FAULT) {
            print_fault(unit, &timing);
            faults++;
        }
        unit++;
    }
    printf("END %" PRIu64 " %" PRIu64 "\n", unit, faults);
    return faults != 0;
}
