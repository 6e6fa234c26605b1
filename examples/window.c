/* A handful of units through include/mirvashen_window.h: the depths after each, the units held, what was refused or ran short, and the peaks. */
#include "mirvashen_window.h"

#include <inttypes.h>
#include <stdio.h>

static const char *const names[MV_ACCUMULATORS] = {"substream 0", "6-channel", "8-channel", "16-channel", "whole stream"};

/* A unit of `bytes`, of which `overhead` are no payload; substream 0 has half of the payload, the second substream the rest. */
static MvContribution unit(uint32_t bytes, uint32_t overhead) {
    uint32_t payload = bytes - overhead;
    MvContribution c = {.total = {overhead + payload / 2, bytes, bytes, bytes, bytes},
                        .stream = {payload / 2, payload, payload, payload, payload},
                        .substream = {payload / 2, payload - payload / 2}};
    return c;
}

static MvWindow push(MvWindow window, uint64_t playhead, uint64_t removal, MvContribution c) {
    MvPushed p = mv_window_push(window, playhead, removal, c);
    printf("playhead %4" PRIu64 " removal %4" PRIu64 ": ", playhead, removal);
    if (p.number != 0)
        printf("refused by number %" PRIu32 "\n", p.number);
    else if (p.underrun.present)
        printf("underrun of %s, whole stream %" PRIu64 ", units %zu\n", names[p.underrun.accumulator], p.depths[4], mv_window_buffered(p.window).units);
    else
        printf("substream 0 %" PRIu64 ", whole stream %" PRIu64 ", units %zu\n", p.depths[0], p.depths[4], mv_window_buffered(p.window).units);
    return p.window;
}

int main(void) {
    MvWindow window = mv_window_fresh();
    window = push(window, 0, 120, unit(1000, 20));
    window = push(window, 40, 160, unit(3000, 20));
    window = push(window, 120, 200, unit(2000, 20)); /* equal to the first one's removal: it stays */
    window = push(window, 121, 240, unit(500, 20));  /* strictly above: it leaves */
    window = push(window, 160, 280, unit(16385, 20));
    window = mv_window_restart(window).window;
    window = push(window, 300, 299, unit(64, 4)); /* its own removal has passed before it is added */

    MvPeakRecords records = mv_window_peak_records(window);
    for (size_t k = 0; k < MV_ACCUMULATORS; k++) {
        MvPeak p = records.peaks[k];
        printf("%-12s peak %" PRIu64 " = %" PRIu64 " + %" PRIu64 " of %" PRIu64 "\n", names[k], p.total, p.stream, p.overhead, mv_fba_cap(k).bytes);
    }
    MvSubstreamPeaks substreams = mv_window_substream_peaks(window);
    printf("substreams   peak %" PRIu64 " %" PRIu64 " %" PRIu64 " %" PRIu64 "\n", substreams.peaks[0], substreams.peaks[1], substreams.peaks[2], substreams.peaks[3]);
    return 0;
}
