/* Mirvashen's depth window for C: how many bytes a TrueHD/MLP decoder has to hold while units arrive and are played out.
 *
 * Link target/staticlib/libwindow_exports.a (`bindings/archives` writes it; x86-64 Linux). The library has no state, allocates nothing and calls
 * memcpy and memset alone: a window goes in by value, and comes back in the answer with document 01's number. Each call is proved equal to the
 * rules for every window and every number (crates/window_exports/specs).
 *
 * THE WINDOW IS A VALUE of 8,472 bytes. Keep the one that the last call answered, and hand it to the next; an older copy takes the window back. It
 * is numbers alone, so any bit pattern is taken: one that can't be (a slot number above 127, or one of the fourteen depths above 4,294,967,295) is
 * answered by number 1. A refusal hands it back as it was, with zeros beside it.
 *
 * WHAT C ITSELF MAKES UNDEFINED, and nothing more: a window or a contribution that was not wholly written before it is handed in. There are no
 * pointers.
 *
 * NUMBERS
 *    0  accepted
 *    1  the window doesn't fit                                     unchanged
 *   12  a contribution above 16,384                                unchanged
 *   13  a depth plus its contribution above 4,294,967,295          unchanged
 * They are tested in this order. An underrun has no number: it is said in .underrun, and the push is accepted. Look there.
 *
 * ACCUMULATORS: 0 substream 0, 1 the 6-channel, 2 the 8-channel, 3 the 16-channel decoder, 4 the whole stream.
 */
#ifndef MIRVASHEN_WINDOW_H
#define MIRVASHEN_WINDOW_H

#include <stddef.h>
#include <stdint.h>

#ifdef __cplusplus
extern "C" {
#endif

#define MV_ACCUMULATORS 5
#define MV_SUBSTREAMS 4
#define MV_SLOTS 128
#define MV_MOST_CONTRIBUTION 16384u

typedef struct MvContribution {
    uint32_t total[MV_ACCUMULATORS];    /* the unit's bytes that each accumulator is capped on */
    uint32_t stream[MV_ACCUMULATORS];   /* the part of them that is substream payload */
    uint32_t substream[MV_SUBSTREAMS];  /* each substream's own payload */
} MvContribution;

typedef struct MvPeak {
    uint64_t total;            /* deepest that an accumulator has been */
    uint64_t stream, overhead; /* the two parts that it held then */
} MvPeak;

typedef struct MvDepth {
    uint64_t total, stream; /* held now */
    MvPeak peak;
} MvDepth;

typedef struct MvSubstreamDepth {
    uint64_t bytes; /* held now */
    uint64_t peak;  /* the most it has held */
} MvSubstreamDepth;

typedef struct MvLevels {
    size_t read, write; /* slot numbers */
    MvDepth depth[MV_ACCUMULATORS];
    MvSubstreamDepth substream[MV_SUBSTREAMS];
} MvLevels;

/* The units in flight: slot i of every ring belongs to the same unit. */
typedef struct MvRings {
    uint64_t removal[MV_SLOTS];
    uint32_t total[MV_ACCUMULATORS][MV_SLOTS];
    uint32_t stream[MV_ACCUMULATORS][MV_SLOTS];
    uint32_t substream[MV_SUBSTREAMS][MV_SLOTS];
} MvRings;

typedef struct MvWindow {
    MvRings rings;
    MvLevels levels;
} MvWindow;

typedef struct MvUnderrun {
    size_t accumulator; /* the highest that held fewer bytes than the unit leaving it */
    uint8_t present;    /* is there one? If not, accumulator is 0 */
} MvUnderrun;

typedef struct MvPushed {
    MvWindow window;                  /* the window after the call */
    uint64_t depths[MV_ACCUMULATORS]; /* with the new unit included */
    MvUnderrun underrun;
    uint32_t number;
} MvPushed;

typedef struct MvRestarted {
    MvWindow window;
    uint32_t number;
} MvRestarted;

typedef struct MvBuffered {
    size_t units;
    uint32_t number;
} MvBuffered;

typedef struct MvPeaks {
    uint64_t peaks[MV_ACCUMULATORS];
    uint32_t number;
} MvPeaks;

typedef struct MvPeakRecords {
    MvPeak peaks[MV_ACCUMULATORS];
    uint32_t number;
} MvPeakRecords;

typedef struct MvSubstreamPeaks {
    uint64_t peaks[MV_SUBSTREAMS];
    uint32_t number;
} MvSubstreamPeaks;

typedef struct MvCap {
    uint64_t bytes;  /* 0 where there is none */
    uint8_t checked; /* is there a cap? A cap of 0 is one */
    uint8_t known;   /* is there such an accumulator? */
} MvCap;

/* A window that never held a unit. */
MvWindow mv_window_fresh(void);

/* Admits a unit, and drains every one whose removal time lies strictly below the playhead, both in samples; numbers 0, 1, 12, 13. A window that
 * holds more than 128 units overwrites the oldest. */
MvPushed mv_window_push(MvWindow window, uint64_t playhead, uint64_t removal, MvContribution contribution);

/* The window as new, peaks excepted; numbers 0 and 1. */
MvRestarted mv_window_restart(MvWindow window);

/* Units held, modulo 128; numbers 0 and 1. */
MvBuffered mv_window_buffered(MvWindow window);

/* Deepest that each accumulator has been; numbers 0 and 1. */
MvPeaks mv_window_peaks(MvWindow window);

/* The same with the stream and overhead parts that it held then; numbers 0 and 1. */
MvPeakRecords mv_window_peak_records(MvWindow window);

/* Deepest that each substream's own bytes have been; numbers 0 and 1. */
MvSubstreamPeaks mv_window_substream_peaks(MvWindow window);

/* An accumulator's byte cap in an FBA stream, and in an FBB stream by the low nibble of its substream_info. */
MvCap mv_fba_cap(size_t accumulator);
MvCap mv_fbb_cap(size_t accumulator, uint8_t substream_info);

#ifdef __cplusplus
}
#endif
#endif
