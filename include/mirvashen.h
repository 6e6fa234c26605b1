/* Mirvashen's reader for C: access units of a TrueHD/MLP stream, every loss counted.
 *
 * Link target/staticlib/libexports.a (`bindings/archives` writes it; x86-64 Linux). The library has no state, allocates nothing and calls nothing: the
 * record, the unit and the buffer are yours and lent for one call, and the answer is document 01's number. Each call is proved equal to the
 * rules for every record and all bytes (crates/exports/specs).
 *
 * THE RECORD is what mv_open fills, and all that a reader is: copy it, and you have a second reader at the same place (give it a buffer of its
 * own). Any bit pattern is taken: a word that says yes or no is yes unless it is zero, a timestamp that is not present isn't looked at, of a word
 * for a 16-bit field (a timestamp's, the check's) the low 16 bits are read, of the rate's code the low 8; and a record that can't be is answered
 * by number 1. Calls write 0 or 1 for no and yes. Number 1, and a push's 2 to 4, write nothing at all.
 *
 * WHICH OF ITS WORDS ARE WRITTEN. mv_open: all but `unused`, of the timestamp `present` alone. A push that is accepted: start, end, accepted, unanswered. A
 * request at any number but 1: start, unanswered, consumed, frames, errors, substreams, locked, seen, and the timestamp, of which `present` alone where none
 * waits. What a request leaves as it was is written as it was read. So number 8 with nothing unanswered changes nothing: in a record that calls have
 * written bit for bit, and in a forged one each word says to every call what it said before (a yes of 7 is written as 1, an hour of 65,537 as 1).
 *
 * THE UNIT is written by mv_next alone: all but `actual` and `minimum` by number 0, those two by number 5; everything else in it, and all of it
 * at any other number, stays as it was.
 *
 * THE BUFFER IS YOURS: 8,192 to 1,048,576 bytes, the same one in each call for a reader. A push writes in it, a request does not. A unit is
 * answered as its start and length in it; these bytes hold until the next push that is accepted.
 *
 * WHAT C ITSELF MAKES UNDEFINED, and nothing more: a pointer that does not point to as many readable bytes (writable ones for the record, the
 * unit and the buffer of a push) as its type or the length beside it says, that is not aligned for its type, or that another thread writes to
 * meanwhile; a length above PTRDIFF_MAX; a null pointer, also with length 0 (lend any address there); two of one call's pointers to bytes that
 * overlap.
 *
 * NUMBERS
 *   0  accepted, opened, or a unit
 *   1  the record or the buffer doesn't fit                  unchanged
 *   2  65,535 pushes unanswered                              unchanged
 *   3  the accepted total would pass 2^48 bytes              unchanged
 *   4  unread plus piece exceeds the buffer                  unchanged
 *   5  a unit's length is below its minimum                  one byte consumed behind what preceded it, counted in errors
 *   6  the sync check failed                                 the candidate consumed, counted in errors
 *   7  dry while locked: push more                           one push answered
 *   8  dry in search: push more; or nothing unanswered       one push answered, if there was one
 * A parity loss or a changed substream count has no number: it is counted in the record's errors alone. Look there.
 */
#ifndef MIRVASHEN_H
#define MIRVASHEN_H

#include <stddef.h>
#include <stdint.h>

#ifdef __cplusplus
extern "C" {
#define MV_RESTRICT
#else
#define MV_RESTRICT restrict
#endif

#define MV_LEAST_BUFFER 8192u
#define MV_MOST_BUFFER 1048576u

/* The check of a major sync: polynomial 002D hex, start 0, no zero bits. */
#define MV_CHECK_POLY 0x002Du
#define MV_CHECK_INIT 0u
#define MV_CHECK_ZEROS 0u

typedef struct MvTimestamp {
    uint64_t present;                         /* is there a timestamp? If not, the rest means nothing */
    uint64_t hours, minutes, seconds, frames; /* each as its four decimal digits say, 0 to 9,999 */
    uint64_t samples;
    uint64_t reserved1; /* the flag word's ten reserved bits */
    uint64_t framerate; /* 1 to 8: 23.976, 24, 25, 29.97, 30, 50, 59.94, 60; any other code as it came */
    uint64_t reserved2; /* its one reserved bit */
    uint64_t dropframe;
} MvTimestamp;

typedef struct MvReader {
    MvTimestamp timestamp; /* the one that waits for the next unit */
    uint64_t start, end;   /* the unread bytes' place in the buffer */
    uint64_t accepted;     /* bytes accepted so far */
    uint64_t unanswered;   /* pushes that no dry request has answered */
    uint64_t consumed;     /* bytes consumed so far: the stream position */
    uint64_t frames;       /* units handed out so far */
    uint64_t errors;       /* losses so far, the quiet ones too */
    uint64_t substreams;   /* the count under which the reader locked last */
    uint64_t locked;
    uint64_t seen;              /* was a sync word ever found? */
    uint64_t poly, init, zeros; /* the check's setting, as given at opening */
    uint64_t unused;            /* neither read nor written */
} MvReader;

typedef struct MvUnit {
    MvTimestamp timestamp;    /* the one that came with it */
    uint64_t start, length;   /* its place in the buffer */
    uint64_t index, position; /* its number and its place in the stream, both from 0 */
    uint64_t major;           /* does it begin with a major sync? */
    uint64_t substreams;      /* the count under which it was read */
    uint64_t actual, minimum; /* number 5's lengths */
    uint64_t unused[6];       /* neither read nor written */
} MvUnit;

/* A new reader over a buffer of `length` bytes; numbers 0 and 1. The buffer's bytes are not read. */
uint32_t mv_open(MvReader *reader, const uint8_t *buffer, size_t length, uint16_t poly, uint16_t init, uint8_t zeros);

/* A piece of the stream, of any length, behind the unread bytes, which may be moved to the buffer's start; numbers 0 to 4. */
uint32_t mv_push_bytes(MvReader *MV_RESTRICT reader, uint8_t *MV_RESTRICT buffer, size_t length, const uint8_t *MV_RESTRICT piece, size_t piece_length);

/* One request; numbers 0 (a unit), 1, 5, 6, 7, 8. Ask until 7 or 8, then push the next piece. */
uint32_t mv_next(MvReader *MV_RESTRICT reader, const uint8_t *MV_RESTRICT buffer, size_t length, MvUnit *MV_RESTRICT unit);

#ifdef __cplusplus
}
#endif
#endif
