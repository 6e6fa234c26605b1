/* Reads a stream in pieces through include/mirvashen.h and prints a line for each unit, each spoken error and the end, as `report` does.
 *     report FILE [PIECE]     PIECE: bytes in a piece, 65,536 where none is named; '-' for standard input
 * The exit status is 0 where nothing was lost, 1 where something was, 2 where the file can't be read. */
#include "mirvashen.h"

#include <inttypes.h>
#include <stdio.h>
#include <stdlib.h>
#include <string.h>

static uint8_t buffer[MV_MOST_BUFFER];
static uint8_t piece[MV_MOST_BUFFER - MV_LEAST_BUFFER]; /* with what a dry reader holds, at most 8,189 bytes, it fits the buffer */

static void ask_until_dry(MvReader *reader) {
    MvUnit unit;
    for (;;) {
        uint32_t number = mv_next(reader, buffer, sizeof buffer, &unit);
        if (number == 0)
            printf("AU %" PRIu64 " %" PRIu64 " %" PRIu64 " %s %s\n", unit.index, unit.position, unit.length, unit.major ? "major" : "minor", unit.timestamp.present ? "ts" : "-");
        else if (number == 5 || number == 6)
            printf("BAD %" PRIu32 " %" PRIu64 "\n", number, reader->consumed);
        else
            return; /* 7 and 8: dry */
    }
}

int main(int argc, char **argv) {
    size_t most = argc > 2 ? strtoul(argv[2], NULL, 10) : 65536;
    if (argc < 2 || most < 1 || most > sizeof piece) {
        fprintf(stderr, "report FILE [PIECE]: PIECE is 1 to %zu\n", sizeof piece);
        return 2;
    }
    FILE *in = strcmp(argv[1], "-") == 0 ? stdin : fopen(argv[1], "rb");
    if (!in) {
        perror(argv[1]);
        return 2;
    }
    MvReader reader;
    mv_open(&reader, buffer, sizeof buffer, MV_CHECK_POLY, MV_CHECK_INIT, MV_CHECK_ZEROS); /* 0: such a buffer fits */
    size_t n;
    while ((n = fread(piece, 1, most, in)) > 0) {
        uint32_t number = mv_push_bytes(&reader, buffer, sizeof buffer, piece, n);
        if (number != 0) { /* only 3 can come: 2^48 bytes */
            fprintf(stderr, "%s: refused by number %" PRIu32 "\n", argv[1], number);
            return 2;
        }
        ask_until_dry(&reader);
    }
    if (ferror(in)) {
        perror(argv[1]);
        return 2;
    }
    printf("END %" PRIu64 " %" PRIu64 "\n", reader.consumed, reader.errors);
    return reader.errors != 0;
}
