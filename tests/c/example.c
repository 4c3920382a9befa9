/* Squares of 4 by 4 units on a strip 10 units high, in columns of 2 units: three one by one, with the tries that each took, three as
   a job, and two more that are shown before they are laid. */
#include "vikelodu.h"

#include <stdio.h>

/* GAP is the units that pieces are kept apart. */
enum { WIDTH = 10, RESOLUTION = 2, COLUMNS = 10, GAP = 0, RECORDS = 6 };

static uint16_t strip[VIKELODU_STRIP_WORDS(COLUMNS, RECORDS)];
static uint16_t work[300];

static const uint16_t square[] = {0, 0, 4, 0, 4, 4, 0, 4};
static const uint16_t mask = 1; /* turn 0 alone */

static int one_by_one(void) {
    uint64_t answer = vikelodu_open(WIDTH, RESOLUTION, COLUMNS, GAP, strip, sizeof strip / 2);
    if (vikelodu_number(answer) != VIKELODU_GRANTED) {
        printf("open refused %d\n", vikelodu_number(answer));
        return 1;
    }
    for (int piece = 1; piece <= 3; piece++) {
        vikelodu_tried laid = vikelodu_place(strip, sizeof strip / 2, square, sizeof square / 2, mask, work, sizeof work / 2);
        answer = laid.answer;
        if (vikelodu_number(answer) == VIKELODU_GRANTED) {
            printf("%d placed %d %d %d", piece, vikelodu_turn(answer), vikelodu_column(answer), vikelodu_height(answer));
        } else {
            printf("%d refused %d", piece, vikelodu_number(answer));
        }
        printf(", tries %d\n", (int)laid.tries);
    }
    return 0;
}

/* The same pieces as a list, written as a sheet and laid from it. */
static int as_a_job(void) {
    /* The number of pieces; then for each its number of vertices, its mask and its outline. */
    const uint16_t list[] = {3, 4, 1, 0, 0, 4, 0, 4, 4, 0, 4, 4, 1, 0, 0, 4, 0, 4, 4, 0, 4, 4, 1, 0, 0, 4, 0, 4, 4, 0, 4};
    uint8_t sheet[VIKELODU_SHEET_BYTES(12, 3)];
    uint16_t output[VIKELODU_LAY_WORDS(3)];

    uint64_t answer = vikelodu_write(WIDTH, RESOLUTION, COLUMNS, list, sizeof list / 2, sheet, sizeof sheet);
    if (vikelodu_number(answer) == VIKELODU_GRANTED) {
        answer = vikelodu_lay(sheet, vikelodu_size(answer), GAP, strip, sizeof strip / 2, output, sizeof output / 2, work,
                              sizeof work / 2);
    }
    if (vikelodu_number(answer) != VIKELODU_GRANTED) {
        printf("job refused %d %d\n", vikelodu_number(answer), vikelodu_ordinal(answer));
        return 1;
    }
    for (int piece = 1; piece <= 3; piece++) {
        const uint16_t *entry = output + VIKELODU_LAY_WORDS(piece - 1);
        if (entry[0] == VIKELODU_GRANTED) {
            printf("%d placed %d %d %d\n", piece, entry[1], entry[2], entry[3]);
        } else {
            printf("%d refused %d\n", piece, entry[0]);
        }
    }
    printf("used %lu placed %d\n", (unsigned long)vikelodu_used_length(answer), vikelodu_placed(answer));
    return 0;
}

/* Two more on the strip as the job left it. A unit is 1/8 mm. */
static int look_first(void) {
    for (int piece = 4; piece <= 5; piece++) {
        uint64_t spot = vikelodu_ask(strip, sizeof strip / 2, square, sizeof square / 2, mask, work, sizeof work / 2).answer;
        if (vikelodu_number(spot) != VIKELODU_GRANTED) {
            printf("%d refused %d\n", piece, vikelodu_number(spot));
            return 1;
        }
        printf("%d would lie %.3f mm to the right and %.3f mm up, in turn %d\n", piece,
               vikelodu_column(spot) * RESOLUTION / 8.0, vikelodu_height(spot) / 8.0, vikelodu_turn(spot));
        uint64_t answer = vikelodu_commit(strip, sizeof strip / 2, square, sizeof square / 2, vikelodu_turn(spot),
                                          vikelodu_column(spot), vikelodu_height(spot), work, sizeof work / 2);
        if (vikelodu_number(answer) != VIKELODU_GRANTED) {
            printf("%d refused %d\n", piece, vikelodu_number(answer));
            return 1;
        }
        printf("%d committed\n", piece);
    }
    return 0;
}

int main(void) { return one_by_one() || as_a_job() || look_first(); }
