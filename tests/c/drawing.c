/* What a drawing program does: it hands a wallet over as a path, and takes an outline back as one. */
#include "vikelodu.h"

#include <stdio.h>
#include <string.h>

enum { CORNERS = 6, WIDTH = 2400, RESOLUTION = 40, COLUMNS = 100, GAP = 40, RECORDS = 400 };

/* A wallet with a slanted flap, in millimetres. */
static const float wallet[CORNERS][2] = {{0, 0}, {150, 0}, {150, 210.5f}, {135, 240.25f}, {15, 240.25f}, {0, 210.5f}};

/* A float of 32 bits in four bytes, the low one first, whatever the machine's own order is. */
static uint8_t *put_float(uint8_t *to, float millimetres) {
    uint32_t bits;
    memcpy(&bits, &millimetres, sizeof bits);
    for (int i = 0; i < 4; i++) {
        *to++ = (uint8_t)(bits >> 8 * i);
    }
    return to;
}

/* The path of an outline: a move to the first corner (1), a line to each other one (2), the close (3). */
static size_t draw(const float corners[][2], int count, uint8_t *path) {
    uint8_t *to = path;
    for (int i = 0; i < count; i++) {
        *to++ = i == 0 ? 1 : 2;
        to = put_float(to, corners[i][0]);
        to = put_float(to, corners[i][1]);
    }
    *to++ = 3;
    return (size_t)(to - path);
}

/* The outline of a path as words, in eighths of a millimetre; how many they are, 0 where the path is refused. */
static size_t read_outline(const uint8_t *path, size_t bytes, uint16_t *outline) {
    uint64_t answer = vikelodu_read_path(path, bytes, outline, VIKELODU_MOST_OUTLINE_WORDS);
    switch (vikelodu_number(answer)) {
    case VIKELODU_GRANTED:
        return vikelodu_words(answer);
    case VIKELODU_PATH_SHAPE:
        printf("refused: not one move, 2 to 63 lines and one close\n");
        return 0;
    case VIKELODU_PATH_COORDINATE:
        printf("refused: a coordinate is not a multiple of 0.125 mm from 0 to 2000 mm\n");
        return 0;
    default:
        printf("refused %d\n", vikelodu_number(answer));
        return 0;
    }
}

/* Where the wallet lies on a strip 300 mm wide, in columns of 5 mm, with 5 mm to the next piece; all four turns are allowed. */
static int place(const uint16_t *outline, size_t words) {
    static uint16_t strip[VIKELODU_STRIP_WORDS(COLUMNS, RECORDS)], work[600];
    uint64_t answer = vikelodu_open(WIDTH, RESOLUTION, COLUMNS, GAP, strip, sizeof strip / 2);
    if (vikelodu_number(answer) == VIKELODU_GRANTED) {
        answer = vikelodu_place(strip, sizeof strip / 2, outline, words, 15, work, sizeof work / 2).answer;
    }
    if (vikelodu_number(answer) != VIKELODU_GRANTED) {
        printf("refused %d\n", vikelodu_number(answer));
        return 1;
    }
    printf("placed %.3f mm to the right and %.3f mm up, in turn %d\n", vikelodu_column(answer) * RESOLUTION / 8.0,
           vikelodu_height(answer) / 8.0, vikelodu_turn(answer));
    return 0;
}

int main(void) {
    uint8_t path[VIKELODU_MOST_PATH_BYTES], back[VIKELODU_MOST_PATH_BYTES];
    uint16_t outline[VIKELODU_MOST_OUTLINE_WORDS];
    size_t bytes = draw(wallet, CORNERS, path);

    size_t words = read_outline(path, bytes, outline);
    if (words == 0) {
        return 1;
    }
    printf("%zu corners, the third at %.3f mm, %.3f mm\n", words / 2, outline[4] / 8.0, outline[5] / 8.0);
    if (place(outline, words)) {
        return 1;
    }

    uint64_t answer = vikelodu_write_path(outline, words, back, sizeof back);
    printf("%d bytes back, %s\n", (int)vikelodu_size(answer),
           vikelodu_size(answer) == bytes && memcmp(back, path, bytes) == 0 ? "the same" : "not the same");

    /* Nothing is rounded for the caller: a corner at 150.1 mm is refused, and the program that draws it rounds to eighths itself. */
    put_float(path + 10, 150.1f);
    return read_outline(path, bytes, outline) == 0 ? 0 : 1;
}
