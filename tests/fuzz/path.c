/*
 * One input: read as a path by the engine and by plain_path.c, with every output directly before a page that cannot be read. What is
 * granted is written by both and read again; what is written is the input with its minus zeros made zeros. Anything that differs
 * ends the program.
 */
#include "lend.h"
#include "plain_path.h"
#include "target.h"
#include "vikelodu.h"

#include <string.h>

unsigned long long came[NUMBERS];
const int asked[] = {0, 19, 20};
const size_t asked_count = sizeof asked / sizeof asked[0];

/* A path that was granted, as it is written: the sign is in the last byte of a coordinate, and only a zero has one. */
static void without_signs(const uint8_t *path, size_t bytes, uint8_t *to) {
    memcpy(to, path, bytes);
    for (size_t at = 0; at + 1 < bytes; at += 9) {
        to[at + 4] &= 0x7F;
        to[at + 8] &= 0x7F;
    }
}

/* An outline that was read, written and read again. */
static void go_round(const uint16_t *outline, size_t words, const uint8_t *data, size_t size) {
    uint8_t path[MOST_PATH], without[MOST_PATH];
    uint16_t again[MOST_OUTLINE];
    size_t words_again = 0;
    same("plain_path.c by itself", plain_path(outline, words, path), size);
    without_signs(data, size, without);
    same("plain_path.c by itself", (uint64_t)memcmp(path, without, size), 0);
    write_with(vikelodu_write_path, outline, words, size, (uint64_t)size << 32, path, size);
    write_with(vikelodu_write_path, outline, words, size + words % 5, (uint64_t)size << 32, path, size);
    write_with(vikelodu_write_path, outline, words, size - 1, VIKELODU_OUTPUT, path, 0);
    same("plain_path.c by itself", plain_read_path(path, size, again, &words_again), (uint64_t)words << 32);
    same("plain_path.c by itself", words_again == words && memcmp(again, outline, 2 * words) == 0, 1);
    read_with(vikelodu_read_path, path, size, words, (uint64_t)words << 32, outline, words);
}

int LLVMFuzzerTestOneInput(const uint8_t *data, size_t size) {
    uint16_t outline[MOST_OUTLINE];
    size_t words = 0;
    if (size > MOST_INPUT) {
        return 0;
    }
    uint64_t answer = plain_read_path(data, size, outline, &words);
    came[vikelodu_number(answer)]++;
    if (vikelodu_number(answer) != VIKELODU_GRANTED) {
        read_with(vikelodu_read_path, data, size, size % 97, answer, outline, 0);
        read_with(vikelodu_read_path, data, size, MOST_OUTLINE, answer, outline, 0);
        return 0;
    }
    read_with(vikelodu_read_path, data, size, words, answer, outline, words);
    read_with(vikelodu_read_path, data, size, words + size % 5, answer, outline, words);
    read_with(vikelodu_read_path, data, size, words - 1, VIKELODU_OUTPUT, outline, 0);
    go_round(outline, words, data, size);
    return 0;
}
