/*
 * One input: read as a sheet by the engine and by plain.c, with every output directly before a page that cannot be read. What is
 * granted is written by both and read again. Anything that differs ends the program.
 */
#include "lend.h"
#include "plain.h"
#include "target.h"
#include "vikelodu.h"

#include <string.h>

unsigned long long came[NUMBERS];
const int asked[] = {0, 1, 2, 3, 16, 17, 6, 7, 8, 9, 10, 11};
const size_t asked_count = sizeof asked / sizeof asked[0];

/* Width, resolution and columns that the list in hand was read with. */
static uint64_t figures;

static uint64_t write_list(const uint16_t *list, size_t words, uint8_t *output, size_t room) {
    return vikelodu_write(vikelodu_width(figures), vikelodu_resolution(figures), vikelodu_columns(figures), list, words, output,
                          room);
}

/* A list that was read, written and read again. */
static void go_round(const uint16_t *list, size_t words) {
    static uint8_t sheet[MOST_SHEET];
    static uint16_t again[MOST_LIST];
    size_t size = plain_sheet(figures, list, sheet), words_again = 0;
    if (size > MOST_SHEET) {
        write_with(write_list, list, words, MOST_SHEET, VIKELODU_SHEET_LENGTH, sheet, 0);
        return;
    }
    write_with(write_list, list, words, size, (uint64_t)size << 32, sheet, size);
    write_with(write_list, list, words, size - 1, VIKELODU_OUTPUT, sheet, 0);
    same("plain.c by itself", plain_read(sheet, size, again, &words_again), figures);
    same("plain.c by itself", words_again == words && memcmp(again, list, 2 * words) == 0, 1);
    read_with(vikelodu_read, sheet, size, words, figures, list, words);
}

int LLVMFuzzerTestOneInput(const uint8_t *data, size_t size) {
    static uint16_t list[MOST_LIST];
    size_t words = 0;
    if (size > MOST_INPUT) {
        return 0;
    }
    uint64_t answer = plain_read(data, size, list, &words);
    came[vikelodu_number(answer)]++;
    if (vikelodu_number(answer) != VIKELODU_GRANTED) {
        read_with(vikelodu_read, data, size, size % 97, answer, list, 0);
        return 0;
    }
    read_with(vikelodu_read, data, size, words, answer, list, words);
    read_with(vikelodu_read, data, size, words + size % 5, answer, list, words);
    read_with(vikelodu_read, data, size, words - 1, VIKELODU_OUTPUT, list, 0);
    figures = answer;
    go_round(list, words);
    return 0;
}
