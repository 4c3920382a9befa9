#define _DEFAULT_SOURCE
#include "lend.h"

#include <stdio.h>
#include <stdlib.h>
#include <string.h>
#include <sys/mman.h>

void same(const char *what, uint64_t engine, uint64_t plain) {
    if (engine != plain) {
        fprintf(stderr, "%s: the engine says %#llx, plain C %#llx\n", what, (unsigned long long)engine,
                (unsigned long long)plain);
        abort();
    }
}

/* ------------------------------------------------------------------- buffers */

enum { PAGE = 4096 };

/* The end of some pages; the one after it cannot be read. */
static uint8_t *pages(void) {
    uint8_t *start = mmap(NULL, ROOM + PAGE, PROT_READ | PROT_WRITE, MAP_PRIVATE | MAP_ANONYMOUS, -1, 0);
    if (start == MAP_FAILED || mprotect(start + ROOM, PAGE, PROT_NONE) != 0) {
        fprintf(stderr, "no memory\n");
        abort();
    }
    return start + ROOM;
}

enum { FILLED = 0xA7 };

/* The bytes of an output that ends there, filled, with a margin before it that must stay. */
static uint8_t *filled(uint8_t *end, size_t bytes) {
    memset(end - bytes - MARGIN, FILLED, bytes + MARGIN);
    return end - bytes;
}

static void stays(const char *what, const uint8_t *from, const uint8_t *to) {
    for (; from < to; from++) {
        same(what, *from, FILLED);
    }
}

/* --------------------------------------------------------------------- calls */

void read_with(reading *call, const uint8_t *input, size_t bytes, size_t room, uint64_t answer, const uint16_t *list,
               size_t words) {
    static uint8_t *input_end, *output_end;
    if (input_end == NULL) {
        input_end = pages();
        output_end = pages();
    }
    memcpy(input_end - bytes, input, bytes);
    uint8_t *output = filled(output_end, 2 * room);
    same("read", call(input_end - bytes, bytes, (uint16_t *)(void *)output, room), answer);
    same("list", (uint64_t)memcmp(output, list, 2 * words), 0);
    stays("word past the list", output + 2 * words, output_end);
    stays("word before the output", output - MARGIN, output);
    same("input", (uint64_t)memcmp(input_end - bytes, input, bytes), 0);
}

void write_with(writing *call, const uint16_t *list, size_t words, size_t room, uint64_t answer, const uint8_t *written,
                size_t bytes) {
    static uint8_t *list_end, *output_end;
    if (list_end == NULL) {
        list_end = pages();
        output_end = pages();
    }
    memcpy(list_end - 2 * words, list, 2 * words);
    uint8_t *output = filled(output_end, room);
    same("write", call((const uint16_t *)(const void *)(list_end - 2 * words), words, output, room), answer);
    same("written", (uint64_t)memcmp(output, written, bytes), 0);
    stays("byte past what is written", output + bytes, output_end);
    stays("byte before the output", output - MARGIN, output);
    same("list", (uint64_t)memcmp(list_end - 2 * words, list, 2 * words), 0);
}
