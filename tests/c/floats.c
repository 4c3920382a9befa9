/*
 * The coordinates of a path by C's own float arithmetic: every pattern of 32 bits that is tried stands as one coordinate of a
 * triangle, and vikelodu_read_path must accept it, or not, as C's float says. vikelodu_write_path must write the bytes of such a
 * float.
 * usage: floats            every number written; the accepted patterns, their neighbours and a fixed sample of the others read
 *        floats all        every pattern read
 *        floats FROM TO    the patterns FROM to TO - 1 read
 * Prints how many were accepted, refused and read otherwise.
 */
#include "vikelodu.h"

#include <float.h>
#include <stdio.h>
#include <stdlib.h>
#include <string.h>

_Static_assert(sizeof(float) == 4 && FLT_RADIX == 2 && FLT_MANT_DIG == 24 && FLT_MAX_EXP == 128, "float is not binary32");

enum { MOST = 16000, VERTICES = 3, PLACES = 2 * VERTICES, PATH = 9 * VERTICES + 1, PAST = 2, PRINTED = 20 };

static const uint64_t patterns = (uint64_t)1 << 32;

static unsigned long long accepted[PLACES], refused, different;

static unsigned long long all_accepted(void) {
    unsigned long long all = 0;
    for (int place = 0; place < PLACES; place++) {
        all += accepted[place];
    }
    return all;
}

/* -------------------------------------------------------------- C's own float */

static uint32_t pattern_of(float number) {
    uint32_t pattern;
    memcpy(&pattern, &number, sizeof pattern);
    return pattern;
}

/* Eight times the number if that is whole and 0 to 16,000, else -1. The product is exact: it only raises the exponent. */
static int units_of(uint32_t pattern) {
    float number;
    memcpy(&number, &pattern, sizeof number);
    float units = 8.0f * number;
    if (!(units >= 0.0f && units <= (float)MOST)) {
        return -1;
    }
    int whole = (int)units;
    return (float)whole == units ? whole : -1;
}

/* ------------------------------------------------------------------ the paths */

/* The words of the other coordinates, each another one, so that none is taken for a neighbour. */
static const uint16_t others[PLACES] = {1, 16000, 300, 2404, 15999, 7};

static void put(uint8_t *path, int place, uint32_t pattern) {
    uint8_t *to = path + 9 * (place / 2) + 1 + 4 * (place % 2);
    for (int i = 0; i < 4; i++) {
        to[i] = (uint8_t)(pattern >> 8 * i);
    }
}

/* The path of the other coordinates. */
static void draw(uint8_t *path) {
    path[0] = 1;
    path[9] = path[18] = 2;
    path[27] = 3;
    for (int place = 0; place < PLACES; place++) {
        put(path, place, pattern_of((float)others[place] / 8.0f));
    }
}

static void differs(const char *what, uint32_t pattern, int place, uint64_t answer) {
    different++;
    if (different <= PRINTED) {
        printf("%s: pattern %#x in place %d, the answer is %#llx\n", what, (unsigned)pattern, place,
               (unsigned long long)answer);
    }
}

/* -------------------------------------------------------------------- reading */

/* One read with the pattern in one place: the answer, and every word of the output, those past the outline too. */
static void read_in(uint32_t pattern, int place) {
    static uint8_t path[PATH];
    uint16_t output[PLACES + PAST], wanted[PLACES + PAST];
    int units = units_of(pattern);
    if (path[0] == 0) {
        draw(path);
    }
    memset(output, 0xA7, sizeof output);
    memset(wanted, 0xA7, sizeof wanted);
    if (units >= 0) {
        memcpy(wanted, others, sizeof others);
        wanted[place] = (uint16_t)units;
        accepted[place]++;
    } else {
        refused++;
    }
    put(path, place, pattern);
    uint64_t answer = vikelodu_read_path(path, PATH, output, PLACES + PAST);
    put(path, place, pattern_of((float)others[place] / 8.0f));
    uint64_t right = units >= 0 ? (uint64_t)PLACES << 32 : VIKELODU_PATH_COORDINATE;
    if (answer != right || memcmp(output, wanted, sizeof output) != 0) {
        differs("read", pattern, place, answer);
    }
}

/* The low bits of an accepted pattern are 0, so the place is taken from the high ones of a product. */
static void read_somewhere(uint32_t pattern) {
    uint32_t mixed = (pattern ^ pattern >> 15) * 0x9E3779B1u;
    read_in(pattern, (int)((uint64_t)mixed * PLACES >> 32));
}

static void read_range(uint64_t from, uint64_t to) {
    for (uint64_t pattern = from; pattern < to; pattern++) {
        read_somewhere((uint32_t)pattern);
    }
}

/* Each accepted number, its two neighbours, and the three with the other sign, in every place. */
static void read_neighbours(void) {
    for (int units = 0; units <= MOST; units++) {
        uint32_t pattern = pattern_of((float)units / 8.0f);
        for (int place = 0; place < PLACES; place++) {
            for (uint32_t off = 0; off < 3; off++) {
                read_in(pattern - 1 + off, place);
                read_in((pattern - 1 + off) ^ 0x80000000u, place);
            }
        }
    }
}

/* All patterns whose low 9 bits are 0: of an accepted one the low 10 are, so each number that is half a unit off is met. */
static void read_short_ones(void) {
    for (uint64_t pattern = 0; pattern < patterns; pattern += 512) {
        read_somewhere((uint32_t)pattern);
    }
}

/* A fixed sample; the row of its patterns meets each of the 2^32 once before it begins again. */
static void read_sample(uint32_t count) {
    uint32_t pattern = 1;
    for (uint32_t left = count; left > 0; left--) {
        pattern = pattern * 1664525u + 1013904223u;
        read_somewhere(pattern);
    }
}

/* -------------------------------------------------------------------- writing */

static void write_in(uint16_t units, int place) {
    uint16_t outline[PLACES];
    uint8_t output[PATH + PAST], wanted[PATH + PAST];
    memcpy(outline, others, sizeof others);
    outline[place] = units;
    memset(output, 0xA7, sizeof output);
    memset(wanted, 0xA7, sizeof wanted);
    draw(wanted);
    put(wanted, place, pattern_of((float)units / 8.0f));
    uint64_t answer = vikelodu_write_path(outline, PLACES, output, sizeof output);
    if (answer != (uint64_t)PATH << 32 || memcmp(output, wanted, sizeof output) != 0) {
        differs("write", pattern_of((float)units / 8.0f), place, answer);
    }
}

static void write_all(void) {
    for (int units = 0; units <= MOST; units++) {
        for (int place = 0; place < PLACES; place++) {
            write_in((uint16_t)units, place);
        }
    }
}

/* ----------------------------------------------------------------------- main */

static void print_counts(void) {
    printf("accepted %llu, refused %llu, different %llu\n", all_accepted(), refused, different);
}

/* Each place took an accepted coordinate, so that nothing passes emptily. */
static int every_place_met(void) {
    for (int place = 0; place < PLACES; place++) {
        if (accepted[place] == 0) {
            printf("no coordinate was accepted in place %d\n", place);
            return 0;
        }
    }
    return 1;
}

static int in_gate(void) {
    enum { SAMPLE = 12000000 };
    write_all();
    read_neighbours();
    read_short_ones();
    read_sample(SAMPLE);
    print_counts();
    return different == 0 && every_place_met();
}

static int all(void) {
    read_range(0, patterns);
    print_counts();
    if (all_accepted() != MOST + 2) {
        printf("%d are to be accepted: 0 to 16,000 eighths, and minus zero\n", MOST + 2);
        return 0;
    }
    return different == 0 && every_place_met();
}

static int part(uint64_t from, uint64_t to) {
    read_range(from, to < patterns ? to : patterns);
    print_counts();
    return different == 0;
}

int main(int count, char **words) {
    if (count == 1) {
        return in_gate() ? 0 : 1;
    }
    if (count == 2 && strcmp(words[1], "all") == 0) {
        return all() ? 0 : 1;
    }
    if (count == 3) {
        return part(strtoull(words[1], NULL, 0), strtoull(words[2], NULL, 0)) ? 0 : 1;
    }
    fprintf(stderr, "usage: floats [all | FROM TO]\n");
    return 2;
}
