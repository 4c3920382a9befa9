/* The coordinates that are accepted are looked up in a table of their patterns; no pattern is taken apart. */
#include "plain_path.h"

enum { MOVE = 1, LINE = 2, CLOSE = 3, STEP = 9, MOST_UNITS = 16000 };

/* ----------------------------------------------------------------- coordinates */

static uint32_t table[MOST_UNITS + 1];

/* Patterns rise evenly from a power of two to the next: by 2^23 in one step from 1/8 to 2/8 mm, by half of that in each of the two
   steps from there to 4/8, and so on. */
static void make_table(void) {
    uint32_t pattern = 0x3E000000, step = 1 << 23;
    for (uint32_t units = 1; units <= MOST_UNITS; units++) {
        table[units] = pattern;
        pattern += step;
        if ((units & (units + 1)) == 0) {
            step /= 2;
        }
    }
}

static uint32_t pattern_of(unsigned units) {
    if (table[1] == 0) {
        make_table();
    }
    return table[units];
}

/* The units of an accepted coordinate, or -1. Patterns without a sign rise with their numbers; after them come the infinity and
   the patterns that are no numbers. */
static int units_of(uint32_t pattern) {
    int from = 0, to = MOST_UNITS;
    if (pattern == 0x80000000) {
        return 0;
    }
    if (pattern > 0x80000000) {
        return -1;
    }
    if (pattern > pattern_of(MOST_UNITS)) {
        return -1;
    }
    while (from < to) {
        int middle = (from + to) / 2;
        if (pattern_of((unsigned)middle) < pattern) {
            from = middle + 1;
        } else {
            to = middle;
        }
    }
    return pattern_of((unsigned)from) == pattern ? from : -1;
}

/* ------------------------------------------------------------------------ read */

/* The vertices of a path, or 0 where 19 gets "no". */
static size_t count_vertices(const uint8_t *path, size_t bytes) {
    size_t vertices = 0;
    for (size_t at = 0; at < bytes; at += STEP) {
        switch (path[at]) {
        case MOVE:
            if (vertices != 0) {
                return 0;
            }
            break;
        case LINE:
            if (vertices == 0 || vertices == MOST_OUTLINE / 2) {
                return 0;
            }
            break;
        case CLOSE:
            if (vertices < 3) {
                return 0;
            }
            return at + 1 == bytes ? vertices : 0;
        default:
            return 0;
        }
        if (bytes - at < STEP) {
            return 0;
        }
        vertices++;
    }
    return 0;
}

uint64_t plain_read_path(const uint8_t *path, size_t bytes, uint16_t *outline, size_t *words) {
    size_t count = 2 * count_vertices(path, bytes);
    if (count == 0) {
        return 19;
    }
    for (size_t i = 0; i < count; i++) {
        const uint8_t *at = path + STEP * (i / 2) + 1 + 4 * (i % 2);
        int units = units_of(at[0] + 256u * at[1] + 65536u * at[2] + 16777216u * at[3]);
        if (units < 0) {
            return 20;
        }
        outline[i] = (uint16_t)units;
    }
    *words = count;
    return (uint64_t)count << 32;
}

/* ----------------------------------------------------------------------- write */

static uint8_t *put(uint8_t *at, uint32_t pattern) {
    for (int i = 0; i < 4; i++) {
        *at++ = (uint8_t)(pattern >> 8 * i);
    }
    return at;
}

size_t plain_path(const uint16_t *outline, size_t words, uint8_t *path) {
    uint8_t *to = path;
    for (size_t i = 0; i < words; i += 2) {
        *to++ = i == 0 ? MOVE : LINE;
        to = put(put(to, pattern_of(outline[i])), pattern_of(outline[i + 1]));
    }
    *to++ = CLOSE;
    return (size_t)(to - path);
}
