#include "mend.h"
#include "random.h"

#include <string.h>

enum { STEP = 9, MOST_UNITS = 16000 };

const size_t record_bytes = STEP;

static uint32_t get(const uint8_t *path, size_t place) {
    return path[place] + 256u * path[place + 1] + 65536u * path[place + 2] + 16777216u * path[place + 3];
}

static void set(uint8_t *path, size_t place, uint32_t pattern) {
    for (int i = 0; i < 4; i++) {
        path[place + i] = (uint8_t)(pattern >> 8 * i);
    }
}

static uint32_t any_accepted(uint64_t *random) {
    float number = (float)(next_random(random) % (MOST_UNITS + 1)) / 8.0f;
    uint32_t pattern;
    memcpy(&pattern, &number, sizeof pattern);
    return pattern;
}

/* The coordinate if it is accepted, else one that is. */
static void mend_coordinate(uint8_t *path, size_t place, uint64_t *random) {
    uint32_t pattern = get(path, place);
    float number;
    memcpy(&number, &pattern, sizeof number);
    float units = 8.0f * number;
    if (!(units >= 0.0f && units <= (float)MOST_UNITS && (float)(int)units == units)) {
        set(path, place, any_accepted(random));
    }
}

/* A path, or one with a line too many. */
size_t mend(uint8_t *path, size_t bytes, uint64_t *random) {
    size_t steps = bytes < 1 ? 0 : (bytes - 1) / STEP;
    if (steps < 3) {
        return bytes;
    }
    if (steps > 65) {
        steps = 65;
    }
    int coordinates = next_random(random) % 2 == 0;
    for (size_t step = 0; step < steps; step++) {
        path[STEP * step] = step == 0 ? 1 : 2;
        if (coordinates) {
            mend_coordinate(path, STEP * step + 1, random);
            mend_coordinate(path, STEP * step + 5, random);
        }
    }
    path[STEP * steps] = 3;
    return STEP * steps + 1;
}

/* The place of a coordinate; there are so many steps that have two. */
static size_t any_place(size_t steps, uint64_t *random) {
    size_t step = next_random(random) % steps;
    return STEP * step + 1 + 4 * (next_random(random) % 2);
}

void change_number(uint8_t *path, size_t bytes, uint64_t *random) {
    static const uint32_t turning[] = {0,          0x80000000, 0x3E000000, 0x3D800000, 0x44FA0000, 0x44FA0400, 0x44F9FC00,
                                       0xBE000000, 0x00000001, 0x00800000, 0x7F800000, 0x7FC00000, 0xFFFFFFFF};
    size_t steps = bytes / STEP;
    if (steps == 0) {
        return;
    }
    size_t place = any_place(steps, random);
    uint32_t there = get(path, place);
    switch (next_random(random) % 8) {
    case 0:
        set(path, place, turning[next_random(random) % (sizeof turning / sizeof turning[0])]);
        break;
    case 1:
        set(path, place, there + 1);
        break;
    case 2:
        set(path, place, there - 1);
        break;
    case 3:
        set(path, place, there ^ (uint32_t)1 << next_random(random) % 32);
        break;
    case 4:
        set(path, place, get(path, any_place(steps, random)));
        break;
    case 5:
        set(path, place, any_accepted(random));
        break;
    case 6:
        path[STEP * (next_random(random) % steps)] = (uint8_t)(next_random(random) % 5);
        break;
    default:
        set(path, place, (uint32_t)next_random(random));
    }
}
