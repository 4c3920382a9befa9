#include "mend.h"
#include "random.h"

#include <string.h>

const size_t record_bytes = 6;

static unsigned get(const uint8_t *sheet, size_t place) { return sheet[place] + 256u * sheet[place + 1]; }

static void set(uint8_t *sheet, size_t place, unsigned number) {
    sheet[place] = (uint8_t)number;
    sheet[place + 1] = (uint8_t)(number >> 8);
}

/* The figure if it is in its limits, else one that is. */
static void mend_figure(uint8_t *sheet, size_t place, unsigned most) {
    unsigned figure = get(sheet, place);
    set(sheet, place, figure >= 1 && figure <= most ? figure : figure % most + 1);
}

size_t mend(uint8_t *sheet, size_t bytes, uint64_t *random) {
    static const uint8_t mark[4] = {0x4E, 0x4A, 0x01, 0x00};
    if (bytes < 16) {
        return bytes;
    }
    memcpy(sheet, mark, sizeof mark);
    unsigned records = (unsigned)((bytes - 16) / 6), vertices = get(sheet, 12);
    if (vertices > records) {
        vertices = records == 0 ? 0 : (unsigned)(next_random(random) % records);
    }
    set(sheet, 12, vertices);
    set(sheet, 14, records - vertices);
    if (next_random(random) % 8 != 0) {
        mend_figure(sheet, 4, 16000);
        mend_figure(sheet, 6, 400);
        mend_figure(sheet, 8, 4096);
    }
    return 16 + 6 * (size_t)records;
}

void change_number(uint8_t *sheet, size_t bytes, uint64_t *random) {
    static const uint16_t turning[] = {0, 1, 2, 3, 4, 8, 15, 16, 64, 65, 200, 201, 400, 401, 4096, 4097, 16000, 16001, 65535};
    size_t numbers = bytes / 2;
    if (numbers == 0) {
        return;
    }
    size_t place = 2 * (next_random(random) % numbers);
    unsigned there = get(sheet, place);
    switch (next_random(random) % 6) {
    case 0:
        set(sheet, place, turning[next_random(random) % (sizeof turning / sizeof turning[0])]);
        break;
    case 1:
        set(sheet, place, there + 1);
        break;
    case 2:
        set(sheet, place, there - 1);
        break;
    case 3:
        set(sheet, place, (unsigned)(next_random(random) % (bytes / 6 + 2)));
        break;
    case 4:
        set(sheet, place, get(sheet, 2 * (next_random(random) % numbers)));
        break;
    default:
        set(sheet, place, (unsigned)next_random(random));
    }
}
