/*
 * The committed seeds, and a fixed number of changed ones from a fixed seed, without libFuzzer: a cc is all it needs. The name of a
 * seed that is refused begins with the number it gets.
 * usage: replay CHANGED FILE..
 */
#include "mend.h"
#include "random.h"
#include "target.h"

#include <stdio.h>
#include <stdlib.h>
#include <string.h>

enum { MOST_SEEDS = 64, MOST_BYTES = 4096, LONG_BYTES = 1000 };

struct seed {
    uint8_t bytes[MOST_BYTES];
    size_t size;
};

static struct seed seeds[MOST_SEEDS];
static unsigned long long named[NUMBERS];

static void load(struct seed *into, const char *name) {
    FILE *file = fopen(name, "rb");
    if (file == NULL) {
        perror(name);
        exit(1);
    }
    into->size = fread(into->bytes, 1, MOST_BYTES, file);
    fclose(file);
}

/* Adds or takes away records at the end, or some bytes. */
static void change_length(struct seed *of, uint64_t *random) {
    size_t by = next_random(random) % 4 == 0 ? next_random(random) % 7 : record_bytes * (next_random(random) % 4);
    if (next_random(random) % 2 == 0) {
        of->size = of->size > by ? of->size - by : 0;
    } else if (of->size + by <= MOST_BYTES) {
        for (size_t i = 0; i < by; i++) {
            of->bytes[of->size++] = (uint8_t)next_random(random);
        }
    }
}

/* Any seed; a long one takes its time and comes more rarely. */
static const struct seed *pick(int given, uint64_t *random) {
    const struct seed *picked;
    do {
        picked = &seeds[next_random(random) % (uint64_t)given];
    } while (picked->size > LONG_BYTES && next_random(random) % 64 != 0);
    return picked;
}

static void run_changed(const struct seed *from, uint64_t *random) {
    struct seed changed = *from;
    for (uint64_t left = 1 + next_random(random) % 4; left > 0; left--) {
        if (next_random(random) % 8 == 0) {
            change_length(&changed, random);
        }
        change_number(changed.bytes, changed.size, random);
    }
    if (next_random(random) % 8 != 0) {
        changed.size = mend(changed.bytes, changed.size, random);
    }
    LLVMFuzzerTestOneInput(changed.bytes, changed.size);
}

/* Every number came, so that nothing passes emptily. */
static int each_number_came(void) {
    for (size_t i = 0; i < asked_count; i++) {
        printf("%s%d %llu", i == 0 ? "" : ", ", asked[i], came[asked[i]]);
    }
    printf("\n");
    for (size_t i = 0; i < asked_count; i++) {
        if (came[asked[i]] < 20) {
            printf("%d came only %llu times\n", asked[i], came[asked[i]]);
            return 0;
        }
    }
    return 1;
}

/* The seed by itself gets the number of its name, or is granted. */
static void run_seed(struct seed *into, const char *name) {
    const char *slash = strrchr(name, '/');
    int number = atoi(slash == NULL ? name : slash + 1);
    load(into, name);
    LLVMFuzzerTestOneInput(into->bytes, into->size);
    if (number < 0 || number >= NUMBERS || came[number] != ++named[number]) {
        printf("%s does not get %d\n", name, number);
        exit(1);
    }
}

int main(int count, char **words) {
    uint64_t random = 1;
    int given = count - 2;
    if (given < 1 || given > MOST_SEEDS) {
        fprintf(stderr, "usage: replay CHANGED FILE..\n");
        return 2;
    }
    for (int i = 0; i < given; i++) {
        run_seed(&seeds[i], words[2 + i]);
    }
    for (long left = atol(words[1]); left > 0; left--) {
        run_changed(pick(given, &random), &random);
    }
    return each_number_came() ? 0 : 1;
}
