/* libFuzzer's changes, most of them mended so that the input stays a sheet or a path. At the end it prints how often each number
   came. */
#include "mend.h"
#include "random.h"
#include "target.h"

#include <stdio.h>
#include <stdlib.h>

size_t LLVMFuzzerMutate(uint8_t *data, size_t size, size_t most);
size_t LLVMFuzzerCustomMutator(uint8_t *data, size_t size, size_t most, unsigned int seed);
int LLVMFuzzerInitialize(int *count, char ***words);

static void print_times(void) {
    fprintf(stderr, "granted %llu", came[0]);
    for (int number = 1; number < NUMBERS; number++) {
        if (came[number] > 0) {
            fprintf(stderr, ", %d %llu", number, came[number]);
        }
    }
    fprintf(stderr, "\n");
}

int LLVMFuzzerInitialize(int *count, char ***words) {
    (void)count;
    (void)words;
    return atexit(print_times);
}

size_t LLVMFuzzerCustomMutator(uint8_t *data, size_t size, size_t most, unsigned int seed) {
    uint64_t random = seed;
    if (next_random(&random) % 2 == 0) {
        size = LLVMFuzzerMutate(data, size, most);
    } else {
        change_number(data, size, &random);
    }
    return next_random(&random) % 8 == 0 ? size : mend(data, size, &random);
}
