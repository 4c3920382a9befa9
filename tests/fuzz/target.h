/* What a fuzzer calls for each input, by the name that libFuzzer asks for: read.c for sheets, path.c for paths. */
#ifndef TARGET_H
#define TARGET_H

#include <stddef.h>
#include <stdint.h>

int LLVMFuzzerTestOneInput(const uint8_t *data, size_t size);

/* The numbers are 0 to 20. */
enum { NUMBERS = 21 };

/* How often each number came; 0 is granted. */
extern unsigned long long came[NUMBERS];

/* The numbers that inputs get, in the order of the questions. */
extern const int asked[];
extern const size_t asked_count;

#endif
