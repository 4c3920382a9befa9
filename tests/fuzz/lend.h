/* Calls of the engine on buffers that end directly before a page that cannot be read. What differs ends the program. */
#ifndef LEND_H
#define LEND_H

#include <stddef.h>
#include <stdint.h>

/* The longest input that a buffer takes. */
enum { ROOM = 1 << 17, MARGIN = 64, MOST_INPUT = ROOM - MARGIN };

void same(const char *what, uint64_t engine, uint64_t plain);

typedef uint64_t reading(const uint8_t *input, size_t bytes, uint16_t *output, size_t room);
typedef uint64_t writing(const uint16_t *list, size_t words, uint8_t *output, size_t room);

/* A read with so many words: the answer, the list, and nothing else written. */
void read_with(reading *call, const uint8_t *input, size_t bytes, size_t room, uint64_t answer, const uint16_t *list,
               size_t words);

/* A write with so many bytes, in the same way. */
void write_with(writing *call, const uint16_t *list, size_t words, size_t room, uint64_t answer, const uint8_t *written,
                size_t bytes);

#endif
