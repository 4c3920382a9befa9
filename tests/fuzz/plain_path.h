/* Reading and writing of paths once more, in plain C, to hold the engine's answers against. */
#ifndef PLAIN_PATH_H
#define PLAIN_PATH_H

#include <stddef.h>
#include <stdint.h>

enum { MOST_OUTLINE = 128, MOST_PATH = 9 * MOST_OUTLINE / 2 + 1 };

/* What the read of a path answers with words enough, packed as include/vikelodu.h says; where it is granted, the outline. */
uint64_t plain_read_path(const uint8_t *path, size_t bytes, uint16_t *outline, size_t *words);

/* The path of an outline that was read, and its size. */
size_t plain_path(const uint16_t *outline, size_t words, uint8_t *path);

#endif
