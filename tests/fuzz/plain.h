/* Read and write of document 01 once more, in plain C, to hold the engine's answers against. */
#ifndef PLAIN_H
#define PLAIN_H

#include <stddef.h>
#include <stdint.h>

enum { MOST_SHEET = 65536, MOST_PIECES = 200, MOST_VERTICES = 64, MOST_LIST = 1 + MOST_PIECES * (2 + 2 * MOST_VERTICES) };

/* What read answers with words enough, packed as include/vikelodu.h says; where it is granted, the list and its words. */
uint64_t plain_read(const uint8_t *sheet, size_t bytes, uint16_t *list, size_t *words);

/* The sheet of a list that was read, and its size: the bytes are written only where it is at most MOST_SHEET. */
size_t plain_sheet(uint64_t figures, const uint16_t *list, uint8_t *sheet);

/* Which of the questions 8 to 11 gets "no" for an outline of 3 to 64 vertices, else 0. */
int plain_piece(const uint16_t *outline, size_t vertices, unsigned mask);

#endif
