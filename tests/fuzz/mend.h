/* Changes that keep a sheet a sheet (mend.c) or a path a path (mend_path.c), so that the later questions are reached. */
#ifndef MEND_H
#define MEND_H

#include <stddef.h>
#include <stdint.h>

/* The bytes of a record, or of a step with its coordinates. */
extern const size_t record_bytes;

/* Makes the input one by its shape: a sheet's first bytes, V and P; a path's steps. It may cut some bytes; the new length. */
size_t mend(uint8_t *input, size_t bytes, uint64_t *random);

/* Changes one number of the input to one that a question turns on. */
void change_number(uint8_t *input, size_t bytes, uint64_t *random);

#endif
