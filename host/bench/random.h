/* Random bytes, the same in every run. */
#ifndef RANDOM_H
#define RANDOM_H

#include <stddef.h>
#include <stdint.h>

uint8_t random_byte(void);

void fill(uint8_t *bytes, size_t count);

#endif
