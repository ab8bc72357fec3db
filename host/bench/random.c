/* A shift generator: every run gets the same numbers. */
#include "random.h"

static uint64_t state = 0x9345;

uint8_t random_byte(void)
{
    state ^= state << 13;
    state ^= state >> 7;
    state ^= state << 17;
    return (uint8_t)(state >> 32);
}

void fill(uint8_t *bytes, size_t count)
{
    for (size_t i = 0; i < count; i++)
        bytes[i] = random_byte();
}
