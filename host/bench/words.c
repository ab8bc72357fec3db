/* A word, letter by letter. */
#include "random.h"
#include "words.h"

/* Codes that follow each other. */
struct codes {
    uint8_t first;
    uint8_t count;
};

static const struct codes capitals = {0x41, 26};
static const struct codes letters = {0x61, 26};
static const struct codes figures = {0x30, 10};
static const struct codes marks = {0x21, 15};

static uint8_t one_of(const struct codes *codes)
{
    return (uint8_t)(codes->first + random_byte() % codes->count);
}

static const struct codes *kind_of_word(void)
{
    static const struct codes *const kinds[] = {&capitals, &letters, &letters, &figures};
    return kinds[random_byte() % 4];
}

unsigned random_word(uint8_t characters[WORD], unsigned room)
{
    const struct codes *kind = kind_of_word();
    unsigned letters_of_word = 2 + random_byte() % (WORD - 2);
    unsigned has_mark = random_byte() % 8 == 0;
    unsigned length = 0;
    for (; length < letters_of_word && length < room; length++)
        characters[length] = one_of(kind);
    if (has_mark)
        characters[length - 1] = one_of(&marks);
    if (length < room)
        characters[length++] = SPACE;
    return length;
}
