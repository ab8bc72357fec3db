/* Words as an operator's page has them, the same in every run. */
#ifndef WORDS_H
#define WORDS_H

#include <stdint.h>

#define SPACE 0x20u

/* The characters of the longest word, with the space behind it. */
#define WORD 10u

/*
 * Another word at each call, of letters or of figures, and the space behind it, in as many characters as there is room for, one at the
 * least; some words have a mark at their end. The answer is how many they are.
 */
unsigned random_word(uint8_t characters[WORD], unsigned room);

#endif
