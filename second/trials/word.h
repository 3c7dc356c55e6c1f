/* A number among the words after a program's name. */
#ifndef WORD_H
#define WORD_H

#include <stdint.h>

/* The number that the word is; where it is none from the least to the greatest, the program says so and ends with 2. */
uint64_t number_of(const char *program, const char *name, const char *word, uint64_t least, uint64_t greatest);

#endif
