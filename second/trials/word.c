/* Words that are numbers. */
#include "word.h"

#include <errno.h>
#include <inttypes.h>
#include <stdio.h>
#include <stdlib.h>

uint64_t number_of(const char *program, const char *name, const char *word, uint64_t least, uint64_t greatest)
{
    char *end;
    errno = 0;
    const uint64_t number = strtoull(word, &end, 10);
    if (word[0] < '0' || word[0] > '9' || *end != '\0' || errno != 0 || number < least || number > greatest) {
        fprintf(stderr, "%s: %s is a number from %" PRIu64 " to %" PRIu64 ", not '%s'\n", program, name, least, greatest, word);
        exit(2);
    }
    return number;
}
