/* The door for libFuzzer: its bytes are an input, whose encoding is said in code.h. A difference is told, and ends the run. */
#include "input.h"

#include <stdio.h>
#include <stdlib.h>

int LLVMFuzzerTestOneInput(const uint8_t *bytes, size_t length);

int LLVMFuzzerTestOneInput(const uint8_t *bytes, size_t length)
{
    uint64_t calls = 0;
    if (!is_played_alike(bytes, length, &calls)) {
        fflush(stdout);
        abort();
    }
    return 0;
}
