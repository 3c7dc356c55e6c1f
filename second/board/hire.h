/* W-214: "The month's charge in exact numbers." The record of one hire, and what a bill says of many. */
#ifndef HIRE_H
#define HIRE_H

#include "board.h"

/* "pack number, seconds since that clear, both sums (64 bits each), distance, and the sum of registers 105 to 109" */
struct hire {
    uint32_t pack, seconds;
    uint64_t positive_sum, negative_sum;
    uint32_t distance, latchings;
};

void put_hire(uint8_t record[HIRE_BYTES], const struct hire *hire);
struct hire take_hire(const uint8_t record[HIRE_BYTES]);

/* Prints the totals of the records on standard input, and at the end how it went; gives back whether nothing is refused. */
bool bill_hires(void);

#endif
