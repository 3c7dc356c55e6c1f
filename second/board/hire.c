/* W-214: the 32 bytes of the record that the desk gets at a handover. */
#include "hire.h"

/* "low byte first, all but the two sums 32 bits wide" */
static uint8_t *put(uint8_t *at, uint64_t value, unsigned bytes)
{
    for (unsigned byte = 0; byte < bytes; byte++)
        *at++ = (uint8_t)(value >> 8 * byte);
    return at;
}

static uint64_t take(const uint8_t **at, unsigned bytes)
{
    uint64_t value = 0;
    for (unsigned byte = 0; byte < bytes; byte++)
        value |= (uint64_t)*(*at)++ << 8 * byte;
    return value;
}

void put_hire(uint8_t record[HIRE_BYTES], const struct hire *hire)
{
    uint8_t *at = put(record, hire->pack, 4);
    at = put(at, hire->seconds, 4);
    at = put(at, hire->positive_sum, 8);
    at = put(at, hire->negative_sum, 8);
    at = put(at, hire->distance, 4);
    put(at, hire->latchings, 4);
}

struct hire take_hire(const uint8_t record[HIRE_BYTES])
{
    struct hire hire;
    hire.pack = (uint32_t)take(&record, 4);
    hire.seconds = (uint32_t)take(&record, 4);
    hire.positive_sum = take(&record, 8);
    hire.negative_sum = take(&record, 8);
    hire.distance = (uint32_t)take(&record, 4);
    hire.latchings = (uint32_t)take(&record, 4);
    return hire;
}
