/* Records for W-214, of hires that are made up. Their fields are of all sizes, and the totals of the two sums may come to
   the largest value; past it only where that is asked for. */
#include "bills.h"
#include "../board/hire.h"
#include "chance.h"

#include <stdio.h>
#include <string.h>

enum { POSITIVE, NEGATIVE };

struct month {
    uint64_t chance;
    uint64_t hires;
    uint64_t total[2];          /* of the two sums so far, while they are within 64 bits */
    uint64_t past_at;           /* the hire, from 1, at which a total goes past; 0: none */
    int past;                   /* which of the two */
    bool cut;                   /* the last record */
};

/* A number of at most so many bits, each count of them as likely as another. */
static uint64_t draw_bits(struct month *month, int most)
{
    const int bits = between(month, 0, most);
    return bits == 0 ? 0 : draw(&month->chance) >> (64 - bits);
}

/* As much as leaves the same for each hire to come; the last one may take all that is left. */
static uint64_t draw_sum(struct month *month, int which, uint64_t hire)
{
    const uint64_t left = UINT64_MAX - month->total[which];
    if (hire == month->hires && one_in(month, 2))
        return left;
    const uint64_t most = left / (month->hires - hire + 1), sum = draw_bits(month, 64);
    return sum <= most ? sum : sum % (most + 1);
}

/* "82, a total past 64 bits": past it by 1, or by more. */
static uint64_t draw_past(struct month *month, int which)
{
    const uint64_t total = month->total[which];
    return UINT64_MAX - (one_in(month, 2) ? total - 1 : draw(&month->chance) % total);
}

static uint64_t next_sum(struct month *month, int which, uint64_t hire)
{
    uint64_t sum = month->past_at == 0 || hire < month->past_at ? draw_sum(month, which, hire) : draw_bits(month, 64);
    if (hire == month->past_at && which == month->past)
        sum = draw_past(month, which);
    else if (hire == 1 && month->past_at > 0 && sum == 0)
        sum = 1;    /* so that there is something to go past with */
    month->total[which] += sum;
    return sum;
}

static struct hire next_hire(struct month *month, uint64_t hire)
{
    struct hire next = {.pack = (uint32_t)draw_bits(month, 32), .seconds = (uint32_t)draw_bits(month, 32)};
    next.positive_sum = next_sum(month, POSITIVE, hire);
    next.negative_sum = next_sum(month, NEGATIVE, hire);
    next.distance = (uint32_t)draw_bits(month, 32);
    next.latchings = (uint32_t)draw_bits(month, 32);
    return next;
}

/* Now and then the last record of a month that goes past before it is cut too. */
static bool begin_month(struct month *month, const char *damage)
{
    if (damage == NULL)
        return true;
    if (strcmp(damage, "cut") == 0) {
        month->cut = true;
        return true;
    }
    if (strcmp(damage, "past") != 0)
        return false;
    month->past_at = 2 + draw(&month->chance) % (month->hires - 1);
    month->past = between(month, POSITIVE, NEGATIVE);
    month->cut = month->past_at < month->hires && one_in(month, 3);
    return true;
}

bool write_hires(uint64_t seed, uint64_t hires, const char *damage)
{
    struct month month = {.chance = seed, .hires = hires};
    uint8_t record[HIRE_BYTES];
    if (!begin_month(&month, damage))
        return false;
    for (uint64_t at = 1; at <= hires; at++) {
        const struct hire hire = next_hire(&month, at);
        put_hire(record, &hire);
        const bool cut = month.cut && at == hires;
        fwrite(record, 1, cut ? (size_t)between(&month, 1, HIRE_BYTES - 1) : HIRE_BYTES, stdout);
    }
    return true;
}
