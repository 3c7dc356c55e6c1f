/* Chance: splitmix64. Whoever draws has a field `chance`, which is the seed at first. */
#ifndef CHANCE_H
#define CHANCE_H

#include <stdbool.h>
#include <stdint.h>

#define COUNT_OF(list) (sizeof(list) / sizeof(list)[0])
#define PICK(who, list) (list)[between(who, 0, (int)COUNT_OF(list) - 1)]

#define between(who, least, greatest) draw_between(&(who)->chance, least, greatest)
#define one_in(who, times) (between(who, 1, times) == 1)
#define near(who, limit) draw_near(&(who)->chance, limit)

static inline uint64_t draw(uint64_t *chance)
{
    uint64_t mixed = *chance += 0x9E3779B97F4A7C15u;
    mixed = (mixed ^ mixed >> 30) * 0xBF58476D1CE4E5B9u;
    mixed = (mixed ^ mixed >> 27) * 0x94D049BB133111EBu;
    return mixed ^ mixed >> 31;
}

static inline int draw_between(uint64_t *chance, int least, int greatest)
{
    return least + (int)(draw(chance) % (uint64_t)(greatest - least + 1));
}

/* At the limit, one below or one above it. */
static inline int draw_near(uint64_t *chance, int limit)
{
    return limit + draw_between(chance, -1, 1);
}

static inline int hold(int value, int least, int greatest)
{
    return value < least ? least : value > greatest ? greatest : value;
}

#endif
