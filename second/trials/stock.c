/* Stores of classes made by chance, for scripts of calls: as keeps and scans would leave them, and damaged in each way. */
#include "script.h"

#include <string.h>

enum { CLASSES_STORED = STORE_BYTES / CLASS_BYTES };

static uint32_t stored_edition(const struct store *store, int at)
{
    const uint8_t *record = store->bytes + CLASS_BYTES * at;
    return record[0] | (uint32_t)record[1] << 8 | (uint32_t)record[2] << 16 | (uint32_t)record[3] << 24;
}

/* ---- The settings of a class ---- */

static int draw_setting(struct script *script, unsigned number)
{
    const int least = read_setting(&least_settings, number), greatest = read_setting(&greatest_settings, number);
    switch (between(script, 0, 5)) {
    case 0: return least;
    case 1: return greatest;
    case 2: return between(script, least, greatest);
    default: return read_setting(&factory_settings, number);
    }
}

/* "316 <= 301 < 315", often at its edges: 315 is drawn first, then 301 below it, then 316 not above that. */
static void draw_order(struct script *script, struct settings *settings)
{
    const int r315 = between(script, 1200, 4500), most = hold(r315 - 1, 1000, 3500);
    const int r301 = one_in(script, 3) ? most : between(script, 1000, most);
    settings->of[15] = (uint16_t)r315;
    settings->of[1] = (uint16_t)r301;
    settings->of[16] = (uint16_t)(one_in(script, 3) ? r301 : between(script, 800, r301));
}

static struct settings draw_class(struct script *script)
{
    struct settings settings = one_in(script, 2) ? factory_settings : script->board.settings;
    if (one_in(script, 3))
        return settings;
    for (size_t at = 0; at < LISTED_SETTINGS; at++)
        if (one_in(script, 2))
            settings.of[listed_settings[at] - 300] = (uint16_t)draw_setting(script, listed_settings[at]);
    draw_order(script, &settings);
    return settings;
}

/* "54, its settings break the rules": one just out of its range or far out of it, or the order just broken. */
static void break_rules(struct script *script, struct settings *settings)
{
    const unsigned number = PICK(script, listed_settings);
    uint16_t *value = &settings->of[number - 300];
    switch (between(script, 0, 5)) {
    case 0: *value = (uint16_t)(read_setting(&least_settings, number) - 1); break;
    case 1: *value = (uint16_t)(read_setting(&greatest_settings, number) + 1); break;
    case 2: *value = (uint16_t)between(script, 0, 65535); break;
    case 3: settings->of[1] = settings->of[15]; break;
    case 4: settings->of[16] = (uint16_t)(settings->of[1] + 1); break;
    default: settings->of[15] = settings->of[1]; break;
    }
}

/* ---- A whole store ---- */

/* Editions that differ: small ones, any, or such that the largest is the last that there is, or the one before it. */
struct editions {
    uint32_t first, step;
};

static struct editions draw_editions(struct script *script, int used)
{
    struct editions editions = {1, 1};
    if (one_in(script, 3))
        editions.step = (uint32_t)between(script, 1, 200000000);
    if (one_in(script, 3))
        editions.first = (uint32_t)between(script, 1, 1000000000);
    if (one_in(script, 4) && used > 0)
        editions.first = UINT32_MAX - editions.step * (uint32_t)(used - 1) - (uint32_t)between(script, 0, 1);
    return editions;
}

static void shuffle(struct script *script, int *order, int count)
{
    for (int left = count; left > 1; left--) {
        const int one = between(script, 0, left - 1), last = order[left - 1];
        order[left - 1] = order[one];
        order[one] = last;
    }
}

/* Empty, partly used or full; its records by rising edition or in any order, with gaps or without. */
static void fill_store(struct script *script, struct store *store)
{
    static const int counts[] = {0, 1, 2, CLASSES_STORED - 1, CLASSES_STORED, CLASSES_STORED, CLASSES_STORED};
    const int used = one_in(script, 2) ? PICK(script, counts) : between(script, 0, CLASSES_STORED);
    const struct editions editions = draw_editions(script, used);
    int place[CLASSES_STORED];
    for (int at = 0; at < CLASSES_STORED; at++)
        place[at] = at;
    if (one_in(script, 2))
        shuffle(script, place, one_in(script, 2) ? CLASSES_STORED : used);
    *store = (struct store){.length = STORE_BYTES};
    for (int at = 0; at < used; at++) {
        struct settings settings = draw_class(script);
        if (one_in(script, 6))
            break_rules(script, &settings);
        put_class(store->bytes + CLASS_BYTES * place[at], editions.first + editions.step * (uint32_t)at, &settings);
    }
}

/* ---- Damage ---- */

/* "two equal nonzero editions" */
static void repeat_edition(struct script *script, struct store *store)
{
    const int from = between(script, 0, CLASSES_STORED - 1), to = between(script, 0, CLASSES_STORED - 1);
    memcpy(store->bytes + CLASS_BYTES * to, store->bytes + CLASS_BYTES * from, one_in(script, 2) ? 4 : CLASS_BYTES);
}

/* A length that is none, mostly; the bytes past the 512 are as they may be. */
static void damage_length(struct script *script, struct store *store)
{
    static const size_t lengths[] = {0, 1, CLASS_BYTES, STORE_BYTES - CLASS_BYTES, STORE_BYTES - 1, STORE_BYTES,
                                     STORE_BYTES + 1, STORE_BYTES + CLASS_BYTES, MOST_ROOM};
    store->length = PICK(script, lengths);
    memset(store->bytes + STORE_BYTES, one_in(script, 2) ? 0 : 1, MOST_ROOM - STORE_BYTES);
}

static void damage(struct script *script, struct store *store)
{
    uint8_t *record = store->bytes + CLASS_BYTES * between(script, 0, CLASSES_STORED - 1);
    const uint8_t bit = (uint8_t)(1 << between(script, 0, 7));
    switch (between(script, 0, 5)) {
    case 0: damage_length(script, store); break;
    case 1: repeat_edition(script, store); break;
    case 2: record[between(script, CLASS_BYTES - 4, CLASS_BYTES - 1)] |= bit; break;
    case 3: memset(record, 0, 4); break;
    case 4: memset(record, 0, CLASS_BYTES); record[between(script, 0, CLASS_BYTES - 1)] = bit; break;
    default: record[between(script, 0, CLASS_BYTES - 1)] ^= bit; break;
    }
}

/* The console's own store, where it is a whole one, or another. */
struct store make_store(struct script *script)
{
    struct store store = script->store, tidied = store;
    if (store_tidy(tidied.bytes, tidied.length) != DONE || one_in(script, 2))
        fill_store(script, &store);
    for (int damages = one_in(script, 3) ? between(script, 1, 2) : 0; damages > 0; damages--)
        damage(script, &store);
    return store;
}

/* Mostly one that the store has. */
uint32_t pick_edition(struct script *script)
{
    static const uint32_t others[] = {0, 0, 1, 2, 16, 17, UINT32_MAX - 1, UINT32_MAX};
    const uint32_t stored = stored_edition(&script->store, between(script, 0, CLASSES_STORED - 1));
    if (one_in(script, 8))
        return PICK(script, others);
    return one_in(script, 8) ? stored + (uint32_t)between(script, -1, 1) : stored;
}
