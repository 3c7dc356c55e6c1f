/* Recordings for W-211, of a week that is made up. Rests, rides and charges follow each other, and now and then the
   readings lie at, one below or one above a limit of document 01's table with the factory settings. */
#include "chance.h"
#include "recording.h"

#include <stdio.h>
#include <string.h>

struct week {
    uint64_t chance;
    int cells, pulses_per_km;
    enum { REST, RIDE, CHARGE } doing;
    int doing_for;              /* ticks left of it */
    int level;                  /* of all cells, without a current */
    int apart[MOST_CELLS];      /* how far each cell lies from it */
    int16_t usual[3];           /* temperatures */
    int cells_for, cell_limit;          /* ticks left at a limit of the cells, and which */
    int sensors_for, sensor_limit;      /* the same of the temperatures */
    int surge_in, surge_limit;          /* ticks until a current at a limit, and which */
    struct written now;         /* as the readings stand */
};

/* ---- The pack ---- */

static void begin_week(struct week *week, uint64_t seed)
{
    static const int pulses_per_km[] = {0, 0, 1, 256, 2000, 2000, 2000, 65535};
    *week = (struct week){.chance = seed};
    week->cells = between(week, LEAST_CELLS, MOST_CELLS);
    week->pulses_per_km = PICK(week, pulses_per_km);
    week->level = between(week, 33000, 41000);
    for (int at = 0; at < week->cells; at++)
        week->apart[at] = between(week, -40, 40);
    for (int at = 0; at < 3; at++)
        week->usual[at] = (int16_t)(at > 0 && one_in(week, 8) ? NOT_CONNECTED : between(week, 100, 400));
    memcpy(week->now.temperature, week->usual, sizeof week->usual);
    week->surge_in = between(week, 1, 100);
}

/* ---- Its readings ---- */

static void go_on(struct week *week)
{
    if (week->doing_for-- > 0)
        return;
    week->doing = between(week, REST, CHARGE);
    week->doing_for = one_in(week, 20) ? between(week, 500, 5000) : between(week, 10, 200);
    week->now.flags = week->doing == CHARGE ? CHARGER : week->doing == RIDE ? IGNITION : 0;
}

static int usual_current(struct week *week)
{
    switch (week->doing) {
    case RIDE: return one_in(week, 5) ? between(week, 0, 8000) : between(week, -30000, 0);
    case CHARGE: return between(week, 500, 12000);
    default: return between(week, -50, 0);
    }
}

/* "The wait is 10*r332 ticks": a surge often comes again after 49, 50 or 51. The charger's plug may be loose. */
static void draw_current(struct week *week)
{
    static const int limits[] = {-60000, 30000};
    week->now.current = usual_current(week);
    if (--week->surge_in > 0)
        return;
    if (one_in(week, 3) || week->surge_limit == 0)
        week->surge_limit = PICK(week, limits);
    week->now.current = near(week, week->surge_limit);
    if (one_in(week, 40))
        week->now.current = one_in(week, 2) ? -1000000 : 1000000;
    week->surge_in = one_in(week, 2) ? near(week, 50) : between(week, 1, 150);
    if (one_in(week, 4))
        week->now.flags ^= CHARGER;
}

/* 2 mOhm a cell: the cells sink under a load, and rise with a charge. */
static void draw_cells(struct week *week)
{
    static const int limits[] = {29000, 29000, 42000, 42000, 1, 65534};
    const int weak = between(week, 0, week->cells - 1);
    const bool all = one_in(week, 4);
    if (one_in(week, 8))
        week->level = hold(week->level + (week->doing == RIDE ? -1 : week->doing == CHARGE), 33000, 41000);
    for (int at = 0; at < week->cells; at++)
        week->now.cell[at] = (uint16_t)hold(week->level + week->apart[at] + week->now.current / 50, 0, 65535);
    if (week->cells_for == 0 && one_in(week, 60)) {
        week->cells_for = between(week, 1, 20);
        week->cell_limit = PICK(week, limits);
    }
    if (week->cells_for == 0)
        return;
    week->cells_for--;
    const int limit = week->cell_limit == 42000 && one_in(week, 2) ? 41500 : week->cell_limit;
    for (int at = 0; at < week->cells; at++)
        if (all || at == weak)
            week->now.cell[at] = (uint16_t)near(week, limit);
}

/* W-204: an external may be pulled, or put in, while a sensor is hot. */
static int draw_temperature(struct week *week, bool external)
{
    const int limits[] = {250, 250, week->sensor_limit, week->sensor_limit, week->sensor_limit == 600 ? 550 : 50};
    if (external && one_in(week, 4))
        return NOT_CONNECTED;
    if (one_in(week, 200))
        return one_in(week, 2) ? -32767 : 32767;
    return near(week, PICK(week, limits));
}

/* A reading stays for some ticks. */
static void draw_temperatures(struct week *week)
{
    if (week->sensors_for == 0 && one_in(week, 100)) {
        week->sensors_for = between(week, 1, 80);
        week->sensor_limit = one_in(week, 2) ? 600 : 0;
    }
    for (int at = 0; at < 3; at++)
        if (one_in(week, 4))
            week->now.temperature[at] = (int16_t)(week->sensors_for > 0 ? draw_temperature(week, at > 0)
                                                                        : week->usual[at]);
    if (week->sensors_for > 0)
        week->sensors_for--;
}

static void draw_pulses(struct week *week)
{
    const int most = week->pulses_per_km == 0 ? 0 : 1 + week->pulses_per_km / 1000;
    week->now.pulses = (uint16_t)(week->doing == RIDE ? between(week, 0, most) : 0);
    if (week->pulses_per_km > 0 && one_in(week, 200))
        week->now.pulses = 400;
}

static void draw_readings(struct week *week)
{
    go_on(week);
    draw_current(week);
    draw_cells(week);
    draw_temperatures(week);
    draw_pulses(week);
}

/* ---- Damage ---- */

enum damage {
    NONE, CELL, FLAG, PADDING, CURRENT, INTERNAL, PULSES, CUT, OPENING_CUT, OPENING_PADDING, OPENING_COUNT, UNKNOWN
};

static const char *const damages[] = {
    [CELL] = "cell", [FLAG] = "flag", [PADDING] = "padding", [CURRENT] = "current", [INTERNAL] = "internal",
    [PULSES] = "pulses", [CUT] = "cut", [OPENING_CUT] = "opening-cut", [OPENING_PADDING] = "opening-padding",
    [OPENING_COUNT] = "opening-count"
};

static enum damage damage_of(const char *name)
{
    enum damage damage = name == NULL ? NONE : CELL;
    while (damage != NONE && damage != UNKNOWN && strcmp(name, damages[damage]) != 0)
        damage++;
    return damage;
}

/* The damage has a chance of its own: all else is as without it. */
struct damaged {
    uint64_t chance;
    enum damage damage;
    uint64_t tick;              /* the damaged one; 0: none */
};

/* "Cells past the count": there must be some. */
static void place_damage(struct damaged *damaged, struct week *week, uint64_t ticks)
{
    if (damaged->damage == CELL && week->cells == MOST_CELLS)
        week->cells = between(damaged, LEAST_CELLS, MOST_CELLS - 1);
    if (damaged->damage >= CELL && damaged->damage <= PULSES)
        damaged->tick = 1 + draw(&damaged->chance) % ticks;
    if (damaged->damage == CUT)
        damaged->tick = ticks;
}

/* The charger comes or goes too, which would be told if the tick was played. */
static void damage_record(struct damaged *damaged, const struct week *week, struct written *record)
{
    static const int currents[] = {-1000001, 1000001, INT32_MIN, INT32_MAX};
    static const int too_many[] = {401, 65535}, without_sensor[] = {1, 400};
    const int bit = between(damaged, 0, 15);
    record->flags ^= CHARGER;
    switch (damaged->damage) {
    case CELL: record->cell[between(damaged, week->cells, MOST_CELLS - 1)] = (uint16_t)(1 << bit); break;
    case FLAG: record->flags |= (uint8_t)(1 << (2 + bit % 6)); break;
    case PADDING: record->zero[between(damaged, 0, 2)] = (uint8_t)(1 << bit % 8); break;
    case CURRENT: record->current = PICK(damaged, currents); break;
    case INTERNAL: record->temperature[0] = NOT_CONNECTED; break;
    case PULSES:
        record->pulses = (uint16_t)(week->pulses_per_km > 0 ? PICK(damaged, too_many) : PICK(damaged, without_sensor));
        break;
    default: break;
    }
}

/* ---- The bytes ---- */

/* "low byte first" */
static uint8_t *put(uint8_t *at, uint32_t value, unsigned bytes)
{
    for (unsigned byte = 0; byte < bytes; byte++)
        *at++ = (uint8_t)(value >> 8 * byte);
    return at;
}

/* "too few opening bytes give 62, a nonzero second byte 61, a wrong count 21, in that order": what would give a later
   number of these may be there too. */
static void write_opening(struct damaged *damaged, const struct week *week)
{
    static const int wrong[] = {0, 1, 3, 17, 18, 255};
    const bool cut = damaged->damage == OPENING_CUT, padding = damaged->damage == OPENING_PADDING;
    uint8_t opening[OPENING_BYTES] = {(uint8_t)week->cells, 0};
    put(opening + 2, (uint32_t)week->pulses_per_km, 2);
    if (damaged->damage == OPENING_COUNT || ((cut || padding) && one_in(damaged, 2)))
        opening[0] = (uint8_t)PICK(damaged, wrong);
    if (padding || (cut && one_in(damaged, 2)))
        opening[1] = (uint8_t)between(damaged, 1, 255);
    fwrite(opening, 1, cut ? (size_t)between(damaged, 0, OPENING_BYTES - 1) : OPENING_BYTES, stdout);
}

void write_record(const struct written *record, size_t length)
{
    uint8_t bytes[RECORD_BYTES], *at = bytes;
    for (int cell = 0; cell < MOST_CELLS; cell++)
        at = put(at, record->cell[cell], 2);
    at = put(at, (uint32_t)record->current, 4);
    for (int sensor = 0; sensor < 3; sensor++)
        at = put(at, (uint16_t)record->temperature[sensor], 2);
    at = put(at, record->pulses, 2);
    *at++ = record->flags;
    memcpy(at, record->zero, sizeof record->zero);
    fwrite(bytes, 1, length, stdout);
}

bool write_recording(uint64_t seed, uint64_t ticks, const char *damage)
{
    struct week week;
    struct damaged damaged = {.chance = ~seed, .damage = damage_of(damage)};
    if (damaged.damage == UNKNOWN)
        return false;
    begin_week(&week, seed);
    place_damage(&damaged, &week, ticks);
    write_opening(&damaged, &week);
    for (uint64_t tick = 1; tick <= ticks && damaged.damage != OPENING_CUT; tick++) {
        draw_readings(&week);
        struct written record = week.now;
        if (tick == damaged.tick)
            damage_record(&damaged, &week, &record);
        const bool cut = tick == damaged.tick && damaged.damage == CUT;
        write_record(&record, cut ? (size_t)between(&damaged, 1, RECORD_BYTES - 1) : RECORD_BYTES);
    }
    return true;
}
