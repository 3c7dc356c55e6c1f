/* W-211: "A plain engine beside it finds each latch from the tick history by 01's table and W-204, with no timers". It
   looks back through the records alone, and keeps nothing from one tick to the next. */
#include "replay.h"

#include <stdio.h>

/* "settings fixed": the factory's. */
static int r(unsigned number)
{
    return read_setting(&factory_settings, number);
}

/* ---- The readings of one tick ---- */

static bool a_cell(const struct record *tick, int least, int greatest)
{
    for (size_t at = 0; at < tick->cells; at++)
        if (tick->cell[at] >= least && tick->cell[at] <= greatest)
            return true;
    return false;
}

enum { INTERNAL, EXTERNAL_1, EXTERNAL_2 };
enum { COLDEST = NOT_CONNECTED + 1, HOTTEST = 32767 };

/* "a connected sensor" from least to greatest, neither of which is NOT_CONNECTED. */
static bool is_sensor(const struct record *tick, int sensor, int least, int greatest)
{
    const int value = sensor == INTERNAL ? tick->readings.internal : tick->readings.external[sensor - EXTERNAL_1];
    return value >= least && value <= greatest;
}

static bool an_external(const struct record *tick, int least, int greatest)
{
    return is_sensor(tick, EXTERNAL_1, least, greatest) || is_sensor(tick, EXTERNAL_2, least, greatest);
}

/* ---- The table ---- */

/* The column "Holds". */
static bool holds(enum condition condition, const struct record *tick)
{
    const struct readings *readings = &tick->readings;
    switch (condition) {
    case UV: return a_cell(tick, 0, 10 * r(316));
    case OV: return a_cell(tick, 10 * r(315), 65535);
    case OT: return is_sensor(tick, INTERNAL, 10 * r(319), HOTTEST) || an_external(tick, 10 * r(319), HOTTEST);
    case DOC: return readings->current <= -1000 * r(317);
    case COC: return readings->charger && readings->current >= 1000 * r(318);
    case ROC: return !readings->charger && readings->current >= 1000 * r(318);
    default: return an_external(tick, COLDEST, 10 * r(320));    /* LT */
    }
}

/* "The wait is 10*r332 ticks, r332 as at the latest tick at which the condition held, all since then without it."
   There is such a tick, for a condition that is to recover. */
static bool is_wait_over(enum condition condition, const struct record *tick, int now)
{
    int latest = now;
    while (!holds(condition, &tick[latest]))
        latest--;
    return now - latest >= 10 * r(332);
}

/* W-204: "which sensors have been connected at any tick since OT latched, that tick included. OT recovers exactly if
   each of those is connected and cool." */
static bool is_each_cool(const struct record *tick, int since, int now)
{
    for (int sensor = INTERNAL; sensor <= EXTERNAL_2; sensor++)
        for (int then = since; then <= now; then++)
            if (is_sensor(&tick[then], sensor, COLDEST, HOTTEST)
                && !is_sensor(&tick[now], sensor, COLDEST, 10 * r(319) - 50 - 1))
                return false;
    return true;
}

/* The column "Recovers", for a condition that held at the tick `since`. */
static bool recovers(enum condition condition, const struct record *tick, int since, int now)
{
    switch (condition) {
    case UV: return !a_cell(&tick[now], 0, 10 * r(316));
    case OV: return !a_cell(&tick[now], 10 * r(315) - 500, 65535);
    case OT: return is_each_cool(tick, since, now);
    case LT: return an_external(&tick[now], COLDEST, HOTTEST) && !an_external(&tick[now], COLDEST, 10 * r(320) + 50);
    default: return is_wait_over(condition, tick, now);         /* DOC, COC, ROC */
    }
}

/* "each latching when it holds and recovering when latched and its recovery holds": it is latched exactly if there is a
   tick at which it held, and none since then at which it recovered. The tick need not be the one that latched it: what
   was connected since a later one is a part of what W-204 remembers, and what keeps OT from recovering stays so with
   more. */
static bool is_latched(enum condition condition, const struct record *tick, int now)
{
    for (int since = now; since >= 1; since--) {
        if (!holds(condition, &tick[since]))
            continue;
        int then = since + 1;
        while (then <= now && !recovers(condition, tick, since, then))
            then++;
        if (then > now)
            return true;
    }
    return false;
}

/* ---- The two side by side ---- */

static const char *const names[] = {
    [UV] = "UV", [OV] = "OV", [OT] = "OT", [DOC] = "DOC", [COC] = "COC", [ROC] = "ROC", [LT] = "LT"
};

/* "the two agree at every tick of recordings up to 600 ticks". Reading: of a recording that is refused, at every tick
   that is accepted. */
bool engine_agrees(void)
{
    static struct replay replay;
    static struct record tick[MOST_ENGINE_TICKS + 1];    /* from 1 on */
    begin_replay(&replay, stdin);
    for (int now = 1; play_tick(&replay); now++) {
        if (now > MOST_ENGINE_TICKS) {
            fprintf(stderr, "second: the plain engine takes %d ticks at most\n", MOST_ENGINE_TICKS);
            return false;
        }
        tick[now] = replay.record;
        for (enum condition condition = UV; condition <= LT; condition++) {
            const bool latched = is_latched(condition, tick, now);
            if (latched != (replay.board.latched >> condition & 1)) {
                fprintf(stderr, "second: tick %d, %s: %s by the plain engine, and not so on the board\n",
                        now, names[condition], latched ? "latched" : "not latched");
                return false;
            }
        }
    }
    return true;
}
