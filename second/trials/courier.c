/* A courier's days as a recording (W-211): nights on the charger, stop and go by day. Once in a week too much current is
   drawn, once the pack is ridden empty, and once a night is too cold to charge. A board is played beside it: with its
   discharge switch off the motor has no current, with its charge switch off the charger gives none. Whole numbers alone,
   drawn one after the other, so a seed gives the same bytes everywhere. */
#include "chance.h"
#include "recording.h"

#include <inttypes.h>
#include <stdio.h>
#include <stdlib.h>

enum { SECOND = 10, MINUTE = 60 * SECOND, HOUR = 60 * MINUTE };     /* ticks */
enum { NEVER = TICKS_OF_DAY };
enum { DAYS_OF_WEEK = 7 };

/* What a day will be like; times are ticks of it. */
struct day {
    int plugs_in;               /* the night's charger; 0: it is there since the evening before */
    int leaves, returns;
    int draws_too_much;         /* from then on, at the first start from rest */
    bool rides_empty;           /* with a charger that is pulled too early, and no long rest */
    int coldest, warmest;       /* outside, at 5:00 and at 15:00, millionths of a degree C */
};

struct courier {
    uint64_t chance, days;
    int cells, pulses_per_km;
    struct board board;
    int cold_day, empty_day, trip_day;      /* of this week, from 0 */
    struct day yesterday, today, tomorrow;
    enum { PARKED, RIDING, WALKING } doing;
    int doing_for;                  /* ticks left of it */
    bool done_for_today;
    int wanted_speed, wanted_for;   /* mm/s, and the ticks left of it */
    int speed, hill;                /* mm/s; mA that the road takes more */
    int64_t way;                    /* since the latest pulse, PULSE being a whole one */
    int cuts, patience;             /* how often the power went off today, and how often the courier bears it */
    int surge_for;                  /* ticks left of too much current */
    int charge_limit;               /* mA that the charger still gives */
    int64_t charge;                 /* mA ticks */
    int lag;                        /* of the cells behind the current, LAG_UNIT being 0.1 mV */
    int apart[MOST_CELLS], resistance[MOST_CELLS];      /* 0.1 mV; 0.01 mOhm */
    int weak;                       /* the cell that holds less than the others */
    int temperature[3];             /* millionths of a degree C */
    struct written now;             /* as the readings stand */
};

static const int64_t PULSE = 10000000;              /* mm/s of a tick times pulses per km */
static const int64_t CAPACITY = 45000LL * HOUR;     /* 45 Ah, in mA ticks */

/* ---- The days ---- */

static int degrees(struct courier *courier, int least_tenths, int greatest_tenths)
{
    return 100000 * between(courier, least_tenths, greatest_tenths);
}

/* Three different days, as far as there are so many left. */
static void plan_week(struct courier *courier, uint64_t first)
{
    const uint64_t left = courier->days > first ? courier->days - first : 0;
    const int days = left < DAYS_OF_WEEK ? (int)left : DAYS_OF_WEEK;
    courier->cold_day = courier->empty_day = courier->trip_day = days - 1;
    if (days < 2)
        return;
    const int one = between(courier, 1, days - 1), other = between(courier, 1, days - 1);
    courier->cold_day = between(courier, 0, days - 1);
    courier->empty_day = (courier->cold_day + one) % days;
    courier->trip_day = (courier->cold_day + (other != one ? other : one % (days - 1) + 1)) % days;
}

static struct day plan_day(struct courier *courier, uint64_t number)
{
    const int day_of_week = (int)(number % DAYS_OF_WEEK);
    if (day_of_week == 0)
        plan_week(courier, number);
    struct day day = {.draws_too_much = NEVER};
    day.leaves = between(courier, 8 * HOUR, 9 * HOUR);
    day.returns = between(courier, 17 * HOUR + 30 * MINUTE, 19 * HOUR + 30 * MINUTE);
    day.coldest = degrees(courier, 50, 100);
    day.warmest = degrees(courier, 120, 190);
    if (day_of_week == courier->cold_day) {
        day.coldest = degrees(courier, -45, -35);
        day.plugs_in = between(courier, 15 * MINUTE, 45 * MINUTE);
        if (day_of_week != courier->empty_day && one_in(courier, 2))
            day.leaves += 3 * HOUR;     /* when it charges again */
    }
    if (day_of_week == courier->empty_day) {
        day.rides_empty = true;
        day.plugs_in = between(courier, 5 * HOUR + 30 * MINUTE, 6 * HOUR);
        day.returns = between(courier, 22 * HOUR, 22 * HOUR + 30 * MINUTE);
    }
    if (day_of_week == courier->trip_day)
        day.draws_too_much = between(courier, 9 * HOUR + 30 * MINUTE, 11 * HOUR);
    return day;
}

static void begin_day(struct courier *courier, uint64_t number)
{
    courier->yesterday = courier->today;
    courier->today = courier->tomorrow;
    courier->tomorrow = plan_day(courier, number + 1);
    courier->done_for_today = false;
    courier->cuts = 0;
    courier->patience = between(courier, 2, 6);
}

static bool is_plugged_in(const struct courier *courier, int now)
{
    const struct day *day = &courier->today;
    return now < day->leaves ? now >= day->plugs_in : now >= day->returns && courier->tomorrow.plugs_in == 0;
}

/* ---- Outside, and the sensors ---- */

/* From one to the other without a corner: 3s^2 - 2s^3, of thousandths. */
static int between_smoothly(int from, int to, int part, int whole)
{
    const int64_t share = (int64_t)part * 1000 / whole;
    return from + (int)((to - from) * (3000 - 2 * share) * share / 1000 * share / 1000000);
}

static int outside(const struct courier *courier, int now)
{
    const struct day *yesterday = &courier->yesterday, *today = &courier->today;
    if (now < 5 * HOUR)
        return between_smoothly(yesterday->warmest, today->coldest, now + 9 * HOUR, 14 * HOUR);
    if (now < 15 * HOUR)
        return between_smoothly(today->coldest, today->warmest, now - 5 * HOUR, 10 * HOUR);
    return between_smoothly(today->warmest, courier->tomorrow.coldest, now - 15 * HOUR, 14 * HOUR);
}

/* What a sensor is warmer than outside, standing and for each mA, and the seconds that it takes to follow. */
static const struct { int standing, of_current, follows_in; } sensors[3] = {
    {3500000, 250, 900}, {0, 150, 2000}, {400000, 150, 2400}
};

static int sensor_target(const struct courier *courier, int sensor, int now)
{
    return outside(courier, now) + sensors[sensor].standing + sensors[sensor].of_current * abs(courier->now.current);
}

static int16_t tenths_of_degrees(int millionths)
{
    const int tenths = millionths / 100000;
    return (int16_t)(millionths % 100000 < 0 ? tenths - 1 : tenths);
}

/* Once a second. A sensor that is not connected stays so. */
static void step_temperatures(struct courier *courier, int now)
{
    if (now % SECOND != 0)
        return;
    for (int sensor = 0; sensor < 3; sensor++) {
        int *temperature = &courier->temperature[sensor];
        *temperature += (sensor_target(courier, sensor, now) - *temperature) / sensors[sensor].follows_in;
        if (courier->now.temperature[sensor] != NOT_CONNECTED)
            courier->now.temperature[sensor] = tenths_of_degrees(*temperature);
    }
}

/* ---- The pack ---- */

static void begin_cells(struct courier *courier)
{
    courier->weak = between(courier, 0, courier->cells - 1);
    for (int at = 0; at < courier->cells; at++) {
        courier->apart[at] = between(courier, -80, 80);
        courier->resistance[at] = between(courier, 950, 1050);
    }
    courier->resistance[courier->weak] = between(courier, 1200, 1250);
}

/* A cell without a current, 0.1 mV: by twentieths of its capacity. */
static int open_voltage(int64_t charge)
{
    static const int at_twentieth[] = {
        27000, 30500, 32800, 33900, 34600, 35100, 35450, 35750, 36050, 36350, 36700, 37100, 37550, 38000, 38450, 38900,
        39400, 39900, 40400, 40900, 41450, 42000
    };
    const int64_t share = charge < 0 ? 0 : charge * 20000 / CAPACITY;
    const int held = share > 20999 ? 20999 : (int)share, twentieth = held / 1000;
    return at_twentieth[twentieth] + (at_twentieth[twentieth + 1] - at_twentieth[twentieth]) * (held % 1000) / 1000;
}

enum { LAG_UNIT = 1024, LAG_TICKS = 30 * SECOND };

/* 4 mOhm more than at once, half a minute behind the current. */
static void step_charge(struct courier *courier)
{
    courier->charge += courier->now.current;
    courier->lag += (courier->now.current * 40 / 1000 * LAG_UNIT - courier->lag) / LAG_TICKS;
}

/* The weak cell holds six hundredths less: full with the others, empty before them. */
static void step_cells(struct courier *courier)
{
    const int usual = open_voltage(courier->charge);
    const int weak = open_voltage(courier->charge - (CAPACITY - courier->charge) * 6 / 100);
    const int lag = courier->lag / LAG_UNIT;
    for (int at = 0; at < courier->cells; at++) {
        const int sag = (int)((int64_t)courier->now.current * courier->resistance[at] / 10000);
        courier->now.cell[at] = (uint16_t)((at == courier->weak ? weak : usual) + courier->apart[at] + sag + lag);
    }
}

/* ---- The courier ---- */

static void begin_doing(struct courier *courier, int doing, int ticks)
{
    courier->doing = doing;
    courier->doing_for = ticks;
    courier->wanted_speed = doing == WALKING ? 1300 : 0;
    courier->wanted_for = doing == RIDING ? between(courier, 2 * SECOND, 10 * SECOND) : ticks;
}

static bool is_out_of_patience(const struct courier *courier)
{
    return courier->cuts >= courier->patience;
}

/* A fifth is left, at which the courier stops on every day but one. */
static bool is_low(const struct courier *courier)
{
    return !courier->today.rides_empty && courier->charge < CAPACITY / 5;
}

/* From door to door, with a longer rest now and then; home on foot where the power went off too often. */
static void step_doing(struct courier *courier, int now)
{
    const struct day *day = &courier->today;
    const bool at_work = now >= day->leaves && now < day->returns;
    if (at_work && !courier->done_for_today && (is_out_of_patience(courier) || is_low(courier))) {
        courier->done_for_today = true;
        begin_doing(courier, is_low(courier) ? PARKED : WALKING, between(courier, 5 * MINUTE, 20 * MINUTE));
    }
    if (courier->doing_for-- > 0 && (at_work || courier->doing == PARKED))
        return;
    if (!at_work || courier->done_for_today)
        begin_doing(courier, PARKED, 0);
    else if (courier->doing == RIDING)
        begin_doing(courier, PARKED, !day->rides_empty && one_in(courier, 15) ? between(courier, 30 * MINUTE, 50 * MINUTE)
                                                                              : between(courier, 2 * MINUTE, 8 * MINUTE));
    else
        begin_doing(courier, RIDING, between(courier, 3 * MINUTE, 12 * MINUTE));
}

/* Stop and go; where the power is cut, the courier lets it roll. */
static void step_wanted_speed(struct courier *courier)
{
    if (courier->doing != RIDING)
        return;
    if (!courier->board.discharge_switch && courier->wanted_speed > 0) {
        courier->cuts++;
        courier->wanted_speed = 0;
        courier->wanted_for = between(courier, 10 * SECOND, 40 * SECOND);
    }
    if (courier->wanted_for-- > 0)
        return;
    const bool goes = courier->wanted_speed == 0;
    courier->wanted_speed = goes ? between(courier, 4500, 6900) : 0;
    courier->wanted_for = goes ? between(courier, 20 * SECOND, 2 * MINUTE) : between(courier, 5 * SECOND, 40 * SECOND);
}

enum { STARTS = 80, BRAKES = 110, ROLLS_OUT = 20 };     /* mm/s a tick */

static void step_speed(struct courier *courier)
{
    const bool has_power = courier->board.discharge_switch || courier->doing == WALKING;
    const int up = has_power ? STARTS : 0, down = has_power ? BRAKES : ROLLS_OUT;
    if (courier->speed < courier->wanted_speed)
        courier->speed = hold(courier->speed + up, 0, courier->wanted_speed);
    else
        courier->speed = hold(courier->speed - down, courier->wanted_speed, courier->speed);
    courier->way += (int64_t)courier->speed * courier->pulses_per_km;
    courier->now.pulses = (uint16_t)(courier->way / PULSE);
    courier->way %= PULSE;
}

/* ---- The current ---- */

/* mA: the road, a start, the brakes. */
static int ride_current(struct courier *courier)
{
    const int speed = courier->speed, wanted = courier->wanted_speed;
    courier->hill = hold(courier->hill + between(courier, -40, 40), -2000, 2000);
    if (speed == 0 && wanted == 0)
        return -300;
    if (speed > wanted)
        return speed * 7 / 10;
    const int road = 300 + speed * 45 / 100 + speed / 100 * speed / 100 + courier->hill * (speed / 100) / 60;
    return -road - (speed < wanted ? 15000 : 0);
}

/* Constant current, until the highest cell is at 4.15 V; then less and less, until it is full. */
static int charger_current(struct courier *courier)
{
    if (courier->board.highest >= 41500 && courier->charge_limit > 0)
        courier->charge_limit -= courier->charge_limit / 512 + 1;
    if (courier->charge_limit < 300)
        courier->charge_limit = 0;
    return hold(courier->now.current + 25, 0, courier->charge_limit);
}

/* A start may draw more than 60 A for two ticks: the switch is off after the first, and the current gone after it. */
static bool is_surge(struct courier *courier, int now)
{
    const bool starts = courier->doing == RIDING && courier->speed > 1000 && courier->speed < courier->wanted_speed;
    if (starts && now >= courier->today.draws_too_much) {
        courier->today.draws_too_much = NEVER;
        courier->surge_for = 2;
    }
    return courier->surge_for > 0 && courier->surge_for-- > 0;
}

static int next_current(struct courier *courier, int now)
{
    const bool charger = (courier->now.flags & CHARGER) != 0;
    if (is_surge(courier, now))
        return -between(courier, 60200, 64000);
    if (charger)
        return courier->board.charge_switch ? charger_current(courier) : 0;
    if (!courier->board.discharge_switch)
        return 0;
    const int wanted = courier->doing == RIDING || courier->speed > 1500 ? ride_current(courier) : -120;
    const int step = (wanted - courier->now.current) / 4;
    return step == 0 ? wanted : courier->now.current + step;
}

/* A plug that is put in or pulled has no current at first. */
static void step_flags(struct courier *courier, int now)
{
    if (courier->today.rides_empty && courier->charge > CAPACITY * 17 / 20)
        courier->today.plugs_in = NEVER;
    const bool charger = is_plugged_in(courier, now);
    if (charger != ((courier->now.flags & CHARGER) != 0)) {
        courier->charge_limit = 10000;
        courier->now.current = 0;
    }
    courier->now.flags = (uint8_t)((charger ? CHARGER : 0) | (courier->doing == RIDING ? IGNITION : 0));
}

/* ---- The recording ---- */

static void begin_courier(struct courier *courier, uint64_t seed, uint64_t days)
{
    static const int cells[] = {7, 8, 8, 10, 13, 14}, pulses_per_km[] = {500, 2000, 2000, 2300, 4000};
    *courier = (struct courier){.chance = seed, .days = days};
    courier->cells = PICK(courier, cells);
    courier->pulses_per_km = PICK(courier, pulses_per_km);
    board_start(&courier->board, (uint8_t)courier->cells, (uint16_t)courier->pulses_per_km);
    begin_cells(courier);
    courier->today = (struct day){.warmest = degrees(courier, 120, 190)};
    courier->tomorrow = plan_day(courier, 0);
    courier->charge = CAPACITY * between(courier, 40, 50) / 100;
    if (one_in(courier, 4))
        courier->now.temperature[2] = NOT_CONNECTED;
}

static void begin_temperatures(struct courier *courier)
{
    for (int sensor = 0; sensor < 3; sensor++)
        courier->temperature[sensor] = sensor_target(courier, sensor, 0);
}

/* False where the board does not take it. */
static bool play_now(struct courier *courier)
{
    const struct written *now = &courier->now;
    const struct readings readings = {
        .current = now->current, .internal = now->temperature[0], .external = {now->temperature[1], now->temperature[2]},
        .pulses = now->pulses, .charger = (now->flags & CHARGER) != 0, .ignition = (now->flags & IGNITION) != 0
    };
    return board_tick(&courier->board, &readings, now->cell, (size_t)courier->cells) == DONE;
}

static void step_tick(struct courier *courier, int now)
{
    step_doing(courier, now);
    step_flags(courier, now);
    step_wanted_speed(courier);
    step_speed(courier);
    courier->now.current = next_current(courier, now);
    step_charge(courier);
    step_cells(courier);
    step_temperatures(courier, now);
}

static bool write_day(struct courier *courier)
{
    for (int now = 0; now < TICKS_OF_DAY; now++) {
        step_tick(courier, now);
        if (!play_now(courier))
            return false;
        write_record(&courier->now, RECORD_BYTES);
    }
    return true;
}

bool write_courier(uint64_t seed, uint64_t days)
{
    static struct courier courier;
    begin_courier(&courier, seed, days);
    const uint8_t opening[OPENING_BYTES] = {
        (uint8_t)courier.cells, 0, (uint8_t)courier.pulses_per_km, (uint8_t)(courier.pulses_per_km >> 8)
    };
    fwrite(opening, 1, OPENING_BYTES, stdout);
    for (uint64_t day = 0; day < days; day++) {
        begin_day(&courier, day);
        if (day == 0)
            begin_temperatures(&courier);
        if (!write_day(&courier)) {
            fprintf(stderr, "second: the board refuses a tick of the courier's day %" PRIu64 "\n", day + 1);
            return false;
        }
    }
    return true;
}
