/* Scripts that drive a number of the statistics, or the event time, to its end and once more, or go through all event
   numbers. They are too long to be stored; each begins with a comment that says what it drives. A count's script is as
   short as its waits allow: 2 ticks a latching for UV, OV and OT with an entry into 0x91, 11 for DOC, COC and ROC. The
   distance is driven at 20 pulses per km, the fewest with which 2^32 - 1 is met and not only passed. */
#include "console.h"

#include <stdio.h>
#include <string.h>

static const char read_statistics[] = "frame 259 AA 03 00 64 00 12 9D C3";    /* 100 to 117 */
static const char ask_clear[] = "frame 259 AA 02 02 D1 41";                   /* of the statistics */
static const char read_all_events[] = "frame 259 AA 12 FF 1D";
static const char quiet_tick[] = "tick 0 250 250 250 0 0 0 40000 40000 40000 40000";

static void repeat(int times, const char *line)
{
    for (; times > 0; times--)
        puts(line);
}

static void say_and_read(const char *line)
{
    puts(line);
    puts(read_statistics);
}

/* "each count stops at 65,535" */
enum { END_OF_COUNT = 65535 };

/* At the rounds around an end: the last one before it, the end itself, and once more. */
static bool is_around(int round, int end)
{
    return round >= end - 1 && round <= end + 1;
}

static void print_latchings(void)
{
    puts("# 105 (UV), 106 (OV), 109 (OT) and 111 (entries into 0x91) to 65,535 and once more:");
    puts("# one tick latches all three, the next lets them recover and charges; their sum in the record is three times that");
    puts("start 4 0");
    for (int round = 1; round <= END_OF_COUNT + 1; round++) {
        puts("tick 0 600 250 250 0 1 0 29000 42000 40000 40000");
        puts("tick 900 250 250 250 0 1 0 40000 40000 40000 40000");
        if (is_around(round, END_OF_COUNT))
            puts(read_statistics);
    }
    puts(read_all_events);
    puts("handover 4294967295 32");
}

/* A wait is 10 ticks, so a latching comes 11 ticks after the one before; 108 counts two a round. */
static void print_currents(void)
{
    static const char *const latching[] = {
        "tick -60000 250 250 250 0 0 0 40000 40000 40000 40000",
        "tick 30000 250 250 250 0 1 0 40000 40000 40000 40000",
        "tick 30000 250 250 250 0 0 0 40000 40000 40000 40000"
    };
    puts("# 107 (DOC) and 108 (COC and ROC in turn) to 65,535 and once more:");
    puts("# r332 is 1, and a round of 11 ticks latches each once");
    puts("start 4 0");
    puts("frame 259 AA 10 01 4C 00 01 02 00 01 F2 6B");
    for (int round = 1; round <= END_OF_COUNT + 1; round++) {
        for (size_t at = 0; at < 3; at++) {
            if (is_around(round, END_OF_COUNT) || is_around(round, END_OF_COUNT / 2 + 1))
                say_and_read(latching[at]);
            else
                puts(latching[at]);
        }
        repeat(8, quiet_tick);
    }
    puts(read_all_events);
}

/* 20 pulses per km make 5 a pulse, the fewest pulses per km with which 2^32 - 1 is met and not only passed:
   858,993,459 pulses are 4,294,967,295. */
static void print_distance(void)
{
    static const char one_pulse[] = "tick 0 250 250 250 1 0 0 40000 40000 40000 40000";
    puts("# 100 and 101 (distance) to 2^32 - 1 and once more, and from there through a clear");
    puts("start 4 20");
    repeat(858993459 / 400, "tick 0 250 250 250 400 0 0 40000 40000 40000 40000");
    say_and_read("tick 0 250 250 250 258 0 0 40000 40000 40000 40000");
    say_and_read(one_pulse);
    say_and_read(one_pulse);
    puts(ask_clear);
    say_and_read(one_pulse);
}

/* "Event time is the seconds modulo 2^24": charger events in the last second before it, in it and in the one after. */
static void print_event_time(void)
{
    static const char without_charger[] = "tick 0 9 9 9 0 0 0 9 9 9 9", with_charger[] = "tick 0 9 9 9 0 1 0 9 9 9 9";
    puts("# the event time past 2^24 seconds: FF FF FF, 00 00 00, 01 00 00");
    puts("start 4 0");
    repeat(10 * 16777215 - 1, without_charger);
    repeat(10, with_charger);
    repeat(10, without_charger);
    puts(with_charger);
    puts(read_all_events);
    puts("frame 259 AA 11 BF 1C");
    say_and_read(ask_clear);
}

/* 2^32 is 4,294,967,296: the sum of 4,294 ticks at an end of the current and 967,296 mA more. */
static void print_sum(const char *sign)
{
    static const char rest[] = "250 250 250 0 0 0 40000 40000 40000 40000";
    for (int less = 1; less >= -1; less--) {
        for (int ticks = 0; ticks < 4294; ticks++)
            printf("tick %s1000000 %s\n", sign, rest);
        printf("tick %s%d %s\n", sign, 967296 - less, rest);
        puts("handover 1 32");
    }
}

/* W-214: "both sums (64 bits each)". */
static void print_charge(void)
{
    puts("# the positive and then the negative sum to 2^32 - 1, 2^32 and 2^32 + 1, each from one handover to the next");
    puts("start 4 0");
    print_sum("");
    print_sum("-");
}

/* "33, an event number this board never records": each of the 256, as the number of the one used record. */
static void print_event_numbers(void)
{
    puts("# each event number loaded, and what is saved after it");
    puts("start 4 0");
    for (int number = 0; number <= 255; number++) {
        printf("load 00 00 00 %02X", number);
        for (int bytes = AREA_RECORD; bytes < AREA_BYTES; bytes++)
            printf(" FF");
        printf("\nsave %d\n", AREA_BYTES);
    }
}

bool print_limits(const char *name)
{
    static const struct {
        const char *name;
        void (*print)(void);
    } scripts[] = {
        {"latchings", print_latchings},
        {"currents", print_currents},
        {"distance", print_distance},
        {"charge", print_charge},
        {"event-time", print_event_time},
        {"event-numbers", print_event_numbers}
    };
    for (size_t at = 0; at < sizeof scripts / sizeof scripts[0]; at++) {
        if (strcmp(name, scripts[at].name) == 0) {
            scripts[at].print();
            return true;
        }
    }
    return false;
}
