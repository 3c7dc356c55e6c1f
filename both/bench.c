/* Rows without text: one kind of call after the other, made on the library and on the second program, in turn, by one program.
   bench RUNS [CALLS]   a line for each kind: the median time of a call in both, in nanoseconds, and the library's over the second's
   bench --once KIND    makes one call of that kind in the library, after what leads to it, to count its copies (both/copies.c) or its
                        instructions: those of the function `looked_at`
   bench --second KIND  the same in the second program
   bench --kinds        the kinds, a line each */
#include <stdio.h>
#include <stdlib.h>
#include <string.h>
#include <time.h>

#include "slatecauseway.h"
#include "../second/board/board.h"

enum { CELLS = 8, PULSES_PER_KM = 2000, LONGEST_FRAME = 300, MOST_RUNS = 99 };

static struct sc_board ours;
static struct board theirs;
static uint8_t request[LONGEST_FRAME], reply[SC_REPLY_ROOM], record[SC_RECORD_BYTES];
static size_t request_length;
static unsigned turn;   /* of a kind that alternates */

/* ---- readings and frames */

static struct sc_readings our_readings = {-12000, 278, 276, 278, 11, false, true};
static struct readings their_readings = {-12000, 278, {276, 278}, 11, false, true};
static uint16_t riding[CELLS] = {38720, 38715, 38720, 38700, 38720, 38711, 38700, 38705};
static uint16_t full[CELLS] = {38720, 38715, 42100, 38700, 38720, 38711, 38700, 38705};

static void ask(const uint8_t *bytes, size_t length)
{
    memcpy(request, bytes, length);
    const uint16_t crc = crc_of(request, length);
    request[length] = (uint8_t)(crc & 0xFF);
    request[length + 1] = (uint8_t)(crc >> 8);
    request_length = length + 2;
}

static void ask_block(unsigned first, unsigned registers)
{
    const uint8_t bytes[] = {0xAA, 0x03, (uint8_t)(first >> 8), (uint8_t)first, 0, (uint8_t)registers};
    ask(bytes, sizeof bytes);
}

/* 0x09 of so many addresses: AA 09 PL, each low byte first. */
static void ask_list(unsigned registers)
{
    uint8_t bytes[LONGEST_FRAME] = {0xAA, 0x09, (uint8_t)(2 * registers)};
    for (unsigned i = 0; i < registers; i++)
        bytes[3 + 2 * i] = (uint8_t)(i % 56);
    ask(bytes, 3 + 2 * registers);
}

/* 0x10 of so many registers from that one on, with the values that they have. */
static void ask_write(unsigned first, unsigned registers)
{
    uint8_t bytes[LONGEST_FRAME] = {0xAA, 0x10, (uint8_t)(first >> 8), (uint8_t)first, 0, (uint8_t)registers, (uint8_t)(2 * registers)};
    for (unsigned i = 0; i < registers; i++) {
        const uint16_t value = board_register(&theirs, first + i);
        bytes[7 + 2 * i] = (uint8_t)(value >> 8);
        bytes[8 + 2 * i] = (uint8_t)value;
    }
    ask(bytes, 7 + 2 * registers);
}

/* ---- one call of a kind, in the library and in the second program */

static int our_tick(void) { return sc_tick(&ours, riding, CELLS, our_readings); }
static int their_tick(void) { return (int)board_tick(&theirs, &their_readings, riding, CELLS); }
/* by turns OV latches and recovers, each with its event */
static int our_latching(void) { return sc_tick(&ours, turn++ % 2 == 0 ? full : riding, CELLS, our_readings); }
static int their_latching(void) { return (int)board_tick(&theirs, &their_readings, turn++ % 2 == 0 ? full : riding, CELLS); }
static int our_frame(void) { return sc_frame(&ours, request, request_length, reply, sizeof reply, NULL); }
static int their_frame(void)
{
    uint16_t which;
    return (int)board_frame(&theirs, request, request_length, reply, sizeof reply, &which);
}
static int our_line(void)
{
    return sc_offer(&ours, request, request_length, NULL) + sc_fetch(&ours, reply, sizeof reply, NULL);
}
static int their_line(void)
{
    size_t taken;
    uint16_t which;
    const int offered = (int)board_offer(&theirs, request, request_length, &taken);
    return offered + (int)board_fetch(&theirs, reply, sizeof reply, &which);
}
static int our_handover(void) { return sc_handover(&ours, 7, record, sizeof record); }
static int their_handover(void) { return (int)board_handover(&theirs, 7, record, sizeof record); }

/* ---- the kinds */

static void one(void) { ask_block(50, 1); }
static void sixteen(void) { ask_block(0, 16); }
static void fifty_six(void) { ask_block(0, 56); }
static void listed(void) { ask_list(63); }
static void write_one(void) { ask_write(317, 1); }
static void write_hundred(void) { ask_write(300, 100); }
static void nothing(void) { }
static void damaged(void)
{
    sixteen();
    request[7] ^= 1;
}
static void events(void)
{
    const uint8_t bytes[] = {0xAA, 0x12};
    for (unsigned i = 0; i < 70; i++) {
        our_latching();
        turn--;
        their_latching();
    }
    ask(bytes, sizeof bytes);
}

static const struct kind {
    const char *name;
    void (*lead)(void);     /* what leads to it, in both boards */
    int (*ours)(void);
    int (*theirs)(void);
    int number;             /* what both come to */
} kinds[] = {
    {"tick", nothing, our_tick, their_tick, 0},
    {"tick that latches", nothing, our_latching, their_latching, 0},
    {"0x03 of 1", one, our_frame, their_frame, 0},
    {"0x03 of 16", sixteen, our_frame, their_frame, 0},
    {"0x03 of 56", fifty_six, our_frame, their_frame, 0},
    {"0x09 of 63", listed, our_frame, their_frame, 0},
    {"write of 1", write_one, our_frame, their_frame, 0},
    {"write of 100", write_hundred, our_frame, their_frame, 0},
    {"0x12 of 62 events", events, our_frame, their_frame, 0},
    {"a bad CRC", damaged, our_frame, their_frame, 3},
    {"offer and fetch", sixteen, our_line, their_line, 0},
    {"handover", nothing, our_handover, their_handover, 0},
};
enum { KINDS = sizeof kinds / sizeof *kinds };

/* Both boards after a minute's ride, and what leads to the kind. */
static void lead_to(const struct kind *kind)
{
    sc_start(&ours, CELLS, PULSES_PER_KM);
    board_start(&theirs, CELLS, PULSES_PER_KM);
    turn = 0;
    for (unsigned i = 0; i < 600; i++) {
        our_tick();
        their_tick();
    }
    kind->lead();
    turn = 0;
}

/* ---- times */

static double now(void)
{
    struct timespec at;
    timespec_get(&at, TIME_UTC);
    return 1e9 * (double)at.tv_sec + (double)at.tv_nsec;
}

static double time_of(int (*call)(void), int number, long calls)
{
    const double begun = now();
    for (long i = 0; i < calls; i++)
        if (call() != number) {
            fputs("bench: a call does not come to what it should\n", stderr);
            exit(1);
        }
    return (now() - begun) / (double)calls;
}

static int rising(const void *a, const void *b)
{
    const double x = *(const double *)a, y = *(const double *)b;
    return (x > y) - (x < y);
}

static double median(double *times, int runs)
{
    qsort(times, (size_t)runs, sizeof *times, rising);
    return times[runs / 2];
}

static void compare(const struct kind *kind, int runs, long calls)
{
    double our_times[MOST_RUNS], their_times[MOST_RUNS];
    lead_to(kind);
    for (int i = 0; i < runs; i++) {
        our_times[i] = time_of(kind->ours, kind->number, calls);
        their_times[i] = time_of(kind->theirs, kind->number, calls);
    }
    const double own = median(our_times, runs), other = median(their_times, runs);
    printf("%-18s  library %7.0f ns, second %7.0f ns, ratio %.2f\n", kind->name, own, other, own / other);
}

/* ---- one call, to be looked at */

/* both/copies.c has others in their place */
__attribute__((weak)) void begin_call(void) { }
__attribute__((weak)) void end_call(void) { }

__attribute__((noinline)) static int looked_at(int (*call)(void))
{
    const int number = call();
    __asm__ volatile("");   /* the call is no jump, so that it is counted within */
    return number;
}

static int once(const char *name, bool is_second)
{
    for (size_t i = 0; i < KINDS; i++)
        if (strcmp(kinds[i].name, name) == 0) {
            lead_to(&kinds[i]);
            begin_call();
            const int number = looked_at(is_second ? kinds[i].theirs : kinds[i].ours);
            end_call();
            return number != kinds[i].number;
        }
    fprintf(stderr, "bench: there is no kind '%s'\n", name);
    return 2;
}

int main(int words, char **word)
{
    if (words == 2 && strcmp(word[1], "--kinds") == 0) {
        for (size_t i = 0; i < KINDS; i++)
            puts(kinds[i].name);
        return 0;
    }
    if (words == 3 && (strcmp(word[1], "--once") == 0 || strcmp(word[1], "--second") == 0))
        return once(word[2], strcmp(word[1], "--second") == 0);
    const long runs = words > 1 ? strtol(word[1], NULL, 10) : 0;
    const long calls = words > 2 ? strtol(word[2], NULL, 10) : 200000;
    if (runs < 1 || runs > MOST_RUNS || calls < 1) {
        fputs("usage: bench RUNS [CALLS], RUNS from 1 to 99 | bench --once KIND | bench --second KIND | bench --kinds\n", stderr);
        return 2;
    }
    for (size_t i = 0; i < KINDS; i++)
        compare(&kinds[i], (int)runs, calls);
    return 0;
}
