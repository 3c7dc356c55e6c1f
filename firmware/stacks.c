/* The deepest stack of each verb: the verb is called on a stack of its own that was painted before, and what is no longer paint was used.
   Each is called with the longest that it takes, ticks and frames refused too; the most of these is told, a line a verb, in bytes. It
   counts what lies between the caller's frame and the deepest byte that is no paint now: the verb's own copies of the board too. */
#define _GNU_SOURCE
#include <stdio.h>
#include <string.h>
#include <ucontext.h>

#include "slatecauseway.h"

enum { STACK = 1 << 17, PAINT = 0xA5, CELLS = 16 };

static uint8_t stack[STACK];
static ucontext_t here, there;

static struct sc_board board;
static const uint16_t riding[CELLS] = {[0 ... 15] = 38700};
static const uint16_t full[CELLS] = {[0] = 44000, [1 ... 15] = 20000};
static const struct sc_readings standing = {0, 250, 250, 250, 0, true, true};
static const struct sc_readings racing = {-900000, 900, -300, SC_NOT_CONNECTED, 400, false, false};
static uint8_t reply[SC_REPLY_ROOM], area[SC_AREA_BYTES], store[SC_STORE_BYTES], record[SC_RECORD_BYTES];
static uint16_t registers[SC_CABINET_REGISTERS];
static uint8_t request[264];
static size_t length;

/* The Modbus CRC, so that requests are whole. */
static void seal(size_t bytes)
{
    unsigned crc = 0xFFFF;
    for (size_t i = 0; i < 8 * bytes; i++) {
        crc ^= i % 8 == 0 ? request[i / 8] : 0;
        crc = crc & 1 ? crc >> 1 ^ 0xA001 : crc >> 1;
    }
    request[bytes] = (uint8_t)crc;
    request[bytes + 1] = (uint8_t)(crc >> 8);
    length = bytes + 2;
}

static void ask(size_t bytes, const uint8_t *head, size_t count)
{
    memset(request, 0, sizeof request);
    memcpy(request, head, count);
    seal(bytes);
}

/* ---- what is called on the painted stack */

static void start(void) { sc_start(&board, CELLS, 2000); }
static void quiet(void) { sc_tick(&board, riding, CELLS, standing); }
static void wild(void) { sc_tick(&board, full, CELLS, racing); }
static void refused(void) { sc_tick(&board, riding, 3, standing); }
static void frame(void) { sc_frame(&board, request, length, reply, sizeof reply, NULL); }
static void offer(void) { sc_offer(&board, request, length, NULL); }
static void fetch(void) { sc_fetch(&board, reply, sizeof reply, NULL); }
static void handover(void) { sc_handover(&board, 7, record, sizeof record); }
static void save(void) { sc_save(&board, area, sizeof area); }
static void load(void) { sc_load(&board, area, sizeof area); }
static void keep(void) { sc_keep(&board, store, sizeof store, NULL); }
static void recall(void) { sc_recall(&board, store, sizeof store, 1); }
static void tidy(void) { sc_tidy(store, sizeof store); }
static void cabinet(void) { sc_cabinet(&board, registers, SC_CABINET_REGISTERS); }
static void shown(void) { uint16_t value; sc_register(&board, 54, &value); }
static void switches(void) { (void)(sc_charge_switch(&board) && sc_discharge_switch(&board)); }
static void bits(void) { (void)(sc_decision_bits(&board) + sc_balancing_bits(&board)); }
static void told(void) { (void)sc_reply_length(reply, sizeof reply); }
static void nothing(void) { }

static size_t deepest(void (*call)(void))
{
    memset(stack, PAINT, sizeof stack);
    getcontext(&there);
    there.uc_stack.ss_sp = stack;
    there.uc_stack.ss_size = sizeof stack;
    there.uc_link = &here;
    makecontext(&there, call, 0);
    swapcontext(&here, &there);
    size_t untouched = 0;
    while (untouched < sizeof stack && stack[untouched] == PAINT)
        untouched++;
    return sizeof stack - untouched;
}

static size_t most(size_t a, size_t b) { return a > b ? a : b; }

/* A write of all hundred registers, with the values that they have: it is accepted. */
static void ask_accepted_write(void)
{
    static const uint8_t head[] = {0xAA, 0x10, 0x01, 0x2C, 0, 100, 200};
    ask(207, head, sizeof head);
    for (uint16_t i = 0; i < 100; i++) {
        uint16_t value = 0;
        sc_register(&board, 300 + i, &value);
        request[7 + 2 * i] = (uint8_t)(value >> 8);
        request[8 + 2 * i] = (uint8_t)value;
    }
    seal(207);
}

static size_t frames(void (*call)(void))
{
    static const struct {
        size_t bytes, count;
        uint8_t head[7];
    } asked[] = {
        {6, 6, {0xAA, 0x03, 0, 0, 0, 56}},      {6, 6, {0xAA, 0x03, 0x01, 0x2C, 0, 100}}, {129, 3, {0xAA, 0x09, 126}},
        {9, 7, {0xAA, 0x10, 0x01, 0x3D, 0, 1, 2}}, {207, 7, {0xAA, 0x10, 0x01, 0x2C, 0, 100, 200}}, {203, 3, {0xAA, 0x0B, 200}},
        {2, 2, {0xAA, 0x11}},                   {2, 2, {0xAA, 0x12}},                       {5, 5, {0xAA, 0x1D, 4, 0, 100}},
        {3, 3, {0xAA, 0x02, 1}},                {2, 2, {0xAA, 0x1C}},                       {2, 2, {0xAA, 0x77}},
    };
    size_t depth = 0;
    for (size_t i = 0; i <= sizeof asked / sizeof *asked; i++) {
        if (i < sizeof asked / sizeof *asked)
            ask(asked[i].bytes, asked[i].head, asked[i].count);
        else
            ask_accepted_write();
        if (call == fetch)
            offer();
        depth = most(depth, deepest(call));
    }
    return depth;
}

int main(void)
{
    const size_t empty = deepest(nothing);
    const size_t begun = deepest(start);
    for (int i = 0; i < 700; i++)
        (i % 7 == 0 ? wild : quiet)();
    const size_t ticked = most(most(deepest(quiet), deepest(wild)), deepest(refused));
    const struct {
        const char *verb;
        size_t depth;
    } verbs[] = {
        {"sc_start", begun},           {"sc_tick", ticked},           {"sc_frame", frames(frame)},
        {"sc_offer", frames(offer)},   {"sc_fetch", frames(fetch)},   {"sc_save", deepest(save)},
        {"sc_load", deepest(load)},    {"sc_keep", deepest(keep)},    {"sc_recall", deepest(recall)},
        {"sc_tidy", deepest(tidy)},    {"sc_cabinet", deepest(cabinet)}, {"sc_handover", deepest(handover)},
        {"sc_register", deepest(shown)}, {"the switches", deepest(switches)}, {"the bits", deepest(bits)},
        {"sc_reply_length", deepest(told)},
    };
    for (size_t i = 0; i < sizeof verbs / sizeof *verbs; i++)
        printf("%-16s %5zu bytes of stack\n", verbs[i].verb, verbs[i].depth - empty);
    printf("a board has %zu bytes\n", sizeof board);
    return 0;
}
