/* Calls on both boards. What is lent to either ends where a page begins that nobody may touch: a board that reads or writes
   past its end does not go on. */
#define _DEFAULT_SOURCE
#include "pair.h"
#include "../second/trials/chance.h"

#include <stdio.h>
#include <stdlib.h>
#include <string.h>
#include <sys/mman.h>
#include <unistd.h>

/* ---- What is lent ---- */

/* To one board: the cells or bytes that it reads, and what it writes; each ends here. */
struct pages {
    uint8_t *read_end, *written_end;
};

static struct pages pages_of_proved, pages_of_second;
static uint8_t *store_end;      /* of the proved board */

static uint8_t *map_pages(void)
{
    const size_t page = (size_t)sysconf(_SC_PAGESIZE);
    uint8_t *first = mmap(NULL, 2 * page, PROT_READ | PROT_WRITE, MAP_PRIVATE | MAP_ANONYMOUS, -1, 0);
    if (first == MAP_FAILED || mprotect(first + page, page, PROT_NONE) != 0) {
        perror("both: there are no pages to lend");
        exit(2);
    }
    return first + page;
}

static void map_all_pages(void)
{
    if (store_end != NULL)
        return;
    pages_of_proved = (struct pages){map_pages(), map_pages()};
    pages_of_second = (struct pages){map_pages(), map_pages()};
    store_end = map_pages();
}

/* A call whose cells and bytes lie in the pages, and an answer that is written there. */
struct own {
    struct call call;
    struct answer answer;
};

static struct own lend(struct pages pages, const struct call *call)
{
    struct own own = {.call = *call};
    own.call.bytes = pages.read_end - call->length;
    own.call.cell = (uint16_t *)(void *)pages.read_end - call->length;
    own.answer.bytes = pages.written_end - call->room;
    own.answer.words = (uint16_t *)(void *)pages.written_end - call->room;
    if (call->kind == CALL_TICK)
        memcpy(own.call.cell, call->cell, call->length * sizeof call->cell[0]);
    else
        memcpy(own.call.bytes, call->bytes, call->length);
    return own;
}

/* What was lent to be read. */
static bool is_unwritten(const struct call *own, const struct call *call)
{
    if (call->kind == CALL_TICK)
        return memcmp(own->cell, call->cell, call->length * sizeof call->cell[0]) == 0;
    return memcmp(own->bytes, call->bytes, call->length) == 0;
}

/* ---- A call on the proved board, by the verbs of its header ---- */

/* "An address may be NULL where the length beside it is 0" */
#define NULL_IF_EMPTY(address, length) ((length) == 0 ? NULL : (address))

static int tick(struct sc_board *board, const struct call *call)
{
    const struct readings *readings = &call->readings;
    const struct sc_readings same = {
        .current = readings->current, .internal = readings->internal,
        .external1 = readings->external[0], .external2 = readings->external[1], .pulses = readings->pulses,
        .charger = readings->charger, .ignition = readings->ignition
    };
    return sc_tick(board, NULL_IF_EMPTY(call->cell, call->length), call->length, same);
}

static int offer(struct sc_board *board, const struct call *call, struct answer *answer)
{
    size_t taken;
    const int number = sc_offer(board, NULL_IF_EMPTY(call->bytes, call->length), call->length, &taken);
    answer->more = (uint32_t)taken;
    return number;
}

static int read_register(const struct sc_board *board, const struct call *call, struct answer *answer)
{
    uint16_t value = 0;
    answer->exists = sc_register(board, (uint16_t)call->number, &value);
    answer->more = value;
    return DONE;
}

static int obey(struct sc_board *board, struct store *store, const struct call *call, struct answer *answer)
{
    const uint8_t *bytes = NULL_IF_EMPTY(call->bytes, call->length);
    uint8_t *lent = NULL_IF_EMPTY(answer->bytes, call->room);
    uint8_t *stored = NULL_IF_EMPTY(store_end - store->length, store->length);
    switch (call->kind) {
    case CALL_START: return sc_start(board, call->cells, call->pulses_per_km);
    case CALL_TICK: return tick(board, call);
    case CALL_FRAME: return sc_frame(board, bytes, call->length, lent, call->room, &answer->which);
    case CALL_OFFER: return offer(board, call, answer);
    case CALL_FETCH: return sc_fetch(board, lent, call->room, &answer->which);
    case CALL_HANDOVER: return sc_handover(board, call->number, lent, call->room);
    case CALL_SAVE: return sc_save(board, lent, call->room);
    case CALL_LOAD: return sc_load(board, bytes, call->length);
    case CALL_CABINET: return sc_cabinet(board, NULL_IF_EMPTY(answer->words, call->room), call->room);
    case CALL_KEEP: return sc_keep(board, stored, store->length, &answer->more);
    case CALL_RECALL: return sc_recall(board, stored, store->length, call->number);
    case CALL_TIDY: return sc_tidy(stored, store->length);
    case CALL_REGISTER: return read_register(board, call, answer);
    default: return DONE;
    }
}

static bool uses_store(enum call_kind kind)
{
    return kind == CALL_KEEP || kind == CALL_RECALL || kind == CALL_TIDY;
}

static void make_proved_call(struct sc_board *board, struct store *store, const struct call *call, struct answer *answer)
{
    if (call->kind == CALL_CABINET)
        memset(answer->words, UNWRITTEN, call->room * sizeof answer->words[0]);
    else
        memset(answer->bytes, UNWRITTEN, call->room);
    if (uses_store(call->kind))
        memcpy(store_end - store->length, store->bytes, store->length);
    answer->number = (enum number)obey(board, store, call, answer);
    if (uses_store(call->kind))
        memcpy(store->bytes, store_end - store->length, store->length);
    answer->charge_switch = sc_charge_switch(board);
    answer->discharge_switch = sc_discharge_switch(board);
    answer->need = sc_decision_bits(board);
    answer->real = sc_balancing_bits(board);
}

/* ---- What is shown ---- */

static bool are_lent_alike(const struct call *call, const struct answer *one, const struct answer *other)
{
    if (call->kind == CALL_STORE)
        return true;
    if (call->kind == CALL_CABINET)
        return memcmp(one->words, other->words, call->room * sizeof one->words[0]) == 0;
    return memcmp(one->bytes, other->bytes, call->room) == 0;
}

static bool are_stores_alike(const struct store *one, const struct store *other)
{
    return one->length == other->length && memcmp(one->bytes, other->bytes, one->length) == 0;
}

/* "1 ..., 2 ...: all zeros", 7 "the buffer zeroed", 21 "zeroes a lent reply buffer"; any other number comes with a reply. */
static bool is_replied(enum number number)
{
    return number != ROOM_TOO_SMALL && number != NOT_A_FRAME && number != NO_FRAME_HELD && number != NO_BOARD;
}

/* The reply is as long as the second program says, and that is where its CRC stands: a CRC over itself too is 0. */
static bool is_reply_as_long(const struct call *call, const struct answer *second, const struct answer *proved)
{
    if (call->kind != CALL_FRAME && call->kind != CALL_FETCH)
        return true;
    const size_t length = is_replied(second->number) ? length_of_reply(second->bytes) : 0;
    const size_t told = sc_reply_length(NULL_IF_EMPTY(proved->bytes, call->room), call->room);
    return told == length && (length == 0 || crc_of(second->bytes, length) == 0);
}

/* The first of these that is otherwise; NULL where none is. */
static const char *other_in_answers(const struct call *call, const struct answer *second, const struct answer *proved)
{
    if (proved->number != second->number)
        return "the number";
    if (proved->which != second->which)
        return "the register of a setting outside its range";
    if (proved->more != second->more || proved->exists != second->exists)
        return call->kind == CALL_OFFER ? "how many bytes were taken" : call->kind == CALL_KEEP ? "the edition" : "a register";
    if (proved->charge_switch != second->charge_switch || proved->discharge_switch != second->discharge_switch)
        return "a switch";
    if (proved->need != second->need || proved->real != second->real)
        return "the balancing bits";
    if (!are_lent_alike(call, second, proved))
        return "what was lent to be written";
    return is_reply_as_long(call, second, proved) ? NULL : "the length of the reply";
}

/* ---- Registers ---- */

static bool is_register_alike(const struct pair *pair, uint16_t number)
{
    uint16_t value = 0;
    const bool exists = sc_register(&pair->proved, number, &value);
    if (!in_one_range(number, 1))
        return !exists;
    return exists && value == board_register(pair->board, number);
}

/* The three ranges, and numbers next to them and far from them, which are no registers. */
static const struct {
    uint16_t first, last;
} compared[] = {{0, 56}, {99, 118}, {299, 400}, {3000, 3000}, {32768, 32768}, {65535, 65535}};

/* The lowest register that is otherwise; -1 where none is. */
static int other_register(const struct pair *pair)
{
    size_t range = 0;
    unsigned number = compared[0].first;
    while (range < COUNT_OF(compared)) {
        if (!is_register_alike(pair, (uint16_t)number))
            return (int)number;
        if (number++ == compared[range].last && ++range < COUNT_OF(compared))
            number = compared[range].first;
    }
    return -1;
}

/* ---- Both ---- */

void set_up_pair(struct pair *pair, struct board *board, struct store *store)
{
    map_all_pages();
    set_up(board, store);
    *pair = (struct pair){.board = board, .store = store, .proved_store = *store};
    sc_start(&pair->proved, 0, 0);
}

/* The answers of both, as lines of text. */
static void say_both(const struct pair *pair, const struct call *call, const struct answer *second,
                     const struct answer *proved, struct difference *difference)
{
    *say_answer(difference->second, call, second, pair->store) = '\0';
    *say_answer(difference->proved, call, proved, &pair->proved_store) = '\0';
}

static void say_registers(struct pair *pair, uint16_t number, struct difference *difference)
{
    const struct call call = {.kind = CALL_REGISTER, .number = number};
    struct answer second = {.number = DONE}, proved = second;
    make_call(pair->board, pair->store, &call, &second);
    read_register(&pair->proved, &call, &proved);
    say_both(pair, &call, &second, &proved, difference);
}

bool is_made_alike(struct pair *pair, const struct call *call, struct difference *difference)
{
    struct own second = lend(pages_of_second, call), proved = lend(pages_of_proved, call);
    make_call(pair->board, pair->store, &second.call, &second.answer);
    if (call->kind == CALL_STORE)
        pair->proved_store = *pair->store;
    make_proved_call(&pair->proved, &pair->proved_store, &proved.call, &proved.answer);
    pair->number = second.answer.number;
    const char *what = other_in_answers(call, &second.answer, &proved.answer);
    if (what == NULL && uses_store(call->kind) && !are_stores_alike(pair->store, &pair->proved_store))
        what = "the store";
    if (what == NULL && !(is_unwritten(&second.call, call) && is_unwritten(&proved.call, call)))
        what = "what was lent to be read";
    const int number = what == NULL ? other_register(pair) : -1;
    if (what == NULL && number < 0)
        return true;
    *difference = (struct difference){.what = what == NULL ? "a register" : what, .in_register = number >= 0};
    difference->number = (uint16_t)(number >= 0 ? number : 0);
    if (number >= 0)
        say_registers(pair, difference->number, difference);
    else
        say_both(pair, call, &second.answer, &proved.answer, difference);
    return false;
}
