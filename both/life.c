/* What leads to a difference, cut down. */
#include "life.h"

#include <stdio.h>
#include <stdlib.h>
#include <string.h>

/* Calls that may be made for a cut: less than a minute of them. */
enum { MOST_CALLS_FOR_A_CUT = 5000000 };

/* ---- The list ---- */

static void *with_room(void *items, size_t count, size_t *room, size_t size)
{
    if (count <= *room)
        return items;
    *room = 2 * count;
    items = realloc(items, *room * size);
    if (items == NULL) {
        fputs("both: no memory for the calls that lead to a difference\n", stderr);
        exit(2);
    }
    return items;
}

/* The bytes of a call, behind all others. */
static struct piece store_call(struct life *life, const struct call *call)
{
    life->bytes = with_room(life->bytes, life->length + CODE_ROOM, &life->room, 1);
    const struct piece piece = {life->length, write_call(call, life->bytes + life->length)};
    life->length += piece.length;
    return piece;
}

void add_call(struct life *life, const struct call *call)
{
    life->call = with_room(life->call, life->calls + 1, &life->call_room, sizeof life->call[0]);
    life->call[life->calls++] = store_call(life, call);
}

void end_life(struct life *life)
{
    free(life->bytes);
    free(life->call);
    *life = (struct life){.calls = 0};
}

/* The call, in room of the reader. */
static const struct call *read_call(const struct life *life, size_t at, struct reader *reader)
{
    begin_reading(reader, life->bytes + life->call[at].at, life->call[at].length);
    return next_call(reader);
}

bool find_difference(struct life *life, struct difference *difference)
{
    struct board board;
    struct store store;
    struct pair pair;
    struct reader reader;
    set_up_pair(&pair, &board, &store);
    for (size_t at = 0; at < life->calls; at++) {
        if (!is_made_alike(&pair, read_call(life, at, &reader), difference)) {
            life->calls = at + 1;
            return true;
        }
    }
    return false;
}

/* ---- Fewer calls ---- */

struct cut {
    struct life *life;
    struct piece *before;       /* room for the calls as they were, while fewer are tried */
    size_t calls_left;          /* that may still be made */
};

static void remember(struct cut *cut)
{
    memcpy(cut->before, cut->life->call, cut->life->calls * sizeof cut->before[0]);
}

/* Whether the calls that are left still differ; if not, they are again as they were. */
static bool still_differs(struct cut *cut, size_t calls_before)
{
    struct difference ignored;
    const size_t made = cut->life->calls;
    cut->calls_left -= made < cut->calls_left ? made : cut->calls_left;
    if (cut->calls_left > 0 && find_difference(cut->life, &ignored))
        return true;
    memcpy(cut->life->call, cut->before, calls_before * sizeof cut->before[0]);
    cut->life->calls = calls_before;
    return false;
}

static bool leave_out(struct cut *cut, size_t first, size_t count)
{
    struct life *life = cut->life;
    const size_t calls = life->calls;
    remember(cut);
    memmove(life->call + first, life->call + first + count, (calls - first - count) * sizeof life->call[0]);
    life->calls -= count;
    return still_differs(cut, calls);
}

/* Most differences hang on the latest calls: of all between the start and the last call, the latest alone, then more. */
static void leave_out_early(struct cut *cut, size_t kept_first)
{
    for (size_t latest = 1; kept_first + latest < cut->life->calls; latest *= 4)
        if (leave_out(cut, kept_first, cut->life->calls - kept_first - latest))
            return;
}

static void leave_out_kind(struct cut *cut, enum call_kind kind)
{
    struct life *life = cut->life;
    const size_t calls = life->calls;
    struct reader reader;
    remember(cut);
    life->calls = 0;
    for (size_t at = 0; at < calls; at++) {
        life->call[life->calls] = cut->before[at];
        life->calls += read_call(life, life->calls, &reader)->kind != kind;
    }
    if (life->calls < calls)
        still_differs(cut, calls);
}

static void leave_out_kinds(struct cut *cut)
{
    for (enum call_kind kind = CALL_START; kind < CALL_KINDS && cut->calls_left > 0; kind++)
        leave_out_kind(cut, kind);
}

/* So many in a row, the latest first. */
static bool leave_out_runs(struct cut *cut, size_t count)
{
    bool fewer = false;
    for (size_t first = cut->life->calls / count * count + count; first > 0 && cut->calls_left > 0;) {
        first -= count;
        const size_t behind = cut->life->calls > first ? cut->life->calls - first : 0;
        if (behind > 0 && leave_out(cut, first, behind < count ? behind : count))
            fewer = true;
    }
    return fewer;
}

static void leave_out_calls(struct cut *cut)
{
    size_t count = cut->life->calls / 2;
    while (count > 0 && cut->calls_left > 0)
        if (!leave_out_runs(cut, count) || count > 1)
            count /= 2;
}

/* ---- Simpler calls ---- */

enum { WAYS = 12 };

/* An offer of one frame alone, from its 0xAA on. */
static void leave_one_frame(struct call *call)
{
    const uint8_t *first = memchr(call->bytes, 0xAA, call->length);
    const size_t skipped = first == NULL ? 0 : (size_t)(first - call->bytes);
    const size_t length = length_of_request(call->bytes + skipped, call->length - skipped);
    if (first == NULL || length > call->length - skipped)
        return;
    memmove(call->bytes, first, length);
    call->length = length;
}

/* One of so many ways; what its kind does not use is changed for nothing. */
static void simplify(struct call *call, unsigned way)
{
    static const size_t usual_room[CALL_KINDS] = {
        [CALL_FRAME] = LEAST_ROOM, [CALL_FETCH] = LEAST_ROOM, [CALL_HANDOVER] = HIRE_BYTES, [CALL_SAVE] = AREA_BYTES,
        [CALL_CABINET] = CABINET_REGISTERS, [CALL_STORE] = STORE_BYTES
    };
    switch (way) {
    case 0: call->readings.current = 0; break;
    case 1: call->readings.internal = 250; break;
    case 2: call->readings.external[0] = 250; break;
    case 3: call->readings.external[1] = 250; break;
    case 4: call->readings.pulses = 0; break;
    case 5: call->readings.charger = false; break;
    case 6: call->readings.ignition = false; break;
    case 7: call->pulses_per_km = 0; break;
    case 8: call->number = call->kind == CALL_HANDOVER ? 0 : call->number; break;
    case 9: call->room = call->kind == CALL_STORE && call->length > STORE_BYTES ? call->room : usual_room[call->kind]; break;
    case 10:
        if (call->kind == CALL_OFFER)
            leave_one_frame(call);
        break;
    default:
        for (size_t at = 0; call->kind == CALL_TICK && at < call->length; at++)
            call->cell[at] = 37000;
    }
}

static bool is_same_piece(const struct life *life, struct piece one, struct piece other)
{
    return one.length == other.length && memcmp(life->bytes + one.at, life->bytes + other.at, one.length) == 0;
}

static void try_simpler(struct cut *cut, size_t at, unsigned way)
{
    struct life *life = cut->life;
    const size_t calls = life->calls, length = life->length;
    struct reader reader;
    read_call(life, at, &reader);
    simplify(&reader.call, way);
    remember(cut);
    life->call[at] = store_call(life, &reader.call);
    if (is_same_piece(life, cut->before[at], life->call[at]) || !still_differs(cut, calls)) {
        life->call[at] = cut->before[at];
        life->length = length;
    }
}

/* Four cells at each start, and at each tick that has as many as the start before it. */
static void try_four_cells(struct cut *cut)
{
    struct life *life = cut->life;
    const size_t calls = life->calls;
    struct reader reader;
    size_t cells = 0;
    remember(cut);
    for (size_t at = 0; at < calls; at++) {
        read_call(life, at, &reader);
        if (reader.call.kind == CALL_START) {
            cells = reader.call.cells;
            reader.call.cells = LEAST_CELLS;
        } else if (reader.call.kind == CALL_TICK && reader.call.length == cells && cells > LEAST_CELLS) {
            reader.call.length = LEAST_CELLS;
        }
        life->call[at] = store_call(life, &reader.call);
    }
    still_differs(cut, calls);
}

static void simplify_calls(struct cut *cut)
{
    try_four_cells(cut);
    for (size_t at = cut->life->calls * WAYS; at > 0; at--)
        if ((at - 1) / WAYS < cut->life->calls && cut->calls_left > 0)
            try_simpler(cut, (at - 1) / WAYS, (at - 1) % WAYS);
}

/* ---- All of it ---- */

/* A start is kept while early calls are left out, and what comes before it. */
static size_t behind_first_start(const struct life *life)
{
    struct reader reader;
    for (size_t at = 0; at < life->calls; at++)
        if (read_call(life, at, &reader)->kind == CALL_START)
            return at + 1;
    return 0;
}

static void cut_down(struct life *life)
{
    struct cut cut = {.life = life, .calls_left = MOST_CALLS_FOR_A_CUT};
    size_t room = 0;
    cut.before = with_room(NULL, life->calls, &room, sizeof cut.before[0]);
    leave_out_early(&cut, behind_first_start(life));
    leave_out_kinds(&cut);
    leave_out_calls(&cut);
    simplify_calls(&cut);
    leave_out_calls(&cut);
    free(cut.before);
}

static void print_life(const struct life *life)
{
    struct reader reader;
    for (size_t at = 0; at < life->calls; at++)
        print_call(read_call(life, at, &reader));
}

void tell_difference(struct life *life, const struct difference *seen)
{
    struct difference difference = *seen;
    if (find_difference(life, &difference)) {
        cut_down(life);
        find_difference(life, &difference);
    } else {
        printf("# both: these calls made once more show no difference: a board hangs on more than its calls\n");
    }
    printf("# both: after these calls the boards differ in %s\n", difference.what);
    print_life(life);
    if (difference.in_register)
        print_call(&(struct call){.kind = CALL_REGISTER, .number = difference.number});
    printf("# the proved board: %s\n# the second program: %s\n", difference.proved, difference.second);
}
