/* The course of calls. A script presses the lengths at their limits; here any length may be lent, and the mix of calls changes. */
#include "course.h"

enum { CALLS_OF_A_MIX = 5000 };

void begin_course(struct course *course, uint64_t seed, uint64_t long_life)
{
    begin_script(&course->script, seed, MIXED);
    course->chance = ~seed;
    course->calls = 0;
    course->long_life = long_life;
}

/* What is lent to be written, and now and then what is lent to be read, is of any length. */
static void vary_lengths(struct course *course, struct call *call)
{
    const bool room = one_in(course, 8), length = one_in(course, 64);
    switch (call->kind) {
    case CALL_FRAME:
    case CALL_OFFER:
    case CALL_LOAD:
        call->length = length ? (size_t)between(course, 0, MOST_BYTES) : call->length;
        call->room = room && call->kind == CALL_FRAME ? (size_t)between(course, 0, MOST_ROOM) : call->room;
        break;
    case CALL_FETCH:
    case CALL_HANDOVER:
    case CALL_SAVE: call->room = room ? (size_t)between(course, 0, MOST_ROOM) : call->room; break;
    case CALL_CABINET: call->room = room ? (size_t)between(course, 0, MOST_REGISTERS_LENT) : call->room; break;
    case CALL_STORE: call->room = room ? (size_t)between(course, (int)call->length, MOST_ROOM) : call->room; break;
    case CALL_REGISTER: call->number = room ? (uint32_t)between(course, 0, 65535) : call->number; break;
    default: break;
    }
}

static bool is_wanted(const struct course *course, const struct call *call)
{
    if (call->kind == CALL_START)
        return course->script.board.cells == 0 || course->calls <= course->long_life;
    return call->kind != NO_CALL && call->kind != CALL_CRC;
}

struct call draw_next(struct course *course)
{
    static const enum script_kind kinds[] = {MIXED, QUICK, MEMORY, CABINET, DESK, CLASSES, LIFE};
    if (course->calls++ % CALLS_OF_A_MIX == 0)
        course->script.mix = mix_of(PICK(course, kinds));
    struct call call = draw_call(&course->script);
    while (!is_wanted(course, &call))
        call = draw_call(&course->script);
    call.alone = false;
    vary_lengths(course, &call);
    return call;
}
