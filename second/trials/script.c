/* Scripts of calls that press the limits of documents 01 and 02. The script's own board runs beside it, so that the
   values lie at, one below and one above the limits of the settings then in force. */
#include "script.h"

#include <stdarg.h>
#include <stdio.h>
#include <string.h>

/* ---- Start ---- */

static void draw_start(struct script *script, struct call *call)
{
    static const int pulses[] = {0, 1, 2, 7, 100, 399, 999, 2000, 2000, 2000, 2000, 2000, 2000, 65534, 65535};
    static const int wrong[] = {0, 1, 3, 17, 18, 32, 255};
    int cells = between(script, 4, 16);
    if (one_in(script, 4))
        cells = one_in(script, 2) ? 4 : 16;
    if (one_in(script, 8))
        cells = PICK(script, wrong);
    call->kind = CALL_START;
    call->cells = (uint8_t)cells;
    call->pulses_per_km = (uint16_t)(one_in(script, 6) ? between(script, 0, 65535) : PICK(script, pulses));
    script->quiet = 0;
    script->around_OT = 0;
    script->unstarted = 0;
    script->reads_of_events = one_in(script, 2) ? 12 : 300;
}

/* ---- Ticks ---- */

struct tick {
    int current, internal, external[2], pulses;
    int cells, cell[MOST_CELLS_LENT];
};

/* A quiet tick, where the settings leave room for one: nothing holds, and everything may recover. */
static void make_quiet(struct script *script, struct tick *tick)
{
    const int low = 10 * r(script, 316) + 1, high = 10 * r(script, 315) - 501;
    const int cold = 10 * r(script, 320) + 51, hot = 10 * r(script, 319) - 51;
    const int most = high < low ? low : high, hottest = hot < cold ? cold : hot;
    const int level = one_in(script, 4) ? low : one_in(script, 4) ? most : between(script, low, most);
    const int currents[] = {0, 0, 799, 800, 801, 900, -799, -800, -801, -900,
                            -1000 * r(script, 317) + 1, 1000 * r(script, 318) - 1};
    tick->cells = script->board.cells == 0 ? between(script, 0, 16) : script->board.cells;
    for (int at = 0; at < tick->cells; at++)
        tick->cell[at] = hold(level + between(script, -20, 20), low, most);
    tick->current = PICK(script, currents);
    tick->internal = hold(250, -32767, hot);
    for (int at = 0; at < 2; at++)
        tick->external[at] = one_in(script, 4) ? cold : one_in(script, 4) ? hottest : hold(250, cold, hottest);
    tick->pulses = script->board.pulses_per_km == 0 || one_in(script, 3) ? 0 : between(script, 0, 20);
}

/* "rounding to the nearest mV, a half going up": every cell at a half, one tenth below or one above it. */
static void press_rounding(struct script *script, struct tick *tick)
{
    for (int at = 0; at < tick->cells; at++)
        tick->cell[at] = hold(near(script, tick->cell[at] / 10 * 10 + 5), 0, 65535);
}

/* "cell > 10*r303 and cell - lowest > 10*r308" */
static void press_balancing(struct script *script, struct tick *tick)
{
    const int early = near(script, 10 * r(script, 303)), disbalance = 10 * r(script, 308);
    const int lowest = one_in(script, 2) ? early : early - disbalance;
    for (int at = 0; at < tick->cells; at++)
        tick->cell[at] = hold(lowest + (one_in(script, 3) ? 0 : near(script, disbalance)), 0, 65535);
    if (tick->cells > 0)
        tick->cell[between(script, 0, tick->cells - 1)] = hold(lowest, 0, 65535);
}

static void press_cells(struct script *script, struct tick *tick)
{
    const int limits[] = {10 * r(script, 316), 10 * r(script, 316), 10 * r(script, 315), 10 * r(script, 315) - 500,
                          10 * r(script, 315) - 500, 10 * r(script, 303), 10 * r(script, 301), r(script, 315)};
    const int kind = between(script, 0, 9), limit = PICK(script, limits), one = between(script, 0, MOST_CELLS - 1);
    if (kind < 3)
        press_balancing(script, tick);
    for (int at = 0; kind >= 3 && at < tick->cells; at++) {
        if (kind == 7 || (kind < 7 && at == one % tick->cells))
            tick->cell[at] = near(script, limit);
        else if (kind == 8)
            tick->cell[at] = near(script, PICK(script, limits));
        else if (kind == 9 && one_in(script, 4))
            tick->cell[at] = one_in(script, 2) ? between(script, 0, 65535) : one_in(script, 2) ? 0 : 65535;
        tick->cell[at] = hold(tick->cell[at], 0, 65535);
    }
}

static void press_current(struct script *script, struct tick *tick)
{
    const int limits[] = {-1000 * r(script, 317), -1000 * r(script, 317), 1000 * r(script, 318),
                          1000 * r(script, 318), 800, 801, -800, -801, 100, -100, 0, 32768, -65536};
    tick->current = near(script, PICK(script, limits));
    if (one_in(script, 12))
        tick->current = near(script, one_in(script, 2) ? 1000000 : -1000000);
    if (one_in(script, 12))
        tick->current = between(script, -1000000, 1000000);
    if (one_in(script, 100))
        tick->current = one_in(script, 2) ? INT32_MAX : INT32_MIN;
}

static int press_temperature(struct script *script)
{
    const int limits[] = {10 * r(script, 319), 10 * r(script, 319) - 50, 10 * r(script, 320), 10 * r(script, 320) + 50,
                          10 * r(script, 320), 10 * r(script, 320) + 50, 10 * r(script, 319) - 50,
                          -5, 5, 0, -10, 10, -1280, -1290, 1270, 1280, 32766, -32767};
    return one_in(script, 5) ? between(script, -60, 60) : near(script, PICK(script, limits));
}

static void press_temperatures(struct script *script, struct tick *tick)
{
    for (int at = 0; at < 2; at++)
        if (one_in(script, 2))
            tick->external[at] = one_in(script, 4) ? NOT_CONNECTED : press_temperature(script);
    if (one_in(script, 3))
        tick->internal = press_temperature(script);
    if (one_in(script, 30))
        tick->internal = NOT_CONNECTED;
}

/* Hot is at or above 10*r319, cool is below 10*r319 - 50, as a quiet tick is, and warm lies between. */
static int heat_up(struct script *script, enum heat heat, int quiet)
{
    const int limit = 10 * r(script, 319);
    switch (heat) {
    case WARM: return one_in(script, 2) ? limit - 50 : limit - 1;
    case HOT: return limit + between(script, 0, 1);
    case UNPLUGGED: return NOT_CONNECTED;
    default: return quiet;
    }
}

/* W-204: externals that are unplugged and plugged in again, hot, warm or cool, with OT latched and without. */
static void press_plugs(struct script *script, struct tick *tick)
{
    static const enum heat internals[] = {COOL, COOL, COOL, COOL, WARM, HOT};
    static const enum heat externals[] = {COOL, COOL, COOL, WARM, HOT, UNPLUGGED, UNPLUGGED};
    if (one_in(script, 20)) {
        tick->internal = NOT_CONNECTED;     /* refused, with both externals plugged in */
        return;
    }
    if (one_in(script, 2))
        script->internal = PICK(script, internals);
    tick->internal = heat_up(script, script->internal, tick->internal);
    for (int at = 0; at < 2; at++) {
        if (one_in(script, 3))
            script->external[at] = PICK(script, externals);
        tick->external[at] = heat_up(script, script->external[at], tick->external[at]);
    }
}

static void press_pulses(struct script *script, struct tick *tick)
{
    static const int limits[] = {0, 1, 2, 39, 40, 399, 400, 400};
    const bool sensor = script->board.pulses_per_km > 0;
    if (sensor)
        tick->pulses = one_in(script, 2) ? between(script, 0, 400) : PICK(script, limits);
    if (one_in(script, 25))
        tick->pulses = sensor ? 401 : one_in(script, 2) ? 1 : 400;
    if (one_in(script, 60))
        tick->pulses = 65535;
}

/* Sums of two that are odd and negative, and the ends of what a tick takes. */
static int press_cabinet_temperature(struct script *script)
{
    static const int limits[] = {-32767, -32767, -32766, 32766, 32767, -5, -1, 0, 1};
    if (one_in(script, 3))
        return PICK(script, limits);
    return one_in(script, 2) ? between(script, -9, 9) : between(script, -600, 600);
}

/* "at most 10,485": every cell at 65,535, or at 0, or each at one of the two. */
static void press_ends_of_cells(struct script *script, struct tick *tick)
{
    const bool alike = one_in(script, 2);
    int level = one_in(script, 2) ? 65535 : 0;
    for (int at = 0; at < tick->cells; at++) {
        tick->cell[at] = level;
        if (!alike)
            level = one_in(script, 2) ? 65535 : 0;
    }
}

/* "rounded toward zero and held to -32768 to 32767": in 10 mA, and it is held from 327,680 and from -327,690 mA on.
   Both externals are connected, one or none. */
static void press_cabinet(struct script *script, struct tick *tick)
{
    static const int limits[] = {0, 9, -9, 10, -10, 327670, 327680, -327680, -327690, 1000000, -1000000};
    if (one_in(script, 2))
        tick->current = hold(near(script, PICK(script, limits)), -1000000, 1000000);
    for (int at = 0; at < 2; at++)
        tick->external[at] = one_in(script, 3) ? NOT_CONNECTED : press_cabinet_temperature(script);
    if (one_in(script, 2))
        tick->internal = press_cabinet_temperature(script);
    if (one_in(script, 6))
        press_ends_of_cells(script, tick);
}

/* "Sum the positive mA and the negative mA": large ones of both signs, and the least. */
static void press_charge(struct script *script, struct tick *tick)
{
    static const int ends[] = {1000000, -1000000, 999999, -999999, 65536, -65536, 1, -1, 0};
    tick->current = one_in(script, 2) ? PICK(script, ends) : between(script, -1000000, 1000000);
}

static void put_tick(const struct script *script, const struct tick *tick, struct call *call)
{
    call->kind = CALL_TICK;
    call->readings = (struct readings){
        .current = tick->current, .internal = (int16_t)tick->internal,
        .external = {(int16_t)tick->external[0], (int16_t)tick->external[1]}, .pulses = (uint16_t)tick->pulses,
        .charger = script->charger, .ignition = script->ignition
    };
    call->length = (size_t)tick->cells;
    for (size_t at = 0; at < call->length; at++)
        call->cell[at] = (uint16_t)tick->cell[at];
}

static void draw_tick(struct script *script, struct call *call)
{
    struct tick tick;
    make_quiet(script, &tick);
    if (script->quiet > 0) {
        script->quiet--;
    } else if (script->around_OT > 0) {
        script->around_OT--;
        press_plugs(script, &tick);
    } else {
        if (one_in(script, 3))
            press_rounding(script, &tick);
        if (one_in(script, 3))
            press_cells(script, &tick);
        if (one_in(script, 6))
            press_current(script, &tick);
        if (one_in(script, 4))
            press_temperatures(script, &tick);
        if (one_in(script, 3))
            press_pulses(script, &tick);
        if (so_many_of(script, script->mix.cabinet_ticks, 100))
            press_cabinet(script, &tick);
        if (so_many_of(script, script->mix.charge_ticks, 100))
            press_charge(script, &tick);
    }
    if (one_in(script, 10))
        script->charger = !script->charger;
    if (one_in(script, 5))
        script->ignition = !script->ignition;
    for (int cells = one_in(script, 60) ? between(script, 0, MOST_CELLS_LENT) : tick.cells; tick.cells < cells;)
        tick.cell[tick.cells++] = between(script, 0, 65535);
    if (one_in(script, 80) && tick.cells > 0)
        tick.cells--;
    put_tick(script, &tick, call);
}

/* ---- Frames ---- */

static void put_bytes(struct call *call, enum call_kind kind, const uint8_t *bytes, size_t length)
{
    call->kind = kind;
    call->length = length;
    memcpy(call->bytes, bytes, length);
}

static void put_request(struct call *call, const struct request *request)
{
    put_bytes(call, CALL_FRAME, request->bytes, request->length < MOST_BYTES ? request->length : MOST_BYTES);
}

/* Room for a reply, but for one time in so many. */
static size_t make_room(struct script *script, int times)
{
    static const int rooms[] = {0, 1, 2, 257, 258, 258};
    static const int enough[] = {259, 259, 260, 261, 300, 600};
    return (size_t)(one_in(script, times) ? PICK(script, rooms) : PICK(script, enough));
}

static void draw_frame(struct script *script, struct call *call)
{
    struct request request;
    ask(script, &request);
    if (one_in(script, 15))
        spoil(script, &request);
    put_request(call, &request);
    call->room = make_room(script, 30);
    script->lower_case = one_in(script, 20);
}

static void draw_app_frame(struct script *script, struct call *call)
{
    struct request request;
    ask_as_app(script, &request);
    put_request(call, &request);
    call->room = LEAST_ROOM;
}

/* ---- The raw line ---- */

/* "Bytes before 0xAA are skipped": some that are none, and seldom one that begins a frame. */
static void make_noise(struct script *script, struct request *noise)
{
    noise->length = 0;
    for (int bytes = one_in(script, 4) ? between(script, 1, 8) : 0; bytes > 0; bytes--)
        add(noise, one_in(script, 20) ? 0xAA : between(script, 0, 255));
}

static void let_wait(struct script *script, const struct request *request)
{
    memcpy(script->waiting + script->waiting_length, request->bytes, request->length);
    script->waiting_length += request->length;
}

/* A request of any kind, good or bad, and at times noise before it. */
static void send_request(struct script *script)
{
    struct request request;
    make_noise(script, &request);
    let_wait(script, &request);
    if (one_in(script, 12))
        ask_by_PL(script, &request);
    else
        ask(script, &request);
    if (one_in(script, 15))
        spoil(script, &request);
    let_wait(script, &request);
}

/* Some or all of the bytes that wait: less than a frame, one or more of them. The bytes that are not taken wait to be
   offered again, or now and then are lost. */
static void draw_offer(struct script *script, struct call *call)
{
    while (script->waiting_length == 0 || (script->waiting_length < MOST_BYTES && one_in(script, 3)))
        send_request(script);
    int length = hold((int)script->waiting_length, 0, MOST_BYTES);
    if (one_in(script, 2))
        length = between(script, 0, one_in(script, 2) ? hold(length, 0, 9) : length);
    put_bytes(call, CALL_OFFER, script->waiting, (size_t)length);
    script->lower_case = one_in(script, 20);
    struct board after = script->board;
    size_t gone;
    board_offer(&after, script->waiting, (size_t)length, &gone);
    if (one_in(script, 10))
        gone = (size_t)length;
    script->waiting_length -= gone;
    memmove(script->waiting, script->waiting + gone, script->waiting_length);
}

static void draw_fetch(struct script *script, struct call *call, int times)
{
    call->kind = CALL_FETCH;
    call->room = make_room(script, times);
}

/* Offers until a frame is held, then its fetch; now and then an offer that is refused 6, or a fetch refused 7. */
static void draw_offer_or_fetch(struct script *script, struct call *call)
{
    const bool refused = one_in(script, 8);
    if (holds_frame(&script->board) == refused)
        draw_offer(script, call);
    else
        draw_fetch(script, call, 12);
}

/* ---- The pack's memory ---- */

static void draw_save(struct script *script, struct call *call)
{
    static const int wrong[] = {0, 1, OLD_AREA_BYTES - 1, OLD_AREA_BYTES, OLD_AREA_BYTES, OLD_AREA_BYTES + 1,
                                AREA_BYTES - 1, AREA_BYTES + 1, 300, 600};
    call->kind = CALL_SAVE;
    call->room = (size_t)(one_in(script, 5) ? PICK(script, wrong) : AREA_BYTES);
    board_save(&script->board, script->saved, AREA_BYTES);
}

static void draw_load(struct script *script, struct call *call)
{
    uint8_t area[MOST_BYTES];
    const size_t length = make_area(script, area);
    put_bytes(call, CALL_LOAD, area, length);
    script->lower_case = one_in(script, 20);
}

static void draw_save_or_load(struct script *script, struct call *call)
{
    if (one_in(script, 2))
        draw_save(script, call);
    else
        draw_load(script, call);
}

/* ---- The cabinet ---- */

static void draw_cabinet(struct script *script, struct call *call)
{
    static const int wrong[] = {0, 1, CABINET_REGISTERS - 1, CABINET_REGISTERS + 1, 40};
    int length = CABINET_REGISTERS;
    if (one_in(script, 5))
        length = one_in(script, 3) ? between(script, 0, MOST_REGISTERS_LENT) : PICK(script, wrong);
    call->kind = CALL_CABINET;
    call->room = (size_t)length;
}

/* ---- The desk ---- */

static int make_hire_length(struct script *script)
{
    if (!one_in(script, 4))
        return HIRE_BYTES;
    if (one_in(script, 3))
        return near(script, HIRE_BYTES);
    return one_in(script, 4) ? between(script, 65, MOST_ROOM) : between(script, 0, 64);
}

/* Of either form. */
static void draw_handover(struct script *script, struct call *call)
{
    static const uint32_t packs[] = {0, 1, 255, 256, 65535, 65536, INT32_MAX, INT32_MAX + UINT32_C(1), UINT32_MAX - 1,
                                     UINT32_MAX};
    call->kind = CALL_HANDOVER;
    call->number = one_in(script, 2) ? PICK(script, packs) : (uint32_t)draw(&script->chance);
    call->room = (size_t)make_hire_length(script);
    call->alone = one_in(script, 3);
    if (call->alone) {
        call->number = 0;
        call->room = HIRE_BYTES;
    }
}

/* ---- Classes ---- */

/* The zeros at its end are said, or some of them, or none. */
static void draw_store(struct script *script, struct call *call)
{
    const struct store store = make_store(script);
    size_t bytes = store.length;
    while (bytes > 0 && store.bytes[bytes - 1] == 0)
        bytes--;
    if (one_in(script, 3))
        bytes = (size_t)between(script, (int)bytes, (int)store.length);
    else if (one_in(script, 3))
        bytes = store.length;
    put_bytes(call, CALL_STORE, store.bytes, bytes);
    call->room = store.length;
    script->lower_case = one_in(script, 20);
}

static void draw_class_call(struct script *script, struct call *call)
{
    const int kind = between(script, 0, 9);
    if (kind < 2) {
        draw_store(script, call);
    } else if (kind < 5) {
        call->kind = CALL_KEEP;
    } else if (kind < 9) {
        call->kind = CALL_RECALL;
        call->number = pick_edition(script);
    } else {
        call->kind = CALL_TIDY;
    }
}

/* ---- Other lines ---- */

static void draw_crc(struct script *script, struct call *call)
{
    call->kind = CALL_CRC;
    call->length = (size_t)(one_in(script, 10) ? between(script, 0, 300) : between(script, 0, 12));
    for (size_t at = 0; at < call->length; at++)
        call->bytes[at] = (uint8_t)between(script, 0, 255);
}

static void draw_register(struct script *script, struct call *call)
{
    call->kind = CALL_REGISTER;
    call->number = (uint32_t)(one_in(script, 2) ? between(script, 0, 420) : pick_end(script));
}

/* Lines that are no call, or that only just are one. */
static const char *const junk[] = {
    "hello", "?", "tick", "start", "start 8", "start 8 2000 1", "start -1 2000", "start 256 2000", "start 8 65536",
    "start 8 -1", "start -0 0", "start +8 2000", "Start 8 2000", "start 8 2000.", "start  8   x", "startle 8 2000",
    "start8 2000", "start 008 02000", "handover 1", "handover 1 32 1", "handover 4294967296 32", "handover -0 32",
    "handover 42949672950 32", "handover 1 601", "handover 1 -1", "handover 0004294967295 032", "handover x 32",
    "handover 1 x", "handover 1,32", "Handover 1 32", "handover1 32", "handover +1 32", "handover  7   32 ",
    "handover now", "HANDOVER", "handove", "handover\t", "\thandover", "  handover  ",
    " # no comment", "frame", "frame 601 AA 18 7F 1A", "frame -0 AA 18 7F 1A", "frame 259 A", "frame 259 AAA 18 7F 1A",
    "frame 259 GG", "frame 259 A/", "frame 259 :A", "frame 259 @A", "frame 259 A`", "frame 259 aG",
    "frame 259 AA 18 7F 1A \x01", "frame AA 18 7F 1A", "frame 0x259 AA 18 7F 1A", "frame 0259 aa 18 7f 1A",
    "offer", "offer A", "offer AAA", "offer AA18 7F", "offer 259 AA", "offers AA", "Offer AA", "offer aa 1D",
    "offer GG", "fetch", "fetch 601", "fetch -0", "fetch 259 AA", "fetch 0600", "fetch 259 ", "fetch x", "fetched 259",
    "save", "save 601", "save -0", "save 248 248", "save 0248", "save x", "save 0xF8", "saved 248", "Save 248",
    "load", "load F", "load FFF", "load FFFF", "load GG", "load 248 FF", "loads FF", "Load FF", "load fF Ff",
    "cabinet", "cabinet 41", "cabinet -0", "cabinet -1", "cabinet 20 20", "cabinet 020", "cabinet x", "cabinet 0x14",
    "cabinets 20", "Cabinet 20", "cabinet20", "cabinet 20 ",
    "store", "store 601", "store -0", "store x", "store 0 00", "store 1 01 02", "store 512 G0", "store 512 1",
    "store 512 111", "store 0512", "store 600 0a 0B", "Store 512", "stores 512", "store512", "store 4 fF 00 Ff",
    "keep 1", "keep 512", "Keep", "keeps", "kee", "  keep ", "recall", "recall 4294967296", "recall 42949672950",
    "recall -0", "recall -1", "recall 1 1", "recall x", "recall 0x1", "recall 001", "Recall 1", "recalls 1", "recall1",
    "recall 4294967295", "tidy 1", "tidy 512", "Tidy", "tidys", " tidy  ", "tid",
    "crc", "crc 1", "crc 001", "crc ZZ", "crc aB Ba", "register", "register 65536", "register -0", "register 50 50",
    "register 0050", "tick 0 250 250 250 0 0",
    "tick 2147483648 250 250 250 0 0 0 1 2 3 4", "tick -2147483649 250 250 250 0 0 0 1 2 3 4",
    "tick -21474836480 250 250 250 0 0 0 1 2 3 4", "tick 100000000000000000000 250 250 250 0 0 0 1 2 3 4",
    "tick 0 32768 250 250 0 0 0 1 2 3 4", "tick 0 250 -32769 250 0 0 0 1 2 3 4", "tick 0 250 250 250 65536 0 0 1 2 3 4",
    "tick 0 250 250 250 -0 0 0 1 2 3 4", "tick 0 250 250 250 0 2 0 1 2 3 4", "tick 0 250 250 250 0 0 -1 1 2 3 4",
    "tick 0 250 250 250 0 0 0 65536 1 2 3", "tick 0 250 250 250 0 0 0 -1 1 2 3", "tick - 250 250 250 0 0 0 1 2 3 4",
    "tick --1 250 250 250 0 0 0 1 2 3 4", "tick +1 250 250 250 0 0 0 1 2 3 4", "tick 1e3 250 250 250 0 0 0 1 2 3 4",
    "tick 2147483647 250 250 250 0 0 0 40000 40000 40000 40000",
    "tick -2147483648 250 250 250 0 0 0 40000 40000 40000 40000",
    "tick -0 0250 -0 00 0 01 00 40000 40000 040000 00000000000000000000040000"
};

static void say(struct script *script, const char *format, ...)
{
    va_list values;
    va_start(values, format);
    script->length += (size_t)vsnprintf(script->line + script->length, sizeof script->line - script->length,
                                        format, values);
    va_end(values);
}

static void say_junk(struct script *script)
{
    const int kind = between(script, 0, 11);
    script->length = 0;
    if (kind == 0) {
        say(script, "%s", PICK(script, ((const char *const[]){"frame 600", "offer", "load"})));
        for (int bytes = between(script, 300, 302); bytes > 0; bytes--)
            say(script, " 0%d", bytes % 10);
    } else if (kind == 1) {
        say(script, "tick 0 250 250 250 0 0 0");
        for (int cells = between(script, 31, 34); cells > 0; cells--)
            say(script, " 40000");
    } else if (kind == 2) {
        say(script, "handover%*s", between(script, LONGEST_LINE - 1, LONGEST_LINE + 1) - (int)strlen("handover"), "");
    } else if (kind == 3) {
        say(script, "%c", between(script, 'a', 'z'));
        for (int bytes = between(script, 0, 40); bytes > 0; bytes--)
            say(script, "%c", between(script, 11, 126));
        say(script, ".");
    } else {
        say(script, "%s", PICK(script, junk));
    }
}

/* ---- The script ---- */

/* "Number 21 gives back no usable board: any later call on it, handover included, answers 21" */
static void draw_call_without_board(struct script *script, struct call *call)
{
    const int kind = between(script, 0, 9);
    script->unstarted--;
    if (kind == 0)
        draw_handover(script, call);
    else if (kind == 4)
        draw_register(script, call);
    else if (kind == 1)
        draw_tick(script, call);
    else if (kind == 2 && script->unstarted < 0)
        draw_start(script, call);
    else if (kind == 5)
        draw_offer(script, call);
    else if (kind == 6)
        draw_fetch(script, call, 2);
    else if (kind == 7)
        draw_save_or_load(script, call);
    else if (kind == 8)
        draw_cabinet(script, call);
    else if (kind == 9)
        draw_class_call(script, call);
    else
        draw_frame(script, call);
}

/* A tick, now and then the first of a run of quiet ones or of one around OT. */
static void draw_next_tick(struct script *script, struct call *call)
{
    static const int runs[] = {10, 12, 20, 30, 52, 60, 110, 302, 310};
    if (script->quiet == 0 && one_in(script, 100))
        script->quiet = PICK(script, runs);
    if (script->quiet == 0 && script->around_OT == 0 && one_in(script, 200))
        script->around_OT = between(script, 10, 60);
    draw_tick(script, call);
}

static void draw_call_of_any_kind(struct script *script, struct call *call)
{
    const int kind = between(script, 0, 9999);
    if (script->board.cells == 0) {
        draw_call_without_board(script, call);
    } else if (so_many_of(script, script->mix.ticks, 100)) {
        draw_next_tick(script, call);
    } else if (so_many_of(script, script->mix.saves_and_loads, 1000)) {
        draw_save_or_load(script, call);
    } else if (so_many_of(script, script->mix.cabinets, 1000)) {
        draw_cabinet(script, call);
    } else if (so_many_of(script, script->mix.classes, 1000)) {
        draw_class_call(script, call);
    } else if (kind < 12) {
        draw_start(script, call);
    } else if (kind < 12 + script->mix.handovers) {
        draw_handover(script, call);
    } else if (kind < 92 + script->mix.handovers) {
        draw_crc(script, call);
    } else if (kind < 192 + script->mix.handovers) {
        say_junk(script);
    } else if (kind < 342 + script->mix.handovers) {
        draw_register(script, call);
    } else if (kind < 2400) {
        draw_offer_or_fetch(script, call);
    } else if (kind < (script->quiet > 0 ? 2900 : 4000)) {
        draw_frame(script, call);
    } else {
        draw_next_tick(script, call);
    }
}

/* Ticks alone, or an app's frames alone but for 50 ticks in each 1,000 calls, which bring events to read. */
static void draw_call_of_one_kind(struct script *script, struct call *call)
{
    if (script->calls == 0)
        *call = (struct call){.kind = CALL_START, .cells = 8, .pulses_per_km = 2000};
    else if (script->kind == TICKS || script->calls % 1000 <= 50)
        draw_next_tick(script, call);
    else
        draw_app_frame(script, call);
}

struct call draw_call(struct script *script)
{
    struct call call = {.kind = NO_CALL, .cell = script->cell, .bytes = script->bytes};
    script->lower_case = false;
    if (script->kind == TICKS || script->kind == FRAMES)
        draw_call_of_one_kind(script, &call);
    else
        draw_call_of_any_kind(script, &call);
    script->calls++;
    return call;
}

struct mix mix_of(enum script_kind kind)
{
    struct mix mix = {.quick_commands = 12, .saves_and_loads = 15, .cabinets = 10, .cabinet_ticks = 3, .handovers = 58,
                      .charge_ticks = 1, .classes = 20};
    switch (kind) {
    case TICKS: mix.cabinet_ticks = 0; mix.charge_ticks = 0; break;
    case FRAMES: mix.cabinet_ticks = 0; mix.charge_ticks = 0; break;
    case QUICK: mix.quick_commands = 26; break;
    case MEMORY: mix.saves_and_loads = 52; break;
    case CABINET: mix.cabinets = 52; mix.cabinet_ticks = 50; break;
    case DESK: mix.handovers = 520; mix.charge_ticks = 40; break;
    case CLASSES: mix.classes = 105; break;
    case LIFE:
        mix = (struct mix){.ticks = 20, .quick_commands = 20, .saves_and_loads = 30, .cabinets = 20, .cabinet_ticks = 3,
                           .handovers = 100, .charge_ticks = 1, .classes = 60, .writes_of_334 = 40};
        break;
    default: break;
    }
    return mix;
}

void begin_script(struct script *script, uint64_t seed, enum script_kind kind)
{
    *script = (struct script){.chance = seed, .kind = kind, .mix = mix_of(kind), .unstarted = 4, .reads_of_events = 12};
    memset(script->saved, 0xFF, sizeof script->saved);
    set_up(&script->board, &script->store);
}

void print_script(uint64_t seed, uint64_t calls, enum script_kind kind)
{
    static struct script script;
    char ignored[ANSWER_ROOM];
    begin_script(&script, seed, kind);
    for (uint64_t at = 0; at < calls; at++) {
        const struct call call = draw_call(&script);
        if (call.kind != NO_CALL)
            script.length = (size_t)(say_call(script.line, &call, script.lower_case) - script.line);
        answer_line(&script.board, &script.store, script.line, script.length, ignored);
        fwrite(script.line, 1, script.length, stdout);
        fputs(one_in(&script, 50) ? "\r\n" : "\n", stdout);
    }
}
