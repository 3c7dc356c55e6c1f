/* Requests made by chance, for scripts of calls: their fields lie at, one below and one above the rules. */
#include "script.h"

/* ---- Bytes of a request ---- */

void add(struct request *request, int byte)
{
    if (request->length < sizeof request->bytes)
        request->bytes[request->length++] = (uint8_t)byte;
}

static void add_high_first(struct request *request, int value)
{
    add(request, value >> 8);
    add(request, value);
}

static void add_low_first(struct request *request, int value)
{
    add(request, value);
    add(request, value >> 8);
}

static void add_crc(struct request *request)
{
    add_low_first(request, crc_of(request->bytes, request->length));
}

/* ---- Reads and writes ---- */

/* The ends of the ranges, the numbers next to them, and some between. */
int pick_end(struct script *script)
{
    static const int ends[] = {0, 16, 32, 36, 40, 41, 54, 55, 56, 99, 100, 113, 116, 117, 118,
                               299, 300, 315, 399, 400, 65535};
    return PICK(script, ends);
}

struct block {
    int address, RL;
};

/* Whole ranges mostly: they show all the state that there is. Else blocks at and across the ends of the ranges. */
static struct block pick_block(struct script *script)
{
    static const struct block whole[] = {{0, 56}, {0, 56}, {100, 18}, {100, 18}, {100, 18}, {300, 100}};
    static const int lengths[] = {0, 1, 1, 2, 2, 18, 19, 56, 57, 100, 101, 127, 128, 255};
    struct block block = PICK(script, whole);
    if (one_in(script, 3)) {
        block.address = one_in(script, 6) ? between(script, 0, 420) : pick_end(script);
        block.RL = one_in(script, 2) ? between(script, 1, 20) : PICK(script, lengths);
    }
    return block;
}

static void ask_registers(struct script *script, struct request *request)
{
    const struct block block = pick_block(script);
    add_high_first(request, block.address);
    add(request, one_in(script, 60) ? between(script, 1, 255) : 0);
    add(request, block.RL);
}

/* A value at the ends of the register's range, inside it, or (seldom) outside it. */
static int make_value(struct script *script, unsigned number)
{
    const int least = read_setting(&least_settings, number), greatest = read_setting(&greatest_settings, number);
    switch (between(script, 0, 15)) {
    case 0: case 1: return least;
    case 2: case 3: return greatest;
    case 4: return least - 1;
    case 5: return greatest + 1;
    case 6: case 7: return hold(least + 1, least, greatest);
    case 8: case 9: return hold(greatest - 1, least, greatest);
    case 10: return one_in(script, 4) ? between(script, 0, 65535) : read_setting(&factory_settings, number);
    case 11: case 12: return read_setting(&factory_settings, number);
    default: return between(script, least, greatest);
    }
}

/* "316 <= 301 < 315", at its edges. */
static void press_ordering(struct script *script, struct settings *wanted)
{
    const int r301 = r(script, 301), r315 = r(script, 315), r316 = r(script, 316);
    switch (between(script, 0, 3)) {
    case 0: wanted->of[1] = (uint16_t)near(script, r316); break;
    case 1: wanted->of[1] = (uint16_t)(near(script, r315) - 1); break;
    case 2: wanted->of[15] = (uint16_t)(near(script, r301) + 1); break;
    default: wanted->of[16] = (uint16_t)near(script, r301); break;
    }
}

static struct settings make_settings(struct script *script)
{
    struct settings wanted = script->board.settings;
    const int kind = between(script, 0, 9);
    if (kind <= 1)
        return factory_settings;
    if (kind <= 3) {
        wanted.of[32] = (uint16_t)(one_in(script, 5) ? 30 : between(script, 1, 3));
    } else if (kind <= 5) {
        press_ordering(script, &wanted);
    } else if (kind == 6) {
        wanted.of[20] = (uint16_t)between(script, -40, 10);
    } else {
        for (int changes = between(script, 1, 3); changes > 0; changes--) {
            const unsigned number = PICK(script, listed_settings);
            wanted.of[number - 300] = (uint16_t)make_value(script, number);
        }
    }
    if (so_many_of(script, script->mix.writes_of_334, 100))
        wanted.of[34] = (uint16_t)between(script, 0, 6);
    const int one = one_in(script, 4) ? PICK(script, ((const int[]){0, 99})) : between(script, 0, 99);
    if (one_in(script, 20))
        wanted.of[one] = (uint16_t)(one_in(script, 2) ? 1 : between(script, 0, 65535));
    return wanted;
}

/* The block that changes the board's settings to those that are wanted, with some around it at times; now and then
   another address or count. */
static struct block pick_changes(struct script *script, const struct settings *wanted)
{
    int first = 0, last = 99;
    while (first < 99 && wanted->of[first] == script->board.settings.of[first])
        first++;
    while (last > first && wanted->of[last] == script->board.settings.of[last])
        last--;
    if (one_in(script, 4))
        first = between(script, 0, first);
    if (one_in(script, 4))
        last = between(script, last, one_in(script, 8) ? 100 : 99);
    struct block block = {300 + first, last - first + 1};
    if (one_in(script, 12))
        block = (struct block){300, 100};
    if (one_in(script, 40))
        block.address = PICK(script, ((const int[]){0, 55, 100, 299, 300, 399, 400, 65535}));
    if (one_in(script, 40))
        block.RL = PICK(script, ((const int[]){0, 0, 1, 100, 101, 255}));
    return block;
}

static int wanted_at(const struct settings *wanted, int number)
{
    return number >= 300 && number <= 399 ? wanted->of[number - 300] : 0;
}

static void ask_write(struct script *script, struct request *request)
{
    const struct settings wanted = make_settings(script);
    const struct block block = pick_changes(script, &wanted);
    add_high_first(request, block.address);
    add(request, one_in(script, 60) ? between(script, 1, 255) : 0);
    add(request, block.RL);
    add(request, one_in(script, 40) ? near(script, 2 * block.RL) : 2 * block.RL);
    for (int at = 0; at < block.RL; at++)
        add_high_first(request, wanted_at(&wanted, block.address + at));
}

static void ask_settings(struct script *script, struct request *request)
{
    static const int lengths[] = {0, 1, 2, 36, 99, 100, 100, 100, 101, 255};
    add(request, one_in(script, 8) ? PICK(script, ((const int[]){0, 5, 255})) : between(script, 1, 4));
    add(request, one_in(script, 30) ? between(script, 1, 255) : 0);
    add(request, one_in(script, 3) ? PICK(script, lengths) : between(script, 1, 100));
}

/* ---- The quicker commands of W-202 ---- */

static void ask_registers_quickly(struct script *script, struct request *request)
{
    const struct block block = pick_block(script);
    add(request, block.RL);
    add_low_first(request, block.address);
}

/* "Reads by list give 1 to 63 addresses": of any range, some twice; in one list of six one may be of none. */
static void ask_list(struct script *script, struct request *request)
{
    static const struct block ranges[] = {{0, 56}, {100, 18}, {300, 100}};
    static const int counts[] = {0, 1, 1, 2, 62, 63, 63, 63, 64, 65, 126};
    const int addresses = one_in(script, 3) ? PICK(script, counts) : between(script, 1, 20);
    const int stray = between(script, 0, 6 * addresses);
    int address = 0;
    add(request, 2 * addresses);
    for (int at = 0; at < addresses; at++) {
        const struct block range = PICK(script, ranges);
        if (at == 0 || !one_in(script, 8))
            address = at == stray ? pick_end(script) : between(script, range.address, range.address + range.RL - 1);
        add_low_first(request, address);
    }
}

static void ask_write_quickly(struct script *script, struct request *request)
{
    const struct settings wanted = make_settings(script);
    const struct block block = pick_changes(script, &wanted);
    add(request, 2 + 2 * block.RL);
    add_low_first(request, block.address);
    for (int at = 0; at < block.RL; at++)
        add_low_first(request, wanted_at(&wanted, block.address + at));
}

static void add_pair(struct request *request, struct settings *after, int number, int value)
{
    add_low_first(request, number);
    add_low_first(request, value);
    after->of[number - 300] = (uint16_t)value;
}

/* "only the final values are judged": values that later pairs may undo, forbidden ones and those of unlisted registers
   among them. */
static void pass_through(struct script *script, struct request *request, struct settings *after, int pairs)
{
    const bool few = pairs <= 4;
    for (int pair = 0; pair < pairs; pair++) {
        const bool any = few && one_in(script, 3);
        const int number = any ? between(script, 300, 399) : (int)PICK(script, listed_settings);
        const bool far = one_in(script, 3);
        add_pair(request, after, number, far ? between(script, 0, 65535) : make_value(script, (unsigned)number));
    }
}

/* Now and then a pair whose address cannot be written. */
static void stray(struct script *script, struct request *request)
{
    if (!one_in(script, 50))
        return;
    add_low_first(request, PICK(script, ((const int[]){0, 55, 100, 299, 299, 400, 400, 65535})));
    add_low_first(request, 0);
}

/* Pairs that change nothing more, up to so many. */
static void fill_up(struct script *script, struct request *request, struct settings *after, int pairs)
{
    while (request->length < 3 + 4 * (size_t)pairs) {
        const int number = between(script, 300, 399);
        add_pair(request, after, number, after->of[number - 300]);
    }
}

/* "Writes by list give 1 to 50 pairs": some to pass through, then in any order those that leave the wanted settings,
   and now and then one more; a long list has 49, 50 or 51. */
static void ask_write_list(struct script *script, struct request *request)
{
    const struct settings wanted = make_settings(script);
    struct settings after = script->board.settings;
    const int first = between(script, 0, 99);
    const bool is_long = one_in(script, 8);
    add(request, 0);
    stray(script, request);
    pass_through(script, request, &after, is_long ? between(script, 10, 35) : between(script, 0, 4));
    stray(script, request);
    for (int step = 0; step < 100; step++) {
        const int at = (first + 37 * step) % 100;
        if (after.of[at] != wanted.of[at] || one_in(script, 200))
            add_pair(request, &after, 300 + at, wanted.of[at]);
    }
    if (is_long)
        fill_up(script, request, &after, near(script, 50));
    else if (one_in(script, 12))
        pass_through(script, request, &after, 1);
    stray(script, request);
    request->bytes[2] = (uint8_t)(request->length - 3);
}

/* "5+PL" bytes, whatever PL is: bytes are lost or come on top, and PL counts them or does not. */
static void press_PL(struct script *script, struct request *request)
{
    const bool counts_them = one_in(script, 2);
    const int change = between(script, -4, 4);
    for (int lost = -change; lost > 0 && request->length > 3; lost--)
        request->length--;
    for (int more = change; more > 0; more--)
        add(request, between(script, 0, 2));
    if (counts_them)
        request->bytes[2] = (uint8_t)(request->length - 3);
}

static void ask_quickly(struct script *script, struct request *request)
{
    static const uint8_t commands[] = {0x07, 0x09, 0x0B, 0x0D};
    request->bytes[1] = PICK(script, commands);
    switch (request->bytes[1]) {
    case 0x07: ask_registers_quickly(script, request); break;
    case 0x09: ask_list(script, request); break;
    case 0x0B: ask_write_quickly(script, request); break;
    default: ask_write_list(script, request); break;
    }
    if (request->bytes[1] != 0x07 && one_in(script, 8))
        press_PL(script, request);
}

/* ---- Requests of every kind ---- */

/* Commands that are left out, that are none, or that have another length than they get here. */
static void ask_anything(struct script *script, struct request *request)
{
    static const int commands[] = {0x00, 0x01, 0x04, 0x07, 0x09, 0x0B, 0x0D, 0x13, 0x1A, 0x1E, 0x1F, 0x20, 0xAA, 0xFF,
                                   0x02, 0x03, 0x10, 0x11, 0x12, 0x14, 0x18, 0x19, 0x1B, 0x1C, 0x1D};
    request->bytes[1] = (uint8_t)(one_in(script, 3) ? between(script, 0, 255) : PICK(script, commands));
    const int length = one_in(script, 8) ? between(script, 0, 297) : between(script, 0, 12);
    for (int at = 0; at < length; at++)
        add(request, one_in(script, 2) ? between(script, 0, 255) : between(script, 0, 2));
}

void ask(struct script *script, struct request *request)
{
    static const uint8_t short_commands[] = {0x14, 0x15, 0x16, 0x17, 0x18, 0x19, 0x1B, 0x1C};
    const int kind = between(script, 0, 99);
    *request = (struct request){{0xAA, 0x03}, 2};
    if (so_many_of(script, script->mix.quick_commands, 100)) {
        ask_quickly(script, request);
    } else if (one_in(script, script->reads_of_events)) {
        request->bytes[1] = 0x11;
    } else if (kind < 45) {
        ask_registers(script, request);
    } else if (kind < 67) {
        request->bytes[1] = 0x10;
        ask_write(script, request);
    } else if (kind < 75) {
        request->bytes[1] = 0x12;
    } else if (kind < 87) {
        request->bytes[1] = PICK(script, short_commands);
    } else if (kind < 92) {
        request->bytes[1] = 0x1D;
        ask_settings(script, request);
    } else if (kind < 96) {
        request->bytes[1] = 0x02;
        add(request, one_in(script, 6) ? between(script, 0, 6) : one_in(script, 4) ? 1 : 2);
    } else {
        ask_anything(script, request);
    }
    if (one_in(script, 30) && request->length > 2)
        request->length--;
    if (one_in(script, 30))
        add(request, between(script, 0, 255));
    add_crc(request);
}

void spoil(struct script *script, struct request *request)
{
    const size_t last = request->length - 1;
    const uint8_t low = request->bytes[last - 1];
    const int one = between(script, 0, (int)last);
    switch (between(script, 0, 5)) {
    case 0: request->bytes[last] ^= (uint8_t)(1 << between(script, 0, 7)); break;
    case 1: request->bytes[last - 1] ^= (uint8_t)(1 << between(script, 0, 7)); break;
    case 2: request->bytes[last - 1] = request->bytes[last]; request->bytes[last] = low; break;
    case 3: request->bytes[one] ^= (uint8_t)between(script, 1, 255); break;
    case 4: request->length = (size_t)between(script, 0, 4); break;
    default:
        request->length = last - 1;
        request->bytes[0] = (uint8_t)between(script, 0, 255);
        add_crc(request);
        break;
    }
}

/* What an app sends, every one of it accepted: mostly reads, now and then a write, seldom a clear. */
void ask_as_app(struct script *script, struct request *request)
{
    static const struct request reads[] = {
        {{0xAA, 0x03, 0, 0, 0, 56}, 6}, {{0xAA, 0x03, 0, 100, 0, 18}, 6}, {{0xAA, 0x03, 0x01, 0x2C, 0, 100}, 6},
        {{0xAA, 0x11}, 2}, {{0xAA, 0x12}, 2}, {{0xAA, 0x14}, 2}, {{0xAA, 0x15}, 2}, {{0xAA, 0x16}, 2},
        {{0xAA, 0x17}, 2}, {{0xAA, 0x18}, 2}, {{0xAA, 0x19}, 2}, {{0xAA, 0x1B}, 2}, {{0xAA, 0x1C}, 2},
        {{0xAA, 0x1D, 4, 0, 100}, 5}
    };
    static const struct request clears[] = {{{0xAA, 0x02, 0x01}, 3}, {{0xAA, 0x02, 0x02}, 3}};
    static const struct request write_332 = {{0xAA, 0x10, 0x01, 0x4C, 0, 1, 2}, 7};
    *request = one_in(script, 1000) ? PICK(script, clears) : PICK(script, reads);
    if (one_in(script, 20)) {
        *request = write_332;
        add_high_first(request, between(script, 1, 30));
    }
    add_crc(request);
}

static void add_payload(struct script *script, struct request *request, int PL)
{
    for (int at = 0; at < PL; at++)
        add(request, one_in(script, 2) ? 0 : between(script, 0, 30));
}

/* "for 0x10 from its PL byte (9+PL, at most 264)", and for the quicker commands 5+PL: a frame of that length, its RL
   and its payload as they may be. */
void ask_by_PL(struct script *script, struct request *request)
{
    static const int of_0x10[] = {0, 1, 2, 2, 3, 4, 200, 254, 255, 255};
    static const int of_quicker[] = {0, 1, 2, 3, 4, 4, 6, 8, 126, 128, 200, 202, 204, 254, 255, 255};
    static const uint8_t quicker[] = {0x09, 0x0B, 0x0D};
    *request = (struct request){{0xAA, 0x10, 0x01, 0x4C, 0}, 5};
    int PL = PICK(script, of_0x10);
    if (one_in(script, 3)) {
        add(request, one_in(script, 4) ? between(script, 0, 255) : near(script, PL / 2));
    } else {
        *request = (struct request){{0xAA, PICK(script, quicker)}, 2};
        PL = PICK(script, of_quicker);
    }
    add(request, PL);
    add_payload(script, request, PL);
    add_crc(request);
}
