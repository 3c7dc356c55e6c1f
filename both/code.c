/* Calls read from bytes, and written as bytes. */
#include "code.h"

#include <string.h>

/* The low half of a call's first byte. */
enum code {
    A_START, A_TICK, A_FRAME, AN_OFFER, A_FETCH, A_HANDOVER, A_SAVE, A_LOAD, A_CABINET, A_STORE, A_KEEP, A_RECALL, A_TIDY,
    A_REGISTER, A_CHANGE, ONCE_MORE
};

/* Flags of it: of a length that is the usual one; of a tick; of the bytes of a frame or an offer; of a load. */
enum {
    USUAL = 1,
    CHARGER = 1, IGNITION = 2, CELLS_OF_START = 4, CELLS_ALIKE = 8,
    AA_BEFORE = 2, CRC_BEHIND = 4, OWN_LENGTH = 8,
    UP_TO_AREA = 1, UP_TO_OLD_AREA = 2
};

/* ---- Reading ---- */

static uint8_t take_byte(struct reader *reader)
{
    return reader->at < reader->end ? *reader->at++ : 0;
}

static uint32_t take(struct reader *reader, unsigned bytes)
{
    uint32_t number = 0;
    for (unsigned at = 0; at < bytes; at++)
        number |= (uint32_t)take_byte(reader) << 8 * at;
    return number;
}

static size_t take_length(struct reader *reader, size_t most)
{
    return take(reader, 2) % (most + 1);
}

static size_t take_room(struct reader *reader, unsigned flags, size_t usual)
{
    return flags & USUAL ? usual : take_length(reader, MOST_ROOM);
}

static void take_bytes(struct reader *reader, size_t count)
{
    for (; count > 0; count--)
        reader->call.bytes[reader->call.length++] = take_byte(reader);
}

static void put_tick(struct reader *reader)
{
    reader->call.kind = CALL_TICK;
    reader->call.readings = reader->readings;
    reader->call.length = reader->count;
}

static void take_tick(struct reader *reader, unsigned flags)
{
    struct readings *readings = &reader->readings;
    readings->charger = flags & CHARGER;
    readings->ignition = flags & IGNITION;
    readings->current = (int32_t)take(reader, 4);
    readings->internal = (int16_t)take(reader, 2);
    readings->external[0] = (int16_t)take(reader, 2);
    readings->external[1] = (int16_t)take(reader, 2);
    readings->pulses = (uint16_t)take(reader, 2);
    reader->count = flags & CELLS_OF_START ? reader->cells : take_byte(reader) % (MOST_CELLS_LENT + 1);
    for (size_t at = 0; at < reader->count; at++)
        reader->cell[at] = at > 0 && (flags & CELLS_ALIKE) ? reader->cell[0] : (uint16_t)take(reader, 2);
    put_tick(reader);
}

static void change_cells(struct reader *reader)
{
    const uint16_t value = (uint16_t)take(reader, 2);
    for (size_t at = 0; at < reader->count; at++)
        reader->cell[at] = value;
}

static void change_cell(struct reader *reader)
{
    const size_t place = take_byte(reader) % MOST_CELLS_LENT;
    reader->cell[place] = (uint16_t)take(reader, 2);
}

static void take_change(struct reader *reader, unsigned which)
{
    struct readings *readings = &reader->readings;
    switch (which) {
    case 0: readings->current = (int32_t)take(reader, 4); break;
    case 1: readings->internal = (int16_t)take(reader, 2); break;
    case 2: readings->external[0] = (int16_t)take(reader, 2); break;
    case 3: readings->external[1] = (int16_t)take(reader, 2); break;
    case 4: readings->pulses = (uint16_t)take(reader, 2); break;
    case 5: readings->charger = !readings->charger; break;
    case 6: readings->ignition = !readings->ignition; break;
    case 7: change_cells(reader); break;
    case 8: reader->count = take_byte(reader) % (MOST_CELLS_LENT + 1); break;
    case 9: change_cell(reader); break;
    default: break;
    }
    put_tick(reader);
}

/* All but the CRC of as many bytes as the command says, which a PL among them may say in its turn. */
static void take_own_length(struct reader *reader)
{
    const struct call *call = &reader->call;
    do
        take_bytes(reader, 1);
    while (call->length + 2 < length_of_request(call->bytes, call->length));
}

static void take_request(struct reader *reader, enum call_kind kind, unsigned flags)
{
    struct call *call = &reader->call;
    call->kind = kind;
    if (flags & AA_BEFORE)
        call->bytes[call->length++] = 0xAA;
    if (flags & OWN_LENGTH)
        take_own_length(reader);
    else
        take_bytes(reader, take_length(reader, MOST_BYTES - call->length));
    const uint16_t crc = crc_of(call->bytes, call->length);
    for (unsigned at = 0; flags & CRC_BEHIND && at < 2 && call->length < MOST_BYTES; at++)
        call->bytes[call->length++] = (uint8_t)(crc >> 8 * at);
}

static void take_load(struct reader *reader, unsigned flags)
{
    struct call *call = &reader->call;
    const size_t length = flags & UP_TO_AREA ? AREA_BYTES : flags & UP_TO_OLD_AREA ? OLD_AREA_BYTES : 0;
    call->kind = CALL_LOAD;
    take_bytes(reader, take_length(reader, MOST_BYTES));
    while (call->length < length)
        call->bytes[call->length++] = 0xFF;
}

static void take_store(struct reader *reader, unsigned flags)
{
    struct call *call = &reader->call;
    call->kind = CALL_STORE;
    call->room = take_room(reader, flags, STORE_BYTES);
    take_bytes(reader, take_length(reader, call->room));
}

static void take_start(struct reader *reader)
{
    struct call *call = &reader->call;
    call->kind = CALL_START;
    call->cells = take_byte(reader);
    call->pulses_per_km = (uint16_t)take(reader, 2);
    reader->cells = call->cells % (MOST_CELLS_LENT + 1);
}

static void take_handover(struct reader *reader, unsigned flags)
{
    struct call *call = &reader->call;
    call->kind = CALL_HANDOVER;
    call->room = take_room(reader, flags, HIRE_BYTES);
    call->number = take(reader, 4);
}

static void take_lent(struct reader *reader, enum call_kind kind, size_t room)
{
    reader->call.kind = kind;
    reader->call.room = room;
}

static void take_numbered(struct reader *reader, enum call_kind kind, unsigned bytes)
{
    reader->call.kind = kind;
    reader->call.number = take(reader, bytes);
}

static size_t take_registers(struct reader *reader, unsigned flags)
{
    return flags & USUAL ? CABINET_REGISTERS : take_byte(reader) % (MOST_REGISTERS_LENT + 1);
}

static void take_call(struct reader *reader, enum code code, unsigned flags)
{
    reader->call = (struct call){.cell = reader->cell, .bytes = reader->bytes};
    switch (code) {
    case A_START: take_start(reader); break;
    case A_TICK: take_tick(reader, flags); break;
    case A_FRAME:
        reader->call.room = take_room(reader, flags, LEAST_ROOM);
        take_request(reader, CALL_FRAME, flags);
        break;
    case AN_OFFER: take_request(reader, CALL_OFFER, flags); break;
    case A_FETCH: take_lent(reader, CALL_FETCH, take_room(reader, flags, LEAST_ROOM)); break;
    case A_HANDOVER: take_handover(reader, flags); break;
    case A_SAVE: take_lent(reader, CALL_SAVE, take_room(reader, flags, AREA_BYTES)); break;
    case A_LOAD: take_load(reader, flags); break;
    case A_CABINET: take_lent(reader, CALL_CABINET, take_registers(reader, flags)); break;
    case A_STORE: take_store(reader, flags); break;
    case A_KEEP: reader->call.kind = CALL_KEEP; break;
    case A_RECALL: take_numbered(reader, CALL_RECALL, flags & USUAL ? 1 : 4); break;
    case A_TIDY: reader->call.kind = CALL_TIDY; break;
    case A_REGISTER: take_numbered(reader, CALL_REGISTER, 2); break;
    default: take_change(reader, flags); break;
    }
}

void begin_reading(struct reader *reader, const uint8_t *bytes, size_t length)
{
    *reader = (struct reader){.at = bytes, .end = bytes + length};
    reader->call = (struct call){.kind = CALL_TIDY, .cell = reader->cell, .bytes = reader->bytes};
}

const struct call *next_call(struct reader *reader)
{
    if (reader->again == 0 && reader->at == reader->end)
        return NULL;
    if (reader->again > 0) {
        reader->again--;
        return &reader->call;
    }
    const uint8_t first = take_byte(reader);
    if ((first & 15) == ONCE_MORE)
        reader->again = take_byte(reader);
    else
        take_call(reader, first & 15, first >> 4);
    return &reader->call;
}

/* ---- Writing: each call in its plain form ---- */

static uint8_t *put(uint8_t *at, uint32_t number, unsigned bytes)
{
    for (unsigned byte = 0; byte < bytes; byte++)
        *at++ = (uint8_t)(number >> 8 * byte);
    return at;
}

static uint8_t *put_first(uint8_t *at, enum code code, unsigned flags)
{
    return put(at, flags << 4 | code, 1);
}

static uint8_t *put_bytes(uint8_t *at, const struct call *call)
{
    at = put(at, (uint32_t)call->length, 2);
    memcpy(at, call->bytes, call->length);
    return at + call->length;
}

/* A length that is lent. */
static uint8_t *put_room(uint8_t *at, enum code code, const struct call *call)
{
    return put(put_first(at, code, 0), (uint32_t)call->room, 2);
}

static uint8_t *put_whole_tick(uint8_t *at, const struct call *call)
{
    const struct readings *readings = &call->readings;
    at = put_first(at, A_TICK, (readings->charger ? CHARGER : 0) | (readings->ignition ? IGNITION : 0));
    at = put(at, (uint32_t)readings->current, 4);
    at = put(at, (uint16_t)readings->internal, 2);
    at = put(at, (uint16_t)readings->external[0], 2);
    at = put(at, (uint16_t)readings->external[1], 2);
    at = put(at, readings->pulses, 2);
    at = put(at, (uint32_t)call->length, 1);
    for (size_t cell = 0; cell < call->length; cell++)
        at = put(at, call->cell[cell], 2);
    return at;
}

static uint8_t *put_call(uint8_t *at, const struct call *call)
{
    switch (call->kind) {
    case CALL_START: return put(put(put_first(at, A_START, 0), call->cells, 1), call->pulses_per_km, 2);
    case CALL_TICK: return put_whole_tick(at, call);
    case CALL_FRAME: return put_bytes(put_room(at, A_FRAME, call), call);
    case CALL_OFFER: return put_bytes(put_first(at, AN_OFFER, 0), call);
    case CALL_FETCH: return put_room(at, A_FETCH, call);
    case CALL_HANDOVER: return put(put_room(at, A_HANDOVER, call), call->number, 4);
    case CALL_SAVE: return put_room(at, A_SAVE, call);
    case CALL_LOAD: return put_bytes(put_first(at, A_LOAD, 0), call);
    case CALL_CABINET: return put(put_first(at, A_CABINET, 0), (uint32_t)call->room, 1);
    case CALL_STORE: return put_bytes(put_room(at, A_STORE, call), call);
    case CALL_KEEP: return put_first(at, A_KEEP, 0);
    case CALL_RECALL: return put(put_first(at, A_RECALL, 0), call->number, 4);
    case CALL_TIDY: return put_first(at, A_TIDY, 0);
    default: return put(put_first(at, A_REGISTER, 0), call->number, 2);
    }
}

size_t write_call(const struct call *call, uint8_t code[CODE_ROOM])
{
    return (size_t)(put_call(code, call) - code);
}
