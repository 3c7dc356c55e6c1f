/* The text of a call and of its answer. */
#include "console.h"

#include <stdio.h>

/* ---- Words ---- */

static inline char *say_byte(char *at, unsigned byte, const char *digits)
{
    *at++ = digits[byte >> 4];
    *at++ = digits[byte & 15];
    return at;
}

static const char upper_case[] = "0123456789ABCDEF", lower_case[] = "0123456789abcdef";

static inline char *say_word(char *at, uint16_t word)
{
    return say_byte(say_byte(at, word >> 8, upper_case), word & 0xFF, upper_case);
}

static char *say_decimal(char *at, unsigned number)
{
    if (number >= 10)
        at = say_decimal(at, number / 10);
    *at++ = (char)('0' + number % 10);
    return at;
}

/* " NUMBER" */
static char *say_number(char *at, int64_t number)
{
    *at++ = ' ';
    if (number < 0)
        *at++ = '-';
    return say_decimal(at, (unsigned)(number < 0 ? -number : number));
}

/* " BYTE.." */
static char *say_bytes(char *at, const uint8_t *bytes, size_t length, const char *digits)
{
    for (size_t byte = 0; byte < length; byte++) {
        *at++ = ' ';
        at = say_byte(at, bytes[byte], digits);
    }
    return at;
}

/* " WORD.." */
static char *say_words(char *at, const uint16_t *words, size_t count)
{
    for (size_t word = 0; word < count; word++) {
        *at++ = ' ';
        at = say_word(at, words[word]);
    }
    return at;
}

/* "BYTE.. +Z": the whole buffer, its trailing zero bytes as their count. */
static char *say_whole(char *at, const uint8_t *buffer, size_t room)
{
    size_t said = room;
    while (said > 0 && buffer[said - 1] == 0)
        said--;
    for (size_t byte = 0; byte < said; byte++) {
        at = say_byte(at, buffer[byte], upper_case);
        *at++ = ' ';
    }
    *at++ = '+';
    return say_decimal(at, (unsigned)(room - said));
}

/* " BYTE.. +Z" */
static char *say_buffer(char *at, const uint8_t *buffer, size_t room)
{
    *at++ = ' ';
    return say_whole(at, buffer, room);
}

/* ---- Answers ---- */

/* "NUMBER SWITCHES NEED REAL". A board that is none is as at a start, so it says "-- 0000 0000".
   "From W-208 on a 44 is written with its register: `44:315`." */
static char *say_state(char *at, const struct answer *answer)
{
    at = say_decimal(at, answer->number);
    if (answer->number == OUT_OF_RANGE) {
        *at++ = ':';
        at = say_decimal(at, answer->which);
    }
    *at++ = ' ';
    *at++ = answer->charge_switch ? 'c' : '-';
    *at++ = answer->discharge_switch ? 'd' : '-';
    *at++ = ' ';
    at = say_word(at, answer->need);
    *at++ = ' ';
    return say_word(at, answer->real);
}

/* "LOW HIGH", as a frame would end with them. */
static char *say_crc(char *at, unsigned crc)
{
    at = say_byte(at, crc & 0xFF, upper_case);
    *at++ = ' ';
    return say_byte(at, crc >> 8, upper_case);
}

/* "four upper-case hex digits, or - where there is none" */
static char *say_register(char *at, const struct answer *answer)
{
    if (answer->exists)
        return say_word(at, (uint16_t)answer->more);
    *at++ = '-';
    return at;
}

char *say_answer(char *at, const struct call *call, const struct answer *answer, const struct store *store)
{
    switch (call->kind) {
    case CALL_FRAME:
    case CALL_FETCH: return say_buffer(say_state(at, answer), answer->bytes, call->room);
    case CALL_OFFER: return say_number(say_state(at, answer), answer->more);
    case CALL_SAVE: return say_bytes(say_state(at, answer), answer->bytes, call->room, upper_case);
    case CALL_CABINET: return say_words(say_state(at, answer), answer->words, call->room);
    case CALL_HANDOVER: return say_bytes(say_state(at, answer), answer->bytes, call->alone ? 0 : call->room, upper_case);
    case CALL_KEEP: return say_buffer(say_number(say_state(at, answer), answer->more), store->bytes, store->length);
    case CALL_TIDY: return say_buffer(say_decimal(at, answer->number), store->bytes, store->length);
    case CALL_STORE: return say_whole(at, store->bytes, store->length);
    case CALL_CRC: return say_crc(at, answer->more);
    case CALL_REGISTER: return say_register(at, answer);
    default: return say_state(at, answer);
    }
}

/* ---- Calls ---- */

static char *say_tick(char *at, const struct call *call)
{
    const struct readings *readings = &call->readings;
    const int32_t numbers[] = {readings->current, readings->internal, readings->external[0], readings->external[1],
                               readings->pulses, readings->charger, readings->ignition};
    for (size_t number = 0; number < sizeof numbers / sizeof numbers[0]; number++)
        at = say_number(at, numbers[number]);
    for (size_t cell = 0; cell < call->length; cell++)
        at = say_number(at, call->cell[cell]);
    return at;
}

static char *say_verb(char *at, enum call_kind kind)
{
    for (const char *word = word_of_call[kind]; *word != '\0'; word++)
        *at++ = *word;
    return at;
}

char *say_call(char *at, const struct call *call, bool in_lower_case)
{
    const char *digits = in_lower_case ? lower_case : upper_case;
    at = say_verb(at, call->kind);
    switch (call->kind) {
    case CALL_START: return say_number(say_number(at, call->cells), call->pulses_per_km);
    case CALL_TICK: return say_tick(at, call);
    case CALL_FETCH:
    case CALL_SAVE:
    case CALL_CABINET: return say_number(at, (int64_t)call->room);
    case CALL_HANDOVER: return call->alone ? at : say_number(say_number(at, call->number), (int64_t)call->room);
    case CALL_FRAME:
    case CALL_STORE: return say_bytes(say_number(at, (int64_t)call->room), call->bytes, call->length, digits);
    case CALL_OFFER:
    case CALL_LOAD:
    case CALL_CRC: return say_bytes(at, call->bytes, call->length, digits);
    case CALL_RECALL:
    case CALL_REGISTER: return say_number(at, call->number);
    default: return at;
    }
}

void print_call(const struct call *call)
{
    char line[CALL_ROOM];
    *say_call(line, call, false) = '\0';
    puts(line);
}
