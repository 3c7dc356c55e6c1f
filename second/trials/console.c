/* Turns a line into a call, and answers it. The text of calls and answers is in say.c. */
#include "console.h"

#include <string.h>

/* ---- Words of a line ---- */

struct words {
    const char *at, *end;
};

/* Reading: only the space parts words, and spaces may also stand before the first and after the last word. */
static inline bool another_word(struct words *words)
{
    while (words->at < words->end && *words->at == ' ')
        words->at++;
    return words->at < words->end;
}

static inline bool at_word_end(const char *at, const char *end)
{
    return at == end || *at == ' ';
}

/* Reading: the words of calls are lower case only. */
static inline bool take_word(struct words *words, const char *word)
{
    const size_t length = strlen(word);
    if ((size_t)(words->end - words->at) < length || memcmp(words->at, word, length) != 0)
        return false;
    if (!at_word_end(words->at + length, words->end))
        return false;
    words->at += length;
    return true;
}

/* Reading: a number is one or more decimal digits, after one "-" only where it may be negative; no "+".
   Reading: leading zeros are allowed, as many as the line holds; "-0" is 0 where "-" is allowed at all. */
static inline bool take_number(struct words *words, int64_t least, int64_t greatest, int64_t *number)
{
    const int64_t furthest = INT64_C(1) << 32;    /* "a pack number of 32 bits": no call takes a number as far from 0 */
    if (!another_word(words))
        return false;
    const char *at = words->at;
    const bool negative = least < 0 && *at == '-';
    at += negative;
    const char *digits = at;
    int64_t value = 0;
    for (; at < words->end && *at >= '0' && *at <= '9'; at++)
        value = value <= furthest ? 10 * value + (*at - '0') : value;
    if (at == digits || !at_word_end(at, words->end))
        return false;
    words->at = at;
    *number = negative ? -value : value;
    return *number >= least && *number <= greatest;
}

static inline int hex_digit(char digit)
{
    if (digit >= '0' && digit <= '9')
        return digit - '0';
    const char lower = (char)(digit | 0x20);
    return lower >= 'a' && lower <= 'f' ? lower - 'a' + 10 : -1;
}

/* Reading: a byte is exactly two hex digits, of either case each. Takes all bytes to the end of the line. */
static bool take_bytes(struct words *words, uint8_t *bytes, size_t most, size_t *length)
{
    *length = 0;
    while (another_word(words)) {
        if (*length == most || words->end - words->at < 2 || !at_word_end(words->at + 2, words->end))
            return false;
        const int high = hex_digit(words->at[0]), low = hex_digit(words->at[1]);
        if (high < 0 || low < 0)
            return false;
        bytes[(*length)++] = (uint8_t)(high << 4 | low);
        words->at += 2;
    }
    return true;
}

/* ---- Calls: each reader gives back whether the rest of the line is what its call asks for ---- */

static bool read_start(struct words *words, struct call *call)
{
    int64_t cells, pulses_per_km;
    if (!take_number(words, 0, 255, &cells) || !take_number(words, 0, 65535, &pulses_per_km) || another_word(words))
        return false;
    call->cells = (uint8_t)cells;
    call->pulses_per_km = (uint16_t)pulses_per_km;
    return true;
}

static bool take_cells(struct words *words, struct call *call)
{
    int64_t value;
    call->length = 0;
    while (another_word(words)) {
        if (call->length == MOST_CELLS_LENT || !take_number(words, 0, 65535, &value))
            return false;
        call->cell[call->length++] = (uint16_t)value;
    }
    return true;
}

/* Reading: CHARGER and IGNITION are numbers 0 to 1, so 00 and 01 are taken too. */
static bool read_tick(struct words *words, struct call *call)
{
    int64_t current, internal, external1, external2, pulses, charger, ignition;
    if (!take_number(words, INT32_MIN, INT32_MAX, &current) || !take_number(words, -32768, 32767, &internal)
        || !take_number(words, -32768, 32767, &external1) || !take_number(words, -32768, 32767, &external2)
        || !take_number(words, 0, 65535, &pulses) || !take_number(words, 0, 1, &charger)
        || !take_number(words, 0, 1, &ignition))
        return false;
    call->readings = (struct readings){
        .current = (int32_t)current, .internal = (int16_t)internal,
        .external = {(int16_t)external1, (int16_t)external2}, .pulses = (uint16_t)pulses,
        .charger = charger == 1, .ignition = ignition == 1
    };
    return take_cells(words, call);
}

/* ROOM, or LENGTH */
static bool take_room(struct words *words, size_t most, struct call *call)
{
    int64_t room = 0;
    const bool taken = take_number(words, 0, (int64_t)most, &room);
    call->room = (size_t)room;
    return taken;
}

static bool read_frame(struct words *words, struct call *call)
{
    return take_room(words, MOST_ROOM, call) && take_bytes(words, call->bytes, MOST_BYTES, &call->length);
}

static bool read_bytes(struct words *words, struct call *call)
{
    return take_bytes(words, call->bytes, MOST_BYTES, &call->length);
}

static bool read_room(struct words *words, struct call *call)
{
    return take_room(words, MOST_ROOM, call) && !another_word(words);
}

static bool read_cabinet(struct words *words, struct call *call)
{
    return take_room(words, MOST_REGISTERS_LENT, call) && !another_word(words);
}

/* A number of 32 bits, or less. */
static bool take_32_bits(struct words *words, uint32_t greatest, struct call *call)
{
    int64_t number = 0;
    const bool taken = take_number(words, 0, greatest, &number);
    call->number = (uint32_t)number;
    return taken;
}

/* "`handover` alone stays: pack 0, a record of 32 bytes that is not shown" */
static bool read_handover(struct words *words, struct call *call)
{
    call->number = 0;
    call->room = HIRE_BYTES;
    call->alone = !another_word(words);
    return call->alone || (take_32_bits(words, UINT32_MAX, call) && read_room(words, call));
}

/* "more bytes than LENGTH are wrong" */
static bool read_store(struct words *words, struct call *call)
{
    return take_room(words, MOST_ROOM, call) && take_bytes(words, call->bytes, call->room, &call->length);
}

/* An edition, or a register's number. */
static bool read_number(struct words *words, uint32_t greatest, struct call *call)
{
    return take_32_bits(words, greatest, call) && !another_word(words);
}

static inline bool take_kind(struct words *words, enum call_kind kind, struct call *call)
{
    call->kind = kind;
    return take_word(words, word_of_call[kind]);
}

static bool take_call(struct words *words, struct call *call)
{
    if (take_kind(words, CALL_TICK, call))
        return read_tick(words, call);
    if (take_kind(words, CALL_FRAME, call))
        return read_frame(words, call);
    if (take_kind(words, CALL_OFFER, call) || take_kind(words, CALL_LOAD, call) || take_kind(words, CALL_CRC, call))
        return read_bytes(words, call);
    if (take_kind(words, CALL_FETCH, call) || take_kind(words, CALL_SAVE, call))
        return read_room(words, call);
    if (take_kind(words, CALL_START, call))
        return read_start(words, call);
    if (take_kind(words, CALL_CABINET, call))
        return read_cabinet(words, call);
    if (take_kind(words, CALL_HANDOVER, call))
        return read_handover(words, call);
    if (take_kind(words, CALL_STORE, call))
        return read_store(words, call);
    if (take_kind(words, CALL_KEEP, call) || take_kind(words, CALL_TIDY, call))
        return !another_word(words);
    if (take_kind(words, CALL_RECALL, call))
        return read_number(words, UINT32_MAX, call);
    return take_kind(words, CALL_REGISTER, call) && read_number(words, 65535, call);
}

bool begins_with(const char *line, size_t length, const char *word)
{
    struct words words = {line, line + length};
    return another_word(&words) && take_word(&words, word);
}

/* Reading: only "#" as the very first byte makes a comment, " #" is a word that is no call.
   Reading: a comment or a line of spaces alone gives no answer however long it is; any other line over 4,000 bytes
   (its LF or CR LF not counted) is "?". */
enum line_kind read_line(const char *line, size_t length, struct call *call)
{
    struct words words = {line, line + length};
    if (!another_word(&words) || line[0] == '#')
        return NO_ANSWER;
    return length <= LONGEST_LINE && take_call(&words, call) ? A_CALL : NOT_A_CALL;
}

size_t answer_line(struct board *board, struct store *store, const char *line, size_t length, char answer[ANSWER_ROOM])
{
    uint16_t cell[MOST_CELLS_LENT], words[MOST_REGISTERS_LENT];
    uint8_t bytes[MOST_ROOM], lent[MOST_ROOM];
    struct call call = {.cell = cell, .bytes = bytes};
    struct answer given = {.bytes = lent, .words = words};
    const enum line_kind kind = read_line(line, length, &call);
    if (kind == NO_ANSWER)
        return 0;
    char *end = answer;
    if (kind == A_CALL) {
        make_call(board, store, &call, &given);
        end = say_answer(end, &call, &given, store);
    } else {
        *end++ = '?';
    }
    *end++ = '\n';
    return (size_t)(end - answer);
}
