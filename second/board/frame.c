/* Frames: the CRC, the replies, the commands of document 01 and the quicker ones of W-202. */
#include "board.h"

#include <string.h>

/* ---- CRC ---- */

/* Document 000, chapter 1.2: for each byte value, the eight shifts by one with 0xA001 done at once. */
static const uint16_t crc_table[256] = {
    0x0000, 0xC0C1, 0xC181, 0x0140, 0xC301, 0x03C0, 0x0280, 0xC241, 0xC601, 0x06C0, 0x0780, 0xC741,
    0x0500, 0xC5C1, 0xC481, 0x0440, 0xCC01, 0x0CC0, 0x0D80, 0xCD41, 0x0F00, 0xCFC1, 0xCE81, 0x0E40,
    0x0A00, 0xCAC1, 0xCB81, 0x0B40, 0xC901, 0x09C0, 0x0880, 0xC841, 0xD801, 0x18C0, 0x1980, 0xD941,
    0x1B00, 0xDBC1, 0xDA81, 0x1A40, 0x1E00, 0xDEC1, 0xDF81, 0x1F40, 0xDD01, 0x1DC0, 0x1C80, 0xDC41,
    0x1400, 0xD4C1, 0xD581, 0x1540, 0xD701, 0x17C0, 0x1680, 0xD641, 0xD201, 0x12C0, 0x1380, 0xD341,
    0x1100, 0xD1C1, 0xD081, 0x1040, 0xF001, 0x30C0, 0x3180, 0xF141, 0x3300, 0xF3C1, 0xF281, 0x3240,
    0x3600, 0xF6C1, 0xF781, 0x3740, 0xF501, 0x35C0, 0x3480, 0xF441, 0x3C00, 0xFCC1, 0xFD81, 0x3D40,
    0xFF01, 0x3FC0, 0x3E80, 0xFE41, 0xFA01, 0x3AC0, 0x3B80, 0xFB41, 0x3900, 0xF9C1, 0xF881, 0x3840,
    0x2800, 0xE8C1, 0xE981, 0x2940, 0xEB01, 0x2BC0, 0x2A80, 0xEA41, 0xEE01, 0x2EC0, 0x2F80, 0xEF41,
    0x2D00, 0xEDC1, 0xEC81, 0x2C40, 0xE401, 0x24C0, 0x2580, 0xE541, 0x2700, 0xE7C1, 0xE681, 0x2640,
    0x2200, 0xE2C1, 0xE381, 0x2340, 0xE101, 0x21C0, 0x2080, 0xE041, 0xA001, 0x60C0, 0x6180, 0xA141,
    0x6300, 0xA3C1, 0xA281, 0x6240, 0x6600, 0xA6C1, 0xA781, 0x6740, 0xA501, 0x65C0, 0x6480, 0xA441,
    0x6C00, 0xACC1, 0xAD81, 0x6D40, 0xAF01, 0x6FC0, 0x6E80, 0xAE41, 0xAA01, 0x6AC0, 0x6B80, 0xAB41,
    0x6900, 0xA9C1, 0xA881, 0x6840, 0x7800, 0xB8C1, 0xB981, 0x7940, 0xBB01, 0x7BC0, 0x7A80, 0xBA41,
    0xBE01, 0x7EC0, 0x7F80, 0xBF41, 0x7D00, 0xBDC1, 0xBC81, 0x7C40, 0xB401, 0x74C0, 0x7580, 0xB541,
    0x7700, 0xB7C1, 0xB681, 0x7640, 0x7200, 0xB2C1, 0xB381, 0x7340, 0xB101, 0x71C0, 0x7080, 0xB041,
    0x5000, 0x90C1, 0x9181, 0x5140, 0x9301, 0x53C0, 0x5280, 0x9241, 0x9601, 0x56C0, 0x5780, 0x9741,
    0x5500, 0x95C1, 0x9481, 0x5440, 0x9C01, 0x5CC0, 0x5D80, 0x9D41, 0x5F00, 0x9FC1, 0x9E81, 0x5E40,
    0x5A00, 0x9AC1, 0x9B81, 0x5B40, 0x9901, 0x59C0, 0x5880, 0x9841, 0x8801, 0x48C0, 0x4980, 0x8941,
    0x4B00, 0x8BC1, 0x8A81, 0x4A40, 0x4E00, 0x8EC1, 0x8F81, 0x4F40, 0x8D01, 0x4DC0, 0x4C80, 0x8C41,
    0x4400, 0x84C1, 0x8581, 0x4540, 0x8701, 0x47C0, 0x4680, 0x8641, 0x8201, 0x42C0, 0x4380, 0x8341,
    0x4100, 0x81C1, 0x8081, 0x4040
};

/* "start 0xFFFF; for each byte, exclusive-or it in, then eight times shift right by one" */
uint16_t crc_of(const uint8_t *bytes, size_t length)
{
    uint16_t crc = 0xFFFF;
    for (size_t at = 0; at < length; at++)
        crc = (uint16_t)(crc >> 8 ^ crc_table[(crc ^ bytes[at]) & 0xFF]);
    return crc;
}

/* ---- Replies ---- */

/* A reply as it is written into the lent buffer, which is all zeros before; and the register of a 44. */
struct reply {
    uint8_t *bytes;
    size_t length;
    uint16_t which;
};

static void put(struct reply *reply, uint8_t byte)
{
    reply->bytes[reply->length++] = byte;
}

/* "Except in 0x03 and 0x10, multi-byte data goes low byte first." */
static void put_low_first(struct reply *reply, uint32_t value, unsigned bytes)
{
    for (unsigned at = 0; at < bytes; at++)
        put(reply, (uint8_t)(value >> 8 * at));
}

static void put_high_first(struct reply *reply, uint16_t value)
{
    put(reply, (uint8_t)(value >> 8));
    put(reply, (uint8_t)value);
}

/* "Sent low byte first." */
static void put_crc(struct reply *reply)
{
    put_low_first(reply, crc_of(reply->bytes, reply->length), 2);
}

/* "NACK: AA 00 CMD ERROR CRC." */
static void put_nack(uint8_t *buffer, uint8_t command, uint8_t error)
{
    struct reply reply = {buffer, 0, 0};
    put(&reply, 0xAA);
    put(&reply, 0x00);
    put(&reply, command);
    put(&reply, error);
    put_crc(&reply);
}

static void put_head(struct reply *reply, uint8_t command)
{
    put(reply, 0xAA);
    put(reply, command);
}

/* "ACK: AA 01 CMD CRC." */
static void put_ack(struct reply *reply, uint8_t command)
{
    put_head(reply, 0x01);
    put(reply, command);
}

static uint32_t pair(const struct board *board, unsigned number)
{
    return board_register(board, number) | (uint32_t)board_register(board, number + 1) << 16;
}

/* ---- Words of a request ---- */

static unsigned high_first(const uint8_t *bytes)
{
    return (unsigned)bytes[0] << 8 | bytes[1];
}

static unsigned low_first(const uint8_t *bytes)
{
    return bytes[0] | (unsigned)bytes[1] << 8;
}

/* ---- Commands: each is done, or refused with nothing changed ----
   W-208: "43 a field outside its rule (address, count, option or padding)" */

/* "0x02, 5 bytes: option 01 clears events, 02 clears statistics; others are number 4. Reply ACK." */
static enum number clear(struct board *board, uint8_t option, struct reply *reply)
{
    if (option == 0x01)
        clear_events(board);
    else if (option == 0x02)
        clear_statistics(board);
    else
        return WRONG_FIELD;
    put_ack(reply, 0x02);
    return DONE;
}

/* "RL 1 to 127", and "A register block must lie in one range" */
static bool may_be_read(unsigned address, unsigned RL)
{
    return RL >= 1 && RL <= 127 && in_one_range(address, RL);
}

/* "0x03, 8 bytes: address high, low, 00, RL. RL 1 to 127. Reply AA 03 PL, then each register high byte first" */
static enum number read_block_high_first(const struct board *board, const uint8_t *frame, struct reply *reply)
{
    const unsigned address = high_first(frame + 2), RL = frame[5];
    if (frame[4] != 0x00 || !may_be_read(address, RL))
        return WRONG_FIELD;
    put_head(reply, 0x03);
    put(reply, (uint8_t)(2 * RL));
    for (unsigned at = 0; at < RL; at++)
        put_high_first(reply, board_register(board, address + at));
    return DONE;
}

/* Document 000, 1.1.2: AA 07 RL ADDR, and the reply AA 07 PL DATA. W-202: "by block 1 to 127". */
static enum number read_block(const struct board *board, const uint8_t *frame, struct reply *reply)
{
    const unsigned RL = frame[2], address = low_first(frame + 3);
    if (!may_be_read(address, RL))
        return WRONG_FIELD;
    put_head(reply, 0x07);
    put(reply, (uint8_t)(2 * RL));
    for (unsigned at = 0; at < RL; at++)
        put_low_first(reply, board_register(board, address + at), 2);
    return DONE;
}

/* "a read address outside 01's three ranges is number 4", "A read list may mix ranges" */
static bool each_may_be_read(const uint8_t *address, unsigned addresses)
{
    for (unsigned at = 0; at < addresses; at++)
        if (!in_one_range(low_first(address + 2 * at), 1))
            return false;
    return true;
}

/* Document 000, 1.1.3: AA 09 PL, addresses, and the reply AA 09 PL, each address with its register.
   W-202: "Reads by list give 1 to 63 addresses". */
static enum number read_list(const struct board *board, const uint8_t *frame, struct reply *reply)
{
    const unsigned PL = frame[2], addresses = PL / 2;
    if (PL % 2 != 0 || addresses < 1 || addresses > 63 || !each_may_be_read(frame + 3, addresses))
        return WRONG_FIELD;
    put_head(reply, 0x09);
    put(reply, (uint8_t)(4 * addresses));
    for (unsigned at = 0; at < addresses; at++) {
        const unsigned address = low_first(frame + 3 + 2 * at);
        put_low_first(reply, address, 2);
        put_low_first(reply, board_register(board, address), 2);
    }
    return DONE;
}

/* "addresses all in 300 to 399" */
static bool may_be_written(unsigned address, unsigned registers)
{
    return address >= 300 && address + registers - 1 <= 399;
}

/* "0x10, 9+2*RL bytes: address high, low, 00, RL, PL, registers high byte first. RL 1 to 100, PL = 2*RL, addresses
   all in 300 to 399. Reply AA 10 address high, low, 00, RL, CRC." */
static enum number write_block_high_first(struct board *board, const uint8_t *frame, struct reply *reply)
{
    const unsigned address = high_first(frame + 2), RL = frame[5], PL = frame[6];
    if (frame[4] != 0x00 || RL < 1 || RL > 100 || PL != 2 * RL || !may_be_written(address, RL))
        return WRONG_FIELD;
    struct settings after = board->settings;
    for (unsigned at = 0; at < RL; at++)
        after.of[address - 300 + at] = (uint16_t)high_first(frame + 7 + 2 * at);
    const enum number number = take_settings(board, &after, &reply->which);
    if (number != DONE)
        return number;
    put_head(reply, 0x10);
    put_high_first(reply, (uint16_t)address);
    put_high_first(reply, (uint16_t)RL);
    return DONE;
}

/* Document 000, 1.1.4: AA 0B PL ADDR, registers, and the reply ACK. W-202: "by block 1 to 100 registers, all in 300
   to 399". The address is a word of the payload too. */
static enum number write_block(struct board *board, const uint8_t *frame, struct reply *reply)
{
    const unsigned PL = frame[2], words = PL / 2;
    if (PL % 2 != 0 || words < 1 + 1 || words > 1 + 100)
        return WRONG_FIELD;
    const unsigned address = low_first(frame + 3), registers = words - 1;
    if (!may_be_written(address, registers))
        return WRONG_FIELD;
    struct settings after = board->settings;
    for (unsigned at = 0; at < registers; at++)
        after.of[address - 300 + at] = (uint16_t)low_first(frame + 5 + 2 * at);
    const enum number number = take_settings(board, &after, &reply->which);
    if (number != DONE)
        return number;
    put_ack(reply, 0x0B);
    return DONE;
}

/* Document 000, 1.1.5: AA 0D PL, pairs of an address and its value, and the reply ACK. W-202: "Writes by list give 1 to
   50 pairs, ... all in 300 to 399", "A repeated address takes the later value". */
static enum number write_list(struct board *board, const uint8_t *frame, struct reply *reply)
{
    const unsigned PL = frame[2], pairs = PL / 4;
    if (PL % 4 != 0 || pairs < 1 || pairs > 50)
        return WRONG_FIELD;
    struct settings after = board->settings;
    for (unsigned at = 0; at < pairs; at++) {
        const unsigned address = low_first(frame + 3 + 4 * at);
        if (!may_be_written(address, 1))
            return WRONG_FIELD;
        after.of[address - 300] = (uint16_t)low_first(frame + 5 + 4 * at);
    }
    const enum number number = take_settings(board, &after, &reply->which);
    if (number != DONE)
        return number;
    put_ack(reply, 0x0D);
    return DONE;
}

/* "0x11 sends those not yet sent by an earlier 0x11; 0x12 sends all kept and marks nothing." Oldest first. */
static enum number send_events(struct board *board, uint8_t command, struct reply *reply)
{
    uint64_t first = oldest_kept(board);
    if (command == 0x11 && first < board->events_sent)
        first = board->events_sent;
    put_head(reply, command);
    put(reply, (uint8_t)(4 + 4 * (board->events_noted - first)));
    put_low_first(reply, board->lifetime, 4);
    for (uint64_t at = first; at < board->events_noted; at++) {
        const struct event event = board->event[at % EVENTS_KEPT];
        put_low_first(reply, event.time, 3);
        put(reply, event.number);
    }
    if (command == 0x11)
        board->events_sent = board->events_noted;
    return DONE;
}

/* "reply AA CMD DATA CRC, no PL" */
static enum number send_data(uint8_t command, uint32_t data, unsigned bytes, struct reply *reply)
{
    put_head(reply, command);
    put_low_first(reply, data, bytes);
    return DONE;
}

/* "0x1B: PL 6, internal, external 1, external 2." */
static enum number send_temperatures(const struct board *board, struct reply *reply)
{
    put_head(reply, 0x1B);
    put(reply, 6);
    put_low_first(reply, board_register(board, 48), 2);
    put_low_first(reply, board_register(board, 42), 2);
    put_low_first(reply, board_register(board, 43), 2);
    return DONE;
}

/* "0x1C: PL = 2*cells, the cells in 0.1 mV." */
static enum number send_cells(const struct board *board, struct reply *reply)
{
    put_head(reply, 0x1C);
    put(reply, (uint8_t)(2 * board->cells));
    for (unsigned at = 0; at < board->cells; at++)
        put_low_first(reply, board->cell[at], 2);
    return DONE;
}

/* "0x1D, 7 bytes: option 1 to 4 (minimum, maximum, default, current), 00, RL 1 to 100; reply PL = 2*RL, registers
   from 300 on." */
static enum number send_settings(const struct board *board, const uint8_t *frame, struct reply *reply)
{
    const struct settings *of_option[] = {&least_settings, &greatest_settings, &factory_settings, &board->settings};
    const unsigned option = frame[2], RL = frame[4];
    if (option < 1 || option > 4 || frame[3] != 0x00 || RL < 1 || RL > 100)
        return WRONG_FIELD;
    put_head(reply, 0x1D);
    put(reply, (uint8_t)(2 * RL));
    for (unsigned at = 0; at < RL; at++)
        put_low_first(reply, of_option[option - 1]->of[at], 2);
    return DONE;
}

/* W-201: "The length follows from the command, for 0x10 from its PL byte (9+PL, at most 264), and is 4 for an unknown
   command."
   W-202: "W-201 learns the new frame lengths from those sections": 7, and 5+PL. */
size_t length_of_request(const uint8_t *first, size_t bytes)
{
    if (bytes < 2)
        return 4;
    switch (first[1]) {
    case 0x02: return 5;
    case 0x03: return 8;
    case 0x07: return 7;
    case 0x09:
    case 0x0B:
    case 0x0D: return bytes < 3 ? 5 : 5 + (size_t)first[2];
    case 0x10: return bytes < 7 ? 9 : 9 + (size_t)first[6];
    case 0x1D: return 7;
    default: return 4;
    }
}

/* A reply has its PL, but: "NACK: AA 00 CMD ERROR", "ACK: AA 01 CMD", 0x10's address and RL, and 0x14 to 0x19, which
   have none and send two registers or one. */
size_t length_of_reply(const uint8_t *reply)
{
    switch (reply[1]) {
    case 0x01:
        return 5;
    case 0x00: case 0x16: case 0x17: case 0x18:
        return 6;
    case 0x10: case 0x14: case 0x15: case 0x19:
        return 8;
    default:
        return 5 + (size_t)reply[2];
    }
}

/* "The command byte decides the length and the meaning": "0x10, 9+2*RL bytes", whatever its PL; the others as on the line. */
static bool has_its_length(const uint8_t *frame, size_t length)
{
    if (frame[1] == 0x10)
        return length >= 9 && length == 9 + 2 * (size_t)frame[5];
    return length == length_of_request(frame, length);
}

static enum number obey(struct board *board, const uint8_t *frame, struct reply *reply)
{
    switch (frame[1]) {
    case 0x02: return clear(board, frame[2], reply);
    case 0x03: return read_block_high_first(board, frame, reply);
    case 0x07: return read_block(board, frame, reply);
    case 0x09: return read_list(board, frame, reply);
    case 0x0B: return write_block(board, frame, reply);
    case 0x0D: return write_list(board, frame, reply);
    case 0x10: return write_block_high_first(board, frame, reply);
    case 0x11:
    case 0x12: return send_events(board, frame[1], reply);
    case 0x14: return send_data(0x14, pair(board, 36), 4, reply);
    case 0x15: return send_data(0x15, pair(board, 38), 4, reply);
    case 0x16: return send_data(0x16, board_register(board, 41), 2, reply);
    case 0x17: return send_data(0x17, board_register(board, 40), 2, reply);
    case 0x18: return send_data(0x18, board_register(board, 50), 2, reply);
    case 0x19: return send_data(0x19, pair(board, 32), 4, reply);
    case 0x1B: return send_temperatures(board, reply);
    case 0x1C: return send_cells(board, reply);
    default: return send_settings(board, frame, reply);
    }
}

static bool is_known(uint8_t command)
{
    static const uint8_t known[] = {0x02, 0x03, 0x07, 0x09, 0x0B, 0x0D, 0x10, 0x11, 0x12,
                                    0x14, 0x15, 0x16, 0x17, 0x18, 0x19, 0x1B, 0x1C, 0x1D};
    return memchr(known, command, sizeof known) != NULL;
}

/* W-208: "41 unknown command, 42 wrong length", then what its fields and settings are */
static enum number answer(struct board *board, const uint8_t *frame, size_t length, struct reply *reply)
{
    if (!is_known(frame[1]))
        return UNKNOWN_COMMAND;
    if (!has_its_length(frame, length))
        return WRONG_LENGTH;
    return obey(board, frame, reply);
}

/* ---- A frame: "The lowest number that applies is given", number 21 before all others ---- */

enum number board_frame(struct board *board, const uint8_t *frame, size_t length, uint8_t *reply, size_t room, uint16_t *which)
{
    memset(reply, 0, room);
    *which = 0;
    if (board->cells == 0)
        return NO_BOARD;
    if (room < LEAST_ROOM)
        return ROOM_TOO_SMALL;
    if (length < 4 || frame[0] != 0xAA)
        return NOT_A_FRAME;
    const uint16_t crc = crc_of(frame, length - 2);
    if (frame[length - 2] != (crc & 0xFF) || frame[length - 1] != crc >> 8) {
        put_nack(reply, frame[1], 0x01);
        return WRONG_CRC;
    }
    struct reply said = {reply, 0, 0};
    const enum number number = answer(board, frame, length, &said);
    *which = said.which;
    if (number != DONE)
        put_nack(reply, frame[1], 0x00);
    else
        put_crc(&said);
    return number;
}
