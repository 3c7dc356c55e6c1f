/* W-213: "Speak to the partner's cabinet." What it reads: the registers 0x1000 to 0x1013 of source document 001. */
#include "board.h"

#include <string.h>

#define AT(number) ((number) - 0x1000)

/* "Pack voltage in 10 mV, rounded down (at most 10,485)." */
static uint16_t pack_voltage(const struct board *board)
{
    uint32_t sum = 0;    /* 0.1 mV */
    for (size_t at = 0; at < board->cells; at++)
        sum += board->cell[at];
    return (uint16_t)(sum / 100);
}

/* "Current in 10 mA, rounded toward zero and held to -32768 to 32767." Reading: as two's complement, which is 001's int16. */
static uint16_t pack_current(int32_t current)
{
    const int32_t tens = current / 10;
    return (uint16_t)(tens < -32768 ? -32768 : tens > 32767 ? 32767 : tens);
}

/* "average rounded toward minus infinity": a division in C goes toward zero. */
static int average_of(int one, int other)
{
    const int sum = one + other;
    return sum < 0 ? (sum - 1) / 2 : sum / 2;
}

/* "0x1010 and 0x1011 the highest and lowest connected external temperature, 0x1003 their average ..., all three 0 when
   none is connected." An external that alone is connected is the highest, the lowest and the average. */
static void put_externals(uint16_t *registers, const int16_t external[2])
{
    const bool connected[2] = {external[0] != NOT_CONNECTED, external[1] != NOT_CONNECTED};
    if (!connected[0] && !connected[1])
        return;
    const int one = connected[0] ? external[0] : external[1];
    const int other = connected[1] ? external[1] : external[0];
    registers[AT(0x1003)] = (uint16_t)average_of(one, other);
    registers[AT(0x1010)] = (uint16_t)(one > other ? one : other);
    registers[AT(0x1011)] = (uint16_t)(one < other ? one : other);
}

/* "Fill a lent slice of twenty 16-bit registers for 0x1000 to 0x1013." "71, slice not exactly twenty, nothing written"
   "Equal readings must give equal slices, whatever the history": it looks at nothing else.
   Reading: before the first tick and after a handover all readings are 0, so both externals are connected, at 0. */
enum number board_cabinet(const struct board *board, uint16_t *registers, size_t count)
{
    if (board->cells == 0)
        return NO_BOARD;
    if (count != CABINET_REGISTERS)
        return WRONG_CABINET_SLICE;
    memset(registers, 0, CABINET_REGISTERS * sizeof registers[0]);    /* "All others 0." */
    registers[AT(0x1000)] = pack_voltage(board);
    registers[AT(0x1001)] = pack_current(board->readings.current);
    registers[AT(0x100D)] = board_register(board, 41);    /* "0x100D and 0x100E as our registers 41 and 40 after W-206" */
    registers[AT(0x100E)] = board_register(board, 40);
    registers[AT(0x1012)] = (uint16_t)board->readings.internal;
    put_externals(registers, board->readings.external);
    return DONE;
}
