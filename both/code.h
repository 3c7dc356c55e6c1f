/* Calls as bytes: what a fuzzer makes up, and how a list of calls is stored. Any bytes are calls, and each call of a board or
   of its store is some bytes.

   A call begins with one byte. Its low half says which call it is, its high half has four flags, 1, 2, 4 and 8. Behind it come
   numbers, low byte first, of as many bytes as stand here in brackets. A byte past the end reads as 0; a number past the most
   that the call takes is taken modulo that and one more.

       0  start      cells [1], pulses per km [2]
       1  tick       1: charger; 2: ignition; 4: as many cells as the latest start had, else their count [1]; 8: all cells alike
                     current [4], internal, external 1, external 2, pulses [2 each], the count, the cells [2 each] or the one [2]
       2  frame      1: a room of 259, else room [2]; then its bytes
       3  offer      its bytes
                     bytes of a frame or an offer: 2: 0xAA before them; 4: their CRC behind them; 8: as many as the length of
                     their command takes, else their count [2]; the bytes
       4  fetch      1: a room of 259, else room [2]
       5  handover   1: a record of 32 bytes, else length [2]; pack [4]
       6  save       1: an area of 248 bytes, else length [2]
       7  load       count [2], the bytes; 1: then 0xFF up to 248; 2: then 0xFF up to 192
       8  cabinet    1: twenty registers, else count [1]
       9  store      1: 512 bytes, else length [2]; count [2], the bytes; zeros up to the length
      10  keep
      11  recall     1: edition [1], else edition [4]
      12  tidy
      13  register   number [2]
      14  the latest tick with one reading changed, which the flags name as a number: 0 current [4], 1 internal, 2 and 3 the
                     externals, 4 pulses [2 each], 5 charger and 6 ignition, there or not as they were not, 7 all cells [2],
                     8 the count of cells [1], 9 one cell, its place [1] and value [2]; any other number: nothing
      15  the call before once more, and again as often as the next byte says [1] */
#ifndef CODE_H
#define CODE_H

#include "../second/trials/call.h"

enum { CODE_ROOM = MOST_ROOM + 16 };    /* for a call at its longest, a store of 600 bytes */

/* Bytes that are read as calls. */
struct reader {
    const uint8_t *at, *end;
    size_t cells;                       /* of the latest start, as far as a tick may have them */
    struct call call;                   /* the latest; its bytes lie below */
    unsigned again;                     /* times that it still comes */
    struct readings readings;           /* of the latest tick, as its cells */
    uint16_t cell[MOST_CELLS_LENT];
    size_t count;
    uint8_t bytes[MOST_ROOM];
};

void begin_reading(struct reader *reader, const uint8_t *bytes, size_t length);

/* NULL where no byte is left; the next call takes its place. */
const struct call *next_call(struct reader *reader);

/* Writes a call, neither a `crc` nor none, and gives back how many bytes it takes. */
size_t write_call(const struct call *call, uint8_t code[CODE_ROOM]);

#endif
