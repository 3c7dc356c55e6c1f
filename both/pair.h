/* Two boards side by side: the proved one of the archive and the second program's. A call is made on both, and everything
   that either shows is compared: what the call gives back, every byte that was lent, the switches, the bits, every register. */
#ifndef PAIR_H
#define PAIR_H

#include "../second/trials/console.h"
#include "slatecauseway.h"

struct pair {
    struct board *board;            /* the second program's, and its store: whoever draws calls may look at them */
    struct store *store;
    struct sc_board proved;
    struct store proved_store;
    enum number number;             /* what the latest call gave, on both */
};

/* What the two show otherwise after a call, and the answers of both as the console's lines. */
struct difference {
    const char *what;
    bool in_register;               /* then the answers are those to `register NUMBER` */
    uint16_t number;
    char proved[ANSWER_ROOM], second[ANSWER_ROOM];
};

/* Both boards and both stores as they are before the first start. */
void set_up_pair(struct pair *pair, struct board *board, struct store *store);

/* Makes a call on both; false where they then show a difference, which is told. */
bool is_made_alike(struct pair *pair, const struct call *call, struct difference *difference);

#endif
