/* Calls by chance: the script so far, with its own board beside it, and what its calls are made with. */
#ifndef SCRIPT_H
#define SCRIPT_H

#include "chance.h"
#include "console.h"

/* What a sensor is for some ticks of a run around OT. */
enum heat { COOL, WARM, HOT, UNPLUGGED };

/* How often some calls come, and some ticks. */
struct mix {
    int ticks;                  /* so many calls of 100, and some of the others */
    int quick_commands;         /* so many requests of 100 are of W-202 */
    int saves_and_loads;        /* so many calls of 1,000 */
    int cabinets;               /* so many calls of 1,000 */
    int cabinet_ticks;          /* so many ticks of 100 press what a cabinet reads */
    int handovers;              /* so many calls of 10,000 */
    int charge_ticks;           /* so many ticks of 100 have a large current */
    int classes;                /* so many calls of 1,000 are of W-210 */
    int writes_of_334;          /* so many writes of 100 are also one of 334 */
};

struct script {
    uint64_t chance;
    enum script_kind kind;
    struct mix mix;
    struct board board;
    struct store store;
    bool charger, ignition;
    int unstarted;              /* calls left before the first start may come */
    int quiet;                  /* ticks left of a quiet run */
    int around_OT;              /* ticks left of a run around OT */
    enum heat internal, external[2];    /* in that run */
    int reads_of_events;        /* one other request in so many is 0x11 */
    uint8_t waiting[3 * MOST_BYTES];    /* bytes on the raw line that are still to be offered */
    size_t waiting_length;
    uint8_t saved[AREA_BYTES];  /* the area of the latest save */
    uint16_t cell[MOST_CELLS_LENT];     /* room for those of a call */
    uint8_t bytes[MOST_ROOM];
    bool lower_case;            /* its line has its bytes so */
    uint64_t calls;             /* drawn so far */
    char line[LONGEST_LINE + 100];      /* the latest line that is no call, or only just is one */
    size_t length;
};

struct request {
    uint8_t bytes[MOST_BYTES + 4];
    size_t length;
};

static inline int r(const struct script *script, unsigned number)
{
    return read_setting(&script->board.settings, number);
}

static inline bool so_many_of(struct script *script, int times, int all)
{
    return times > 0 && between(script, 1, all) <= times;
}

struct mix mix_of(enum script_kind kind);

void begin_script(struct script *script, uint64_t seed, enum script_kind kind);

/* The next call, into room of the script: whoever draws it makes it on the script's board and store before the next one.
   NO_CALL: the script's line is no call, or only just is one. */
struct call draw_call(struct script *script);

/* The end of a range of registers, a number next to one, or one between. */
int pick_end(struct script *script);

void add(struct request *request, int byte);

/* Requests with their CRC: of any kind, right or against a rule; as long as a PL says; as an app sends them. */
void ask(struct script *script, struct request *request);
void ask_by_PL(struct script *script, struct request *request);
void ask_as_app(struct script *script, struct request *request);

/* An area as a save may have given it, or damaged; gives back its length. */
size_t make_area(struct script *script, uint8_t area[MOST_BYTES]);

/* A store of classes, whole or damaged; and an edition that it may have. */
struct store make_store(struct script *script);
uint32_t pick_edition(struct script *script);

/* Faults of the frame itself: CRC, first byte, length. */
void spoil(struct script *script, struct request *request);

#endif
