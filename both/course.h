/* Calls by chance for both boards: those of the scripts of the second program, without text, and lent any length at times. */
#ifndef COURSE_H
#define COURSE_H

#include "../second/trials/script.h"

struct course {
    struct script script;       /* its board and store are the second program's */
    uint64_t chance;            /* for what the scripts do not vary */
    uint64_t calls;             /* drawn so far */
    uint64_t long_life;         /* the calls after which no start comes where there is a board */
};

void begin_course(struct course *course, uint64_t seed, uint64_t long_life);

/* The next call of a board or of its store, in room of the course. */
struct call draw_next(struct course *course);

#endif
