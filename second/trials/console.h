/* The text of the calls and of their answers, as the paper on the bench console has it. */
#ifndef CONSOLE_H
#define CONSOLE_H

#include "call.h"

/* The limits of its text. */
enum {
    LONGEST_LINE = 4000,                /* "a line over 4,000 bytes" is answered "?" */
    CALL_ROOM = 3 * MOST_ROOM + 48,     /* for a call's line at its longest, "store LENGTH BYTE.." */
    ANSWER_ROOM = 3 * MOST_ROOM + 48    /* for "NUMBER SWITCHES NEED REAL EDITION BYTE.. +Z" at its longest, and its LF */
};

/* A line that gives no answer, one that is a call, and one that is answered "?". */
enum line_kind { NO_ANSWER, A_CALL, NOT_A_CALL };

/* Reads one line (without its end); where it is a call, into room that the call points to. */
enum line_kind read_line(const char *line, size_t length, struct call *call);

/* Both write a line without its end, and give back where it ends. */
char *say_call(char *at, const struct call *call, bool in_lower_case);
char *say_answer(char *at, const struct call *call, const struct answer *answer, const struct store *store);

/* Its line, on standard output. */
void print_call(const struct call *call);

/* Makes the call of one line (without its end) and writes the answer with its LF; gives back the answer's length,
   0 for a line that gives none. */
size_t answer_line(struct board *board, struct store *store, const char *line, size_t length, char answer[ANSWER_ROOM]);

/* Whether this is the line's first word. */
bool begins_with(const char *line, size_t length, const char *word);

/* What a script is made of: calls of every kind, ticks alone, what an app sends with some ticks between; or calls of
   every kind with a quarter of the frames of W-202, or with a twentieth of the calls saves and loads, or with a twentieth
   of what a cabinet reads, or of handovers, or with a tenth of stores, keeps, recalls and scans, or with two thirds of
   ticks, which turn the switches on and off. */
enum script_kind { MIXED, TICKS, FRAMES, QUICK, MEMORY, CABINET, DESK, CLASSES, LIFE };

/* Prints a script of calls, the first of them a start where they are ticks or frames; always the same for one seed. */
void print_script(uint64_t seed, uint64_t calls, enum script_kind kind);

/* Prints the named script that drives a count to its end; false where there is none of that name. */
bool print_limits(const char *name);

/* Answers a raw line from standard input on standard output, until it ends: a board that the recording of that name was played into,
   or one with no tick yet where it is NULL. False where that gives no board, and nothing is answered. */
bool serve_line(const char *recording);

#endif
