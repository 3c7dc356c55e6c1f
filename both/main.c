/* both SEED CALLS             makes so many calls by chance on both boards, always the same for one seed, and compares all that they show
   both --slip N SEED CALLS    the same with one slip of the old board, N 1 to 6, put into the second program
   both --inputs FILE..        makes the calls of stored inputs
   both --lines FILE           prints an input as the console's lines
   both --code                 prints the console's lines from standard input as one input
   Where the boards differ, it prints a short script that leads there, as the console's lines, and ends with 1. */
#include "course.h"
#include "input.h"
#include "../second/trials/word.h"

#include <inttypes.h>
#include <stdio.h>
#include <stdlib.h>
#include <string.h>
#include <time.h>

/* What the program ends with. */
enum { ALIKE = 0, DIFFERENT = 1, FAILED = 2 };

/* ---- What was made ---- */

enum { NUMBERS = 100 };

struct tally {
    uint64_t calls, made[CALL_KINDS], given[NUMBERS];
    struct timespec begun;
    double seconds;             /* from there to the last call */
};

static void count_call(struct tally *tally, enum call_kind kind, enum number number)
{
    tally->calls++;
    tally->made[kind]++;
    tally->given[number]++;
}

static void stop_clock(struct tally *tally)
{
    struct timespec now;
    timespec_get(&now, TIME_UTC);
    tally->seconds = difftime(now.tv_sec, tally->begun.tv_sec) + (double)(now.tv_nsec - tally->begun.tv_nsec) / 1e9;
}

static void print_kinds(const struct tally *tally)
{
    for (size_t kind = 0; kind < CALL_KINDS; kind++)
        if (tally->made[kind] > 0)
            printf(" %s %" PRIu64, word_of_call[kind], tally->made[kind]);
}

static void print_refusals(const struct tally *tally)
{
    for (size_t number = 1; number < NUMBERS; number++)
        if (tally->given[number] > 0)
            printf(" %zu %" PRIu64, number, tally->given[number]);
}

/* The last line of a run. */
static void print_tally(const char *mark, uint64_t seed, const struct tally *tally, const char *end)
{
    printf("%sboth: seed %" PRIu64 ", %" PRIu64 " calls in %.1f s, %.0f a second:", mark, seed, tally->calls, tally->seconds,
           (double)tally->calls / tally->seconds);
    print_kinds(tally);
    printf("; refused by number:");
    print_refusals(tally);
    printf("; %s\n", end);
}

/* ---- Calls by chance ---- */

/* The course as it was after the latest start, and that start; NO_CALL before the first. */
struct since {
    struct course course;
    struct call start;
};

/* The calls since, drawn once more; a start leaves the store as it is, so what it then was comes first. */
static void draw_again(struct since *since, uint64_t calls, struct life *life)
{
    uint8_t lent[MOST_ROOM];
    uint16_t words[MOST_REGISTERS_LENT];
    struct course *course = &since->course;
    struct script *script = &course->script;
    struct answer ignored = {.bytes = lent, .words = words};
    add_call(life, &(struct call){.kind = CALL_STORE, .room = script->store.length, .length = script->store.length,
                                  .bytes = script->store.bytes});
    if (since->start.kind != NO_CALL)
        add_call(life, &since->start);
    while (course->calls < calls) {
        const struct call call = draw_next(course);
        add_call(life, &call);
        make_call(&script->board, &script->store, &call, &ignored);
    }
}

static void tell_since(struct since *since, uint64_t calls, const struct difference *difference)
{
    struct life life = {.calls = 0};
    draw_again(since, calls, &life);
    tell_difference(&life, difference);
    end_life(&life);
}

/* What is written of a call reads as that call, so that no call is beyond an input: tried at one call in so many. */
enum { CALLS_A_CODE = 50 };

static bool is_its_code(const struct call *call)
{
    static struct reader reader;
    char line[CALL_ROOM], same[CALL_ROOM];
    uint8_t code[CODE_ROOM];
    begin_reading(&reader, code, write_call(call, code));
    *say_call(line, call, false) = '\0';
    *say_call(same, next_call(&reader), false) = '\0';
    if (strcmp(line, same) != 0)
        fprintf(stderr, "both: the bytes of the call '%s' read as '%s'\n", line, same);
    return strcmp(line, same) == 0;
}

static int run(uint64_t seed, uint64_t calls)
{
    static struct course course;
    static struct since since;
    struct pair pair;
    struct difference difference;
    struct tally tally = {.calls = 0};
    timespec_get(&tally.begun, TIME_UTC);
    begin_course(&course, seed, calls - calls / 4);
    set_up_pair(&pair, &course.script.board, &course.script.store);
    since = (struct since){.course = course, .start = {.kind = NO_CALL}};
    while (tally.calls < calls) {
        const struct call call = draw_next(&course);
        if (tally.calls % CALLS_A_CODE == 0 && !is_its_code(&call))
            return FAILED;
        const bool alike = is_made_alike(&pair, &call, &difference);
        count_call(&tally, call.kind, pair.number);
        if (!alike) {
            stop_clock(&tally);
            tell_since(&since, course.calls, &difference);
            print_tally("# ", seed, &tally, "a difference");
            return DIFFERENT;
        }
        if (call.kind == CALL_START)
            since = (struct since){course, call};
    }
    stop_clock(&tally);
    print_tally("", seed, &tally, "no difference");
    return ALIKE;
}

/* ---- Stored inputs ---- */

struct bytes {
    uint8_t *of;
    size_t length;
};

/* All bytes of a file; none, with `of` NULL, where it cannot be read. */
static struct bytes read_file(const char *name)
{
    struct bytes bytes = {malloc(1 << 20), 0};
    FILE *file = fopen(name, "rb");
    if (file == NULL || bytes.of == NULL) {
        perror(name);
        free(bytes.of);
        return (struct bytes){NULL, 0};
    }
    bytes.length = fread(bytes.of, 1, 1 << 20, file);
    if (ferror(file) || !feof(file)) {
        fprintf(stderr, "both: %s cannot be read, or is longer than a megabyte\n", name);
        free(bytes.of);
        bytes = (struct bytes){NULL, 0};
    }
    fclose(file);
    return bytes;
}

static int play_inputs(int files, char **name)
{
    uint64_t calls = 0;
    for (int at = 0; at < files; at++) {
        const struct bytes bytes = read_file(name[at]);
        if (bytes.of == NULL)
            return FAILED;
        const bool alike = is_played_alike(bytes.of, bytes.length, &calls);
        free(bytes.of);
        if (!alike) {
            printf("# both: input %s, a difference\n", name[at]);
            return DIFFERENT;
        }
    }
    printf("both: %d inputs, %" PRIu64 " calls, no difference\n", files, calls);
    return ALIKE;
}

static int print_lines(const char *name)
{
    static struct reader reader;
    const struct call *call;
    const struct bytes bytes = read_file(name);
    if (bytes.of == NULL)
        return FAILED;
    begin_reading(&reader, bytes.of, bytes.length);
    for (size_t left = most_calls_of(bytes.length); left > 0 && (call = next_call(&reader)) != NULL; left--)
        print_call(call);
    free(bytes.of);
    return ALIKE;
}

/* Lines that are no call of a board or of a store are left out. */
static int print_code(void)
{
    static char line[LONGEST_LINE + 2];
    uint16_t cell[MOST_CELLS_LENT];
    uint8_t bytes[MOST_ROOM], code[CODE_ROOM];
    while (fgets(line, sizeof line, stdin) != NULL) {
        struct call call = {.cell = cell, .bytes = bytes};
        const size_t length = strcspn(line, "\r\n");
        if (read_line(line, length, &call) == A_CALL && call.kind != CALL_CRC)
            fwrite(code, 1, write_call(&call, code), stdout);
    }
    return ALIKE;
}

/* ---- The words after the program's name ---- */

static int run_words(char **word)
{
    const uint64_t seed = number_of("both", "SEED", word[0], 0, UINT64_MAX);
    return run(seed, number_of("both", "CALLS", word[1], 1, UINT64_MAX));
}

static int obey_words(int words, char **word)
{
    if (words == 5 && strcmp(word[1], "--slip") == 0) {
        board_fault = (int)number_of("both", "N", word[2], 1, 6);
        return run_words(word + 3);
    }
    if (words >= 3 && strcmp(word[1], "--inputs") == 0)
        return play_inputs(words - 2, word + 2);
    if (words == 3 && strcmp(word[1], "--lines") == 0)
        return print_lines(word[2]);
    if (words == 2 && strcmp(word[1], "--code") == 0)
        return print_code();
    if (words == 3 && word[1][0] != '-')
        return run_words(word + 1);
    fputs("usage: both SEED CALLS | both --slip 1..6 SEED CALLS | both --inputs FILE.. | both --lines FILE | both --code\n", stderr);
    return FAILED;
}

int main(int words, char **word)
{
    const int status = obey_words(words, word);
    return fflush(stdout) != 0 || ferror(stdout) ? FAILED : status;
}
