/* second                          answers calls from standard input on standard output
   second --fault N                the same with one slip of the old board, N 1 to 6
   second --events                 prints, for each call from standard input, what the switch fact of W-212 speaks of
   second --script SEED CALLS      prints a script of calls that press the limits
   second --script SEED CALLS K    the same of one kind, K ticks or frames; or of all kinds, K quick with a quarter of
                                   the frames of W-202, K memory with a twentieth of the calls of W-205, K cabinet with
                                   a twentieth of W-213, K desk with a twentieth of W-214, K classes with a tenth of W-210,
                                   K life with two thirds of ticks, for W-212
   second --limits NAME            prints a script that drives a count to its end; limits.c has the names
   second --compare NAME SCRIPT    holds the board's answers, on standard input, to its own answers to the file SCRIPT
   second --replay                 plays a recording from standard input, and prints its events
   second --calls                  prints a recording from standard input as calls
   second --line [RECORDING]       answers a raw line from standard input on standard output, after that recording
   second --engine                 holds the board to the plain engine, on a recording of up to 600 ticks
   second --page-tables            prints a recording's tables of the page in plain lines; tables.c says which
   second --record SEED TICKS      writes a recording to standard output
   second --record SEED TICKS D    the same with one damage; record.c has the names
   second --courier SEED DAYS      writes the recording of a courier's days to standard output
   second --bill                   prints the totals of the records of hires on standard input
   second --bills SEED N           writes N records of hires to standard output
   second --bills SEED N D         the same with one damage, D cut or past
   README.md of the folder above says how it is built. */
#include "../board/hire.h"
#include "../board/replay.h"
#include "bills.h"
#include "console.h"
#include "recording.h"
#include "word.h"

#include <inttypes.h>
#include <stdio.h>
#include <stdlib.h>
#include <string.h>

/* ---- Lines, read in big blocks ---- */

struct input {
    FILE *file;
    char *bytes;
    size_t room, start, end;
    bool over;
};

static void give_room(struct input *input, size_t room)
{
    input->room = room;
    input->bytes = realloc(input->bytes, room);
    if (input->bytes == NULL) {
        fputs("second: no memory for a line\n", stderr);
        exit(1);
    }
}

static struct input read_from(FILE *file)
{
    struct input input = {.file = file};
    give_room(&input, 1 << 20);
    return input;
}

/* Moves what is left to the front and reads on. "A line over 4,000 bytes" is a limit of calls: a comment or a line of
   spaces may be longer, so a line that fills all the room gets twice the room. */
static void read_block(struct input *input)
{
    memmove(input->bytes, input->bytes + input->start, input->end - input->start);
    input->end -= input->start;
    input->start = 0;
    if (input->end == input->room)
        give_room(input, 2 * input->room);
    const size_t read = fread(input->bytes + input->end, 1, input->room - input->end, input->file);
    input->over = read == 0;
    input->end += read;
}

/* A line with its LF; "the last line may lack its end". */
static bool next_line(struct input *input, const char **line, size_t *length)
{
    for (;;) {
        *line = input->bytes + input->start;
        const char *end = memchr(*line, '\n', input->end - input->start);
        if (end == NULL && !input->over) {
            read_block(input);
            continue;
        }
        *length = end != NULL ? (size_t)(end - *line) + 1 : input->end - input->start;
        input->start += *length;
        return *length > 0;
    }
}

/* "a line ends with LF or CR LF". Reading: one CR is taken off before an LF only; the last line, where it lacks its LF,
   keeps a CR as a byte of it. */
static size_t without_end(const char *line, size_t length)
{
    if (line[length - 1] != '\n')
        return length;
    return length > 1 && line[length - 2] == '\r' ? length - 2 : length - 1;
}

/* ---- Answers, written in big blocks ---- */

static void answer_all(void)
{
    static char answers[1 << 20];
    size_t length = 0, line_length;
    const char *line;
    struct input input = read_from(stdin);
    struct board board;
    struct store store;
    set_up(&board, &store);
    while (next_line(&input, &line, &line_length)) {
        length += answer_line(&board, &store, line, without_end(line, line_length), answers + length);
        if (length > sizeof answers - ANSWER_ROOM) {
            fwrite(answers, 1, length, stdout);
            length = 0;
        }
    }
    fwrite(answers, 1, length, stdout);
    free(input.bytes);
}

/* ---- What the switch fact of W-212 speaks of ---- */

/* "tick CHARGER IGNITION R334 EVENT..", of a tick that was accepted. It notes 8 events at most, one of the charger and one
   of each condition, so they are all there, whatever is kept of those before them. */
static void print_tick(const struct board *board, uint64_t noted_before)
{
    printf("tick %d %d %d", board->readings.charger, board->readings.ignition, board_register(board, 334));
    for (uint64_t at = noted_before; at < board->events_noted; at++)
        printf(" %02X", board->event[at % EVENTS_KEPT].number);
    printf("\n");
}

/* A line for each call that gives an answer: an accepted tick, start or handover by its name, any other as "-". */
static void print_events(void)
{
    const char *line;
    char answer[ANSWER_ROOM];
    size_t length;
    struct input input = read_from(stdin);
    struct board board;
    struct store store;
    set_up(&board, &store);
    while (next_line(&input, &line, &length)) {
        const uint64_t noted_before = board.events_noted;
        length = without_end(line, length);
        if (answer_line(&board, &store, line, length, answer) == 0)
            continue;
        const bool accepted = answer[0] == '0' && answer[1] == ' ';
        if (accepted && begins_with(line, length, "tick"))
            print_tick(&board, noted_before);
        else if (accepted && begins_with(line, length, "start"))
            puts("start");
        else if (accepted && begins_with(line, length, "handover"))
            puts("handover");
        else
            puts("-");
    }
    free(input.bytes);
}

/* ---- Answers held to those of another program ---- */

static void show(const char *who, const char *line, size_t length)
{
    printf("second: %s %.*s\n", who, (int)without_end(line, length), line);
}

/* Names the first call that is answered otherwise, with both answers, and gives back whether there is none. */
static bool compare(const char *name, struct input *script, struct input *answers)
{
    struct board board;
    struct store store;
    uint64_t calls = 0;
    const char *line, *answer;
    char own[ANSWER_ROOM];
    size_t line_length, answer_length, own_length;
    set_up(&board, &store);
    while (next_line(script, &line, &line_length)) {
        own_length = answer_line(&board, &store, line, without_end(line, line_length), own);
        if (own_length == 0)
            continue;
        calls++;
        if (!next_line(answers, &answer, &answer_length)) {
            answer = "nothing";
            answer_length = strlen(answer);
        }
        if (answer_length == own_length && memcmp(answer, own, own_length) == 0)
            continue;
        printf("second: script %s, call %" PRIu64 "\n", name, calls);
        show("the call           ", line, line_length);
        show("the board answers  ", answer, answer_length);
        show("the second program ", own, own_length);
        return false;
    }
    if (calls == 0 || next_line(answers, &answer, &answer_length)) {
        printf("second: script %s has %s\n", name, calls == 0 ? "no calls" : "fewer calls than answers");
        return false;
    }
    printf("second: script %s, %" PRIu64 " calls, each answered alike\n", name, calls);
    return true;
}

static bool compare_with(const char *name, const char *path)
{
    FILE *file = fopen(path, "rb");
    if (file == NULL) {
        perror(path);
        return false;
    }
    struct input script = read_from(file), answers = read_from(stdin);
    const bool alike = compare(name, &script, &answers);
    free(script.bytes);
    free(answers.bytes);
    fclose(file);
    return alike;
}

/* ---- The words after the program's name ---- */

/* What the program ends with. */
enum { ALL_WELL = 0, FAILED = 1, WRONG_WORDS = 2 };

static int print_script_of(int words, char **word)
{
    static const struct {
        const char *name;
        enum script_kind kind;
    } kinds[] = {{"ticks", TICKS}, {"frames", FRAMES}, {"quick", QUICK}, {"memory", MEMORY}, {"cabinet", CABINET},
                 {"desk", DESK}, {"classes", CLASSES}, {"life", LIFE}};
    const uint64_t seed = number_of("second", "SEED", word[2], 0, UINT64_MAX), calls = number_of("second", "CALLS", word[3], 1, UINT64_MAX);
    if (words == 4) {
        print_script(seed, calls, MIXED);
        return ALL_WELL;
    }
    for (size_t at = 0; words == 5 && at < sizeof kinds / sizeof kinds[0]; at++) {
        if (strcmp(word[4], kinds[at].name) == 0) {
            print_script(seed, calls, kinds[at].kind);
            return ALL_WELL;
        }
    }
    return WRONG_WORDS;
}

static int write_recording_of(int words, char **word)
{
    const char *damage = words == 5 ? word[4] : NULL;
    const uint64_t seed = number_of("second", "SEED", word[2], 0, UINT64_MAX);
    const uint64_t ticks = number_of("second", "TICKS", word[3], damage != NULL, UINT64_MAX);
    return write_recording(seed, ticks, damage) ? ALL_WELL : WRONG_WORDS;
}

static int write_courier_of(char **word)
{
    const uint64_t seed = number_of("second", "SEED", word[2], 0, UINT64_MAX);
    return write_courier(seed, number_of("second", "DAYS", word[3], 0, UINT64_MAX / TICKS_OF_DAY)) ? ALL_WELL : FAILED;
}

/* A total goes past at the second record at the earliest. */
static int write_hires_of(int words, char **word)
{
    const char *damage = words == 5 ? word[4] : NULL;
    const uint64_t seed = number_of("second", "SEED", word[2], 0, UINT64_MAX);
    const uint64_t least = damage == NULL ? 0 : strcmp(damage, "past") == 0 ? 2 : 1;
    const uint64_t hires = number_of("second", "N", word[3], least, UINT64_MAX);
    return write_hires(seed, hires, damage) ? ALL_WELL : WRONG_WORDS;
}

/* Orders of one word, which read standard input and give back whether nothing is refused. */
static const struct {
    const char *order;
    bool (*obey)(void);
} alone[] = {{"--replay", replay_recording}, {"--calls", print_calls}, {"--engine", engine_agrees},
             {"--page-tables", print_page_tables}, {"--bill", bill_hires}};

static int obey_alone(const char *order)
{
    for (size_t at = 0; at < sizeof alone / sizeof alone[0]; at++)
        if (strcmp(order, alone[at].order) == 0)
            return alone[at].obey() ? ALL_WELL : FAILED;
    return WRONG_WORDS;
}

static int obey_words(int words, char **word)
{
    const char *order = words > 1 ? word[1] : "";
    if ((words == 2 || words == 3) && strcmp(order, "--line") == 0)
        return serve_line(words == 3 ? word[2] : NULL) ? ALL_WELL : FAILED;
    if ((words == 4 || words == 5) && strcmp(order, "--record") == 0)
        return write_recording_of(words, word);
    if (words == 4 && strcmp(order, "--courier") == 0)
        return write_courier_of(word);
    if ((words == 4 || words == 5) && strcmp(order, "--bills") == 0)
        return write_hires_of(words, word);
    if (words >= 4 && strcmp(order, "--script") == 0)
        return print_script_of(words, word);
    if (words == 3 && strcmp(order, "--limits") == 0)
        return print_limits(word[2]) ? ALL_WELL : WRONG_WORDS;
    if (words == 4 && strcmp(order, "--compare") == 0)
        return compare_with(word[2], word[3]) ? ALL_WELL : FAILED;
    if (words == 2 && strcmp(order, "--events") == 0) {
        print_events();
        return ALL_WELL;
    }
    if (words == 2)
        return obey_alone(order);
    if (words == 3 && strcmp(order, "--fault") == 0)
        board_fault = (int)number_of("second", "N", word[2], 1, 6);
    else if (words != 1)
        return WRONG_WORDS;
    answer_all();
    return ALL_WELL;
}

int main(int words, char **word)
{
    const int status = obey_words(words, word);
    if (status == WRONG_WORDS)
        fputs("usage: second | second --fault 1..6 | second --events\n"
              "       second --script SEED CALLS [ticks|frames|quick|memory|cabinet|desk|classes|life]\n"
              "       second --limits latchings|currents|distance|charge|event-time|event-numbers\n"
              "       second --compare NAME SCRIPT | second --replay | second --calls | second --engine\n"
              "       second --page-tables | second --courier SEED DAYS\n"
              "       second --line [RECORDING] | second --bill | second --bills SEED N [cut|past]\n"
              "       second --record SEED TICKS [DAMAGE], DAMAGE one of\n"
              "       cell flag padding current internal pulses cut opening-cut opening-padding opening-count\n", stderr);
    return status == ALL_WELL && (fflush(stdout) != 0 || ferror(stdout)) ? FAILED : status;
}
