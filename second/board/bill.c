/* W-214: "A program reads such records from standard input and prints, a line each, the count and the exact totals of
   seconds, positive sum, negative sum and distance." */
#include "hire.h"

#include <inttypes.h>
#include <stdio.h>

struct bill {
    uint64_t records;
    uint64_t seconds, positive_sum, negative_sum, distance;     /* totals */
    enum number number;         /* other than DONE: it is over */
    const char *meaning;        /* of that number */
    bool unread;                /* a read failed: it is over too */
};

/* Whether the total stays within 64 bits. */
static bool add_up(uint64_t *total, uint64_t field)
{
    *total += field;
    return *total >= field;
}

/* "82, a total past 64 bits; after either, the totals before it are printed": of that record nothing is added. */
static bool add_hire(struct bill *bill, const struct hire *hire)
{
    struct bill after = *bill;
    after.records++;
    if (!add_up(&after.seconds, hire->seconds) || !add_up(&after.positive_sum, hire->positive_sum)
        || !add_up(&after.negative_sum, hire->negative_sum) || !add_up(&after.distance, hire->distance))
        return false;
    *bill = after;
    return true;
}

static void refuse(struct bill *bill, enum number number, const char *meaning)
{
    bill->number = number;
    bill->meaning = meaning;
}

/* "81, a cut last record". What cannot be read is no cut record.
   Reading: the records come one after the other, so an 82 is met before the 81 of a later one. */
static bool add_record(struct bill *bill)
{
    uint8_t record[HIRE_BYTES];
    const size_t length = fread(record, 1, HIRE_BYTES, stdin);
    if (length < HIRE_BYTES) {
        bill->unread = ferror(stdin) != 0;
        if (length > 0 && !bill->unread)
            refuse(bill, CUT_HIRE, "the last record is cut");
        return false;
    }
    const struct hire hire = take_hire(record);
    if (!add_hire(bill, &hire))
        refuse(bill, PAST_64_BITS, "a total is past 64 bits");
    return bill->number == DONE;
}

/* "five lines ... each a decimal number and nothing else; after a refusal a sixth line with its number" */
static void print_totals(const struct bill *bill)
{
    printf("%" PRIu64 "\n%" PRIu64 "\n%" PRIu64 "\n%" PRIu64 "\n%" PRIu64 "\n",
           bill->records, bill->seconds, bill->positive_sum, bill->negative_sum, bill->distance);
    if (bill->number != DONE)
        printf("%d\n", bill->number);
}

/* "On standard error one line". Reading: where a read fails it says so, and has no number. */
static void tell(const struct bill *bill)
{
    fprintf(stderr, "bill: %" PRIu64 " records", bill->records);
    if (bill->unread)
        fputs(", the records cannot be read", stderr);
    else if (bill->number != DONE)
        fprintf(stderr, ", %d: %s", bill->number, bill->meaning);
    fputs("\n", stderr);
}

bool bill_hires(void)
{
    struct bill bill = {.number = DONE};
    while (add_record(&bill))
        ;
    print_totals(&bill);
    fflush(stdout);
    tell(&bill);
    return bill.number == DONE && !bill.unread;
}
