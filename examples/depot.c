/*
 * A host in C for a large depot: judges bags one after the other on one ledger with all the room that there can
 * be, and closes a block after each.
 *
 *     depot BAG..
 *
 * Of each bag it prints the lines that judge_bag prints, and at the end how many cases and blocks more there is
 * room for.
 */
#include <inttypes.h>
#include <stdio.h>

#include "snaldrek.h"

/* All memory is the host's. The table takes 2 MiB, too much for most stacks. It is static and not from malloc, so
   that whoever links the program sees what it needs, and nothing can be missing once it runs. */
static uint8_t bag[SNALDREK_BAG_MAX_BYTES + 1];
static uint8_t ledger[SNALDREK_LEDGER_BYTES];
static uint8_t table[SNALDREK_TABLE_MAX_BYTES];
static uint8_t roll[SNALDREK_ROLL_MAX_BYTES];
static uint8_t report[SNALDREK_REPORT_BYTES];

static void print_answer(const char *what, uint32_t answer)
{
    printf("%s %u %u\n", what, SNALDREK_NUMBER(answer), SNALDREK_PLACE(answer));
}

static void print_cases_and_ledger(void)
{
    uint32_t i;
    for (i = 0; i < snaldrek_report_cases(report); i++)
        print_answer("case", snaldrek_report_answer(report, i));
    printf("ledger spent %" PRIu64 " leaves %" PRIu32 " pool %" PRIu64 "\n", snaldrek_ledger_spent(ledger),
           snaldrek_ledger_leaves(ledger), snaldrek_ledger_pool(ledger));
}

/* A case takes two rows of the table, a block one of the roll. */
static void print_room(void)
{
    printf("room cases %" PRIu64 " blocks %" PRIu64 "\n",
           (SNALDREK_TABLE_MAX_ROWS - snaldrek_ledger_spent(ledger)) / 2,
           SNALDREK_ROLL_MAX_ROWS - snaldrek_ledger_anchors(ledger));
}

/* Reads a bag whole, and gives its length, or -1. */
static long read_bag(const char *name)
{
    long length;
    FILE *in = fopen(name, "rb");
    if (!in)
        return -1;
    length = (long)fread(bag, 1, sizeof bag, in);
    if (ferror(in))
        length = -1;
    fclose(in);
    return length;
}

static void judge(size_t length)
{
    uint32_t answer = snaldrek_bag(bag, length, 1.0, 0.0, ledger, sizeof ledger, table, sizeof table, roll,
                                   sizeof roll, report, sizeof report);
    print_answer(SNALDREK_NUMBER(answer) == SNALDREK_LAYOUT_BROKEN ? "bag" : "seal", answer);
    if (answer == SNALDREK_ACCEPTED)
        print_cases_and_ledger();
}

/* A block that is refused, as the roll is full, is told: no anchor is made of the bag then. */
static void close_block(void)
{
    uint32_t answer = snaldrek_close(ledger, sizeof ledger, table, sizeof table, roll, sizeof roll);
    if (answer != SNALDREK_ACCEPTED)
        print_answer("block", answer);
}

/* Says what could not be read, and gives the exit status for it. */
static int failed(const char *what)
{
    perror(what);
    return 2;
}

/* The exit status of lines that were printed, or could not be. */
static int printed(void)
{
    if (fflush(stdout) == 0 && !ferror(stdout))
        return 0;
    perror("standard output");
    return 1;
}

int main(int argc, char **argv)
{
    int i;
    uint32_t answer = snaldrek_open(ledger, sizeof ledger, roll, sizeof roll);
    if (answer != SNALDREK_ACCEPTED) {
        print_answer("open", answer);
        return 2;
    }
    if (argc < 2) {
        fprintf(stderr, "depot: depot BAG..\n");
        return 2;
    }
    for (i = 1; i < argc; i++) {
        long length = read_bag(argv[i]);
        if (length < 0)
            return failed(argv[i]);
        judge((size_t)length);
        close_block();
        if (printed() != 0)
            return 1;
    }
    print_room();
    return printed();
}
