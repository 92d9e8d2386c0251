/*
 * The smallest host in C: judges one bag on a fresh ledger, as the scanner program does, and prints
 * the same lines.
 *
 *     judge_bag [FILE]        standard input where no FILE is named
 */
#include <inttypes.h>
#include <stdio.h>

#include "snaldrek.h"

/* All memory is the host's. One byte more than the longest bag, so that a longer one is seen to be so. Table and
   roll are the scanner program's, far from all the room that there can be. */
static uint8_t bag[SNALDREK_BAG_MAX_BYTES + 1];
static uint8_t ledger[SNALDREK_LEDGER_BYTES];
static uint8_t table[2048 * SNALDREK_ROW_BYTES];
static uint8_t roll[1024 * SNALDREK_ROW_BYTES];
static uint8_t report[SNALDREK_REPORT_BYTES];

static void print_answer(const char *what, uint32_t answer)
{
    printf("%s %u %u\n", what, SNALDREK_NUMBER(answer), SNALDREK_PLACE(answer));
}

static void print_cases_and_ledger(void)
{
    uint32_t i;
    for (i = 0; i < snaldrek_report_cases(report); i++)
        print_answer("case", snaldrek_report_answer(report, i));
    printf("ledger spent %" PRIu64 " leaves %" PRIu32 " pool %" PRIu64 "\n", snaldrek_ledger_spent(ledger),
           snaldrek_ledger_leaves(ledger), snaldrek_ledger_pool(ledger));
}

/* Says what could not be read, and gives the exit status for it. */
static int failed(const char *what)
{
    perror(what);
    return 2;
}

int main(int argc, char **argv)
{
    const char *name = argc > 1 ? argv[1] : "standard input";
    FILE *in = argc > 1 ? fopen(name, "rb") : stdin;
    size_t length;
    uint32_t answer;
    if (!in)
        return failed(name);
    length = fread(bag, 1, sizeof bag, in);
    if (ferror(in))
        return failed(name);
    answer = snaldrek_open(ledger, sizeof ledger, roll, sizeof roll);
    if (answer != SNALDREK_ACCEPTED) {
        print_answer("open", answer);
        return 2;
    }
    answer = snaldrek_bag(bag, length, 1.0, 0.0, ledger, sizeof ledger, table, sizeof table, roll, sizeof roll,
                          report, sizeof report);
    print_answer(SNALDREK_NUMBER(answer) == SNALDREK_LAYOUT_BROKEN ? "bag" : "seal", answer);
    if (answer == SNALDREK_ACCEPTED)
        print_cases_and_ledger();
    if (fflush(stdout) != 0 || ferror(stdout)) {
        perror("standard output");
        return 1;
    }
    return 0;
}
