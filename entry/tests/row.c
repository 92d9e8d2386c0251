/*
 * The row of a spent nullifier. Prints the answers of a bag's cases as the report has them, each 8 with its
 * row in a line of its own. Judged one by one, the cases get the same answers; the row of each 8 is that of
 * the very nullifier, every other row is 0, and the day list takes each answer and keeps number and place.
 *
 *     row BAG                 a bag whose seal passes
 */
#include <inttypes.h>
#include <stdio.h>
#include <string.h>

#include "snaldrek.h"

/* Where a case has its two nullifiers, one behind the other. */
#define NULLIFIERS 48

static uint8_t bag[SNALDREK_BAG_MAX_BYTES], ledger[SNALDREK_LEDGER_BYTES], table[SNALDREK_TABLE_MAX_BYTES];
static uint8_t roll[SNALDREK_ROLL_MAX_BYTES], report[SNALDREK_REPORT_BYTES];

static uint32_t open_ledger(void) { return snaldrek_open(ledger, sizeof ledger, roll, sizeof roll); }

static void print_answers(uint32_t of_bag)
{
    uint32_t i;
    printf("seal %u %u\n", SNALDREK_NUMBER(of_bag), SNALDREK_PLACE(of_bag));
    for (i = 0; i < snaldrek_report_cases(report); i++) {
        uint32_t answer = snaldrek_report_answer(report, i);
        printf("case %u %u\n", SNALDREK_NUMBER(answer), SNALDREK_PLACE(answer));
        if (SNALDREK_NUMBER(answer) == SNALDREK_ALREADY_SPENT)
            printf("row %u\n", SNALDREK_ROW(answer));
    }
    printf("ledger spent %" PRIu64 " leaves %" PRIu32 " pool %" PRIu64 "\n", snaldrek_ledger_spent(ledger),
           snaldrek_ledger_leaves(ledger), snaldrek_ledger_pool(ledger));
}

/* Whether the table has the nullifier of the answer's place in the answer's row. */
static int row_is_right(uint32_t answer, const uint8_t *file)
{
    if (SNALDREK_NUMBER(answer) != SNALDREK_ALREADY_SPENT)
        return SNALDREK_ROW(answer) == 0;
    return memcmp(table + SNALDREK_ROW_BYTES * SNALDREK_ROW(answer),
                  file + NULLIFIERS + SNALDREK_ROW_BYTES * (SNALDREK_PLACE(answer) - 1), SNALDREK_ROW_BYTES) == 0;
}

static int is_entered(uint32_t answer)
{
    uint8_t list[SNALDREK_DAY_ROW_BYTES];
    memset(list, 255, sizeof list);
    return snaldrek_day(list, sizeof list, 0, 1, answer) == SNALDREK_ACCEPTED &&
           SNALDREK_NUMBER(snaldrek_day_answer(list)) == SNALDREK_NUMBER(answer) &&
           SNALDREK_PLACE(snaldrek_day_answer(list)) == SNALDREK_PLACE(answer);
}

/* Judges the cases one by one, and counts what is not as it should be. */
static int failures_of_cases(void)
{
    uint32_t i;
    int failures = 0;
    for (i = 0; i < snaldrek_report_cases(report); i++) {
        const uint8_t *row = bag + 2 + 9 * (i + 1), *file = bag + snaldrek_read_32(row + 1);
        uint32_t answer = snaldrek_judge(file, snaldrek_read_32(row + 5), ledger, sizeof ledger, table, sizeof table,
                                         roll, sizeof roll);
        failures += answer != snaldrek_report_answer(report, i) || !row_is_right(answer, file) || !is_entered(answer);
    }
    return failures;
}

int main(int argc, char **argv)
{
    FILE *in = argc > 1 ? fopen(argv[1], "rb") : NULL;
    size_t length;
    int failures;
    if (!in)
        return 2;
    length = fread(bag, 1, sizeof bag, in);
    failures = open_ledger() != SNALDREK_ACCEPTED;
    print_answers(snaldrek_bag(bag, length, 1, 0, ledger, sizeof ledger, table, sizeof table, roll, sizeof roll,
                               report, sizeof report));
    failures += open_ledger() != SNALDREK_ACCEPTED;
    failures += failures_of_cases();
    return failures > 0;
}
