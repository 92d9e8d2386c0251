/*
 * How much stack the calls take, each on a stack of its own that was painted before: no more than
 * SNALDREK_STACK_BYTES, on a fresh ledger and on one that has room for one case more. And the library is of the
 * header's version.
 *
 *     stack BAG               a bag whose first case is accepted
 */
#include <stdio.h>
#include <string.h>
#include <ucontext.h>

#include "snaldrek.h"

#define PAINT 0xa5
#define ROOM (16 * SNALDREK_STACK_BYTES)

static uint8_t bag[SNALDREK_BAG_MAX_BYTES], ledger[SNALDREK_LEDGER_BYTES], table[SNALDREK_TABLE_MAX_BYTES];
static uint8_t roll[SNALDREK_ROLL_MAX_BYTES], report[SNALDREK_REPORT_BYTES], root[SNALDREK_ROOT_BYTES];
static uint8_t tally[SNALDREK_TALLY_BYTES], list[SNALDREK_DAY_ROW_BYTES], file[SNALDREK_CASE_MAX_BYTES];
static size_t length;
static double pull;
static uint32_t answer;

static uint8_t stack[ROOM] __attribute__((aligned(16)));
static uint8_t *top;
static ucontext_t here, there;

static const uint8_t *row(int number) { return bag + 2 + 9 * number; }
static const uint8_t *body(int number) { return bag + snaldrek_read_32(row(number) + 1); }

static void call_open(void) { answer = snaldrek_open(ledger, sizeof ledger, roll, sizeof roll); }
static void call_judge(void)
{
    answer = snaldrek_judge(body(1), snaldrek_read_32(row(1) + 5), ledger, sizeof ledger, table, sizeof table, roll,
                            sizeof roll);
}
static void call_close(void)
{
    answer = snaldrek_close(ledger, sizeof ledger, table, sizeof table, roll, sizeof roll);
}
static void call_root(void) { answer = snaldrek_root(ledger, sizeof ledger, root, sizeof root); }
static void call_write_case(void)
{
    uint32_t bytes = snaldrek_read_32(row(1) + 5);
    answer = snaldrek_write_case(body(1), bytes, file, bytes);
}
static void call_seal(void) { answer = snaldrek_seal(body(0), SNALDREK_SEAL_BYTES, 1, 0, &pull); }
static void call_bag(void)
{
    answer = snaldrek_bag(bag, length, 1, 0, ledger, sizeof ledger, table, sizeof table, roll, sizeof roll, report,
                          sizeof report);
}
static void call_tally(void) { answer = snaldrek_tally(tally, sizeof tally, 0); }
static void call_day(void) { answer = snaldrek_day(list, sizeof list, 0, 1, 0); }

/* A fresh ledger, and then rows that rise up to the last two; the leaves are as many. */
static void fill(void)
{
    const uint32_t rows = SNALDREK_TABLE_MAX_ROWS - 2;
    uint32_t k, byte;
    call_open();
    for (k = 0; k < rows; k++) {
        table[k * SNALDREK_ROW_BYTES] = (uint8_t)(k >> 8);
        table[k * SNALDREK_ROW_BYTES + 1] = (uint8_t)k;
    }
    for (byte = 0; byte < 4; byte++)
        ledger[byte] = ledger[24 + byte] = (uint8_t)(rows >> (8 * byte));
}

static const struct {
    const char *name;
    void (*call)(void);
    int is_filled; /* before the call */
} calls[] = {
    {"open", call_open, 0},     {"judge", call_judge, 0},    {"close", call_close, 0},  {"root", call_root, 0},
    {"open", call_open, 0},     {"bag", call_bag, 0},        {"seal", call_seal, 0},    {"tally", call_tally, 0},
    {"day", call_day, 0},       {"last judge", call_judge, 1}, {"last close", call_close, 0},
    {"last bag", call_bag, 1},  {"write case", call_write_case, 0},
};
static size_t next;

static void on_own_stack(void)
{
    top = (uint8_t *)__builtin_frame_address(0);
    calls[next].call();
}

/* The bytes between the caller's frame and the lowest one that lost its paint. */
static size_t taken(void)
{
    size_t lowest = 0;
    memset(stack, PAINT, sizeof stack);
    getcontext(&there);
    there.uc_stack.ss_sp = stack;
    there.uc_stack.ss_size = sizeof stack;
    there.uc_link = &here;
    makecontext(&there, on_own_stack, 0);
    swapcontext(&here, &there);
    while (stack[lowest] == PAINT)
        lowest++;
    return (size_t)(top - (stack + lowest));
}

int main(int argc, char **argv)
{
    FILE *in = argc > 1 ? fopen(argv[1], "rb") : NULL;
    int failures = snaldrek_version() != SNALDREK_VERSION;
    if (!in)
        return 2;
    length = fread(bag, 1, sizeof bag, in);
    for (next = 0; next < sizeof calls / sizeof *calls; next++) {
        size_t bytes;
        if (calls[next].is_filled)
            fill();
        bytes = taken();
        printf("%s %u %u stack %lu\n", calls[next].name, SNALDREK_NUMBER(answer), SNALDREK_PLACE(answer),
               (unsigned long)bytes);
        failures += answer != SNALDREK_ACCEPTED || bytes > SNALDREK_STACK_BYTES;
    }
    return failures > 0;
}
