/*
 * The largest ledger. Tables and rolls made by rule, with as many rows as there can be, a few less and up to two
 * more: 3 where a case or a block finds no free row, 2 where more are used than there can be, and acceptance else.
 * Every byte of table and roll is then what it has to be, and a refusal changes no byte of the ledger either.
 *
 *     depot BAG               a bag whose first case passes on a fresh ledger, and is of the first edition
 */
#include <stdio.h>
#include <string.h>

#include "snaldrek.h"

#define ROW SNALDREK_ROW_BYTES
#define MOST SNALDREK_TABLE_MAX_ROWS
#define ANCHORS SNALDREK_ROLL_MAX_ROWS

/* Where a ledger has its counts, and a case its anchor and its nullifiers. */
#define SPENT 0
#define ON_ROLL 8
#define LEAVES 24
#define ANCHOR 16
#define NULLIFIER_1 48
#define NULLIFIER_2 80

/* The largest buffers that are lent here: two rows more than can be used. */
#define TABLE_ROWS (MOST + 2)
#define ROLL_ROWS (ANCHORS + 2)

/* So many rows of the table and of the roll, used and lent; and the answers to the case, to the case once more, and
   to a block that is closed after them. */
struct trial {
    const char *what;
    uint32_t used, lent, anchors, roll;
    uint32_t first, again, closed;
};

enum {
    YES = SNALDREK_ACCEPTED,
    DAMAGED = SNALDREK_LEDGER_DAMAGED,
    FULL = SNALDREK_NO_FREE_ROW,
    SPENT_NOW = SNALDREK_ALREADY_SPENT
};

static const struct trial trials[] = {
    {"the last case that there is room for", MOST - 2, MOST, 1, 2, YES, FULL, YES},
    {"the same, in longer buffers", MOST - 2, MOST + 2, 1, 2, YES, FULL, YES},
    {"two cases more", MOST - 4, MOST, 1, 2, YES, SPENT_NOW, YES},
    {"one row is lent less", MOST - 2, MOST - 1, 1, 2, FULL, FULL, YES},
    {"no free row", MOST, MOST, 1, 2, FULL, FULL, YES},
    {"no free row, and two that cannot be used", MOST, MOST + 2, 1, 2, FULL, FULL, YES},
    {"one row too many", MOST + 1, MOST + 2, 1, 2, DAMAGED, DAMAGED, DAMAGED},
    {"two rows too many", MOST + 2, MOST + 2, 1, 2, DAMAGED, DAMAGED, DAMAGED},
    {"two rows more than are lent", MOST, MOST - 2, 1, 2, DAMAGED, DAMAGED, DAMAGED},
    {"what was the most before", 2048, 2050, 1, 2, YES, FULL, YES},
    {"the same, and no row more lent", 2048, 2048, 1, 2, FULL, FULL, YES},
    {"the last block", 0, 2, ANCHORS - 1, ANCHORS, YES, FULL, YES},
    {"the last block, in a longer roll", 0, 4, ANCHORS - 1, ANCHORS + 2, YES, SPENT_NOW, YES},
    {"no block", 0, 4, ANCHORS, ANCHORS, YES, SPENT_NOW, FULL},
    {"no block, and two rows that cannot be used", 0, 4, ANCHORS, ANCHORS + 2, YES, SPENT_NOW, FULL},
    {"one anchor too many", 0, 4, ANCHORS + 1, ANCHORS + 2, DAMAGED, DAMAGED, DAMAGED},
    {"two anchors too many", 0, 4, ANCHORS + 2, ANCHORS + 2, DAMAGED, DAMAGED, DAMAGED},
    {"what were the most anchors before", 0, 4, 1024, 1026, YES, SPENT_NOW, YES},
    {"the same, and no row more lent", 0, 4, 1024, 1024, YES, SPENT_NOW, FULL},
    {"the last case and the last block", MOST - 2, MOST, ANCHORS - 1, ANCHORS, YES, FULL, YES},
    {"neither", MOST, MOST, ANCHORS, ANCHORS, FULL, FULL, FULL},
};

struct ledger {
    uint8_t bytes[SNALDREK_LEDGER_BYTES], table[TABLE_ROWS * ROW], roll[ROLL_ROWS * ROW];
};

static uint8_t bag[SNALDREK_BAG_MAX_BYTES], file[SNALDREK_CASE_FIRST_EDITION_BYTES];
static struct ledger ours, right; /* what the calls made, and what they had to make */
static size_t table_len, roll_len;
static int failures;

static void expect(int is_right, const char *what, const char *when)
{
    if (is_right)
        return;
    failures++;
    printf("%s: %s\n", when, what);
}

static void write_64(uint8_t *at, uint64_t number)
{
    int i;
    for (i = 0; i < 8; i++)
        at[i] = (uint8_t)(number >> (8 * i));
}

/* Row k is the eight bytes of k times a step, the highest first, and 24 that are the same in all. */
static void fill(uint8_t *rows, uint32_t count, uint64_t step)
{
    uint32_t k, i;
    for (k = 0; k < count; k++) {
        memset(rows + (size_t)k * ROW, 0x5a, ROW);
        for (i = 0; i < 8; i++)
            rows[(size_t)k * ROW + i] = (uint8_t)((k * step) >> (56 - 8 * i));
    }
}

/* The ledger of a trial: its last anchor is the case's, and the unused rows are filled too. */
static void plant(const struct trial *t, uint64_t step)
{
    table_len = (size_t)t->lent * ROW;
    roll_len = (size_t)t->roll * ROW;
    memset(&ours, 0, sizeof ours);
    snaldrek_open(ours.bytes, sizeof ours.bytes, ours.roll, roll_len);
    fill(ours.table, t->lent, step);
    fill(ours.roll, t->roll, 1);
    memcpy(ours.roll + (size_t)(t->anchors - 1) * ROW, file + ANCHOR, ROW);
    write_64(ours.bytes + SPENT, t->used);
    write_64(ours.bytes + ON_ROLL, t->anchors);
    ours.bytes[LEAVES] = (uint8_t)t->used;
    ours.bytes[LEAVES + 1] = (uint8_t)(t->used >> 8);
    ours.bytes[LEAVES + 2] = (uint8_t)(t->used >> 16);
    right = ours;
}

static uint32_t judge(void)
{
    return snaldrek_judge(file, sizeof file, ours.bytes, sizeof ours.bytes, ours.table, table_len, ours.roll, roll_len);
}

/* Puts a row among the first count where it goes, by a walk from the top. */
static void enter(uint8_t *rows, uint32_t count, const uint8_t *row)
{
    uint8_t *at = rows, *end = rows + (size_t)count * ROW;
    while (at < end && memcmp(at, row, ROW) < 0)
        at += ROW;
    memmove(at + ROW, at, (size_t)(end - at));
    memcpy(at, row, ROW);
}

/* After an answer table and roll are right to the byte, and after a refusal the ledger's own bytes are, too. */
static void expect_right(uint32_t answer, const char *when)
{
    expect(memcmp(ours.table, right.table, sizeof ours.table) == 0, "the table", when);
    expect(memcmp(ours.roll, right.roll, sizeof ours.roll) == 0, "the roll", when);
    if (answer != SNALDREK_ACCEPTED)
        expect(memcmp(ours.bytes, right.bytes, sizeof ours.bytes) == 0, "the ledger", when);
    memcpy(right.bytes, ours.bytes, sizeof ours.bytes);
}

static void try_case(const struct trial *t)
{
    uint32_t answer = judge();
    expect(answer == t->first, "the case", t->what);
    if (answer == SNALDREK_ACCEPTED) {
        enter(right.table, t->used, file + NULLIFIER_1);
        enter(right.table, t->used + 1, file + NULLIFIER_2);
        expect(snaldrek_ledger_spent(ours.bytes) == t->used + 2, "the nullifiers", t->what);
        expect(snaldrek_ledger_leaves(ours.bytes) == t->used + 2, "the leaves", t->what);
    }
    expect_right(answer, t->what);
    answer = judge();
    expect(SNALDREK_NUMBER(answer) == t->again, "the case once more", t->what);
    if (t->again == SPENT_NOW)
        expect(memcmp(ours.table + SNALDREK_ROW(answer) * ROW, file + NULLIFIER_1, ROW) == 0, "the row", t->what);
    expect_right(answer, t->what);
}

static void try_block(const struct trial *t)
{
    uint32_t answer = snaldrek_close(ours.bytes, sizeof ours.bytes, ours.table, table_len, ours.roll, roll_len);
    expect(answer == t->closed, "the block", t->what);
    if (answer == SNALDREK_ACCEPTED) {
        snaldrek_root(ours.bytes, sizeof ours.bytes, right.roll + (size_t)t->anchors * ROW, ROW);
        expect(snaldrek_ledger_anchors(ours.bytes) == t->anchors + 1, "the anchors", t->what);
    }
    expect_right(answer, t->what);
}

/* The highest row in which a spent nullifier can be met, at each place: the rows below it are small numbers. */
static void try_row(void)
{
    static const struct trial last = {"the last row", MOST - 2, MOST, 1, 2, 0, 0, 0};
    uint32_t place;
    for (place = 1; place <= 2; place++) {
        uint32_t answer;
        plant(&last, 1);
        memcpy(ours.table + (size_t)(MOST - 3) * ROW, file + (place == 1 ? NULLIFIER_1 : NULLIFIER_2), ROW);
        right = ours;
        answer = judge();
        expect(SNALDREK_NUMBER(answer) == SPENT_NOW && SNALDREK_PLACE(answer) == place, "the answer", last.what);
        expect(SNALDREK_ROW(answer) == MOST - 3, "the row", last.what);
        expect_right(answer, last.what);
    }
}

/* In a full table a single pair of neighbours is equal, or falls: the last one, the first, or one between. */
static void try_falls(void)
{
    static const struct trial full = {"a pair that does not rise", MOST, MOST, 1, 2, DAMAGED, DAMAGED, DAMAGED};
    static const uint32_t at[] = {MOST - 2, MOST - 3, MOST - 4, MOST - 5, MOST / 2, 2047, 2, 1, 0};
    size_t i;
    for (i = 0; i < sizeof at / sizeof *at; i++) {
        uint8_t *low = ours.table + (size_t)at[i] * ROW;
        plant(&full, UINT64_C(1) << 47);
        memcpy(low, low + ROW, ROW);
        low[ROW - 1] = (uint8_t)(low[ROW - 1] + i % 2);
        right = ours;
        try_case(&full);
        try_block(&full);
    }
}

int main(int argc, char **argv)
{
    FILE *in = argc > 1 ? fopen(argv[1], "rb") : NULL;
    size_t i;
    if (!in || fread(bag, 1, sizeof bag, in) < 20 || snaldrek_read_32(bag + 16) != sizeof file)
        return 2;
    memcpy(file, bag + snaldrek_read_32(bag + 12), sizeof file);
    for (i = 0; i < sizeof trials / sizeof *trials; i++) {
        plant(&trials[i], UINT64_C(1) << 47);
        try_case(&trials[i]);
        try_block(&trials[i]);
    }
    try_row();
    try_falls();
    return failures > 0;
}
