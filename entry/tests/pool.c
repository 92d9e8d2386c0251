/*
 * The pool and its bounds. A sample's case is rewritten to put in or to take out any amount, and judged on
 * ledgers whose pool is at a bound, near it or past it: 17 where the pool would leave the bounds, 2 where it
 * is outside them already, and acceptance else, with the pool moved by that amount. A refusal changes no byte.
 *
 *     pool BAG                a bag whose first case passes, of the first edition, its old notes without a value and
 *                             with paths of zeros
 */
#include <stdio.h>
#include <string.h>

#include "snaldrek.h"

/* All money; nothing that a pool can hold is above it. */
#define ALL SNALDREK_MONEY_MAX_ZATOSHI

/* Where a ledger has its pool and its tree record: the leaves, then the nodes. */
#define POOL 16
#define LEAVES 24
#define NODES 28

/* Where a case of the first edition has its public values, its anchor, its first commitment, and the notes that belong
   to it. A new note is address, value, rho and r, and so is an old one behind its key and before its position. */
#define IN 0
#define OUT 8
#define ANCHOR 16
#define COMMITMENT_1 112
#define COMMITMENT_2 144
#define OLD_NOTE_1 (1834 + 32)
#define POSITION_1 (1834 + 136)
#define NEW_NOTE_1 3970
#define NOTE_BYTES 104
#define VALUE 32

struct trial {
    const char *what;
    uint64_t pool, in, out;
    uint32_t answer;
};

static const struct trial trials[] = {
    {"nothing moves an empty pool", 0, 0, 0, SNALDREK_ACCEPTED},
    {"nothing moves a full pool", ALL, 0, 0, SNALDREK_ACCEPTED},
    {"one more than all money", ALL, 1, 0, SNALDREK_POOL_OUT_OF_BOUNDS},
    {"the last one of all money", ALL - 1, 1, 0, SNALDREK_ACCEPTED},
    {"the last one, and one more", ALL - 1, 2, 0, SNALDREK_POOL_OUT_OF_BOUNDS},
    {"all money at once", 0, ALL, 0, SNALDREK_ACCEPTED},
    {"all money, and one was there", 1, ALL, 0, SNALDREK_POOL_OUT_OF_BOUNDS},
    {"all money twice", ALL, ALL, 0, SNALDREK_POOL_OUT_OF_BOUNDS},
    {"one out of nothing", 0, 0, 1, SNALDREK_POOL_OUT_OF_BOUNDS},
    {"the last one taken", 1, 0, 1, SNALDREK_ACCEPTED},
    {"the last one, and one that is not there", 1, 0, 2, SNALDREK_POOL_OUT_OF_BOUNDS},
    {"all money taken", ALL, 0, ALL, SNALDREK_ACCEPTED},
    {"all money taken where one is missing", ALL - 1, 0, ALL, SNALDREK_POOL_OUT_OF_BOUNDS},
    {"a pool of one too many, which would be mended", ALL + 1, 0, 1, SNALDREK_LEDGER_DAMAGED},
    {"a pool of 2^63 - 1", INT64_MAX, 0, 1, SNALDREK_LEDGER_DAMAGED},
    {"a pool of 2^63", UINT64_C(1) << 63, 0, 1, SNALDREK_LEDGER_DAMAGED},
    {"a pool of 2^64 - 1, to which one is added", UINT64_MAX, 1, 0, SNALDREK_LEDGER_DAMAGED},
};

static uint8_t bag[SNALDREK_BAG_MAX_BYTES], file[SNALDREK_CASE_FIRST_EDITION_BYTES];
static uint8_t ledger[SNALDREK_LEDGER_BYTES], table[2 * SNALDREK_ROW_BYTES], roll[2 * SNALDREK_ROW_BYTES];
static int failures;

static void write_64(uint8_t *at, uint64_t number)
{
    int i;
    for (i = 0; i < 8; i++)
        at[i] = (uint8_t)(number >> (8 * i));
}

static void expect(int right, const char *what, const char *when)
{
    if (right)
        return;
    failures++;
    printf("%s: %s\n", when, what);
}

/* The commitment of a note as it stands in the case. */
static void commit(const uint8_t *note, uint8_t *commitment)
{
    uint8_t message[1 + NOTE_BYTES] = {0xb0};
    memcpy(message + 1, note, NOTE_BYTES);
    snaldrek_hash(message, sizeof message, commitment, SNALDREK_DIGEST_BYTES);
}

/* The root of a tree whose last leaf but one is this, and in which zeros stand beside the way up from there. */
static void plant(const uint8_t *leaf, uint8_t *root)
{
    static uint8_t record[SNALDREK_LEDGER_BYTES];
    static const uint8_t all_but_one[4] = {0xff, 0xff, 0xff, 0x1f};
    memcpy(record + LEAVES, all_but_one, sizeof all_but_one);
    memcpy(record + NODES, leaf, SNALDREK_ROOT_BYTES);
    snaldrek_root(record, sizeof record, root, SNALDREK_ROOT_BYTES);
}

/* The case puts so much into its first new note, or takes so much out of its first old one. */
static void write_case(uint64_t in, uint64_t out)
{
    static const uint8_t last_but_one[4] = {0xfe, 0xff, 0xff, 0x1f};
    uint8_t leaf[SNALDREK_DIGEST_BYTES];
    write_64(file + IN, in);
    write_64(file + OUT, out);
    write_64(file + NEW_NOTE_1 + VALUE, in);
    write_64(file + OLD_NOTE_1 + VALUE, out);
    commit(file + NEW_NOTE_1, file + COMMITMENT_1);
    commit(file + OLD_NOTE_1, leaf);
    memcpy(file + POSITION_1, last_but_one, sizeof last_but_one);
    plant(leaf, file + ANCHOR);
}

/* A fresh ledger but for its pool, and for its anchor, which is the case's. */
static void open_ledger(uint64_t pool)
{
    memset(table, 0, sizeof table);
    expect(snaldrek_open(ledger, sizeof ledger, roll, sizeof roll) == SNALDREK_ACCEPTED, "opening", "a fresh ledger");
    expect(snaldrek_ledger_pool(ledger) == 0, "the pool", "a fresh ledger");
    write_64(ledger + POOL, pool);
    memcpy(roll, file + ANCHOR, SNALDREK_ROW_BYTES);
}

static uint32_t judge(void)
{
    return snaldrek_judge(file, sizeof file, ledger, sizeof ledger, table, sizeof table, roll, sizeof roll);
}

static void try_one(const struct trial *t)
{
    static const uint8_t no_rows[sizeof table];
    uint8_t before[sizeof ledger];
    uint32_t closed;
    write_case(t->in, t->out);
    open_ledger(t->pool);
    memcpy(before, ledger, sizeof before);
    expect(snaldrek_ledger_pool(ledger) == t->pool, "the pool before", t->what);
    expect(judge() == t->answer, "the answer", t->what);
    if (t->answer == SNALDREK_ACCEPTED) {
        expect(snaldrek_ledger_pool(ledger) == t->pool + t->in - t->out, "the pool after", t->what);
        expect(snaldrek_ledger_spent(ledger) == 2, "the nullifiers", t->what);
    } else {
        expect(memcmp(ledger, before, sizeof before) == 0, "the ledger after a refusal", t->what);
        expect(memcmp(table, no_rows, sizeof table) == 0, "the table after a refusal", t->what);
    }
    closed = snaldrek_close(ledger, sizeof ledger, table, sizeof table, roll, sizeof roll);
    expect(closed == (t->pool > ALL ? SNALDREK_LEDGER_DAMAGED : SNALDREK_ACCEPTED), "closing", t->what);
}

/* Every other refusal of a case comes before 17. */
static void try_both(void)
{
    write_case(1, 0);
    file[COMMITMENT_2] ^= 1;
    open_ledger(ALL);
    expect(judge() == SNALDREK_COMMITMENT_WRONG + 256 * 2, "the answer", "a wrong commitment and a full pool");
    file[COMMITMENT_2] ^= 1;
    expect(judge() == SNALDREK_POOL_OUT_OF_BOUNDS, "the answer", "a full pool alone");
}

/* The books take 17 as they take every refusal. */
static void try_books(void)
{
    uint8_t list[SNALDREK_DAY_ROW_BYTES] = {0}, tally[SNALDREK_TALLY_BYTES] = {0};
    expect(snaldrek_day(list, sizeof list, 0, 1, SNALDREK_POOL_OUT_OF_BOUNDS) == SNALDREK_ACCEPTED &&
               snaldrek_day_answer(list) == SNALDREK_POOL_OUT_OF_BOUNDS, "the day list", "17");
    expect(snaldrek_tally(tally, sizeof tally, SNALDREK_POOL_OUT_OF_BOUNDS) == SNALDREK_ACCEPTED &&
               snaldrek_tally_refused(tally) == 1, "the tally", "17");
}

int main(int argc, char **argv)
{
    FILE *in = argc > 1 ? fopen(argv[1], "rb") : NULL;
    size_t i;
    if (!in || fread(bag, 1, sizeof bag, in) < 20 || snaldrek_read_32(bag + 16) != sizeof file)
        return 2;
    memcpy(file, bag + snaldrek_read_32(bag + 12), sizeof file);
    for (i = 0; i < sizeof trials / sizeof *trials; i++)
        try_one(&trials[i]);
    try_both();
    try_books();
    return failures > 0;
}
