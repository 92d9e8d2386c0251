/*
 * The two editions of a case file. A sample's case is written in both, with other bytes for all that is carried: each
 * passes on a fresh ledger, both leave the same bytes there, and whichever comes later on one ledger is refused as
 * spent. A bit turned over gets the same answer in both. A proof of any other length makes a file that is refused with
 * 1. A refusal changes no byte.
 *
 *     editions BAG            a bag whose first case passes on a fresh ledger, of the first edition, its old notes
 *                             without a value
 */
#include <stdio.h>
#include <string.h>

#include "snaldrek.h"

#define FIRST SNALDREK_CASE_FIRST_EDITION_BYTES
#define SECOND SNALDREK_CASE_SECOND_EDITION_BYTES
#define MOST SNALDREK_CASE_MAX_BYTES
#define LONGEST (MOST + 300)

#define ROW SNALDREK_ROW_BYTES

/* Where a case has its first nullifier, its ephemeral key and its proof; then how many bytes its ciphertexts are, how
   many stand behind these, and how many there are without the proof. */
#define NULLIFIER_1 48
#define EPHEMERAL_KEY 176
#define PROOF 304
#define CIPHERTEXTS 1202
#define BEHIND 2408
#define WITHOUT_PROOF (PROOF + CIPHERTEXTS + BEHIND)

/* What is not asked of an old note without a value: r, the position's lower bits and the path. */
#define UNASKED (32 + 4 + 29 * 32)

struct ledger {
    uint8_t bytes[SNALDREK_LEDGER_BYTES], table[4 * ROW], roll[2 * ROW];
};

static uint8_t bag[SNALDREK_BAG_MAX_BYTES], sample[FIRST], file[LONGEST], room[MOST];
static struct ledger fresh, ours, others;
static int failures;

static void expect(int right, const char *what, size_t number)
{
    if (right)
        return;
    failures++;
    printf("%s: %lu\n", what, (unsigned long)number);
}

static uint32_t judge(struct ledger *l, const uint8_t *bytes, size_t length)
{
    return snaldrek_judge(bytes, length, l->bytes, sizeof l->bytes, l->table, sizeof l->table, l->roll, sizeof l->roll);
}

/* The sample in a file of so many bytes: its proof has what the others leave, and is filled with a byte, as is all
   else that is carried. A file too short for the others is the sample cut short. */
static void write_file(size_t length, int carried)
{
    memcpy(file, sample, length < sizeof sample ? length : sizeof sample);
    if (length < WITHOUT_PROOF)
        return;
    memset(file + EPHEMERAL_KEY, carried, 32);
    memset(file + PROOF, carried, length - PROOF);
    memcpy(file + length - BEHIND, sample + sizeof sample - BEHIND, BEHIND);
}

/* Of all lengths just two are a case's, and there is room for both. */
static void try_lengths(void)
{
    size_t length;
    for (length = 0; length <= LONGEST; length++) {
        int is_case = length == FIRST || length == SECOND;
        uint32_t right = is_case ? SNALDREK_ACCEPTED : SNALDREK_WRONG_LENGTH;
        write_file(length, 0x5a);
        ours = fresh;
        expect(judge(&ours, file, length) == right, "the length", length);
        expect((memcmp(&ours, &fresh, sizeof ours) == 0) == !is_case, "the ledger after the length", length);
    }
    expect(MOST == (FIRST > SECOND ? FIRST : SECOND), "the room for either", MOST);
    write_file(SECOND, 0x5a);
    memcpy(room, file, SECOND);
    ours = fresh;
    expect(judge(&ours, room, SECOND) == SNALDREK_ACCEPTED, "a shorter file where there is room for either", SECOND);
}

/* The case in one edition, and then in the other: the table has its first nullifier in the row that is told. */
static void try_again(size_t length, size_t again)
{
    uint32_t answer;
    ours = fresh;
    write_file(length, 0x11);
    expect(judge(&ours, file, length) == SNALDREK_ACCEPTED, "accepted first", length);
    others = ours;
    write_file(again, 0xee);
    answer = judge(&ours, file, again);
    expect(SNALDREK_NUMBER(answer) == SNALDREK_ALREADY_SPENT && SNALDREK_PLACE(answer) == 1, "spent again", again);
    expect(memcmp(ours.table + SNALDREK_ROW(answer) * ROW, sample + NULLIFIER_1, ROW) == 0, "the row", again);
    expect(memcmp(&ours, &others, sizeof ours) == 0, "the ledger after a refusal", again);
}

/* A bit of the file turned over, on a fresh ledger. */
static uint32_t judge_turned(struct ledger *l, size_t length, int carried, size_t at)
{
    *l = fresh;
    write_file(length, carried);
    file[at] ^= 1;
    return judge(l, file, length);
}

/* What a byte is answered for does not hang on the edition. One at a time is changed, of all that is not the proof:
   only what is carried may be changed, and what is not asked of old notes without a value. */
static void try_bytes(void)
{
    size_t at, accepted = 0;
    for (at = 0; at < WITHOUT_PROOF; at++) {
        size_t from_end = at < PROOF ? 0 : WITHOUT_PROOF - at;
        uint32_t first = judge_turned(&ours, FIRST, 0x11, from_end ? FIRST - from_end : at);
        uint32_t second = judge_turned(&others, SECOND, 0xee, from_end ? SECOND - from_end : at);
        expect(first == second, "a bit", at);
        expect(memcmp(&ours, &others, sizeof ours) == 0, "the ledger after a bit", at);
        accepted += first == SNALDREK_ACCEPTED;
    }
    expect(accepted == 32 + CIPHERTEXTS + 2 * UNASKED, "how many bytes may be others", accepted);
}

int main(int argc, char **argv)
{
    FILE *in = argc > 1 ? fopen(argv[1], "rb") : NULL;
    if (!in || fread(bag, 1, sizeof bag, in) < 20 || snaldrek_read_32(bag + 16) != sizeof sample)
        return 2;
    memcpy(sample, bag + snaldrek_read_32(bag + 12), sizeof sample);
    snaldrek_open(fresh.bytes, sizeof fresh.bytes, fresh.roll, sizeof fresh.roll);
    try_lengths();
    try_again(FIRST, SECOND);
    try_again(SECOND, FIRST);
    try_bytes();
    return failures > 0;
}
