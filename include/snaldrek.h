/*
 * Snaldrek: judges disclosures of Sprout spends, and writes them, for the firmware of sealed-bag scanners.
 *
 * Link libsnaldrek.a (x86-64, System V calling convention). It needs nothing but memcpy and memset,
 * takes no memory of its own, makes no system call and never ends the program.
 *
 * ANSWERS. Every call returns one number. 0 is yes. Otherwise the low 8 bits are the number of the
 * refusal (enum snaldrek_number), the next 8 its place, and the upper 16 its row: with the number 8,
 * the row of the nullifier table in which the spent nullifier stands, counted from 0; with every other
 * number 0. docs/REFUSALS.md has each number and place in plain words. A refusal changes no byte of any
 * lent buffer; snaldrek_open says where it makes one exception.
 *
 * MEMORY. All of it is the caller's, and is lent for the time of a call: the library keeps no pointer
 * and no state, so that the same bytes get the same answer at any time. A ledger is three buffers
 * that belong together: its SNALDREK_LEDGER_BYTES, its nullifier table and its anchor roll. The
 * caller decides how many rows these two have, keeps their lengths the same from call to call, and
 * may copy, store and restore the three as plain bytes. Buffers need no alignment. Buffers lent to
 * one call must not overlap, unless both are only read. A pointer may be null where its length is 0.
 *
 * FLOATING POINT. The calls that compute with floats, snaldrek_seal and snaldrek_bag, do so in the
 * processor's default mode, whatever mode they are called in: to the nearest, nothing flushed to zero,
 * no exception raised. The caller's mode (MXCSR, with all that was noted in it) is the same afterwards.
 *
 * LOST POWER. A ledger's three buffers belong together, and no call can tell all three from a mixture: a
 * new table beside old ledger bytes may be undamaged, and then a spent note passes again. So store them
 * in two slots by turns, each with a length and a SHA-256 over all three (snaldrek_hash) that are written
 * last, answer only after that, and take the newer slot that checks. examples/keep_ledger.c does it.
 *
 * STACK. No call takes more than SNALDREK_STACK_BYTES of it; a bag takes the most. The stack is aligned
 * as the calling convention has it, and the 128 bytes below the stack pointer are used (the red zone), so
 * that whatever interrupts a call on its own stack has to step over them. The processor needs SSE2, which
 * every x86-64 has, and the system has to have switched it on.
 *
 * THREADS. Calls may run at the same time on any threads, as long as no buffer that one of them
 * writes (a pointer without const) is lent to another. So each ledger needs a lock of its own, or
 * one thread of its own; different ledgers need nothing.
 *
 * NUMBERS in buffers are little-endian.
 */
#ifndef SNALDREK_H
#define SNALDREK_H

#include <stddef.h>
#include <stdint.h>

#ifdef __cplusplus
extern "C" {
#endif

/* ---- Version ---- */

/* 0.1.0, a byte for each of the three numbers. */
#define SNALDREK_VERSION 0x000100u

/* The version that the library was made with: the same number, or it is not the library of this header. */
uint32_t snaldrek_version(void);

/* ---- Sizes, in bytes unless they count rows ---- */

/* A case file tells its edition by its length alone, and any other length is refused with 1. Files of both editions
   may be judged on one ledger and in one bag. */
#define SNALDREK_CASE_FIRST_EDITION_BYTES 4210  /* with a proof of 296 bytes */
#define SNALDREK_CASE_SECOND_EDITION_BYTES 4106 /* with one of 192; what stands behind it starts 104 bytes earlier */
#define SNALDREK_CASE_MAX_BYTES 4210            /* room for either */

#define SNALDREK_BAG_MAX_BYTES 65536     /* the longest bag */
#define SNALDREK_BAG_MAX_CASES 7         /* the most cases in a bag */
#define SNALDREK_SEAL_BYTES 25           /* a seal's body in a bag */
#define SNALDREK_LEDGER_BYTES 988        /* counts, pool and tree record */
#define SNALDREK_ROW_BYTES 32            /* a row of the table or of the roll */
#define SNALDREK_TABLE_MAX_ROWS 65536    /* nullifiers; two for each accepted case */
#define SNALDREK_ROLL_MAX_ROWS 4096      /* anchors; one from the start, one for each closed block */
#define SNALDREK_ROOT_BYTES 32           /* the tree's root */
#define SNALDREK_DIGEST_BYTES 32         /* a SHA-256 */
#define SNALDREK_REPORT_BYTES 32         /* what became of a bag's cases */
#define SNALDREK_TALLY_BYTES 12          /* the shift's three counts */
#define SNALDREK_DAY_ROW_BYTES 6         /* a row of the day list */
#define SNALDREK_STACK_BYTES 16384       /* the most stack that a call takes */

/* Buffers of these lengths, 2 MiB and 128 KiB, have all the room that a ledger can use. A host may lend less:
   a ledger has room for the whole rows that it is lent. Longer buffers are never refused, but rows past the
   most are not used. */
#define SNALDREK_TABLE_MAX_BYTES (SNALDREK_TABLE_MAX_ROWS * SNALDREK_ROW_BYTES)
#define SNALDREK_ROLL_MAX_BYTES (SNALDREK_ROLL_MAX_ROWS * SNALDREK_ROW_BYTES)

/* ---- Money, in zatoshi ---- */

/* All the money there will ever be: no public value may be above it (5), and no pool either (17, and 2 where
   a ledger says that it is). */
#define SNALDREK_MONEY_MAX_ZATOSHI UINT64_C(2100000000000000)

/* ---- Answers ---- */

/* Every number that a call can answer with. The place is 0 where nothing else is said. */
enum snaldrek_number {
    SNALDREK_ACCEPTED = 0,

    /* of a case, in the order in which they are looked for */
    SNALDREK_WRONG_LENGTH = 1,          /* of neither edition's length; writing a case: or the buffer is not as
                                           long as the draft; opening: the roll has no row */
    SNALDREK_LEDGER_DAMAGED = 2,        /* the ledger's bytes cannot have come from these calls */
    SNALDREK_NO_FREE_ROW = 3,           /* fewer than two table rows; closing: no roll row */
    SNALDREK_BOTH_PUBLIC_VALUES = 4,    /* one of the two must be zero */
    SNALDREK_PUBLIC_VALUE_TOO_HIGH = 5, /* place 1: what enters the pool, 2: what leaves it */
    SNALDREK_ANCHOR_UNKNOWN = 6,        /* it is not on the roll */
    SNALDREK_NULLIFIERS_EQUAL = 7,      /* the case names one note twice */
    SNALDREK_ALREADY_SPENT = 8,         /* place 1 or 2: which nullifier; row: where it stands in the
                                           table, from 0, as the table was when the case met it */
    SNALDREK_OUT_OF_RANGE = 9,          /* place 1 or 2: which old note; 3: phi */
    SNALDREK_PATH_WRONG = 10,           /* place 1 or 2: which old note */
    SNALDREK_NOT_BALANCED = 11,         /* what goes in is not what comes out, or is above 2^64 - 1 */
    SNALDREK_NULLIFIER_WRONG = 12,      /* place 1 or 2 */
    SNALDREK_ADDRESS_WRONG = 13,        /* place 1 or 2: which old note */
    SNALDREK_TAG_WRONG = 14,            /* place 1 or 2 */
    SNALDREK_RHO_WRONG = 15,            /* place 1 or 2: which new note */
    SNALDREK_COMMITMENT_WRONG = 16,     /* place 1 or 2 */
    SNALDREK_POOL_OUT_OF_BOUNDS = 17,   /* with this case it would be below zero or above all money */

    /* of a bag and its seal */
    SNALDREK_LAYOUT_BROKEN = 20,        /* of the bag, or of the seal's own bytes */
    SNALDREK_GATE_BROKEN = 21,          /* a limit is not finite, or low is above high */
    SNALDREK_PULL_NOT_FINITE = 22,
    SNALDREK_PULL_OUTSIDE = 23,         /* of the gate: the wire was pulled */

    /* of these calls themselves: mistakes of the caller, found before anything else is looked at */
    SNALDREK_WRONG_BUFFER = 51,         /* place: which lent buffer, as in enum snaldrek_buffer */
    SNALDREK_TALLY_FULL = 52,           /* a count that would be raised is at its most */
    SNALDREK_NO_SUCH_ROW = 53,          /* the day list ends before this row */
    SNALDREK_NO_ANSWER = 54,            /* what is to be entered is no answer of a call */

    /* of no call: what a report has where a bag has no case, so that none is taken for a pass */
    SNALDREK_NOT_GIVEN = 255
};

/* The place of SNALDREK_WRONG_BUFFER: whose length is not the one above. */
enum snaldrek_buffer {
    SNALDREK_BUFFER_LEDGER = 1,
    SNALDREK_BUFFER_ROOT = 2,
    SNALDREK_BUFFER_REPORT = 3,
    SNALDREK_BUFFER_TALLY = 4,
    SNALDREK_BUFFER_PULL = 5,           /* it is null */
    SNALDREK_BUFFER_DIGEST = 6
};

#define SNALDREK_NUMBER(answer) ((unsigned)((answer) & 0xffu))
#define SNALDREK_PLACE(answer) ((unsigned)(((answer) >> 8) & 0xffu))
#define SNALDREK_ROW(answer) ((unsigned)(((answer) >> 16) & 0xffffu))

/* ---- A ledger ---- */

/* Makes the buffers those of a fresh ledger: nothing spent, no leaves, pool 0, and the empty tree's
   root as the only anchor. Of the roll only the first row is written. A fresh ledger reads nothing
   from its table, which is first lent to snaldrek_judge.
   51 1: the ledger's length. 1 0: the roll has not even one row; the roll stays as it is, and the
   ledger's bytes are all set to zero, so that no old ledger is taken for the fresh one (a ledger of
   zeros has no anchor, and every later call refuses it with 2). */
uint32_t snaldrek_open(uint8_t *ledger, size_t ledger_len, uint8_t *roll, size_t roll_len);

/* Judges one case, of either edition. Accepted, its nullifiers are in the table, its commitments in the tree and its
   public values in the pool.
   51 1: the ledger's length. Then 1 to 17, the first that applies; with 8, the spent nullifier stands at
   table + SNALDREK_ROW_BYTES * SNALDREK_ROW(answer). */
uint32_t snaldrek_judge(const uint8_t *file, size_t file_len, uint8_t *ledger, size_t ledger_len,
                        uint8_t *table, size_t table_len, const uint8_t *roll, size_t roll_len);

/* Closes a block: the tree's root goes onto the roll, and later cases may use it as their anchor.
   51 1: the ledger's length. Then 2, and 3 where the roll has no free row. */
uint32_t snaldrek_close(uint8_t *ledger, size_t ledger_len, const uint8_t *table, size_t table_len,
                        uint8_t *roll, size_t roll_len);

/* Writes the tree's root as it stands now, whether or not a block was closed.
   51 1: the ledger's length. 51 2: the root's. */
uint32_t snaldrek_root(const uint8_t *ledger, size_t ledger_len, uint8_t *root, size_t root_len);

/* Writes the SHA-256 of any bytes.
   51 6: the digest's length. */
uint32_t snaldrek_hash(const uint8_t *bytes, size_t bytes_len, uint8_t *digest, size_t digest_len);

/* ---- The desk ---- */

/* Writes the whole case of a draft, which has all that its holder chooses, into the buffer. A draft lies as a case
   file of either edition does (docs/FORMATS.md), and the case is of the same edition. Ten fields of 32 bytes are
   worked out and put in: both nullifiers, commitments and tags, a_pk of the old notes and rho of the new ones. What
   the draft has there is not read. All its other bytes come into the case as they are. Draft and buffer must not
   overlap, so a draft cannot be made the case in its own place.
   1: the draft is of neither edition's length, or the buffer is not as long as the draft. Then 4, 5, 7 (for which the
   top four bits of a key are dropped), 9, 10 and 11 of the case that would be written, the first that applies, with
   their places. On any of them no byte of the buffer is written.
   No ledger is asked: the case is accepted by each that is not damaged and has room, the anchor on its roll, neither
   nullifier in its table, and a pool that stays in its bounds. */
uint32_t snaldrek_write_case(const uint8_t *draft, size_t draft_len, uint8_t *buffer, size_t buffer_len);

/* ---- A bag ---- */

/* Judges a seal's body alone, with the scanner's calibration: the pull is raw times gain, plus
   offset, each rounded once. *pull is written only where the answer is 0.
   51 5: pull is null. 20: the body is broken. Then 21 to 23. */
uint32_t snaldrek_seal(const uint8_t *body, size_t body_len, double gain, double offset, double *pull);

/* Judges a whole bag: its layout, its seal, and then its cases in order, each on the ledger that the
   one before it left. A refused case does not stop the next, and is no refusal of the bag: the answer
   is then 0, and the report has each case's own. The row of an 8 there is that of the table as the case
   met it: a later case's nullifiers may have moved it to a higher one since.
   51 1: the ledger's length. 51 3: the report's. 20: the layout is broken. 21 to 23: the seal. On
   any of them no case was judged, and the report is not written. */
uint32_t snaldrek_bag(const uint8_t *bag, size_t bag_len, double gain, double offset,
                      uint8_t *ledger, size_t ledger_len, uint8_t *table, size_t table_len,
                      const uint8_t *roll, size_t roll_len, uint8_t *report, size_t report_len);

/* ---- The shift's books ---- */

/* Counts one answer: seen, and passed where it is 0, otherwise refused. A tally of zero bytes is empty.
   51 4: the tally's length. 52: seen, or the count that would be raised, is at its most. */
uint32_t snaldrek_tally(uint8_t *tally, size_t tally_len, uint32_t answer);

/* Writes row number `row` (from 0) of the day list: the seal's own number, and an answer as the calls
   above return it, of which the list keeps number and place. The list has list_len /
   SNALDREK_DAY_ROW_BYTES rows, and the others stay. Fill a new list with bytes of 255: its rows then say
   SNALDREK_NOT_GIVEN, and none is taken for a pass.
   53: there is no such row. 54: no call returns such an answer: it has the number 0 and is not 0, or it
   is above 65,535, so that it has a row, and its number is not 8. */
uint32_t snaldrek_day(uint8_t *list, size_t list_len, size_t row, uint32_t seal, uint32_t answer);

/* ---- What the buffers say ---- */

static inline uint32_t snaldrek_read_32(const uint8_t *bytes)
{
    return (uint32_t)bytes[0] | (uint32_t)bytes[1] << 8 | (uint32_t)bytes[2] << 16 | (uint32_t)bytes[3] << 24;
}

static inline uint64_t snaldrek_read_64(const uint8_t *bytes)
{
    return (uint64_t)snaldrek_read_32(bytes) | (uint64_t)snaldrek_read_32(bytes + 4) << 32;
}

/* A ledger: nullifier count in 8 bytes, anchor count in 8, pool in 8, leaf count in 4, then the tree
   record's 30 nodes. */
static inline uint64_t snaldrek_ledger_spent(const uint8_t *ledger) { return snaldrek_read_64(ledger); }
static inline uint64_t snaldrek_ledger_anchors(const uint8_t *ledger) { return snaldrek_read_64(ledger + 8); }
static inline uint32_t snaldrek_ledger_leaves(const uint8_t *ledger) { return snaldrek_read_32(ledger + 24); }

/* What has entered the pool less what has left it, in zatoshi. It is never below zero, and above
   SNALDREK_MONEY_MAX_ZATOSHI only where the ledger is damaged. */
static inline uint64_t snaldrek_ledger_pool(const uint8_t *ledger) { return snaldrek_read_64(ledger + 16); }

/* A report: the number of cases in 4 bytes, then seven answers of 4 bytes, SNALDREK_NOT_GIVEN past the
   last case. */
static inline uint32_t snaldrek_report_cases(const uint8_t *report) { return snaldrek_read_32(report); }

/* The answer of case number `index`, from 0 and below snaldrek_report_cases. */
static inline uint32_t snaldrek_report_answer(const uint8_t *report, uint32_t index)
{
    return snaldrek_read_32(report + 4 + 4 * (size_t)index);
}

/* A tally: three counts of 4 bytes. */
static inline uint32_t snaldrek_tally_seen(const uint8_t *tally) { return snaldrek_read_32(tally); }
static inline uint32_t snaldrek_tally_passed(const uint8_t *tally) { return snaldrek_read_32(tally + 4); }
static inline uint32_t snaldrek_tally_refused(const uint8_t *tally) { return snaldrek_read_32(tally + 8); }

/* A row of the day list: the seal's number in 4 bytes, the answer's number in one, its place in one. The
   row of the table that an 8 had is not kept, so SNALDREK_ROW of an answer read here is always 0. */
static inline uint32_t snaldrek_day_seal(const uint8_t *row) { return snaldrek_read_32(row); }
static inline uint32_t snaldrek_day_answer(const uint8_t *row) { return (uint32_t)row[4] | (uint32_t)row[5] << 8; }

#ifdef __cplusplus
}
#endif

#endif
