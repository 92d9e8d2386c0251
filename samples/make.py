#!/usr/bin/env python3
"""Writes the sample bags, a tray of more bags, and the lines that they must print.

    python3 samples/make.py

Every run writes the same bytes. Everything here follows the published documents and nothing of the
Rattle code: SHA-256 and BLAKE2b come from Python's library, and the bare compression, which no
library offers, is written out from FIPS 180-4 and held against that library at each run. What a
bag must be answered is stated by hand, from the rules, beside the bag.

The first sample is also the stored run of the scanner: it goes to crates/scanner/ a second time. The one
with spent nullifiers is that of the explainer, which prints their rows too, and goes to crates/explainer/.
All samples, bags at the edges of the rules and pairs of cases in both orders, one after the other, are
the stored run of crates/tray/.
"""

import hashlib
import struct
from math import isqrt, nextafter
from pathlib import Path

HERE = Path(__file__).resolve().parent
SCANNER = HERE.parent / "crates" / "scanner"
EXPLAINER = HERE.parent / "crates" / "explainer"
TRAY = HERE.parent / "crates" / "tray"
WRITER = HERE.parent / "crates" / "writer"
PACKER = HERE.parent / "crates" / "packer"
DRAFTS = HERE / "drafts"

MAX_MONEY = 2_100_000_000_000_000
DEPTH = 29
MAX_BAG = 65_536

# The editions of a case's description, each as the length of its proof. What stands behind the proof starts 104 bytes
# earlier in the second.
FIRST, SECOND = 296, 192
PROOF = 304  # where it starts, in both
KEY = {FIRST: 1802, SECOND: 1698}  # where the transaction key does, right behind the description
OLD = {FIRST: [1834, 2902], SECOND: [1730, 2798]}
NEW = {FIRST: [3970, 4074], SECOND: [3866, 3970]}
PHI = {FIRST: 4178, SECOND: 4074}
LENGTH = {FIRST: 4210, SECOND: 4106}


# ---- SHA-256's compression (FIPS 180-4) ------------------------------------------------------

def primes(count):
    found = []
    n = 2
    while len(found) < count:
        if all(n % p for p in found):
            found.append(n)
        n += 1
    return found


def cube_root(n):
    """The whole part of n's cube root."""
    low, high = 0, 1 << (n.bit_length() // 3 + 1)
    while low < high:
        mid = (low + high + 1) // 2
        if mid ** 3 <= n:
            low = mid
        else:
            high = mid - 1
    return low


MASK = 0xFFFFFFFF
# The first 32 bits of the fractions of the square roots of 8 primes and the cube roots of 64.
START = [isqrt(p << 64) & MASK for p in primes(8)]
K = [cube_root(p << 96) & MASK for p in primes(64)]


def rotr(x, n):
    return (x >> n | x << (32 - n)) & MASK


def compress(block, start=START):
    """One compression of a block of 64 bytes, with no padding; eight big-endian words."""
    w = list(struct.unpack(">16I", block))
    for t in range(16, 64):
        s0 = rotr(w[t - 15], 7) ^ rotr(w[t - 15], 18) ^ w[t - 15] >> 3
        s1 = rotr(w[t - 2], 17) ^ rotr(w[t - 2], 19) ^ w[t - 2] >> 10
        w.append((s1 + w[t - 7] + s0 + w[t - 16]) & MASK)
    a, b, c, d, e, f, g, h = start
    for t in range(64):
        big1 = rotr(e, 6) ^ rotr(e, 11) ^ rotr(e, 25)
        t1 = h + big1 + (e & f ^ ~e & g) + K[t] + w[t]
        big0 = rotr(a, 2) ^ rotr(a, 13) ^ rotr(a, 22)
        t2 = big0 + (a & b ^ a & c ^ b & c)
        a, b, c, d, e, f, g, h = (t1 + t2) & MASK, a, b, c, (d + t1) & MASK, e, f, g
    return struct.pack(">8I", *((x + y) & MASK for x, y in zip(start, (a, b, c, d, e, f, g, h))))


def check_compression():
    """Padded messages, compressed block by block, have the digest that the library gives them."""
    for message in (b"", b"abc", bytes(range(64)), b"\xff" * 64):
        zeros = bytes((55 - len(message)) % 64)
        blocks = message + b"\x80" + zeros + struct.pack(">Q", 8 * len(message))
        digest = struct.pack(">8I", *START)
        for at in range(0, len(blocks), 64):
            digest = compress(blocks[at:at + 64], struct.unpack(">8I", digest))
        assert digest == hashlib.sha256(message).digest()


# ---- What a note and its keys give -----------------------------------------------------------

def tagged(tag, key, rest):
    """Compress, the four bits of the tag over the top four bits of the key."""
    return compress(bytes([tag << 4 | key[0] & 0x0F]) + key[1:] + rest)


def address(a_sk):
    return tagged(0b1100, a_sk, bytes(32))


def nullifier(a_sk, rho):
    return tagged(0b1110, a_sk, rho)


def mac(i, a_sk, h_sig):
    return tagged(0b0000 | (i - 1) << 2, a_sk, h_sig)


def new_rho(i, phi, h_sig):
    return tagged(0b0010 | (i - 1) << 2, phi, h_sig)


def commitment(a_pk, value, rho, r):
    return hashlib.sha256(b"\xb0" + a_pk + struct.pack("<Q", value) + rho + r).digest()


def h_sig_of(seed, nullifiers, key):
    message = seed + nullifiers[0] + nullifiers[1] + key
    return hashlib.blake2b(message, digest_size=32, person=b"ZcashComputehSig").digest()


def empty_root():
    node = bytes(32)
    for _ in range(DEPTH):
        node = compress(node + node)
    return node


# ---- Cases -----------------------------------------------------------------------------------

def secret(label):
    return hashlib.sha256(b"Snaldrek sample: " + label.encode()).digest()


def short_key(label):
    """A secret of 252 bits: its top four are zero."""
    s = secret(label)
    return bytes([s[0] & 0x0F]) + s[1:]


def old_note(label, value=0):
    """An old note at position 0 with a path of zeros; without a value it needs no true one."""
    a_sk = short_key(label + " a_sk")
    return {
        "a_sk": a_sk, "a_pk": address(a_sk), "value": value, "rho": secret(label + " rho"),
        "r": secret(label + " r"), "position": 0, "path": bytes(DEPTH * 32),
    }


def case(label, vpub_old=0, vpub_new=0, old=None, new=(0, 0), anchor=None, edition=FIRST):
    """A case that is right in itself: all that it claims is what its notes and keys give.

    In another edition the same label and amounts give the same case: nothing but the proof's length differs.
    """
    old = old or [old_note(label + " old 1"), old_note(label + " old 2")]
    phi = short_key(label + " phi")
    seed = secret(label + " seed")
    key = secret(label + " transaction key")
    nullifiers = [nullifier(n["a_sk"], n["rho"]) for n in old]
    h_sig = h_sig_of(seed, nullifiers, key)
    notes = []
    for i, value in enumerate(new, 1):
        a_pk = address(short_key(f"{label} receiver {i}"))
        notes.append((a_pk, value, new_rho(i, phi, h_sig), secret(f"{label} new {i} r")))
    description = b"".join([
        struct.pack("<QQ", vpub_old, vpub_new),
        anchor or empty_root(),
        *nullifiers,
        *(commitment(*n) for n in notes),
        b"\x11" * 32,  # the ephemeral key: carried, and never checked
        seed,
        *(mac(i, n["a_sk"], h_sig) for i, n in enumerate(old, 1)),
        b"\x22" * edition,  # the proof: likewise
        b"\x33" * (2 * 601),  # the ciphertexts: likewise
    ])
    witness = b"".join([
        *(n["a_sk"] + n["a_pk"] + struct.pack("<Q", n["value"]) + n["rho"] + n["r"]
          + struct.pack("<I", n["position"]) + n["path"] for n in old),
        *(a_pk + struct.pack("<Q", value) + rho + r for a_pk, value, rho, r in notes),
        phi,
    ])
    file = description + key + witness
    assert len(description) == KEY[edition] and len(file) == LENGTH[edition]
    return file


def with_byte_changed(file, at):
    return file[:at] + bytes([file[at] ^ 1]) + file[at + 1:]


def edition_of(file):
    """The edition of a file that is whole, by its length."""
    return {length: edition for edition, length in LENGTH.items()}[len(file)]


def with_carried_changed(file):
    """Every bit of the ephemeral key, the proof and the ciphertexts turned over, and no other."""
    def turned(start, end):
        return bytes(b ^ 0xFF for b in file[start:end])
    key = KEY[edition_of(file)]
    return file[:176] + turned(176, 208) + file[208:PROOF] + turned(PROOF, key) + file[key:]


def with_proof(file, proof):
    """The file with other bytes for its proof, as many as one likes."""
    return file[:PROOF] + proof + file[PROOF + edition_of(file):]


def in_second_edition(file):
    """The same case in the second edition, and every byte that is carried is another one."""
    return with_carried_changed(with_proof(file, bytes(SECOND)))


# ---- Bags ------------------------------------------------------------------------------------

def seal(kind, raw, low=0.0, high=0.0):
    """A seal's body; limits that the kind of gate does not use are left zero."""
    return struct.pack("<B3d", kind, low, high, raw)


def table(*rows):
    """A count of rows, and of each its kind, offset and length."""
    return struct.pack("<H", len(rows)) + b"".join(struct.pack("<BII", *row) for row in rows)


def bag(seal_body, *cases):
    bodies = [seal_body, *cases]
    at = 2 + 9 * len(bodies)
    rows = []
    for i, body in enumerate(bodies):
        rows.append((1 if i == 0 else 2, at, len(body)))
        at += len(body)
    return table(*rows) + b"".join(bodies)


def own_nullifier(note):
    return nullifier(note["a_sk"], note["rho"])


def row_among(spent, note):
    """The row where a spent note's nullifier stands, once all of these are spent."""
    return sorted(map(own_nullifier, spent)).index(own_nullifier(note))


def spent_again():
    """A bag of cases that spend notes a second time, and its lines with a row behind each case that is refused for it.

    None of the notes has a value, so that none needs a path. In the order of their nullifiers they are: the
    lowest and the low one, which one case spends together, with a note between them that is never spent,
    and then the two of the first case, the higher of which is its first.
    """
    notes = [old_note(f"spent {i}") for i in range(1, 6)]
    lowest, unspent, low, second, first = sorted(notes, key=own_nullifier)
    earlier = case("spends the high ones", vpub_old=40, old=[first, second], new=(25, 15))
    below = case("spends the low ones", vpub_old=2, old=[low, lowest], new=(0, 2))
    second_alone = case("spends its second again", vpub_old=5, old=[unspent, second], new=(5, 0))
    both = case("spends both again", vpub_old=5, old=[lowest, first], new=(5, 0))

    assert row_among([first, second], first) == 1
    all_four = [first, second, low, lowest]
    assert [row_among(all_four, note) for note in (lowest, low, second, first)] == [0, 1, 2, 3]
    assert row_among(all_four + [unspent], unspent) == 1
    return bag(seal(0, 100.0), earlier, earlier, below, earlier, second_alone, both), [
        "seal 0 0",
        "case 0 0",
        "case 8 1",  # once more; two rows are in use, and its first nullifier is the higher
        "row 1",
        "case 0 0",  # both of its nullifiers go below those two
        "case 8 1",  # the same as before, and its row is two more
        "row 3",
        "case 8 2",  # its first nullifier is not spent and would go into row 1; the second stands right below the highest
        "row 2",
        "case 8 1",  # both are spent: the first is named, with its own row and not with row 3
        "row 0",
        "ledger spent 4 leaves 4 pool 42",
    ]


def without_rows(lines):
    return [line for line in lines if not line.startswith("row ")]


def samples():
    """The name of each sample, its bytes, and the lines that it must print."""
    accepted = case("example", vpub_old=10000, new=(10000, 0))
    yield "example", bag(seal(0, 100.0), accepted, accepted), [
        "seal 0 0",
        "case 0 0",
        "case 8 1",  # its first nullifier stands in the table since the case before
        "ledger spent 2 leaves 2 pool 10000",
    ]

    yield "refused-seal", bag(seal(2, 51.0, 40.0, 50.0), accepted), [
        "seal 23 0",  # 51 is not between 40 and 50
    ]

    yield "broken-layout", bag(seal(0, 100.0), accepted) + b"\x00", [
        "bag 20 0",  # the last body ends one byte before the bag does
    ]

    most = case("most", vpub_old=MAX_MONEY, new=(MAX_MONEY - 1, 1))
    yield "refusals", *seven_reasons(most)

    yield "full-pool", bag(seal(0, 100.0), most, case("one more", vpub_old=1, new=(1, 0))), [
        "seal 0 0",
        "case 0 0",  # all money: the pool is as full as it may be
        "case 17 0",  # one more
        f"ledger spent 2 leaves 2 pool {MAX_MONEY}",
    ]

    data, explained = spent_again()
    yield "spent", data, without_rows(explained)
    yield "both-editions", *both_editions()


def seven_reasons(most):
    """A bag of seven cases, of which one puts in the most and passes, and its lines."""
    two_sided = case("two-sided", vpub_old=7, vpub_new=7)
    elsewhere = case("elsewhere", anchor=secret("another root"))
    spends_again = case("spends again", old=[old_note("unspent"), old_note("most old 2")])
    from_nowhere = case("from nowhere", old=[old_note("valued", 5), old_note("empty")], new=(5, 0))
    claims_wrong = with_byte_changed(case("claims wrong", vpub_old=1, new=(1, 0)), 112 + 32)
    seven = [b"", two_sided, elsewhere, most, spends_again, from_nowhere, claims_wrong]
    return bag(seal(1, 51.0, 51.0), *seven), [
        "seal 0 0",  # the limit itself passes
        "case 1 0",  # a case of no bytes
        "case 4 0",  # both public values are 7
        "case 6 0",  # its anchor is not the empty root, which is all that a fresh roll has
        "case 0 0",  # all the money there will ever be
        "case 8 2",  # its second nullifier is that of the accepted case
        "case 10 1",  # its first old note has a value of 5, and no path from it to the empty root
        "case 16 2",  # a bit of its second commitment is changed; nor could the pool take its 1, but that is asked last
        f"ledger spent 2 leaves 2 pool {MAX_MONEY}",
    ]


def both_editions():
    """A bag that mixes both editions, and its lines."""
    one = case("mixed, one", vpub_old=300, new=(100, 200))
    two = case("mixed, two", vpub_old=70, new=(70, 0), edition=SECOND)
    three = case("mixed, three", vpub_old=5, new=(2, 3), edition=SECOND)
    wrong = with_byte_changed(case("mixed, wrong", vpub_old=1, new=(1, 0), edition=SECOND), KEY[SECOND])
    two_in_first = case("mixed, two", vpub_old=70, new=(70, 0))
    return bag(seal(0, 100.0), one, in_second_edition(one), two, two_in_first, three[:-1], three, wrong), [
        "seal 0 0",
        "case 0 0",  # of the first edition
        "case 8 1",  # the same in the second edition, with another proof and other ciphertexts: the same nullifiers
        "case 0 0",  # of the second edition
        "case 8 1",  # the same in the first edition
        "case 1 0",  # 4,105 bytes: of the second edition, but for the last byte
        "case 0 0",  # and with it
        "case 14 1",  # a bit of the transaction key is changed, where the second edition has it: of another hSig both tags are wrong
        "ledger spent 6 leaves 6 pool 375",
    ]


# ---- The tray: each bag behind its length ------------------------------------------------------

BROKEN = ["bag 20 0"]
EMPTY = "ledger spent 0 leaves 0 pool 0"
OPEN = seal(0, 100.0)  # no gate: any reading that is a number passes


def lengths():
    """Bags at the ends of what a bag and a case may have. Each has its name, its bytes and its lines."""
    yield "no-bytes", b"", BROKEN  # there is no count to read
    yield "half-a-count", b"\x01", BROKEN  # only half a count
    yield "count-0", table(), BROKEN  # a count of 0
    yield "seal-alone", bag(OPEN), ["seal 0 0", EMPTY]  # one row: a seal, and no case to judge
    yield "eight-rows", bag(OPEN, *[b"-"] * 7), ["seal 0 0", *["case 1 0"] * 7, EMPTY]  # eight rows are the most
    yield "nine-rows", bag(OPEN, *[b"-"] * 8), BROKEN  # nine rows, all in order but for their number
    around = len(bag(OPEN, b""))
    longest = b"-" * (MAX_BAG - around)
    yield "bag-of-65536", bag(OPEN, longest), ["seal 0 0", "case 1 0", EMPTY]  # 65,536 bytes: a long case is only refused
    yield "bag-of-65537", bag(OPEN, longest + b"-"), BROKEN  # a byte more: all in order but for the bag's length
    whole = case("lengths", vpub_old=3, new=(1, 2))
    yield "cases-around-4210", bag(OPEN, whole[:-1], whole + b"-", whole), [
        "seal 0 0",
        "case 1 0",  # 4,209 bytes
        "case 1 0",  # 4,211 bytes, of which the first 4,210 would pass
        "case 0 0",
        "ledger spent 2 leaves 2 pool 3",
    ]
    # Short of the anchor's end, at it, and of a length whose low byte is that of 4,210. A case of no bytes is in "refusals".
    yield "cases-cut-short", bag(OPEN, whole[:47], whole[:48], whole[:4210 % 256]), ["seal 0 0", *["case 1 0"] * 3, EMPTY]


def edition_lengths():
    """The same around the second edition's length, and files of one edition that have the other one's length."""
    first, second = (case("edition lengths", vpub_old=3, new=(1, 2), edition=edition) for edition in (FIRST, SECOND))
    yield "cases-around-4106", bag(OPEN, second[:-1], second + b"-", second), [
        "seal 0 0",
        "case 1 0",  # 4,105 bytes
        "case 1 0",  # 4,107 bytes, of which the first 4,106 would pass
        "case 0 0",
        "ledger spent 2 leaves 2 pool 3",
    ]
    # Of a length whose low byte is that of 4,106, short of where the proof ends, and at its end and the description's.
    short = [second[:4106 % 256], second[:PROOF + SECOND - 1], second[:PROOF + SECOND], second[:KEY[SECOND]]]
    yield "second-edition-cut-short", bag(OPEN, *short), ["seal 0 0", *["case 1 0"] * 4, EMPTY]
    # Right but for the proof's length, which is neither 296 nor 192: these are of no edition.
    others = [with_proof(first, b"\x22" * proof) for proof in (0, 191, 193, 244, 295, 297)]
    yield "proofs-of-other-lengths", bag(OPEN, *others, first), [
        "seal 0 0", *["case 1 0"] * 6, "case 0 0", "ledger spent 2 leaves 2 pool 3",
    ]
    # The same with 256 bytes more than a proof has, so that the lowest byte of the file's length is a case's.
    longer = [with_proof(first, b"\x22" * (256 + proof)) for proof in (FIRST, SECOND)]
    yield "proofs-of-256-more", bag(OPEN, *longer), ["seal 0 0", *["case 1 0"] * 2, EMPTY]
    # The same a step of 104 bytes, by which the two proofs differ, below the shorter one and above the longer one; and parts of that step between.
    steps = [with_proof(first, b"\x22" * proof) for proof in (SECOND - 104, FIRST + 104, FIRST + 208, SECOND + 26, SECOND + 78)]
    yield "proofs-104-apart", bag(OPEN, *steps), ["seal 0 0", *["case 1 0"] * 5, EMPTY]
    # The length alone says the edition. Where the second one has its first key, this file has a ciphertext, bytes of
    # 0x33: the top four bits are not zero.
    cut = first[:LENGTH[SECOND]]
    assert cut[OLD[SECOND][0]] == 0x33
    yield "first-edition-cut-to-4106", bag(OPEN, cut), answered("9 1", spent=0, pool=0)
    # And where the first one has it, this file has the r of its first old note, whose top four bits are not zero either.
    lengthened = second + bytes(LENGTH[FIRST] - LENGTH[SECOND])
    assert OLD[FIRST][0] == OLD[SECOND][0] + 104 and lengthened[OLD[FIRST][0]] & 0xF0 != 0
    yield "second-edition-lengthened-to-4210", bag(OPEN, lengthened), answered("9 1", spent=0, pool=0)


def layouts():
    """A table of three rows over 60 bytes, in order, and then with one thing wrong each time."""
    bodies = OPEN + b"abc" + b"xyz"
    yield "layout-in-order", table((1, 29, 25), (2, 54, 3), (2, 57, 3)) + bodies, ["seal 0 0", "case 1 0", "case 1 0", EMPTY]
    yield "last-body-short", table((1, 29, 25), (2, 54, 3), (2, 57, 2)) + bodies, BROKEN  # the last body stops a byte short
    yield "last-body-long", table((1, 29, 25), (2, 54, 3), (2, 57, 4)) + bodies, BROKEN  # and here a byte past the end
    yield "gap-between-bodies", table((1, 29, 25), (2, 54, 2), (2, 57, 3)) + bodies, BROKEN  # a gap of a byte between bodies
    yield "bodies-share-a-byte", table((1, 29, 25), (2, 54, 4), (2, 57, 3)) + bodies, BROKEN  # two bodies that share a byte
    # The same two with lengths that still add up to the bag's own.
    yield "gap-that-adds-up", table((1, 29, 25), (2, 54, 3), (2, 58, 3)) + bodies, BROKEN
    yield "overlap-that-adds-up", table((1, 29, 25), (2, 54, 3), (2, 56, 3)) + bodies, BROKEN
    yield "bodies-in-another-order", table((1, 29, 25), (2, 57, 3), (2, 54, 3)) + bodies, BROKEN  # bodies in another order than rows
    yield "gap-after-the-table", table((1, 30, 25), (2, 55, 3), (2, 58, 3)) + b"-" + bodies, BROKEN  # a gap after the table
    yield "kinds-exchanged", table((2, 29, 25), (1, 54, 3), (2, 57, 3)) + bodies, BROKEN  # the kinds of two rows exchanged
    yield "case-in-front", table((2, 29, 25), (2, 54, 3), (2, 57, 3)) + bodies, BROKEN  # a case in front and no seal
    yield "second-seal", table((1, 29, 25), (1, 54, 3), (2, 57, 3)) + bodies, BROKEN  # a second seal
    yield "kind-3", table((1, 29, 25), (2, 54, 3), (3, 57, 3)) + bodies, BROKEN  # a kind that there is not
    # The second body would end at 2^32 + 50: only a sum that wraps meets the third row's offset.
    yield "length-that-wraps", table((1, 29, 25), (2, 54, 2 ** 32 - 4), (2, 50, 10)) + bodies, BROKEN
    yield "ends-inside-the-table", table((1, 29, 25), (2, 54, 3), (2, 57, 3))[:-1], BROKEN  # the bag ends inside its table
    yield "count-high-byte-first", b"\x00\x03" + bag(OPEN, b"abc", b"xyz")[2:], BROKEN  # the count with its high byte first: 768
    # The first row is a seal and every other one a case: no other kind will do, wherever it stands.
    for row in range(8):
        right = 1 if row == 0 else 2
        for kind in (0, 3 - right, 3, right + 128):
            rows = [(1, 74, 25)] + [(2, 99 + i, 1) for i in range(7)]
            rows[row] = (kind, *rows[row][1:])
            yield f"kind-{kind}-in-row-{row + 1}", table(*rows) + OPEN + b"-" * 7, BROKEN
    # Offsets and lengths of the same lowest bytes: each has four, and all count.
    for width in (8, 16, 24):
        more = 2 ** width
        yield f"offset-above-{width}-bits", table((1, 20, 25), (2, 45 + more, 3)) + OPEN + b"abc", BROKEN
        yield f"length-above-{width}-bits", table((1, 20, 25), (2, 45, 3 + more)) + OPEN + b"abc", BROKEN
    yield "count-above-8-bits", struct.pack("<H", 258) + bag(OPEN, b"abc")[2:], BROKEN
    yield "eight-rows-and-a-byte", bag(OPEN, *[b"-"] * 7) + b"-", BROKEN
    yield "seal-of-24", bag(OPEN[:-1], b"abc"), BROKEN  # a seal of 24 bytes
    yield "seal-of-26", bag(OPEN + b"\x00", b"abc"), BROKEN  # and of 26


def seals():
    """What a seal's body can say. The case behind it is empty: it shows whether cases are judged."""
    nan, infinite = float("nan"), float("inf")
    passed = ["seal 0 0", "case 1 0", EMPTY]
    for name, body, lines in [
        ("gate-kind-3", seal(3, 45.0, 40.0, 50.0), BROKEN),  # a gate kind that there is not
        ("none-with-minus-zero", seal(0, 45.0, low=-0.0), BROKEN),  # none uses no limit, and minus zero is not all zero bytes
        ("at-least-with-a-high", seal(1, 45.0, low=40.0, high=50.0), BROKEN),  # at least uses no high limit
        ("low-above-high", seal(2, 45.0, 50.0, 40.0), ["seal 21 0"]),  # low above high
        ("limit-nan-before-pull", seal(1, nan, low=nan), ["seal 21 0"]),  # the limit is asked before the pull
        ("limit-infinite", seal(2, 45.0, 40.0, infinite), ["seal 21 0"]),  # a limit that is not finite
        ("nan-at-no-gate", seal(0, nan), ["seal 22 0"]),  # no number: refused even where there is no gate
        ("infinite-at-least", seal(1, infinite, low=0.0), ["seal 22 0"]),  # above the limit, and not finite
        ("nan-between", seal(2, nan, 40.0, 50.0), ["seal 22 0"]),  # neither below 40 nor above 50: still no pass
        ("low-end", seal(2, 40.0, 40.0, 50.0), passed),  # both ends are included
        ("high-end", seal(2, 50.0, 40.0, 50.0), passed),
        ("below-the-low-end", seal(2, nextafter(40.0, 0.0), 40.0, 50.0), ["seal 23 0"]),  # the next number below the low end
        ("above-the-high-end", seal(2, nextafter(50.0, 99.0), 40.0, 50.0), ["seal 23 0"]),  # and above the high end
        ("minus-zero-at-least", seal(1, -0.0, low=0.0), passed),  # a reading of minus zero; adding offset 0 makes the pull 0
        ("minus-zero-between", seal(2, -0.0, 0.0, -0.0), passed),  # and neither that pull nor the low end is above minus zero
        ("next-below-zero", seal(1, -5e-324, low=0.0), ["seal 23 0"]),  # the number next below zero
    ]:
        yield name, bag(body, b""), lines
    # An unused limit is eight zero bytes, and each of them counts: a reader of fewer bytes lets one of these pass.
    for name, body, unused in [
        ("none", seal(0, 45.0), range(1, 17)),
        ("at-least", seal(1, 45.0, low=40.0), range(9, 17)),
    ]:
        for at in unused:
            yield f"{name}-with-byte-{at}", bag(with_byte_changed(body, at), b""), BROKEN


def refused_cases(edition):
    """For each number and place that a fresh ledger can give to its first case: one that is right but for that."""
    def made(label, **more):
        return case(f"refused {label}", edition=edition, **more)

    def right(label, **more):
        return made(label, vpub_old=9, new=(4, 5), **more)

    def changed(label, at):
        return with_byte_changed(right(label), at)

    def topped(label, at):
        file = right(label)
        return file[:at] + bytes([file[at] | 0x10]) + file[at + 1:]

    old, new = OLD[edition], NEW[edition]
    twice = old_note("refused twice")
    yield 1, 0, right("length")[:-1]
    yield 4, 0, made("both", vpub_old=9, vpub_new=9)
    yield 5, 1, made("5 1", vpub_old=MAX_MONEY + 1, new=(MAX_MONEY + 1, 0))
    yield 5, 2, made("5 2", vpub_new=MAX_MONEY + 1, old=[old_note("much", MAX_MONEY + 1), old_note("none")])
    yield 6, 0, right("anchor", anchor=secret("another root"))
    yield 7, 0, right("twice", old=[twice, twice])
    for i in (1, 2):
        yield 9, i, topped(f"key {i}", old[i - 1])
    yield 9, 3, topped("phi", PHI[edition])
    for i in (1, 2):
        notes = [old_note(f"stray {i} {k}", 9 if k == i else 0) for k in (1, 2)]
        yield 10, i, made(f"stray {i}", old=notes, new=(9, 0))
    yield 11, 0, made("balance", vpub_old=9, new=(4, 4))
    for number, places in [
        (12, [48, 80]),  # the nullifiers
        (13, [at + 32 for at in old]),  # the old notes' addresses
        (14, [240, 272]),  # the tags
        (15, [at + 40 for at in new]),  # the new notes' rho
        (16, [112, 144]),  # the commitments
    ]:
        for i, at in enumerate(places, 1):
            yield number, i, changed(f"{number} {i}", at)


def spent_before(edition):
    """Cases that share their first or their second old note with the one that is called before."""
    def shares(label, *notes):
        return case(label, vpub_old=1, new=(1, 0), old=[old_note(note) for note in notes], edition=edition)

    yield 8, 1, shares("spent again", "before old 1", "own")
    yield 8, 2, shares("second spent", "own too", "before old 2")


def refusals():
    """Each of them as the first case of a bag and as a later one; the case before it and behind it passes."""
    before, behind = case("before", vpub_old=1, new=(1, 0)), case("behind", vpub_old=2, new=(0, 2))
    for number, place, refused in refused_cases(FIRST):
        answer = f"case {number} {place}"
        name = f"refused-{number}-{place}"
        yield f"{name}-first", bag(OPEN, refused, behind), ["seal 0 0", answer, "case 0 0", "ledger spent 2 leaves 2 pool 2"]
        yield f"{name}-later", bag(OPEN, before, refused, behind), [
            "seal 0 0", "case 0 0", answer, "case 0 0", "ledger spent 4 leaves 4 pool 3",
        ]
    for number, place, refused in spent_before(FIRST):
        yield f"refused-{number}-{place}-later", bag(OPEN, before, refused, behind), [
            "seal 0 0", "case 0 0", f"case {number} {place}", "case 0 0", "ledger spent 4 leaves 4 pool 3",
        ]
    # The pool has room for 2 more, which is just what the case behind puts in.
    full, above = puts("nearly full", MAX_MONEY - 2), puts("above", 3)
    yield "refused-17-0-later", bag(OPEN, full, above, behind), [
        "seal 0 0", "case 0 0", "case 17 0", "case 0 0", f"ledger spent 4 leaves 4 pool {MAX_MONEY}",
    ]


def refusals_in_second_edition():
    """The same in the second edition, each behind a case of the first edition that passes and before one of the second."""
    before, behind = case("before", vpub_old=1, new=(1, 0)), case("behind", vpub_old=2, new=(0, 2), edition=SECOND)
    for number, place, refused in [*refused_cases(SECOND), *spent_before(SECOND)]:
        yield f"refused-{number}-{place}-in-second-edition", bag(OPEN, before, refused, behind), answered(
            "0 0", f"{number} {place}", "0 0", spent=4, pool=3,
        )
    full, above = puts("nearly full", MAX_MONEY - 2), puts("above", 3, edition=SECOND)
    yield "refused-17-0-in-second-edition", bag(OPEN, full, above, behind), answered(
        "0 0", "17 0", "0 0", spent=4, pool=MAX_MONEY,
    )


def answered(*answers, spent, pool):
    """The lines of a bag whose seal passes and whose cases are answered so."""
    cases = [f"case {answer}" for answer in answers]
    return ["seal 0 0", *cases, f"ledger spent {spent} leaves {spent} pool {pool}"]


def puts(label, amount, **more):
    """A case that puts an amount into the pool."""
    return case(label, vpub_old=amount, new=(amount, 0), **more)


def pools():
    """Bags around the pool's upper bound.

    A fresh pool is empty, so that no first case is refused with 17: it may put in all money at most, and it has
    no note to take from. So nothing here takes out, either; the lower bound is the tape's.
    """
    all_money = puts("all money", MAX_MONEY)
    one, two, nothing = puts("a first 1", 1), puts("a later 2", 2), puts("a later 0", 0)
    wrong = with_byte_changed(puts("a wrong 1", 1), 112)
    yield "pool-all-money-first", bag(OPEN, all_money), answered("0 0", spent=2, pool=MAX_MONEY)
    # What is left of all money, and one more than that, behind a case that put 1 in.
    rest = puts("the rest", MAX_MONEY - 1)
    yield "pool-all-money-later", bag(OPEN, one, rest), answered("0 0", "0 0", spent=4, pool=MAX_MONEY)
    yield "pool-one-above-later", bag(OPEN, one, all_money), answered("0 0", "17 0", spent=2, pool=1)
    # One more than all money as a first case is too much for a public value, before the pool is asked.
    yield "pool-one-above-first", bag(OPEN, puts("all money and 1", MAX_MONEY + 1)), answered("5 1", spent=0, pool=0)
    # What was refused is not in the pool: there is room for the rest, and then for nothing.
    all_but_3, last = puts("all but 3", MAX_MONEY - 3), puts("a last 1", 1)
    yield "pool-filled-behind-17", bag(OPEN, one, all_money, all_but_3, two, last), answered(
        "0 0", "17 0", "0 0", "0 0", "17 0", spent=6, pool=MAX_MONEY,
    )
    # To a full pool as much again is too much, and a case that puts nothing in is not.
    again = puts("all money again", MAX_MONEY)
    yield "pool-full-takes-nothing", bag(OPEN, all_money, again, nothing), answered(
        "0 0", "17 0", "0 0", spent=4, pool=MAX_MONEY,
    )
    # 17 is asked last: a wrong commitment comes before it, and so does a spent nullifier.
    yield "pool-16-before-17", bag(OPEN, all_money, wrong), answered("0 0", "16 1", spent=2, pool=MAX_MONEY)
    yield "pool-8-before-17", bag(OPEN, all_money, all_money), answered("0 0", "8 1", spent=2, pool=MAX_MONEY)


# The notes of the pairs' case A, which others may spend, too.
A_FIRST, A_SECOND = old_note("pair A old 1"), old_note("pair A old 2")


def a_and_b():
    """Two cases without a nullifier in common."""
    a = case("pair A", vpub_old=100, new=(60, 40), old=[A_FIRST, A_SECOND])
    return a, case("pair B", vpub_old=7, new=(0, 7))


def sharing(label, one=None, two=None):
    """A case that puts 5 in and spends these old notes, and its own where none is given."""
    notes = [one or old_note(f"{label} own"), two or old_note(f"{label} own")]
    return case(label, vpub_old=5, new=(5, 0), old=notes)


def sharing_cases():
    """Each of these five would pass alone, and has old notes in common with A.

    Beside it: what it is answered after A, and what A is answered after it. A place is that of the nullifier in
    the case that is refused, and where both of its nullifiers are spent the lower one counts.
    """
    yield "first-is-first", sharing("first is first", one=A_FIRST), "8 1", "8 1"
    yield "second-is-second", sharing("second is second", two=A_SECOND), "8 2", "8 2"
    yield "second-is-first", sharing("second is first", two=A_FIRST), "8 2", "8 1"
    yield "first-is-second", sharing("first is second", one=A_SECOND), "8 1", "8 2"
    yield "both-exchanged", sharing("both, exchanged", one=A_SECOND, two=A_FIRST), "8 1", "8 1"


def wrong_cases():
    """Cases that are refused wherever they stand: a commitment is wrong, and the anchor is not on the roll."""
    yield "claims-wrong", with_byte_changed(case("pair claims wrong", vpub_old=1, new=(1, 0)), 112), "16 1"
    yield "anchored-elsewhere", case("pair elsewhere", anchor=secret("another root")), "6 0"


def shares_and_claims_wrong():
    return with_byte_changed(sharing("shares and claims wrong", one=A_FIRST), 112)


def judged(*cases):
    return bag(OPEN, *cases)


def pairs():
    """The third demand's pairs: each case alone, and then two of them in both orders.

    A fresh ledger has room for 2,048 nullifiers and the empty root for an anchor. None of the old notes
    has a value, so that none needs a path; two cases share a nullifier where they have an old note in
    common, its key and its rho.
    """
    a, b = a_and_b()
    yield "a-alone", judged(a), answered("0 0", spent=2, pool=100)
    yield "b-alone", judged(b), answered("0 0", spent=2, pool=7)
    # No nullifier in common: both orders pass and end alike.
    yield "a-then-b", judged(a, b), answered("0 0", "0 0", spent=4, pool=107)
    yield "b-then-a", judged(b, a), answered("0 0", "0 0", spent=4, pool=107)
    for name, shares, after_a, a_after in sharing_cases():
        yield from sharing_pair(name, shares, after_a, a_after)

    # One is refused whether it is alone, first or last, and A passes; so is a file of the wrong length, which
    # has no nullifiers though its bytes are A's.
    for name, refused, answer in [*wrong_cases(), ("a-cut-short", a[:-1], "1 0")]:
        yield from refused_pair(name, refused, answer)

    # Neither half of the demand speaks of this pair: they share a nullifier, and one would not pass alone.
    # Here the order does show, since 8 is asked before 16.
    faulty = shares_and_claims_wrong()
    yield "shares-and-claims-wrong-alone", judged(faulty), answered("16 1", spent=0, pool=0)
    yield "shares-and-claims-wrong-then-a", judged(faulty, a), answered("16 1", "0 0", spent=2, pool=100)
    yield "a-then-shares-and-claims-wrong", judged(a, faulty), answered("0 0", "8 1", spent=2, pool=100)

    # Refused for its second nullifier, a case leaves nothing of its first one: a third case may spend it.
    left = old_note("left unspent")
    spoilt = sharing("spoilt", one=left, two=A_SECOND)
    again = sharing("spends what was left", one=left)
    yield "refused-leaves-its-first-unspent", judged(a, spoilt, again), answered("0 0", "8 2", "0 0", spent=4, pool=105)

    # What is carried and never checked moves no answer and no ledger.
    carried = with_carried_changed(a)
    yield "a-with-carried-changed", judged(carried), answered("0 0", spent=2, pool=100)
    yield "a-then-a-with-carried-changed", judged(a, carried), answered("0 0", "8 1", spent=2, pool=100)
    yield "a-with-carried-changed-then-b", judged(carried, b), answered("0 0", "0 0", spent=4, pool=107)


def sharing_pair(name, shares, after_a, a_after):
    """A case that would pass alone and shares a nullifier with A: whichever is later is refused."""
    a, _ = a_and_b()
    yield f"{name}-alone", judged(shares), answered("0 0", spent=2, pool=5)
    yield f"{name}-after-a", judged(a, shares), answered("0 0", after_a, spent=2, pool=100)
    yield f"a-after-{name}", judged(shares, a), answered("0 0", a_after, spent=2, pool=5)


def refused_pair(name, refused, answer):
    """A case that is refused alone, before A and after it."""
    a, _ = a_and_b()
    yield f"{name}-alone", judged(refused), answered(answer, spent=0, pool=0)
    yield f"{name}-then-a", judged(refused, a), answered(answer, "0 0", spent=2, pool=100)
    yield f"a-then-{name}", judged(a, refused), answered("0 0", answer, spent=2, pool=100)


def edition_pairs():
    """The same pairs with one file in the second edition: all answers and ledgers are those of the first edition.

    A in the second edition is A but for what is carried: its ephemeral key, its proof and its ciphertexts are other
    bytes, and the proof is shorter.
    """
    a, b = a_and_b()
    a_2, b_2 = in_second_edition(a), in_second_edition(b)
    yield "a-in-second-edition", judged(a_2), answered("0 0", spent=2, pool=100)
    yield "b-in-second-edition", judged(b_2), answered("0 0", spent=2, pool=7)
    # One case in two editions spends the same notes, whichever edition comes first.
    yield "a-then-a-in-second-edition", judged(a, a_2), answered("0 0", "8 1", spent=2, pool=100)
    yield "a-in-second-edition-then-a", judged(a_2, a), answered("0 0", "8 1", spent=2, pool=100)
    yield "a-then-b-in-second-edition", judged(a, b_2), answered("0 0", "0 0", spent=4, pool=107)
    yield "b-in-second-edition-then-a", judged(b_2, a), answered("0 0", "0 0", spent=4, pool=107)
    yield "a-then-b-both-in-second-edition", judged(a_2, b_2), answered("0 0", "0 0", spent=4, pool=107)
    yield "b-then-a-both-in-second-edition", judged(b_2, a_2), answered("0 0", "0 0", spent=4, pool=107)
    for name, shares, after_a, a_after in sharing_cases():
        yield from sharing_pair(f"{name}-in-second-edition", in_second_edition(shares), after_a, a_after)
    for name, refused, answer in wrong_cases():
        yield from refused_pair(f"{name}-in-second-edition", in_second_edition(refused), answer)
    yield from refused_pair("a-in-second-edition-cut-short", a_2[:-1], "1 0")
    # Of this pair neither half of the demand speaks, and the order shows: see above.
    name, faulty = "shares-and-claims-wrong-in-second-edition", in_second_edition(shares_and_claims_wrong())
    yield f"{name}-then-a", judged(faulty, a), answered("16 1", "0 0", spent=2, pool=100)
    yield f"a-then-{name}", judged(a, faulty), answered("0 0", "8 1", spent=2, pool=100)


def pool_pairs():
    """Pairs that meet at the pool's upper bound, without a nullifier in common and with one."""
    c, d, e = puts("pair C", MAX_MONEY - 10), puts("pair D", 10), puts("pair E", 11)
    yield "c-alone", bag(OPEN, c), answered("0 0", spent=2, pool=MAX_MONEY - 10)
    yield "d-alone", bag(OPEN, d), answered("0 0", spent=2, pool=10)
    yield "e-alone", bag(OPEN, e), answered("0 0", spent=2, pool=11)
    # C and D fill the pool: both pass in either order.
    yield "c-then-d", bag(OPEN, c, d), answered("0 0", "0 0", spent=4, pool=MAX_MONEY)
    yield "d-then-c", bag(OPEN, d, c), answered("0 0", "0 0", spent=4, pool=MAX_MONEY)
    # C and E would put in one more than it takes. The demand does not speak of them: whichever is later is refused.
    yield "c-then-e", bag(OPEN, c, e), answered("0 0", "17 0", spent=2, pool=MAX_MONEY - 10)
    yield "e-then-c", bag(OPEN, e, c), answered("0 0", "17 0", spent=2, pool=11)
    # E's bytes but for the last: a file of the wrong length asks for nothing.
    yield "c-then-e-cut-short", bag(OPEN, c, e[:-1]), answered("0 0", "1 0", spent=2, pool=MAX_MONEY - 10)
    yield "e-cut-short-then-c", bag(OPEN, e[:-1], c), answered("1 0", "0 0", spent=2, pool=MAX_MONEY - 10)
    # The same amounts as C's and E's with a nullifier in common, which is asked before the pool.
    shares = puts("shares with C", 11, old=[old_note("shares with C own"), old_note("pair C old 1")])
    yield "shares-with-c-alone", bag(OPEN, shares), answered("0 0", spent=2, pool=11)
    yield "c-then-shares-with-c", bag(OPEN, c, shares), answered("0 0", "8 2", spent=2, pool=MAX_MONEY - 10)
    yield "shares-with-c-then-c", bag(OPEN, shares, c), answered("0 0", "8 1", spent=2, pool=11)


def edition_pool_pairs():
    """Those of them that meet at the bound, with the second one in the second edition."""
    c, d, e = puts("pair C", MAX_MONEY - 10), puts("pair D", 10, edition=SECOND), puts("pair E", 11, edition=SECOND)
    yield "c-then-d-in-second-edition", bag(OPEN, c, d), answered("0 0", "0 0", spent=4, pool=MAX_MONEY)
    yield "d-in-second-edition-then-c", bag(OPEN, d, c), answered("0 0", "0 0", spent=4, pool=MAX_MONEY)
    yield "c-then-e-in-second-edition", bag(OPEN, c, e), answered("0 0", "17 0", spent=2, pool=MAX_MONEY - 10)
    yield "e-in-second-edition-then-c", bag(OPEN, e, c), answered("0 0", "17 0", spent=2, pool=11)
    # E's bytes but for the last: 4,105 of them ask for nothing.
    yield "c-then-e-in-second-edition-cut-short", bag(OPEN, c, e[:-1]), answered("0 0", "1 0", spent=2, pool=MAX_MONEY - 10)
    yield "e-in-second-edition-cut-short-then-c", bag(OPEN, e[:-1], c), answered("1 0", "0 0", spent=2, pool=MAX_MONEY - 10)


NAMED = 2 ** 31  # a length from here on is that of a name


def tray():
    """The bytes of the tray and its lines, a name before each bag. It ends inside a bag, which ends the run."""
    runs = [
        *samples(), *lengths(), *layouts(), *seals(), *refusals(), *pools(), *pairs(), *pool_pairs(),
        *edition_lengths(), *refusals_in_second_edition(), *edition_pairs(), *edition_pool_pairs(),
    ]
    assert len({name for name, _, _ in runs}) == len(runs)
    stored, printed = b"", []
    for name, data, lines in runs:
        stored += struct.pack("<I", NAMED + len(name)) + name.encode()
        stored += struct.pack("<I", len(data)) + data
        printed += [f"run {name}", *lines]
    cut = bag(OPEN)
    stored += struct.pack("<I", len(cut)) + cut[:-1]
    return stored, printed + ["tray 50 0"]


# ---- Drafts: mint, close, spend ---------------------------------------------------------------

def parents(nodes, empty):
    """The next level of a tree, where what is missing on the right is an empty subtree."""
    filled = nodes + [empty] * (len(nodes) % 2)
    return [compress(left + right) for left, right in zip(filled[::2], filled[1::2])]


def root_and_path(leaves, position):
    """The root over some leaves, and the siblings on the way up from one of them, leaf level first."""
    nodes, empty, path = leaves, bytes(32), b""
    for level in range(DEPTH):
        sibling = (position >> level) ^ 1
        path += nodes[sibling] if sibling < len(nodes) else empty
        nodes, empty = parents(nodes, empty), compress(empty + empty)
    return nodes[0], path


def mint_and_spend():
    """A case that puts 10000 in, and one that spends its first note once the block is closed, in either edition."""
    mint = case("mint", vpub_old=10000, new=(10000, 0))
    commitments = [mint[112:144], mint[144:176]]
    root, path = root_and_path(commitments, 0)
    at = NEW[FIRST][0]
    minted = {
        "a_sk": short_key("mint receiver 1"), "a_pk": mint[at:at + 32], "value": 10000, "rho": mint[at + 40:at + 72],
        "r": mint[at + 72:at + 104], "position": 0, "path": path,
    }
    assert minted["a_pk"] == address(minted["a_sk"])
    return mint, case("spend", vpub_new=4000, old=[minted, old_note("spend old 2")], new=(6000, 0), anchor=root, edition=SECOND)


def fields(file):
    """Each field of a case, by the name that the form of a draft has for it; None where the desk works it out."""
    parts = [
        ("vpub_old", 8), ("vpub_new", 8), ("anchor", 32), (None, 64), (None, 64), ("ephemeral_key", 32), ("seed", 32),
        (None, 64), ("proof", edition_of(file)), ("ciphertext_1", 601), ("ciphertext_2", 601), ("transaction_key", 32),
    ]
    for i in (1, 2):
        note = [("key", 32), (None, 32), ("value", 8), ("rho", 32), ("r", 32), ("position", 4), ("path", DEPTH * 32)]
        parts += [(name and f"old_{i}_{name}", size) for name, size in note]
    for i in (1, 2):
        note = [("address", 32), ("value", 8), (None, 32), ("r", 32)]
        parts += [(name and f"new_{i}_{name}", size) for name, size in note]
    at = 0
    for name, size in parts + [("phi", 32)]:
        yield name, file[at:at + size]
        at += size
    assert at == len(file)


def is_number(name):
    return name.startswith("vpub") or name.endswith(("value", "position"))


def form(file, *comments):
    """A draft as the text that its holder writes."""
    lines = [f"# {comment}" for comment in comments] + [""]
    for name, data in fields(file):
        if name:
            value = str(int.from_bytes(data, "little")) if is_number(name) else data.hex()
            lines.append(f"{name} {value}")
    return as_text(lines)


def draft(file):
    """The draft as bytes: what is worked out is left zero."""
    return b"".join(data if name else bytes(len(data)) for name, data in fields(file))


def entry(kind, body=b""):
    return kind + struct.pack("<I", len(body)) + body


def written(file):
    """The tape's entry for a case that the desk writes and the judge accepts, and its lines."""
    lent = struct.pack("<I", len(file))
    return entry(b"D", lent + draft(file)), [f"desk 0 0 {hashlib.sha256(file).hexdigest()}", "case 0 0"]


def shift(mint, spend):
    """A tape that mints, closes the block and spends, and its lines."""
    one, one_lines = written(mint)
    two, two_lines = written(spend)
    spent = [commitment for file in (mint, spend) for commitment in (file[112:144], file[144:176])]
    root = root_and_path(spent, 0)[0].hex()
    return entry(b"O", struct.pack("<II", 2048, 64)) + one + entry(b"B") + two + entry(b"L"), [
        "open 0 0",
        *one_lines,
        "block 0 0",
        *two_lines,
        f"ledger spent 4 leaves 4 anchors 2 pool 6000 root {root}",
    ]


def write_drafts():
    mint, spend = mint_and_spend()
    texts = {
        "mint": form(mint, "Puts 10000 into the pool: a note of 10000 and one of nothing. The old notes have no value."),
        "spend": form(
            spend, "Spends the first note of mint.txt once its block is closed: 4000 leave the pool, 6000 stay in a new note.",
            "The anchor is the tree's root after the mint; the note stands at position 0, and this is its path."),
    }
    DRAFTS.mkdir(exist_ok=True)
    for name, file in (("mint", mint), ("spend", spend)):
        (DRAFTS / f"{name}.txt").write_text(texts[name])
        (DRAFTS / f"{name}.case").write_bytes(file)
    (DRAFTS / "mint.bag").write_bytes(bag(seal(0, 100.0), mint))
    data, lines = shift(mint, spend)
    (DRAFTS / "shift.tape").write_bytes(data)
    (DRAFTS / "shift.txt").write_text(as_text(lines))
    WRITER.mkdir(exist_ok=True)
    (WRITER / "stdin").write_text(texts["spend"])
    (WRITER / "stdout").write_bytes(b"desk 0 0\n" + spend)
    PACKER.mkdir(exist_ok=True)
    (PACKER / "stdin").write_bytes(f"between -0.25 100.1 99.9 cases {len(mint)} {len(spend)}\n".encode() + mint + spend)
    (PACKER / "stdout").write_bytes(b"bag 0 0\n" + bag(seal(2, 99.9, -0.25, 100.1), mint, spend))


def as_text(lines):
    return "".join(line + "\n" for line in lines)


def main():
    check_compression()
    for name, data, lines in samples():
        (HERE / f"{name}.bag").write_bytes(data)
        (HERE / f"{name}.txt").write_text(as_text(lines))
        if name == "example":
            (SCANNER / "stdin").write_bytes(data)
            (SCANNER / "stdout").write_text(as_text(lines))
    data, explained = spent_again()
    (HERE / "spent-rows.txt").write_text(as_text(explained))
    EXPLAINER.mkdir(exist_ok=True)
    (EXPLAINER / "stdin").write_bytes(data)
    (EXPLAINER / "stdout").write_text(as_text(explained))
    write_drafts()
    data, lines = tray()
    (TRAY / "stdin").write_bytes(data)
    (TRAY / "stdout").write_text(as_text(lines))


if __name__ == "__main__":
    main()
