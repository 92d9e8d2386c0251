//! Bends: a good case in, a case with one thing wrong out, and the answer
//! that it was bent for. Most leave all else right, so that a judge without
//! that check would let the case pass. Some must change nothing.
//!
//! A bend that cannot be made from the case and purse at hand gives nothing. None
//! changes the edition that the case is in.

use crate::answer::Answer;
use crate::bytes::Bytes32;
use crate::case::{Amount, Case, OldNote, Position, MAX_MONEY, MAX_SUM};
use crate::hashes;
use crate::ledger::MAX_POOL;
use crate::random::Random;
use crate::sha256::sha256;
use crate::tree::FULL;
use crate::wallet::{
    balance, set_commitments, set_new_rhos, set_new_values, set_nullifiers, set_tags, split, Note,
};

use super::edges::EDGES;
use super::purse::{sum_of, Held, Purse};

/// What a bend works with.
pub struct Bench<'a> {
    /// The dice.
    pub random: &'a mut Random,
    /// The notes of the shift.
    pub purse: &'a Purse,
}

/// One way to bend a case.
#[derive(Clone, Copy)]
pub struct Bend {
    /// What is bent, in a few words.
    pub name: &'static str,
    /// Number and place of the answer that it was bent for. Which row goes with
    /// a spent nullifier depends on the ledger.
    pub answer: Answer,
    /// The bending.
    pub apply: fn(&mut Bench, Case) -> Option<Case>,
}

/// The bend of this answer and name.
pub(super) const fn bend(
    number: u8,
    place: u8,
    name: &'static str,
    apply: fn(&mut Bench, Case) -> Option<Case>,
) -> Bend {
    Bend {
        name,
        answer: Answer::new(number, place),
        apply,
    }
}

/// All bends: those of this file, and the edges.
pub const BENDS: &[Bend] = &joined::<COUNT>();

const LISTS: [&[Bend]; 4] = [PLAIN, EDGES[0], EDGES[1], EDGES[2]];

const COUNT: usize = LISTS[0].len() + LISTS[1].len() + LISTS[2].len() + LISTS[3].len();

/// The lists one after the other.
const fn joined<const N: usize>() -> [Bend; N] {
    let mut all = [PLAIN[0]; N];
    let mut rest: &mut [Bend] = &mut all;
    let mut list = 0;
    while list < LISTS.len() {
        let (part, after) = rest.split_at_mut(LISTS[list].len());
        part.copy_from_slice(LISTS[list]);
        rest = after;
        list += 1;
    }
    all
}

/// The bends that are no edges, in the order of their answers.
const PLAIN: &[Bend] = &[
    bend(0, 0, "no bend", |_, c| Some(c)),
    bend(0, 0, "ephemeral key", ephemeral_key),
    bend(0, 0, "proof", proof),
    bend(0, 0, "ciphertext 1", |b, c| ciphertext(b, c, 0)),
    bend(0, 0, "ciphertext 2", |b, c| ciphertext(b, c, 1)),
    bend(0, 0, "nothing of value", nothing_of_value),
    bend(0, 0, "idle note 1 elsewhere", |b, c| {
        idle_elsewhere(b, c, 0)
    }),
    bend(0, 0, "idle note 2 elsewhere", |b, c| {
        idle_elsewhere(b, c, 1)
    }),
    bend(0, 0, "idle note 1 at the last leaf", |b, c| {
        idle_at_last_leaf(b, c, 0)
    }),
    bend(0, 0, "idle note 2 at the last leaf", |b, c| {
        idle_at_last_leaf(b, c, 1)
    }),
    bend(4, 0, "both public values, balanced", both_public),
    bend(4, 0, "both public values, one off the scale", |_, mut c| {
        c.vpub_old = Amount(u64::MAX);
        c.vpub_new = Amount(1);
        Some(c)
    }),
    bend(4, 0, "random bytes all through", |b, c| {
        let mut file = c.to_bytes();
        b.random.fill(&mut file);
        Case::read(&file)
    }),
    bend(4, 0, "all bits set", |_, c| all_through(&c, 0xff)),
    bend(5, 1, "vpub_old one above", |b, c| {
        public_or_unbalanced(b, c, one_above(), Amount::ZERO)
    }),
    bend(5, 1, "vpub_old far above", |b, c| {
        let amount = far_above(b.random);
        public_or_unbalanced(b, c, amount, Amount::ZERO)
    }),
    bend(5, 2, "vpub_new one above", |b, c| {
        public_or_unbalanced(b, c, Amount::ZERO, one_above())
    }),
    bend(5, 2, "vpub_new one above, balanced", |b, c| {
        public(b, c, Amount::ZERO, one_above())
    }),
    bend(5, 2, "vpub_new far above", |b, c| {
        let amount = far_above(b.random);
        public_or_unbalanced(b, c, Amount::ZERO, amount)
    }),
    bend(6, 0, "random anchor", |b, mut c| {
        c.anchor = b.random.bytes();
        Some(c)
    }),
    bend(6, 0, "root of the open block", open_root),
    bend(6, 0, "zero bytes as anchor", |_, mut c| {
        c.anchor = [0; 32];
        Some(c)
    }),
    bend(6, 0, "zero bytes all through", |_, c| all_through(&c, 0)),
    bend(7, 0, "one note in both places", one_note_twice),
    bend(7, 0, "nullifier 1 copied", |_, mut c| {
        c.nullifiers[1] = c.nullifiers[0];
        Some(c)
    }),
    bend(7, 0, "a spent note in both places", spent_twice),
    bend(8, 1, "spent note in place 1", |b, c| spent(b, c, 0)),
    bend(8, 2, "spent note in place 2", |b, c| spent(b, c, 1)),
    bend(8, 1, "two spent notes", two_spent),
    bend(8, 1, "spent nullifier 1 copied in", |b, c| {
        spent_nullifier(b, c, 0)
    }),
    bend(8, 2, "spent nullifier 2 copied in", |b, c| {
        spent_nullifier(b, c, 1)
    }),
    bend(8, 1, "spent note of the first row in place 1", |b, c| {
        let held = *b.purse.spent_in_order().first()?;
        put_held(b, c, held, 0)
    }),
    bend(8, 2, "spent note of the first row in place 2", |b, c| {
        let held = *b.purse.spent_in_order().first()?;
        put_held(b, c, held, 1)
    }),
    bend(8, 1, "spent note of the last row in place 1", |b, c| {
        let held = *b.purse.spent_in_order().last()?;
        put_held(b, c, held, 0)
    }),
    bend(8, 2, "spent note of the last row in place 2", |b, c| {
        let held = *b.purse.spent_in_order().last()?;
        put_held(b, c, held, 1)
    }),
    bend(9, 1, "key 1 has top bits", |b, c| key_bits(b, c, 0)),
    bend(9, 2, "key 2 has top bits", |b, c| key_bits(b, c, 1)),
    bend(9, 1, "position 1 beyond, low bits kept", |b, c| {
        position_beyond(b, c, 0)
    }),
    bend(9, 2, "position 2 beyond, low bits kept", |b, c| {
        position_beyond(b, c, 1)
    }),
    bend(9, 1, "position 1 is 2^29", |_, c| position_is(c, 0, FULL)),
    bend(9, 2, "position 2 is 2^29", |_, c| position_is(c, 1, FULL)),
    bend(9, 1, "position 1 is 2^32 - 1", |_, c| {
        position_is(c, 0, u32::MAX)
    }),
    bend(9, 2, "position 2 is 2^32 - 1", |_, c| {
        position_is(c, 1, u32::MAX)
    }),
    bend(9, 3, "phi has top bits", |b, mut c| {
        set_top_bits(b.random, &mut c.phi);
        Some(c)
    }),
    bend(10, 1, "note 1 never entered", |b, c| never_entered(b, c, 0)),
    bend(10, 2, "note 2 never entered", |b, c| never_entered(b, c, 1)),
    bend(10, 1, "path 1 one bit off", |b, c| path_bit(b, c, 0)),
    bend(10, 2, "path 2 one bit off", |b, c| path_bit(b, c, 1)),
    bend(10, 1, "position 1 one bit off", |b, c| {
        position_bit(b, c, 0)
    }),
    bend(10, 2, "position 2 one bit off", |b, c| {
        position_bit(b, c, 1)
    }),
    bend(10, 1, "old value 1 raised, balanced", |b, c| {
        value_raised(b, c, 0)
    }),
    bend(10, 2, "old value 2 raised, balanced", |b, c| {
        value_raised(b, c, 1)
    }),
    bend(10, 1, "old trapdoor 1 one bit off", |b, c| {
        trapdoor(b, c, 0)
    }),
    bend(10, 2, "old trapdoor 2 one bit off", |b, c| {
        trapdoor(b, c, 1)
    }),
    bend(10, 1, "anchor older than note 1", |b, c| {
        older_anchor(b, c, 0)
    }),
    bend(10, 2, "anchor older than note 2", |b, c| {
        older_anchor(b, c, 1)
    }),
    bend(11, 0, "new value one off", new_value_off),
    bend(11, 0, "public value one off", public_value_off),
    bend(11, 0, "new values 2^64 too high", |b, c| {
        let total = c.value_in().checked_sub(c.vpub_new.whole())?;
        new_total(b, c, total + (1 << 64))
    }),
    bend(11, 0, "new values 2^64 too low", |b, c| {
        above_64_bits(b, c, 1 << 64)
    }),
    bend(11, 0, "both sides above 64 bits", |b, c| {
        above_64_bits(b, c, 0)
    }),
    bend(12, 1, "rho of idle note 1 one bit off", |b, c| {
        idle_rho(b, c, 0)
    }),
    bend(12, 2, "rho of idle note 2 one bit off", |b, c| {
        idle_rho(b, c, 1)
    }),
    bend(
        12,
        1,
        "nullifiers swapped, the rest made for it",
        |_, mut c| {
            c.nullifiers.swap(0, 1);
            set_tags(&mut c);
            set_new_rhos(&mut c);
            Some(c)
        },
    ),
    bend(12, 1, "another key for idle note 1", |b, c| {
        another_key(b, c, 0)
    }),
    bend(12, 2, "another key for idle note 2", |b, c| {
        another_key(b, c, 1)
    }),
    bend(13, 1, "a stranger's note in place 1", |b, c| {
        stranger(b, c, 0)
    }),
    bend(13, 2, "a stranger's note in place 2", |b, c| {
        stranger(b, c, 1)
    }),
    bend(14, 1, "tag 1 made as tag 2", |_, c| {
        tag_of_other_place(c, 0)
    }),
    bend(14, 2, "tag 2 made as tag 1", |_, c| {
        tag_of_other_place(c, 1)
    }),
    bend(14, 1, "tags swapped", |_, mut c| {
        c.tags.swap(0, 1);
        Some(c)
    }),
    bend(
        14,
        1,
        "seed one bit off, all but the tags made for it",
        |b, mut c| {
            b.random.flip_bit(&mut c.seed);
            set_new_rhos(&mut c);
            Some(c)
        },
    ),
    bend(
        14,
        1,
        "transaction key one bit off, all but the tags made for it",
        |b, mut c| {
            b.random.flip_bit(&mut c.transaction_key);
            set_new_rhos(&mut c);
            Some(c)
        },
    ),
    bend(15, 1, "new rho 1 made as rho 2, committed", |_, c| {
        new_rho_of_other_place(c, 0)
    }),
    bend(15, 2, "new rho 2 made as rho 1, committed", |_, c| {
        new_rho_of_other_place(c, 1)
    }),
    bend(15, 1, "phi's low bits off", |b, mut c| {
        b.random.flip_bit(&mut c.phi[1..]);
        Some(c)
    }),
    bend(16, 1, "commitments swapped", |_, mut c| {
        c.commitments.swap(0, 1);
        Some(c)
    }),
    bend(16, 1, "new trapdoor 1 one bit off", |b, c| {
        new_trapdoor(b, c, 0)
    }),
    bend(16, 2, "new trapdoor 2 one bit off", |b, c| {
        new_trapdoor(b, c, 1)
    }),
    bend(16, 1, "new address 1 one bit off", |b, c| {
        new_address(b, c, 0)
    }),
    bend(16, 2, "new address 2 one bit off", |b, c| {
        new_address(b, c, 1)
    }),
    bend(16, 1, "value 1 committed highest byte first", |_, c| {
        value_reversed(c, 0)
    }),
    bend(16, 2, "value 2 committed highest byte first", |_, c| {
        value_reversed(c, 1)
    }),
    bend(17, 0, "pool one above its most", |b, c| {
        let above = pool_room(b)? + 1;
        public_up_to_all_money(b, c, Amount(above), Amount::ZERO)
    }),
    bend(17, 0, "pool one below zero", |b, c| {
        let below = b.purse.pool.checked_add(1)?;
        public_up_to_all_money(b, c, Amount::ZERO, Amount(below))
    }),
    bend(17, 0, "vpub_old at its most", |b, c| {
        (pool_room(b)? < MAX_MONEY.0).then_some(())?;
        public(b, c, MAX_MONEY, Amount::ZERO)
    }),
    bend(17, 0, "vpub_new at its most", |b, c| {
        (b.purse.pool < MAX_MONEY.0).then_some(())?;
        public(b, c, Amount::ZERO, MAX_MONEY)
    }),
];

/// The bend of this name, which must be one of those above.
pub fn bend_named(name: &str) -> &'static Bend {
    BENDS
        .iter()
        .find(|bend| bend.name == name)
        .expect("a bend of this name")
}

/// This byte in every place of a file of the case's edition.
fn all_through(case: &Case, byte: u8) -> Option<Case> {
    Case::read(&vec![byte; case.edition().case_bytes()])
}

// Bends that must change nothing.

fn ephemeral_key(b: &mut Bench, mut case: Case) -> Option<Case> {
    b.random.flip_bit(&mut case.ephemeral_key);
    Some(case)
}

fn proof(b: &mut Bench, mut case: Case) -> Option<Case> {
    b.random.flip_bit(case.proof.bytes_mut());
    Some(case)
}

fn ciphertext(b: &mut Bench, mut case: Case, which: usize) -> Option<Case> {
    b.random.flip_bit(&mut case.ciphertexts[which]);
    Some(case)
}

/// All values zero: nothing goes in, nothing comes out.
fn nothing_of_value(b: &mut Bench, mut case: Case) -> Option<Case> {
    let is_idle = case.old.iter().all(|note| note.value == Amount::ZERO);
    is_idle.then_some(())?;
    case.vpub_old = Amount::ZERO;
    case.vpub_new = Amount::ZERO;
    balance(b.random, &mut case).then_some(case)
}

/// The old note of this place, if its value is zero.
pub(super) fn idle(case: &mut Case, which: usize) -> Option<&mut OldNote> {
    let note = &mut case.old[which];
    (note.value == Amount::ZERO).then_some(note)
}

/// The old note of this place, if it has value.
pub(super) fn valued(case: &mut Case, which: usize) -> Option<&mut OldNote> {
    let note = &mut case.old[which];
    (note.value != Amount::ZERO).then_some(note)
}

/// Another path, position and trapdoor: none of them counts.
fn idle_elsewhere(b: &mut Bench, mut case: Case, which: usize) -> Option<Case> {
    let note = idle(&mut case, which)?;
    note.position = Position(b.random.below(FULL as usize) as u32);
    note.path = std::array::from_fn(|_| b.random.bytes());
    note.r = b.random.bytes();
    Some(case)
}

fn idle_at_last_leaf(_: &mut Bench, mut case: Case, which: usize) -> Option<Case> {
    idle(&mut case, which)?.position = Position(FULL - 1);
    Some(case)
}

// Public values.

fn one_above() -> Amount {
    Amount(MAX_MONEY.0 + 1)
}

/// Amounts that are below zero as signed numbers.
fn far_above(random: &mut Random) -> Amount {
    Amount(*random.pick(&[u64::MAX, 1 << 63, (1 << 63) + 1, 1 << 62, u64::MAX / 2]))
}

/// Sets the public values and balances the case.
fn public(b: &mut Bench, mut case: Case, vpub_old: Amount, vpub_new: Amount) -> Option<Case> {
    case.vpub_old = vpub_old;
    case.vpub_new = vpub_new;
    balance(b.random, &mut case).then_some(case)
}

/// The same, if neither public value is above all money.
fn public_up_to_all_money(
    b: &mut Bench,
    case: Case,
    vpub_old: Amount,
    vpub_new: Amount,
) -> Option<Case> {
    (vpub_old.max(vpub_new) <= MAX_MONEY).then_some(())?;
    public(b, case, vpub_old, vpub_new)
}

/// What the pool can still take, if it is in its bounds.
fn pool_room(b: &Bench) -> Option<u64> {
    MAX_POOL.checked_sub(b.purse.pool)
}

/// Sets the public values and balances the case, or leaves it unbalanced.
fn public_or_unbalanced(
    b: &mut Bench,
    mut case: Case,
    vpub_old: Amount,
    vpub_new: Amount,
) -> Option<Case> {
    case.vpub_old = vpub_old;
    case.vpub_new = vpub_new;
    balance(b.random, &mut case);
    Some(case)
}

fn both_public(b: &mut Bench, mut case: Case) -> Option<Case> {
    let more = 1 + b.random.below(1000) as u64;
    case.vpub_old = Amount(case.vpub_old.0.checked_add(more)?);
    case.vpub_new = Amount(case.vpub_new.0.checked_add(more)?);
    Some(case)
}

// Anchors.

/// A case whose notes lead to the root of the block that is still open.
fn open_root(b: &mut Bench, case: Case) -> Option<Case> {
    let anchor = b.purse.open_root()?;
    let open = b.purse.case_at(b.random, anchor);
    Some(open.with_proof(case.proof))
}

/// An anchor on the roll that is older than the note's leaf.
fn older_anchor(b: &mut Bench, mut case: Case, which: usize) -> Option<Case> {
    valued(&mut case, which)?;
    idle(&mut case, 1 - which)?;
    let place = case.old[which].position.0 as usize;
    let anchors = b.purse.anchors().iter();
    let older: Vec<Bytes32> = anchors
        .filter(|anchor| anchor.covers <= place)
        .map(|anchor| anchor.root)
        .collect();
    if older.is_empty() {
        return None;
    }
    case.anchor = *b.random.pick(&older);
    Some(case)
}

// Nullifiers.

/// The same note twice, with or without value; all else is made for it.
fn one_note_twice(b: &mut Bench, mut case: Case) -> Option<Case> {
    case.old[1] = case.old[0].clone();
    set_nullifiers(&mut case);
    balance(b.random, &mut case).then_some(case)
}

/// One of these notes, if there is any.
pub(super) fn pick_held<'a>(random: &mut Random, held: &'a [Held]) -> Option<&'a Held> {
    (!held.is_empty()).then(|| random.pick(held))
}

/// Puts a held note into this place; all else is made for it.
fn put_held(b: &mut Bench, mut case: Case, held: &Held, which: usize) -> Option<Case> {
    let anchor = b.purse.anchor_of(&case)?;
    case.old[which] = b.purse.old_note(b.random, held, anchor);
    set_nullifiers(&mut case);
    balance(b.random, &mut case).then_some(case)
}

fn spent(b: &mut Bench, case: Case, which: usize) -> Option<Case> {
    let held = pick_held(b.random, &b.purse.spent)?;
    put_held(b, case, held, which)
}

fn two_spent(b: &mut Bench, case: Case) -> Option<Case> {
    let first = pick_held(b.random, &b.purse.spent)?;
    let second = pick_held(b.random, &b.purse.spent)?;
    if first.note == second.note {
        return None;
    }
    let case = put_held(b, case, first, 0)?;
    put_held(b, case, second, 1)
}

fn spent_twice(b: &mut Bench, case: Case) -> Option<Case> {
    let held = pick_held(b.random, &b.purse.spent)?;
    let case = put_held(b, case, held, 0)?;
    one_note_twice(b, case)
}

fn spent_nullifier(b: &mut Bench, mut case: Case, which: usize) -> Option<Case> {
    let held = pick_held(b.random, &b.purse.spent)?;
    case.nullifiers[which] = held.note.nullifier();
    Some(case)
}

fn idle_rho(b: &mut Bench, mut case: Case, which: usize) -> Option<Case> {
    b.random.flip_bit(&mut idle(&mut case, which)?.rho);
    Some(case)
}

/// Another key with its own address; only the nullifier is the old key's.
fn another_key(b: &mut Bench, mut case: Case, which: usize) -> Option<Case> {
    let note = idle(&mut case, which)?;
    note.a_sk = b.random.key();
    note.a_pk = hashes::address(&note.a_sk);
    set_tags(&mut case);
    Some(case)
}

// Encodings.

/// Sets some of the top four bits; the low 252 stay.
fn set_top_bits(random: &mut Random, key: &mut Bytes32) {
    key[0] |= (1 + random.below(15) as u8) << 4;
}

fn key_bits(b: &mut Bench, mut case: Case, which: usize) -> Option<Case> {
    set_top_bits(b.random, &mut case.old[which].a_sk);
    Some(case)
}

fn position_beyond(b: &mut Bench, mut case: Case, which: usize) -> Option<Case> {
    case.old[which].position.0 |= (1 + b.random.below(7) as u32) << 29;
    Some(case)
}

fn position_is(mut case: Case, which: usize, position: u32) -> Option<Case> {
    case.old[which].position = Position(position);
    Some(case)
}

// Paths.

/// A note of value that no tree holds; all else is made for it.
fn never_entered(b: &mut Bench, mut case: Case, which: usize) -> Option<Case> {
    let value = Amount(1 + b.random.below(1_000_000) as u64);
    case.old[which] = Note::random(b.random, value).nowhere(b.random);
    set_nullifiers(&mut case);
    balance(b.random, &mut case).then_some(case)
}

fn path_bit(b: &mut Bench, mut case: Case, which: usize) -> Option<Case> {
    let path = &mut valued(&mut case, which)?.path;
    b.random.flip_bit(path.as_flattened_mut());
    Some(case)
}

fn position_bit(b: &mut Bench, mut case: Case, which: usize) -> Option<Case> {
    valued(&mut case, which)?.position.0 ^= 1 << b.random.below(29);
    Some(case)
}

fn value_raised(b: &mut Bench, mut case: Case, which: usize) -> Option<Case> {
    let value = &mut valued(&mut case, which)?.value;
    *value = Amount(value.0.checked_add(1)?);
    balance(b.random, &mut case).then_some(case)
}

fn trapdoor(b: &mut Bench, mut case: Case, which: usize) -> Option<Case> {
    b.random.flip_bit(&mut valued(&mut case, which)?.r);
    Some(case)
}

// The balance.

fn new_value_off(b: &mut Bench, mut case: Case) -> Option<Case> {
    let note = &mut case.new[b.random.below(2)];
    note.value = Amount(note.value.0.checked_add(1)?);
    set_commitments(&mut case);
    Some(case)
}

/// One unit more in a public value; the other one stays zero.
fn public_value_off(_: &mut Bench, mut case: Case) -> Option<Case> {
    let public = if case.vpub_new == Amount::ZERO {
        &mut case.vpub_old
    } else {
        &mut case.vpub_new
    };
    *public = Amount(public.0.checked_add(1)?);
    (*public <= MAX_MONEY).then_some(case)
}

/// Two real notes of more than 64 bits together, and new ones of as much
/// less this.
fn above_64_bits(b: &mut Bench, mut case: Case, less: u128) -> Option<Case> {
    let anchor = b.purse.anchor_of(&case)?;
    let covered = b.purse.covered(b.random, anchor);
    let pair = covered.windows(2).find(|pair| sum_of(pair) > MAX_SUM)?;
    for (place, held) in pair.iter().enumerate() {
        case.old[place] = b.purse.old_note(b.random, held, anchor);
    }
    set_nullifiers(&mut case);
    let total = case.value_in() - case.vpub_new.whole();
    new_total(b, case, total.checked_sub(less)?)
}

/// New notes with this sum.
fn new_total(b: &mut Bench, mut case: Case, total: u128) -> Option<Case> {
    let values = split(b.random, total)?;
    set_new_values(&mut case, values);
    Some(case)
}

// Addresses and tags.

/// A note that is in the tree but for someone else's address.
fn stranger(b: &mut Bench, case: Case, which: usize) -> Option<Case> {
    let covers = b.purse.anchor_of(&case)?.covers;
    let held = pick_held(b.random, &b.purse.strangers)?;
    held.place.filter(|place| *place < covers)?;
    put_held(b, case, held, which)
}

fn tag_of_other_place(mut case: Case, which: usize) -> Option<Case> {
    case.tags[which] = hashes::tag(1 - which, &case.old[which].a_sk, &case.h_sig());
    Some(case)
}

// New notes.

fn new_rho_of_other_place(mut case: Case, which: usize) -> Option<Case> {
    case.new[which].rho = hashes::new_rho(1 - which, &case.phi, &case.h_sig());
    set_commitments(&mut case);
    Some(case)
}

fn new_trapdoor(b: &mut Bench, mut case: Case, which: usize) -> Option<Case> {
    b.random.flip_bit(&mut case.new[which].r);
    Some(case)
}

fn new_address(b: &mut Bench, mut case: Case, which: usize) -> Option<Case> {
    b.random.flip_bit(&mut case.new[which].a_pk);
    Some(case)
}

/// A commitment to the value's bytes in the other order.
fn value_reversed(mut case: Case, which: usize) -> Option<Case> {
    let note = &case.new[which];
    let mut message = vec![0xb0];
    message.extend(note.a_pk);
    message.extend(note.value.0.to_be_bytes());
    message.extend(note.rho);
    message.extend(note.r);
    case.commitments[which] = sha256(&message);
    let differs = note.value.0 != note.value.0.swap_bytes();
    differs.then_some(case)
}
