//! The purse: the notes of one shift, the tree and anchors by which they can
//! be spent, and what the pool holds.

use crate::bytes::Bytes32;
use crate::case::{Amount, Case, OldNote, Position, MAX_MONEY, MAX_SUM};
use crate::hashes;
use crate::ledger::MAX_POOL;
use crate::random::Random;
use crate::tree::{empty_root, path_of_leaf, root_of_leaves, Node, DEPTH};
use crate::wallet::{idle_note, split, write_case, Note, Plan};

const KEYS: usize = 4;

/// A note and its leaf's place, if it has a leaf.
#[derive(Clone, Debug)]
pub struct Held {
    /// The note.
    pub note: Note,
    /// Its leaf's place in the purse's tree.
    pub place: Option<usize>,
}

/// A root on the ledger's roll, and how many leaves it covers.
#[derive(Clone, Copy, Debug)]
pub struct Anchor {
    /// The root.
    pub root: Node,
    /// The leaves under it.
    pub covers: usize,
}

/// The notes of one shift.
#[derive(Clone, Debug)]
pub struct Purse {
    /// Our spending keys.
    keys: Vec<Bytes32>,
    /// All leaves of the tree that our notes are in.
    leaves: Vec<Node>,
    /// The roll's roots over those leaves.
    anchors: Vec<Anchor>,
    /// Notes that can be spent.
    unspent: Vec<Held>,
    /// Notes whose nullifiers are in the table.
    pub spent: Vec<Held>,
    /// Notes in the tree that are for others, with a key of ours.
    pub strangers: Vec<Held>,
    /// Whether accepted cases add to the tree that we know.
    grows: bool,
    /// What the ledger's pool holds: a good case leaves it in its bounds.
    pub pool: u64,
}

impl Purse {
    /// The purse of a fresh ledger.
    pub fn fresh(random: &mut Random) -> Purse {
        Purse {
            keys: (0..KEYS).map(|_| random.key()).collect(),
            leaves: Vec::new(),
            anchors: vec![Anchor {
                root: empty_root(DEPTH),
                covers: 0,
            }],
            unspent: Vec::new(),
            spent: Vec::new(),
            strangers: Vec::new(),
            grows: true,
            pool: 0,
        }
    }

    /// A purse with notes of these values in a tree of its own, one after
    /// the other ours and a stranger's. Its two anchors cover some of the
    /// leaves and all of them. New notes never come into its tree. What the
    /// pool holds has nothing to do with the notes: it is often at a bound.
    pub fn from_elsewhere(random: &mut Random, values: &[Amount]) -> Purse {
        let mut purse = Purse::fresh(random);
        for value in values {
            let note = Note::random(random, *value);
            let mut stranger = Note::random(random, *value);
            stranger.a_sk = *random.pick(&purse.keys);
            purse.enter(note);
            purse.enter(stranger);
        }
        let covers = 1 + random.below(purse.leaves.len());
        purse.anchors.clear();
        purse.anchors.push(purse.anchor_over(covers));
        purse.anchors.push(purse.anchor_over(purse.leaves.len()));
        purse.stop_growing();
        purse.pool = any_pool(random);
        purse
    }

    /// From here on the ledger's tree may be another than ours.
    pub fn stop_growing(&mut self) {
        self.grows = false;
    }

    /// Appends a note's leaf, and keeps the note.
    fn enter(&mut self, note: Note) {
        self.leaves.push(note.commitment());
        let is_ours = note.a_pk == hashes::address(&note.a_sk);
        let held = Held {
            note,
            place: Some(self.leaves.len() - 1),
        };
        if is_ours {
            self.unspent.push(held);
        } else {
            self.strangers.push(held);
        }
    }

    fn anchor_over(&self, covers: usize) -> Anchor {
        Anchor {
            root: root_of_leaves(&self.leaves[..covers]),
            covers,
        }
    }

    /// The roots of the roll that are known here.
    pub fn anchors(&self) -> &[Anchor] {
        &self.anchors
    }

    /// The root over all leaves, if it is not on the roll.
    pub fn open_root(&self) -> Option<Anchor> {
        let anchor = self.anchor_over(self.leaves.len());
        let is_closed = self.anchors.iter().any(|known| known.root == anchor.root);
        (self.grows && !is_closed).then_some(anchor)
    }

    /// The block was closed: the current root is on the roll, and is given
    /// back where the purse knows it.
    pub fn close_block(&mut self) -> Option<Node> {
        if !self.grows {
            return None;
        }
        let anchor = self.anchor_over(self.leaves.len());
        self.anchors.push(anchor);
        Some(anchor.root)
    }

    /// The case was accepted: its old notes are spent, its new ones are in
    /// the tree.
    pub fn settle(&mut self, case: &Case) {
        for old in &case.old {
            self.mark_spent(old);
        }
        self.pool = self.pool + case.vpub_old.0 - case.vpub_new.0;
        if !self.grows {
            return;
        }
        for new in &case.new {
            let ours = self
                .keys
                .iter()
                .find(|key| hashes::address(key) == new.a_pk);
            let note = Note {
                a_sk: *ours.unwrap_or(&self.keys[0]),
                a_pk: new.a_pk,
                value: new.value,
                rho: new.rho,
                r: new.r,
            };
            self.enter(note);
        }
    }

    /// Moves a note to the spent ones.
    pub fn mark_spent(&mut self, old: &OldNote) {
        let nullifier = hashes::nullifier(&old.a_sk, &old.rho);
        let known = self
            .unspent
            .iter()
            .position(|held| held.note.nullifier() == nullifier);
        let held = match known {
            Some(index) => self.unspent.swap_remove(index),
            None => Held {
                note: Note {
                    a_sk: old.a_sk,
                    a_pk: old.a_pk,
                    value: old.value,
                    rho: old.rho,
                    r: old.r,
                },
                place: None,
            },
        };
        self.spent.push(held);
    }

    /// Takes one of the notes that can be spent out of the purse, as spent.
    pub fn take_spent(&mut self, random: &mut Random) -> Option<Bytes32> {
        if self.unspent.is_empty() {
            return None;
        }
        let held = self.unspent.swap_remove(random.below(self.unspent.len()));
        let nullifier = held.note.nullifier();
        self.spent.push(held);
        Some(nullifier)
    }

    /// The spent notes in the order of their nullifiers, as in the table.
    pub fn spent_in_order(&self) -> Vec<&Held> {
        let mut spent: Vec<&Held> = self.spent.iter().collect();
        spent.sort_by_key(|held| held.note.nullifier());
        spent
    }

    /// A held note as an old note under this anchor. One that the anchor
    /// does not cover gets a random path.
    pub fn old_note(&self, random: &mut Random, held: &Held, anchor: Anchor) -> OldNote {
        match held.place {
            Some(place) if place < anchor.covers => {
                let position = Position(place as u32);
                let path = path_of_leaf(&self.leaves[..anchor.covers], position);
                held.note.at(position, path)
            }
            _ => held.note.nowhere(random),
        }
    }

    /// The known anchor of a case, if it has one.
    pub fn anchor_of(&self, case: &Case) -> Option<Anchor> {
        let mut known = self.anchors.iter();
        known.find(|anchor| anchor.root == case.anchor).copied()
    }

    /// A case that the rules accept, at a random anchor.
    pub fn good_case(&self, random: &mut Random) -> Case {
        let anchor = self.choose_anchor(random);
        self.case_at(random, anchor)
    }

    /// A case that is right in all but, perhaps, its anchor. What it puts into
    /// the pool mostly leaves room for others.
    pub fn case_at(&self, random: &mut Random, anchor: Anchor) -> Case {
        let room = MAX_POOL.saturating_sub(self.pool);
        let most_in = if random.one_in(8) { room } else { room / 4 };
        let most_out = self.pool.min(MAX_POOL);
        self.case_within(random, anchor, [most_in, most_out])
    }

    /// A case that is right but for, perhaps, where it takes the pool.
    pub fn careless_case(&self, random: &mut Random) -> Case {
        let anchor = self.choose_anchor(random);
        self.case_within(random, anchor, [MAX_MONEY.0, MAX_MONEY.0])
    }

    /// A case that puts in, or takes out, at most so much.
    fn case_within(&self, random: &mut Random, anchor: Anchor, most: [u64; 2]) -> Case {
        let old = self.choose_old(random, anchor);
        let in_notes = old[0].value.whole() + old[1].value.whole();
        let (vpub_old, vpub_new) = choose_public(random, in_notes, most);
        let total = in_notes + vpub_old.whole() - vpub_new.whole();
        let values = split(random, total).expect("the public values leave what two notes hold");
        let new = values.map(|value| (self.choose_recipient(random), value));
        let plan = Plan {
            vpub_old,
            vpub_new,
            anchor: anchor.root,
            old,
            new,
        };
        write_case(random, plan)
    }

    /// Mostly the last one.
    fn choose_anchor(&self, random: &mut Random) -> Anchor {
        let last = self.anchors[self.anchors.len() - 1];
        if random.one_in(3) {
            *random.pick(&self.anchors)
        } else {
            last
        }
    }

    /// The notes that can be spent at this anchor, in a random order.
    pub fn covered(&self, random: &mut Random, anchor: Anchor) -> Vec<&Held> {
        let mut covered: Vec<&Held> = self
            .unspent
            .iter()
            .filter(|held| held.place.is_some_and(|place| place < anchor.covers))
            .collect();
        random.shuffle(&mut covered);
        covered
    }

    /// Two old notes in a random order: as many real ones as the dice say
    /// and the balance may come to, and notes that were never entered for
    /// the rest.
    fn choose_old(&self, random: &mut Random, anchor: Anchor) -> [OldNote; 2] {
        let mut covered = self.covered(random, anchor);
        covered.truncate(random.below(3));
        if sum_of(&covered) > MAX_SUM {
            covered.truncate(1);
        }
        let mut old: Vec<OldNote> = covered
            .into_iter()
            .map(|held| self.old_note(random, held, anchor))
            .collect();
        while old.len() < 2 {
            old.push(idle_note(random));
        }
        random.shuffle(&mut old);
        old.try_into().expect("two notes")
    }

    /// Mostly ourselves.
    fn choose_recipient(&self, random: &mut Random) -> Bytes32 {
        if random.one_in(5) {
            random.bytes()
        } else {
            hashes::address(random.pick(&self.keys))
        }
    }
}

/// What these notes come to.
pub fn sum_of(notes: &[&Held]) -> u128 {
    notes.iter().map(|held| held.note.value.whole()).sum()
}

/// Public values, one of them zero, for old notes of this value: so much may go
/// in, or come out.
fn choose_public(random: &mut Random, in_notes: u128, most: [u64; 2]) -> (Amount, Amount) {
    let [most_in, most_out] = most.map(u128::from);
    match random.below(3) {
        0 => (Amount::ZERO, choose_amount(random, most_out.min(in_notes))),
        1 if in_notes > 0 => (Amount::ZERO, Amount::ZERO),
        _ => {
            let amount = choose_amount(random, most_in.min(MAX_SUM - in_notes));
            (amount, Amount::ZERO)
        }
    }
}

/// What the pool of a ledger from elsewhere may hold.
fn any_pool(random: &mut Random) -> u64 {
    let between = random.between(0, MAX_POOL.into()) as u64;
    *random.pick(&[0, 1, MAX_POOL - 1, MAX_POOL, between, between])
}

/// An amount up to this one, often a round one or the most.
fn choose_amount(random: &mut Random, most: u128) -> Amount {
    let choice = match random.below(6) {
        0 => most,
        1 => 1,
        2 => 10_000,
        3 => random.between(0, 1_000_000_000),
        _ => random.between(0, most),
    };
    Amount(choice.min(most) as u64)
}
