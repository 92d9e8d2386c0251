//! The tape maker: random shifts from a seed.
//!
//! A tape is a run of scenes. Each scene opens or plants a ledger and does
//! something with it: an ordinary day with notes created and spent, odd
//! rooms, damage, ledgers from elsewhere, big ledgers, seals. Of the cases that
//! the desk could have written half come as drafts, which it writes. Wherever
//! the maker knows what the answer has to be, it checks the judge's.

pub mod bends;
mod by_rule;
mod coverage;
mod depots;
mod drafts;
mod edges;
mod editions;
mod misses;
mod pools;
pub mod purse;
mod rows;
mod scenes;
mod seals;
mod searches;
pub mod tampers;

use std::collections::HashMap;

use crate::answer::{Answer, Row, SPENT};
use crate::case::{Case, Edition};
use crate::judge::all_refusals;
use crate::ledger::{Ledger, MAX_POOL};
use crate::random::Random;
use crate::tape::{
    desk_line, draft_body, entry, plant_body, play, Player, LENT_BYTE, MAX_BODY_BYTES,
};
use crate::wallet::{in_edition, set_nullifiers};

use bends::{Bench, Bend, BENDS};
pub use coverage::Coverage;
use drafts::{draft_of, is_of_desk};
use purse::Purse;
use tampers::{Tamper, TAMPERS};

/// How often a bend is tried before it is put off.
const TRIES: usize = 60;

/// Of how many judged cases one is followed by a look at the memory.
const CASES_TO_A_LOOK: usize = 30;

/// How long a table may be that is looked at without a run's asking for it: all
/// its bytes are hashed.
const LOOKED_AT_BYTES: usize = 100_000;

/// A tape, the lines it must print, and what it reaches.
pub struct Tape {
    /// The tape's bytes.
    pub bytes: Vec<u8>,
    /// The lines.
    pub lines: Vec<String>,
    /// Which answers and which bends are on it, and how often.
    pub coverage: Coverage,
}

/// Makes the tape of this seed with this many sound entries. One tape in
/// four has a broken entry after them.
pub fn make_tape(seed: u64, entries: usize) -> Tape {
    let mut maker = Maker::new(seed, entries);
    maker.play_scenes();
    maker.finish()
}

/// Lengths that a case file may not have, and that a tape tries more often than
/// others: none, one byte, and one byte off either edition.
const WRONG_LENGTHS: [usize; 6] = [0, 1, 4_105, 4_107, 4_209, 4_211];

/// One sound entry, and what it was made for.
struct Made {
    bytes: Vec<u8>,
    purpose: Option<String>,
    /// The edition, if it is a case or a draft of a right length.
    edition: Option<Edition>,
}

/// The edition of an entry's case or draft, if it is of a right length.
fn edition_of(kind: u8, body: &[u8]) -> Option<Edition> {
    let length = match kind {
        b'C' => Some(body.len()),
        b'D' => body.len().checked_sub(4),
        _ => None,
    };
    length.and_then(Edition::of_length)
}

/// A tape in the making.
struct Maker {
    random: Random,
    player: Player,
    purse: Purse,
    made: Vec<Made>,
    /// How many entries were made, names aside, and how many are wanted.
    counted: usize,
    wanted: usize,
    /// Whether entries go on the tape though it has as many as are wanted.
    is_beside: bool,
    /// How often each name was given.
    runs: HashMap<String, usize>,
    /// Bends that have not been on the tape yet, by the edition that they are due
    /// in.
    bends_due: Vec<(&'static Bend, Edition)>,
    /// Pairs of neighbours in the table of refusals that have not both
    /// applied to one case yet.
    pairs_due: Vec<(Answer, Answer)>,
    /// Tampers that have not been on the tape yet; all of them again once
    /// they have been.
    tampers_due: Vec<&'static Tamper>,
    /// Kinds of seals that have not been on the tape yet; all of them again
    /// once they have been.
    seals_due: Vec<seals::Kind>,
    /// Whether the ledger was planted, not opened, on a table that is looked at.
    is_planted: bool,
    /// Whether something was done to a planted ledger since its memory was
    /// looked at.
    memory_due: bool,
    /// Ledgers that were grown on this tape to be used again, and the purses that
    /// fit them.
    grown: HashMap<&'static str, (Ledger, Purse)>,
    /// How many scenes with long buffers, or long entries, may still be made; the
    /// first scenes have theirs besides.
    long_left: usize,
}

impl Maker {
    fn new(seed: u64, wanted: usize) -> Maker {
        let mut random = Random::new(seed);
        let purse = Purse::fresh(&mut random);
        let in_both = |bend| Edition::ALL.map(|edition| (bend, edition));
        let mut bends_due: Vec<(&Bend, Edition)> = BENDS.iter().flat_map(in_both).collect();
        random.shuffle(&mut bends_due);
        Maker {
            random,
            player: Player::new(),
            purse,
            made: Vec::new(),
            counted: 0,
            wanted,
            is_beside: false,
            runs: HashMap::new(),
            bends_due,
            pairs_due: neighbours(),
            tampers_due: Vec::new(),
            seals_due: Vec::new(),
            is_planted: false,
            memory_due: false,
            grown: HashMap::new(),
            long_left: wanted.saturating_sub(600) / 150,
        }
    }

    /// Whether no more entries go on the tape.
    fn is_done(&self) -> bool {
        self.counted >= self.wanted && !self.is_beside
    }

    /// Names what follows on the tape, if anything does. The first run of a name
    /// has it alone, a later one with its number.
    fn name(&mut self, name: &str) {
        if self.is_done() {
            return;
        }
        let runs = self.runs.entry(name.to_owned()).or_insert(0);
        *runs += 1;
        let number = *runs;
        let name = match number {
            1 => name.to_owned(),
            _ => format!("{name}-{number}"),
        };
        self.put(b'N', name.as_bytes(), None);
    }

    /// The first entries as wanted, and perhaps a broken one.
    fn finish(mut self) -> Tape {
        let mut bytes: Vec<u8> = Vec::new();
        for made in &self.made {
            bytes.extend(&made.bytes);
        }
        if self.random.one_in(4) {
            bytes.extend(scenes::broken_end(&mut self.random));
        }
        let lines = play(&bytes);
        let made = self.made.into_iter();
        let purposes = made.filter_map(|made| Some((made.purpose?, made.edition)));
        let coverage = Coverage::of(&lines, purposes);
        Tape {
            bytes,
            lines,
            coverage,
        }
    }

    /// Plays an entry and puts it on the tape.
    fn put(&mut self, kind: u8, body: &[u8], purpose: Option<String>) -> Vec<String> {
        assert!(body.len() <= MAX_BODY_BYTES, "no entry may be longer");
        let lines = self.player.play(kind, body).expect("a sound entry");
        let bytes = entry(kind, body);
        match kind {
            b'O' => self.is_planted = false,
            b'P' | b'K' => self.is_planted = !self.is_long(),
            b'M' => self.memory_due = false,
            _ => (),
        }
        if matches!(kind, b'P' | b'K' | b'T' | b'A' | b'F' | b'C' | b'D' | b'B') {
            self.memory_due = self.is_planted;
        }
        if kind == b'N' || !self.is_done() {
            self.made.push(Made {
                bytes,
                purpose,
                edition: edition_of(kind, body),
            });
        }
        if kind != b'N' {
            self.counted += 1;
        }
        lines
    }

    /// Puts an entry that is answered on the tape.
    fn ask(&mut self, kind: u8, body: &[u8], purpose: Option<String>) -> Answer {
        let lines = self.put(kind, body, purpose);
        coverage::answer_in(&lines).expect("an answer")
    }

    /// Has a case file judged. Half of those that the desk could have written come
    /// as drafts.
    fn ask_file(&mut self, file: &[u8], purpose: &str) -> Answer {
        match Case::read(file).filter(is_of_desk) {
            Some(case) if self.random.one_in(2) => {
                let draft = draft_of(&mut self.random, &case);
                self.ask_draft(&draft, &case, purpose)
            }
            _ => self.ask(b'C', file, Some(purpose.to_owned())),
        }
    }

    /// Puts a draft on the tape of which the desk has to write this case, and gives
    /// back what the case is answered.
    fn ask_draft(&mut self, draft: &Case, case: &Case, purpose: &str) -> Answer {
        let (draft, file) = (draft.to_bytes(), case.to_bytes());
        let body = draft_body(file.len(), &draft);
        let lines = self.put(b'D', &body, Some(purpose.to_owned()));
        let (written, judged) = lines.split_first().expect("the desk's line");
        assert_eq!(*written, desk_line(Answer::PASSED, &file), "{purpose}");
        coverage::answer_in(judged).expect("an answer")
    }

    /// Puts a draft and a buffer of this length on the tape, which the desk has to
    /// refuse so.
    fn refuse_draft(&mut self, draft: &[u8], length: usize, refusal: Answer) {
        let purpose = format!("desk {refusal}");
        let lines = self.put(b'D', &draft_body(length, draft), Some(purpose));
        assert_eq!(lines, [desk_line(refusal, &vec![LENT_BYTE; length])]);
    }

    /// Puts a case file on the tape, and checks the answer.
    fn ask_case(&mut self, file: &[u8], expected: Answer, purpose: &str) {
        let answer = self.ask_file(file, purpose);
        assert_eq!(answer, expected, "a case made for: {purpose}");
        if !self.is_long() && self.random.one_in(CASES_TO_A_LOOK) {
            self.look_at_memory(if answer.is_pass() {
                "memory after an acceptance"
            } else {
                "memory after a refusal"
            });
        }
    }

    /// Whether the table is too long to be looked at now and then.
    fn is_long(&self) -> bool {
        self.player.ledger.table.len() > LOOKED_AT_BYTES
    }

    /// Puts a case on the tape that would get this answer on a ledger that
    /// is sound and has room, and settles it if it is accepted.
    fn judge(&mut self, case: &Case, answer: Answer, purpose: &str) {
        let ledger = &self.player.ledger;
        if ledger.is_damaged() {
            self.ask_case(&case.to_bytes(), Answer::new(2, 0), "damaged ledger");
        } else if ledger.free_table_rows() < 2 {
            self.ask_case(&case.to_bytes(), Answer::new(3, 0), "full table");
        } else {
            self.ask_case(&case.to_bytes(), answer, purpose);
            if answer.is_pass() {
                self.purse.settle(case);
            }
        }
    }

    /// An answer with the row that goes with it here, by another way than the
    /// judge's: below a spent nullifier stand all rows that are less.
    fn with_row(&self, answer: Answer, case: &Case) -> Answer {
        if answer.number != SPENT {
            return answer;
        }
        let nullifier = &case.nullifiers[usize::from(answer.place) - 1];
        let rows = self.player.ledger.spent_rows();
        let below = rows.iter().filter(|row| *row < nullifier).count();
        Answer::spent(answer.place, Row(below as u64))
    }

    /// What an accepted case is answered when it comes once more.
    fn spent_again(&self, case: &Case) -> Answer {
        self.with_row(Answer::new(SPENT, 1), case)
    }

    fn has_room(&self) -> bool {
        let ledger = &self.player.ledger;
        !ledger.is_damaged() && ledger.free_table_rows() >= 2
    }

    /// A case that must be accepted. If a bend that changes nothing is due, it is
    /// bent in that way.
    fn good_case(&mut self) {
        if let Some((bend, case)) = self.due_bend(|bend| bend.answer.is_pass()) {
            return self.judge_bent(&case, bend);
        }
        let case = self.purse.good_case(&mut self.random);
        self.judge(&case, Answer::PASSED, "good case");
    }

    /// A case that may take the pool outside its bounds. Whether it does is found
    /// by another way than the judge's.
    fn careless_case(&mut self) {
        let case = self.purse.careless_case(&mut self.random);
        let filled = self.purse.pool.checked_add(case.vpub_old.0);
        let left = filled.and_then(|filled| filled.checked_sub(case.vpub_new.0));
        let answer = match left {
            Some(left) if left <= MAX_POOL => Answer::PASSED,
            _ => Answer::new(17, 0),
        };
        self.judge(&case, answer, "case without regard to the pool");
    }

    /// A bent case.
    fn bent_case(&mut self) {
        match self.any_bend() {
            Some((bend, case)) => self.judge_bent(&case, bend),
            None => self.good_case(),
        }
    }

    /// A case bent in this way, if it can be, in an edition in which that is due
    /// rather than in the other.
    fn case_bent_by(&mut self, bend: &Bend) {
        let mut editions = Edition::ALL;
        self.random.shuffle(&mut editions);
        let due = editions
            .into_iter()
            .find(|edition| self.is_due(bend, *edition));
        if let Some(case) = self.try_bend(bend, due.unwrap_or(editions[0])) {
            self.judge_bent(&case, bend);
        }
    }

    /// Puts a case that was bent in this way on the tape. Where no other answer
    /// comes before, the bend is due in that edition no longer.
    fn judge_bent(&mut self, case: &Case, bend: &Bend) {
        let edition = case.edition();
        if !self.is_done() && self.is_due(bend, edition) && self.has_room() {
            self.work_off(bend, edition);
        }
        let answer = self.with_row(bend.answer, case);
        self.judge(case, answer, bend.name);
    }

    fn is_due(&self, bend: &Bend, edition: Edition) -> bool {
        let mut due = self.bends_due.iter();
        due.any(|due| due.0.name == bend.name && due.1 == edition)
    }

    /// A case bent in a way that is due. False if there is none, or if none
    /// can be made here.
    fn due_case(&mut self) -> bool {
        if !self.has_room() {
            return false;
        }
        if let Some((bend, case)) = self.due_bend(|_| true) {
            self.judge_bent(&case, bend);
            return true;
        }
        if let Some(pair) = self.take_due_pair() {
            self.judge_pair(pair);
            return true;
        }
        false
    }

    /// The first due bend of these that can be made here, where it is answered as
    /// it was made for.
    fn due_bend(&mut self, is_meant: fn(&Bend) -> bool) -> Option<(&'static Bend, Case)> {
        let mut due = self.bends_due.clone();
        due.retain(|(bend, _)| is_meant(bend));
        if due.is_empty() || !self.has_room() {
            return None;
        }
        for (bend, edition) in due {
            if let Some(case) = self.try_bend(bend, edition) {
                return Some((bend, case));
            }
            self.put_off(bend, edition);
        }
        None
    }

    /// Has a due bend that cannot be made here tried after all others.
    fn put_off(&mut self, bend: &'static Bend, edition: Edition) {
        self.work_off(bend, edition);
        self.bends_due.push((bend, edition));
    }

    /// The bend is due in this edition no longer.
    fn work_off(&mut self, bend: &Bend, edition: Edition) {
        let is_other = |due: &(&Bend, Edition)| due.0.name != bend.name || due.1 != edition;
        self.bends_due.retain(is_other);
    }

    /// A bend and an edition by the dice: among those that are due, if any are and
    /// it would be answered as it was made for, else among all.
    fn choose_bend(&mut self) -> (&'static Bend, Edition) {
        if !self.bends_due.is_empty() && self.has_room() {
            return *self.random.pick(&self.bends_due);
        }
        let bend = self.random.pick(BENDS);
        (bend, *self.random.pick(&Edition::ALL))
    }

    fn any_bend(&mut self) -> Option<(&'static Bend, Case)> {
        let (bend, edition) = self.choose_bend();
        self.try_bend(bend, edition).map(|case| (bend, case))
    }

    /// A good case in this edition.
    fn case_in(&mut self, edition: Edition) -> Case {
        let case = self.purse.good_case(&mut self.random);
        in_edition(&mut self.random, &case, edition)
    }

    /// Bends good cases of this edition until one can be bent.
    fn try_bend(&mut self, bend: &Bend, edition: Edition) -> Option<Case> {
        (0..TRIES).find_map(|_| {
            let case = self.case_in(edition);
            self.apply(bend, case)
        })
    }

    /// None too where a bend that is meant for a later refusal happens to
    /// make a nullifier that the table has: then 8 is the right answer.
    fn apply(&mut self, bend: &Bend, case: Case) -> Option<Case> {
        let was_spent = self.has_spent_of(&case);
        let mut bench = Bench {
            random: &mut self.random,
            purse: &self.purse,
        };
        let bent = (bend.apply)(&mut bench, case)?;
        let is_mishap = bend.answer.number > 8 && !was_spent && self.has_spent_of(&bent);
        (!is_mishap).then_some(bent)
    }

    fn has_spent_of(&self, case: &Case) -> bool {
        let ledger = &self.player.ledger;
        case.nullifiers.iter().any(|n| ledger.has_spent(n))
    }

    /// A case that is bent twice, so that two refusals apply: a pair that is due
    /// rather than another.
    fn pair_case(&mut self) {
        let due = if self.has_room() {
            self.take_due_pair()
        } else {
            None
        };
        match due.or_else(|| self.any_pair()) {
            Some(pair) => self.judge_pair(pair),
            None => self.good_case(),
        }
    }

    fn judge_pair(&mut self, (case, lower, higher): (Case, Answer, Answer)) {
        let answer = self.with_row(lower, &case);
        self.judge(&case, answer, &format!("pair {lower} before {higher}"));
    }

    fn take_due_pair(&mut self) -> Option<(Case, Answer, Answer)> {
        for index in 0..self.pairs_due.len() {
            let (lower, higher) = self.pairs_due[index];
            let made = (0..TRIES).find_map(|_| {
                let mut bends = [self.pick_bend(lower), self.pick_bend(higher)];
                self.random.shuffle(&mut bends);
                self.try_pair(bends[0], bends[1])
            });
            if made.is_some() {
                self.pairs_due.remove(index);
                return made;
            }
        }
        None
    }

    fn any_pair(&mut self) -> Option<(Case, Answer, Answer)> {
        (0..TRIES).find_map(|_| {
            let first = self.random.pick(BENDS);
            let then = self.random.pick(BENDS);
            self.try_pair(first, then)
        })
    }

    fn pick_bend(&mut self, answer: Answer) -> &'static Bend {
        let fitting: Vec<&'static Bend> = BENDS.iter().filter(|b| b.answer == answer).collect();
        fitting[self.random.below(fitting.len())]
    }

    /// Bends a case twice. Nothing if that undoes one of the bends, or lets
    /// a still lower refusal apply.
    fn try_pair(&mut self, first: &Bend, then: &Bend) -> Option<(Case, Answer, Answer)> {
        let case = self.purse.good_case(&mut self.random);
        let case = self.apply(first, case)?;
        let case = self.apply(then, case)?;
        let lower = first.answer.min(then.answer);
        let higher = first.answer.max(then.answer);
        let refusals: Vec<Answer> = all_refusals(&self.player.ledger, &case)
            .into_iter()
            .map(Answer::without_row)
            .collect();
        let is_pair = lower < higher
            && refusals.first() == Some(&lower)
            && refusals.contains(&higher)
            && !lower.is_pass();
        is_pair.then_some((case, lower, higher))
    }

    /// An accepted case once more, or one with its old notes swapped.
    fn replayed_case(&mut self) {
        let mut case = self.purse.good_case(&mut self.random);
        self.judge(&case, Answer::PASSED, "good case");
        let mut purpose = "case once more";
        if self.random.one_in(2) {
            case.old.swap(0, 1);
            set_nullifiers(&mut case);
            purpose = "old notes spent again, swapped";
        }
        self.judge(&case, self.spent_again(&case), purpose);
    }

    /// A bent case, and then the good one that it was bent from: the refusal
    /// must have left nothing behind.
    fn mended_case(&mut self) {
        let (bend, edition) = self.choose_bend();
        let case = self.case_in(edition);
        if let Some(bent) = self.apply(bend, case.clone()) {
            if !bend.answer.is_pass() {
                self.judge_bent(&bent, bend);
                self.judge(&case, Answer::PASSED, "good case after its bent form");
            }
        }
    }

    /// A case of a wrong length.
    fn wrong_length(&mut self) {
        let others = [2, 1_698, 1_802, 4_158, 4_212, 8_212, 8_420];
        let length = if self.random.one_in(3) {
            *self.random.pick(&others)
        } else {
            *self.random.pick(&WRONG_LENGTHS)
        };
        self.case_of_length(length);
    }

    /// A good case cut, or followed by zero bytes. If this is one byte off an
    /// edition, it is a case of that one.
    fn case_of_length(&mut self, length: usize) {
        let is_near = |edition: &Edition| edition.case_bytes().abs_diff(length) == 1;
        let near = Edition::ALL.into_iter().find(is_near);
        let edition = near.unwrap_or(*self.random.pick(&Edition::ALL));
        let mut file = self.case_in(edition).to_bytes();
        file.resize(length, 0);
        let purpose = format!("case of {length} bytes");
        self.ask_case(&file, Answer::new(1, 0), &purpose);
    }

    /// Whether one more such scene or entry may be made.
    fn take_long(&mut self) -> bool {
        let is_left = self.long_left > 0;
        self.long_left = self.long_left.saturating_sub(1);
        is_left
    }

    /// Closes a block. Where the purse knows every leaf, the new roll row
    /// must be the root over them.
    fn close_block(&mut self) {
        let ledger = &self.player.ledger;
        let expected = match (ledger.is_damaged(), ledger.free_roll_rows()) {
            (true, _) => Answer::new(2, 0),
            (false, 0) => Answer::new(3, 0),
            _ => Answer::PASSED,
        };
        let answer = self.ask(b'B', &[], None);
        assert_eq!(answer, expected, "closing a block");
        if answer.is_pass() {
            let root = self.purse.close_block();
            let newest = self.player.ledger.anchor_rows().last();
            assert!(
                root.is_none() || root.as_ref() == newest,
                "the root over all leaves"
            );
        }
    }

    /// The next tamper, each one once before any comes again.
    fn next_tamper(&mut self) -> &'static Tamper {
        if self.tampers_due.is_empty() {
            self.tampers_due = TAMPERS.iter().collect();
            self.random.shuffle(&mut self.tampers_due);
        }
        self.tampers_due.pop().expect("there are tampers")
    }

    fn look_at_ledger(&mut self) {
        self.put(b'L', &[], None);
    }

    fn look_at_rows(&mut self) {
        self.put(b'R', &[], None);
    }

    /// A refusal must leave every byte as it was, an acceptance the spare
    /// ones.
    fn look_at_memory(&mut self, purpose: &str) {
        self.put(b'M', &[], Some(purpose.to_owned()));
    }

    /// Before another ledger takes its place: a planted one has spare bytes
    /// that are not zero, and whatever was done on it must have left them.
    fn leave_ledger(&mut self) {
        if self.memory_due {
            self.look_at_memory("memory of a planted ledger");
        }
    }

    fn seal(&mut self) {
        if self.seals_due.is_empty() {
            self.seals_due = seals::KINDS.to_vec();
            self.random.shuffle(&mut self.seals_due);
        }
        let kind = self.seals_due.pop().expect("there are kinds of seals");
        let body = kind(&mut self.random);
        self.put(b'S', &body, None);
    }

    /// Opens a fresh ledger with buffers of these lengths.
    fn open(&mut self, table: usize, roll: usize) {
        self.leave_ledger();
        self.ask_opening(b'O', &scenes::opening(table, roll), roll);
    }

    /// Opens a fresh ledger on the lent buffers as they stand.
    fn open_as_lent(&mut self) {
        let roll = self.player.ledger.roll.len();
        self.ask_opening(b'F', &[], roll);
    }

    /// Puts an opening on a roll of this length on the tape.
    fn ask_opening(&mut self, kind: u8, body: &[u8], roll: usize) {
        let expected = if roll < 32 { 1 } else { 0 };
        let answer = self.ask(kind, body, None);
        assert_eq!(answer, Answer::new(expected, 0), "opening");
        self.purse = Purse::fresh(&mut self.random);
    }

    /// Plants a ledger; the purse must be set to fit, but for its pool.
    fn plant(&mut self, ledger: &Ledger, purpose: &str) {
        self.leave_ledger();
        self.purse.pool = ledger.pool;
        let body = plant_body(ledger);
        self.put(b'P', &body, Some(format!("planted: {purpose}")));
    }
}

/// Answers 4 to 17 that stand one after the other in the table. Both public
/// values cannot be too high without refusal 4.
fn neighbours() -> Vec<(Answer, Answer)> {
    let mut answers: Vec<Answer> = BENDS.iter().map(|bend| bend.answer).collect();
    answers.sort();
    answers.dedup();
    answers
        .windows(2)
        .map(|pair| (pair[0], pair[1]))
        .filter(|(lower, higher)| !lower.is_pass() && (lower.number, higher.number) != (5, 5))
        .collect()
}
