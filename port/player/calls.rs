//! The C functions of include/snaldrek.h over slices, twice: the port's, and what the second judge makes of the
//! same memory. Lengths and books, which it knows nothing of, follow plain rules here.
use second::answer::Answer;
use second::bag::read_bag;
use second::desk;
use second::judge::judge as judge_case;
use second::ledger::Ledger;
use second::seal::{judge_seal, Calibration, Seal};
use second::sha256::sha256;
use second::tape::{keep_body, read_plant};

use port::{host_c, hostdesk_c, hostslices_c};

/// The calls.
pub struct Calls {
    pub open: fn(&mut [u8], &mut [u8]) -> u32,
    pub judge: fn(&[u8], &mut [u8], &mut [u8], &[u8]) -> u32,
    pub steps: fn(&[u8], &mut [u8], &mut [u8], &mut [u8], &[u8]) -> Vec<u32>,
    pub close: fn(&mut [u8], &[u8], &mut [u8]) -> u32,
    pub write_case: fn(&[u8], &mut [u8]) -> u32,
    pub root: fn(&[u8], &mut [u8]) -> u32,
    pub hash: fn(&[u8], &mut [u8]) -> u32,
    pub seal: fn(&[u8], f64, f64, &mut [u8]) -> u32,
    pub bag: fn(&[u8], f64, f64, &mut [u8], &mut [u8], &[u8], &mut [u8]) -> u32,
    pub tally: fn(&mut [u8], u32) -> u32,
    pub day: fn(&mut [u8], usize, u32, u32) -> u32,
}

/// The port's own.
pub const PORT: Calls = Calls {
    open: host_c::snaldrek_proved_open,
    judge: host_c::snaldrek_proved_judge,
    steps: |case, judgement, ledger, table, roll| {
        let begun = hostslices_c::snaldrek_proved_begin(case, judgement);
        let later = (1..STEPS).map(|_| hostslices_c::snaldrek_proved_step(judgement, ledger, table, roll));
        std::iter::once(begun).chain(later).collect()
    },
    close: host_c::snaldrek_proved_close,
    write_case: hostdesk_c::snaldrek_proved_write_case,
    root: host_c::snaldrek_proved_root,
    hash: host_c::snaldrek_proved_hash,
    seal: host_c::snaldrek_proved_seal,
    bag: host_c::snaldrek_proved_bag,
    tally: host_c::snaldrek_proved_tally,
    day: host_c::snaldrek_proved_day,
};

/// The same by the second judge.
pub const SECOND: Calls = Calls { open, judge, steps, close, write_case, root, hash, seal, bag, tally, day };

pub const LEDGER_BYTES: usize = 988;
pub const JUDGEMENT_BYTES: usize = 4280;
/// How many steps a judgement has.
const STEPS: u32 = 60;

/// An answer as one number: the refusal's own, 256 times its place and 65,536 times the row that it names.
fn code(answer: Answer) -> u32 {
    u32::from(answer.number) + 256 * u32::from(answer.place) + 65_536 * answer.row.0 as u32
}

fn wrong_length(place: u8) -> u32 {
    code(Answer::new(51, place))
}

/// A plant's body starts with the ledger's bytes. Table and roll are put in after it, as they may be longer than
/// a tape's.
fn ledger_in(ledger: &[u8], table: &[u8], roll: &[u8]) -> Ledger {
    let kept = read_plant(&[ledger, &[0; 8]].concat()).expect("a plant of no table and no roll");
    Ledger { table: table.to_vec(), roll: roll.to_vec(), ..kept }
}

fn put_back(kept: &Ledger, ledger: &mut [u8]) {
    ledger.copy_from_slice(&keep_body(kept)[..LEDGER_BYTES]);
}

fn seal_answer(seal: Option<Seal>, gain: f64, offset: f64) -> Result<f64, Answer> {
    judge_seal(Calibration { gain, offset }, seal.ok_or(Answer::new(20, 0))?)
}

/// The cases' answers behind their number; an answer that was not given is 255.
fn report_of(answers: &[Answer]) -> Vec<u8> {
    let codes = (0..7).map(|i| answers.get(i).map_or(255, |answer| code(*answer)));
    std::iter::once(answers.len() as u32).chain(codes).flat_map(u32::to_le_bytes).collect()
}

fn open(ledger: &mut [u8], roll: &mut [u8]) -> u32 {
    if ledger.len() != LEDGER_BYTES {
        return wrong_length(1);
    }
    let (opened, answer) = Ledger::open(Vec::new(), roll.to_vec());
    put_back(&opened, ledger);
    roll.copy_from_slice(&opened.roll);
    code(answer)
}

fn judge(case: &[u8], ledger: &mut [u8], table: &mut [u8], roll: &[u8]) -> u32 {
    if ledger.len() != LEDGER_BYTES {
        return wrong_length(1);
    }
    let mut kept = ledger_in(ledger, table, roll);
    let answer = judge_case(&mut kept, case);
    put_back(&kept, ledger);
    table.copy_from_slice(&kept.table);
    code(answer)
}

/// A case with nothing wrong in itself, judged in steps: the last one's answer is the judge's, and each before it tells
/// how many were taken. A file of no case's length is told so each time.
fn steps(case: &[u8], judgement: &mut [u8], ledger: &mut [u8], table: &mut [u8], roll: &[u8]) -> Vec<u32> {
    let is_record = judgement.len() == JUDGEMENT_BYTES;
    let is_case = [4_210, 4_106].contains(&case.len());
    let answer = |step: u32| match (is_record, is_case) {
        (false, _) => wrong_length(7),
        (true, false) => code(Answer::new(1, 0)),
        (true, true) => code(Answer::new(254, step as u8)),
    };
    let later = (2..=STEPS).map(|step| match ledger.len() {
        LEDGER_BYTES if step == STEPS && is_record && is_case => judge(case, ledger, table, roll),
        LEDGER_BYTES => answer(step),
        _ => wrong_length(1),
    });
    std::iter::once(answer(1)).chain(later).collect()
}

fn close(ledger: &mut [u8], table: &[u8], roll: &mut [u8]) -> u32 {
    if ledger.len() != LEDGER_BYTES {
        return wrong_length(1);
    }
    let mut kept = ledger_in(ledger, table, roll);
    let answer = kept.close_block();
    put_back(&kept, ledger);
    roll.copy_from_slice(&kept.roll);
    code(answer)
}

fn write_case(draft: &[u8], buffer: &mut [u8]) -> u32 {
    code(desk::write_case(draft, buffer))
}

fn root(ledger: &[u8], root: &mut [u8]) -> u32 {
    if ledger.len() != LEDGER_BYTES {
        return wrong_length(1);
    }
    if root.len() != 32 {
        return wrong_length(2);
    }
    root.copy_from_slice(&ledger_in(ledger, &[], &[]).tree.root());
    0
}

fn hash(bytes: &[u8], digest: &mut [u8]) -> u32 {
    if digest.len() != 32 {
        return wrong_length(6);
    }
    digest.copy_from_slice(&sha256(bytes));
    0
}

fn seal(body: &[u8], gain: f64, offset: f64, pull: &mut [u8]) -> u32 {
    if pull.len() != 8 {
        return wrong_length(5);
    }
    match seal_answer(Seal::read(body), gain, offset) {
        Ok(passed) => {
            pull.copy_from_slice(&passed.to_le_bytes());
            0
        }
        Err(refusal) => code(refusal),
    }
}

fn bag(bag: &[u8], gain: f64, offset: f64, ledger: &mut [u8], table: &mut [u8], roll: &[u8], report: &mut [u8]) -> u32 {
    if ledger.len() != LEDGER_BYTES {
        return wrong_length(1);
    }
    if report.len() != 32 {
        return wrong_length(3);
    }
    let Some(contents) = read_bag(bag) else { return 20 };
    if let Err(refusal) = seal_answer(Some(contents.seal), gain, offset) {
        return code(refusal);
    }
    let mut kept = ledger_in(ledger, table, roll);
    let answers: Vec<Answer> = contents.cases.iter().map(|case| judge_case(&mut kept, case)).collect();
    put_back(&kept, ledger);
    table.copy_from_slice(&kept.table);
    report.copy_from_slice(&report_of(&answers));
    0
}

fn tally(tally: &mut [u8], answer: u32) -> u32 {
    if tally.len() != 12 {
        return wrong_length(4);
    }
    let mut counts: Vec<u32> = tally.chunks(4).map(|c| u32::from_le_bytes(c.try_into().unwrap())).collect();
    for at in [0, if answer == 0 { 1 } else { 2 }] {
        let Some(raised) = counts[at].checked_add(1) else { return 52 };
        counts[at] = raised;
    }
    tally.copy_from_slice(&counts.into_iter().flat_map(u32::to_le_bytes).collect::<Vec<u8>>());
    0
}

fn day(list: &mut [u8], row: usize, seal: u32, answer: u32) -> u32 {
    let Some(entry) = list.chunks_exact_mut(6).nth(row) else { return 53 };
    let number = answer & 0xff;
    if (answer > 0xffff && number != 8) || (answer != 0 && number == 0) {
        return 54;
    }
    entry[..4].copy_from_slice(&seal.to_le_bytes());
    entry[4..].copy_from_slice(&(answer as u16).to_le_bytes());
    0
}
