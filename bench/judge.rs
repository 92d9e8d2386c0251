// The bench of the judge: the proved one, linked in from the library, beside the second judge of rust/ and
// the lean one in plain.rs. All are put to the same cases on the same ledger, one call a case; after an
// accepted case the ledger is put back, outside what is measured.
//   judge check TAPE         all three give the same answers, rows included, and leave the same ledgers; prints
//                            number and place of each answer, and the length of the file
//   judge mark SIDE TAPE     each case once; a mark before and after each call, for count.c
//   judge accepted SIDE TAPE the same for the cases that are accepted; prints how many these are, and where in
//                            memory `by_proved` stands
//   judge time ROUNDS TAPE   nanoseconds: lines of round, side, and then each case's
// SIDE is proved, plain, second or nothing.
#![allow(unexpected_cfgs)]
#[path = "plain.rs"]
mod plain;

use std::hint::black_box;
use std::io::Write;
use std::time::Instant;

use second::ledger::Ledger as SecondLedger;
use second::tape::{plant_body, read_plant};

const LEDGER_BYTES: usize = 988;
const SIDES: [&str; 4] = ["nothing", "proved", "plain", "second"];

extern "C" {
    fn snaldrek_judge(
        file: *const u8,
        file_len: usize,
        ledger: *mut u8,
        ledger_len: usize,
        table: *mut u8,
        table_len: usize,
        roll: *const u8,
        roll_len: usize,
    ) -> u32;
}

// One ledger in the form of each side. Each has a table of its own.
#[derive(Clone)]
struct Ledgers {
    proved: [u8; LEDGER_BYTES],
    proved_table: Vec<u8>,
    plain: plain::Ledger,
    plain_table: Vec<u8>,
    roll: Vec<u8>,
    second: SecondLedger,
}

impl Ledgers {
    fn planted(body: &[u8]) -> Ledgers {
        let second = read_plant(body).expect("a sound plant");
        let record = second.tree.record();
        Ledgers {
            proved: body[..LEDGER_BYTES].try_into().unwrap(),
            proved_table: second.table.clone(),
            plain: plain::Ledger {
                spent: second.spent,
                anchors: second.anchors,
                pool: second.pool,
                leaves: record.count,
                nodes: record.nodes,
            },
            plain_table: second.table.clone(),
            roll: second.roll.clone(),
            second,
        }
    }

    // Puts every side's ledger back, whichever side was asked, so that all find the same in the caches.
    fn put_back(&mut self, from: &Ledgers) {
        self.proved = from.proved;
        self.proved_table.copy_from_slice(&from.proved_table);
        self.plain.clone_from(&from.plain);
        self.plain_table.copy_from_slice(&from.plain_table);
        self.second.clone_from(&from.second);
    }

    fn are_alike(&self) -> bool {
        self.proved[..] == plant_body(&self.second)[..LEDGER_BYTES]
            && self.proved_table == self.second.table
            && self.plain_table == self.second.table
            && self.plain.nodes == self.second.tree.record().nodes
            && (self.plain.spent, self.plain.pool) == (self.second.spent, self.second.pool)
    }
}

#[inline(never)]
fn by_proved(ledgers: &mut Ledgers, file: &[u8]) -> u32 {
    let Ledgers { proved, proved_table, roll, .. } = ledgers;
    // SAFETY: each pointer comes with the length of what it is of, and those written to are of `&mut`.
    unsafe {
        snaldrek_judge(
            file.as_ptr(),
            file.len(),
            proved.as_mut_ptr(),
            proved.len(),
            proved_table.as_mut_ptr(),
            proved_table.len(),
            roll.as_ptr(),
            roll.len(),
        )
    }
}

#[inline(never)]
fn by_plain(ledgers: &mut Ledgers, file: &[u8]) -> u32 {
    plain::judge(file, &mut ledgers.plain, &mut ledgers.plain_table, &ledgers.roll)
}

#[inline(never)]
fn by_second(ledgers: &mut Ledgers, file: &[u8]) -> u32 {
    let answer = second::judge::judge(&mut ledgers.second, file);
    u32::from(answer.number) + 256 * u32::from(answer.place) + 65_536 * answer.row.0 as u32
}

// What the call itself costs, to be taken off.
#[inline(never)]
fn by_nothing(ledgers: &mut Ledgers, file: &[u8]) -> u32 {
    black_box((ledgers, file));
    1
}

fn side(name: &str) -> fn(&mut Ledgers, &[u8]) -> u32 {
    match name {
        "proved" => by_proved,
        "plain" => by_plain,
        "second" => by_second,
        "nothing" => by_nothing,
        _ => panic!("no side {name}"),
    }
}

// The tape's ledgers, each with its cases. Every byte is read once by this, and so touched.
fn scenes(tape: &[u8]) -> Vec<(Ledgers, Vec<&[u8]>)> {
    let mut scenes: Vec<(Ledgers, Vec<&[u8]>)> = Vec::new();
    let mut rest = tape;
    while let [kind, a, b, c, d, after @ ..] = rest {
        let (body, next) = after.split_at(u32::from_le_bytes([*a, *b, *c, *d]) as usize);
        match kind {
            b'P' => scenes.push((Ledgers::planted(body), Vec::new())),
            _ => scenes.last_mut().expect("a ledger comes first").1.push(body),
        }
        rest = next;
    }
    assert!(black_box(tape.iter().map(|byte| u64::from(*byte)).sum::<u64>()) > 0);
    scenes
}

// Puts every case to a side, and hands each call to a measure.
fn judge_all(scenes: &[(Ledgers, Vec<&[u8]>)], name: &str, mut measure: impl FnMut(&mut dyn FnMut() -> u32)) {
    let judge = black_box(side(name));
    for (planted, files) in scenes {
        let mut ledgers = planted.clone();
        for file in files {
            let mut answer = 0;
            measure(&mut || {
                answer = judge(&mut ledgers, black_box(file));
                answer
            });
            if answer == 0 {
                ledgers.put_back(planted);
            }
        }
    }
}

fn check(scenes: &[(Ledgers, Vec<&[u8]>)]) {
    let mut out = std::io::BufWriter::new(std::io::stdout().lock());
    for (planted, files) in scenes {
        let mut ledgers = planted.clone();
        for file in files {
            let answers = [by_proved, by_plain, by_second].map(|judge| judge(&mut ledgers, file));
            assert!(answers[0] == answers[1] && answers[0] == answers[2], "answers {answers:x?}");
            assert!(ledgers.are_alike(), "the ledgers differ after {:x}", answers[0]);
            writeln!(out, "{} {} {}", answers[0] & 0xff, answers[0] >> 8 & 0xff, file.len()).unwrap();
            if answers[0] == 0 {
                ledgers.put_back(planted);
            }
        }
    }
}

// A system call that no kernel has. The emulator's plugin writes down how many instructions have run.
#[inline(always)]
fn mark() {
    // SAFETY: a system call of an unknown number does nothing but answer with an error.
    unsafe {
        std::arch::asm!("syscall", inlateout("rax") 0x534e41u64 => _, out("rcx") _, out("r11") _, options(nostack));
    }
}

fn mark_all(scenes: &[(Ledgers, Vec<&[u8]>)], name: &str) {
    judge_all(scenes, name, |call| {
        mark();
        call();
        mark();
    });
}

// The ledgers with those of their cases that are accepted.
fn accepted<'a>(scenes: &[(Ledgers, Vec<&'a [u8]>)]) -> Vec<(Ledgers, Vec<&'a [u8]>)> {
    let of_one = |(planted, files): &(Ledgers, Vec<&'a [u8]>)| {
        let mut ledgers = planted.clone();
        let is_accepted = |file: &&[u8]| {
            let is_accepted = by_plain(&mut ledgers, file) == 0;
            if is_accepted {
                ledgers.put_back(planted);
            }
            is_accepted
        };
        (planted.clone(), files.iter().copied().filter(is_accepted).collect())
    };
    scenes.iter().map(of_one).collect()
}

fn time_all(scenes: &[(Ledgers, Vec<&[u8]>)], rounds: usize) {
    let mut out = std::io::BufWriter::new(std::io::stdout().lock());
    // Round 0 warms up and is not told. Each round starts with another side.
    for round in 0..=rounds {
        for turn in 0..SIDES.len() {
            let name = SIDES[(round + turn) % SIDES.len()];
            let mut took = Vec::new();
            judge_all(scenes, name, |call| {
                let start = Instant::now();
                black_box(call());
                took.push(start.elapsed().as_nanos().to_string());
            });
            if round > 0 {
                writeln!(out, "{round} {name} {}", took.join(" ")).unwrap();
            }
        }
    }
}

fn main() {
    let words: Vec<String> = std::env::args().skip(1).collect();
    let tape = std::fs::read(words.last().expect("a tape")).expect("the tape can be read");
    let scenes = scenes(&tape);
    match words[0].as_str() {
        "check" => check(&scenes),
        "mark" => mark_all(&scenes, &words[1]),
        "accepted" => {
            let scenes = accepted(&scenes);
            let cases: usize = scenes.iter().map(|(_, files)| files.len()).sum();
            println!("{cases} {:x}", by_proved as *const () as usize);
            mark_all(&scenes, &words[1]);
        }
        "time" => time_all(&scenes, words[1].parse().expect("a number of rounds")),
        other => panic!("there is no {other}"),
    }
}
