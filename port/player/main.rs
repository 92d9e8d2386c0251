//! Plays variants. Each line of standard input names one, as `NUMBER CRATE`; each is answered by a line that says
//! what tells it from the code as it is: the first line of a run that differs, or a call, or nothing.
mod calls;
mod host_run;

use calls::{PORT, SECOND};
use host_run::{Run, Script};
use port::draw::STORED;
use port::search_run::most_comparisons;
use port::{choose, io, told, Dice, Told, MODULES, PROGRAMS};
use std::collections::HashMap;
use std::panic::{catch_unwind, AssertUnwindSafe};
use std::path::Path;

const CALLS_OF_EACH: u64 = 300;
const CALLS_AT_EDGES: u64 = 100;
/// The lengths of the tables that each variant searches.
const SEARCHED: [usize; 12] = [0, 1, 2, 3, 4, 5, 6, 7, 8, 33, 2_047, 65_535];

/// A call: the function, whether it is public, and what it was given, gave back, left and printed, if it ended.
type Called = (&'static str, bool, Option<[Told; 4]>);

/// A program with its stored run.
struct Stored {
    name: &'static str,
    program: fn(),
    input: Vec<u8>,
    output: Vec<u8>,
}

/// What the code as it is says.
struct Right {
    stored: Vec<Stored>,
    script: Script,
    host: Vec<String>,
    calls: HashMap<String, Vec<Called>>,
}

fn read(file: std::path::PathBuf) -> Vec<u8> {
    std::fs::read(file).unwrap_or_default()
}

impl Right {
    fn new(root: &Path) -> Right {
        let crates = root.join("crates");
        let mut stored: Vec<Stored> = PROGRAMS
            .iter()
            .map(|(name, program)| {
                let folder = crates.join(name);
                Stored {
                    name,
                    program: *program,
                    input: read(folder.join("stdin")),
                    output: read(folder.join("stdout")),
                }
            })
            .collect();
        stored.sort_by_key(|run| run.input.len());
        let mut script = Script::new(&read(crates.join("replay/stdin")), &read(crates.join("tray/stdin")));
        let mut samples: Vec<_> =
            std::fs::read_dir(root.join("samples")).unwrap().map(|file| file.unwrap().path()).collect();
        samples.sort();
        script.bags.extend(samples.into_iter().filter(|file| file.extension().is_some_and(|e| e == "bag")).map(read));
        STORED.replace(
            script.tape.iter().filter(|entry| entry.0 == b'C').take(100).map(|entry| entry.1.clone()).collect(),
        );
        let mut host = Vec::new();
        Run { calls: &SECOND, say: &mut |line| host.push(line) }.play(&script);
        Right { stored, script, host, calls: HashMap::new() }
    }

    /// What tells the chosen variant of a crate, if anything does.
    fn told_by(&mut self, number: u32, name: &str) -> Option<String> {
        self.calls.entry(name.to_string()).or_insert_with(|| {
            choose(0);
            let calls: Vec<Called> = all_calls(name).collect();
            assert!(calls.iter().all(|call| call.2.is_some()), "a call that asks nothing stops");
            calls
        });
        let stored = self.stored.iter().find_map(|run| {
            choose(number);
            stored_differs(run)
        });
        choose(number);
        stored.or_else(|| self.host_differs()).or_else(search_differs).or_else(|| self.call_differs(number, name))
    }

    fn host_differs(&self) -> Option<String> {
        let mut said = 0;
        let mut first = None;
        let ended = catch_unwind(AssertUnwindSafe(|| {
            let mut hear = |line: String| {
                if line != self.host[said] {
                    first = Some(format!("host {}: {line}", said + 1));
                    panic!("the rest need not be played");
                }
                said += 1;
            };
            Run { calls: &PORT, say: &mut hear }.play(&self.script);
        }));
        first.or_else(|| ended.is_err().then(|| format!("host {}: stops", said + 1)))
    }

    /// The first public call that differs, or else the first private one.
    fn call_differs(&self, number: u32, name: &str) -> Option<String> {
        let mut private = None;
        choose(number);
        for ((call, public, right), (_, _, result)) in self.calls[name].iter().zip(all_calls(name)) {
            let right = right.as_ref().expect("the code as it is ends");
            let said = match result {
                None => "stops".to_string(),
                Some(result) => {
                    let mut parts = ["is given", "gives", "leaves", "prints"].iter().zip(result.iter().zip(right));
                    let Some((word, (new, old))) = parts.find(|(_, (new, old))| new != old) else { continue };
                    format!("{word} {} for {}", new.start, old.start)
                }
            };
            let line = format!("{} {call}{}: {said}", if *public { "call" } else { "private" }, right[0].start);
            if *public {
                return Some(line);
            }
            private.get_or_insert(line);
        }
        private
    }
}

/// The first search, of some tables, that goes wrong or takes too many comparisons.
fn search_differs() -> Option<String> {
    SEARCHED.into_iter().find_map(|rows| most_comparisons(rows).err())
}

/// The first line of a stored run that a variant prints otherwise.
fn stored_differs(run: &Stored) -> Option<String> {
    let Ok(((), output)) = catch_unwind(|| io::play(run.program, &run.input)) else {
        return Some(format!("{}: stops", run.name));
    };
    if output == run.output {
        return None;
    }
    let alike = output.iter().zip(&run.output).take_while(|(a, b)| a == b);
    Some(format!("{} {}", run.name, 1 + alike.filter(|(byte, _)| **byte == b'\n').count()))
}

/// Every call of a crate's functions on the same draws; a call that stops has no result.
fn all_calls(name: &str) -> impl Iterator<Item = Called> + '_ {
    MODULES.iter().filter(move |(module, ..)| *module == name).flat_map(|(_, edges, calls)| {
        calls.iter().flat_map(move |(call, public, run)| {
            (0..CALLS_OF_EACH + CALLS_AT_EDGES).map(move |seed| {
                let dice = || if seed < CALLS_OF_EACH { Dice::new(seed, edges) } else { Dice::exact(seed, edges) };
                let ended = catch_unwind(|| io::play(|| run(&mut dice()), &[])).ok();
                let parts =
                    ended.map(|([lent, gave, left], text)| [lent, gave, left, told(&String::from_utf8_lossy(&text))]);
                (*call, *public, parts)
            })
        })
    })
}

fn main() {
    let root = std::env::args().nth(1).expect("the repository's folder");
    std::panic::set_hook(Box::new(|_| {}));
    let player = std::thread::Builder::new().stack_size(256 << 20).spawn(move || {
        let mut right = Right::new(Path::new(&root));
        for asked in std::io::stdin().lines().map(|line| line.unwrap()) {
            let (number, name) = asked.split_once(' ').expect("a number and a crate");
            let teller = right.told_by(number.parse().unwrap(), name);
            println!("{number} {}", teller.unwrap_or_else(|| "nothing".to_string()).replace('\n', " "));
        }
    });
    player.unwrap().join().expect("the code as it is plays to its end");
}
