//! The sample bags get the lines that stand beside them, and so does the tray
//! of bags that the proved program is run on.

use std::fs;
use std::path::{Path, PathBuf};

use second::bag::{explain_bag, judge_bag, MAX_BAG_BYTES};
use second::bytes::Reader;
use second::tape::MAX_NAME_BYTES;

/// A file or folder of the repository.
fn at_home(name: &str) -> PathBuf {
    Path::new(env!("CARGO_MANIFEST_DIR"))
        .join("../..")
        .join(name)
}

fn sample_bags() -> Vec<PathBuf> {
    let files = fs::read_dir(at_home("samples")).expect("the folder of samples");
    let paths = files.map(|file| file.expect("a file").path());
    paths
        .filter(|path| path.extension().is_some_and(|end| end == "bag"))
        .collect()
}

/// The lines as they are printed.
fn as_text(lines: &[String]) -> String {
    lines.iter().map(|line| format!("{line}\n")).collect()
}

/// What stands next on a tray.
enum Next<'a> {
    Bag(&'a [u8]),
    Name(&'a [u8]),
}

/// A length from here on is that of a name.
const NAMED: usize = 1 << 31;

/// The next bag or name of a tray, behind its length. A tray hands on a byte
/// more than a bag may have, so that a bag that is too long is refused by its
/// layout.
fn next_of<'a>(tray: &mut Reader<'a>) -> Option<Next<'a>> {
    let length = tray.u32()? as usize;
    if length < NAMED {
        let is_short = length <= MAX_BAG_BYTES + 1;
        return is_short.then(|| tray.run(length))?.map(Next::Bag);
    }
    let is_short = length - NAMED <= MAX_NAME_BYTES;
    is_short.then(|| tray.run(length - NAMED))?.map(Next::Name)
}

/// Judges each bag of a tray; what is no whole bag ends the run.
fn judge_tray(bytes: &[u8]) -> Vec<String> {
    let mut tray = Reader::new(bytes);
    let mut lines = Vec::new();
    while !tray.is_done() {
        match next_of(&mut tray) {
            Some(Next::Bag(bag)) => lines.extend(judge_bag(bag)),
            Some(Next::Name(name)) => lines.push(format!("run {}", String::from_utf8_lossy(name))),
            None => {
                lines.push("tray 50 0".to_owned());
                break;
            }
        }
    }
    lines
}

#[test]
fn each_sample_prints_its_lines() {
    let bags = sample_bags();
    assert!(bags.len() >= 6, "only {} samples", bags.len());
    for path in bags {
        let bag = fs::read(&path).expect("a bag");
        let expected = fs::read_to_string(path.with_extension("txt")).expect("its lines");
        assert_eq!(as_text(&judge_bag(&bag)), expected, "{}", path.display());
    }
}

#[test]
fn the_sample_with_spent_nullifiers_is_explained_by_its_rows() {
    let bag = fs::read(at_home("samples/spent.bag")).expect("the bag");
    let read = |name: &str| fs::read_to_string(at_home(name)).expect("its lines");
    let expected = read("samples/spent-rows.txt");
    assert_eq!(as_text(&explain_bag(&bag)), expected);
    let is_row = |line: &&str| line.starts_with("row ");
    let rows: Vec<&str> = expected.lines().filter(is_row).collect();
    assert_eq!(rows, ["row 1", "row 3", "row 2", "row 0"]);
    // The same is the explainer's stored run.
    let stored = fs::read(at_home("crates/explainer/stdin")).expect("the bag");
    assert!(stored == bag, "the explainer is run on another bag");
    assert_eq!(read("crates/explainer/stdout"), expected);
}

#[test]
fn the_tray_prints_its_lines() {
    let tray = fs::read(at_home("crates/tray/stdin")).expect("the tray");
    let expected = fs::read_to_string(at_home("crates/tray/stdout")).expect("its lines");
    assert_eq!(as_text(&judge_tray(&tray)), expected);
}

#[test]
fn the_tray_has_every_sample() {
    let tray = fs::read(at_home("crates/tray/stdin")).expect("the tray");
    let mut reader = Reader::new(&tray);
    let mut bags = Vec::new();
    while let Some(next) = next_of(&mut reader) {
        if let Next::Bag(bag) = next {
            bags.push(bag);
        }
    }
    for path in sample_bags() {
        let sample = fs::read(&path).expect("a bag");
        assert!(bags.contains(&&sample[..]), "{}", path.display());
    }
}
