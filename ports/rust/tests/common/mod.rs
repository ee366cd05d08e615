//! What the tests share: stored tables and stored answers.
#![allow(dead_code)]

use kerzhoma::{list_into, PathElement, Refusal, TableBuf, Tree};
use std::{env, fs, path::PathBuf};

/// A file of the repository, by its path from the top.
pub fn repository(path: &str) -> PathBuf {
    PathBuf::from(env!("CARGO_MANIFEST_DIR")).join("../..").join(path)
}

/// The tables that crate `test_replay` is given, one behind the other.
pub fn replayed() -> Vec<TableBuf> {
    let input = fs::read(repository("crates/test_replay/stdin")).unwrap();
    let mut rest = input.as_slice();
    let mut tables = Vec::new();
    while !rest.is_empty() {
        let (table, taken) = TableBuf::from_bytes(rest).unwrap();
        tables.push(table);
        rest = &rest[taken..];
    }
    assert_eq!(tables.len(), 401);
    tables
}

/// What the programs have: 512 records, 65,536 bytes each of text and scratch.
pub fn program_areas() -> kerzhoma::Areas {
    kerzhoma::Areas::new(512, 65_536, 65_536)
}

/// The listing in an area of the program's size, or the refusal.
pub fn listed(tree: &Tree<'_>) -> Result<String, Refusal> {
    let mut out = vec![7; 65_536];
    let n = list_into(tree, &mut out)?;
    assert!(out[n..].iter().all(|b| *b == 0));
    out.truncate(n);
    Ok(String::from_utf8(out).unwrap())
}

/// A refusal as crate `test_tell` tells it: number, event, attribute, and each path element's kind, index and event.
pub fn told(refusal: &Refusal) -> String {
    let place = |n: Option<u32>| n.map_or("-".to_owned(), |n| n.to_string());
    let mut line = format!("(refused) {} {} {}", refusal.number(), place(refusal.event()), place(refusal.attribute()));
    for element in refusal.path() {
        let (kind, index, event) = numbers(element);
        line += &format!(" {kind} {} {}", place(index), place(event));
    }
    line + "\n"
}

fn numbers(element: PathElement) -> (u32, Option<u32>, Option<u32>) {
    const NAMES: [&str; 17] = [
        "",
        "name",
        "classname",
        "uuid",
        "timestamp",
        "time",
        "tests",
        "failures",
        "errors",
        "skipped",
        "disabled",
        "assertions",
        "message",
        "type",
        "value",
        "stackTrace",
        "hostname",
    ];
    match element {
        PathElement::TestSuites => (1, None, None),
        PathElement::TestSuite { index, event } => (2, Some(index), event),
        PathElement::TestCase { index, event } => (3, Some(index), event),
        PathElement::Properties => (4, None, None),
        PathElement::Property { index } => (5, Some(index), None),
        PathElement::Failure => (6, None, None),
        PathElement::Error => (7, None, None),
        PathElement::Skipped => (8, None, None),
        PathElement::FlakyFailure => (9, None, None),
        PathElement::FlakyError => (10, None, None),
        PathElement::RerunFailure => (11, None, None),
        PathElement::RerunError => (12, None, None),
        PathElement::SystemOut => (14, None, None),
        PathElement::SystemErr => (15, None, None),
        PathElement::Attribute(name) => (16, Some(NAMES.iter().position(|n| *n == name).unwrap() as u32), None),
        other => panic!("{other:?}"),
    }
}

/// Holds an answer to the file in tests/ that has it; with KERZHOMA_STORE in the environment it is stored there instead.
pub fn hold(file: &str, got: &str) {
    let path = PathBuf::from(env!("CARGO_MANIFEST_DIR")).join("tests").join(file);
    if env::var_os("KERZHOMA_STORE").is_some() {
        fs::write(&path, got).unwrap();
    }
    let want = fs::read_to_string(&path).unwrap();
    same(&want, got);
}

/// The first line in which two texts differ, if any.
pub fn same(want: &str, got: &str) {
    for (i, (w, g)) in want.lines().zip(got.lines()).enumerate() {
        assert_eq!(w, g, "line {}", i + 1);
    }
    assert_eq!(want.len(), got.len());
}

/// FNV-1a, to tell bytes apart.
pub fn hash(bytes: &[u8]) -> u64 {
    bytes.iter().fold(0xcbf2_9ce4_8422_2325, |h, b| (h ^ u64::from(*b)).wrapping_mul(0x0100_0000_01b3))
}

/// Numbers that look random and are the same in each run.
pub struct Random(pub u64);

impl Random {
    pub fn next(&mut self) -> u64 {
        self.0 ^= self.0 << 13;
        self.0 ^= self.0 >> 7;
        self.0 ^= self.0 << 17;
        self.0
    }

    pub fn below(&mut self, n: usize) -> usize {
        (self.next() % n.max(1) as u64) as usize
    }
}

/// One place changed, as often as asked: a word of an event or attribute, or a source byte.
pub fn spoil(table: &mut TableBuf, random: &mut Random, times: usize) {
    for _ in 0..times {
        let small = random.below(12) as u32;
        let value = [small, random.below(table.source.len() + 2) as u32, random.next() as u32, u32::MAX][random.below(4)];
        let (m, n, k) = (random.below(table.events.len()), random.below(table.attributes.len()), random.below(table.source.len()));
        match random.below(3) {
            0 if !table.events.is_empty() => table.events[m] = value,
            1 if !table.attributes.is_empty() => table.attributes[n] = value,
            _ if !table.source.is_empty() => table.source[k] = value as u8,
            _ => {}
        }
    }
}
