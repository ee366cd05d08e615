// Demand 3 by running: pairs of agreeing tables, read and listed in one call with areas of equal lengths, full, short and of 0 bytes, that
// held other bytes before the call, get the same listing wherever reading accepts both or refuses both.
// Build and run: see README.md beside this file.
use std::{env, fs, path::Path};

mod call;
mod random;

use random::Random;

struct Table { events: Vec<u32>, attributes: Vec<u32>, source: Vec<u8> }

// Three little-endian words, events, attributes, source, as the program `list` takes them.
fn table(path: &str) -> Option<Table> {
    let raw = fs::read(path).ok()?;
    let word = |i: usize| raw.get(i * 4..i * 4 + 4).map(|b| u32::from_le_bytes(b.try_into().unwrap()));
    let (m, n, k) = (word(0)? as usize, word(1)? as usize, word(2)? as usize);
    let words = |from: usize, count: usize| (from..from + count).map(word).collect::<Option<Vec<u32>>>();
    let at = 12 + (m + n) * 20;
    Some(Table { events: words(3, m * 5)?, attributes: words(3 + m * 5, n * 5)?, source: raw.get(at..at + k)?.to_vec() })
}

fn below(r: &mut Random, n: usize) -> usize { (r.next() % n as u64) as usize }

// Words of records; bytes of text, scratch and output.
type Lengths = [usize; 4];

// What a call leaves: whether reading accepted, the length of the listing, and the output area.
fn run(t: &Table, l: Lengths, dirt: u64) -> (bool, usize, Vec<u8>) {
    let mut r = Random(dirt);
    let mut records: Vec<u32> = (0..l[0]).map(|_| r.next() as u32).collect();
    let mut area = |n: usize| -> Vec<u8> { (0..n).map(|_| r.next() as u8).collect() };
    let (mut text, mut scratch, mut out) = (area(l[1]), area(l[2]), area(l[3]));
    let l = call::read_and_list(&t.events, &t.attributes, &t.source, &mut records, &mut text, &mut scratch, &mut out);
    assert!(records.iter().all(|w| *w == 0) && text.iter().chain(&scratch).all(|b| *b == 0), "a tree is left");
    // 16 is listing's: the answer tells of reading's refusals, and the areas, which are zero in every case, don't
    (l.refusal.number == 0 || l.refusal.number == 16, l.length, out)
}

fn lengths(r: &mut Random, t: &Table) -> Lengths {
    let records = [0, 3, 32 * below(r, 8), below(r, 1000), 32 * (t.events.len() / 5 + t.attributes.len() / 5) + 35];
    let bytes = [0, below(r, 30), below(r, 200), below(r, 2000), t.source.len() + t.events.len() + 1];
    let out = [0, below(r, 12), below(r, 100), below(r, 1000), 65536];
    // mostly enough of all but one or two
    let mut pick = |n: usize| if below(r, 3) == 0 { below(r, n) } else { n - 1 };
    [records[pick(5)], bytes[pick(5)], bytes[pick(5)], out[pick(5)]]
}

fn main() {
    let dir = env::args().nth(1).expect("a folder with tables N.a.bin and N.b.bin");
    let full = [16384, 65536, 65536, 65536];
    let mut r = Random(20260000);
    let (mut pairs, mut calls, mut equal, mut refused, mut one, mut bad) = (0, 0, 0, 0, 0, 0);
    for i in 1.. {
        let path = |s: &str| format!("{dir}/{i}.{s}.bin");
        if !Path::new(&path("a")).exists() { break; }
        let (Some(a), Some(b)) = (table(&path("a")), table(&path("b"))) else { continue };
        pairs += 1;
        for k in 0..16 {
            let l = if k == 0 { full } else { lengths(&mut r, &a) };
            let (x, y) = (run(&a, l, r.next() | 1), run(&b, l, r.next() | 1));
            calls += 1;
            if x.0 != y.0 {
                one += 1;
            } else if (x.1, &x.2) == (y.1, &y.2) {
                equal += 1;
                refused += usize::from(!x.0);
            } else {
                bad += 1;
                println!("{i} {l:?}: listings differ");
            }
        }
    }
    println!("{pairs} pairs, {calls} times listed: {equal} equal ({refused} of them refused by reading), {one} with one table refused by reading, {bad} differ");
}
