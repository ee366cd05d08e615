// Reading and listing in one call against the two calls, by running: tables with full, short, odd and empty areas that held other bytes
// before. The one call gives the bytes or the refusal, whole, that the two calls give, leaves zeros in the three areas of reading, and is
// printed as `kerzhoma_public_listing` prints it.
// Build and run: see README.md beside this file.
use std::{env, fs};

mod call;
mod random;

use random::Random;

struct Table { events: Vec<u32>, attributes: Vec<u32>, source: Vec<u8> }

// Three little-endian words, events, attributes, source, as the program `list` takes them.
fn table(raw: &[u8]) -> Option<Table> {
    let word = |i: usize| raw.get(i * 4..i * 4 + 4).map(|b| u32::from_le_bytes(b.try_into().unwrap()));
    let (m, n, k) = (word(0)? as usize, word(1)? as usize, word(2)? as usize);
    let words = |from: usize, count: usize| (from..from + count).map(word).collect::<Option<Vec<u32>>>();
    let at = 12 + (m + n) * 20;
    Some(Table { events: words(3, m * 5)?, attributes: words(3 + m * 5, n * 5)?, source: raw.get(at..at + k)?.to_vec() })
}

fn below(r: &mut Random, n: usize) -> usize { (r.next() % n as u64) as usize }

// Words of records; bytes of text, scratch and output.
fn lengths(r: &mut Random, t: &Table) -> [usize; 4] {
    let records = [0, 3, 32 * below(r, 8), below(r, 1000), 32 * (t.events.len() / 5 + t.attributes.len() / 5) + 35];
    let bytes = [0, below(r, 30), below(r, 200), below(r, 2000), t.source.len() + t.events.len() + 1];
    let out = [0, below(r, 12), below(r, 100), below(r, 1000), 65536];
    // mostly enough of all but one or two
    let mut pick = |n: usize| if below(r, 4) == 0 { below(r, n) } else { n - 1 };
    [records[pick(5)], bytes[pick(5)], bytes[pick(5)], out[pick(5)]]
}

struct Areas { records: Vec<u32>, text: Vec<u8>, scratch: Vec<u8>, out: Vec<u8> }

fn dirty(l: [usize; 4], r: &mut Random) -> Areas {
    let records = (0..l[0]).map(|_| r.next() as u32).collect();
    let mut area = |n: usize| -> Vec<u8> { (0..n).map(|_| r.next() as u8).collect() };
    Areas { records, text: area(l[1]), scratch: area(l[2]), out: area(l[3]) }
}

impl Areas {
    fn tree_is_zero(&self) -> bool {
        self.records.iter().all(|w| *w == 0) && self.text.iter().chain(&self.scratch).all(|b| *b == 0)
    }
}

fn told(r: &call::Refusal) -> (u32, u32, u32, [u32; 18], u32, u32) { (r.number, r.cause, r.depth, r.path, r.event, r.attribute) }

// What the two calls come to: the refusal, the length of the listing, and the output area.
fn two(t: &Table, a: &mut Areas) -> (call::Refusal, usize) {
    let read = call::read(&t.events, &t.attributes, &t.source, &mut a.records, &mut a.text, &mut a.scratch);
    if read.number != 0 {
        a.out.fill(0);
        return (read, 0);
    }
    let listed = call::list(&a.records, &a.text, &mut a.out);
    (listed.refusal, listed.length)
}

fn same(t: &Table, l: [usize; 4], r: &mut Random) -> (u32, bool) {
    let (mut a, mut b, mut c) = (dirty(l, r), dirty(l, r), dirty(l, r));
    let (refusal, length) = two(t, &mut a);
    let once = call::read_and_list(&t.events, &t.attributes, &t.source, &mut b.records, &mut b.text, &mut b.scratch, &mut b.out);
    let n = call::public_listing(&t.events, &t.attributes, &t.source, &mut c.records, &mut c.text, &mut c.scratch, &mut c.out);
    let mut printed = a.out.clone();
    if refusal.number != 0 {
        let k = l[3].min(10);
        printed[..k].copy_from_slice(&b"(refused)\n"[..k]);
    }
    let shown = if refusal.number == 0 { length } else { l[3].min(10) };
    let good = told(&once.refusal) == told(&refusal) && once.length == length && b.out == a.out && b.tree_is_zero();
    (refusal.number, good && n == shown && c.out == printed && c.tree_is_zero())
}

fn main() {
    let mut r = Random(20260011);
    let (mut tables, mut calls, mut bad, mut numbers) = (0, 0, 0, [0usize; 22]);
    for folder in env::args().skip(1) {
        let mut files: Vec<_> = fs::read_dir(&folder).expect("folders with tables").map(|f| f.unwrap().path()).collect();
        files.sort();
        for file in files {
            let Some(t) = table(&fs::read(&file).unwrap()) else { continue };
            tables += 1;
            for k in 0..6 {
                let l = if k == 0 { [16384, 65536, 65536, 65536] } else { lengths(&mut r, &t) };
                let (number, good) = same(&t, l, &mut r);
                calls += 1;
                numbers[number as usize] += 1;
                if !good {
                    bad += 1;
                    println!("{} {l:?}: differs", file.display());
                }
            }
        }
    }
    println!("{tables} tables, {calls} times read and listed; by number, 0 accepted: {numbers:?}; {bad} differ");
}
