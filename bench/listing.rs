// Times reading and listing of a report of 11,000 cases, and of tables that are hard on reading; with `--cfg with_crate` also the
// crate's own code at event level on the same table, through the library `compare`, which replays tables.
// Build and run: see README.md beside this file.
use std::time::Instant;

mod call;
mod table;

use table::{interleaved, report, reruns, Table};

struct Areas { records: Vec<u32>, text: Vec<u8>, scratch: Vec<u8>, out: Vec<u8> }

fn areas(records: usize, bytes: usize) -> Areas {
    Areas { records: vec![0; records * 32], text: vec![0; bytes], scratch: vec![0; bytes], out: vec![0; bytes] }
}

fn run(t: &Table, a: &mut Areas) -> usize {
    call::public_listing(&t.events, &t.attributes, &t.source, &mut a.records, &mut a.text, &mut a.scratch, &mut a.out)
}

fn best(name: &str, n: usize, mut f: impl FnMut() -> usize) -> f64 {
    let mut best = f64::MAX;
    let mut bytes = 0;
    for _ in 0..n {
        let began = Instant::now();
        bytes = f();
        best = best.min(began.elapsed().as_secs_f64());
    }
    println!("{name}: {:.3} ms, {bytes} bytes", best * 1e3);
    best
}

fn hard(name: &str, t: &Table) {
    let mut a = areas(65_536, 1 << 24);
    best(name, 1, || run(t, &mut a));
}

fn main() {
    let t = report();
    println!("{} events, {} attributes, {} bytes", t.events.len() / 5, t.attributes.len() / 5, t.source.len());
    let mut a = areas(32_768, 4 << 20);
    let ours = best("ours, 11,000 cases", 20, || run(&t, &mut a));
    let n = run(&t, &mut a);
    let listing = a.out[..n].to_vec();
    assert!(n > 500_000);
    with_crate(&t, &listing, ours);
    if cfg!(with_crate) { return; }

    // gathered texts, with scratch for all of them and for the longest alone
    for (name, (x, longest)) in [("10,900 reruns", reruns()), ("one rerun of 65,526 events", interleaved())] {
        a.scratch.resize(4 << 20, 0);
        let roomy = best(&format!("{name}, scratch of 4 MiB"), 20, || run(&x, &mut a));
        let n = run(&x, &mut a);
        let listing = a.out[..n].to_vec();
        a.scratch.truncate(longest);
        let short = best(&format!("{name}, scratch of {longest} bytes"), 20, || run(&x, &mut a));
        let n = run(&x, &mut a);
        assert!(n > 90 && a.out[..n] == listing[..]);
        println!("ratio: {:.3}", short / roomy);
    }

    let mut x = Table::default();
    for _ in 0..65_536 { x.event(0, "testsuites", &[]); }
    hard("65,536 Start `testsuites`", &x);

    let mut x = Table::default();
    x.event(0, "testsuites", &[]);
    x.event(0, "testsuite", &[("name", "s")]);
    for _ in 0..30_000 {
        x.event(0, "properties", &[]);
        x.event(2, "properties", &[]);
    }
    x.event(2, "testsuite", &[]);
    x.event(2, "testsuites", &[]);
    hard("30,000 properties lists in one suite", &x);

    for (same, name) in [(false, "one suite with 60,000 extras, keys of several lengths"), (true, "one suite with 60,000 extras, keys of one length")] {
        let mut x = Table::default();
        x.event(0, "testsuites", &[]);
        let keys: Vec<String> = (0..60_000).map(|i| if same { format!("k{i:06}") } else { format!("k{}{i}", "x".repeat(i % 97)) }).collect();
        let mut all: Vec<(&str, &str)> = vec![("name", "s")];
        all.extend(keys.iter().map(|k| (k.as_str(), "v")));
        x.event(0, "testsuite", &all);
        x.event(2, "testsuite", &[]);
        x.event(2, "testsuites", &[]);
        hard(name, &x);
    }

    let mut x = Table::default();
    let keys: Vec<String> = (0..65_536).map(|i| format!("k{i:06}")).collect();
    let all: Vec<(&str, &str)> = keys.iter().map(|k| (k.as_str(), "v")).collect();
    x.event(0, "testsuites", &all);
    x.event(2, "testsuites", &[]);
    hard("one element with 65,536 ignored attributes", &x);
    // the same attributes shared by many elements
    let first: Vec<u32> = x.events[..5].to_vec();
    let mut y = x.clone();
    y.events.clear();
    for _ in 0..65_535 { y.events.extend_from_slice(&first); }
    hard("65,535 elements that share 65,536 ignored attributes", &y);
}

#[cfg(not(with_crate))]
fn with_crate(_: &Table, _: &[u8], _: f64) {}

#[cfg(with_crate)]
fn with_crate(t: &Table, listing: &[u8], ours: f64) {
    let mut input = Vec::new();
    for n in [t.events.len() / 5, t.attributes.len() / 5, t.source.len()] { input.extend_from_slice(&(n as u32).to_le_bytes()); }
    for w in t.events.iter().chain(t.attributes.iter()) { input.extend_from_slice(&w.to_le_bytes()); }
    input.extend_from_slice(&t.source);
    let table = compare::table::Input::from_bytes(&input).unwrap();
    // what the library does besides: it counts what the areas would hold
    let theirs = best("the crate, 11,000 cases", 20, || {
        let r = compare::reference::read_whole(&table).unwrap_or_else(|| panic!());
        let l = compare::report::listing(&r);
        assert!(l.as_bytes() == listing);
        l.len()
    });
    println!("ratio ours / crate: {:.3}", ours / theirs);
}
