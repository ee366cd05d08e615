// Times writing of the tree of a report of 11,000 cases; with `--cfg with_crate` also the crate's `serialize_report` at event level on
// the same report, through the library `compare`, which replays tables and records what is written, and compares the two tables word by word
// and byte by byte.
// Build and run: see README.md beside this file.
use std::time::Instant;

mod call;

struct Written { events: Vec<u32>, attributes: Vec<u32>, bytes: Vec<u8> }

fn write(records: &[u32], text: &[u8], w: &mut Written) -> usize {
    call::write(records, text, &mut w.events, &mut w.attributes, &mut w.bytes).events
}

// Words, presence bits and kinds by docs/TREE.md.
#[derive(Default)]
struct Tree { records: Vec<u32>, text: Vec<u8> }

impl Tree {
    fn record(&mut self, kind: u32) { self.records.extend([0; 32]); self.put(0, kind); }
    fn put(&mut self, word: usize, value: u32) { let at = self.records.len() - 32; self.records[at + word] = value; }
    fn bit(&mut self, bit: u32) { let at = self.records.len() - 31; self.records[at] |= 1 << bit; }
    fn words(&mut self, word: usize, bit: u32, text: &str) {
        let at = self.text.len() as u32;
        self.text.extend_from_slice(text.as_bytes());
        self.put(word, at);
        self.put(word + 1, text.len() as u32);
        self.bit(bit);
    }
}

// 11 suites of 1,000 cases: each case has an output, every tenth fails with a rerun (listing.rs has the same report).
fn tree() -> Tree {
    let mut t = Tree::default();
    t.record(1);
    t.words(2, 0, "matching");
    t.put(18, 11_000);
    for s in 0..11 {
        t.record(2);
        t.words(2, 0, &format!("suite {s}"));
        t.put(18, 1_000);
        t.record(13);
        t.words(2, 0, "hostname");
        t.words(4, 1, "lab");
        for c in 0..1000 {
            t.record(3);
            t.words(2, 0, &format!("case {c} of suite {s}"));
            t.words(18, 5, "allocation.ranking");
            t.put(17, 125_000_000);
            t.bit(4);
            t.words(4, 1, "message read, ranking compared");
            if c % 10 == 0 {
                t.record(6);
                t.words(2, 0, "ranking differs & is refused");
                t.words(18, 5, "assertion");
                t.words(20, 6, "expected donor 4, got donor 7");
                t.record(11);
                t.words(2, 0, "again");
            }
        }
    }
    t
}

fn best(name: &str, n: usize, mut f: impl FnMut() -> usize) -> f64 {
    let mut best = f64::MAX;
    let mut events = 0;
    for _ in 0..n {
        let began = Instant::now();
        events = f();
        best = best.min(began.elapsed().as_secs_f64());
    }
    println!("{name}: {:.3} ms, {events} events", best * 1e3);
    best
}

// One case with an output of 30,000 lines, each with one character that is escaped.
fn long() -> Tree {
    let mut t = Tree::default();
    t.record(1);
    t.record(2);
    t.words(2, 0, "s");
    t.record(3);
    t.words(2, 0, "c");
    t.words(4, 1, &"message read, ranking compared with what was expected of it & more of that kind, up to the end of the line\n".repeat(30_000));
    t
}

fn document(name: &str, t: &Tree, out: &mut [u8]) {
    let mut best = f64::MAX;
    let mut length = 0;
    for _ in 0..20 {
        let began = Instant::now();
        length = call::write_xml(&t.records, &t.text, out).length;
        best = best.min(began.elapsed().as_secs_f64());
    }
    println!("{name}: {:.3} ms, {length} bytes, {:.0} MB/s", best * 1e3, length as f64 / best / 1e6);
}

fn main() {
    let t = tree();
    let mut w = Written { events: vec![7; 327_680], attributes: vec![7; 327_680], bytes: vec![7; 4 << 20] };
    println!("{} records, {} bytes of text", t.records.len() / 32, t.text.len());
    let ours = best("ours, 11,000 cases", 20, || write(&t.records, &t.text, &mut w));
    let mut out = vec![7; 4 << 20];
    document("as a document", &t, &mut out);
    document("a long output as a document", &long(), &mut out);
    assert!(write(&t.records, &t.text, &mut w) > 40_000);
    with_crate(&w, ours);
}

#[cfg(not(with_crate))]
fn with_crate(_: &Written, _: f64) {}

#[cfg(with_crate)]
fn with_crate(w: &Written, ours: f64) {
    // the table that was written is read by the crate, and written again
    let n = w.events.chunks(5).take_while(|e| e.iter().any(|x| *x != 0)).count();
    let m = w.attributes.chunks(5).take_while(|e| e.iter().any(|x| *x != 0)).count();
    let k = w.bytes.iter().rposition(|b| *b != 0).map_or(0, |i| i + 1);
    let mut input = Vec::new();
    for x in [n, m, k] { input.extend_from_slice(&(x as u32).to_le_bytes()); }
    for x in w.events[..n * 5].iter().chain(w.attributes[..m * 5].iter()) { input.extend_from_slice(&x.to_le_bytes()); }
    input.extend_from_slice(&w.bytes[..k]);
    let table = compare::table::Input::from_bytes(&input).unwrap();
    let report = compare::reference::read_whole(&table).unwrap_or_else(|| panic!());
    // events recorded by a stand-in for quick_xml's writer; the table is laid out behind the time
    let theirs = best("the crate, 11,000 cases", 20, || compare::report::serialized(&report).0.len());
    let laid = compare::table::Input::new(compare::report::written(&report, false).0).to_bytes();
    assert!(laid == input);
    println!("ratio ours / crate: {:.3}", ours / theirs);
}
