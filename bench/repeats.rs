// Times tables whose elements have many attributes: extras, ignored ones, and keys that are long overlapping parts of the source.
// Build and run: see README.md beside this file.
use std::time::Instant;

mod call;

#[derive(Default, Clone)]
struct Table { events: Vec<u32>, attributes: Vec<u32>, source: Vec<u8> }

impl Table {
    fn put(&mut self, bytes: &str) -> (u32, u32) {
        let at = self.source.len() as u32;
        self.source.extend_from_slice(bytes.as_bytes());
        (at, bytes.len() as u32)
    }
    fn attribute(&mut self, key: &str, value: &str) {
        let (ka, kl) = self.put(key);
        let (va, vl) = self.put(value);
        self.attributes.extend_from_slice(&[0, ka, kl, va, vl]);
    }
    // The attributes from number `first` on.
    fn tag(&mut self, kind: u32, name: &str, first: usize) {
        let (at, len) = self.put(name);
        let n = self.attributes.len() / 5 - first;
        self.events.extend_from_slice(&[kind, at, len, first as u32, n as u32]);
    }
    fn end(&mut self, name: &str) {
        let (at, len) = self.put(name);
        self.events.extend_from_slice(&[2, at, len, 0, 0]);
    }
    fn count(&self) -> usize { self.attributes.len() / 5 }
}

// A suite with n extras.
fn extras(n: usize, key: impl Fn(usize) -> String) -> Table {
    let mut t = Table::default();
    t.tag(0, "testsuites", 0);
    t.attribute("name", "s");
    for i in 0..n { t.attribute(&key(i), "v"); }
    t.tag(0, "testsuite", 0);
    t.end("testsuite");
    t.end("testsuites");
    t
}

// Keys of which every second one is the one before it, spelled otherwise.
fn again(i: usize) -> String { format!("{}{:06}", if i % 2 == 0 { "a" } else { "&#97;" }, i / 2) }

fn ignored(n: usize) -> Table {
    let mut t = Table::default();
    for i in 0..n { t.attribute(&format!("k{i:06}"), "v"); }
    t.tag(0, "testsuites", 0);
    t.end("testsuites");
    t
}

fn cases(n: usize) -> Table {
    let mut t = Table::default();
    t.tag(0, "testsuites", 0);
    t.attribute("name", "s");
    t.tag(0, "testsuite", 0);
    for i in 0..n {
        let first = t.count();
        t.attribute("name", &format!("c{i}"));
        t.attribute("time", "0.5");
        t.tag(1, "testcase", first);
    }
    t.end("testsuite");
    t.end("testsuites");
    t
}

// n keys of `long` bytes or less, each another part of a source that is the same byte but for one in its middle.
fn overlapping(n: usize, long: usize) -> Table {
    let mut t = Table::default();
    t.source.extend(std::iter::repeat(b'a').take(long));
    t.source.push(b'b');
    t.source.extend(std::iter::repeat(b'a').take(long));
    for i in 0..n { t.attributes.extend_from_slice(&[0, (i % long) as u32, (long - i / long) as u32, 0, 0]); }
    t.tag(0, "testsuites", 0);
    t.end("testsuites");
    t
}

struct Areas { records: Vec<u32>, text: Vec<u8>, scratch: Vec<u8>, out: Vec<u8> }

fn time(name: &str, t: &Table, each: f64, a: &mut Areas) {
    let mut best = f64::MAX;
    for _ in 0..3 {
        let began = Instant::now();
        call::public_listing(&t.events, &t.attributes, &t.source, &mut a.records, &mut a.text, &mut a.scratch, &mut a.out);
        best = best.min(began.elapsed().as_secs_f64());
        if best > 2.0 { break; }
    }
    println!("{name}: {:.1} ms, {:.1} ns each", best * 1e3, best * 1e9 / each);
}

fn areas(records: usize, bytes: usize) -> Areas {
    Areas { records: vec![0; records * 32], text: vec![0; bytes], scratch: vec![0; bytes], out: vec![0; bytes] }
}

// What n attributes cost: in areas that are as long as these need, so that clearing them is in proportion.
fn each(n: usize) {
    let mut a = areas(n + n / 32 + 64, n * 128 + 1024);
    let count = n as f64;
    time(&format!("{n}: these areas cleared, for each attribute"), &extras(0, |_| String::new()), count, &mut a);
    time(&format!("{n} extras, keys of one length, areas to fit"), &extras(n, |i| format!("k{i:06}")), count, &mut a);
    time(&format!("{n} extras, keys of a hundred lengths, areas to fit"), &extras(n, |i| format!("k{i:06}{}", "x".repeat(i % 100))), count, &mut a);
    time(&format!("{n} extras, `&#97;` in each key, areas to fit"), &extras(n, |i| format!("&#97;{i:06}")), count, &mut a);
    time(&format!("{n} extras, every second one is there already, areas to fit"), &extras(n, again), count, &mut a);
    time(&format!("{n} ignored attributes, areas to fit"), &ignored(n), count, &mut a);
}

fn main() {
    for n in [1_000, 10_000, 60_000] { each(n); }
    let mut a = areas(65_536, 1 << 24);
    let none = extras(0, |_| String::new());
    time("an empty suite (areas cleared)", &none, 1.0, &mut a);
    for n in [10_000, 60_000] {
        let each = n as f64;
        time(&format!("{n} extras, keys of one length"), &extras(n, |i| format!("k{i:06}")), each, &mut a);
        time(&format!("{n} extras, keys of a hundred lengths"), &extras(n, |i| format!("k{i:06}{}", "x".repeat(i % 100))), each, &mut a);
        time(&format!("{n} extras, `&#97;` in each key"), &extras(n, |i| format!("&#97;{i:06}")), each, &mut a);
        time(&format!("{n} extras, every second one is there already"), &extras(n, again), each, &mut a);
        time(&format!("{n} ignored attributes"), &ignored(n), each, &mut a);
    }
    time("62,000 extras, keys of one length", &extras(62_000, |i| format!("k{i:06}")), 62_000.0, &mut a);
    time("65,536 ignored attributes", &ignored(65_536), 65_536.0, &mut a);
    time("30,000 cases of two attributes each", &cases(30_000), 60_000.0, &mut a);
    for n in [1_024, 8_192, 65_536] {
        time(&format!("{n} overlapping keys of 64 KiB (each byte named)"), &overlapping(n, 65_536), n as f64 * 65_536.0, &mut a);
    }
}
