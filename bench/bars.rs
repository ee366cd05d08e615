// Every bar of the times in one run: this library, bare passes, and other parsers on the same reports, turn about, thread time, with the
// ratios. `bars table [COUNTS]` prints the table, with valgrind's instruction counts from the file; `bars names` the measured calls;
// `bars once NAME` runs one of them once, for valgrind. With `--cfg with_crate` the crate at event level (see compare), with
// `--cfg with_quick` quick-xml. Build and run: bars beside this file.
use std::collections::HashMap;
use std::hint::black_box;

mod call;
mod table;

use table::Table;

#[repr(C)]
struct Tokenized { events: u32, attributes: u32, number: u32, byte: u32 }

#[repr(C)]
struct Clock { seconds: i64, nanos: i64 }

extern "C" {
    fn kerzhoma_tokenize(s: *const u8, sl: usize, e: *mut u32, el: usize, a: *mut u32, al: usize) -> Tokenized;
    fn kerzhoma_list_xml(s: *const u8, sl: usize, e: *mut u32, el: usize, a: *mut u32, al: usize, r: *mut u32, rl: usize, t: *mut u8, tl: usize, c: *mut u8, cl: usize, o: *mut u8, ol: usize) -> usize;
    fn peer_expat(s: *const u8, n: usize) -> usize;
    fn peer_libxml2(s: *const u8, n: usize) -> usize;
    fn peer_expat_listing(s: *const u8, n: usize, o: *mut u8, ol: usize) -> usize;
    fn peer_libxml2_listing(s: *const u8, n: usize, o: *mut u8, ol: usize) -> usize;
    fn clock_gettime(clock: i32, t: *mut Clock) -> i32;
}

// processor time of this thread
fn now() -> f64 {
    let mut t = Clock { seconds: 0, nanos: 0 };
    unsafe { clock_gettime(3, &mut t) };
    t.seconds as f64 + t.nanos as f64 * 1e-9
}

// ---- areas, and the calls on them
struct Areas { events: Vec<u32>, attributes: Vec<u32>, records: Vec<u32>, text: Vec<u8>, scratch: Vec<u8>, out: Vec<u8> }

fn areas(entries: usize, records: usize, bytes: usize) -> Areas {
    Areas { events: vec![1; entries * 5], attributes: vec![1; entries * 5], records: vec![1; records * 32], text: vec![1; bytes], scratch: vec![1; bytes], out: vec![1; bytes] }
}

fn read(t: &Table, a: &mut Areas) -> usize {
    let r = call::read(&t.events, &t.attributes, &t.source, &mut a.records, &mut a.text, &mut a.scratch);
    assert!(r.number == 0, "reading refuses with {} at event {}", r.number, r.event);
    1
}

fn read_and_list(t: &Table, a: &mut Areas) -> usize {
    call::read_and_list(&t.events, &t.attributes, &t.source, &mut a.records, &mut a.text, &mut a.scratch, &mut a.out).length
}

fn write(a: &mut Areas) -> usize { call::write(&a.records, &a.text, &mut a.events, &mut a.attributes, &mut a.out).events }

fn tokenize(s: &[u8], a: &mut Areas) -> Tokenized {
    unsafe { kerzhoma_tokenize(s.as_ptr(), s.len(), a.events.as_mut_ptr(), a.events.len(), a.attributes.as_mut_ptr(), a.attributes.len()) }
}

fn list_xml(s: &[u8], a: &mut Areas) -> usize {
    unsafe {
        kerzhoma_list_xml(s.as_ptr(), s.len(), a.events.as_mut_ptr(), a.events.len(), a.attributes.as_mut_ptr(), a.attributes.len(),
            a.records.as_mut_ptr(), a.records.len(), a.text.as_mut_ptr(), a.text.len(), a.scratch.as_mut_ptr(), a.scratch.len(), a.out.as_mut_ptr(), a.out.len())
    }
}

// ---- a bare pass: the areas cleared, the table's words walked, each value and text checked and copied once, a record for each Start
fn bare(t: &Table, a: &mut Areas) -> usize {
    a.records.fill(0);
    a.text.fill(0);
    a.scratch.fill(0);
    black_box(&a.scratch[0]);
    let (n, m) = (t.source.len() as u64, (t.attributes.len() / 5) as u64);
    let mut good = true;
    for e in t.events.chunks_exact(5) { good &= e[0] <= 9 && e[1] as u64 + e[2] as u64 <= n && (e[4] == 0 || (e[0] <= 1 && e[3] as u64 + e[4] as u64 <= m)); }
    for e in t.attributes.chunks_exact(5) { good &= e[0] <= 1 && e[1] as u64 + e[2] as u64 <= n && e[3] as u64 + e[4] as u64 <= n; }
    if !good { return 0; }
    let (mut fill, mut record) = (0, 0);
    for e in t.events.chunks_exact(5) {
        let b = &t.source[e[1] as usize..(e[1] + e[2]) as usize];
        if e[0] <= 1 {
            if b.len() != 10 {
                a.records[record * 32] = 3;
                a.records[record * 32 + 1] = b.len() as u32;
                record += 1;
            }
            if e[4] == 0 { continue; }
            for x in t.attributes[e[3] as usize * 5..(e[3] + e[4]) as usize * 5].chunks_exact(5) {
                let v = &t.source[x[3] as usize..(x[3] + x[4]) as usize];
                if std::str::from_utf8(v).is_err() { return 0; }
                a.text[fill..fill + v.len()].copy_from_slice(v);
                a.records[record * 32 + 2] = fill as u32;
                fill += v.len();
            }
        } else if e[0] == 3 {
            if std::str::from_utf8(b).is_err() { return 0; }
            a.text[fill..fill + b.len()].copy_from_slice(b);
            fill += b.len();
        }
    }
    fill + 1
}

// ---- reports
fn document(t: &Table) -> Vec<u8> {
    let part = |at: u32, n: u32| &t.source[at as usize..(at + n) as usize];
    let mut o = Vec::new();
    for e in t.events.chunks_exact(5) {
        let b = part(e[1], e[2]);
        match e[0] {
            0 | 1 => {
                o.push(b'<');
                o.extend_from_slice(b);
                for x in t.attributes[e[3] as usize * 5..(e[3] + e[4]) as usize * 5].chunks_exact(5) {
                    o.push(b' ');
                    o.extend_from_slice(part(x[1], x[2]));
                    o.extend_from_slice(b"=\"");
                    o.extend_from_slice(part(x[3], x[4]));
                    o.push(b'"');
                }
                if e[0] == 1 { o.push(b'/'); }
                o.push(b'>');
            }
            2 => {
                o.extend_from_slice(b"</");
                o.extend_from_slice(b);
                o.push(b'>');
            }
            _ => o.extend_from_slice(b),
        }
    }
    o
}

// so many cases, an event each
fn lean(n: usize) -> Table {
    let mut t = Table::default();
    t.event(0, "testsuites", &[("name", "r")]);
    t.event(0, "testsuite", &[("name", "s")]);
    for i in 0..n { t.event(1, "testcase", &[("name", &format!("case{i:06}"))]); }
    t.event(2, "testsuite", &[]);
    t.event(2, "testsuites", &[]);
    t
}

// a document of 2 or 16 MB by bench/xml/documents.py
fn stored(name: &str) -> Vec<u8> { std::fs::read(format!("target/documents/{name}.xml")).expect("target/documents: run bench/bars") }

// ---- what is measured
type Call = Box<dyn FnMut() -> usize>;

#[no_mangle]
#[inline(never)]
pub extern "C" fn measured(f: &mut Call) -> usize { f() }

fn with_document(calls: &mut Vec<(String, Call)>, name: &str, x: Vec<u8>, bytes: usize) {
    let listing = |peer: unsafe extern "C" fn(*const u8, usize, *mut u8, usize) -> usize| -> Call {
        let (x, mut out) = (x.clone(), vec![0u8; bytes]);
        Box::new(move || unsafe { peer(x.as_ptr(), x.len(), out.as_mut_ptr(), out.len()) })
    };
    calls.push((format!("listing {name}, expat"), listing(peer_expat_listing)));
    calls.push((format!("listing {name}, libxml2"), listing(peer_libxml2_listing)));
    with_quick(calls, name, x.clone());
    let mut a = areas(65_536, 32_768, bytes);
    calls.push((format!("listing {name}, ours"), Box::new(move || list_xml(&x, &mut a))));
}

fn tokenizing(calls: &mut Vec<(String, Call)>, name: &str, x: Vec<u8>) {
    let (y, z) = (x.clone(), x.clone());
    calls.push((format!("tokenize {name}, expat"), Box::new(move || unsafe { peer_expat(y.as_ptr(), y.len()) })));
    calls.push((format!("tokenize {name}, libxml2"), Box::new(move || unsafe { peer_libxml2(z.as_ptr(), z.len()) })));
    let mut a = areas(65_536, 1, 1);
    calls.push((format!("tokenize {name}, ours"), Box::new(move || (tokenize(&x, &mut a).number == 0) as usize)));
}

// the table of a document
fn tabled(x: Vec<u8>) -> Table {
    let mut a = areas(65_536, 1, 1);
    let k = tokenize(&x, &mut a);
    assert!(k.number == 0, "a measured document is refused with {} at byte {}", k.number, k.byte);
    a.events.truncate(k.events as usize * 5);
    a.attributes.truncate(k.attributes as usize * 5);
    Table { events: a.events, attributes: a.attributes, source: x }
}

// all calls, or at least the one of that name
fn calls(only: &str) -> Vec<(String, Call)> {
    let mut v: Vec<(String, Call)> = Vec::new();
    let t = table::report();
    let x = document(&t);
    for (name, file) in [("11,000 cases", ""), ("newlines", "r2"), ("Cyrillic", "u2")] {
        if !only.is_empty() && !only.contains(name) { continue; }
        let t = if file.is_empty() { t.clone() } else { tabled(stored(file)) };
        let (u, mut a, mut b) = (t.clone(), areas(1, 32_768, 4 << 20), areas(1, 32_768, 4 << 20));
        v.push((format!("read {name}, bare"), Box::new(move || bare(&u, &mut a))));
        v.push((format!("read {name}, ours"), Box::new(move || read(&t, &mut b))));
    }
    if only.is_empty() || only.ends_with("crate") { with_crate(&mut v, &t); }
    let (u, mut a) = (t.clone(), areas(1, 32_768, 4 << 20));
    v.push(("read and list 11,000 cases, ours".into(), Box::new(move || read_and_list(&u, &mut a))));
    let mut a = areas(65_536, 32_768, 4 << 20);
    read(&t, &mut a);
    v.push(("write 11,000 cases, ours".into(), Box::new(move || write(&mut a))));
    tokenizing(&mut v, "11,000 cases", x.clone());
    for (name, file) in [("2 MB ASCII", "r2"), ("16 MB ASCII", "r16"), ("2 MB, a third beyond", "u2"), ("16 MB, a third beyond", "u16")] { tokenizing(&mut v, name, stored(file)); }
    with_document(&mut v, "11,000 cases", x, 4 << 20);
    with_document(&mut v, "newlines", stored("r2"), 4 << 20);
    with_document(&mut v, "Cyrillic", stored("u2"), 4 << 20);
    for n in [1_000, 11_000, 60_000] {
        let t = lean(n);
        let x = document(&t);
        let mut a = areas(n + 64, n + 64, 64 * n + 4096);
        v.push((format!("lean read and list {n}"), Box::new(move || read_and_list(&t, &mut a))));
        let mut a = areas(n + 64, n + 64, 64 * n + 4096);
        v.push((format!("lean listing {n}"), Box::new(move || list_xml(&x, &mut a))));
    }
    v
}

#[cfg(not(with_quick))]
fn with_quick(_: &mut Vec<(String, Call)>, _: &str, _: Vec<u8>) {}

// The minimal listing of bench/xml/peers.c. quick-xml hands values and texts over as they stand: unescaping all of them is what the other
// parsers do by themselves; `quick-raw` only takes the names.
#[cfg(with_quick)]
fn with_quick(calls: &mut Vec<(String, Call)>, name: &str, x: Vec<u8>) {
    for (all, peer) in [(true, "quick-xml"), (false, "quick-raw")] {
        let (x, mut out): (Vec<u8>, Vec<u8>) = (x.clone(), Vec::with_capacity(4 << 20));
        calls.push((format!("listing {name}, {peer}"), Box::new(move || quick_listing(&x, all, &mut out))));
    }
}

#[cfg(with_quick)]
fn quick_opens(e: &quick_xml::events::BytesStart, all: bool, out: &mut Vec<u8>, end: &mut &'static [u8]) {
    let tag = e.name();
    let (before, behind): (&[u8], &[u8]) = match tag.as_ref() {
        b"testsuite" => (b"suite ", b"\n"),
        b"testcase" => (b"case ", b""),
        _ => (b"", b""),
    };
    match tag.as_ref() {
        b"testcase" => *end = b" passed\n",
        b"failure" => *end = b" failed\n",
        b"error" => *end = b" failed with an error\n",
        b"skipped" => *end = b" skipped\n",
        _ => {}
    }
    out.extend_from_slice(before);
    if all || !before.is_empty() {
        for a in e.attributes() {
            let a = a.unwrap();
            let named = a.key.as_ref() == b"name";
            if all || named {
                let v = a.unescape_value().unwrap();
                if named && !before.is_empty() { out.extend_from_slice(v.as_bytes()); }
            }
        }
    }
    out.extend_from_slice(behind);
}

#[cfg(with_quick)]
fn quick_listing(x: &[u8], all: bool, out: &mut Vec<u8>) -> usize {
    use quick_xml::events::Event;
    out.clear();
    let mut end: &'static [u8] = b"";
    let mut r = quick_xml::Reader::from_reader(x);
    loop {
        match r.read_event().unwrap() {
            Event::Start(e) => quick_opens(&e, all, out, &mut end),
            Event::Empty(e) => {
                quick_opens(&e, all, out, &mut end);
                if e.name().as_ref() == b"testcase" { out.extend_from_slice(end); }
            }
            Event::End(e) => if e.name().as_ref() == b"testcase" { out.extend_from_slice(end); },
            Event::Text(e) => if all { black_box(e.unescape().unwrap().len()); },
            Event::Eof => return out.len(),
            _ => {}
        }
    }
}

#[cfg(not(with_crate))]
fn with_crate(_: &mut Vec<(String, Call)>, _: &Table) {}

#[cfg(with_crate)]
fn with_crate(calls: &mut Vec<(String, Call)>, t: &Table) {
    let mut input = Vec::new();
    for n in [t.events.len() / 5, t.attributes.len() / 5, t.source.len()] { input.extend_from_slice(&(n as u32).to_le_bytes()); }
    for w in t.events.iter().chain(t.attributes.iter()) { input.extend_from_slice(&w.to_le_bytes()); }
    input.extend_from_slice(&t.source);
    let table = oracle::parse_input(&input, false).unwrap();
    let areas = oracle::Sizes::limits().areas;
    let report = oracle::read(&table, areas).result.unwrap_or_else(|_| panic!());
    calls.push(("read and list 11,000 cases, crate".into(), Box::new(move || {
        let r = oracle::read(&table, oracle::Sizes::limits().areas).result.unwrap_or_else(|_| panic!());
        oracle::listing(&r).len()
    })));
    calls.push(("write 11,000 cases, crate".into(), Box::new(move || oracle::write_events(&report).0.len())));
}

// ---- the table
struct Measured { times: HashMap<String, f64>, counts: HashMap<String, u64> }

impl Measured {
    fn count(&self, name: &str) -> String { self.counts.get(name).map_or("-".into(), |n| format!("{:.1}", *n as f64 / 1e6)) }
    // a line: ours against another, with the most that the ratio may be
    fn line(&self, what: &str, other: &str, most: Option<f64>) {
        let (mine, theirs) = (format!("{what}, ours"), format!("{what}, {other}"));
        let Some(t) = self.times.get(&theirs) else {
            println!("{what:34} {other:10} not built in");
            return;
        };
        let ours = self.times[&mine];
        let ratio = ours / t;
        let verdict = most.map_or(String::new(), |m| format!("{m:6.2}  {}", if ratio <= m { "kept" } else { "missed" }));
        let counted = match (self.counts.get(&mine), self.counts.get(&theirs)) {
            (Some(a), Some(b)) => format!("{:6.2}", *a as f64 / *b as f64),
            _ => "     -".into(),
        };
        println!("{what:34} {other:10} {:9.3} {:9.3} {ratio:6.2} {:>9} {:>9} {counted} {verdict}", ours * 1e3, t * 1e3, self.count(&mine), self.count(&theirs));
    }
    fn linear(&self, what: &str) {
        let each: Vec<f64> = [1_000, 11_000, 60_000].iter().map(|n| self.times[&format!("{what} {n}")] / (*n as f64 + 4.0) * 1e9).collect();
        let ratio = each.iter().cloned().fold(0.0, f64::max) / each.iter().cloned().fold(f64::MAX, f64::min);
        println!("{what:34} ns an event at 1,000, 11,000, 60,000 cases: {:.1} {:.1} {:.1}, ratio {ratio:.2}, bar 1.30 {}", each[0], each[1], each[2], if ratio <= 1.3 { "kept" } else { "missed" });
    }
}

fn table(counts: Option<&String>) {
    let mut v = calls("");
    let rounds: usize = std::env::var("ROUNDS").map_or(9, |s| s.parse().unwrap());
    let mut best = vec![f64::MAX; v.len()];
    for _ in 0..rounds {
        for (k, (name, f)) in v.iter_mut().enumerate() {
            // thrice each time, so that what other calls left in the caches counts for nobody
            for _ in 0..3 {
                let began = now();
                let r = measured(f);
                best[k] = best[k].min(now() - began);
                assert!(r > 0, "{name} fails");
            }
        }
    }
    let mut m = Measured { times: HashMap::new(), counts: HashMap::new() };
    for (k, (name, _)) in v.iter().enumerate() { m.times.insert(name.clone(), best[k]); }
    if let Some(f) = counts {
        for l in std::fs::read_to_string(f).unwrap().lines() {
            if let Some((n, c)) = l.split_once('\t') { m.counts.insert(n.into(), c.parse().unwrap()); }
        }
    }
    println!("{:34} {:10} {:>9} {:>9} {:>6} {:>9} {:>9} {:>6} {:>6}", "call", "beside", "ms, ours", "theirs", "ratio", "M instr.", "theirs", "ratio", "bar");
    m.line("read 11,000 cases", "bare", Some(3.3));
    m.line("read newlines", "bare", None);
    m.line("read Cyrillic", "bare", None);
    m.line("read and list 11,000 cases", "crate", Some(0.13));
    m.line("write 11,000 cases", "crate", Some(0.15));
    for name in ["11,000 cases", "2 MB ASCII", "16 MB ASCII", "2 MB, a third beyond", "16 MB, a third beyond"] {
        let bar = if name == "11,000 cases" { None } else { Some(1.0) };
        m.line(&format!("tokenize {name}"), "expat", bar);
        m.line(&format!("tokenize {name}"), "libxml2", bar);
    }
    for name in ["11,000 cases", "newlines", "Cyrillic"] {
        let bar = |b: f64| if name == "11,000 cases" { Some(b) } else { None };
        m.line(&format!("listing {name}"), "expat", bar(1.0));
        m.line(&format!("listing {name}"), "quick-xml", bar(1.0));
        m.line(&format!("listing {name}"), "libxml2", bar(1.3));
        m.line(&format!("listing {name}"), "quick-raw", None);
    }
    m.linear("lean read and list");
    m.linear("lean listing");
}

fn main() {
    let args: Vec<String> = std::env::args().collect();
    match args.get(1).map(|s| s.as_str()) {
        Some("table") => table(args.get(2)),
        Some("names") => for (name, _) in calls("") { println!("{name}"); },
        Some("once") => for (name, mut f) in calls(&args[2]) { if name == args[2] { println!("{}", measured(&mut f)); } },
        _ => println!("bars table [COUNTS] | names | once NAME"),
    }
}
