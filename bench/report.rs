// What owned reports cost: a document of 2 MB tokenized and read as a tree, and as the values of kerzhoma::report; the same from its
// table, in areas that are used again. Turn about, the least processor time of each, in milliseconds; with a file's name the document is
// put there, and of each two words behind it the second stands in place of the first. Build and run: see README.md beside this file.
use kerzhoma::{read, report::Report, tokenize, Areas};
use std::fmt::Write;
use std::{env, fs};

const TURNS: usize = 60;

#[repr(C)]
struct Clock {
    seconds: i64,
    nanos: i64,
}

extern "C" {
    fn clock_gettime(clock: i32, t: *mut Clock) -> i32;
}

// Processor time of this thread.
fn now() -> f64 {
    let mut t = Clock { seconds: 0, nanos: 0 };
    unsafe { clock_gettime(3, &mut t) };
    t.seconds as f64 + t.nanos as f64 * 1e-9
}

// 11 suites of 900 cases: every tenth fails with a message and a text, every hundredth has an output.
fn document() -> String {
    let mut s = "<?xml version=\"1.0\" encoding=\"UTF-8\"?>\n<testsuites name=\"matching\" tests=\"9900\">\n".to_owned();
    for i in 0..11 {
        writeln!(s, "  <testsuite name=\"allocation suite {i}\" tests=\"900\" hostname=\"lab\">").unwrap();
        for c in 0..900 {
            let name = format!("ranking of applicants against places, case {c} of suite {i}");
            write!(s, "    <testcase name=\"{name}\" classname=\"allocation.ranking.round_{i}\" file=\"tests/ranking_{i}.py\" time=\"0.{c:03}\"")
                .unwrap();
            if c % 10 == 0 {
                let text = "assert ranked(applicants) == expected\nE  at index 7 diff: 'b' != 'a'\n".repeat(6);
                writeln!(s, ">\n      <failure message=\"ranking differs\" type=\"AssertionError\">{text}</failure>").unwrap();
                if c % 100 == 0 {
                    writeln!(s, "      <system-out>{}</system-out>", "a line of output\n".repeat(40)).unwrap();
                }
                s += "    </testcase>\n";
            } else {
                s += "/>\n";
            }
        }
        s += "  </testsuite>\n";
    }
    s + "</testsuites>\n"
}

fn timed<T>(best: &mut f64, f: impl FnOnce() -> T) -> T {
    let began = now();
    let got = f();
    *best = best.min((now() - began) * 1e3);
    got
}

fn main() {
    let mut document = document();
    for words in env::args().skip(2).collect::<Vec<_>>().chunks_exact(2) {
        document = document.replace(&words[0], &words[1]);
    }
    if let Some(file) = env::args().nth(1) {
        fs::write(file, &document).unwrap();
    }
    let table = tokenize(document.as_bytes()).unwrap();
    let table = table.as_table();
    let mut areas = Areas::for_table(&table);
    println!("{} bytes, {} events, {} attributes", document.len(), table.events.len() / 5, table.attributes.len() / 5);
    let [mut tree, mut owned, mut whole, mut again, mut decoded, mut written] = [f64::MAX; 6];
    for _ in 0..TURNS {
        let n = timed(&mut tree, || {
            let (mut events, mut attributes) = (vec![0; 65_536 * 5], vec![0; 65_536 * 5]);
            let table = kerzhoma::tokenize_into(document.as_bytes(), &mut events, &mut attributes).unwrap();
            let mut areas = Areas::for_table(&table);
            read(&table, &mut areas).unwrap().suites().count()
        });
        assert_eq!(n, 11);
        let report = timed(&mut owned, || Report::deserialize_from_str(&document).unwrap());
        timed(&mut whole, || drop(Report::deserialize_from_str(&document).unwrap()));
        timed(&mut again, || read(&table, &mut areas).unwrap().suites().count());
        let same = timed(&mut decoded, || Report::from(&read(&table, &mut areas).unwrap()));
        assert_eq!(report, same);
        timed(&mut written, || report.to_string().unwrap().len());
    }
    println!(
        "document to tree {tree:.2}, to owned values {owned:.2} ({:.2} times), and dropped {whole:.2} ({:.2})",
        owned / tree,
        whole / tree
    );
    println!("table to tree {again:.2}, to owned values {decoded:.2} ({:.2} times)", decoded / again);
    println!("owned values to document {written:.2}");
}
