// What the port to Rust costs: reads and lists a report of 11,000 cases through the bare calls and through the port, in areas of the
// same lengths, turn about, and prints the best time of each.
// Build and run: see README.md beside this file.
use kerzhoma::{list, list_into, read, Areas, Table};
use std::time::Instant;

mod call;
mod table;

const RECORDS: usize = 32_768;
const BYTES: usize = 4 << 20;
const TURNS: usize = 60;

fn timed(best: &mut f64, f: impl FnOnce() -> usize) -> usize {
    let began = Instant::now();
    let n = f();
    *best = best.min(began.elapsed().as_secs_f64());
    n
}

fn main() {
    let t = table::report();
    let table = Table::new(&t.events, &t.attributes, &t.source);
    println!(
        "{} events, {} attributes, {} bytes",
        t.events.len() / 5,
        t.attributes.len() / 5,
        t.source.len()
    );

    let (mut records, mut text, mut scratch) =
        (vec![0; RECORDS * 32], vec![0; BYTES], vec![0; BYTES]);
    let mut areas = Areas::new(RECORDS, BYTES, BYTES);
    let (mut out, mut same) = (vec![0; BYTES], vec![0; BYTES]);
    let [mut bare, mut port, mut owned, mut walked] = [f64::MAX; 4];
    for _ in 0..TURNS {
        let m = timed(&mut bare, || {
            assert!(
                call::read(
                    &t.events,
                    &t.attributes,
                    &t.source,
                    &mut records,
                    &mut text,
                    &mut scratch
                )
                .number
                    == 0
            );
            call::list(&records, &text, &mut out).length
        });
        let n = timed(&mut port, || {
            let tree = read(&table, &mut areas).unwrap();
            list_into(&tree, &mut same).unwrap()
        });
        assert!(m > 500_000 && out[..m] == same[..n]);
        let k = timed(&mut owned, || {
            list(&read(&table, &mut areas).unwrap()).unwrap().len()
        });
        assert!(k == m);
        let tree = read(&table, &mut areas).unwrap();
        let runs = timed(&mut walked, || {
            let cases = tree.suites().flat_map(|suite| suite.cases());
            cases
                .map(|case| {
                    case.name().len()
                        + case.classname().map_or(0, str::len)
                        + usize::from(case.time().is_some())
                })
                .sum()
        });
        assert!(runs > 400_000);
    }
    let more = |x: f64| (x / bare - 1.0) * 100.0;
    println!("bare calls: {:.3} ms", bare * 1e3);
    println!(
        "through the port: {:.3} ms, {:+.1} %",
        port * 1e3,
        more(port)
    );
    println!(
        "through the port, listing in a String: {:.3} ms, {:+.1} %",
        owned * 1e3,
        more(owned)
    );
    println!(
        "going through all cases of the tree: {:.3} ms",
        walked * 1e3
    );
}
