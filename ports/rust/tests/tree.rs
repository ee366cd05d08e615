//! Layouts that reading rarely leaves, and what is none.
mod common;

use common::{program_areas, replayed, Random};
use kerzhoma::*;

const TEXT: &[u8] = b"sabpvm";

// A record with a name of one byte at `name`, and a value of one byte behind it where a kind has one.
fn record(kind: u32, name: u32) -> [u32; 32] {
    let mut r = [0; 32];
    r[0] = kind;
    if kind != 1 && !(6..=12).contains(&kind) {
        (r[1], r[2], r[3]) = (1, name, 1);
    }
    if matches!(kind, 4 | 5 | 13 | 14) {
        (r[1], r[4], r[5]) = (3, name + 1, 1);
    }
    r
}

// Dead records, whatever their words; a main behind its runs; a suite's properties behind its cases.
#[test]
fn order_of_records() {
    let mut dead = [u32::MAX; 32];
    dead[0] = 16 + 3;
    let mut main = record(6, 0);
    (main[1], main[2], main[3]) = (1, 5, 1);
    let rows = [
        dead,
        record(1, 0),
        dead,
        record(2, 0),
        record(13, 3),
        dead,
        record(3, 1),
        record(5, 3),
        record(11, 0),
        dead,
        record(12, 0),
        main,
        record(3, 2),
        dead,
        record(9, 0),
        record(4, 3),
        dead,
        record(4, 0),
        record(2, 1),
        dead,
    ];
    let mut records: Vec<u32> = rows.concat();
    records.extend_from_slice(&[0; 40]);
    let mut text = TEXT.to_vec();
    text.extend_from_slice(&[0; 9]);
    let tree = Tree::from_layout(&records, &text).unwrap();
    assert_eq!(
        list(&tree).unwrap(),
        "(report - 0 0 0 0 -\n(suite \"s\" 0 0 0 0 -\n(case \"a\" - - failure rerun 2\n(run failure -)\n(run error -))\n\
         (case \"b\" - - success flaky 1\n(run failure -)))\n(suite \"a\" 0 0 0 0 -))\n"
    );

    let suites: Vec<Suite<'_>> = tree.suites().collect();
    assert_eq!(suites.iter().map(|s| s.name()).collect::<Vec<_>>(), ["s", "a"]);
    assert_eq!(suites[0].extras().collect::<Vec<_>>(), [("p", "v")]);
    let property = |name, value| Property { name, value };
    assert_eq!(suites[0].properties().collect::<Vec<_>>(), [property("p", "v"), property("s", "a")]);
    assert_eq!((suites[1].cases().count(), suites[1].properties().count(), suites[1].extras().count()), (0, 0, 0));
    let cases: Vec<Case<'_>> = suites[0].cases().collect();
    assert_eq!(cases.iter().map(|c| c.name()).collect::<Vec<_>>(), ["a", "b"]);
    assert_eq!(cases[0].properties().collect::<Vec<_>>(), [property("p", "v")]);
    assert_eq!((cases[0].extras().count(), cases[1].properties().count()), (0, 0));
    let Status::NonSuccess { message, reruns, .. } = cases[0].status() else { panic!() };
    assert_eq!((message, reruns.kind, reruns.runs.count()), (Some("m"), FlakyOrRerun::Rerun, 2));
    let Status::Success { flaky_runs } = cases[1].status() else { panic!() };
    assert_eq!(flaky_runs.map(|r| r.kind()).collect::<Vec<_>>(), [NonSuccessKind::Failure]);
}

// Bit 9: a failure without runs whose kind is Flaky.
#[test]
fn a_failure_without_runs_may_be_flaky() {
    let mut main = record(7, 0);
    main[1] = 512;
    let records = [record(1, 0), record(2, 0), record(3, 1), main].concat();
    let tree = Tree::from_layout(&records, TEXT).unwrap();
    let case = tree.suites().next().unwrap().cases().next().unwrap();
    let Status::NonSuccess { kind, reruns, .. } = case.status() else { panic!() };
    assert_eq!((kind, reruns.kind, reruns.runs.count()), (NonSuccessKind::Error, FlakyOrRerun::Flaky, 0));
}

// One word or byte of a tree changed: refused with 15, or a tree that can be walked, listed and written.
#[test]
fn changed_trees() {
    let mut random = Random(0x853c_49e6_748f_ea9b);
    let (mut good, mut bad) = (0, 0);
    for table in replayed() {
        let mut areas = program_areas();
        let Ok(tree) = read(&table.as_table(), &mut areas) else { continue };
        for _ in 0..40 {
            let (mut records, mut text) = (tree.records().to_vec(), tree.text().as_bytes().to_vec());
            let (i, k) = (random.below(records.len()), random.below(text.len()));
            if random.below(4) > 0 || text.is_empty() {
                records[i] = [random.below(40) as u32, random.next() as u32, records[i] ^ 1][random.below(3)];
            } else {
                text[k] = random.next() as u8;
            }
            match Tree::from_layout(&records, &text) {
                Ok(tree) => {
                    good += 1;
                    let cases = tree.suites().map(|s| s.properties().count() + s.cases().map(|c| c.name().len()).sum::<usize>());
                    assert!(cases.sum::<usize>() <= 1 << 20);
                    assert!(list(&tree).unwrap().starts_with("(report "));
                    write(&tree).unwrap();
                }
                Err(refusal) => {
                    bad += 1;
                    assert_eq!(refusal.cause(), Cause::NotLayout);
                }
            }
        }
    }
    assert!(good > 500 && bad > 500, "{good} {bad}");
}

// The longest lines: all counts and times of full length, names that are escaped throughout, and none.
// Nanoseconds from 0000-01-01T00:00Z on, by going along years and months.
fn nanoseconds(w: &[u32; 8]) -> i128 {
    let [year, month, day, hour, minute, second, nanos, offset] = w.map(i128::from);
    let leap = |y: i128| i128::from(y % 4 == 0 && (y % 100 != 0 || y % 400 == 0));
    let lengths = [31, 28 + leap(year), 31, 30, 31, 30, 31, 31, 30, 31, 30, 31];
    let days = (0..year).map(|y| 365 + leap(y)).sum::<i128>() + lengths[..month as usize - 1].iter().sum::<i128>() + day - 1;
    (((days * 24 + hour) * 60 + minute - (offset - 1439)) * 60 + second) * 1_000_000_000 + nanos
}

// Cases at a few instants, with every offset, so that ties are many; dead ones, and suites and runs, which don't count.
#[test]
fn first_and_last_start() {
    let mut random = Random(0x1990_1231_2359_5960);
    let mut ties = 0;
    for _ in 0..3000 {
        let (mut rows, mut moments, mut open) = (vec![record(1, 0), record(2, 0)], vec![], false);
        let year = [0, 1900, 1999, 2000, 9999][random.below(5)];
        for _ in 0..random.below(12) {
            let (kind, offset) = ([3, 3, 3, 19, 2, 9][random.below(6)], random.below(2879) as u32);
            let minutes = 1440 + offset + random.below(3) as u32;
            let day = 1 + minutes / 1440;
            let nanos = [0, 1, 999_999_999][random.below(3)];
            let mut r = record(kind, 1);
            if kind == 9 && !open {
                rows.push(record(3, 1));
            }
            open = kind == 3 || kind == 9 || open && kind == 19;
            if random.below(8) > 0 {
                let w = [year, 3, day, minutes % 1440 / 60, minutes % 60, random.below(2) as u32, nanos, offset];
                r[1] |= 8;
                r[8..16].copy_from_slice(&w);
                moments.extend((kind == 3).then_some(w));
            }
            rows.push(r);
        }
        let records: Vec<u32> = rows.concat();
        let told = starts(&Tree::from_layout(&records, TEXT).unwrap()).unwrap();
        let best = |wins: fn(i128, i128) -> bool| {
            moments.iter().copied().reduce(|a, b| if wins(nanoseconds(&b), nanoseconds(&a)) { b } else { a })
        };
        let Some((first, last)) = best(|b, a| b < a).zip(best(|b, a| b > a)) else {
            assert_eq!(told, None);
            continue;
        };
        let told = told.unwrap();
        let shown = |w: [u32; 8]| Timestamp {
            year: w[0] as u16,
            month: w[1] as u8,
            day: w[2] as u8,
            hour: w[3] as u8,
            minute: w[4] as u8,
            second: w[5] as u8,
            nanos: w[6],
            offset_minutes: w[7] as i16 - 1439,
        };
        assert_eq!((told.first, told.last), (shown(first), shown(last)));
        assert_eq!(told.span.as_nanos() as i128, nanoseconds(&last) - nanoseconds(&first));
        ties += usize::from(moments.iter().filter(|w| nanoseconds(w) == nanoseconds(&first)).count() > 1);
    }
    assert!(ties > 100, "{ties}");
}

#[test]
fn longest_lines() {
    for name in ["", "&quot;", "\\\\\\\\\\\\\\\\"] {
        let mut t = TableBuilder::new();
        let most = |tag: Tag<'_>, name: &str| {
            let keys = ["tests", "failures", "errors", "skipped", "disabled"];
            keys.iter().fold(tag.attribute("name", name), |tag, key| tag.attribute(key, u64::MAX.to_string()));
        };
        most(t.start("testsuites"), name);
        for _ in 0..20 {
            most(t.start("testsuite"), name);
            for _ in 0..20 {
                t.start("testcase").attribute("name", name).attribute("classname", name).attribute("time", "8388607.9999");
                t.empty("failure");
                for _ in 0..10 {
                    t.empty("flakyFailure").attribute("time", "8388607.9999");
                }
                t.end("testcase");
            }
            t.end("testsuite");
        }
        t.end("testsuites");
        let table = t.finish();
        let mut areas = Areas::for_table(&table.as_table());
        let public = public_listing(&table.as_table(), &mut areas);
        let tree = read(&table.as_table(), &mut areas).unwrap();
        assert_eq!(list(&tree).unwrap(), public);
        assert_eq!(public.lines().count(), 1 + 20 + 400 + 4000);
        write(&tree).unwrap();
    }
}
