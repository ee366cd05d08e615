//! A stored line for every cause: the smallest tables of docs/REFUSALS.md, and some with names.
mod common;

use common::hold;
use kerzhoma::*;

type Make = fn(&mut TableBuilder);

// The table, and the lengths of the areas: records, bytes of text, bytes of scratch.
fn refused(make: Make, areas: [usize; 3]) -> (Refusal, TableBuf) {
    let mut builder = TableBuilder::new();
    make(&mut builder);
    let table = builder.finish();
    let [records, text, scratch] = areas;
    let refusal = read(&table.as_table(), &mut Areas::new(records, text, scratch)).unwrap_err();
    (refusal, table)
}

const ROOM: [usize; 3] = [64, 4096, 4096];

fn suite(t: &mut TableBuilder) {
    t.start("testsuites");
    t.start("testsuite").attribute("name", "");
}

fn lab(t: &mut TableBuilder) {
    t.start("testsuites");
    t.start("testsuite").attribute("name", "lab");
}

const TABLES: &[(Cause, Make, [usize; 3])] = &[
    (
        Cause::XmlFault,
        |t| {
            t.fault();
        },
        ROOM,
    ),
    (
        Cause::EofInSkip,
        |t| {
            suite(t);
            t.start("x");
        },
        ROOM,
    ),
    (
        Cause::NotUtf8,
        |t| {
            t.empty("testsuites").attribute("name", b"\xff");
        },
        ROOM,
    ),
    (
        Cause::BadInteger,
        |t| {
            t.empty("testsuites").attribute("tests", "");
        },
        ROOM,
    ),
    (
        Cause::BadTimestamp,
        |t| {
            t.empty("testsuites").attribute("timestamp", "");
        },
        ROOM,
    ),
    (
        Cause::BadTime,
        |t| {
            t.empty("testsuites").attribute("time", "");
        },
        ROOM,
    ),
    (
        Cause::BadUuid,
        |t| {
            t.empty("testsuites").attribute("uuid", "");
        },
        ROOM,
    ),
    (
        Cause::MissingAttribute,
        |t| {
            t.start("testsuites");
            t.empty("testsuite");
        },
        ROOM,
    ),
    (Cause::MissingReport, |_| {}, ROOM),
    (
        Cause::EofInElement,
        |t| {
            t.start("testsuites");
        },
        ROOM,
    ),
    (
        Cause::StatusRule,
        |t| {
            suite(t);
            t.start("testcase").attribute("name", "");
            t.empty("rerunError");
            t.end("testcase");
        },
        ROOM,
    ),
    (
        Cause::UnknownEntity,
        |t| {
            suite(t);
            t.start("system-out");
            t.reference("x");
        },
        ROOM,
    ),
    (
        Cause::FaultyAttribute,
        |t| {
            t.empty("testsuites").faulty("", "");
        },
        ROOM,
    ),
    (
        Cause::RepeatedKey,
        |t| {
            t.empty("testsuites").attribute("a", "").attribute("a", "");
        },
        ROOM,
    ),
    (
        Cause::BadReference,
        |t| {
            t.empty("testsuites").attribute("name", "&");
        },
        ROOM,
    ),
    (
        Cause::RecordsSpent,
        |t| {
            t.empty("testsuites");
        },
        [0, 0, 0],
    ),
    (
        Cause::RecordsSpent,
        |t| {
            t.empty("testsuites");
            t.empty("testsuite").attribute("name", "").attribute("a", "");
        },
        [2, 0, 0],
    ),
    (
        Cause::TextFull,
        |t| {
            t.empty("testsuites").attribute("name", "a");
        },
        [1, 0, 0],
    ),
    (
        Cause::TextFull,
        |t| {
            suite(t);
            t.start("system-out");
            t.text("a").end("system-out");
        },
        [2, 0, 1],
    ),
    (
        Cause::ScratchFull,
        |t| {
            suite(t);
            t.start("system-out");
            t.text("a");
        },
        [2, 1, 0],
    ),
    // names, and paths of all kinds
    (
        Cause::BadTime,
        |t| {
            lab(t);
            for name in ["a", "b", "c"] {
                t.empty("testcase").attribute("name", name);
            }
            t.empty("testcase").attribute("time", "1e3");
        },
        ROOM,
    ),
    (
        Cause::BadTime,
        |t| {
            lab(t);
            t.start("testcase").attribute("name", "a &quot;b&quot;\\&#10;").attribute("classname", "c");
            t.empty("flakyFailure").attribute("time", "8388608");
        },
        ROOM,
    ),
    (
        Cause::BadReference,
        |t| {
            lab(t);
            t.start("testcase").attribute("name", "a");
            t.start("rerunFailure");
            t.start("stackTrace");
            t.text("&#0;");
        },
        ROOM,
    ),
    (
        Cause::MissingAttribute,
        |t| {
            lab(t);
            t.start("properties");
            t.empty("property").attribute("name", "a").attribute("value", "b");
            t.empty("property").attribute("name", "a");
        },
        ROOM,
    ),
    (
        Cause::UnknownEntity,
        |t| {
            lab(t);
            t.start("testcase").attribute("name", "\u{1}a\u{e9}\u{1f600}");
            t.start("error");
            t.start("system-err");
            t.reference("nbsp");
        },
        ROOM,
    ),
    (
        Cause::StatusRule,
        |t| {
            lab(t);
            t.start("testcase").attribute("name", "a");
            t.empty("skipped");
            t.empty("flakyError");
            t.end("testcase");
        },
        ROOM,
    ),
];

fn line(made: &mut String, seen: &mut Vec<Cause>, cause: Cause, refusal: &Refusal, table: &TableBuf) {
    let line = explain(refusal, &table.as_table());
    assert_eq!((refusal.cause(), refusal.number()), (cause, cause.number()));
    assert!(line.contains(&format!(": {cause}")), "{line}");
    // what a refusal displays is the line without names
    let shown = refusal.to_string();
    if !line.contains("(\"") {
        assert_eq!(line, format!("{shown}\n"));
    }
    assert!(!shown.contains('"'));
    let path: Vec<String> = refusal.path().map(|e| e.to_string()).collect();
    let at = if path.is_empty() { String::new() } else { format!(" at {}", path.join("/")) };
    assert!(shown.starts_with(&format!("refused {}{at}: {cause}", refusal.number())), "{shown}");
    *made += &line;
    seen.push(cause);
}

#[test]
fn every_cause_has_its_line() {
    let (mut made, mut seen) = (String::new(), Vec::new());
    for (cause, make, areas) in TABLES {
        let (refusal, table) = refused(*make, *areas);
        line(&mut made, &mut seen, *cause, &refusal, &table);
    }

    // words that aren't a multiple of five, an event of kind 10, an attribute of mark 2
    for (events, attributes) in [(vec![0], vec![]), (vec![10, 0, 0, 0, 0], vec![]), (vec![1, 0, 0, 0, 1], vec![2, 0, 0, 0, 0])] {
        let table = TableBuf { events, attributes, source: vec![] };
        let refusal = read(&table.as_table(), &mut Areas::new(1, 0, 0)).unwrap_err();
        line(&mut made, &mut seen, Cause::BadTable, &refusal, &table);
    }

    let none = TableBuf::default();
    let refusal = Tree::from_layout(&[1, 0, 0], &[]).unwrap_err();
    line(&mut made, &mut seen, Cause::NotLayout, &refusal, &none);

    let mut builder = TableBuilder::new();
    builder.empty("testsuites");
    let mut areas = Areas::new(1, 0, 0);
    let tree = read(&builder.table(), &mut areas).unwrap();
    let refusal = list_into(&tree, &mut [7; 20]).unwrap_err();
    line(&mut made, &mut seen, Cause::OutputFull, &refusal, &none);
    assert_eq!(list_into(&tree, &mut [7; 21]), Ok(21));

    let refusal = Counts { tests: u64::MAX, ..Counts::default() }.add_case(Outcome::Success).unwrap_err();
    line(&mut made, &mut seen, Cause::CountLimit, &refusal, &none);

    // 23 comes before 24
    let refusal = rehearse(&Order { cases: 4097, failures: 4098, ..Order::default() }).unwrap_err();
    line(&mut made, &mut seen, Cause::TooManyCases, &refusal, &none);
    let refusal = rehearse(&Order { failures: 1, ..Order::default() }).unwrap_err();
    line(&mut made, &mut seen, Cause::NoSuchReport, &refusal, &none);
    let refusal = release_sheet(&[Counts::default(); limits::REPORTS + 1]).unwrap_err();
    line(&mut made, &mut seen, Cause::TooManyReports, &refusal, &none);
    assert!(release_sheet(&[Counts::default(); limits::REPORTS]).is_ok());

    let mut half = TableBuilder::new();
    half.empty("testsuites").attribute("time", "4194304");
    let mut read_in = Areas::new(1, 0, 0);
    let half = read(&half.table(), &mut read_in).unwrap();
    let refusal = merge(&half, &half, &mut Areas::new(1, 0, 0)).unwrap_err();
    line(&mut made, &mut seen, Cause::TimeLimit, &refusal, &none);

    hold("causes.txt", &made);
    let sentences: std::collections::BTreeSet<String> = Cause::all().map(|c| c.to_string()).collect();
    assert_eq!(sentences.len(), Cause::all().count());
    for cause in Cause::all() {
        assert!(seen.contains(&cause), "{cause:?}");
    }
}

// Limits: 65,536 events are read, 65,537 are not; and so on.
#[test]
fn limits_are_told_as_11() {
    let eof = [7, 0, 0, 0, 0];
    let mut areas = Areas::new(4, 64, 64);
    let cause = |events: usize, attributes: usize, source: usize, areas: &mut Areas| {
        let (events, attributes, source) = (eof.repeat(events), [0; 5].repeat(attributes), vec![b'a'; source]);
        read(&Table::new(&events, &attributes, &source), areas).unwrap_err().cause()
    };
    use kerzhoma::limits::{ATTRIBUTES, EVENTS, SOURCE};
    assert_eq!(cause(EVENTS, ATTRIBUTES, SOURCE, &mut areas), Cause::MissingReport);
    assert_eq!(cause(EVENTS + 1, 0, 0, &mut areas), Cause::BadTable);
    assert_eq!(cause(0, ATTRIBUTES + 1, 0, &mut areas), Cause::BadTable);
    assert_eq!(cause(0, 0, SOURCE + 1, &mut areas), Cause::BadTable);
}

// What the limits don't allow: the words of 12, 13 and 14 say so where a longer area wouldn't help. The last event stands there many times, with
// the same bytes and attributes.
#[test]
fn above_the_limits() {
    let said = |make: &dyn Fn(&mut TableBuilder), times: usize, mut areas: Areas| {
        let mut builder = TableBuilder::new();
        builder.start("testsuites");
        builder.start("testsuite").attribute("name", "s");
        make(&mut builder);
        let mut table = builder.finish();
        let last = table.events[table.events.len() - 5..].to_vec();
        table.events.extend(last.repeat(times - 1));
        explain(&read(&table.as_table(), &mut areas).unwrap_err(), &table.as_table())
    };
    use kerzhoma::limits::{BYTES, RECORDS};
    let long = "a".repeat(1 << 20);
    let records = |t: &mut TableBuilder| {
        t.empty("testcase").attribute("name", "a").attribute("x", "b");
    };
    let text = |t: &mut TableBuilder| {
        t.empty("testcase").attribute("name", &long);
    };
    let scratch = |t: &mut TableBuilder| {
        t.start("system-out");
        t.text(&long);
    };
    assert!(said(&records, 40_000, Areas::new(RECORDS - 1, 1 << 20, 0)).contains(": the area for records is too short ("));
    assert!(said(&records, 40_000, Areas::full()).contains(": the report has more than 65536 records ("));
    assert!(said(&text, 17, Areas::new(99, BYTES - 1, 0)).contains(": the area for texts is too short ("));
    assert!(said(&text, 17, Areas::full()).contains(": the report's texts are longer than 16777216 bytes ("));
    assert!(said(&scratch, 17, Areas::new(99, 99, BYTES - 1)).contains(": the area for gathering text is too short ("));
    assert!(said(&scratch, 17, Areas::full()).contains(": a gathered text is longer than 16777216 bytes ("));
}

// Long names: the area for the line grows.
#[test]
fn long_names_are_explained() {
    let name = "\"".repeat(1 << 20);
    let mut builder = TableBuilder::new();
    builder.start("testsuites");
    builder.start("testsuite").attribute("name", &name);
    builder.start("testcase").attribute("name", &name);
    let table = builder.finish();
    let refusal = read(&table.as_table(), &mut Areas::for_table(&table.as_table())).unwrap_err();
    let line = explain(&refusal, &table.as_table());
    let shown = "\\\"".repeat(1 << 20);
    assert!(
        line == format!(
            "refused 8 at testsuites/testsuite[0](\"{shown}\")/testcase[0](\"{shown}\"): the report ends inside this element (event 3)\n"
        )
    );
}
