//! The stored tables of crate `test_replay` through the port: read, listed, walked, written, explained, and built anew.
mod common;

use common::{hash, hold, listed, program_areas, replayed, repository, same, spoil, told, Random};
use kerzhoma::*;
use std::fmt::Write;
use std::fs;

/// A tree, and what its iterators and fields tell.
fn shown(tree: &Tree<'_>) -> String {
    let mut s = String::new();
    write!(s, "(report {}{}", quoted(tree.name()), counted(tree.counts())).unwrap();
    for suite in tree.suites() {
        write!(s, "\n(suite {}{}", quoted(Some(suite.name())), counted(suite.counts())).unwrap();
        for case in suite.cases() {
            let time = |t: Option<std::time::Duration>| t.map_or("-".to_owned(), |t| time_text(t).unwrap());
            write!(s, "\n(case {} {} {}", quoted(Some(case.name())), quoted(case.classname()), time(case.time())).unwrap();
            let (status, kind, runs) = match case.status() {
                Status::Success { flaky_runs } => ("success", "flaky", flaky_runs.collect()),
                Status::NonSuccess { kind, reruns, .. } => (word(kind), family(reruns.kind), reruns.runs.collect()),
                Status::Skipped { .. } => ("skipped", "none", vec![]),
            };
            write!(s, " {status} {kind} {}", runs.len()).unwrap();
            for run in runs {
                write!(s, "\n(run {} {})", word(run.kind()), time(run.time())).unwrap();
            }
            s.push(')');
        }
        s.push(')');
    }
    s + ")\n"
}

fn word(kind: NonSuccessKind) -> &'static str {
    match kind {
        NonSuccessKind::Failure => "failure",
        NonSuccessKind::Error => "error",
    }
}

fn family(kind: FlakyOrRerun) -> &'static str {
    match kind {
        FlakyOrRerun::Flaky => "flaky",
        FlakyOrRerun::Rerun => "rerun",
    }
}

fn counted(c: Counts) -> String {
    let disabled = c.disabled.map_or("-".to_owned(), |n| n.to_string());
    format!(" {} {} {} {} {disabled}", c.tests, c.failures, c.errors, c.skipped)
}

fn quoted(text: Option<&str>) -> String {
    let Some(text) = text else {
        return "-".to_owned();
    };
    let mut s = "\"".to_owned();
    for c in text.chars() {
        match c {
            '"' => s += "\\\"",
            '\\' => s += "\\\\",
            '\n' => s += "\\n",
            '\t' => s += "\\t",
            '\r' => s += "\\r",
            c => s.push(c),
        }
    }
    s + "\""
}

#[test]
fn stored_listings_and_refusals() {
    let mut areas = program_areas();
    let mut got = String::new();
    for table in replayed() {
        got += &match read(&table.as_table(), &mut areas).and_then(|tree| listed(&tree)) {
            Ok(listing) => listing,
            Err(refusal) => told(&refusal),
        };
    }
    same(&fs::read_to_string(repository("crates/test_replay/stdout")).unwrap(), &got);
}

#[test]
fn trees_tell_what_listings_tell() {
    let (mut trees, mut dead) = (0, 0);
    for table in replayed() {
        let mut areas = program_areas();
        let Ok(tree) = read(&table.as_table(), &mut areas) else { continue };
        same(&list(&tree).unwrap(), &shown(&tree));
        trees += 1;
        dead += tree.records().chunks_exact(32).filter(|r| r[0] >= 16).count();
    }
    assert!(trees > 180 && dead > 20, "{trees} {dead}");
}

// With areas of the program's size, as the program `write` has them.
#[test]
fn stored_writings() {
    let mut areas = program_areas();
    let mut got = String::new();
    for (i, table) in replayed().iter().enumerate() {
        let (mut events, mut attributes, mut bytes) = (vec![7; 16_384], vec![7; 16_384], vec![7; 65_536]);
        let written = read(&table.as_table(), &mut areas)
            .and_then(|tree| write_into(&tree, &mut events, &mut attributes, &mut bytes).map(|t| t.to_bytes()));
        match written {
            Ok(file) => writeln!(got, "{i} {} bytes {:016x}", file.len(), hash(&file)).unwrap(),
            Err(_) => writeln!(got, "{i} (refused)").unwrap(),
        }
    }
    hold("written.txt", &got);
}

#[test]
fn what_is_written_lists_the_same() {
    let mut again = 0;
    for table in replayed() {
        let mut areas = program_areas();
        let Ok(tree) = read(&table.as_table(), &mut areas) else { continue };
        let written = write(&tree).unwrap();
        let mut others = Areas::for_table(&written.as_table());
        // only of a plain report it is said that it is read back
        let Ok(back) = read(&written.as_table(), &mut others) else { continue };
        assert_eq!(list(&back).unwrap(), list(&tree).unwrap());
        assert_eq!(public_listing(&table.as_table(), &mut areas), list(&back).unwrap());
        again += 1;
    }
    assert_eq!(again, 173);
}

#[test]
fn stored_explanations() {
    let mut areas = program_areas();
    let mut got = String::new();
    for (i, table) in replayed().iter().enumerate() {
        if let Err(refusal) = read(&table.as_table(), &mut areas) {
            write!(got, "{i}: {}", explain(&refusal, &table.as_table())).unwrap();
        }
    }
    hold("explained.txt", &got);
}

// The report of a tree, call by call.
fn rebuilt<'a>(tree: &Tree<'_>, areas: &'a mut Areas) -> Result<Tree<'a>, Refusal> {
    let mut report = match tree.name() {
        Some(name) => ReportBuilder::new(areas, name)?,
        None => ReportBuilder::unnamed(areas)?,
    };
    if let Some(uuid) = tree.uuid() {
        report.set_uuid(uuid)?;
    }
    if let Some(timestamp) = tree.timestamp() {
        report.set_timestamp(timestamp)?;
    }
    if let Some(time) = tree.time() {
        report.set_time(time)?;
    }
    for suite in tree.suites() {
        rebuild_suite(&suite, &mut report.add_test_suite(suite.name())?)?;
    }
    report.finish()
}

// Sets the fields that are there.
macro_rules! set {
    ($to:expr, $($set:ident = $value:expr),* $(,)?) => { $( if let Some(value) = $value { $to.$set(value)?; } )* };
}

fn rebuild_suite(suite: &Suite<'_>, to: &mut SuiteBuilder<'_, '_>) -> Result<(), Refusal> {
    set!(to, set_timestamp = suite.timestamp(), set_time = suite.time(), set_disabled = suite.counts().disabled);
    set!(to, set_system_out = suite.system_out(), set_system_err_lossy = suite.system_err(), set_hostname = suite.hostname());
    for (key, value) in suite.extras() {
        to.add_extra(key, value)?;
    }
    for property in suite.properties() {
        to.add_property(property.name, property.value)?;
    }
    for case in suite.cases() {
        let outcome = match case.status() {
            Status::Success { .. } => Outcome::Success,
            Status::NonSuccess { kind: NonSuccessKind::Failure, .. } => Outcome::Failure,
            Status::NonSuccess { kind: NonSuccessKind::Error, .. } => Outcome::Error,
            Status::Skipped { .. } => Outcome::Skipped,
        };
        rebuild_case(&case, &mut to.add_test_case(case.name(), outcome)?)?;
    }
    Ok(())
}

fn rebuild_case(case: &Case<'_>, to: &mut CaseBuilder<'_, '_>) -> Result<(), Refusal> {
    set!(to, set_classname = case.classname(), set_assertions = case.assertions());
    set!(to, set_timestamp = case.timestamp(), set_time = case.time());
    set!(to, set_system_out_lossy = case.system_out(), set_system_err = case.system_err());
    for (key, value) in case.extras() {
        to.add_extra(key, value)?;
    }
    for property in case.properties() {
        to.add_property(property.name, property.value)?;
    }
    let runs = match case.status() {
        Status::Success { flaky_runs } => flaky_runs,
        Status::NonSuccess { message, ty, description, reruns, .. } => {
            set!(to, set_message = message, set_type = ty, set_description = description);
            to.set_rerun_kind(reruns.kind)?;
            reruns.runs
        }
        Status::Skipped { message, ty, description } => {
            set!(to, set_message = message, set_type = ty, set_description = description);
            return Ok(());
        }
    };
    for run in runs {
        let mut to = to.add_rerun(run.kind())?;
        set!(to, set_message = run.message(), set_type = run.ty(), set_description = run.description());
        set!(to, set_stack_trace = run.stack_trace(), set_timestamp = run.timestamp(), set_time = run.time());
        set!(to, set_system_out = run.system_out(), set_system_err = run.system_err());
    }
    Ok(())
}

// Each event's kind, bytes and attributes, but for counts, which builders add up.
fn events_of(table: &TableBuf) -> Vec<String> {
    let bytes = |start: u32, len: u32| String::from_utf8_lossy(&table.source[start as usize..][..len as usize]).into_owned();
    let mut lines = Vec::new();
    for e in table.events.chunks_exact(5) {
        let mut line = format!("{} {}", e[0], bytes(e[1], e[2]));
        for a in table.attributes.chunks_exact(5).skip(e[3] as usize).take(e[4] as usize) {
            let key = bytes(a[1], a[2]);
            if !["tests", "failures", "errors", "skipped", "disabled"].contains(&key.as_str()) {
                write!(line, " {key}=\"{}\"", bytes(a[3], a[4])).unwrap();
            }
        }
        lines.push(line);
    }
    lines
}

#[test]
fn built_anew_from_their_trees() {
    let mut built = 0;
    for table in replayed() {
        let (mut areas, mut others) = (program_areas(), Areas::new(2048, 1 << 18, 0));
        let Ok(tree) = read(&table.as_table(), &mut areas) else { continue };
        let sums = tree.suites().flat_map(|s| s.counts().disabled).try_fold(0u64, |a, b| a.checked_add(b));
        match rebuilt(&tree, &mut others) {
            Ok(copy) => assert_eq!(events_of(&write(&copy).unwrap()), events_of(&write(&tree).unwrap())),
            Err(refusal) => assert_eq!((refusal.cause(), sums), (Cause::CountLimit, None)),
        }
        built += 1;
    }
    assert!(built > 180, "{built}");
}

// Areas for a table are as good as larger ones, also for tables with errors of all kinds; and no call panics.
#[test]
fn areas_for_a_table_suffice() {
    let mut random = Random(0x9e37_79b9_7f4a_7c15);
    let mut large = Areas::new(8192, 1 << 18, 1 << 18);
    let (mut accepted, mut refused) = (0, 0);
    for (i, table) in replayed().iter().enumerate() {
        for round in 0..4 {
            let mut table = table.clone();
            spoil(&mut table, &mut random, round);
            let table = table.as_table();
            let mut areas = Areas::for_table(&table);
            let want = read(&table, &mut large).map(|tree| list(&tree).unwrap());
            let got = read(&table, &mut areas).map(|tree| list(&tree).unwrap());
            if let Err(Cause::RecordsSpent | Cause::TextFull | Cause::ScratchFull) = want.as_ref().map_err(|r| r.cause()) {
                // shared attributes may need more than the large areas have
                continue;
            }
            assert_eq!(got, want, "table {i}, round {round}");
            assert_eq!(read_and_list(&table, &mut areas), got, "table {i}, round {round}");
            assert!(areas.is_clear());
            let public = public_listing(&table, &mut areas);
            assert!(areas.is_clear());
            match got {
                Ok(listing) => {
                    accepted += 1;
                    assert_eq!(public, listing);
                }
                Err(refusal) => {
                    refused += 1;
                    assert!(large.is_clear());
                    assert_eq!(public, "(refused)\n");
                    assert!(explain(&refusal, &table).starts_with(&format!("refused {}", refusal.number())));
                }
            }
        }
    }
    assert!(accepted > 250 && refused > 900, "{accepted} {refused}");
}

// One call against two, with areas that suffice and that are too short, of odd lengths, and dirty before: the same bytes or the same
// refusal, and no tree behind it.
#[test]
fn one_call_gives_what_two_give() {
    let mut random = Random(0xd1b5_4a32_d192_ed03);
    let (mut listed, mut refused, mut short) = (0, 0, 0);
    let tables = replayed();
    for (i, table) in tables.iter().enumerate() {
        for round in 0..6 {
            let mut table = table.clone();
            spoil(&mut table, &mut random, round / 4);
            let table = table.as_table();
            let mut length = |most: usize| if random.below(4) > 0 { most } else { random.below(most / 8) };
            let (records, text, scratch, output) = (length(512), length(8192), length(8192), length(4096));
            let (mut one, mut two) = (Areas::new(records, text, scratch), Areas::new(records, text, scratch));
            // what an earlier call left
            let _ = read(&tables[0].as_table(), &mut one);
            let (mut out, mut wanted) = (vec![7; output], vec![9; output]);
            let want = read(&table, &mut two).and_then(|tree| list_into(&tree, &mut wanted));
            if want.is_err() {
                wanted.fill(0);
            }
            let got = read_and_list_into(&table, &mut one, &mut out);
            assert_eq!(got, want, "table {i}, round {round}");
            assert!(out == wanted && one.is_clear(), "table {i}, round {round}");
            match got {
                Ok(_) => listed += 1,
                Err(refusal) if refusal.number() == 16 => short += 1,
                Err(refusal) => {
                    refused += 1;
                    assert!(explain(&refusal, &table).starts_with(&format!("refused {}", refusal.number())));
                }
            }
        }
    }
    assert!(listed > 700 && refused > 1200 && short > 30, "{listed} {refused} {short}");
}

// A document's listing, or the refusal of its tokenizing or its reading, as the single calls give them.
#[test]
fn documents_in_one_call() {
    for document in [
        "<testsuites name='r'><testsuite name='s'><testcase name='c'><failure>private</failure></testcase></testsuite></testsuites>",
        "<testsuites><testsuite name='s'><testcase/></testsuite></testsuites>",
        "<testsuites><testsuite name='s' time='soon'/></testsuites>",
        "<testsuites/>",
        "<a/>",
        "<testsuites>",
        "<!DOCTYPE a><a/>",
    ] {
        let got = read_and_list_xml(document.as_bytes());
        let mut areas = Areas::new(64, 512, 512);
        let printed = list_xml(document.as_bytes(), &mut areas);
        assert!(areas.is_clear());
        match tokenize(document.as_bytes()) {
            Err(refusal) => {
                assert_eq!(got, Err(DocumentRefusal::Document(refusal)));
                assert_eq!(got.unwrap_err().explain(document.as_bytes()), explain_xml(&refusal, document.as_bytes()));
                assert_eq!(printed, "(refused)\n");
            }
            Ok(table) => {
                let table = table.as_table();
                let want = read(&table, &mut Areas::for_table(&table)).and_then(|tree| list(&tree));
                assert_eq!(got, want.clone().map_err(DocumentRefusal::Report), "{document}");
                match (got, want) {
                    (Ok(listing), _) => assert_eq!(printed, listing),
                    (Err(refusal), Err(why)) => {
                        assert_eq!(refusal.explain(document.as_bytes()), explain(&why, &table));
                        assert_eq!((refusal.to_string(), printed.as_str()), (why.to_string(), "(refused)\n"));
                    }
                    _ => unreachable!(),
                }
            }
        }
    }
}
