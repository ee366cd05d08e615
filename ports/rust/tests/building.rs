//! The report of crate `test_building`, call by call through the port.
mod common;

use common::{listed, repository, same};
use kerzhoma::*;
use std::fmt::Write;
use std::fs;
use std::time::Duration;

fn moment(hour: u8) -> Timestamp {
    Timestamp { year: 2026, month: 2, day: 28, hour, minute: 30, second: 59, nanos: 125_000_000, offset_minutes: 120 }
}

fn build(areas: &mut Areas) -> Result<(Tree<'_>, usize, usize), Refusal> {
    let mut report = ReportBuilder::new(areas, "my-test-run")?;
    report.set_uuid(0x123e4567_e89b12d3_a4564266_14174000_u128.to_be_bytes())?;
    report.set_timestamp(moment(8))?.set_time(Duration::from_micros(3_062_500))?;

    let mut suite = report.add_test_suite("lab <1>")?;
    suite.add_extra("location", "old")?.add_extra("package", "p & q")?.add_extra("location", "bench\x01-7")?;
    suite.add_property("env", "ci")?.add_property("os", "")?;
    suite.set_timestamp(moment(9))?.set_time(Duration::from_micros(2_062_500))?.set_disabled(1_000_000_000)?;
    suite.set_system_out_lossy(b"out \xff\xc3\xa9 \xe2\x82")?.set_system_err("the suite's err")?;
    suite.set_hostname("old")?.set_hostname("lab\x01-3")?;

    let mut case = suite.add_test_case("success-case", Outcome::Success)?;
    case.set_classname("old")?.set_classname("tissue.typing")?.set_assertions(5_000_000_000)?;
    case.set_timestamp(moment(7))?.set_time(Duration::from_micros(1_062_500))?;
    case.add_extra("line", "42")?.add_property("step", "1")?;
    case.set_system_out("the case's out")?.set_system_err_lossy(b"the case's err \x80")?;

    let mut case = suite.add_test_case("flaky-case", Outcome::Success)?;
    let mut run = case.add_rerun(NonSuccessKind::Failure)?;
    run.set_message("first try")?.set_type("timeout")?.set_description("it took too long")?.set_stack_trace("at rank()")?;
    run.set_system_out("the run's out")?.set_system_err("the run's err")?;
    run.set_timestamp(moment(6))?.set_time(Duration::from_micros(62_500))?;
    case.add_rerun(NonSuccessKind::Error)?;

    let mut case = suite.add_test_case("failure-case", Outcome::Failure)?;
    case.add_extra("line", "42")?.add_extra("line", "43")?.add_property("step", "2")?;
    case.set_message("ranking")?.set_type("assert")?.set_description("donor 2 before donor 1")?;
    case.add_rerun(NonSuccessKind::Failure)?.set_system_out_lossy(b"\xf0\x9f\x98")?;
    case.add_rerun(NonSuccessKind::Error)?.set_system_err_lossy(b"\xc0")?.set_description("twice")?;
    case.set_message("ranking differs")?;

    let mut suite = report.add_test_suite("second")?;
    suite.set_disabled(2_000_000_000)?;
    let mut case = suite.add_test_case("error-case", Outcome::Error)?;
    case.set_message("gone")?.set_type("panic")?.set_description("no answer")?;
    case.set_rerun_kind(FlakyOrRerun::Flaky)?.add_rerun(NonSuccessKind::Error)?;
    let mut case = suite.add_test_case("turned-case", Outcome::Error)?;
    case.set_rerun_kind(FlakyOrRerun::Flaky)?.add_rerun(NonSuccessKind::Failure)?.set_stack_trace("at main()")?;
    case.set_rerun_kind(FlakyOrRerun::Rerun)?.add_rerun(NonSuccessKind::Error)?;
    let mut case = suite.add_test_case("skipped-case", Outcome::Skipped)?;
    case.set_message("not today")?.set_type("planned")?.set_description("see below")?.set_system_err("\x02")?;
    report.add_test_suite("empty")?;

    let (records, bytes) = report.used();
    Ok((report.finish()?, records, bytes))
}

// Each event's kind, bytes and attributes.
fn events_of(table: &TableBuf) -> String {
    let bytes = |start: u32, len: u32| String::from_utf8_lossy(&table.source[start as usize..][..len as usize]).into_owned();
    let mut s = String::new();
    for e in table.events.chunks_exact(5) {
        write!(s, "{} {}", e[0], bytes(e[1], e[2])).unwrap();
        for a in table.attributes.chunks_exact(5).skip(e[3] as usize).take(e[4] as usize) {
            write!(s, " {}=\"{}\"", bytes(a[1], a[2]), bytes(a[3], a[4])).unwrap();
        }
        s.push('\n');
    }
    s
}

// What is used, or the refusal of the last call.
fn tried(records: usize, bytes: usize) -> String {
    let mut areas = Areas::new(records, bytes, 0);
    match build(&mut areas) {
        Ok((_, records, bytes)) => format!("{records} records, {bytes} bytes\n"),
        Err(refusal) => {
            let zero = if areas.is_clear() { "zero" } else { "not zero" };
            format!("refused {}, {zero}: suite empty\n0 records, 0 bytes\n", refusal.number())
        }
    }
}

// The stored output begins with this report, and has it again in areas that just suffice, and in shorter ones.
#[test]
fn the_example_is_built() {
    let mut areas = Areas::new(64, 2048, 0);
    let (tree, records, bytes) = build(&mut areas).unwrap();
    let stored = fs::read(repository("crates/test_building/stdout")).unwrap();
    let stored = String::from_utf8_lossy(&stored);
    let begins = format!("{records} records, {bytes} bytes\n") + &listed(&tree).unwrap() + &events_of(&write(&tree).unwrap());
    same(&stored[..begins.len()], &begins);
    let again = tried(records, bytes) + &tried(records - 1, bytes) + &tried(records, bytes - 1);
    assert!(stored[begins.len()..].contains(&again), "{again}");
}

// All calls behind a refusal are refused, and nothing of the report is left.
#[test]
fn a_refusal_ends_building() {
    let mut areas = Areas::new(64, 2048, 0);
    let mut report = ReportBuilder::new(&mut areas, "private").unwrap();
    let mut suite = report.add_test_suite("s").unwrap();
    let mut case = suite.add_test_case("a", Outcome::Success).unwrap();
    assert_eq!(case.set_message("a case that passed has none").unwrap_err().cause(), Cause::NotLayout);
    assert_eq!(case.set_classname("c").unwrap_err().cause(), Cause::NotLayout);
    assert_eq!(suite.add_test_case("b", Outcome::Success).unwrap_err().cause(), Cause::NotLayout);
    assert_eq!(report.finish().unwrap_err().cause(), Cause::NotLayout);
    assert!(areas.is_clear());
}

#[test]
fn values_out_of_range_are_refused() {
    let mut areas = Areas::new(64, 2048, 0);
    let mut try_time = |time| ReportBuilder::unnamed(&mut areas).unwrap().set_time(time).map(|_| ()).map_err(|r| r.number());
    assert_eq!(try_time(Duration::new(8_388_607, 999_999_999)), Ok(()));
    assert_eq!(try_time(Duration::new(8_388_608, 0)), Err(5));
    assert_eq!(try_time(Duration::MAX), Err(5));
    let mut try_moment = |m| ReportBuilder::unnamed(&mut areas).unwrap().set_timestamp(m).map(|_| ()).map_err(|r| r.number());
    let leap = Timestamp { month: 2, day: 29, year: 2024, ..moment(0) };
    assert_eq!(try_moment(leap), Ok(()));
    assert_eq!(try_moment(Timestamp { year: 2023, ..leap }), Err(4));
    assert_eq!(try_moment(Timestamp { offset_minutes: -1439, ..leap }), Ok(()));
    assert_eq!(try_moment(Timestamp { offset_minutes: -1440, ..leap }), Err(4));
    assert_eq!(try_moment(Timestamp { offset_minutes: i16::MIN, ..leap }), Err(4));
    assert_eq!(try_moment(Timestamp { offset_minutes: i16::MAX, ..leap }), Err(4));
}

#[test]
fn a_built_report_tells_its_fields() {
    let mut areas = Areas::new(64, 2048, 0);
    let (tree, ..) = build(&mut areas).unwrap();
    assert_eq!(tree.uuid(), Some(0x123e4567_e89b12d3_a4564266_14174000_u128.to_be_bytes()));
    assert_eq!(tree.timestamp().unwrap().to_string(), "2026-02-28T08:30:59.125+02:00");
    assert_eq!(tree.time(), Some(Duration::from_micros(3_062_500)));
    assert_eq!(tree.counts(), Counts { tests: 6, failures: 1, errors: 2, skipped: 1, disabled: Some(3_000_000_000) });
    let suite = tree.suites().next().unwrap();
    assert_eq!(suite.extras().collect::<Vec<_>>(), [("location", "bench-7"), ("package", "p & q")]);
    assert_eq!(suite.hostname(), Some("lab-3"));
    assert_eq!(suite.properties().collect::<Vec<_>>(), [Property { name: "env", value: "ci" }, Property { name: "os", value: "" }]);
    assert_eq!(suite.system_out(), Some("out \u{fffd}\u{e9} \u{fffd}"));
    let cases: Vec<_> = suite.cases().collect();
    assert_eq!(cases[0].assertions(), Some(5_000_000_000));
    let Status::Success { flaky_runs } = cases[1].status() else { panic!() };
    assert_eq!(flaky_runs.map(|r| r.time()).collect::<Vec<_>>(), [Some(Duration::from_micros(62_500)), None]);
    let Status::NonSuccess { kind, message, reruns, .. } = cases[2].status() else { panic!() };
    assert_eq!((kind, message, reruns.kind), (NonSuccessKind::Failure, Some("ranking differs"), FlakyOrRerun::Rerun));
    assert_eq!(
        reruns.runs.map(|r| (r.kind(), r.description())).collect::<Vec<_>>(),
        [(NonSuccessKind::Failure, None), (NonSuccessKind::Error, Some("twice"))]
    );
}
