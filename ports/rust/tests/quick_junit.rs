//! A program for quick-junit 0.8.0 with `kerzhoma::report` in its place. The two lines below are all that it takes.
use kerzhoma::report as quick_junit;
use kerzhoma::report::{chrono, uuid};

include!("quick_junit/program.rs");

mod common;

#[test]
fn it_builds_writes_and_reads() {
    let report = built();
    let xml = written(&report).unwrap();
    common::hold("quick_junit/report.xml", &xml);
    let mut again = read_both(&xml).unwrap();
    assert_eq!(identified(&again), identified(&report));
    assert_eq!(written(&again).unwrap(), xml);
    // times are written in milliseconds
    again.time = report.time;
    again.test_suites[0].time = report.test_suites[0].time;
    assert_eq!(again, report);
    assert_eq!(shown(&again), shown(&report));
}

#[test]
fn it_shows_statuses() {
    common::hold("quick_junit/shown.txt", &shown(&built()));
}

#[test]
fn it_tells_errors() {
    let suite = |inner: &str| format!("<testsuites><testsuite name='lab'>{inner}</testsuite></testsuites>");
    let case = |inner: &str| suite(&format!("<testcase name='a &amp; b'>{inner}</testcase>"));
    let documents = [
        "<testsuites>".to_owned(),
        "<testsuite/>".to_owned(),
        "<testsuites tests='x'/>".to_owned(),
        "<testsuites tests='18446744073709551616'/>".to_owned(),
        "<testsuites timestamp='2021-04-01'/>".to_owned(),
        "<testsuites time='1e3'/>".to_owned(),
        "<testsuites uuid='0'/>".to_owned(),
        "<testsuites name='&unknown;'/>".to_owned(),
        "<testsuites name='&#0;'/>".to_owned(),
        "<testsuites tests='1' tests='2'/>".to_owned(),
        "<testsuites><testsuite/></testsuites>".to_owned(),
        suite("<testcase/>"),
        suite("<properties><property name='x'/></properties>"),
        suite("<system-out>&unknown;</system-out>"),
        suite("<system-out>&#xFFFF;</system-out>"),
        case("<failure/><error/>"),
        case("<rerunFailure/>"),
        case("<skipped/><flakyError/>"),
        case("<failure/><flakyFailure/><rerunError/>"),
        case("<failure><stackTrace><failure/></stackTrace></failure><failure timestamp='now'/>"),
    ];
    let mut got = String::new();
    for document in documents {
        got += &format!("{document}\n    {}\n", told(&read_both(&document).unwrap_err()));
    }
    common::hold("quick_junit/errors.txt", &got);
}
