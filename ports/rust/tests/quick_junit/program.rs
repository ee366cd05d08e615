// A program for quick-junit 0.8.0: it builds a report, writes it, reads it again, and looks at statuses and errors. It names the crates
// quick_junit, chrono and uuid, and takes `quick_junit`, `chrono` and `uuid` of kerzhoma::report in their place:
// ../quick_junit.rs does so, and bench/compare/program builds it with quick-junit's own files.
use chrono::{DateTime, FixedOffset};
use quick_junit::{
    DeserializeError, DeserializeErrorKind, FlakyOrRerun, NonSuccessKind, NonSuccessReruns, PathElement, Property, Report,
    ReportUuid, SerializeError, TestCase, TestCaseStatus, TestRerun, TestSuite, XmlString,
};
use std::error::Error;
use std::fmt::Write as _;
use std::time::Duration;
use uuid::Uuid;

fn at(s: &str) -> DateTime<FixedOffset> {
    DateTime::parse_from_rfc3339(s).expect("a timestamp")
}

fn passed() -> TestCase {
    let mut case = TestCase::new("testcase0", TestCaseStatus::success());
    case.set_system_out("testcase0-output").set_classname("lab::typing").set_assertions(20);
    case.add_property(("step", "1")).add_properties([Property::new("step", "2"), Property::new("a<b", "\"&\"")]);
    case.extra.insert("file".into(), "tests/lab.rs".into());
    case
}

fn failed() -> TestCase {
    let mut status = TestCaseStatus::non_success(NonSuccessKind::Failure);
    status.set_description("this is the failure description").set_message("testcase1-message").set_type("panic");
    let mut rerun = TestRerun::new(NonSuccessKind::Error);
    rerun
        .set_timestamp(at("2021-04-01T10:52:40.125-08:00"))
        .set_time(Duration::from_millis(250))
        .set_message("again")
        .set_type("timeout")
        .set_stack_trace("at rank()")
        .set_system_out("out")
        .set_system_err_lossy(b"err \xff")
        .set_description("still wrong");
    status.add_rerun(rerun.clone()).add_reruns(vec![rerun]).set_rerun_kind(FlakyOrRerun::Rerun);
    let mut case = TestCase::new("testcase1", status);
    case.set_system_err("some sort of failure output").set_time(Duration::from_millis(4242));
    case
}

fn flaky() -> TestCase {
    let mut status = TestCaseStatus::success();
    let mut run = TestRerun::new(NonSuccessKind::Failure);
    run.set_type("flaky failure type").set_description("this is a flaky failure description");
    status.add_rerun(run);
    TestCase::new("testcase2", status)
}

fn skipped() -> TestCase {
    let mut status = TestCaseStatus::skipped();
    status.set_type("skipped type").set_message("skipped message");
    let mut case = TestCase::new(String::from("testcase3"), status);
    case.set_timestamp(at("2021-04-01T11:52:41-07:00")).set_system_out_lossy("testcase3 output").set_system_err("testcase3 error");
    case
}

fn built() -> Report {
    let mut suite = TestSuite::new("testsuite0");
    suite.set_timestamp(at("2021-04-01T10:52:39-08:00")).set_time(Duration::new(42, 234_567_890));
    suite.add_test_case(passed()).add_test_case(failed()).add_test_cases([flaky(), skipped()]);
    suite.add_test_case(TestCase::new("testcase4", TestCaseStatus::non_success(NonSuccessKind::Error)));
    suite.add_property(("env", "FOOBAR")).set_system_out("suite output").set_system_err("suite error");
    suite.extra.insert(XmlString::new("hostname"), XmlString::new("bench-7"));
    suite.disabled = Some(3);

    let mut report = Report::new("my-test-run");
    report.set_timestamp(at("2021-04-01T10:52:37-08:00")).set_time(Duration::new(42, 234_567_890));
    report.set_uuid("0500990f-0df3-4722-bbeb-90a75b8aa6bd".parse::<Uuid>().expect("a UUID"));
    report.add_test_suite(suite).add_test_suites([TestSuite::new("empty")]);
    report
}

fn runs_of(status: &TestCaseStatus) -> &[TestRerun] {
    match status {
        TestCaseStatus::Success { flaky_runs } => flaky_runs,
        TestCaseStatus::NonSuccess { reruns: NonSuccessReruns { runs, .. }, .. } => runs,
        TestCaseStatus::Skipped { .. } => &[],
    }
}

fn shown(report: &Report) -> String {
    let mut s = String::new();
    let Report { name, tests, failures, errors, skipped, disabled, test_suites, .. } = report;
    let name = name.as_ref().map_or("-", |n| n.as_str());
    writeln!(s, "{name} {tests} {failures} {errors} {skipped} {disabled:?}").expect("a string grows");
    for suite in test_suites {
        let extra: Vec<String> = suite.extra.iter().map(|(k, v)| format!("{}={}", k.as_str(), v.as_str())).collect();
        writeln!(s, "  {} {extra:?} {:?}", suite.name.as_str(), suite.time).expect("a string grows");
        for case in &suite.test_cases {
            let what = match &case.status {
                TestCaseStatus::Success { .. } => "passed".to_string(),
                TestCaseStatus::NonSuccess { kind: NonSuccessKind::Failure, message, reruns, .. } => {
                    format!("failed {:?} {:?}", message.as_deref(), reruns.kind)
                }
                TestCaseStatus::NonSuccess { kind: NonSuccessKind::Error, .. } => "erred".to_string(),
                TestCaseStatus::Skipped { message, .. } => {
                    format!("skipped {}", message.clone().map_or(String::new(), String::from))
                }
            };
            let (runs, properties) = (runs_of(&case.status).len(), case.properties.len());
            writeln!(s, "    {}: {what}, {runs} runs, {properties} properties", &*case.name).expect("a string grows");
        }
    }
    s
}

fn told(error: &DeserializeError) -> String {
    let kind = match error.kind() {
        DeserializeErrorKind::XmlError(_) => "XML",
        DeserializeErrorKind::ParseIntError(_) => "integer",
        DeserializeErrorKind::ParseTimestampError(value) | DeserializeErrorKind::ParseDurationError(value) => value,
        DeserializeErrorKind::ParseUuidError(_) => "UUID",
        DeserializeErrorKind::MissingAttribute(name) => name,
        DeserializeErrorKind::InvalidStructure(what) => what,
        DeserializeErrorKind::AttrError(_) => "attribute",
        DeserializeErrorKind::EscapeError(_) => "reference",
        _ => "other",
    };
    let place = match error.path().last() {
        Some(PathElement::Attribute(name)) => format!("attribute {name}"),
        Some(PathElement::TestCase(i, Some(name))) => format!("case {i}, {name}"),
        Some(element) => element.to_string(),
        None => "-".to_string(),
    };
    format!("{kind}; {place}; {error}; {}", if error.source().is_some() { "with a source" } else { "no source" })
}

fn written(report: &Report) -> Result<String, SerializeError> {
    let mut bytes = Vec::new();
    report.serialize(&mut bytes)?;
    let text = report.to_string()?;
    assert_eq!(text.as_bytes(), bytes);
    Ok(text)
}

fn read_both(xml: &str) -> Result<Report, DeserializeError> {
    let report = Report::deserialize_from_str(xml)?;
    assert_eq!(report, Report::deserialize(xml.as_bytes())?);
    Ok(report)
}

fn identified(report: &Report) -> Option<ReportUuid> {
    report.uuid
}
