//! Owned reports from documents and trees.
#![forbid(unsafe_code)]

use super::blame::{self, Blame};
use super::chrono::{DateTime, FixedOffset};
use super::indexmap::IndexMap;
use super::uuid::{ReportUuid, Uuid};
use super::{DeserializeError, DeserializeErrorKind, NonSuccessReruns, Property, Report, TestCase, TestCaseStatus, TestRerun};
use super::{FlakyOrRerun, NonSuccessKind, TestSuite, XmlString, HOSTNAME};
use crate::document::{entries, tokenize_into};
use crate::tree::{kind, Record};
use crate::{limits, read, Areas, Tree};
use std::io::{self, Read};
use std::mem;

impl Report {
    /// Reads a report from an XML document.
    ///
    /// # Errors
    ///
    /// Where the reader fails, the document isn't well formed, or the report is refused: the kind of it, and the path to the place.
    pub fn deserialize<R: io::BufRead>(reader: R) -> Result<Self, DeserializeError> {
        let mut source = Vec::new();
        // one byte more than a document can have, so that a longer one is refused
        let most = limits::SOURCE as u64 + 1;
        match reader.take(most).read_to_end(&mut source) {
            Ok(_) => Self::from_document(&source),
            Err(e) => Err(DeserializeError::new(DeserializeErrorKind::IoError(e), vec![])),
        }
    }

    /// Reads a report from an XML document in a string.
    ///
    /// # Errors
    ///
    /// As for [`Report::deserialize`].
    ///
    /// ```
    /// use kerzhoma::report::{DeserializeErrorKind, PathElement, Report};
    ///
    /// let report = Report::deserialize_from_str(
    ///     r#"<testsuites name="my-run" tests="1"><testsuite name="lab"><testcase name="a"/></testsuite></testsuites>"#,
    /// )?;
    /// assert_eq!(report.name.unwrap().as_str(), "my-run");
    /// assert_eq!(report.test_suites[0].test_cases.len(), 1);
    ///
    /// let error = Report::deserialize_from_str(r#"<testsuites><testsuite name="lab" time="soon"/></testsuites>"#).unwrap_err();
    /// assert!(matches!(error.kind(), DeserializeErrorKind::ParseDurationError(value) if value == "soon"));
    /// assert_eq!(error.path()[1], PathElement::TestSuite(0, None));
    /// assert_eq!(error.to_string(), "at testsuites/testsuite[0]/@time: invalid duration: soon");
    /// # Ok::<(), kerzhoma::report::DeserializeError>(())
    /// ```
    pub fn deserialize_from_str(xml: &str) -> Result<Self, DeserializeError> {
        Self::from_document(xml.as_bytes())
    }

    fn from_document(source: &[u8]) -> Result<Self, DeserializeError> {
        let (mut events, mut attributes) = entries(source);
        let table = tokenize_into(source, &mut events, &mut attributes).map_err(|r| blame::document(&r.above(), source))?;
        let mut areas = Areas::for_table(&table);
        match read(&table, &mut areas) {
            Ok(tree) => Ok(Report::from(&tree)),
            Err(refusal) => Err(Blame { table: &table, refusal: &refusal }.error()),
        }
    }
}

// Counts are words of 64 bits, as `usize` is where the archive runs.
fn number(n: u64) -> usize {
    usize::try_from(n).unwrap_or(usize::MAX)
}

fn owned(text: Option<&str>) -> Option<XmlString> {
    text.map(XmlString::kept)
}

fn moment(r: Record<'_>) -> Option<DateTime<FixedOffset>> {
    r.timestamp().map(DateTime::of)
}

fn report_of(r: Record<'_>) -> Report {
    let counts = r.counts();
    let mut uuid = [0; 16];
    for (bytes, word) in uuid.chunks_exact_mut(4).zip(&r.words()[4..8]) {
        bytes.copy_from_slice(&word.to_be_bytes());
    }
    Report {
        name: owned(r.text(0, 2)),
        uuid: r.has(1).then_some(ReportUuid::from_untyped_uuid(Uuid::from_bytes(uuid))),
        timestamp: moment(r),
        time: r.time(),
        tests: number(counts.tests),
        failures: number(counts.failures),
        errors: number(counts.errors),
        skipped: number(counts.skipped),
        disabled: counts.disabled.map(number),
        test_suites: Vec::new(),
    }
}

fn suite_of(r: Record<'_>, cases: usize) -> TestSuite {
    let counts = r.counts();
    let hostname = r.text(10, 28).map(|s| (XmlString::kept(HOSTNAME), XmlString::kept(s)));
    TestSuite {
        name: XmlString::kept(r.text_at(2)),
        tests: number(counts.tests),
        skipped: number(counts.skipped),
        disabled: counts.disabled.map(number),
        errors: number(counts.errors),
        failures: number(counts.failures),
        timestamp: moment(r),
        time: r.time(),
        test_cases: Vec::with_capacity(cases),
        properties: Vec::new(),
        system_out: owned(r.text(1, 4)),
        system_err: owned(r.text(2, 6)),
        extra: hostname.into_iter().collect(),
    }
}

fn case_of(r: Record<'_>) -> TestCase {
    TestCase {
        name: XmlString::kept(r.text_at(2)),
        classname: owned(r.text(5, 18)),
        assertions: r.has(6).then(|| number(r.number(20))),
        timestamp: moment(r),
        time: r.time(),
        status: TestCaseStatus::success(),
        system_out: owned(r.text(1, 4)),
        system_err: owned(r.text(2, 6)),
        extra: IndexMap::new(),
        properties: Vec::new(),
    }
}

fn run_of(r: Record<'_>) -> TestRerun {
    let failed = matches!(r.kind(), kind::FLAKY_FAILURE | kind::RERUN_FAILURE);
    TestRerun {
        kind: if failed { NonSuccessKind::Failure } else { NonSuccessKind::Error },
        timestamp: moment(r),
        time: r.time(),
        message: owned(r.text(0, 2)),
        ty: owned(r.text(5, 18)),
        stack_trace: owned(r.text(7, 22)),
        system_out: owned(r.text(1, 4)),
        system_err: owned(r.text(2, 6)),
        description: owned(r.text(6, 20)),
    }
}

// A case with one of its status elements more. The main may stand behind its runs, which are kept as flaky ones till then.
fn add_main(case: &mut TestCase, r: Record<'_>, family: Option<FlakyOrRerun>) {
    let (message, ty, description) = (owned(r.text(0, 2)), owned(r.text(5, 18)), owned(r.text(6, 20)));
    if r.kind() == kind::SKIPPED {
        case.status = TestCaseStatus::Skipped { message, ty, description };
        return;
    }
    let kind = if r.kind() == kind::FAILURE { NonSuccessKind::Failure } else { NonSuccessKind::Error };
    let runs = match &mut case.status {
        TestCaseStatus::Success { flaky_runs } => mem::take(flaky_runs),
        _ => Vec::new(),
    };
    let alone = if r.has(9) { FlakyOrRerun::Flaky } else { FlakyOrRerun::Rerun };
    let reruns = NonSuccessReruns { kind: family.unwrap_or(alone), runs };
    case.status = TestCaseStatus::NonSuccess { kind, message, ty, description, reruns };
}

fn add_run(case: &mut TestCase, r: Record<'_>, family: FlakyOrRerun) {
    if let TestCaseStatus::NonSuccess { reruns, .. } = &mut case.status {
        reruns.kind = family;
    }
    case.status.add_rerun(run_of(r));
}

fn pair(r: Record<'_>) -> (XmlString, XmlString) {
    (XmlString::kept(r.text_at(2)), XmlString::kept(r.text_at(4)))
}

// How many cases each suite has, the last suite first.
fn cases_of_suites(tree: &Tree<'_>) -> Vec<usize> {
    let mut counts = Vec::new();
    for r in tree.live() {
        match r.kind() {
            kind::SUITE => counts.push(0),
            kind::CASE => {
                if let Some(last) = counts.last_mut() {
                    *last += 1;
                }
            }
            _ => {}
        }
    }
    counts.reverse();
    counts
}

impl From<&Tree<'_>> for Report {
    /// The report that a tree shows, as values of their own. A suite's `hostname` is its first extra. Where a suite has another extra with
    /// that key, or a layout from elsewhere has extras with one key, the last counts.
    fn from(tree: &Tree<'_>) -> Self {
        let mut counts = cases_of_suites(tree);
        let mut report = Report::unnamed();
        let mut suites: Vec<TestSuite> = Vec::with_capacity(counts.len());
        let mut family = None;
        for r in tree.live() {
            match r.kind() {
                kind::REPORT => report = report_of(r),
                kind::SUITE => suites.push(suite_of(r, counts.pop().unwrap_or(0))),
                below => {
                    if let Some(suite) = suites.last_mut() {
                        add_to_suite(suite, r, below, &mut family);
                    }
                }
            }
        }
        report.test_suites = suites;
        report
    }
}

fn add_to_suite(suite: &mut TestSuite, r: Record<'_>, below: u32, family: &mut Option<FlakyOrRerun>) {
    match below {
        kind::CASE => {
            *family = None;
            suite.test_cases.push(case_of(r));
        }
        kind::SUITE_PROPERTY => suite.properties.push(Property::from(pair(r))),
        kind::SUITE_EXTRA => {
            let (key, value) = pair(r);
            suite.extra.insert(key, value);
        }
        below => {
            if let Some(case) = suite.test_cases.last_mut() {
                add_to_case(case, r, below, family);
            }
        }
    }
}

fn add_to_case(case: &mut TestCase, r: Record<'_>, below: u32, family: &mut Option<FlakyOrRerun>) {
    match below {
        kind::CASE_PROPERTY => case.properties.push(Property::from(pair(r))),
        kind::CASE_EXTRA => {
            let (key, value) = pair(r);
            case.extra.insert(key, value);
        }
        kind::FAILURE | kind::ERROR | kind::SKIPPED => add_main(case, r, *family),
        _ => {
            let flaky = matches!(below, kind::FLAKY_FAILURE | kind::FLAKY_ERROR);
            let of = if flaky { FlakyOrRerun::Flaky } else { FlakyOrRerun::Rerun };
            *family = Some(of);
            add_run(case, r, of);
        }
    }
}
