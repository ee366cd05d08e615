//! Owned reports laid out as trees, by docs/TREE.md, and written as XML documents.
#![forbid(unsafe_code)]

use super::chrono::{DateTime, FixedOffset};
use super::{FlakyOrRerun, NonSuccessKind, Property, Report, TestCase, TestCaseStatus, TestRerun, TestSuite, XmlString};
use super::{PathElement, SerializeError, SerializeErrorKind, HOSTNAME};
use crate::limits::{self, RECORD};
use crate::tree::kind;
use crate::{to_xml, Cause, Refusal, Tree};
use std::{io, time::Duration};

/// Seconds of a time, at most.
const MOST_SECONDS: u64 = 8_388_607;
/// What is added to an offset in minutes.
const OFFSET: i32 = 1439;

impl Report {
    /// Writes the report as an XML document.
    ///
    /// # Errors
    ///
    /// Where the writer fails, the report or its document is above the limits, or a time isn't under 8388608 seconds.
    pub fn serialize(&self, mut writer: impl io::Write) -> Result<(), SerializeError> {
        let document = self.to_string()?;
        writer.write_all(document.as_bytes()).map_err(SerializeError::from)
    }

    /// The report as an XML document.
    ///
    /// # Errors
    ///
    /// Where the report or its document is above the limits, or a time isn't under 8388608 seconds.
    pub fn to_string(&self) -> Result<String, SerializeError> {
        let layout = self.layout()?;
        to_xml(&layout.tree()).map_err(SerializeError::from)
    }

    /// The report as a tree in areas of its own, for the calls that take one: [`list`](crate::list), [`write`](crate::write()),
    /// [`starts`](crate::starts).
    ///
    /// # Errors
    ///
    /// Where the report is above the limits, or a time isn't under 8388608 seconds.
    ///
    /// ```
    /// use kerzhoma::report::{Report, TestSuite};
    ///
    /// let mut report = Report::new("my-run");
    /// report.add_test_suite(TestSuite::new("lab"));
    /// let layout = report.layout()?;
    /// assert_eq!(kerzhoma::list(&layout.tree())?, "(report \"my-run\" 0 0 0 0 -\n(suite \"lab\" 0 0 0 0 -))\n");
    /// # Ok::<(), Box<dyn std::error::Error>>(())
    /// ```
    pub fn layout(&self) -> Result<Layout, SerializeError> {
        let mut layout = Layout { records: Vec::new(), text: Vec::new() };
        layout.put_report(self).map_err(|fault| {
            let (kind, mut path) = *fault;
            path.reverse();
            SerializeError::new(kind, path)
        })?;
        Tree::from_layout(&layout.records, &layout.text)?;
        Ok(layout)
    }
}

/// A report laid out in areas of its own, which hold a layout by docs/TREE.md.
#[derive(Clone)]
pub struct Layout {
    records: Vec<u32>,
    text: Vec<u8>,
}

impl std::fmt::Debug for Layout {
    /// Tells the sizes, and none of the texts.
    fn fmt(&self, f: &mut std::fmt::Formatter<'_>) -> std::fmt::Result {
        f.debug_struct("Layout").field("records", &(self.records.len() / RECORD)).field("text", &self.text.len()).finish()
    }
}

// What can't be laid out, and the path to it, from the element up.
type Fault = Box<(SerializeErrorKind, Vec<PathElement>)>;

fn above(cause: Cause) -> Fault {
    Box::new((SerializeErrorKind::Refused(Refusal::above(cause)), vec![]))
}

fn inside(element: PathElement) -> impl FnOnce(Fault) -> Fault {
    |mut fault| {
        fault.1.push(element);
        fault
    }
}

fn too_long(time: Duration) -> Fault {
    Box::new((SerializeErrorKind::TimeTooLong(time), vec![PathElement::Attribute("time".to_owned())]))
}

fn low_high(n: usize) -> [u32; 2] {
    let n = n as u64;
    [n as u32, (n >> 32) as u32]
}

impl Layout {
    /// The report, as a tree that borrows the areas.
    pub fn tree(&self) -> Tree<'_> {
        Tree::over(&self.records, &self.text).expect("what was laid out is a layout")
    }

    /// The records, 32 words each.
    pub fn records(&self) -> &[u32] {
        &self.records
    }

    /// The texts.
    pub fn text(&self) -> &[u8] {
        &self.text
    }

    // A new record, all of it zero but for its kind: where its words begin.
    fn open(&mut self, kind: u32) -> Result<usize, Fault> {
        let at = self.records.len();
        if at >= limits::RECORDS * RECORD {
            return Err(above(Cause::RecordsSpent));
        }
        self.records.resize(at + RECORD, 0);
        self.records[at] = kind;
        Ok(at)
    }

    fn put(&mut self, at: usize, word: usize, values: &[u32]) {
        self.records[at + word..][..values.len()].copy_from_slice(values);
    }

    fn mark(&mut self, at: usize, bit: u32) {
        self.records[at + 1] |= 1 << bit;
    }

    fn text_at(&mut self, at: usize, bit: u32, word: usize, text: &XmlString) -> Result<(), Fault> {
        let start = self.text.len();
        if text.len() > limits::BYTES - start {
            return Err(above(Cause::TextFull));
        }
        self.text.extend_from_slice(text.as_bytes());
        self.put(at, word, &[start as u32, text.len() as u32]);
        self.mark(at, bit);
        Ok(())
    }

    fn maybe_text(&mut self, at: usize, bit: u32, word: usize, text: &Option<XmlString>) -> Result<(), Fault> {
        match text {
            Some(text) => self.text_at(at, bit, word, text),
            None => Ok(()),
        }
    }

    fn moments(&mut self, at: usize, timestamp: &Option<DateTime<FixedOffset>>, time: &Option<Duration>) -> Result<(), Fault> {
        if let Some(t) = timestamp.map(|t| t.told()) {
            let date = [u32::from(t.year), u32::from(t.month), u32::from(t.day)];
            let clock = [u32::from(t.hour), u32::from(t.minute), u32::from(t.second), t.nanos];
            self.put(at, 8, &date);
            self.put(at, 11, &clock);
            self.put(at, 15, &[(i32::from(t.offset_minutes) + OFFSET) as u32]);
            self.mark(at, 3);
        }
        if let Some(time) = time {
            if time.as_secs() > MOST_SECONDS {
                return Err(too_long(*time));
            }
            self.put(at, 16, &[time.as_secs() as u32, time.subsec_nanos()]);
            self.mark(at, 4);
        }
        Ok(())
    }

    fn counts(&mut self, at: usize, counts: [usize; 4], disabled: Option<usize>) {
        for (i, n) in counts.into_iter().enumerate() {
            self.put(at, 18 + 2 * i, &low_high(n));
        }
        if let Some(n) = disabled {
            self.put(at, 26, &low_high(n));
            self.mark(at, 8);
        }
    }

    fn put_report(&mut self, report: &Report) -> Result<(), Fault> {
        let Report { name, uuid, timestamp, time, tests, failures, errors, skipped, disabled, test_suites } = report;
        let at = self.open(kind::REPORT)?;
        self.maybe_text(at, 0, 2, name)?;
        if let Some(uuid) = uuid {
            for (i, bytes) in uuid.as_untyped_uuid().as_bytes().chunks_exact(4).enumerate() {
                self.put(at, 4 + i, &[u32::from_be_bytes([bytes[0], bytes[1], bytes[2], bytes[3]])]);
            }
            self.mark(at, 1);
        }
        self.moments(at, timestamp, time).map_err(inside(PathElement::TestSuites))?;
        self.counts(at, [*tests, *failures, *errors, *skipped], *disabled);
        for (i, suite) in test_suites.iter().enumerate() {
            let named = || PathElement::TestSuite(i, Some(suite.name.to_string()));
            self.put_suite(suite).map_err(|e| inside(PathElement::TestSuites)(inside(named())(e)))?;
        }
        Ok(())
    }

    fn put_suite(&mut self, suite: &TestSuite) -> Result<(), Fault> {
        let TestSuite { name, tests, skipped, disabled, errors, failures, .. } = suite;
        let TestSuite { timestamp, time, test_cases, properties, system_out, system_err, extra, .. } = suite;
        let at = self.open(kind::SUITE)?;
        self.text_at(at, 0, 2, name)?;
        self.maybe_text(at, 1, 4, system_out)?;
        self.maybe_text(at, 2, 6, system_err)?;
        self.moments(at, timestamp, time)?;
        self.counts(at, [*tests, *failures, *errors, *skipped], *disabled);
        if let Some(hostname) = extra.get(HOSTNAME) {
            self.text_at(at, 10, 28, hostname)?;
        }
        self.put_extras(kind::SUITE_EXTRA, extra.iter().filter(|(key, _)| key.as_str() != HOSTNAME))?;
        self.put_properties(kind::SUITE_PROPERTY, properties)?;
        for (i, case) in test_cases.iter().enumerate() {
            self.put_case(case).map_err(|e| inside(PathElement::TestCase(i, Some(case.name.to_string())))(e))?;
        }
        Ok(())
    }

    fn put_extras<'a>(&mut self, kind: u32, mut extra: impl Iterator<Item = (&'a XmlString, &'a XmlString)>) -> Result<(), Fault> {
        extra.try_for_each(|(key, value)| self.put_pair(kind, key, value))
    }

    fn put_properties(&mut self, kind: u32, properties: &[Property]) -> Result<(), Fault> {
        properties.iter().try_for_each(|p| self.put_pair(kind, &p.name, &p.value))
    }

    fn put_pair(&mut self, kind: u32, name: &XmlString, value: &XmlString) -> Result<(), Fault> {
        let at = self.open(kind)?;
        self.text_at(at, 0, 2, name)?;
        self.text_at(at, 1, 4, value)
    }

    fn put_case(&mut self, case: &TestCase) -> Result<(), Fault> {
        let TestCase { name, classname, assertions, timestamp, time, status, system_out, system_err, extra, properties } = case;
        let at = self.open(kind::CASE)?;
        self.text_at(at, 0, 2, name)?;
        self.maybe_text(at, 1, 4, system_out)?;
        self.maybe_text(at, 2, 6, system_err)?;
        self.moments(at, timestamp, time)?;
        self.maybe_text(at, 5, 18, classname)?;
        if let Some(n) = assertions {
            self.put(at, 20, &low_high(*n));
            self.mark(at, 6);
        }
        self.put_extras(kind::CASE_EXTRA, extra.iter())?;
        self.put_properties(kind::CASE_PROPERTY, properties)?;
        match status {
            TestCaseStatus::Success { flaky_runs } => self.put_runs(flaky_runs, FlakyOrRerun::Flaky),
            TestCaseStatus::Skipped { message, ty, description } => {
                self.put_main(kind::SKIPPED, [message, ty, description]).map(|_| ())
            }
            TestCaseStatus::NonSuccess { kind, message, ty, description, reruns } => {
                let code = if *kind == NonSuccessKind::Failure { kind::FAILURE } else { kind::ERROR };
                let at = self.put_main(code, [message, ty, description])?;
                if reruns.runs.is_empty() && reruns.kind == FlakyOrRerun::Flaky {
                    self.mark(at, 9);
                }
                self.put_runs(&reruns.runs, reruns.kind)
            }
        }
    }

    fn put_main(&mut self, kind: u32, [message, ty, description]: [&Option<XmlString>; 3]) -> Result<usize, Fault> {
        let at = self.open(kind)?;
        self.maybe_text(at, 0, 2, message)?;
        self.maybe_text(at, 5, 18, ty)?;
        self.maybe_text(at, 6, 20, description)?;
        Ok(at)
    }

    fn put_runs(&mut self, runs: &[TestRerun], family: FlakyOrRerun) -> Result<(), Fault> {
        for run in runs {
            let (code, element) = match (family, run.kind) {
                (FlakyOrRerun::Flaky, NonSuccessKind::Failure) => (kind::FLAKY_FAILURE, PathElement::FlakyFailure),
                (FlakyOrRerun::Flaky, NonSuccessKind::Error) => (kind::FLAKY_ERROR, PathElement::FlakyError),
                (FlakyOrRerun::Rerun, NonSuccessKind::Failure) => (kind::RERUN_FAILURE, PathElement::RerunFailure),
                (FlakyOrRerun::Rerun, NonSuccessKind::Error) => (kind::RERUN_ERROR, PathElement::RerunError),
            };
            self.put_run(code, run).map_err(inside(element))?;
        }
        Ok(())
    }

    fn put_run(&mut self, kind: u32, run: &TestRerun) -> Result<(), Fault> {
        let at = self.open(kind)?;
        self.maybe_text(at, 0, 2, &run.message)?;
        self.maybe_text(at, 1, 4, &run.system_out)?;
        self.maybe_text(at, 2, 6, &run.system_err)?;
        self.moments(at, &run.timestamp, &run.time)?;
        self.maybe_text(at, 5, 18, &run.ty)?;
        self.maybe_text(at, 6, 20, &run.description)?;
        self.maybe_text(at, 7, 22, &run.stack_trace)
    }
}
