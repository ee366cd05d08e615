//! Reports and suites.
#![forbid(unsafe_code)]

use super::chrono::{DateTime, FixedOffset};
use super::indexmap::IndexMap;
use super::uuid::{ReportUuid, Uuid};
use super::{NonSuccessKind, Property, TestCase, TestCaseStatus, XmlString};
use std::time::Duration;

/// A report: the root element `testsuites`.
#[derive(Clone, Debug, PartialEq, Eq)]
#[non_exhaustive]
pub struct Report {
    /// The name of this report.
    pub name: Option<XmlString>,

    /// An identifier of this report, which nextest writes.
    pub uuid: Option<ReportUuid>,

    /// When the first test of this report began.
    pub timestamp: Option<DateTime<FixedOffset>>,

    /// How long the whole run took; written in seconds.
    pub time: Option<Duration>,

    /// The number of tests in all suites.
    pub tests: usize,

    /// The number of failures in all suites.
    pub failures: usize,

    /// The number of errors in all suites.
    pub errors: usize,

    /// The number of tests that were skipped in the run, in all suites.
    pub skipped: usize,

    /// The number of tests that are disabled by design, in all suites that say so; none where no suite does.
    pub disabled: Option<usize>,

    /// The suites of this report.
    pub test_suites: Vec<TestSuite>,
}

impl Report {
    /// A report with this name.
    pub fn new(name: impl Into<XmlString>) -> Self {
        let mut report = Self::unnamed();
        report.name = Some(name.into());
        report
    }

    /// A report without a name.
    ///
    /// ```
    /// use kerzhoma::report::Report;
    ///
    /// let report = Report::unnamed();
    /// assert!(report.name.is_none());
    /// assert!(report.to_string().unwrap().contains(r#"<testsuites tests="0""#));
    /// ```
    pub fn unnamed() -> Self {
        Report {
            name: None,
            uuid: None,
            timestamp: None,
            time: None,
            tests: 0,
            failures: 0,
            errors: 0,
            skipped: 0,
            disabled: None,
            test_suites: vec![],
        }
    }

    /// Sets the identifier.
    pub fn set_report_uuid(&mut self, uuid: ReportUuid) -> &mut Self {
        self.uuid = Some(uuid);
        self
    }

    /// Sets the identifier from a [`Uuid`].
    pub fn set_uuid(&mut self, uuid: Uuid) -> &mut Self {
        self.uuid = Some(ReportUuid::from_untyped_uuid(uuid));
        self
    }

    /// Sets when the run began.
    pub fn set_timestamp(&mut self, timestamp: impl Into<DateTime<FixedOffset>>) -> &mut Self {
        self.timestamp = Some(timestamp.into());
        self
    }

    /// Sets how long the run took.
    pub fn set_time(&mut self, time: Duration) -> &mut Self {
        self.time = Some(time);
        self
    }

    /// Adds a suite, and its counts to those of the report; `disabled` only where the suite has it.
    pub fn add_test_suite(&mut self, test_suite: TestSuite) -> &mut Self {
        self.tests += test_suite.tests;
        self.failures += test_suite.failures;
        self.errors += test_suite.errors;
        self.skipped += test_suite.skipped;
        if let Some(disabled) = test_suite.disabled {
            *self.disabled.get_or_insert(0) += disabled;
        }
        self.test_suites.push(test_suite);
        self
    }

    /// Adds several suites, with their counts.
    pub fn add_test_suites(&mut self, test_suites: impl IntoIterator<Item = TestSuite>) -> &mut Self {
        for test_suite in test_suites {
            self.add_test_suite(test_suite);
        }
        self
    }
}

/// A suite: cases that belong together.
#[derive(Clone, Debug, PartialEq, Eq)]
#[non_exhaustive]
pub struct TestSuite {
    /// The name of this suite.
    pub name: XmlString,

    /// The number of tests.
    pub tests: usize,

    /// The number of tests that were skipped in the run.
    pub skipped: usize,

    /// The number of tests that are disabled by design, where the element says so.
    pub disabled: Option<usize>,

    /// The number of errors: issues that weren't expected.
    pub errors: usize,

    /// The number of failures: issues that a test looks for.
    pub failures: usize,

    /// When the suite began.
    pub timestamp: Option<DateTime<FixedOffset>>,

    /// How long the suite took.
    pub time: Option<Duration>,

    /// The cases of this suite.
    pub test_cases: Vec<TestCase>,

    /// Properties that were set in the run, such as variables of the environment.
    pub properties: Vec<Property>,

    /// What was written to standard output.
    pub system_out: Option<XmlString>,

    /// What was written to standard error.
    pub system_err: Option<XmlString>,

    /// Other attributes, such as `hostname` or `package`; `hostname` is written before the others.
    pub extra: IndexMap<XmlString, XmlString>,
}

impl TestSuite {
    /// A suite with this name.
    pub fn new(name: impl Into<XmlString>) -> Self {
        TestSuite {
            name: name.into(),
            time: None,
            timestamp: None,
            tests: 0,
            skipped: 0,
            disabled: None,
            errors: 0,
            failures: 0,
            test_cases: vec![],
            properties: vec![],
            system_out: None,
            system_err: None,
            extra: IndexMap::new(),
        }
    }

    /// Sets when the suite began.
    pub fn set_timestamp(&mut self, timestamp: impl Into<DateTime<FixedOffset>>) -> &mut Self {
        self.timestamp = Some(timestamp.into());
        self
    }

    /// Sets how long the suite took.
    pub fn set_time(&mut self, time: Duration) -> &mut Self {
        self.time = Some(time);
        self
    }

    /// Adds a property.
    pub fn add_property(&mut self, property: impl Into<Property>) -> &mut Self {
        self.properties.push(property.into());
        self
    }

    /// Adds several properties.
    pub fn add_properties(&mut self, properties: impl IntoIterator<Item = impl Into<Property>>) -> &mut Self {
        for property in properties {
            self.add_property(property);
        }
        self
    }

    /// Adds a case, and counts it.
    pub fn add_test_case(&mut self, test_case: TestCase) -> &mut Self {
        self.tests += 1;
        match &test_case.status {
            TestCaseStatus::Success { .. } => {}
            TestCaseStatus::NonSuccess { kind: NonSuccessKind::Failure, .. } => self.failures += 1,
            TestCaseStatus::NonSuccess { kind: NonSuccessKind::Error, .. } => self.errors += 1,
            TestCaseStatus::Skipped { .. } => self.skipped += 1,
        }
        self.test_cases.push(test_case);
        self
    }

    /// Adds several cases, and counts them.
    pub fn add_test_cases(&mut self, test_cases: impl IntoIterator<Item = TestCase>) -> &mut Self {
        for test_case in test_cases {
            self.add_test_case(test_case);
        }
        self
    }

    /// Sets standard output.
    pub fn set_system_out(&mut self, system_out: impl Into<XmlString>) -> &mut Self {
        self.system_out = Some(system_out.into());
        self
    }

    /// Sets standard output from any bytes: what isn't UTF-8 becomes U+FFFD.
    pub fn set_system_out_lossy(&mut self, system_out: impl AsRef<[u8]>) -> &mut Self {
        self.set_system_out(String::from_utf8_lossy(system_out.as_ref()))
    }

    /// Sets standard error.
    pub fn set_system_err(&mut self, system_err: impl Into<XmlString>) -> &mut Self {
        self.system_err = Some(system_err.into());
        self
    }

    /// Sets standard error from any bytes: what isn't UTF-8 becomes U+FFFD.
    pub fn set_system_err_lossy(&mut self, system_err: impl AsRef<[u8]>) -> &mut Self {
        self.set_system_err(String::from_utf8_lossy(system_err.as_ref()))
    }
}
