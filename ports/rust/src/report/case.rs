//! Cases, their statuses, runs and properties.
#![forbid(unsafe_code)]

use super::chrono::{DateTime, FixedOffset};
use super::indexmap::IndexMap;
use super::{FlakyOrRerun, NonSuccessKind, XmlString};
use std::{iter, time::Duration};

/// A case.
#[derive(Clone, Debug, PartialEq, Eq)]
#[non_exhaustive]
pub struct TestCase {
    /// The name of this case.
    pub name: XmlString,

    /// Most often the path to the test: class name and name together find it.
    pub classname: Option<XmlString>,

    /// The number of assertions.
    pub assertions: Option<usize>,

    /// When the case began.
    pub timestamp: Option<DateTime<FixedOffset>>,

    /// How long the case took.
    pub time: Option<Duration>,

    /// What the case came to.
    pub status: TestCaseStatus,

    /// What was written to standard output.
    pub system_out: Option<XmlString>,

    /// What was written to standard error.
    pub system_err: Option<XmlString>,

    /// Other attributes, such as `file` or `line`.
    pub extra: IndexMap<XmlString, XmlString>,

    /// Properties that were set in the run, such as steps.
    pub properties: Vec<Property>,
}

impl TestCase {
    /// A case with this name and status.
    pub fn new(name: impl Into<XmlString>, status: TestCaseStatus) -> Self {
        TestCase {
            name: name.into(),
            classname: None,
            assertions: None,
            timestamp: None,
            time: None,
            status,
            system_out: None,
            system_err: None,
            extra: IndexMap::new(),
            properties: vec![],
        }
    }

    /// Sets the class name.
    pub fn set_classname(&mut self, classname: impl Into<XmlString>) -> &mut Self {
        self.classname = Some(classname.into());
        self
    }

    /// Sets the number of assertions.
    pub fn set_assertions(&mut self, assertions: usize) -> &mut Self {
        self.assertions = Some(assertions);
        self
    }

    /// Sets when the case began.
    pub fn set_timestamp(&mut self, timestamp: impl Into<DateTime<FixedOffset>>) -> &mut Self {
        self.timestamp = Some(timestamp.into());
        self
    }

    /// Sets how long the case took.
    pub fn set_time(&mut self, time: Duration) -> &mut Self {
        self.time = Some(time);
        self
    }

    /// Sets standard output.
    pub fn set_system_out(&mut self, system_out: impl Into<XmlString>) -> &mut Self {
        self.system_out = Some(system_out.into());
        self
    }

    /// Sets standard output from any bytes: what isn't UTF-8 becomes U+FFFD.
    pub fn set_system_out_lossy(&mut self, system_out: impl AsRef<[u8]>) -> &mut Self {
        self.set_system_out(String::from_utf8_lossy(system_out.as_ref()))
    }

    /// Sets standard error.
    pub fn set_system_err(&mut self, system_err: impl Into<XmlString>) -> &mut Self {
        self.system_err = Some(system_err.into());
        self
    }

    /// Sets standard error from any bytes: what isn't UTF-8 becomes U+FFFD.
    pub fn set_system_err_lossy(&mut self, system_err: impl AsRef<[u8]>) -> &mut Self {
        self.set_system_err(String::from_utf8_lossy(system_err.as_ref()))
    }

    /// Adds a property.
    pub fn add_property(&mut self, property: impl Into<Property>) -> &mut Self {
        self.properties.push(property.into());
        self
    }

    /// Adds several properties.
    pub fn add_properties(&mut self, properties: impl IntoIterator<Item = impl Into<Property>>) -> &mut Self {
        for property in properties {
            self.add_property(property);
        }
        self
    }
}

/// What a case came to.
#[derive(Clone, Debug, PartialEq, Eq)]
pub enum TestCaseStatus {
    /// It passed.
    Success {
        /// Runs before that didn't pass, `flakyFailure` and `flakyError` in the document.
        flaky_runs: Vec<TestRerun>,
    },

    /// It didn't pass.
    NonSuccess {
        /// In an expected way (failure) or in an unexpected one (error).
        kind: NonSuccessKind,
        /// The message.
        message: Option<XmlString>,
        /// The type.
        ty: Option<XmlString>,
        /// The text of the element.
        description: Option<XmlString>,
        /// Its runs, and of which kind they are.
        reruns: NonSuccessReruns,
    },

    /// It wasn't run.
    Skipped {
        /// The message.
        message: Option<XmlString>,
        /// The type.
        ty: Option<XmlString>,
        /// The text of the element.
        description: Option<XmlString>,
    },
}

impl TestCaseStatus {
    /// Of a case that passed.
    pub fn success() -> Self {
        TestCaseStatus::Success { flaky_runs: vec![] }
    }

    /// Of a case that failed or errored.
    pub fn non_success(kind: NonSuccessKind) -> Self {
        TestCaseStatus::NonSuccess { kind, message: None, ty: None, description: None, reruns: NonSuccessReruns::default() }
    }

    /// Of a case that wasn't run.
    pub fn skipped() -> Self {
        TestCaseStatus::Skipped { message: None, ty: None, description: None }
    }

    /// Sets the message; nothing happens where the case passed.
    pub fn set_message(&mut self, message: impl Into<XmlString>) -> &mut Self {
        match self {
            TestCaseStatus::Success { .. } => {}
            TestCaseStatus::NonSuccess { message: place, .. } | TestCaseStatus::Skipped { message: place, .. } => {
                *place = Some(message.into());
            }
        }
        self
    }

    /// Sets the type; nothing happens where the case passed.
    pub fn set_type(&mut self, ty: impl Into<XmlString>) -> &mut Self {
        match self {
            TestCaseStatus::Success { .. } => {}
            TestCaseStatus::NonSuccess { ty: place, .. } | TestCaseStatus::Skipped { ty: place, .. } => *place = Some(ty.into()),
        }
        self
    }

    /// Sets the text; nothing happens where the case passed.
    pub fn set_description(&mut self, description: impl Into<XmlString>) -> &mut Self {
        match self {
            TestCaseStatus::Success { .. } => {}
            TestCaseStatus::NonSuccess { description: place, .. } | TestCaseStatus::Skipped { description: place, .. } => {
                *place = Some(description.into());
            }
        }
        self
    }

    /// Adds a run; nothing happens where the case was skipped. The runs of a case that passed are flaky.
    pub fn add_rerun(&mut self, rerun: TestRerun) -> &mut Self {
        self.add_reruns(iter::once(rerun))
    }

    /// Adds several runs; nothing happens where the case was skipped.
    pub fn add_reruns(&mut self, new_reruns: impl IntoIterator<Item = TestRerun>) -> &mut Self {
        match self {
            TestCaseStatus::Success { flaky_runs } => flaky_runs.extend(new_reruns),
            TestCaseStatus::NonSuccess { reruns, .. } => reruns.runs.extend(new_reruns),
            TestCaseStatus::Skipped { .. } => {}
        }
        self
    }

    /// Sets the kind of the runs of a failure or error; nothing happens in the two other cases.
    pub fn set_rerun_kind(&mut self, kind: FlakyOrRerun) -> &mut Self {
        if let TestCaseStatus::NonSuccess { reruns, .. } = self {
            reruns.kind = kind;
        }
        self
    }
}

/// One run of a case that didn't pass: `flakyFailure`, `flakyError`, `rerunFailure` or `rerunError` in the document.
#[derive(Clone, Debug, PartialEq, Eq)]
pub struct TestRerun {
    /// Failure or error.
    pub kind: NonSuccessKind,

    /// When the run began.
    pub timestamp: Option<DateTime<FixedOffset>>,

    /// How long the run took.
    pub time: Option<Duration>,

    /// The message.
    pub message: Option<XmlString>,

    /// The type.
    pub ty: Option<XmlString>,

    /// The stack trace.
    pub stack_trace: Option<XmlString>,

    /// What was written to standard output.
    pub system_out: Option<XmlString>,

    /// What was written to standard error.
    pub system_err: Option<XmlString>,

    /// The text of the element.
    pub description: Option<XmlString>,
}

impl TestRerun {
    /// A run that failed or errored.
    pub fn new(kind: NonSuccessKind) -> Self {
        TestRerun {
            kind,
            timestamp: None,
            time: None,
            message: None,
            ty: None,
            stack_trace: None,
            system_out: None,
            system_err: None,
            description: None,
        }
    }

    /// Sets when the run began.
    pub fn set_timestamp(&mut self, timestamp: impl Into<DateTime<FixedOffset>>) -> &mut Self {
        self.timestamp = Some(timestamp.into());
        self
    }

    /// Sets how long the run took.
    pub fn set_time(&mut self, time: Duration) -> &mut Self {
        self.time = Some(time);
        self
    }

    /// Sets the message.
    pub fn set_message(&mut self, message: impl Into<XmlString>) -> &mut Self {
        self.message = Some(message.into());
        self
    }

    /// Sets the type.
    pub fn set_type(&mut self, ty: impl Into<XmlString>) -> &mut Self {
        self.ty = Some(ty.into());
        self
    }

    /// Sets the stack trace.
    pub fn set_stack_trace(&mut self, stack_trace: impl Into<XmlString>) -> &mut Self {
        self.stack_trace = Some(stack_trace.into());
        self
    }

    /// Sets standard output.
    pub fn set_system_out(&mut self, system_out: impl Into<XmlString>) -> &mut Self {
        self.system_out = Some(system_out.into());
        self
    }

    /// Sets standard output from any bytes: what isn't UTF-8 becomes U+FFFD.
    pub fn set_system_out_lossy(&mut self, system_out: impl AsRef<[u8]>) -> &mut Self {
        self.set_system_out(String::from_utf8_lossy(system_out.as_ref()))
    }

    /// Sets standard error.
    pub fn set_system_err(&mut self, system_err: impl Into<XmlString>) -> &mut Self {
        self.system_err = Some(system_err.into());
        self
    }

    /// Sets standard error from any bytes: what isn't UTF-8 becomes U+FFFD.
    pub fn set_system_err_lossy(&mut self, system_err: impl AsRef<[u8]>) -> &mut Self {
        self.set_system_err(String::from_utf8_lossy(system_err.as_ref()))
    }

    /// Sets the text.
    pub fn set_description(&mut self, description: impl Into<XmlString>) -> &mut Self {
        self.description = Some(description.into());
        self
    }
}

/// The runs of a failure or error, and of which kind they are.
///
/// While there are no runs, the kind isn't written, and is Rerun when the report is read again.
#[derive(Clone, Debug, PartialEq, Eq)]
pub struct NonSuccessReruns {
    /// Flaky runs or reruns.
    pub kind: FlakyOrRerun,

    /// The runs.
    pub runs: Vec<TestRerun>,
}

impl Default for NonSuccessReruns {
    fn default() -> Self {
        NonSuccessReruns { kind: FlakyOrRerun::Rerun, runs: vec![] }
    }
}

/// A property's name and value.
#[derive(Clone, Debug, PartialEq, Eq)]
pub struct Property {
    /// The name.
    pub name: XmlString,

    /// The value.
    pub value: XmlString,
}

impl Property {
    /// A property of this name and value.
    pub fn new(name: impl Into<XmlString>, value: impl Into<XmlString>) -> Self {
        Property { name: name.into(), value: value.into() }
    }
}

impl<T> From<(T, T)> for Property
where
    T: Into<XmlString>,
{
    fn from((name, value): (T, T)) -> Self {
        Property::new(name, value)
    }
}
