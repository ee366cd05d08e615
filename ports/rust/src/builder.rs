//! Reports made from nothing, forward through the areas.
#![forbid(unsafe_code)]

use crate::refusal::Lent;
use crate::{sys, Areas, FlakyOrRerun, NonSuccessKind, Outcome, Refusal, Timestamp, Tree};
use std::time::Duration;

// Codes of the library: places of its variants.
mod element {
    pub const REPORT: u32 = 0;
    pub const SUITE: u32 = 1;
    pub const CASE: u32 = 2;
    pub const STATUS: u32 = 3;
    pub const LAST: u32 = 4;
}

mod holder {
    pub const SUITE: u32 = 0;
    pub const CASE: u32 = 1;
}

mod field {
    pub const CLASSNAME: u32 = 0;
    pub const MESSAGE: u32 = 1;
    pub const TYPE: u32 = 2;
    pub const DESCRIPTION: u32 = 3;
    pub const STACK_TRACE: u32 = 4;
    pub const SYSTEM_OUT: u32 = 5;
    pub const SYSTEM_ERR: u32 = 6;
    pub const HOSTNAME: u32 = 7;
}

mod number {
    pub const ASSERTIONS: u32 = 0;
    pub const DISABLED: u32 = 1;
}

/// A report that is being built in areas, from its beginning on.
///
/// [`add_test_suite`](ReportBuilder::add_test_suite) opens a suite and closes the one before,
/// [`add_test_case`](SuiteBuilder::add_test_case) a case, [`add_rerun`](CaseBuilder::add_rerun) a run. Counts are added up on the way. A
/// suite's extras come before its properties, and both before its cases; a case's extras before its properties, and both before its runs.
///
/// # Errors
///
/// All calls refuse alike: 12 and 13 where the areas are spent, 4 or 5 for a timestamp or time out of range, 15 for what doesn't belong
/// there (a message of a case that passed, a run of a skipped one, a property behind cases), 17 where a count would pass its limit. At a
/// refusal the areas become zero, and all later calls refuse with 15. [`finish`](ReportBuilder::finish) takes the builder: in the library
/// each call behind it but a new report is refused with 15, too.
///
/// Extras of one element are searched one by one, so that n of them cost the square of n.
///
/// ```
/// use kerzhoma::{list, Areas, NonSuccessKind, Outcome, ReportBuilder};
/// use std::time::Duration;
///
/// let mut areas = Areas::new(100, 10_000, 0);
/// let mut report = ReportBuilder::new(&mut areas, "my-run")?;
/// report.set_time(Duration::from_millis(1500))?;
///
/// let mut suite = report.add_test_suite("lab")?;
/// suite.set_hostname("bench-7")?;
/// suite.add_test_case("a", Outcome::Success)?.set_classname("typing")?.set_time(Duration::from_millis(500))?;
/// let mut case = suite.add_test_case("b", Outcome::Failure)?;
/// case.set_message("not equal")?;
/// case.add_rerun(NonSuccessKind::Failure)?.set_stack_trace("at rank()")?;
///
/// let tree = report.finish()?;
/// assert_eq!(
///     list(&tree)?,
///     "(report \"my-run\" 2 1 0 0 -\n(suite \"lab\" 2 1 0 0 -\n(case \"a\" \"typing\" 0.500 success flaky 0)\n\
///      (case \"b\" - - failure rerun 1\n(run failure -))))\n"
/// );
/// # Ok::<(), kerzhoma::Refusal>(())
/// ```
#[derive(Debug)]
pub struct ReportBuilder<'a> {
    areas: &'a mut Areas,
    at: sys::Builder,
}

fn lent(areas: &Areas) -> Lent {
    Lent { records: areas.records.len(), text: areas.text.len(), ..Lent::default() }
}

impl<'a> ReportBuilder<'a> {
    /// A report with this name, in areas that may hold anything.
    pub fn new(areas: &'a mut Areas, name: &str) -> Result<Self, Refusal> {
        let built = sys::new_report(&mut areas.records, &mut areas.text, name.as_bytes());
        Self::begun(areas, built)
    }

    /// A report without a name.
    pub fn unnamed(areas: &'a mut Areas) -> Result<Self, Refusal> {
        let built = sys::unnamed_report(&mut areas.records, &mut areas.text);
        Self::begun(areas, built)
    }

    fn begun(areas: &'a mut Areas, built: sys::Built) -> Result<Self, Refusal> {
        Refusal::result(built.refusal, lent(areas))?;
        Ok(ReportBuilder { areas, at: built.builder })
    }

    // One call: the builder goes in and comes back.
    fn step(&mut self, call: impl FnOnce(sys::Builder, &mut [u32], &mut [u8]) -> sys::Built) -> Result<(), Refusal> {
        let built = call(self.at, &mut self.areas.records, &mut self.areas.text);
        self.at = built.builder;
        Refusal::result(built.refusal, lent(self.areas))
    }

    fn put_text(&mut self, element: u32, field: u32, s: &str) -> Result<(), Refusal> {
        self.step(|b, records, text| sys::set_text(b, records, text, element, field, s.as_bytes()))
    }

    fn put_lossy(&mut self, element: u32, field: u32, s: &[u8]) -> Result<(), Refusal> {
        self.step(|b, records, text| sys::set_output_lossy(b, records, text, element, field, s))
    }

    fn put_timestamp(&mut self, element: u32, timestamp: Timestamp) -> Result<(), Refusal> {
        self.step(|b, records, text| sys::set_timestamp(b, records, text, element, timestamp.told()))
    }

    // Seconds that are too many for a word are too many for a time.
    fn put_time(&mut self, element: u32, time: Duration) -> Result<(), Refusal> {
        let seconds = u32::try_from(time.as_secs()).unwrap_or(u32::MAX);
        self.step(|b, records, text| sys::set_time(b, records, text, element, seconds, time.subsec_nanos()))
    }

    fn put_number(&mut self, field: u32, n: u64) -> Result<(), Refusal> {
        self.step(|b, records, text| sys::set_number(b, records, text, field, n))
    }

    fn put_property(&mut self, holder: u32, name: &str, value: &str) -> Result<(), Refusal> {
        self.step(|b, records, text| sys::add_property(b, records, text, holder, name.as_bytes(), value.as_bytes()))
    }

    fn put_extra(&mut self, holder: u32, key: &str, value: &str) -> Result<(), Refusal> {
        self.step(|b, records, text| sys::add_extra(b, records, text, holder, key.as_bytes(), value.as_bytes()))
    }

    /// Sets the UUID by its 16 bytes, the first one first.
    pub fn set_uuid(&mut self, uuid: [u8; 16]) -> Result<&mut Self, Refusal> {
        let word = |i: usize| u32::from_be_bytes([uuid[i], uuid[i + 1], uuid[i + 2], uuid[i + 3]]);
        let words = sys::Uuid { a: word(0), b: word(4), c: word(8), d: word(12) };
        self.step(|b, records, text| sys::set_uuid(b, records, text, words))?;
        Ok(self)
    }

    /// Sets when the run began.
    pub fn set_timestamp(&mut self, timestamp: Timestamp) -> Result<&mut Self, Refusal> {
        self.put_timestamp(element::REPORT, timestamp)?;
        Ok(self)
    }

    /// Under 8388608 seconds.
    pub fn set_time(&mut self, time: Duration) -> Result<&mut Self, Refusal> {
        self.put_time(element::REPORT, time)?;
        Ok(self)
    }

    /// Opens a suite, and closes the one before.
    pub fn add_test_suite(&mut self, name: &str) -> Result<SuiteBuilder<'_, 'a>, Refusal> {
        self.step(|b, records, text| sys::add_test_suite(b, records, text, name.as_bytes()))?;
        Ok(SuiteBuilder { report: self })
    }

    /// How many records and bytes of text are used so far.
    pub fn used(&self) -> (usize, usize) {
        (self.at.records as usize, self.at.bytes as usize)
    }

    /// Adds the last suite to the report's counts, and gives the report.
    pub fn finish(mut self) -> Result<Tree<'a>, Refusal> {
        self.step(sys::finish_report)?;
        Tree::over(&self.areas.records, &self.areas.text)
    }
}

/// The open suite of a report.
#[derive(Debug)]
pub struct SuiteBuilder<'b, 'a> {
    report: &'b mut ReportBuilder<'a>,
}

impl<'a> SuiteBuilder<'_, 'a> {
    /// Sets when the suite began.
    pub fn set_timestamp(&mut self, timestamp: Timestamp) -> Result<&mut Self, Refusal> {
        self.report.put_timestamp(element::SUITE, timestamp)?;
        Ok(self)
    }

    /// Under 8388608 seconds.
    pub fn set_time(&mut self, time: Duration) -> Result<&mut Self, Refusal> {
        self.report.put_time(element::SUITE, time)?;
        Ok(self)
    }

    /// The machine that the suite ran on.
    pub fn set_hostname(&mut self, hostname: &str) -> Result<&mut Self, Refusal> {
        self.report.put_text(element::SUITE, field::HOSTNAME, hostname)?;
        Ok(self)
    }

    /// The number of tests disabled by design.
    pub fn set_disabled(&mut self, n: u64) -> Result<&mut Self, Refusal> {
        self.report.put_number(number::DISABLED, n)?;
        Ok(self)
    }

    /// Sets what was written to standard output.
    pub fn set_system_out(&mut self, s: &str) -> Result<&mut Self, Refusal> {
        self.report.put_text(element::SUITE, field::SYSTEM_OUT, s)?;
        Ok(self)
    }

    /// From any bytes: what isn't UTF-8 becomes U+FFFD.
    pub fn set_system_out_lossy(&mut self, s: impl AsRef<[u8]>) -> Result<&mut Self, Refusal> {
        self.report.put_lossy(element::SUITE, field::SYSTEM_OUT, s.as_ref())?;
        Ok(self)
    }

    /// Sets what was written to standard error.
    pub fn set_system_err(&mut self, s: &str) -> Result<&mut Self, Refusal> {
        self.report.put_text(element::SUITE, field::SYSTEM_ERR, s)?;
        Ok(self)
    }

    /// From any bytes: what isn't UTF-8 becomes U+FFFD.
    pub fn set_system_err_lossy(&mut self, s: impl AsRef<[u8]>) -> Result<&mut Self, Refusal> {
        self.report.put_lossy(element::SUITE, field::SYSTEM_ERR, s.as_ref())?;
        Ok(self)
    }

    /// Another attribute, such as `package`; one with the same key gets the new value. Before properties and cases. With the key of a
    /// field, such as `hostname`, it is written beside it, and reading refuses what then has a key twice.
    pub fn add_extra(&mut self, key: &str, value: &str) -> Result<&mut Self, Refusal> {
        self.report.put_extra(holder::SUITE, key, value)?;
        Ok(self)
    }

    /// Before the cases.
    pub fn add_property(&mut self, name: &str, value: &str) -> Result<&mut Self, Refusal> {
        self.report.put_property(holder::SUITE, name, value)?;
        Ok(self)
    }

    /// Opens a case, and counts it.
    pub fn add_test_case(&mut self, name: &str, outcome: Outcome) -> Result<CaseBuilder<'_, 'a>, Refusal> {
        self.report.step(|b, records, text| sys::add_test_case(b, records, text, name.as_bytes(), outcome as u32))?;
        Ok(CaseBuilder { report: self.report })
    }
}

/// The open case of a suite.
#[derive(Debug)]
pub struct CaseBuilder<'b, 'a> {
    report: &'b mut ReportBuilder<'a>,
}

impl<'a> CaseBuilder<'_, 'a> {
    /// Sets the class name.
    pub fn set_classname(&mut self, classname: &str) -> Result<&mut Self, Refusal> {
        self.report.put_text(element::CASE, field::CLASSNAME, classname)?;
        Ok(self)
    }

    /// Sets the number of assertions.
    pub fn set_assertions(&mut self, n: u64) -> Result<&mut Self, Refusal> {
        self.report.put_number(number::ASSERTIONS, n)?;
        Ok(self)
    }

    /// Sets when the case began.
    pub fn set_timestamp(&mut self, timestamp: Timestamp) -> Result<&mut Self, Refusal> {
        self.report.put_timestamp(element::CASE, timestamp)?;
        Ok(self)
    }

    /// Under 8388608 seconds.
    pub fn set_time(&mut self, time: Duration) -> Result<&mut Self, Refusal> {
        self.report.put_time(element::CASE, time)?;
        Ok(self)
    }

    /// Sets what was written to standard output.
    pub fn set_system_out(&mut self, s: &str) -> Result<&mut Self, Refusal> {
        self.report.put_text(element::CASE, field::SYSTEM_OUT, s)?;
        Ok(self)
    }

    /// From any bytes: what isn't UTF-8 becomes U+FFFD.
    pub fn set_system_out_lossy(&mut self, s: impl AsRef<[u8]>) -> Result<&mut Self, Refusal> {
        self.report.put_lossy(element::CASE, field::SYSTEM_OUT, s.as_ref())?;
        Ok(self)
    }

    /// Sets what was written to standard error.
    pub fn set_system_err(&mut self, s: &str) -> Result<&mut Self, Refusal> {
        self.report.put_text(element::CASE, field::SYSTEM_ERR, s)?;
        Ok(self)
    }

    /// From any bytes: what isn't UTF-8 becomes U+FFFD.
    pub fn set_system_err_lossy(&mut self, s: impl AsRef<[u8]>) -> Result<&mut Self, Refusal> {
        self.report.put_lossy(element::CASE, field::SYSTEM_ERR, s.as_ref())?;
        Ok(self)
    }

    /// The message of the failure, error or skip.
    pub fn set_message(&mut self, message: &str) -> Result<&mut Self, Refusal> {
        self.report.put_text(element::STATUS, field::MESSAGE, message)?;
        Ok(self)
    }

    /// The type of the failure, error or skip.
    pub fn set_type(&mut self, ty: &str) -> Result<&mut Self, Refusal> {
        self.report.put_text(element::STATUS, field::TYPE, ty)?;
        Ok(self)
    }

    /// The text of the failure, error or skip.
    pub fn set_description(&mut self, description: &str) -> Result<&mut Self, Refusal> {
        self.report.put_text(element::STATUS, field::DESCRIPTION, description)?;
        Ok(self)
    }

    /// The kind of the runs of a failure or error, also while there are none.
    pub fn set_rerun_kind(&mut self, kind: FlakyOrRerun) -> Result<&mut Self, Refusal> {
        self.report.step(|b, records, text| sys::set_rerun_kind(b, records, text, kind as u32))?;
        Ok(self)
    }

    /// Another attribute; one with the same key gets the new value. Before properties and runs.
    pub fn add_extra(&mut self, key: &str, value: &str) -> Result<&mut Self, Refusal> {
        self.report.put_extra(holder::CASE, key, value)?;
        Ok(self)
    }

    /// Before the runs.
    pub fn add_property(&mut self, name: &str, value: &str) -> Result<&mut Self, Refusal> {
        self.report.put_property(holder::CASE, name, value)?;
        Ok(self)
    }

    /// A run: flaky for a case that passed, else of the kind that is set.
    pub fn add_rerun(&mut self, kind: NonSuccessKind) -> Result<RunBuilder<'_, 'a>, Refusal> {
        self.report.step(|b, records, text| sys::add_rerun(b, records, text, kind as u32))?;
        Ok(RunBuilder { report: self.report })
    }
}

/// The last run of a case.
#[derive(Debug)]
pub struct RunBuilder<'b, 'a> {
    report: &'b mut ReportBuilder<'a>,
}

impl RunBuilder<'_, '_> {
    fn set(&mut self, field: u32, s: &str) -> Result<&mut Self, Refusal> {
        self.report.put_text(element::LAST, field, s)?;
        Ok(self)
    }

    /// Sets the message of the run.
    pub fn set_message(&mut self, message: &str) -> Result<&mut Self, Refusal> {
        self.set(field::MESSAGE, message)
    }

    /// Sets the type of the run.
    pub fn set_type(&mut self, ty: &str) -> Result<&mut Self, Refusal> {
        self.set(field::TYPE, ty)
    }

    /// Sets the text of the run.
    pub fn set_description(&mut self, description: &str) -> Result<&mut Self, Refusal> {
        self.set(field::DESCRIPTION, description)
    }

    /// Sets the stack trace of the run.
    pub fn set_stack_trace(&mut self, stack_trace: &str) -> Result<&mut Self, Refusal> {
        self.set(field::STACK_TRACE, stack_trace)
    }

    /// Sets what was written to standard output.
    pub fn set_system_out(&mut self, s: &str) -> Result<&mut Self, Refusal> {
        self.set(field::SYSTEM_OUT, s)
    }

    /// From any bytes: what isn't UTF-8 becomes U+FFFD.
    pub fn set_system_out_lossy(&mut self, s: impl AsRef<[u8]>) -> Result<&mut Self, Refusal> {
        self.report.put_lossy(element::LAST, field::SYSTEM_OUT, s.as_ref())?;
        Ok(self)
    }

    /// Sets what was written to standard error.
    pub fn set_system_err(&mut self, s: &str) -> Result<&mut Self, Refusal> {
        self.set(field::SYSTEM_ERR, s)
    }

    /// From any bytes: what isn't UTF-8 becomes U+FFFD.
    pub fn set_system_err_lossy(&mut self, s: impl AsRef<[u8]>) -> Result<&mut Self, Refusal> {
        self.report.put_lossy(element::LAST, field::SYSTEM_ERR, s.as_ref())?;
        Ok(self)
    }

    /// Sets when the run began.
    pub fn set_timestamp(&mut self, timestamp: Timestamp) -> Result<&mut Self, Refusal> {
        self.report.put_timestamp(element::LAST, timestamp)?;
        Ok(self)
    }

    /// Under 8388608 seconds.
    pub fn set_time(&mut self, time: Duration) -> Result<&mut Self, Refusal> {
        self.report.put_time(element::LAST, time)?;
        Ok(self)
    }
}
