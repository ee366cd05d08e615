//! Small values: counts, timestamps, statuses.
#![forbid(unsafe_code)]

use crate::refusal::Lent;
use crate::{sys, Refusal};
use std::{fmt, time::Duration};

/// What a case comes to.
#[derive(Clone, Copy, Debug, PartialEq, Eq, Hash)]
pub enum Outcome {
    /// It passed.
    Success,
    /// It failed in an expected way.
    Failure,
    /// It failed in an unexpected way.
    Error,
    /// It wasn't run.
    Skipped,
}

/// Whether a case or run failed in an expected way (failure) or in an unexpected way (error).
#[derive(Clone, Copy, Debug, PartialEq, Eq, Hash)]
pub enum NonSuccessKind {
    /// In an expected way: `failure`, `flakyFailure` or `rerunFailure`.
    Failure,
    /// In an unexpected way: `error`, `flakyError` or `rerunError`.
    Error,
}

/// The kind of the runs of a failure or error.
#[derive(Clone, Copy, Debug, PartialEq, Eq, Hash)]
pub enum FlakyOrRerun {
    /// Runs of a case that was flaky: `flakyFailure` or `flakyError`.
    Flaky,
    /// Runs of a case that was tried again: `rerunFailure` or `rerunError`.
    Rerun,
}

/// The counts of a report or suite.
///
/// ```
/// use kerzhoma::{Counts, Outcome};
///
/// let suite = Counts::default().add_case(Outcome::Success)?.add_case(Outcome::Failure)?;
/// assert_eq!((suite.tests, suite.failures), (2, 1));
/// let report = Counts { disabled: Some(1), ..Counts::default() }.add_suite(suite)?;
/// assert_eq!((report.tests, report.disabled), (2, Some(1)));
///
/// let most = Counts { tests: u64::MAX, ..suite };
/// assert_eq!(most.add_case(Outcome::Success).unwrap_err().number(), 17);
/// # Ok::<(), kerzhoma::Refusal>(())
/// ```
#[derive(Clone, Copy, Debug, Default, PartialEq, Eq, Hash)]
pub struct Counts {
    /// All cases.
    pub tests: u64,
    /// Those that failed.
    pub failures: u64,
    /// Those that erred.
    pub errors: u64,
    /// Those that were skipped.
    pub skipped: u64,
    /// Those that are disabled by design, where that is told.
    pub disabled: Option<u64>,
}

impl Counts {
    pub(crate) fn told(self) -> sys::Counts {
        sys::Counts {
            tests: self.tests,
            failures: self.failures,
            errors: self.errors,
            skipped: self.skipped,
            disabled: self.disabled.unwrap_or(0),
            presence: self.disabled.is_some(),
        }
    }

    pub(crate) fn from(c: sys::Counts) -> Self {
        Counts {
            tests: c.tests,
            failures: c.failures,
            errors: c.errors,
            skipped: c.skipped,
            disabled: c.presence.then_some(c.disabled),
        }
    }

    fn of(counted: sys::Counted) -> Result<Self, Refusal> {
        Refusal::result(counted.refusal, Lent::default())?;
        Ok(Self::from(counted.counts))
    }

    /// With one case more.
    ///
    /// # Errors
    ///
    /// 17 where a count would pass 18446744073709551615.
    pub fn add_case(self, outcome: Outcome) -> Result<Self, Refusal> {
        Self::of(sys::add_case(self.told(), outcome as u32))
    }

    /// With a suite's counts; `disabled` only where the suite has it.
    ///
    /// # Errors
    ///
    /// 17 where a count would pass 18446744073709551615.
    pub fn add_suite(self, suite: Counts) -> Result<Self, Refusal> {
        Self::of(sys::add_suite(self.told(), suite.told()))
    }
}

/// A moment as it is written in a report; displayed by RFC 3339, with as many digits of the fraction as it has.
///
/// ```
/// let moment = kerzhoma::Timestamp {
///     year: 2024, month: 2, day: 29, hour: 23, minute: 59, second: 0, nanos: 250_000_000, offset_minutes: -90,
/// };
/// assert_eq!(moment.to_string(), "2024-02-29T23:59:00.25-01:30");
/// ```
#[derive(Clone, Copy, Debug, PartialEq, Eq, Hash)]
pub struct Timestamp {
    /// 0 to 9999.
    pub year: u16,
    /// 1 to 12.
    pub month: u8,
    /// From 1 on.
    pub day: u8,
    /// 0 to 23.
    pub hour: u8,
    /// 0 to 59.
    pub minute: u8,
    /// 0 to 59.
    pub second: u8,
    /// Under a second.
    pub nanos: u32,
    /// Minutes east of UTC, -1439 to 1439.
    pub offset_minutes: i16,
}

// Stored offsets are 0 to 2878.
const OFFSET: i32 = 1439;

impl Timestamp {
    pub(crate) fn of(words: [u32; 8]) -> Self {
        let [year, month, day, hour, minute, second, nanos, offset] = words;
        Timestamp {
            year: year as u16,
            month: month as u8,
            day: day as u8,
            hour: hour as u8,
            minute: minute as u8,
            second: second as u8,
            nanos,
            offset_minutes: (offset as i32 - OFFSET) as i16,
        }
    }

    pub(crate) fn of_moment(m: sys::Moment) -> Self {
        let sys::Moment { year, month, day, hour, minute, second, nanos, offset } = m;
        Timestamp { year, month, day, hour, minute, second, nanos, offset_minutes: (i32::from(offset) - OFFSET) as i16 }
    }

    // An offset that is none is told as one that is refused.
    pub(crate) fn told(self) -> sys::Moment {
        sys::Moment {
            year: self.year,
            month: self.month,
            day: self.day,
            hour: self.hour,
            minute: self.minute,
            second: self.second,
            nanos: self.nanos,
            offset: u16::try_from(i32::from(self.offset_minutes) + OFFSET).unwrap_or(u16::MAX),
        }
    }
}

impl fmt::Display for Timestamp {
    fn fmt(&self, f: &mut fmt::Formatter<'_>) -> fmt::Result {
        let Timestamp { year, month, day, hour, minute, second, nanos, offset_minutes } = *self;
        write!(f, "{year:04}-{month:02}-{day:02}T{hour:02}:{minute:02}:{second:02}")?;
        if nanos != 0 {
            let digits = format!("{nanos:09}");
            write!(f, ".{}", digits.trim_end_matches('0'))?;
        }
        let sign = if offset_minutes < 0 { '-' } else { '+' };
        let away = offset_minutes.unsigned_abs();
        write!(f, "{sign}{:02}:{:02}", away / 60, away % 60)
    }
}

/// When a run's cases started: [`starts`](crate::starts).
#[derive(Clone, Copy, Debug, PartialEq, Eq, Hash)]
pub struct Starts {
    /// The earliest.
    pub first: Timestamp,
    /// The latest.
    pub last: Timestamp,
    /// From the first to the last.
    pub span: Duration,
}

/// A time as listings and written reports have it: seconds with three digits behind the point.
///
/// None from 4294967296 seconds on; reports have times under 8388608 seconds.
///
/// ```
/// use std::time::Duration;
/// assert_eq!(kerzhoma::time_text(Duration::from_millis(500)).as_deref(), Some("0.500"));
/// ```
pub fn time_text(time: Duration) -> Option<String> {
    let mut out = [0; 40];
    let n = sys::time_text(&mut out, u32::try_from(time.as_secs()).ok()?, time.subsec_nanos());
    Some(String::from_utf8_lossy(out.get(..n)?).into_owned())
}
