//! Why and where a call refuses.
#![forbid(unsafe_code)]

use crate::{limits, sys};
use std::{error, fmt};

const NOWHERE: u32 = u32::MAX;

/// What happened, finer than the number of a refusal. docs/REFUSALS.md has the smallest table for each.
#[derive(Clone, Copy, Debug, PartialEq, Eq, Hash)]
#[non_exhaustive]
pub enum Cause {
    /// 1: the XML reader failed.
    XmlFault,
    /// 1: the table ends in an element that is passed over.
    EofInSkip,
    /// 2: a text isn't UTF-8.
    NotUtf8,
    /// 3: a count isn't one.
    BadInteger,
    /// 4: a timestamp isn't one.
    BadTimestamp,
    /// 5: a time isn't one.
    BadTime,
    /// 6: a UUID isn't one.
    BadUuid,
    /// 7: an attribute isn't there.
    MissingAttribute,
    /// 8: there is no report.
    MissingReport,
    /// 8: the table ends in an element that is read.
    EofInElement,
    /// 20: a case's status elements don't go together.
    StatusRule,
    /// 21: the name of a reference in a text is unknown.
    UnknownEntity,
    /// 9: an attribute is marked faulty.
    FaultyAttribute,
    /// 9: a key stands twice.
    RepeatedKey,
    /// 10: a reference is bad.
    BadReference,
    /// 11: the table is malformed or above the limits.
    BadTable,
    /// 12: no record is left.
    RecordsSpent,
    /// 13: a text doesn't fit into the text area.
    TextFull,
    /// 14: a text that is gathered doesn't fit into scratch.
    ScratchFull,
    /// 15: the areas hold no report, or a builder's call doesn't fit there.
    NotLayout,
    /// 16: the output doesn't fit.
    OutputFull,
    /// 17: a count would pass its limit.
    CountLimit,
    /// 23: more than 4,096 cases are ordered.
    TooManyCases,
    /// 24: no report has the numbers that are ordered.
    NoSuchReport,
    /// 11: a release sheet over more than 4,096 reports.
    TooManyReports,
    /// 22: the times of two reports that are merged reach 8,388,608 seconds.
    TimeLimit,
}

// In the order of their codes, from 1 on, with their numbers.
const CAUSES: [(Cause, u32); 26] = [
    (Cause::XmlFault, 1),
    (Cause::EofInSkip, 1),
    (Cause::NotUtf8, 2),
    (Cause::BadInteger, 3),
    (Cause::BadTimestamp, 4),
    (Cause::BadTime, 5),
    (Cause::BadUuid, 6),
    (Cause::MissingAttribute, 7),
    (Cause::MissingReport, 8),
    (Cause::EofInElement, 8),
    (Cause::StatusRule, 20),
    (Cause::UnknownEntity, 21),
    (Cause::FaultyAttribute, 9),
    (Cause::RepeatedKey, 9),
    (Cause::BadReference, 10),
    (Cause::BadTable, 11),
    (Cause::RecordsSpent, 12),
    (Cause::TextFull, 13),
    (Cause::ScratchFull, 14),
    (Cause::NotLayout, 15),
    (Cause::OutputFull, 16),
    (Cause::CountLimit, 17),
    (Cause::TooManyCases, 23),
    (Cause::NoSuchReport, 24),
    (Cause::TooManyReports, 11),
    (Cause::TimeLimit, 22),
];

impl Cause {
    /// All causes, in the order of docs/REFUSALS.md.
    pub fn all() -> impl Iterator<Item = Cause> {
        CAUSES.iter().map(|c| c.0)
    }

    /// The number of the refusal: 1 to 17 or 20 to 24.
    pub fn number(self) -> u32 {
        CAUSES[self as usize].1
    }
}

impl fmt::Display for Cause {
    /// The cause in words.
    fn fmt(&self, f: &mut fmt::Formatter<'_>) -> fmt::Result {
        let line = Refusal::late(*self).to_string();
        f.write_str(line.split_once(": ").map_or(line.as_str(), |(_, sentence)| sentence))
    }
}

/// One element of the path to what is refused, as the crate quick-junit names them.
#[derive(Clone, Copy, Debug, PartialEq, Eq, Hash)]
#[non_exhaustive]
pub enum PathElement {
    /// The root element.
    TestSuites,
    /// Its place in the report, and once it is named the number of the event that opens it.
    TestSuite {
        /// Its place in the report.
        index: u32,
        /// The event that opens it.
        event: Option<u32>,
    },
    /// Its place in the suite, and once it is named the number of the event that opens it.
    TestCase {
        /// Its place in the suite.
        index: u32,
        /// The event that opens it.
        event: Option<u32>,
    },
    /// A list of properties.
    Properties,
    /// Its place in the list.
    Property {
        /// Its place in the list.
        index: u32,
    },
    /// A `failure`.
    Failure,
    /// An `error`.
    Error,
    /// A `skipped`.
    Skipped,
    /// A `flakyFailure`.
    FlakyFailure,
    /// A `flakyError`.
    FlakyError,
    /// A `rerunFailure`.
    RerunFailure,
    /// A `rerunError`.
    RerunError,
    /// A `system-out`.
    SystemOut,
    /// A `system-err`.
    SystemErr,
    /// An attribute's name; `stackTrace` is the text of a stack trace.
    Attribute(&'static str),
}

const ATTRIBUTES: [&str; 17] = [
    "?",
    "name",
    "classname",
    "uuid",
    "timestamp",
    "time",
    "tests",
    "failures",
    "errors",
    "skipped",
    "disabled",
    "assertions",
    "message",
    "type",
    "value",
    "stackTrace",
    "hostname",
];

fn place(n: u32) -> Option<u32> {
    (n != NOWHERE).then_some(n)
}

impl PathElement {
    fn of(kind: u32, index: u32, event: u32) -> Option<Self> {
        use PathElement::*;
        let event = place(event);
        Some(match kind {
            1 => TestSuites,
            2 => TestSuite { index, event },
            3 => TestCase { index, event },
            4 => Properties,
            5 => Property { index },
            6 => Failure,
            7 => Error,
            8 => Skipped,
            9 => FlakyFailure,
            10 => FlakyError,
            11 => RerunFailure,
            12 => RerunError,
            14 => SystemOut,
            15 => SystemErr,
            16 => Attribute(ATTRIBUTES.get(index as usize).copied().unwrap_or("?")),
            _ => return None,
        })
    }
}

impl fmt::Display for PathElement {
    fn fmt(&self, f: &mut fmt::Formatter<'_>) -> fmt::Result {
        match self {
            PathElement::TestSuites => f.write_str("testsuites"),
            PathElement::TestSuite { index, .. } => write!(f, "testsuite[{index}]"),
            PathElement::TestCase { index, .. } => write!(f, "testcase[{index}]"),
            PathElement::Properties => f.write_str("properties"),
            PathElement::Property { index } => write!(f, "property[{index}]"),
            PathElement::Failure => f.write_str("failure"),
            PathElement::Error => f.write_str("error"),
            PathElement::Skipped => f.write_str("skipped"),
            PathElement::FlakyFailure => f.write_str("flakyFailure"),
            PathElement::FlakyError => f.write_str("flakyError"),
            PathElement::RerunFailure => f.write_str("rerunFailure"),
            PathElement::RerunError => f.write_str("rerunError"),
            PathElement::SystemOut => f.write_str("system-out"),
            PathElement::SystemErr => f.write_str("system-err"),
            PathElement::Attribute(name) => write!(f, "@{name}"),
        }
    }
}

/// Why and where a call refused.
///
/// It holds numbers only, and no text of the report; so does what it displays. [`explain`](crate::explain) gives the same line with the
/// names of suite and case, from the table.
///
/// ```
/// use kerzhoma::{explain, read, Areas, Cause, PathElement, TableBuilder};
///
/// let mut table = TableBuilder::new();
/// table.start("testsuites");
/// table.start("testsuite").attribute("name", "lab").attribute("time", "soon");
/// let table = table.finish();
/// let refusal = read(&table.as_table(), &mut Areas::new(16, 256, 256)).unwrap_err();
///
/// assert_eq!((refusal.number(), refusal.cause()), (5, Cause::BadTime));
/// assert_eq!((refusal.event(), refusal.attribute()), (Some(1), Some(1)));
/// assert!(refusal.path().eq([
///     PathElement::TestSuites,
///     PathElement::TestSuite { index: 0, event: None },
///     PathElement::Attribute("time"),
/// ]));
/// assert_eq!(
///     refusal.to_string(),
///     "refused 5 at testsuites/testsuite[0]/@time: \
///      a time must be digits with at most nine behind the point, under 8388608 seconds (event 1, attribute 1)"
/// );
/// assert_eq!(explain(&refusal, &table.as_table()), format!("{refusal}\n"));
/// ```
#[derive(Clone, Copy, PartialEq, Eq, Hash)]
pub struct Refusal {
    told: sys::Refusal,
    cause: Cause,
    // how long the area was that was too short, if one was
    lent: usize,
}

/// How long the areas of a call were: words of records, bytes of text, scratch and output.
#[derive(Clone, Copy, Default)]
pub(crate) struct Lent {
    pub records: usize,
    pub text: usize,
    pub scratch: usize,
    pub out: usize,
}

impl Lent {
    fn short(self, number: u32) -> usize {
        match number {
            12 => self.records,
            13 => self.text,
            14 => self.scratch,
            16 => self.out,
            _ => 0,
        }
    }
}

impl Refusal {
    /// None where the call accepts.
    pub(crate) fn of(told: sys::Refusal, lent: Lent) -> Option<Self> {
        if told.number == 0 {
            return None;
        }
        let row = (told.cause as usize).checked_sub(1).and_then(|i| CAUSES.get(i));
        Some(Refusal { told, cause: row.map_or(Cause::BadTable, |r| r.0), lent: lent.short(told.number) })
    }

    pub(crate) fn result(told: sys::Refusal, lent: Lent) -> Result<(), Self> {
        match Self::of(told, lent) {
            Some(refusal) => Err(refusal),
            None => Ok(()),
        }
    }

    /// A refusal that concerns no event: all from 15 on.
    pub(crate) fn late(cause: Cause) -> Self {
        let told = sys::Refusal {
            number: cause.number(),
            cause: cause as u32 + 1,
            depth: 0,
            path: [0; 18],
            event: NOWHERE,
            attribute: NOWHERE,
        };
        Refusal { told, cause, lent: 0 }
    }

    /// A refusal where the limits themselves are too small.
    pub(crate) fn above(cause: Cause) -> Self {
        Refusal { lent: limits::BYTES, ..Self::late(cause) }
    }

    pub(crate) fn told(&self) -> sys::Refusal {
        self.told
    }

    pub(crate) fn lent(&self) -> usize {
        self.lent
    }

    /// 1 to 17, 20 or 21, by docs/REFUSALS.md.
    pub fn number(&self) -> u32 {
        self.told.number
    }

    /// What happened.
    pub fn cause(&self) -> Cause {
        self.cause
    }

    /// From the root on, at most six elements; empty where the whole table or no table is concerned.
    pub fn path(&self) -> impl Iterator<Item = PathElement> + '_ {
        self.told.path.chunks_exact(3).take(self.told.depth as usize).filter_map(|e| PathElement::of(e[0], e[1], e[2]))
    }

    /// The number of the event being read, or the number of events at the table's end.
    pub fn event(&self) -> Option<u32> {
        place(self.told.event)
    }

    /// The number of the attribute, counted over the table.
    pub fn attribute(&self) -> Option<u32> {
        place(self.told.attribute)
    }
}

impl fmt::Debug for Refusal {
    fn fmt(&self, f: &mut fmt::Formatter<'_>) -> fmt::Result {
        f.debug_struct("Refusal")
            .field("number", &self.number())
            .field("cause", &self.cause)
            .field("path", &self.path().collect::<Vec<_>>())
            .field("event", &self.event())
            .field("attribute", &self.attribute())
            .finish()
    }
}

impl fmt::Display for Refusal {
    /// The line of [`explain`](crate::explain) for a table without events, which has no names, and without its newline.
    fn fmt(&self, f: &mut fmt::Formatter<'_>) -> fmt::Result {
        let mut out = [0; 1024];
        let explained = sys::explain(self.told, self.lent, &[], &[], &[], &mut out);
        let line = String::from_utf8_lossy(out.get(..explained.length).unwrap_or_default());
        f.write_str(line.trim_end())
    }
}

impl error::Error for Refusal {}
