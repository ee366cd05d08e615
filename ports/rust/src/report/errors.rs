//! Why a report isn't read or written.
#![forbid(unsafe_code)]

use super::uuid;
use crate::{Refusal, XmlRefusal};
use std::{error, fmt, io, num, ops::Range, str, time::Duration};

/// One element of the path to what was wrong.
#[derive(Clone, Debug, PartialEq, Eq)]
pub enum PathElement {
    /// The root element `testsuites`.
    TestSuites,
    /// A `testsuite`: its place in the report, and its name once that is read.
    TestSuite(usize, Option<String>),
    /// A `testcase`: its place in the suite, and its name once that is read.
    TestCase(usize, Option<String>),
    /// A list of properties.
    Properties,
    /// A `property`: its place in the list.
    Property(usize),
    /// A `failure`.
    Failure,
    /// An `error`.
    Error,
    /// A `skipped`.
    Skipped,
    /// A `flakyFailure`.
    FlakyFailure,
    /// A `flakyError`.
    FlakyError,
    /// A `rerunFailure`.
    RerunFailure,
    /// A `rerunError`.
    RerunError,
    /// A `system-out`.
    SystemOut,
    /// A `system-err`.
    SystemErr,
    /// An attribute, by its name.
    Attribute(String),
}

impl fmt::Display for PathElement {
    fn fmt(&self, f: &mut fmt::Formatter<'_>) -> fmt::Result {
        match self {
            PathElement::TestSuites => f.write_str("testsuites"),
            PathElement::TestSuite(i, Some(name)) => write!(f, "testsuite[{i}](\"{name}\")"),
            PathElement::TestSuite(i, None) => write!(f, "testsuite[{i}]"),
            PathElement::TestCase(i, Some(name)) => write!(f, "testcase[{i}](\"{name}\")"),
            PathElement::TestCase(i, None) => write!(f, "testcase[{i}]"),
            PathElement::Properties => f.write_str("properties"),
            PathElement::Property(i) => write!(f, "property[{i}]"),
            PathElement::Failure => f.write_str("failure"),
            PathElement::Error => f.write_str("error"),
            PathElement::Skipped => f.write_str("skipped"),
            PathElement::FlakyFailure => f.write_str("flakyFailure"),
            PathElement::FlakyError => f.write_str("flakyError"),
            PathElement::RerunFailure => f.write_str("rerunFailure"),
            PathElement::RerunError => f.write_str("rerunError"),
            PathElement::SystemOut => f.write_str("system-out"),
            PathElement::SystemErr => f.write_str("system-err"),
            PathElement::Attribute(name) => write!(f, "@{name}"),
        }
    }
}

/// Why a document isn't well-formed XML, or has a document type declaration: refusals 18 and 19 of docs/REFUSALS.md.
#[derive(Clone, Debug, PartialEq, Eq)]
pub struct XmlError {
    pub(super) refusal: XmlRefusal,
    pub(super) place: (usize, usize),
    pub(super) words: String,
}

impl XmlError {
    /// 18 or 19.
    pub fn number(&self) -> u32 {
        self.refusal.number()
    }

    /// The first byte that no document has there, or the document's length where it only ends too early.
    pub fn byte(&self) -> Option<u32> {
        self.refusal.byte()
    }

    /// The line of that byte, from 1.
    pub fn line(&self) -> usize {
        self.place.0
    }

    /// Its column, in characters from 1.
    pub fn column(&self) -> usize {
        self.place.1
    }
}

impl fmt::Display for XmlError {
    fn fmt(&self, f: &mut fmt::Formatter<'_>) -> fmt::Result {
        f.write_str(&self.words)
    }
}

impl error::Error for XmlError {}

/// What is above the limits: a document's length, events or attributes; a report's records, texts or one text.
#[derive(Clone, Copy, Debug, PartialEq, Eq)]
pub enum LimitError {
    /// The document: 11 or 16.
    Document(XmlRefusal),
    /// The report: 12, 13 or 14.
    Report(Refusal),
}

impl fmt::Display for LimitError {
    fn fmt(&self, f: &mut fmt::Formatter<'_>) -> fmt::Result {
        match self {
            LimitError::Document(refusal) if refusal.number() == 11 => f.write_str("the document is longer than 16777216 bytes"),
            LimitError::Document(_) => f.write_str("the document has more than 65536 events or attributes"),
            LimitError::Report(refusal) => refusal.fmt(f),
        }
    }
}

impl error::Error for LimitError {}

/// What is wrong with the attributes of an element. The numbers are places in the tag, from its name on.
#[derive(Clone, Debug, PartialEq, Eq)]
#[non_exhaustive]
pub enum AttrError {
    /// A key stands twice: there, and before that here.
    Duplicated(usize, usize),
}

impl fmt::Display for AttrError {
    fn fmt(&self, f: &mut fmt::Formatter<'_>) -> fmt::Result {
        let AttrError::Duplicated(at, before) = self;
        write!(f, "position {at}: duplicated attribute, previous declaration at position {before}")
    }
}

impl error::Error for AttrError {}

/// What is wrong with a reference. The ranges are places in the value.
#[derive(Clone, Debug, PartialEq, Eq)]
#[non_exhaustive]
pub enum EscapeError {
    /// A name that is none of the five.
    UnrecognizedEntity(Range<usize>, String),
    /// An `&` without a `;`.
    UnterminatedEntity(Range<usize>),
    /// A number that names no character of XML.
    InvalidCharRef(String),
}

impl fmt::Display for EscapeError {
    fn fmt(&self, f: &mut fmt::Formatter<'_>) -> fmt::Result {
        match self {
            EscapeError::UnrecognizedEntity(at, name) => write!(f, "at {at:?}: unrecognized entity `{name}`"),
            EscapeError::UnterminatedEntity(at) => write!(f, "at {at:?}: no `;` behind `&`"),
            EscapeError::InvalidCharRef(name) => write!(f, "`{name}` names no character of XML"),
        }
    }
}

impl error::Error for EscapeError {}

/// What went wrong in reading a report.
#[derive(Debug)]
#[non_exhaustive]
pub enum DeserializeErrorKind {
    /// The document isn't well-formed XML.
    XmlError(XmlError),
    /// A text isn't UTF-8.
    Utf8Error(str::Utf8Error),
    /// A count isn't one.
    ParseIntError(num::ParseIntError),
    /// A float isn't one; a time that isn't one is a [`ParseDurationError`](DeserializeErrorKind::ParseDurationError).
    ParseFloatError(num::ParseFloatError),
    /// A timestamp isn't one: its text.
    ParseTimestampError(String),
    /// A time isn't one: its text.
    ParseDurationError(String),
    /// A UUID isn't one.
    ParseUuidError(uuid::Error),
    /// An attribute is missing: its name.
    MissingAttribute(String),
    /// An element stands where it can't.
    UnexpectedElement(String),
    /// The elements don't go together.
    InvalidStructure(String),
    /// The reader failed.
    IoError(io::Error),
    /// An attribute is wrong.
    AttrError(AttrError),
    /// A reference in a value is wrong.
    EscapeError(EscapeError),
    /// The document or the report is above the limits; quick-junit has none.
    LimitError(LimitError),
}

impl fmt::Display for DeserializeErrorKind {
    fn fmt(&self, f: &mut fmt::Formatter<'_>) -> fmt::Result {
        use DeserializeErrorKind::*;
        match self {
            XmlError(_) => f.write_str("error parsing XML"),
            Utf8Error(_) => f.write_str("invalid UTF-8"),
            ParseIntError(e) => write!(f, "invalid integer: {e}"),
            ParseFloatError(e) => write!(f, "invalid float: {e}"),
            ParseTimestampError(value) => write!(f, "invalid timestamp: {value}"),
            ParseDurationError(value) => write!(f, "invalid duration: {value}"),
            ParseUuidError(e) => write!(f, "invalid UUID: {e}"),
            MissingAttribute(name) => write!(f, "missing required attribute: {name}"),
            UnexpectedElement(name) => write!(f, "unexpected element: {name}"),
            InvalidStructure(what) => write!(f, "invalid structure: {what}"),
            IoError(_) => f.write_str("I/O error"),
            AttrError(e) => write!(f, "attribute error: {e}"),
            EscapeError(e) => write!(f, "XML unescape error: {e}"),
            LimitError(e) => write!(f, "above the limits: {e}"),
        }
    }
}

impl error::Error for DeserializeErrorKind {
    fn source(&self) -> Option<&(dyn error::Error + 'static)> {
        use DeserializeErrorKind::*;
        match self {
            XmlError(e) => Some(e),
            Utf8Error(e) => Some(e),
            ParseIntError(e) => Some(e),
            ParseFloatError(e) => Some(e),
            ParseUuidError(e) => Some(e),
            IoError(e) => Some(e),
            AttrError(e) => Some(e),
            EscapeError(e) => Some(e),
            LimitError(e) => Some(e),
            ParseTimestampError(_) | ParseDurationError(_) | MissingAttribute(_) | UnexpectedElement(_) | InvalidStructure(_) => {
                None
            }
        }
    }
}

macro_rules! kinds_from {
    ($($variant:ident($kind:ty)),*) => { $(
        impl From<$kind> for DeserializeErrorKind {
            fn from(e: $kind) -> Self {
                DeserializeErrorKind::$variant(e)
            }
        }
    )* };
}

kinds_from!(
    XmlError(XmlError),
    Utf8Error(str::Utf8Error),
    ParseIntError(num::ParseIntError),
    ParseFloatError(num::ParseFloatError),
    ParseUuidError(uuid::Error),
    IoError(io::Error),
    AttrError(AttrError),
    EscapeError(EscapeError),
    LimitError(LimitError)
);

/// Why a report isn't read, and where.
#[derive(Debug)]
pub struct DeserializeError {
    told: Box<(DeserializeErrorKind, Vec<PathElement>)>,
}

impl DeserializeError {
    /// An error of this kind at this path.
    pub fn new(kind: DeserializeErrorKind, path: Vec<PathElement>) -> Self {
        DeserializeError { told: Box::new((kind, path)) }
    }

    /// What went wrong.
    pub fn kind(&self) -> &DeserializeErrorKind {
        &self.told.0
    }

    /// The path to the place; empty where no element is concerned, or the document isn't well formed.
    pub fn path(&self) -> &[PathElement] {
        &self.told.1
    }
}

fn put_path(f: &mut fmt::Formatter<'_>, path: &[PathElement]) -> fmt::Result {
    for (i, element) in path.iter().enumerate() {
        write!(f, "{}{element}", if i > 0 { "/" } else { "" })?;
    }
    Ok(())
}

impl fmt::Display for DeserializeError {
    /// The path with the names of suite and case, and the kind.
    fn fmt(&self, f: &mut fmt::Formatter<'_>) -> fmt::Result {
        if !self.path().is_empty() {
            f.write_str("at ")?;
            put_path(f, self.path())?;
            f.write_str(": ")?;
        }
        self.kind().fmt(f)
    }
}

impl error::Error for DeserializeError {
    fn source(&self) -> Option<&(dyn error::Error + 'static)> {
        self.kind().source()
    }
}

/// What went wrong in writing a report.
#[derive(Debug)]
#[non_exhaustive]
pub enum SerializeErrorKind {
    /// The writer failed.
    Io(io::Error),
    /// The report or its document is above the limits.
    Refused(Refusal),
    /// A time of 8388608 seconds or more.
    TimeTooLong(Duration),
}

impl fmt::Display for SerializeErrorKind {
    fn fmt(&self, f: &mut fmt::Formatter<'_>) -> fmt::Result {
        match self {
            SerializeErrorKind::Io(_) => f.write_str("I/O error"),
            SerializeErrorKind::Refused(refusal) => refusal.fmt(f),
            SerializeErrorKind::TimeTooLong(time) => write!(f, "a time must be under 8388608 seconds, and is {}", time.as_secs()),
        }
    }
}

impl error::Error for SerializeErrorKind {
    fn source(&self) -> Option<&(dyn error::Error + 'static)> {
        match self {
            SerializeErrorKind::Io(e) => Some(e),
            SerializeErrorKind::Refused(e) => Some(e),
            SerializeErrorKind::TimeTooLong(_) => None,
        }
    }
}

/// Why a report isn't written, and where.
#[derive(Debug)]
pub struct SerializeError {
    told: Box<(SerializeErrorKind, Vec<PathElement>)>,
}

impl SerializeError {
    pub(super) fn new(kind: SerializeErrorKind, path: Vec<PathElement>) -> Self {
        SerializeError { told: Box::new((kind, path)) }
    }

    /// What went wrong.
    pub fn kind(&self) -> &SerializeErrorKind {
        &self.told.0
    }

    /// The path to the place; empty where no element is concerned.
    pub fn path(&self) -> &[PathElement] {
        &self.told.1
    }
}

impl From<io::Error> for SerializeError {
    fn from(e: io::Error) -> Self {
        SerializeError::new(SerializeErrorKind::Io(e), vec![])
    }
}

impl From<Refusal> for SerializeError {
    fn from(refusal: Refusal) -> Self {
        SerializeError::new(SerializeErrorKind::Refused(refusal), vec![])
    }
}

impl fmt::Display for SerializeError {
    /// As quick-junit has it: the rest is told by kind, path and source.
    fn fmt(&self, f: &mut fmt::Formatter<'_>) -> fmt::Result {
        f.write_str("error serializing JUnit report")
    }
}

impl error::Error for SerializeError {
    fn source(&self) -> Option<&(dyn error::Error + 'static)> {
        Some(self.kind())
    }
}
