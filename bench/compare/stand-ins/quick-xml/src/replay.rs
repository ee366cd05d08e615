//! What the stand-in's Reader replays: a table, and the areas that the crate doesn't have (refusals 12, 13 and 14; rules M1 to M7).
//!
//! deserialize.rs is not edited. Its shape is seen from outside:
//! - each call of `attributes()` belongs to one `testsuites`, suite, case, status element or property, so that is where a record is taken;
//!   12 is the iterator's first item, an AttrError, which gets the element's path;
//! - each loop of deserialize.rs has its own `buf`: a `read_event_into` with one of capacity 0 says that an element was entered, with the
//!   last event that was given as its Start; a call with an older one says that the inner elements were left;
//! - 13 and 14 of gathered texts are errors of `read_event_into`, whose path is that of a bad text there; 13 of an attribute, and 12 and 13
//!   of an extra, are errors of `unescape_with`.
use crate::rules::*;
use cover::{hit, hit_if, hit_of};
use std::cell::RefCell;

pub const NONE: u32 = 4294967295;
pub const MOST_RECORDS: usize = 65_536;
pub const MOST_BYTES: usize = 16_777_216;
pub const START: u32 = 0;
pub const EMPTY: u32 = 1;
pub const END: u32 = 2;
pub const TEXT: u32 = 3;
pub const CDATA: u32 = 4;
pub const REF: u32 = 5;
pub const OTHER: u32 = 6;
pub const EOF: u32 = 7;
pub const FAULT: u32 = 8;
pub const INDENT: u32 = 9;
/// No kind of a table: the table's end in the content of a `property`, which respelling leaves out.
pub const CUT: u32 = 100;

/// Events and attributes of five words each, and the source.
#[derive(Clone, Debug, Default, PartialEq, Eq)]
pub struct Table {
    pub events: Vec<[u32; 5]>,
    pub attributes: Vec<[u32; 5]>,
    pub source: Vec<u8>,
}

impl Table {
    pub fn part(&self, start: u32, length: u32) -> &[u8] {
        &self.source[start as usize..start as usize + length as usize]
    }
}

#[derive(Clone, Copy, Debug, PartialEq, Eq)]
pub enum Record {
    Report,
    Suite,
    Case,
    Status,
    Property,
    Extra,
}

#[derive(Clone, Copy, Debug, PartialEq, Eq)]
pub enum Place {
    Report,
    Suite,
    Case,
    Status,
    Properties,
    Text,
}

/// An element that is being read.
pub struct Level {
    buffer: usize,
    pub place: Place,
    name: &'static [u8],
    /// The event of its Start.
    pub start: u32,
    gathered: String,
    has_list: bool,
    outputs: u8,
}

#[derive(Clone, Copy, Debug)]
pub struct Areas {
    pub records: usize,
    pub text: usize,
    pub scratch: usize,
}

impl Areas {
    pub fn limits() -> Self {
        Areas { records: MOST_RECORDS, text: MOST_BYTES, scratch: MOST_BYTES }
    }
}

/// What a request changed in reading that shows in the areas and in the records.
#[derive(Clone, Copy, Debug, Default)]
pub struct Changes {
    /// Request 8: a gathered text counts alone in scratch, and not with the description that is open.
    pub scratch_alone: bool,
    /// Request 12: a suite's `hostname` is a field, and no extra.
    pub hostname: bool,
}

struct Attribute {
    extra: bool,
    /// A suite's `hostname` where it is a field: the crate decodes its key, too, which is stored nowhere.
    hostname: bool,
    key: Option<String>,
}

pub struct State {
    pub table: &'static Table,
    pub areas: Areas,
    changes: Changes,
    next: usize,
    pub event: u32,
    pub attribute: u32,
    /// Whether what is decoded is an extra's key or value.
    pub in_extra: bool,
    pub in_hostname: bool,
    pub levels: Vec<Level>,
    pub records: Vec<Record>,
    pub text: Vec<u8>,
    pub scratch_most: usize,
    last_name: &'static [u8],
    current: Option<Attribute>,
    extras: Vec<String>,
    reports: u32,
    suites: u32,
}

thread_local! {
    static STATE: RefCell<Option<State>> = const { RefCell::new(None) };
}

/// Runs `f` with the table to be replayed; behind it the state is gone, so that nothing keeps the table.
pub fn replaying<T>(table: &Table, areas: Areas, changes: Changes, f: impl FnOnce() -> T) -> (T, State) {
    // the state doesn't outlive this call but for the numbers in it; its `table` is not used behind it
    let table: &'static Table = unsafe { &*(table as *const Table) };
    let state = State {
        table,
        areas: Areas {
            records: areas.records.min(MOST_RECORDS),
            text: areas.text.min(MOST_BYTES),
            scratch: areas.scratch.min(MOST_BYTES),
        },
        changes,
        next: 0,
        event: 0,
        attribute: NONE,
        in_extra: false,
        in_hostname: false,
        levels: Vec::new(),
        records: Vec::new(),
        text: Vec::new(),
        scratch_most: 0,
        last_name: b"",
        current: None,
        extras: Vec::new(),
        reports: 0,
        suites: 0,
    };
    STATE.with(|s| *s.borrow_mut() = Some(state));
    let answer = f();
    (answer, STATE.with(|s| s.borrow_mut().take().unwrap()))
}

pub(crate) fn with<T>(f: impl FnOnce(&mut State) -> T) -> T {
    STATE.with(|s| f(s.borrow_mut().as_mut().expect("no table is replayed")))
}

pub(crate) struct Raw {
    pub kind: u32,
    pub bytes: &'static [u8],
    pub first: u32,
    pub count: u32,
}

pub const TAGS: [&[u8]; 15] = [
    b"testsuites",
    b"testsuite",
    b"testcase",
    b"properties",
    b"property",
    b"failure",
    b"error",
    b"skipped",
    b"flakyFailure",
    b"flakyError",
    b"rerunFailure",
    b"rerunError",
    b"stackTrace",
    b"system-out",
    b"system-err",
];

impl State {
    /// The next event; the table's end counts as Eof.
    pub(crate) fn advance(&mut self) -> Raw {
        self.current = None;
        self.attribute = NONE;
        self.event = self.next as u32;
        let Some(&[kind, start, length, first, count]) = self.table.events.get(self.next) else {
            hit!("T5", "the table's end is read as Eof");
            return Raw { kind: EOF, bytes: b"", first: 0, count: 0 };
        };
        if kind == CUT {
            return Raw { kind, bytes: b"", first: 0, count: 0 };
        }
        hit_of!(kind as usize, "T3", "Start", "Empty", "End", "Text", "CData", "Ref", "Other", "Eof", "Fault", "Indent");
        if kind != EOF {
            self.next += 1;
        }
        let bytes = self.table.part(start, length);
        if kind <= END {
            match TAGS.iter().position(|t| *t == bytes) {
                Some(_) => hit!("R2", "a known name"),
                None if TAGS.iter().any(|t| t.eq_ignore_ascii_case(bytes)) => hit!("R2", "a known name in other letter case"),
                None => hit!("R2", "an unknown name"),
            }
        }
        if kind == INDENT {
            hit_if!(length == 0, "T4", "an Indent without bytes", "an Indent that names bytes");
            return Raw { kind: TEXT, bytes: b"\n", first, count };
        }
        Raw { kind, bytes, first, count }
    }

    /// Which loop of deserialize.rs reads.
    pub(crate) fn locate(&mut self, buffer: &mut Vec<u8>) {
        let address = buffer as *const Vec<u8> as usize;
        if buffer.capacity() > 0 {
            while self.levels.last().expect("a buffer that isn't known").buffer != address {
                self.levels.pop();
            }
            return;
        }
        buffer.reserve(16);
        let name = self.last_name;
        let place = match name {
            _ if self.levels.is_empty() => Place::Report,
            b"testsuite" => Place::Suite,
            b"testcase" => Place::Case,
            b"properties" => Place::Properties,
            b"system-out" | b"system-err" | b"stackTrace" => Place::Text,
            n if is_status_name(n) => Place::Status,
            n => panic!("a loop under {:?}", String::from_utf8_lossy(n)),
        };
        let level = Level { buffer: address, place, name, start: self.event, gathered: String::new(), has_list: false, outputs: 0 };
        self.levels.push(level);
    }

    fn scratch_used(&self) -> usize {
        match self.changes.scratch_alone {
            true => self.levels.last().map_or(0, |l| l.gathered.len()),
            false => self.levels.iter().map(|l| l.gathered.len()).sum(),
        }
    }

    fn store(&mut self, text: &str) -> bool {
        let fits = self.text.len() + text.len() <= self.areas.text;
        hit_if!(fits, "M4", "a text fits", "a text doesn't fit");
        if fits {
            self.text.extend_from_slice(text.as_bytes());
        }
        fits
    }

    /// The event in the level that reads it: what is gathered in scratch, and what is stored at an End. An error is 13 or 14; what the crate
    /// refuses itself (2, 10, 21) is left to it.
    pub(crate) fn meet(&mut self, raw: &Raw) -> Result<(), u32> {
        let (place, name) = self.levels.last().map(|l| (l.place, l.name)).unwrap();
        self.count_event(place, name, raw);
        if raw.kind <= EMPTY {
            self.last_name = raw.bytes;
        }
        if !matches!(place, Place::Text | Place::Status) {
            return Ok(());
        }
        let utf8 = std::str::from_utf8(raw.bytes).ok();
        let piece = match raw.kind {
            TEXT => utf8.and_then(decoded),
            CDATA => utf8.map(str::to_string),
            REF => utf8.and_then(predefined).map(str::to_string),
            _ => None,
        };
        if let Some(piece) = piece {
            let fits = self.scratch_used() + piece.len() <= self.areas.scratch;
            hit_if!(fits, "M6", "a piece fits", "a piece doesn't fit");
            if !fits {
                return Err(14);
            }
            if self.levels.len() > 1
                && place == Place::Text
                && self.levels.iter().any(|l| l.place == Place::Status && !l.gathered.is_empty())
            {
                hit!("M6", "a child's text behind an open description");
            }
            self.levels.last_mut().unwrap().gathered.push_str(&piece);
            self.scratch_most = self.scratch_most.max(self.scratch_used());
        }
        let ends = raw.kind == END && if place == Place::Text { raw.bytes == name } else { is_status_name(raw.bytes) };
        if ends {
            self.close(place)
        } else {
            Ok(())
        }
    }

    fn close(&mut self, place: Place) -> Result<(), u32> {
        let gathered = std::mem::take(&mut self.levels.last_mut().unwrap().gathered);
        let trimmed = gathered.trim();
        hit_if!(trimmed.len() < gathered.len(), "X10", "trimmed", "nothing to trim");
        let kept = filtered(trimmed);
        if kept.trim().len() < kept.len() {
            hit!("X10", "white space behind a filtered character stays");
        }
        if kept.len() < trimmed.len() {
            hit!("X8", "filtered in a gathered text");
        }
        if place == Place::Status {
            match (trimmed.is_empty(), kept.is_empty()) {
                (true, _) => hit!("X11", "missing"),
                (_, true) => hit!("X11", "emptied by the filter alone"),
                _ => hit!("X11", "there"),
            }
            if trimmed.is_empty() {
                hit!("M5", "a missing description stores nothing");
                return Ok(());
            }
        } else {
            hit_if!(kept.is_empty(), "X12", "empty", "with text");
        }
        if self.store(&kept) {
            Ok(())
        } else {
            Err(13)
        }
    }

    pub(crate) fn take_record(&mut self, record: Record) -> bool {
        let fits = self.records.len() < self.areas.records;
        hit_if!(fits, "M2", "a record is left", "none is left");
        if fits {
            self.records.push(record);
        }
        fits
    }

    /// The attributes of an element are about to be read.
    pub(crate) fn begin_attributes(&mut self, name: &[u8]) -> bool {
        hit!("A1", "attributes that are read");
        self.extras.clear();
        self.current = None;
        self.attribute = NONE;
        self.take_record(match name {
            b"testsuites" => Record::Report,
            b"testsuite" => Record::Suite,
            b"testcase" => Record::Case,
            b"property" => Record::Property,
            _ => Record::Status,
        })
    }

    pub(crate) fn set_attribute(&mut self, index: u32, extra: bool, hostname: bool) {
        self.attribute = index;
        let hostname = hostname && self.changes.hostname;
        self.in_extra = extra && !hostname;
        self.in_hostname = hostname;
        self.current = Some(Attribute { extra: extra && !hostname, hostname, key: None });
    }

    pub(crate) fn no_attribute(&mut self) {
        self.current = None;
        self.attribute = NONE;
        self.in_extra = false;
        self.in_hostname = false;
    }

    /// A text that the crate had decoded. In an attribute it is stored; an error is 12 or 13.
    pub(crate) fn decoded(&mut self, text: &str) -> Result<(), u32> {
        let Some(current) = &mut self.current else { return Ok(()) };
        let (extra, hostname, key) = (current.extra, current.hostname, current.key.take());
        let clean = filtered(text);
        if clean.len() < text.len() {
            hit!("X8", "filtered in an attribute");
        }
        if (extra || hostname) && key.is_none() {
            current.key = Some(clean);
            return Ok(());
        }
        if let (true, Some(key)) = (extra, key) {
            if self.extras.contains(&key) {
                hit!("A8", "a key that is there");
                hit!("M5", "an extra that is replaced stores its value alone");
            } else {
                hit!("A8", "a new key");
                if !self.take_record(Record::Extra) {
                    hit!("A9", "no record for the extra");
                    return Err(12);
                }
                if !self.store(&key) {
                    hit!("A9", "no room for the key");
                    return Err(13);
                }
                self.extras.push(key);
            }
            let fits = self.store(&clean);
            hit_if!(fits, "A9", "good", "no room for the value");
            return if fits { Ok(()) } else { Err(13) };
        }
        if self.store(&clean) {
            Ok(())
        } else {
            Err(13)
        }
    }

    // ---- counters

    fn count_event(&mut self, place: Place, name: &[u8], raw: &Raw) {
        match place {
            Place::Report => self.count_at_top(raw),
            Place::Suite | Place::Case => self.count_child(place, raw),
            Place::Status => count_in_status(name, raw, self.levels.last_mut().unwrap()),
            Place::Properties => count_in_list(raw),
            Place::Text => count_in_text(name, raw),
        }
        if matches!(raw.kind, TEXT | CDATA | REF | OTHER) {
            hit_if!(matches!(place, Place::Text | Place::Status), "R20", "a piece in a gathered text", "a piece elsewhere");
        }
        match raw.kind {
            EOF => hit_of!(
                place as usize,
                "R18",
                "at report level",
                "in a suite",
                "in a case",
                "in a status element",
                "in a property list",
                "in a gathered text"
            ),
            FAULT => hit_of!(
                place as usize,
                "R19",
                "a Fault at report level",
                "a Fault in a suite",
                "a Fault in a case",
                "a Fault in a status element",
                "a Fault in a property list",
                "a Fault in a gathered text"
            ),
            CUT => hit!("R19", "the table's end in the content of a property"),
            _ => {}
        }
    }

    fn count_at_top(&mut self, raw: &Raw) {
        match (raw.kind, raw.bytes) {
            (START, b"testsuites") => {
                hit_if!(self.reports == 0, "R3", "a first Start", "a further Start");
                if self.suites > 0 {
                    hit!("M3", "a report is replaced with its suites");
                }
                self.reports += 1;
                self.suites = 0;
            }
            (EMPTY, b"testsuites") => {
                hit_if!(self.reports == 0, "R4", "a first Empty", "a further Empty");
                self.reports += 1;
            }
            (START | EMPTY, b"testsuite") if self.reports == 0 => hit!("R5", "no report yet"),
            (START, b"testsuite") => {
                self.suites += 1;
                hit!("R5", "a Start")
            }
            (EMPTY, b"testsuite") => {
                self.suites += 1;
                hit!("R5", "an Empty")
            }
            (END, b"testsuites") => {
                hit_if!(self.next < self.table.events.len(), "R6", "with events behind it", "as the last event");
                if self.reports == 0 {
                    hit!("R9", "at an End");
                }
            }
            (START, _) => hit!("R7", "a Start"),
            (EMPTY, _) => hit!("R7", "an Empty"),
            (END, _) => hit!("R7", "an End"),
            (EOF, _) if self.reports == 0 => hit!("R9", "at the table's end"),
            _ => {}
        }
    }

    fn count_child(&mut self, place: Place, raw: &Raw) {
        let suite = place == Place::Suite;
        let level = self.levels.last_mut().unwrap();
        match (raw.kind, raw.bytes) {
            (START, b"testcase") if suite => hit!("R10", "a case, Start"),
            (EMPTY, b"testcase") if suite => hit!("R10", "a case, Empty"),
            (START, n) if !suite && is_status_name(n) => hit!("R10", "a status element, Start"),
            (EMPTY, n) if !suite && is_status_name(n) => hit!("R10", "a status element, Empty"),
            (START, b"properties") => {
                hit_if!(suite, "R10", "a suite's properties", "a case's properties");
                if level.has_list {
                    hit_if!(suite, "R17", "a suite's further list", "a case's further list");
                }
                level.has_list = true;
            }
            (START, n @ (b"system-out" | b"system-err")) => {
                let bit = if n == b"system-out" { 1 } else { 2 };
                hit_of!(
                    (bit - 1) as usize + 2 * !suite as usize,
                    "R10",
                    "a suite's system-out",
                    "a suite's system-err",
                    "a case's system-out",
                    "a case's system-err"
                );
                if level.outputs & bit != 0 {
                    hit_if!(suite, "R17", "a suite's further output", "a case's further output");
                }
                level.outputs |= bit;
            }
            (START, _) => hit_if!(suite, "R11", "in a suite", "in a case"),
            (END, b"testsuite") if suite => hit!("R12", "the suite's End"),
            (END, b"testcase") if !suite => hit!("R12", "the case's End"),
            (END, _) => hit_if!(suite, "R12", "another End in a suite", "another End in a case"),
            _ => {}
        }
    }

    pub(crate) fn count_skip(&self, deep: bool, same: bool, raw: &Raw) {
        if raw.count > 0 {
            hit!("A1", "attributes in a skip");
        }
        match (raw.kind, same) {
            (START, true) => hit!("R11", "a Start of the same name inside"),
            (EMPTY, true) => hit!("R11", "an Empty of the same name inside"),
            (START | EMPTY | END, false) => hit!("R11", "another name inside"),
            (END, true) => hit_if!(deep, "R11", "an End that is taken inside", "its End"),
            (EOF, _) => hit!("R19", "the table's end in a skip"),
            (FAULT, _) => hit!("R19", "a Fault in a skip"),
            _ => {}
        }
    }
}

fn count_in_status(name: &[u8], raw: &Raw, level: &mut Level) {
    match (raw.kind, raw.bytes) {
        (START | EMPTY, n @ (b"stackTrace" | b"system-out" | b"system-err")) => {
            let index = [&b"stackTrace"[..], b"system-out", b"system-err"].iter().position(|t| *t == n).unwrap();
            hit_of!(index, "S3", "a stack trace", "a system-out", "a system-err");
            if level.outputs & (1 << index) != 0 {
                hit_of!(index, "R17", "a further stack trace", "a run's further system-out", "a run's further system-err");
            }
            level.outputs |= 1 << index;
            match status_index(name) {
                Some(0..=2) => hit_of!(index, "S12", "a main's stack trace", "a main's system-out", "a main's system-err"),
                _ => hit_of!(index, "S12", "a run's stack trace", "a run's system-out", "a run's system-err"),
            }
        }
        (START, n) => hit_if!(is_status_name(n), "S4", "a Start with a status name", "a Start"),
        (END, n) if n == name => hit!("S2", "its own End"),
        (END, n) => hit_if!(is_status_name(n), "S2", "the End of another status name", "another End"),
        (TEXT, _) => hit!("X9", "a Text in a description"),
        (CDATA, _) => hit!("X9", "a CData in a description"),
        (REF, _) => hit!("X9", "a Ref in a description"),
        (OTHER, _) => hit!("X9", "an Other in a description"),
        _ => {}
    }
}

fn count_in_list(raw: &Raw) {
    match (raw.kind, raw.bytes) {
        (EMPTY, b"property") => hit!("R16", "a property"),
        (EMPTY, b"properties") => hit!("R15", "an Empty of the same name"),
        (END, b"properties") => hit!("R15", "its End"),
        (START, b"properties") => hit!("R15", "a Start of the same name"),
        (START | EMPTY, _) => hit!("R15", "another tag"),
        (END, _) => hit!("R15", "another End"),
        _ => {}
    }
}

fn count_in_text(name: &[u8], raw: &Raw) {
    if raw.count > 0 {
        hit!("A1", "attributes in a gathered text");
    }
    match raw.kind {
        START if raw.bytes == name => hit!("R14", "a Start of the same name"),
        EMPTY if raw.bytes == name => hit!("R14", "an Empty of the same name"),
        START | EMPTY => hit!("R14", "another tag"),
        END if raw.bytes == name => hit!("R14", "its End"),
        END => hit!("R14", "another End"),
        TEXT => hit!("X9", "a Text"),
        CDATA => hit!("X9", "a CData"),
        REF => hit!("X9", "a Ref"),
        OTHER => hit!("X9", "an Other"),
        _ => {}
    }
}
