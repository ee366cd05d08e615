//! What is to come out of reading: by the crate's own `Report::deserialize` on the replayed table, and by the rules for what it doesn't have.
use crate::{
    respelling::respelled,
    sys,
    table::{Input, NONE},
};
use cover::{hit, hit_if, hit_of};
use quick_junit::{DeserializeError, DeserializeErrorKind as Kind, PathElement, Report};
use quick_xml::{
    escape::EscapeError,
    events::attributes::AttrError,
    replay::{replaying, Areas, Changes, Place, Record, State, Table},
    Error,
};

/// The names of attributes in paths, by docs/REFUSALS.md: the first is number 1. `hostname` is request 12's.
const NAMES: [&str; 16] = [
    "name",
    "classname",
    "uuid",
    "timestamp",
    "time",
    "tests",
    "failures",
    "errors",
    "skipped",
    "disabled",
    "assertions",
    "message",
    "type",
    "value",
    "stackTrace",
    "hostname",
];

#[derive(Clone, Debug, PartialEq, Eq)]
pub struct Refused {
    pub number: u32,
    pub cause: u32,
    pub path: Vec<[u32; 3]>,
    pub event: u32,
    pub attribute: u32,
}

impl Refused {
    /// One that has no place: 15, 16, 17, 23, 24.
    pub fn late(number: u32, cause: u32) -> Self {
        Refused { number, cause, path: vec![], event: NONE, attribute: NONE }
    }

    pub fn is(&self, given: &sys::Refusal) -> bool {
        let mut path = [0; 18];
        path[..3 * self.path.len()].copy_from_slice(self.path.as_flattened());
        let place = (self.event, self.attribute) == (given.event, given.attribute);
        (self.number, self.cause) == (given.number, given.cause)
            && self.path.len() == given.depth as usize
            && path == given.path
            && place
    }

    pub fn shown(&self) -> String {
        let name = |n: u32| if n == NONE { "-".to_string() } else { n.to_string() };
        let path: Vec<String> = self.path.iter().map(|[k, i, e]| format!("({k} {} {})", name(*i), name(*e))).collect();
        let path = path.join(" ");
        format!(
            "refused {}, cause {}, path {path}, event {}, attribute {}",
            self.number,
            self.cause,
            name(self.event),
            name(self.attribute)
        )
    }

    pub fn given(r: &sys::Refusal) -> Self {
        let path = r.path.chunks(3).take(r.depth as usize).map(|c| [c[0], c[1], c[2]]).collect();
        Refused { number: r.number, cause: r.cause, path, event: r.event, attribute: r.attribute }
    }
}

/// What reading leaves where it accepts.
pub struct Read {
    pub report: Report,
    pub records: Vec<Record>,
    pub text: Vec<u8>,
}

pub struct Outcome {
    pub result: Result<Read, Refused>,
    /// What was taken of each area, as far as reading came.
    pub used: Areas,
}

pub fn read(input: &Input, areas: Areas, changes: Changes) -> Outcome {
    hit!("T1", "a table");
    if let Err((event, attribute)) = input.check() {
        hit!("F1", "BadTable");
        if event == NONE {
            hit!("F10", "no event");
        }
        let result = Err(Refused { number: 11, cause: 16, path: vec![], event, attribute });
        return Outcome { result, used: Areas { records: 0, text: 0, scratch: 0 } };
    }
    let spelled = respelled(&input.table);
    let table = spelled.as_ref().map_or(&input.table, |s| &s.table);
    let old = |event: u32| spelled.as_ref().map_or(event, |s| s.old[event as usize]);
    let (result, state) = replaying(table, areas, changes, || Report::deserialize(&b""[..]));
    let used = Areas { records: state.records.len(), text: state.text.len(), scratch: state.scratch_most };
    let result = match result {
        Ok(report) => {
            hit!("R1", "accepted");
            Ok(Read { report, records: state.records, text: state.text })
        }
        Err(e) => {
            hit!("R1", "refused");
            Err(refused(&e, &state, table, old))
        }
    };
    Outcome { result, used }
}

/// The report of a sound table as the crate reads it, without respelling, for measurements: in areas of the limits' size.
pub fn read_whole(input: &Input) -> Option<Report> {
    replaying(&input.table, Areas::limits(), crate::changes(), || Report::deserialize(&b""[..])).0.ok()
}

fn refused(e: &DeserializeError, state: &State, table: &Table, old: impl Fn(u32) -> u32) -> Refused {
    let (number, cause) = number_of(e.kind());
    let start = |place: Place| {
        let level = state.levels.iter().rev().find(|l| l.place == place);
        old(level.expect("a named element that isn't open").start)
    };
    let mut path: Vec<[u32; 3]> = e.path().iter().map(|p| path_element(p, &start)).collect();
    if state.in_hostname && state.attribute != NONE && matches!(number, 2 | 10 | 13) {
        path.push([16, NAMES.len() as u32, NONE]);
    }
    count_refused(number, cause, e, state, table, &path);
    Refused { number, cause, path, event: old(state.event), attribute: state.attribute }
}

/// The number and the cause, by docs/REFUSALS.md.
fn number_of(kind: &Kind) -> (u32, u32) {
    let area = |n: u32| (n, n + 5);
    match kind {
        Kind::XmlError(Error::Area(n)) | Kind::AttrError(AttrError::Area(n)) | Kind::EscapeError(EscapeError::Area(n)) => area(*n),
        Kind::XmlError(Error::Fault) => (1, 1),
        Kind::XmlError(Error::EofInSkip) => (1, 2),
        Kind::Utf8Error(_) => (2, 3),
        Kind::ParseIntError(_) => (3, 4),
        Kind::ParseTimestampError(_) => (4, 5),
        Kind::ParseDurationError(_) => (5, 6),
        Kind::ParseUuidError(_) => (6, 7),
        Kind::MissingAttribute(_) => (7, 8),
        // the crate tells these apart by the text alone
        Kind::InvalidStructure(s) if s.starts_with("missing <testsuites>") => (8, 9),
        Kind::InvalidStructure(s) if s.starts_with("unexpected EOF") => (8, 10),
        Kind::InvalidStructure(s) if s.starts_with("unrecognized entity") => (21, 12),
        Kind::InvalidStructure(_) => (20, 11),
        Kind::AttrError(AttrError::Faulty) => (9, 13),
        Kind::AttrError(AttrError::Duplicated) => (9, 14),
        Kind::EscapeError(EscapeError::Bad) => (10, 15),
        kind => panic!("an error that never arises: {kind:?}"),
    }
}

fn path_element(element: &PathElement, start: &impl Fn(Place) -> u32) -> [u32; 3] {
    let plain = |kind: u32| [kind, NONE, NONE];
    match element {
        PathElement::TestSuites => plain(1),
        PathElement::TestSuite(i, name) => [2, *i as u32, name.as_ref().map_or(NONE, |_| start(Place::Suite))],
        PathElement::TestCase(i, name) => [3, *i as u32, name.as_ref().map_or(NONE, |_| start(Place::Case))],
        PathElement::Properties => plain(4),
        PathElement::Property(i) => [5, *i as u32, NONE],
        PathElement::Failure => plain(6),
        PathElement::Error => plain(7),
        PathElement::Skipped => plain(8),
        PathElement::FlakyFailure => plain(9),
        PathElement::FlakyError => plain(10),
        PathElement::RerunFailure => plain(11),
        PathElement::RerunError => plain(12),
        PathElement::SystemOut => plain(14),
        PathElement::SystemErr => plain(15),
        PathElement::Attribute(name) => [16, NAMES.iter().position(|n| n == name).expect("a name") as u32 + 1, NONE],
    }
}

// ---- counters

fn count_refused(number: u32, cause: u32, e: &DeserializeError, state: &State, table: &Table, path: &[[u32; 3]]) {
    hit_of!(
        cause as usize - 1,
        "F1",
        "XmlFault",
        "EofInSkip",
        "NotUtf8",
        "BadInteger",
        "BadTimestamp",
        "BadTime",
        "BadUuid",
        "MissingAttribute",
        "MissingReport",
        "EofInElement",
        "StatusRule",
        "UnknownEntity",
        "FaultyAttribute",
        "RepeatedKey",
        "BadReference",
        "BadTable",
        "RecordsSpent",
        "TextFull",
        "ScratchFull"
    );
    hit_of!(
        path.len(),
        "F3",
        "no element",
        "one element",
        "two elements",
        "three elements",
        "four elements",
        "five elements",
        "six elements"
    );
    hit!("F2", "refused");
    if (state.event as usize) < table.events.len() {
        hit!("F6", "an event")
    } else {
        hit!("F6", "the table's end")
    }
    if state.attribute != NONE {
        hit!("F6", "an attribute");
    }
    for [kind, index, event] in path {
        match kind {
            2 => hit_if!(*event == NONE, "F5", "a suite that isn't named yet", "a suite that is named"),
            3 => hit_if!(*event == NONE, "F5", "a case that isn't named yet", "a case that is named"),
            5 => hit!("F4", "a property"),
            14 => hit!("F8", "system-out"),
            15 => hit!("F8", "system-err"),
            16 if *index == 15 => hit!("F8", "stackTrace"),
            _ => {}
        }
        if matches!(kind, 2 | 3 | 5) && *index > 0 {
            hit!("F4", "not the first");
        }
    }
    count_attribute(number, state, table, path);
    match (number, cause) {
        (1, 1) => hit_if!(path.len() == 1, "F7", "a Fault at report level", "a Fault inside"),
        (1, _) => hit!("F7", "the table's end in a skip"),
        (8, 9) => hit!("R9", "refused"),
        (8, _) if path.len() == 1 => hit!("R8", "refused"),
        (12, _) => hit!("F9", "12"),
        (13, _) => hit_if!(state.attribute == NONE, "F9", "13 of a gathered text", "13 of a value"),
        (14, _) => hit!("F9", "14"),
        (20, _) => hit!("F12", "20"),
        (21, _) => {
            hit!("F12", "21");
            hit_if!(event_bytes(state, table).is_empty(), "X7", "no name", "an unknown name")
        }
        (7, _) => hit_of!(
            match path[path.len() - 2][0] {
                2 => 0,
                3 => 1,
                _ => 1 + path[path.len() - 1][1].min(2) as usize,
            },
            "A10",
            "a suite's name",
            "a case's name",
            "a property's name",
            "a property's value"
        ),
        _ => {}
    }
    if let Kind::InvalidStructure(s) = e.kind() {
        match s.get(..13) {
            Some("multiple main") => hit!("S6", "refused"),
            Some("found rerunFa") => hit!("S7", "refused"),
            Some("skipped test ") => hit!("S8", "refused"),
            Some("test case has") => hit!("S9", "refused"),
            _ => {}
        }
    }
    if matches!(number, 3..=6) {
        hit_of!(number as usize - 3, "V1", "a bad count", "a bad timestamp", "a bad time", "a bad UUID");
        match number {
            3 => hit!("V2", "refused"),
            5 => hit!("V4", "refused"),
            6 => hit!("V9", "refused"),
            _ => {}
        }
    }
}

fn event_bytes<'a>(state: &State, table: &'a Table) -> &'a [u8] {
    table.events.get(state.event as usize).map_or(b"", |e| table.part(e[1], e[2]))
}

fn count_attribute(number: u32, state: &State, table: &Table, path: &[[u32; 3]]) {
    let bytes = match state.attribute {
        NONE => event_bytes(state, table),
        a => {
            let [_, ks, kl, vs, vl] = table.attributes[a as usize];
            let (key, value) = (table.part(ks, kl), table.part(vs, vl));
            let known = path.last().is_some_and(|p| p[0] == 16);
            hit_of!(if number == 9 { 2 } else { !known as usize }, "A11", "in a known key", "in an extra", "9");
            if state.in_extra {
                let bad_key =
                    std::str::from_utf8(key).is_err() || quick_xml::rules::decoded(std::str::from_utf8(key).unwrap()).is_none();
                match number {
                    2 => hit_if!(bad_key, "A9", "a key that isn't UTF-8", "a value that isn't UTF-8"),
                    10 => hit_if!(bad_key, "A9", "a bad reference in a key", "a bad reference in a value"),
                    _ => {}
                }
                if bad_key {
                    key
                } else {
                    value
                }
            } else {
                value
            }
        }
    };
    match (number, state.attribute == NONE) {
        (2, false) => hit!("X1", "not UTF-8"),
        (10, false) => hit!("X1", "a bad reference"),
        (13, false) => hit!("X1", "no room"),
        (2, true) => hit!("X9", "not UTF-8"),
        (10, true) => hit!("X9", "a bad reference"),
        _ => {}
    }
    match (number, state.attribute == NONE, state.in_extra) {
        (10, true, _) => hit!("X5", "in a gathered Text"),
        (10, _, true) => hit!("X5", "in an extra"),
        (10, _, false) => hit!("X5", "in a value"),
        (2, ..) => count_utf8(bytes),
        _ => {}
    }
    match number {
        13 => hit!("M7", "13"),
        14 => hit!("M7", "14"),
        _ => {}
    }
}

fn count_utf8(bytes: &[u8]) {
    let Err(e) = std::str::from_utf8(bytes) else { return };
    match (&bytes[e.valid_up_to()..], e.error_len()) {
        (_, None) => hit!("X2", "cut off"),
        ([0xED, 0xA0..=0xBF, ..], _) => hit!("X2", "a surrogate"),
        ([0xC0 | 0xC1, ..] | [0xE0, 0x80..=0x9F, ..] | [0xF0, 0x80..=0x8F, ..], _) => hit!("X2", "a longer form than needed"),
        ([0xF4, 0x90..=0xBF, ..] | [0xF5..=0xFF, ..], _) => hit!("X2", "above U+10FFFF"),
        _ => hit!("X2", "another byte"),
    }
}
