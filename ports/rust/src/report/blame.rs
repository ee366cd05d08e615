//! Errors of quick-junit's kinds from refusals of the library: kinds, and paths with the names of suite and case.
#![forbid(unsafe_code)]

use super::{AttrError, DeserializeError, DeserializeErrorKind, EscapeError, LimitError, PathElement, XmlError, XmlString};
use crate::limits::ENTRY;
use crate::table::kind;
use crate::{explain_xml, Cause, Refusal, Table, XmlRefusal};
use std::str;

/// Line and column of a byte, from 1: newlines before it, and characters behind the last of them.
fn place(source: &[u8], byte: usize) -> (usize, usize) {
    let before = &source[..byte.min(source.len())];
    let line = before.iter().filter(|b| **b == b'\n').count();
    let begins = before.iter().rposition(|b| *b == b'\n').map_or(0, |i| i + 1);
    let column = before[begins..].iter().filter(|b| **b & 0xc0 != 0x80).count();
    (line + 1, column + 1)
}

/// The error of a document that isn't tokenized.
pub fn document(refusal: &XmlRefusal, source: &[u8]) -> DeserializeError {
    let kind = match refusal.byte() {
        Some(byte) => DeserializeErrorKind::XmlError(XmlError {
            refusal: *refusal,
            place: place(source, byte as usize),
            words: explain_xml(refusal, source).trim_end().to_owned(),
        }),
        None => DeserializeErrorKind::LimitError(LimitError::Document(*refusal)),
    };
    DeserializeError::new(kind, vec![])
}

/// A table that was refused.
pub struct Blame<'a> {
    pub table: &'a Table<'a>,
    pub refusal: &'a Refusal,
}

fn entry(words: &[u32], i: u32) -> Option<[usize; ENTRY]> {
    let at = i as usize * ENTRY;
    let e = words.get(at..at + ENTRY)?;
    Some([e[0], e[1], e[2], e[3], e[4]].map(|w| w as usize))
}

/// The places of the `&` and of the `;` behind it, of each reference.
fn references(value: &str) -> impl Iterator<Item = (usize, Option<usize>)> + '_ {
    value.match_indices('&').map(|(i, _)| (i, value[i..].find(';').map(|n| i + n)))
}

fn character(name: &str) -> Option<char> {
    let c = match name {
        "lt" => '<',
        "gt" => '>',
        "amp" => '&',
        "apos" => '\'',
        "quot" => '"',
        _ => {
            let digits = name.strip_prefix('#')?;
            let (digits, radix) = digits.strip_prefix('x').map_or((digits, 10), |d| (d, 16));
            let all = !digits.is_empty() && digits.chars().all(|c| c.is_digit(radix));
            char::from_u32(u32::from_str_radix(digits, radix).ok().filter(|_| all)?)?
        }
    };
    let is_xml = matches!(c, '\t' | '\n' | '\r' | ' '..='\u{d7ff}' | '\u{e000}'..='\u{fffd}' | '\u{10000}'..);
    is_xml.then_some(c)
}

/// A value with its references resolved; those that are none stay.
fn resolved(value: &str) -> String {
    let mut text = String::new();
    let mut from = 0;
    for (at, end) in references(value) {
        let found = end.and_then(|end| Some((end, character(&value[at + 1..end])?)));
        if let Some((end, c)) = found.filter(|_| at >= from) {
            text += &value[from..at];
            text.push(c);
            from = end + 1;
        }
    }
    text + &value[from..]
}

fn bad_reference(value: &str) -> EscapeError {
    for (at, end) in references(value) {
        let Some(end) = end else { return EscapeError::UnterminatedEntity(at..value.len()) };
        let name = &value[at + 1..end];
        match character(name) {
            Some(_) => {}
            None if name.starts_with('#') => return EscapeError::InvalidCharRef(name.to_owned()),
            None => return EscapeError::UnrecognizedEntity(at + 1..end, name.to_owned()),
        }
    }
    EscapeError::UnterminatedEntity(value.len()..value.len())
}

impl<'a> Blame<'a> {
    /// The error with its kind and path.
    pub fn error(&self) -> DeserializeError {
        DeserializeError::new(self.kind(), self.refusal.path().map(|e| self.element(e)).collect())
    }

    fn part(&self, start: usize, length: usize) -> &'a [u8] {
        self.table.source.get(start..start.saturating_add(length)).unwrap_or_default()
    }

    // The bytes of an event: a tag's name, or a text.
    fn bytes_of(&self, event: u32) -> &'a [u8] {
        entry(self.table.events, event).map_or(&[], |e| self.part(e[1], e[2]))
    }

    // The value of the attribute that is refused, and else the bytes of the event.
    fn value(&self) -> &'a [u8] {
        match self.refusal.attribute().and_then(|a| entry(self.table.attributes, a)) {
            Some(a) => self.part(a[3], a[4]),
            None => self.refusal.event().map_or(&[], |e| self.bytes_of(e)),
        }
    }

    fn text(&self) -> String {
        String::from_utf8_lossy(self.value()).into_owned()
    }

    // The name of the suite or case that an event opens.
    fn name_at(&self, event: u32) -> Option<String> {
        let [.., first, count] = entry(self.table.events, event)?;
        let mut attributes = (first..first + count).filter_map(|a| entry(self.table.attributes, a as u32));
        let name = attributes.find(|a| self.part(a[1], a[2]) == b"name")?;
        let value = resolved(str::from_utf8(self.part(name[3], name[4])).ok()?);
        Some(XmlString::new(value).into_string())
    }

    fn element(&self, element: crate::PathElement) -> PathElement {
        use crate::PathElement as Told;
        let named = |event: Option<u32>| event.and_then(|e| self.name_at(e));
        match element {
            Told::TestSuites => PathElement::TestSuites,
            Told::TestSuite { index, event } => PathElement::TestSuite(index as usize, named(event)),
            Told::TestCase { index, event } => PathElement::TestCase(index as usize, named(event)),
            Told::Properties => PathElement::Properties,
            Told::Property { index } => PathElement::Property(index as usize),
            Told::Failure => PathElement::Failure,
            Told::Error => PathElement::Error,
            Told::Skipped => PathElement::Skipped,
            Told::FlakyFailure => PathElement::FlakyFailure,
            Told::FlakyError => PathElement::FlakyError,
            Told::RerunFailure => PathElement::RerunFailure,
            Told::RerunError => PathElement::RerunError,
            Told::SystemOut => PathElement::SystemOut,
            Told::SystemErr => PathElement::SystemErr,
            Told::Attribute(name) => PathElement::Attribute(name.to_owned()),
        }
    }

    fn kind(&self) -> DeserializeErrorKind {
        use DeserializeErrorKind::*;
        let words = || InvalidStructure(self.refusal.cause().to_string());
        match self.refusal.cause() {
            Cause::NotUtf8 => str::from_utf8(self.value()).map_or_else(Utf8Error, |_| words()),
            Cause::BadInteger => self.text().parse::<u64>().map_or_else(ParseIntError, |_| words()),
            Cause::BadTimestamp => ParseTimestampError(self.text()),
            Cause::BadTime => ParseDurationError(self.text()),
            Cause::BadUuid => self.text().parse::<super::uuid::Uuid>().map_or_else(ParseUuidError, |_| words()),
            Cause::MissingAttribute => match self.refusal.path().last() {
                Some(crate::PathElement::Attribute(name)) => MissingAttribute(name.to_owned()),
                _ => words(),
            },
            Cause::MissingReport => InvalidStructure("missing <testsuites> element".to_owned()),
            Cause::EofInElement => InvalidStructure("unexpected EOF in an element".to_owned()),
            Cause::StatusRule => InvalidStructure(self.status_rule().to_owned()),
            Cause::UnknownEntity => InvalidStructure(format!("unrecognized entity: {}", self.text())),
            Cause::RepeatedKey => self.repeated().map_or_else(words, AttrError),
            // in a text the crate tells a reference by its name
            Cause::BadReference if self.refusal.attribute().is_none() => {
                InvalidStructure(format!("unrecognized entity: {}", self.text()))
            }
            Cause::BadReference => EscapeError(bad_reference(&self.text())),
            Cause::BadTable | Cause::RecordsSpent | Cause::TextFull | Cause::ScratchFull => {
                LimitError(super::LimitError::Report(*self.refusal))
            }
            _ => words(),
        }
    }

    fn repeated(&self) -> Option<AttrError> {
        let [_, start, _, first, _] = entry(self.table.events, self.refusal.event()?)?;
        let at = self.refusal.attribute()?;
        let key = |a: u32| entry(self.table.attributes, a).map(|a| (a[1], self.part(a[1], a[2])));
        let (again, name) = key(at)?;
        let (before, _) = (first as u32..at).filter_map(key).find(|(_, other)| *other == name)?;
        Some(AttrError::Duplicated(again.checked_sub(start)?, before.checked_sub(start)?))
    }

    // What doesn't go together among the status elements of the case whose End is refused.
    fn status_rule(&self) -> &'static str {
        let case = self.refusal.path().find_map(|e| match e {
            crate::PathElement::TestCase { event, .. } => event,
            _ => None,
        });
        let (mut mains, mut skipped, mut flaky, mut reruns) = (0, false, false, false);
        let mut depth = 0;
        for event in case.map_or(0, |e| e + 1)..self.refusal.event().unwrap_or(0) {
            let Some([code, ..]) = entry(self.table.events, event) else { break };
            let opens = matches!(code as u32, kind::START | kind::EMPTY);
            match self.bytes_of(event) {
                name if opens && depth == 0 => match name {
                    b"failure" | b"error" => mains += 1,
                    b"skipped" => (mains, skipped) = (mains + 1, true),
                    b"flakyFailure" | b"flakyError" => flaky = true,
                    b"rerunFailure" | b"rerunError" => reruns = true,
                    _ => {}
                },
                _ => {}
            }
            match code as u32 {
                kind::START => depth += 1,
                kind::END => depth -= 1,
                _ => {}
            }
        }
        match (mains, skipped) {
            (2.., _) => "multiple main status elements (failure/error/skipped) are not allowed",
            (0, _) if reruns && !flaky => "found rerunFailure/rerunError elements without a corresponding failure or error element",
            (_, true) => "skipped test case cannot have flakyFailure, flakyError, rerunFailure, or rerunError elements",
            _ => "test case has both flakyFailure/flakyError and rerunFailure/rerunError elements, which is not supported",
        }
    }
}
