//! Stand-in for quick_xml, with what quick-junit 0.8.0 uses of it: `Reader` replays a table of events, `Writer` records the events that are
//! written and spells out their bytes.
pub mod replay;
pub mod rules;
pub mod writer;

pub use reader::Reader;
use std::{fmt, io};
pub use writer::Writer;

pub type Result<T, E = Error> = std::result::Result<T, E>;

#[derive(Debug)]
pub enum Error {
    Io(io::Error),
    Encoding(encoding::EncodingError),
    /// A Fault is reached: 1.
    Fault,
    /// The table ends in a skip: 1.
    EofInSkip,
    /// An area is too short: 13 or 14.
    Area(u32),
}

impl fmt::Display for Error {
    fn fmt(&self, f: &mut fmt::Formatter<'_>) -> fmt::Result {
        write!(f, "{self:?}")
    }
}

impl std::error::Error for Error {}

impl From<io::Error> for Error {
    fn from(e: io::Error) -> Self {
        Error::Io(e)
    }
}

pub mod encoding {
    use std::{fmt, str::Utf8Error};

    #[derive(Debug)]
    pub struct EncodingError(pub Utf8Error);

    impl From<Utf8Error> for EncodingError {
        fn from(e: Utf8Error) -> Self {
            EncodingError(e)
        }
    }

    impl fmt::Display for EncodingError {
        fn fmt(&self, f: &mut fmt::Formatter<'_>) -> fmt::Result {
            write!(f, "{}", self.0)
        }
    }

    impl std::error::Error for EncodingError {}
}

pub mod escape {
    use crate::{replay, rules};
    use std::{borrow::Cow, fmt};

    #[derive(Debug)]
    pub enum EscapeError {
        /// 10.
        Bad,
        /// An area is too short: 12 or 13.
        Area(u32),
    }

    impl fmt::Display for EscapeError {
        fn fmt(&self, f: &mut fmt::Formatter<'_>) -> fmt::Result {
            write!(f, "{self:?}")
        }
    }

    impl std::error::Error for EscapeError {}

    pub fn resolve_xml_entity(entity: &str) -> Option<&'static str> {
        rules::predefined(entity)
    }

    /// The resolver that is handed in is always `resolve_xml_entity`.
    pub fn unescape_with<'i, 'e, F: FnMut(&str) -> Option<&'e str>>(raw: &'i str, _: F) -> Result<Cow<'i, str>, EscapeError> {
        let text = rules::decoded(raw).ok_or(EscapeError::Bad)?;
        replay::with(|s| s.decoded(&text)).map_err(EscapeError::Area)?;
        Ok(Cow::Owned(text))
    }

    /// Rule W8.
    pub fn escape(s: &str) -> String {
        let mut out = String::with_capacity(s.len());
        for c in s.chars() {
            match c {
                '&' => out.push_str("&amp;"),
                '<' => out.push_str("&lt;"),
                '>' => out.push_str("&gt;"),
                '\'' => out.push_str("&apos;"),
                '"' => out.push_str("&quot;"),
                c => out.push(c),
            }
        }
        out
    }
}

pub mod name {
    #[derive(Clone, Copy, Debug, PartialEq, Eq)]
    pub struct QName<'a>(pub &'a [u8]);

    impl AsRef<[u8]> for QName<'_> {
        fn as_ref(&self) -> &[u8] {
            self.0
        }
    }
}

pub mod events {
    use crate::{escape::escape, name::QName, replay};
    use std::{borrow::Cow, marker::PhantomData};

    pub mod attributes {
        use super::*;
        use crate::rules;
        use cover::{hit, hit_if, hit_of};
        use std::fmt;

        #[derive(Debug)]
        pub enum AttrError {
            /// Mark 1: 9.
            Faulty,
            /// 9.
            Duplicated,
            /// No record is left: 12.
            Area(u32),
        }

        impl fmt::Display for AttrError {
            fn fmt(&self, f: &mut fmt::Formatter<'_>) -> fmt::Result {
                write!(f, "{self:?}")
            }
        }

        impl std::error::Error for AttrError {}

        pub struct Attribute<'a> {
            pub key: QName<'a>,
            pub value: Cow<'a, [u8]>,
        }

        impl<'a> From<(&'a str, &'a str)> for Attribute<'a> {
            fn from((key, value): (&'a str, &'a str)) -> Self {
                Attribute { key: QName(key.as_bytes()), value: Cow::Owned(escape(value).into_bytes()) }
            }
        }

        pub struct Attributes<'a> {
            pub(super) element: Element,
            pub(super) next: u32,
            pub(super) end: u32,
            pub(super) seen: Vec<&'static [u8]>,
            pub(super) spent: bool,
            pub(super) life: PhantomData<&'a ()>,
        }

        #[derive(Clone, Copy, PartialEq, Eq)]
        pub enum Element {
            Report,
            Suite,
            Case,
            Property,
            Status,
        }

        impl Element {
            pub(super) fn of(name: &[u8]) -> Self {
                match name {
                    b"testsuites" => Element::Report,
                    b"testsuite" => Element::Suite,
                    b"testcase" => Element::Case,
                    b"property" => Element::Property,
                    _ => Element::Status,
                }
            }
            /// Rules A5 and A6.
            fn keys(self) -> &'static [&'static [u8]] {
                match self {
                    Element::Report => {
                        &[b"name", b"uuid", b"timestamp", b"time", b"tests", b"failures", b"errors", b"skipped", b"disabled"]
                    }
                    Element::Suite => &[b"name", b"timestamp", b"time", b"tests", b"failures", b"errors", b"skipped", b"disabled"],
                    Element::Case => &[b"name", b"classname", b"timestamp", b"time", b"assertions"],
                    Element::Property => &[b"name", b"value"],
                    Element::Status => &[b"timestamp", b"time", b"message", b"type"],
                }
            }
        }

        impl<'a> Iterator for Attributes<'a> {
            type Item = Result<Attribute<'a>, AttrError>;
            fn next(&mut self) -> Option<Self::Item> {
                replay::with(|s| {
                    if self.spent {
                        self.spent = false;
                        self.end = self.next;
                        return Some(Err(AttrError::Area(12)));
                    }
                    if self.next >= self.end {
                        s.no_attribute();
                        return None;
                    }
                    let index = self.next;
                    self.next += 1;
                    let table: &'static replay::Table = s.table;
                    let [mark, ks, kl, vs, vl] = table.attributes[index as usize];
                    let (key, value) = (table.part(ks, kl), table.part(vs, vl));
                    let known = self.element.keys().iter().position(|k| *k == key);
                    let takes_extras = matches!(self.element, Element::Suite | Element::Case);
                    s.set_attribute(index, takes_extras && known.is_none(), self.element == Element::Suite && key == b"hostname");
                    if mark == 1 {
                        hit!("A2", "marked faulty");
                        self.end = self.next;
                        return Some(Err(AttrError::Faulty));
                    }
                    if self.seen.contains(&key) {
                        hit_if!(known.is_some(), "A3", "a known key again", "another key again");
                        self.end = self.next;
                        return Some(Err(AttrError::Duplicated));
                    }
                    hit!("A2", "good");
                    self.seen.push(key);
                    self.tell(known, key, value);
                    Some(Ok(Attribute {
                        key: QName(key),
                        value: Cow::Borrowed(by_forms(self.element, known.is_some(), key, value)),
                    }))
                })
            }
        }

        impl Attributes<'_> {
            fn tell(&self, known: Option<usize>, key: &[u8], value: &[u8]) {
                let Some(at) = known else {
                    let takes_extras = matches!(self.element, Element::Suite | Element::Case);
                    hit_if!(takes_extras, "A7", "an extra", "passed over");
                    if self.element.keys().iter().any(|k| k.eq_ignore_ascii_case(key)) {
                        hit!("A4", "a known key in other letter case");
                    } else if key.contains(&b'&') {
                        hit!("A4", "a key with a reference");
                    }
                    return;
                };
                match self.element {
                    Element::Report => hit_of!(
                        at,
                        "A5",
                        "a report's name",
                        "a report's uuid",
                        "a report's timestamp",
                        "a report's time",
                        "a report's tests",
                        "a report's failures",
                        "a report's errors",
                        "a report's skipped",
                        "a report's disabled"
                    ),
                    Element::Suite => hit_of!(
                        at,
                        "A5",
                        "a suite's name",
                        "a suite's timestamp",
                        "a suite's time",
                        "a suite's tests",
                        "a suite's failures",
                        "a suite's errors",
                        "a suite's skipped",
                        "a suite's disabled"
                    ),
                    Element::Case => hit_of!(
                        at,
                        "A5",
                        "a case's name",
                        "a case's classname",
                        "a case's timestamp",
                        "a case's time",
                        "a case's assertions"
                    ),
                    Element::Property => hit_of!(at, "A6", "a property's name", "a property's value"),
                    Element::Status => hit_of!(
                        at,
                        "A6",
                        "a status element's timestamp",
                        "a status element's time",
                        "a status element's message",
                        "a status element's type"
                    ),
                }
                if !matches!(key, b"name" | b"classname" | b"message" | b"type" | b"value") {
                    count_value(key, value);
                }
            }
        }

        fn count_value(key: &[u8], value: &[u8]) {
            if std::str::from_utf8(value).is_err() {
                hit!("V1", "not UTF-8");
            } else if value.contains(&b'&') {
                hit!("V1", "a reference");
            }
            match key {
                b"time" => {}
                b"timestamp" => match chrono_form(value) {
                    Some(form) => hit_of!(
                        form,
                        "V5",
                        "without a fraction, Z",
                        "without a fraction, an offset",
                        "with a fraction, Z",
                        "with a fraction, an offset"
                    ),
                    None => hit!("V5", "another form"),
                },
                b"uuid" if value.len() != 36 => hit!("V9", "another length"),
                b"uuid" => hit_if!(value.iter().any(u8::is_ascii_uppercase), "V9", "36 bytes with capitals", "36 bytes without"),
                _ => match value {
                    [b'+', ..] => hit!("V2", "a plus sign"),
                    [b'0', _, ..] => hit!("V2", "leading zeros"),
                    b"18446744073709551615" => hit!("V2", "the limit"),
                    _ => hit!("V2", "other"),
                },
            }
        }

        /// Which branch of rules V5 to V8 a timestamp's length and letters point at; not whether it is one.
        fn chrono_form(value: &[u8]) -> Option<usize> {
            let last = *value.last()?;
            let zulu = matches!(last, b'Z' | b'z');
            match value.get(17..19)? {
                b"60" => hit!("V7", "second 60"),
                _ => {}
            }
            match value.get(5..10)? {
                b"02-29" => hit!("V6", "29 February"),
                [_, _, b'-', b'3', b'1'] => hit!("V6", "day 31"),
                _ => {}
            }
            let fraction = value.get(19) == Some(&b'.');
            if fraction {
                let n = value[20..].iter().take_while(|c| c.is_ascii_digit()).count();
                hit_of!(n.min(10) / 9, "V7", "under nine digits", "nine digits or more");
            }
            if !zulu {
                match value.get(value.len().checked_sub(6)?..)? {
                    b"-00:00" => hit!("V8", "-00:00"),
                    [b'-', ..] => hit!("V8", "west"),
                    [b'+', ..] => hit!("V8", "east"),
                    _ => return None,
                }
            }
            Some(2 * fraction as usize + !zulu as usize)
        }

        /// A time that is UTF-8 and outside the form of rules V3 and V4 becomes one that the crate refuses itself, with its own path; all else
        /// goes to the crate as it stands. The stand-ins for chrono and uuid refuse what rules V5 to V9 refuse.
        fn by_forms(element: Element, known: bool, key: &[u8], value: &'static [u8]) -> &'static [u8] {
            let is_time = known && key == b"time" && element != Element::Property;
            match std::str::from_utf8(value) {
                Ok(s) if is_time && !rules::is_time(s) => b"!",
                _ => value,
            }
        }
    }

    use attributes::{Attribute, Attributes, Element};

    pub struct BytesStart<'a> {
        name: Cow<'a, [u8]>,
        first: u32,
        count: u32,
        /// What is to be written, values escaped.
        pub(crate) written: Vec<(Vec<u8>, Vec<u8>)>,
    }

    impl<'a> BytesStart<'a> {
        pub fn new(name: &'a str) -> Self {
            BytesStart { name: Cow::Borrowed(name.as_bytes()), first: 0, count: 0, written: Vec::new() }
        }
        pub(crate) fn replayed(name: &'static [u8], first: u32, count: u32) -> Self {
            BytesStart { name: Cow::Borrowed(name), first, count, written: Vec::new() }
        }
        pub fn name(&self) -> QName<'_> {
            QName(&self.name)
        }
        pub fn attributes(&self) -> Attributes<'_> {
            let left = replay::with(|s| s.begin_attributes(&self.name));
            let first = if self.count == 0 { 0 } else { self.first };
            Attributes {
                element: Element::of(&self.name),
                next: first,
                end: first + self.count,
                seen: Vec::new(),
                spent: !left,
                life: PhantomData,
            }
        }
        pub fn push_attribute<'b, A: Into<Attribute<'b>>>(&mut self, attribute: A) {
            let attribute = attribute.into();
            self.written.push((attribute.key.0.to_vec(), attribute.value.into_owned()));
        }
        pub fn extend_attributes<'b, I: IntoIterator<Item: Into<Attribute<'b>>>>(&mut self, attributes: I) -> &mut Self {
            for attribute in attributes {
                self.push_attribute(attribute);
            }
            self
        }
    }

    pub struct BytesEnd<'a> {
        name: Cow<'a, [u8]>,
    }

    impl<'a> BytesEnd<'a> {
        pub fn new(name: &'a str) -> Self {
            BytesEnd { name: Cow::Borrowed(name.as_bytes()) }
        }
        pub(crate) fn replayed(name: &'static [u8]) -> Self {
            BytesEnd { name: Cow::Borrowed(name) }
        }
        pub fn name(&self) -> QName<'_> {
            QName(&self.name)
        }
    }

    /// Text, CData and Ref.
    pub struct Piece<'a> {
        pub(crate) bytes: Cow<'a, [u8]>,
    }

    pub type BytesText<'a> = Piece<'a>;

    impl<'a> Piece<'a> {
        /// A Text to be written.
        pub fn new(content: &'a str) -> Self {
            Piece { bytes: Cow::Owned(escape(content).into_bytes()) }
        }
        pub(crate) fn replayed(bytes: &'static [u8]) -> Self {
            Piece { bytes: Cow::Borrowed(bytes) }
        }
    }

    impl AsRef<[u8]> for Piece<'_> {
        fn as_ref(&self) -> &[u8] {
            &self.bytes
        }
    }

    pub struct BytesDecl<'a> {
        pub(crate) content: String,
        life: PhantomData<&'a ()>,
    }

    impl BytesDecl<'_> {
        pub fn new(version: &str, encoding: Option<&str>, standalone: Option<&str>) -> Self {
            let mut content = format!("xml version=\"{version}\"");
            for (key, value) in [("encoding", encoding), ("standalone", standalone)] {
                if let Some(value) = value {
                    content += &format!(" {key}=\"{value}\"");
                }
            }
            BytesDecl { content, life: PhantomData }
        }
    }

    pub enum Event<'a> {
        Start(BytesStart<'a>),
        End(BytesEnd<'a>),
        Empty(BytesStart<'a>),
        Text(Piece<'a>),
        CData(Piece<'a>),
        GeneralRef(Piece<'a>),
        Decl(BytesDecl<'a>),
        /// Comments, processing instructions, declarations and document types that are read.
        Other,
        Eof,
    }
}

mod reader {
    use crate::{events::*, name::QName, replay, replay::*, Error, Result};
    use std::io::BufRead;

    pub struct Config;

    impl Config {
        pub fn trim_text(&mut self, trim: bool) {
            assert!(!trim, "the crate doesn't ask for trimming");
        }
    }

    pub struct Reader<R> {
        _inner: R,
        config: Config,
    }

    impl<R> Reader<R> {
        pub fn from_reader(inner: R) -> Self {
            Reader { _inner: inner, config: Config }
        }
        pub fn config_mut(&mut self) -> &mut Config {
            &mut self.config
        }
    }

    impl<R: BufRead> Reader<R> {
        pub fn read_event_into<'b>(&mut self, buffer: &'b mut Vec<u8>) -> Result<Event<'b>> {
            replay::with(|s| {
                s.locate(buffer);
                let raw = s.advance();
                s.meet(&raw).map_err(Error::Area)?;
                Ok(match raw.kind {
                    START => Event::Start(BytesStart::replayed(raw.bytes, raw.first, raw.count)),
                    EMPTY => Event::Empty(BytesStart::replayed(raw.bytes, raw.first, raw.count)),
                    END => Event::End(BytesEnd::replayed(raw.bytes)),
                    TEXT => Event::Text(Piece::replayed(raw.bytes)),
                    CDATA => Event::CData(Piece::replayed(raw.bytes)),
                    REF => Event::GeneralRef(Piece::replayed(raw.bytes)),
                    OTHER => Event::Other,
                    EOF => Event::Eof,
                    FAULT => return Err(Error::Fault),
                    CUT => return Err(Error::EofInSkip),
                    kind => panic!("kind {kind} behind the table's check"),
                })
            })
        }

        /// The skip of rule R11.
        pub fn read_to_end_into(&mut self, end: QName, _: &mut Vec<u8>) -> Result<()> {
            replay::with(|s| {
                let mut depth = 0u32;
                loop {
                    let raw = s.advance();
                    let same = raw.bytes == end.0;
                    s.count_skip(depth > 0, same, &raw);
                    match raw.kind {
                        START if same => depth += 1,
                        END if same && depth == 0 => return Ok(()),
                        END if same => depth -= 1,
                        EOF => return Err(Error::EofInSkip),
                        FAULT => return Err(Error::Fault),
                        _ => {}
                    }
                }
            })
        }
    }
}
