//! Where in a document a refusal arose.
#![forbid(unsafe_code)]

use crate::document::entries;
use crate::limits::{self, ENTRY};
use crate::{sys, tokenize, tokenize_into, DocumentRefusal, Refusal, Table, XmlRefusal};

/// What the library says where no byte is concerned.
const NO_BYTE: usize = 4_294_967_295;

/// A place in a document: a byte, and its line and column; a column is a character.
#[derive(Clone, Copy, Debug, PartialEq, Eq, Hash)]
pub struct Place {
    /// From 0 on.
    pub byte: usize,
    /// From 1 on.
    pub line: u64,
    /// From 1 on.
    pub column: u64,
}

impl Place {
    /// Of a byte of a document, or of its end.
    ///
    /// ```
    /// let place = kerzhoma::Place::of("<a>\n\u{e9}</b>".as_bytes(), 8).unwrap();
    /// assert_eq!((place.line, place.column), (2, 4));
    /// ```
    pub fn of(source: &[u8], byte: usize) -> Option<Self> {
        // the line of a document that isn't well-formed from there on has both
        let mut out = [0; 256];
        let length = sys::explain_xml(source, 18, u32::try_from(byte).ok()?, 0, 0, &mut out);
        let line = std::str::from_utf8(out.get(..length)?).ok()?;
        let number = |mark: &str| {
            let (_, rest) = line.split_once(mark)?;
            rest.split(|c: char| !c.is_ascii_digit()).next()?.parse().ok()
        };
        Some(Place { byte, line: number(", line ")?, column: number(", column ")? })
    }
}

impl Refusal {
    /// Where in the document of this table the refusal arose: the value of its attribute, or its key where that is empty; or else its event,
    /// of a tag the name; the root element where there is no report; the document's end where it ends too early. None where the whole table
    /// or none is concerned. Which byte it is is proved.
    ///
    /// It holds numbers only.
    ///
    /// ```
    /// use kerzhoma::{read, tokenize, Areas};
    ///
    /// let table = tokenize(b"<testsuites\n  tests='many'/>").unwrap();
    /// let refusal = read(&table.as_table(), &mut Areas::new(9, 99, 99)).unwrap_err();
    /// let place = refusal.place(&table.as_table()).unwrap();
    /// assert_eq!((place.byte, place.line, place.column), (21, 2, 10));
    /// ```
    pub fn place(&self, table: &Table<'_>) -> Option<Place> {
        let byte = sys::refusal_byte(self.told(), table.events, table.attributes, table.source);
        Place::of(table.source, (byte != NO_BYTE).then_some(byte)?)
    }

    /// The bytes that it speaks of: the value of its attribute, or else those of its event. They may be private text.
    pub fn bytes<'t>(&self, table: &Table<'t>) -> Option<&'t [u8]> {
        let (start, length) = match self.attribute() {
            Some(a) => entry(table.attributes, a).map(|e| (e[3], e[4]))?,
            None => entry(table.events, self.event()?).map(|e| (e[1], e[2]))?,
        };
        table.source.get(start..)?.get(..length)
    }
}

impl XmlRefusal {
    /// Where in the document it arose: for 11 the first byte behind the limit, for 16 the byte with which an event or attribute is due that
    /// has no room.
    pub fn place(&self, source: &[u8]) -> Option<Place> {
        match (self.number(), self.byte()) {
            (_, Some(byte)) => Place::of(source, byte as usize),
            (11, None) => Place::of(source.get(..limits::SOURCE)?, limits::SOURCE),
            _ => Place::of(source, first_too_many(source)?),
        }
    }
}

impl DocumentRefusal {
    /// Where in the document it arose; it is tokenized again where its table was refused.
    ///
    /// ```
    /// let document = b"<testsuites>\n<testsuite name='lab' time='soon'/>\n</testsuites>";
    /// let refusal = kerzhoma::read_and_list_xml(document).unwrap_err();
    /// let place = refusal.place(document).unwrap();
    /// assert_eq!((place.line, place.column), (2, 29));
    /// ```
    pub fn place(&self, source: &[u8]) -> Option<Place> {
        match self {
            DocumentRefusal::Document(refusal) => refusal.place(source),
            DocumentRefusal::Report(refusal) => refusal.place(&tokenize(source).ok()?.as_table()),
        }
    }
}

// A front of the document that ends before there is no room only ends too early: so the last byte of the shortest front that is refused
// with 16, found by halves.
fn first_too_many(source: &[u8]) -> Option<usize> {
    let (mut events, mut attributes) = entries(source);
    let mut has_room =
        |n: usize| tokenize_into(&source[..n], &mut events, &mut attributes).map_or_else(|r| r.number() != 16, |_| true);
    let (mut good, mut bad) = (0, source.len());
    if has_room(bad) {
        return None;
    }
    while bad - good > 1 {
        let middle = good + (bad - good) / 2;
        if has_room(middle) {
            good = middle;
        } else {
            bad = middle;
        }
    }
    Some(bad - 1)
}

fn entry(words: &[u32], n: u32) -> Option<[usize; ENTRY]> {
    words.chunks_exact(ENTRY).nth(n as usize).map(|e| [e[0], e[1], e[2], e[3], e[4]].map(|w| w as usize))
}
