//! XML documents: tokenized, listed, and their refusals.
#![forbid(unsafe_code)]

use crate::limits::{self, ENTRY};
use crate::{explain, read_and_list, sys, Areas, Refusal, Table, TableBuf};
use std::{error, fmt};

/// Why and where a document isn't tokenized: 18 not well-formed XML, 19 a document type declaration, both with the byte; 11 longer than
/// the limit; 16 too many events or attributes.
///
/// It holds numbers only, and so does what it displays. [`explain_xml`] tells line and column, too.
#[derive(Clone, Copy, Debug, PartialEq, Eq, Hash)]
pub struct XmlRefusal {
    number: u32,
    byte: u32,
    // how many words events and attributes were lent
    events: usize,
    attributes: usize,
}

impl XmlRefusal {
    // where both areas were as long as the document can need, 16 comes only where the limits are too short
    pub(crate) fn above(self) -> Self {
        XmlRefusal { events: limits::EVENTS * ENTRY, attributes: limits::ATTRIBUTES * ENTRY, ..self }
    }

    /// 11, 16, 18 or 19, by docs/REFUSALS.md.
    pub fn number(&self) -> u32 {
        self.number
    }

    /// The first byte that no document has there, or the document's length where it only ends too early; none for 11 and 16.
    pub fn byte(&self) -> Option<u32> {
        (self.byte != u32::MAX).then_some(self.byte)
    }
}

impl fmt::Display for XmlRefusal {
    fn fmt(&self, f: &mut fmt::Formatter<'_>) -> fmt::Result {
        match self.byte() {
            Some(byte) => write!(f, "refused {} at byte {byte}", self.number),
            None => write!(f, "refused {}", self.number),
        }
    }
}

impl error::Error for XmlRefusal {}

/// The table of an XML document: XML 1.0 in UTF-8, without a document type declaration.
///
/// # Errors
///
/// Where the document is refused, with the byte.
///
/// ```
/// use kerzhoma::{list, read, tokenize, Areas};
///
/// let table = tokenize(b"<testsuites name='r'><testsuite name='lab'/></testsuites>")?;
/// let mut areas = Areas::for_table(&table.as_table());
/// assert_eq!(list(&read(&table.as_table(), &mut areas)?)?, "(report \"r\" 0 0 0 0 -\n(suite \"lab\" 0 0 0 0 -))\n");
///
/// let refusal = tokenize(b"<testsuites><a></testsuites>").unwrap_err();
/// assert_eq!((refusal.number(), refusal.byte()), (18, Some(17)));
/// # Ok::<(), Box<dyn std::error::Error>>(())
/// ```
pub fn tokenize(source: &[u8]) -> Result<TableBuf, XmlRefusal> {
    let (mut events, mut attributes) = entries(source);
    let table = tokenize_into(source, &mut events, &mut attributes).map_err(XmlRefusal::above)?;
    let (m, n) = (table.events.len(), table.attributes.len());
    events.truncate(m);
    attributes.truncate(n);
    events.shrink_to_fit();
    attributes.shrink_to_fit();
    Ok(TableBuf { events, attributes, source: source.to_vec() })
}

// An event takes a byte at least, but for Eof; an attribute four, and a space before it.
pub(crate) fn entries(source: &[u8]) -> (Vec<u32>, Vec<u32>) {
    let events = source.len().saturating_add(1).min(limits::EVENTS);
    let attributes = (source.len() / 4).min(limits::ATTRIBUTES);
    (vec![0; events * ENTRY], vec![0; attributes * ENTRY])
}

/// The same into two areas of words; the document is the table's source.
///
/// # Errors
///
/// Where the document is refused, 16 where an area is too short, or the document has more than 65,536 events, Eof among them, or
/// attributes; both are zero then.
pub fn tokenize_into<'o>(
    source: &'o [u8], events: &'o mut [u32], attributes: &'o mut [u32],
) -> Result<Table<'o>, XmlRefusal> {
    let told = sys::tokenize(source, events, attributes);
    if told.number != 0 {
        return Err(XmlRefusal { number: told.number, byte: told.byte, events: events.len(), attributes: attributes.len() });
    }
    let words = |n: u32, len: usize| (n as usize * ENTRY).min(len);
    let (m, n) = (words(told.events, events.len()), words(told.attributes, attributes.len()));
    Ok(Table::new(&events[..m], &attributes[..n], source))
}

/// A document's refusal in words: one line with byte, line and column, ended by a newline. It holds no text of the document. That of 16
/// says whether an area was too short or the document has more events or attributes than the limits allow.
///
/// ```
/// use kerzhoma::{explain_xml, tokenize};
///
/// let document = "<a>\n\u{e9}<</a>".as_bytes();
/// let refusal = tokenize(document).unwrap_err();
/// assert_eq!(
///     explain_xml(&refusal, document),
///     "refused 18 at byte 7, line 2, column 3: from this byte on the document is not well-formed XML\n"
/// );
/// ```
pub fn explain_xml(refusal: &XmlRefusal, source: &[u8]) -> String {
    let mut out = [0; 256];
    let length = sys::explain_xml(source, refusal.number, refusal.byte, refusal.events, refusal.attributes, &mut out);
    String::from_utf8_lossy(out.get(..length).unwrap_or_default()).into_owned()
}

/// Why a document has no listing.
#[derive(Clone, Copy, Debug, PartialEq, Eq, Hash)]
pub enum DocumentRefusal {
    /// It isn't tokenized.
    Document(XmlRefusal),
    /// Its table isn't read, or the listing is too long.
    Report(Refusal),
}

impl DocumentRefusal {
    /// The refusal in words, from the document that was refused: one line, ended by a newline. It may tell the names of suite and case, so it
    /// isn't for the public.
    pub fn explain(&self, source: &[u8]) -> String {
        match self {
            DocumentRefusal::Document(refusal) => explain_xml(refusal, source),
            DocumentRefusal::Report(refusal) => match tokenize(source) {
                Ok(table) => explain(refusal, &table.as_table()),
                Err(_) => format!("{refusal}\n"),
            },
        }
    }
}

impl fmt::Display for DocumentRefusal {
    /// Numbers only, and no text of the document.
    fn fmt(&self, f: &mut fmt::Formatter<'_>) -> fmt::Result {
        match self {
            DocumentRefusal::Document(refusal) => refusal.fmt(f),
            DocumentRefusal::Report(refusal) => refusal.fmt(f),
        }
    }
}

impl error::Error for DocumentRefusal {}

/// The public listing of a document, or why there is none: document in, listing or refusal out, and nothing is kept. The areas that it
/// works in are its own, as long as the document can need.
///
/// # Errors
///
/// The refusal of [`tokenize`] or of [`read_and_list`].
///
/// ```
/// use kerzhoma::{read_and_list_xml, DocumentRefusal};
///
/// assert_eq!(read_and_list_xml(b"<testsuites/>")?, "(report - 0 0 0 0 -)\n");
/// let document = b"<testsuites><testsuite name='lab'><testcase/></testsuite></testsuites>";
/// let refusal = read_and_list_xml(document).unwrap_err();
/// assert_eq!(
///     refusal.explain(document),
///     "refused 7 at testsuites/testsuite[0](\"lab\")/testcase[0]/@name: this attribute is missing (event 2)\n"
/// );
/// assert!(matches!(read_and_list_xml(b"<testsuites>"), Err(DocumentRefusal::Document(_))));
/// # Ok::<(), DocumentRefusal>(())
/// ```
pub fn read_and_list_xml(source: &[u8]) -> Result<String, DocumentRefusal> {
    let (mut events, mut attributes) = entries(source);
    let table = tokenize_into(source, &mut events, &mut attributes).map_err(|r| DocumentRefusal::Document(r.above()))?;
    read_and_list(&table, &mut Areas::for_table(&table)).map_err(DocumentRefusal::Report)
}

/// What is printed of a document in one call: its public listing, or `(refused)` and a newline. The areas are zero behind it in every case.
///
/// ```
/// use kerzhoma::{list_xml, Areas};
///
/// let mut areas = Areas::new(100, 10_000, 10_000);
/// assert_eq!(list_xml(b"<testsuites/>", &mut areas), "(report - 0 0 0 0 -)\n");
/// assert_eq!(list_xml(b"<testsuites>", &mut areas), "(refused)\n");
/// ```
pub fn list_xml(source: &[u8], areas: &mut Areas) -> String {
    let (mut events, mut attributes) = entries(source);
    // a text is at most doubled, and no tag is shorter than the part of a line that it stands for by more than a line
    let lines = crate::table::LINE as usize * events.len() / ENTRY;
    let mut out = vec![0; source.len().min(limits::SOURCE) * 2 + lines + "(refused)\n".len()];
    let Areas { records, text, scratch } = areas;
    let length = sys::list_xml(source, &mut events, &mut attributes, records, text, scratch, &mut out);
    out.truncate(length);
    String::from_utf8(out).unwrap_or_else(|e| String::from_utf8_lossy(e.as_bytes()).into_owned())
}
