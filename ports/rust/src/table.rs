//! Tables of XML events: borrowed, owned, built, and as files.
#![forbid(unsafe_code)]

use crate::limits::{self, ENTRY};
use std::{error, fmt};

pub(crate) mod kind {
    pub const START: u32 = 0;
    pub const EMPTY: u32 = 1;
    pub const END: u32 = 2;
    pub const TEXT: u32 = 3;
    pub const CDATA: u32 = 4;
    pub const REFERENCE: u32 = 5;
    pub const OTHER: u32 = 6;
    pub const EOF: u32 = 7;
    pub const FAULT: u32 = 8;
    pub const INDENT: u32 = 9;
}

/// A table of events that lies elsewhere.
///
/// An event is five words: kind, start and length in the source, first attribute, number of attributes. An attribute is five words: mark
/// (0 good, 1 faulty), key start, key length, value start, value length. Words and bytes of every length and value may be handed to
/// [`read`](crate::read): what is no table is refused with 11.
#[derive(Clone, Copy, Debug, PartialEq, Eq)]
pub struct Table<'a> {
    /// Five words for each event.
    pub events: &'a [u32],
    /// Five words for each attribute.
    pub attributes: &'a [u32],
    /// The bytes that both tell of.
    pub source: &'a [u8],
}

impl<'a> Table<'a> {
    /// The table of these three.
    pub fn new(events: &'a [u32], attributes: &'a [u32], source: &'a [u8]) -> Self {
        Table { events, attributes, source }
    }

    /// The table as a file: three little-endian words, the numbers of events, attributes and source bytes, then the three.
    ///
    /// Words behind the last whole event or attribute don't go along, and of numbers above 4294967295 only that much is told.
    pub fn to_bytes(&self) -> Vec<u8> {
        let events = self.events.len() / ENTRY;
        let attributes = self.attributes.len() / ENTRY;
        let mut bytes = Vec::with_capacity(12 + (events + attributes) * 20 + self.source.len());
        for n in [events, attributes, self.source.len()] {
            bytes.extend_from_slice(&word(n).to_le_bytes());
        }
        for w in self.events[..events * ENTRY].iter().chain(&self.attributes[..attributes * ENTRY]) {
            bytes.extend_from_slice(&w.to_le_bytes());
        }
        bytes.extend_from_slice(self.source);
        bytes
    }

    // The numbers of an event or attribute, in words that are wide enough to be added.
    pub(crate) fn entries(words: &[u32]) -> impl Iterator<Item = [u64; ENTRY]> + '_ {
        words.chunks_exact(ENTRY).map(|e| [e[0], e[1], e[2], e[3], e[4]].map(u64::from))
    }

    // The lengths of key and value together, and of the value alone, summed over the attributes before each place.
    fn attribute_sums(&self) -> Vec<(u64, u64)> {
        let most = self.source.len() as u64;
        let mut sums = vec![(0, 0)];
        let (mut both, mut values) = (0u64, 0u64);
        for [_, _, key, _, value] in Self::entries(self.attributes) {
            let (key, value) = (key.min(most), value.min(most));
            both += key + value;
            values += value;
            sums.push((both, values));
        }
        sums
    }

    /// What reading and listing this table can need at most, and room to sort and mark the attributes of one element, so that many
    /// are never slow; more than that makes no difference. Bytes outside the source are refused before anything is stored.
    pub(crate) fn needs(&self) -> Needs {
        let sums = self.attribute_sums();
        let most = sums.len() as u64 - 1;
        let mut needs = Needs::default();
        let mut many = 0;
        for [kind, _, len, first, count] in Self::entries(self.events) {
            match kind as u32 {
                kind::START | kind::EMPTY => {
                    let from = first.min(most) as usize;
                    let to = first.saturating_add(count).min(most) as usize;
                    let (both, values) = (sums[to].0 - sums[from].0, sums[to].1 - sums[from].1);
                    // one for the element, one for each extra
                    needs.records = needs.records.saturating_add(1 + (to - from) as u64);
                    needs.text = needs.text.saturating_add(both);
                    needs.listing = needs.listing.saturating_add(LINE + 2 * values);
                    many = many.max((to - from) as u64);
                }
                // a decoded piece is no longer than its bytes; an Indent is one newline
                kind::TEXT | kind::CDATA | kind::REFERENCE => {
                    needs.scratch = needs.scratch.saturating_add(len.min(self.source.len() as u64));
                }
                kind::INDENT => needs.scratch = needs.scratch.saturating_add(1),
                _ => {}
            }
        }
        needs.text = needs.text.saturating_add(needs.scratch);
        // a word and four bytes for each attribute, where the library doesn't compare all pairs
        if many > FEW {
            needs.records = needs.records.saturating_add(many.div_ceil(32));
            needs.text = needs.text.saturating_add(4 * many);
        }
        needs
    }
}

/// The attributes of one element whose keys are compared pair by pair, at most.
const FEW: u64 = 8;

/// Bytes of a listing's line without its texts, at most: brackets, a tag, five numbers of twenty digits, quotes.
pub(crate) const LINE: u64 = 160;

#[derive(Default, Clone, Copy)]
pub(crate) struct Needs {
    pub records: u64,
    pub text: u64,
    pub scratch: u64,
    pub listing: u64,
}

fn word(n: usize) -> u32 {
    u32::try_from(n).unwrap_or(u32::MAX)
}

/// A table of events that owns its words and bytes.
#[derive(Clone, Debug, Default, PartialEq, Eq)]
pub struct TableBuf {
    /// Five words for each event.
    pub events: Vec<u32>,
    /// Five words for each attribute.
    pub attributes: Vec<u32>,
    /// The bytes that both tell of.
    pub source: Vec<u8>,
}

impl TableBuf {
    /// The table, borrowed.
    pub fn as_table(&self) -> Table<'_> {
        Table::new(&self.events, &self.attributes, &self.source)
    }

    /// The table that a file begins with, and how many of its bytes that is. What stands behind it is ignored, as the programs do.
    ///
    /// # Errors
    ///
    /// Where the bytes are cut off, or the table is larger than the limits of [`limits`](crate::limits).
    ///
    /// ```
    /// use kerzhoma::{TableBuf, TableBuilder, TableError};
    ///
    /// let mut builder = TableBuilder::new();
    /// builder.empty("testsuites").attribute("name", "r");
    /// let bytes = builder.table().to_bytes();
    /// let (table, taken) = TableBuf::from_bytes(&bytes)?;
    /// assert_eq!(table, builder.finish());
    /// assert_eq!(taken, bytes.len());
    ///
    /// let error = TableBuf::from_bytes(&bytes[..20]).unwrap_err();
    /// assert_eq!(error, TableError::CutOff { part: "events", needed: 20, there: 8 });
    /// # Ok::<(), TableError>(())
    /// ```
    pub fn from_bytes(bytes: &[u8]) -> Result<(TableBuf, usize), TableError> {
        let Some((head, rest)) = bytes.split_at_checked(Header::BYTES) else {
            return Err(TableError::CutOff { part: "header", needed: Header::BYTES, there: bytes.len() });
        };
        let header = Header::of(head)?;
        let body = header.body();
        let table = header.table(&rest[..rest.len().min(body)])?;
        Ok((table, Header::BYTES + body))
    }

    /// The table as a file, as [`Table::to_bytes`] does.
    pub fn to_bytes(&self) -> Vec<u8> {
        self.as_table().to_bytes()
    }
}

/// The three words that a file begins with, within the limits.
#[derive(Clone, Copy, Debug)]
pub(crate) struct Header {
    events: usize,
    attributes: usize,
    source: usize,
}

impl Header {
    pub(crate) const BYTES: usize = 12;

    pub(crate) fn of(bytes: &[u8]) -> Result<Self, TableError> {
        let mut numbers = words(bytes).into_iter().map(|w| w as usize);
        let mut within = |part, limit| match numbers.next() {
            None => Err(TableError::CutOff { part: "header", needed: Header::BYTES, there: bytes.len() }),
            Some(n) if n > limit => Err(TableError::TooLarge { part, number: n, limit }),
            Some(n) => Ok(n),
        };
        Ok(Header {
            events: within("events", limits::EVENTS)?,
            attributes: within("attributes", limits::ATTRIBUTES)?,
            source: within("source bytes", limits::SOURCE)?,
        })
    }

    /// How many bytes follow the header.
    pub(crate) fn body(&self) -> usize {
        (self.events + self.attributes) * ENTRY * 4 + self.source
    }

    /// The table in the bytes behind the header.
    pub(crate) fn table(&self, bytes: &[u8]) -> Result<TableBuf, TableError> {
        let (events, rest) = cut(bytes, "events", self.events * ENTRY * 4)?;
        let (attributes, rest) = cut(rest, "attributes", self.attributes * ENTRY * 4)?;
        let (source, _) = cut(rest, "source", self.source)?;
        Ok(TableBuf { events: words(events), attributes: words(attributes), source: source.to_vec() })
    }
}

fn cut<'a>(bytes: &'a [u8], part: &'static str, needed: usize) -> Result<(&'a [u8], &'a [u8]), TableError> {
    bytes.split_at_checked(needed).ok_or(TableError::CutOff { part, needed, there: bytes.len() })
}

fn words(bytes: &[u8]) -> Vec<u32> {
    bytes.chunks_exact(4).map(|b| u32::from_le_bytes([b[0], b[1], b[2], b[3]])).collect()
}

/// Why bytes are no file of a table.
#[derive(Clone, Debug, PartialEq, Eq)]
#[non_exhaustive]
pub enum TableError {
    /// A part needs more bytes than are there.
    CutOff {
        /// Which.
        part: &'static str,
        /// The bytes that it needs.
        needed: usize,
        /// Those that are there.
        there: usize,
    },
    /// The header tells of more than is read; refusal 11 by the rules.
    TooLarge {
        /// Of what.
        part: &'static str,
        /// How many it tells of.
        number: usize,
        /// How many are read at most.
        limit: usize,
    },
}

impl fmt::Display for TableError {
    fn fmt(&self, f: &mut fmt::Formatter<'_>) -> fmt::Result {
        match self {
            TableError::CutOff { part, needed, there } => {
                write!(f, "the table is cut off: {there} of the {needed} bytes of its {part} are there")
            }
            TableError::TooLarge { part, number, limit } => {
                write!(f, "the table is too large: it tells of {number} {part}, and {limit} are the limit")
            }
        }
    }
}

impl error::Error for TableError {}

/// Makes a table event by event, for callers that have an XML reader of their own.
///
/// Names, values and texts are bytes as they stand in the document: references in values and texts stay as they are, and nothing is
/// checked here. [`read`](crate::read) decodes and checks.
///
/// ```
/// use kerzhoma::{read, Areas, TableBuilder};
///
/// let mut table = TableBuilder::new();
/// table.start("testsuites").attribute("name", "r &amp; d").attribute("tests", "1");
/// table.start("testsuite").attribute("name", "lab");
/// table.start("testcase").attribute("name", "a").attribute("time", "0.5");
/// table.start("system-out");
/// table.text("five ").reference("lt").cdata(" six");
/// table.end("system-out");
/// table.end("testcase");
/// table.end("testsuite");
/// table.end("testsuites").eof();
///
/// let mut areas = Areas::for_table(&table.table());
/// let tree = read(&table.table(), &mut areas)?;
/// assert_eq!(tree.name(), Some("r & d"));
/// let case = tree.suites().flat_map(|suite| suite.cases()).next().unwrap();
/// assert_eq!(case.system_out(), Some("five < six"));
/// # Ok::<(), kerzhoma::Refusal>(())
/// ```
#[derive(Clone, Debug, Default)]
pub struct TableBuilder {
    made: TableBuf,
}

impl TableBuilder {
    /// A table without events.
    pub fn new() -> Self {
        Self::default()
    }

    // Starts above 4294967295 aren't told rightly, but then the source is far above its limit, and refused for that.
    fn put(&mut self, bytes: &[u8]) -> (u32, u32) {
        if bytes.is_empty() {
            return (0, 0);
        }
        let start = word(self.made.source.len());
        self.made.source.extend_from_slice(bytes);
        (start, word(bytes.len()))
    }

    fn event(&mut self, kind: u32, bytes: &[u8]) -> &mut Self {
        let (start, len) = self.put(bytes);
        self.made.events.extend_from_slice(&[kind, start, len, 0, 0]);
        self
    }

    /// A tag that opens an element; its attributes are added to what this gives back.
    pub fn start(&mut self, name: impl AsRef<[u8]>) -> Tag<'_> {
        self.event(kind::START, name.as_ref());
        Tag { builder: self }
    }

    /// A tag that opens and closes an element.
    pub fn empty(&mut self, name: impl AsRef<[u8]>) -> Tag<'_> {
        self.event(kind::EMPTY, name.as_ref());
        Tag { builder: self }
    }

    /// The end of an element.
    pub fn end(&mut self, name: impl AsRef<[u8]>) -> &mut Self {
        self.event(kind::END, name.as_ref())
    }

    /// Character data, with references as they stand there or without.
    pub fn text(&mut self, bytes: impl AsRef<[u8]>) -> &mut Self {
        self.event(kind::TEXT, bytes.as_ref())
    }

    /// What stands between `<![CDATA[` and `]]>`.
    pub fn cdata(&mut self, bytes: impl AsRef<[u8]>) -> &mut Self {
        self.event(kind::CDATA, bytes.as_ref())
    }

    /// The name between `&` and `;`.
    pub fn reference(&mut self, name: impl AsRef<[u8]>) -> &mut Self {
        self.event(kind::REFERENCE, name.as_ref())
    }

    /// A declaration, a comment, a processing instruction: passed over by reading.
    pub fn other(&mut self, bytes: impl AsRef<[u8]>) -> &mut Self {
        self.event(kind::OTHER, bytes.as_ref())
    }

    /// An indent as writers put it: read as a text of one newline.
    pub fn indent(&mut self) -> &mut Self {
        self.event(kind::INDENT, b"")
    }

    /// The end of the document; the end of the table counts as one too.
    pub fn eof(&mut self) -> &mut Self {
        self.event(kind::EOF, b"")
    }

    /// The XML reader failed here: reading refuses with 1.
    pub fn fault(&mut self) -> &mut Self {
        self.event(kind::FAULT, b"")
    }

    /// What was made so far.
    pub fn table(&self) -> Table<'_> {
        self.made.as_table()
    }

    /// The table.
    pub fn finish(self) -> TableBuf {
        self.made
    }

    /// Begins anew, with the memory that is there.
    pub fn clear(&mut self) {
        self.made.events.clear();
        self.made.attributes.clear();
        self.made.source.clear();
    }
}

/// A tag just put into a [`TableBuilder`]: takes its attributes, in their order.
#[derive(Debug)]
pub struct Tag<'b> {
    builder: &'b mut TableBuilder,
}

impl Tag<'_> {
    /// The value as it stands between its quotes.
    pub fn attribute(self, key: impl AsRef<[u8]>, value: impl AsRef<[u8]>) -> Self {
        self.put(0, key.as_ref(), value.as_ref())
    }

    /// An attribute that the XML reader found malformed: refused with 9 where it is read.
    pub fn faulty(self, key: impl AsRef<[u8]>, value: impl AsRef<[u8]>) -> Self {
        self.put(1, key.as_ref(), value.as_ref())
    }

    fn put(self, mark: u32, key: &[u8], value: &[u8]) -> Self {
        let place = word(self.builder.made.attributes.len() / ENTRY);
        let (key_start, key_len) = self.builder.put(key);
        let (value_start, value_len) = self.builder.put(value);
        self.builder.made.attributes.extend_from_slice(&[mark, key_start, key_len, value_start, value_len]);
        // the last two words of the last event: first attribute, number of attributes
        if let [.., first, count] = self.builder.made.events.as_mut_slice() {
            if *count == 0 {
                *first = place;
            }
            *count = count.saturating_add(1);
        }
        self
    }
}
