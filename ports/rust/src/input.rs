//! Where a table or a document comes from: files and standard input.
#![forbid(unsafe_code)]

use crate::limits::{EVENTS, SOURCE};
use crate::table::Header;
use crate::{TableBuf, TableError};
use std::{error, ffi::OsStr, fmt, fs::File, io, io::Read, path::Path};

/// A table that was loaded.
#[derive(Debug)]
pub struct Loaded {
    /// The table.
    pub table: TableBuf,
    /// Whether bytes stand behind the table; they are ignored.
    pub trailing: bool,
}

/// Why there is no table.
#[derive(Debug)]
#[non_exhaustive]
pub enum InputError {
    /// The file can't be read.
    Io(io::Error),
    /// The bytes are no table.
    Table(TableError),
    /// A table is asked for, and the file begins as an XML document does.
    Xml,
    /// It holds text that is neither an XML document nor a table.
    Neither,
    /// There are no bytes.
    Empty,
}

impl fmt::Display for InputError {
    fn fmt(&self, f: &mut fmt::Formatter<'_>) -> fmt::Result {
        match self {
            InputError::Io(e) => write!(f, "{e}"),
            InputError::Table(e) => write!(f, "{e}"),
            InputError::Xml => f.write_str("this looks like an XML document, and a table is asked for"),
            InputError::Neither => f.write_str("this is neither an XML document nor a table of XML events"),
            InputError::Empty => f.write_str("it is empty"),
        }
    }
}

impl error::Error for InputError {
    fn source(&self) -> Option<&(dyn error::Error + 'static)> {
        match self {
            InputError::Io(e) => Some(e),
            InputError::Table(e) => Some(e),
            InputError::Xml | InputError::Neither | InputError::Empty => None,
        }
    }
}

impl From<io::Error> for InputError {
    fn from(e: io::Error) -> Self {
        InputError::Io(e)
    }
}

impl From<TableError> for InputError {
    fn from(e: TableError) -> Self {
        InputError::Table(e)
    }
}

/// What a file is taken for.
#[derive(Clone, Copy, Debug, PartialEq, Eq)]
pub enum Kind {
    /// An XML document.
    Document,
    /// A table of its events.
    Table,
    /// An XML document where the name ends in `.xml`, or where behind a byte-order mark and white space it begins with `<` and its first
    /// four bytes are no number of events within the limits; else a table.
    Either,
}

/// What a file holds.
#[derive(Debug)]
pub enum Input {
    /// An XML document: of a longer one a byte more than the limit.
    Document(Vec<u8>),
    /// A table of its events.
    Table(Loaded),
}

/// Loads a file, or standard input where the path is `-`.
///
/// # Errors
///
/// Where reading fails, or the bytes are no table where one is taken for granted.
pub fn load(path: &Path, kind: Kind) -> Result<Input, InputError> {
    match kind {
        Kind::Document => load_document(path).map(Input::Document),
        Kind::Table => load_table(path).map(Input::Table),
        Kind::Either if is_named_xml(path) => load_document(path).map(Input::Document),
        Kind::Either if path.as_os_str() == OsStr::new("-") => either_from(io::stdin().lock()),
        Kind::Either => either_from(open(path)?),
    }
}

/// A document or a table, by how it begins.
///
/// # Errors
///
/// Where reading fails, or it begins as neither does.
pub fn either_from(mut from: impl Read) -> Result<Input, InputError> {
    let mut head = Vec::new();
    from.by_ref().take(Header::BYTES as u64).read_to_end(&mut head)?;
    // white space of any length may stand before the first tag
    while !counts_events(&head) && first_tag(&head).is_empty() && head.len() <= SOURCE {
        if from.by_ref().take(4096).read_to_end(&mut head)? == 0 {
            break;
        }
    }
    if head.is_empty() {
        return Err(InputError::Empty);
    }
    if is_xml(&head) {
        from.take((SOURCE + 1).saturating_sub(head.len()) as u64).read_to_end(&mut head)?;
        return Ok(Input::Document(head));
    }
    if !counts_events(&head) && head.iter().all(|b| *b >= b' ' || b.is_ascii_whitespace()) {
        return Err(InputError::Neither);
    }
    table_from(head.as_slice().chain(from)).map(Input::Table)
}

/// Loads the table of a file, or of standard input where the path is `-`.
pub fn load_table(path: &Path) -> Result<Loaded, InputError> {
    if path.as_os_str() == OsStr::new("-") {
        return table_from(io::stdin().lock());
    }
    table_from(open(path)?)
}

/// Whether the name ends in `.xml`, in any letter case: then the file is an XML document.
pub fn is_named_xml(path: &Path) -> bool {
    path.extension().is_some_and(|end| end.eq_ignore_ascii_case("xml"))
}

/// Loads an XML document, or standard input where the path is `-`: of a longer one a byte more than the limit, which is refused.
pub fn load_document(path: &Path) -> Result<Vec<u8>, InputError> {
    let mut document = Vec::new();
    let most = SOURCE as u64 + 1;
    if path.as_os_str() == OsStr::new("-") {
        io::stdin().lock().take(most).read_to_end(&mut document)?;
    } else {
        open(path)?.take(most).read_to_end(&mut document)?;
    }
    Ok(document)
}

fn open(path: &Path) -> io::Result<File> {
    let file = File::open(path)?;
    if file.metadata()?.is_dir() {
        return Err(io::Error::new(io::ErrorKind::IsADirectory, "it is a folder"));
    }
    Ok(file)
}

/// The table at the front of what is read: no more than its header tells of, and one byte behind it.
///
/// # Errors
///
/// Where reading fails or the bytes are no table.
pub fn table_from(mut from: impl Read) -> Result<Loaded, InputError> {
    let mut head = Vec::new();
    from.by_ref().take(Header::BYTES as u64).read_to_end(&mut head)?;
    let header = match Header::of(&head) {
        Err(_) if is_xml(&head) => return Err(InputError::Xml),
        header => header?,
    };
    let mut body = Vec::new();
    from.by_ref().take(header.body() as u64).read_to_end(&mut body)?;
    let table = header.table(&body)?;
    let mut more = [0];
    let trailing = loop {
        match from.read(&mut more) {
            Err(e) if e.kind() == io::ErrorKind::Interrupted => {}
            n => break n? > 0,
        }
    };
    Ok(Loaded { table, trailing })
}

// No table within the limits begins so: one of 60 events begins with the byte of `<`, too, but its third and fourth bytes are 0.
fn is_xml(head: &[u8]) -> bool {
    !counts_events(head) && first_tag(head).starts_with(b"<")
}

// Whether the first four bytes are a number of events within the limits.
fn counts_events(head: &[u8]) -> bool {
    head.first_chunk().is_some_and(|word| u32::from_le_bytes(*word) as usize <= EVENTS)
}

// What stands behind a byte-order mark and white space.
fn first_tag(head: &[u8]) -> &[u8] {
    head.strip_prefix(b"\xef\xbb\xbf").unwrap_or(head).trim_ascii_start()
}
