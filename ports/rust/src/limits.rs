//! How much of a table and of an area is used at most.
#![forbid(unsafe_code)]

/// Events of a table.
pub const EVENTS: usize = 65_536;
/// Attributes of a table.
pub const ATTRIBUTES: usize = 65_536;
/// Bytes of a table's source.
pub const SOURCE: usize = 16_777_216;
/// Records of a tree.
pub const RECORDS: usize = 65_536;
/// Bytes of a text area, of scratch, and of a written table.
pub const BYTES: usize = 16_777_216;
/// Reports of a release sheet.
pub const REPORTS: usize = 4_096;
/// Words of an event or an attribute.
pub(crate) const ENTRY: usize = 5;
/// Words of a record.
pub(crate) const RECORD: usize = 32;
