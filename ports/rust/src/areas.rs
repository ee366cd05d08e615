//! The areas that reading and building work in.
#![forbid(unsafe_code)]

use crate::limits::{self, RECORD};
use crate::table::Table;
use crate::{Refusal, Tree};

/// The areas that a report is read or built in, allocated once and used again by each call.
///
/// Behind [`read`](crate::read) and a builder they hold the report's texts, private ones too, until [`clear`](Areas::clear) or the next
/// call that reads or builds. Behind [`read_and_list`](crate::read_and_list), [`public_listing`](crate::public_listing) and
/// [`list_xml`](crate::list_xml) they are zero.
///
/// ```
/// use kerzhoma::{read, Areas, TableBuilder};
///
/// let mut areas = Areas::new(100, 10_000, 10_000);
/// for name in ["first", "second"] {
///     let mut table = TableBuilder::new();
///     table.empty("testsuites").attribute("name", name);
///     assert_eq!(read(&table.table(), &mut areas)?.name(), Some(name));
/// }
/// # Ok::<(), kerzhoma::Refusal>(())
/// ```
#[derive(Clone, Default)]
pub struct Areas {
    pub(crate) records: Vec<u32>,
    pub(crate) text: Vec<u8>,
    pub(crate) scratch: Vec<u8>,
}

impl Areas {
    /// Areas for so many records, bytes of text, and bytes of text that is being gathered. More than the limits isn't used.
    ///
    /// A call clears all of its areas, so larger ones than needed cost time.
    pub fn new(records: usize, text: usize, scratch: usize) -> Self {
        Areas {
            records: vec![0; records.min(limits::RECORDS) * RECORD],
            text: vec![0; text.min(limits::BYTES)],
            scratch: vec![0; scratch.min(limits::BYTES)],
        }
    }

    /// Areas of the limits' size: 8 MiB for records, 16 MiB each for text and scratch.
    pub fn full() -> Self {
        Self::new(limits::RECORDS, limits::BYTES, limits::BYTES)
    }

    /// Areas as long as reading this table can need: 12, 13 and 14 come only where the limits are too short. Where an element has many
    /// attributes, there is room to sort and mark them, so that it isn't slow either.
    pub fn for_table(table: &Table<'_>) -> Self {
        let needs = table.needs();
        let size = |n: u64| usize::try_from(n).unwrap_or(usize::MAX);
        Self::new(size(needs.records), size(needs.text), size(needs.scratch))
    }

    /// Areas as long as merging these two reports can need: 12 and 13 come only where the limits are too short.
    pub fn for_merging(first: &Tree<'_>, second: &Tree<'_>) -> Self {
        let (a, b) = (first.bounds(), second.bounds());
        let size = |n: u64| usize::try_from(n).unwrap_or(usize::MAX);
        Self::new(size(a.records + b.records), size(a.texts + b.texts), 0)
    }

    /// Makes each area at least as long as reading this table can need.
    pub fn grow_for(&mut self, table: &Table<'_>) {
        let needs = table.needs();
        let size = |n: u64, limit: usize| usize::try_from(n).unwrap_or(limit).min(limit);
        let records = size(needs.records, limits::RECORDS) * RECORD;
        let text = size(needs.text, limits::BYTES);
        let scratch = size(needs.scratch, limits::BYTES);
        if self.records.len() < records {
            self.records.resize(records, 0);
        }
        if self.text.len() < text {
            self.text.resize(text, 0);
        }
        if self.scratch.len() < scratch {
            self.scratch.resize(scratch, 0);
        }
    }

    /// The report that reading, building or merging left in these areas.
    ///
    /// # Errors
    ///
    /// 15 where they hold none.
    pub fn tree(&self) -> Result<Tree<'_>, Refusal> {
        Tree::from_layout(&self.records, &self.text)
    }

    /// Fills all areas with zeros, so that no text of a report is left in them.
    pub fn clear(&mut self) {
        self.records.fill(0);
        self.text.fill(0);
        self.scratch.fill(0);
    }

    /// Whether all areas are zero: as they are new, behind [`clear`](Areas::clear), behind a refusal of reading or building, and behind the
    /// calls that read and list in one.
    pub fn is_clear(&self) -> bool {
        let bytes = |area: &[u8]| area.iter().all(|b| *b == 0);
        self.records.iter().all(|w| *w == 0) && bytes(&self.text) && bytes(&self.scratch)
    }
}

impl std::fmt::Debug for Areas {
    /// Tells the lengths, and none of the texts.
    fn fmt(&self, f: &mut std::fmt::Formatter<'_>) -> std::fmt::Result {
        f.debug_struct("Areas")
            .field("records", &(self.records.len() / RECORD))
            .field("text", &self.text.len())
            .field("scratch", &self.scratch.len())
            .finish()
    }
}
