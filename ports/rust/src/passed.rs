//! Which `testcase` elements of a table its report leaves out.
#![forbid(unsafe_code)]

use crate::{sys, Table, Tree};

/// The `testcase` elements of a table, and the cases of its report.
///
/// Reading passes over a suite that stands inside a suite, over elements that it doesn't know, and over what stands outside a suite, each
/// with the cases in it; a second `testsuites` replaces the first. A report that is read from a table never has more cases than the table
/// has `testcase` tags, which is proved.
#[derive(Clone, Copy, Debug, PartialEq, Eq, Hash)]
pub struct CaseTags {
    /// Starts and Empties of that name among the table's events.
    pub tags: usize,
    /// Those of the report.
    pub cases: usize,
}

impl CaseTags {
    /// Of a table and the report that was read from it.
    ///
    /// ```
    /// use kerzhoma::{read, tokenize, Areas, CaseTags};
    ///
    /// let nested = b"<testsuites><testsuite name='a'><testcase name='b'/><testsuite name='c'><testcase name='d'/></testsuite>\
    ///     </testsuite></testsuites>";
    /// let table = tokenize(nested).unwrap();
    /// let mut areas = Areas::for_table(&table.as_table());
    /// let counted = CaseTags::of(&table.as_table(), &read(&table.as_table(), &mut areas)?);
    /// assert_eq!((counted.tags, counted.cases, counted.left_out()), (2, 1, 1));
    /// # Ok::<(), kerzhoma::Refusal>(())
    /// ```
    pub fn of(table: &Table<'_>, tree: &Tree<'_>) -> Self {
        CaseTags { tags: table.case_tags(), cases: tree.suites().map(|suite| suite.cases().count()).sum() }
    }

    /// How many are no case of the report; 0 where the report is that of another table with less of them.
    pub fn left_out(&self) -> usize {
        self.tags.saturating_sub(self.cases)
    }
}

impl Table<'_> {
    /// How many Starts and Empties named `testcase` the events have, wherever they stand.
    pub fn case_tags(&self) -> usize {
        sys::case_tags(self.events, self.source)
    }
}
