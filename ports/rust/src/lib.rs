//! Reads JUnit test reports that come as XML documents or as tables of their events, lists them publicly, builds them, and writes them again as tables.
//!
//! The work is done by Kerzhoma's library, whose every function is proved; this crate gives it the shape of Rust. Its own code, that is
//! what makes tables, walks trees and parses files, is tested, not proved.
//!
//! - A [`Table`] is events, attributes and source bytes: of an XML document ([`tokenize()`]), from a file ([`TableBuf::from_bytes`]) or made
//!   by a [`TableBuilder`].
//! - [`Areas`] are what reading works in, allocated once. [`read`] gives a [`Tree`] that borrows them, or a [`Refusal`].
//! - [`list`] gives the listing without private text, [`read_and_list`] and [`read_and_list_xml`] the same in one call that keeps no tree,
//!   [`write()`] the table of a report, [`starts`] its first and last start, [`merge`] two reports as one, [`explain`] a refusal in words.
//! - A [`ReportBuilder`] makes a report from nothing, [`rehearse()`] the table of one with the numbers of an [`Order`].
//! - [`release_sheet`] and [`print_sheet`] sum the [`Counts`] of many reports.
//! - [`report`] has reports as owned values, with the names of the crate quick-junit, from and to XML documents.
//!
//! ```
//! use kerzhoma::{list, read, Areas, TableBuf};
//!
//! # let file = { let mut t = kerzhoma::TableBuilder::new(); t.empty("testsuites"); t.finish().to_bytes() };
//! let (table, _) = TableBuf::from_bytes(&file)?;
//! let mut areas = Areas::for_table(&table.as_table());
//! let tree = read(&table.as_table(), &mut areas)?;
//! print!("{}", list(&tree)?);
//! # Ok::<(), Box<dyn std::error::Error>>(())
//! ```
//!
//! `unsafe` stands in one module, `sys`, which has the calls and nothing else. `forbid` can't be lifted for one module, so the root
//! denies `unsafe`, and every other module forbids it.
#![deny(missing_docs, unsafe_code)]
#![warn(missing_debug_implementations)]

mod areas;
mod builder;
mod calls;
mod document;
pub mod input;
pub mod limits;
mod passed;
mod place;
mod refusal;
pub mod report;
mod sheet;
#[allow(unsafe_code, clippy::too_many_arguments)]
mod sys;
mod table;
mod tree;
mod values;

pub use areas::Areas;
pub use builder::{CaseBuilder, ReportBuilder, RunBuilder, SuiteBuilder};
pub use calls::{
    explain, list, list_into, merge, public_listing, public_listing_into, read, read_and_list, read_and_list_into, rehearse, rehearse_into, starts, to_xml,
    write, write_into, write_xml, Order,
};
pub use document::{explain_xml, list_xml, read_and_list_xml, tokenize, tokenize_into, DocumentRefusal, XmlRefusal};
pub use passed::CaseTags;
pub use place::Place;
pub use refusal::{Cause, PathElement, Refusal};
pub use sheet::{print_sheet, print_sheet_into, release_sheet, Sheet};
pub use table::{Table, TableBuf, TableBuilder, TableError, Tag};
pub use tree::{Case, Cases, Extras, Properties, Property, Reruns, Run, Runs, Status, Suite, Suites, Tree};
pub use values::{time_text, Counts, FlakyOrRerun, NonSuccessKind, Outcome, Starts, Timestamp};
