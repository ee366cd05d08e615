//! Reports as owned values, with the names, fields and builder methods of the crate quick-junit 0.8.0.
//!
//! A program that uses quick-junit takes this module in its place:
//!
//! ```
//! use kerzhoma::report as quick_junit;
//! use quick_junit::{NonSuccessKind, Report, TestCase, TestCaseStatus, TestSuite};
//!
//! let mut suite = TestSuite::new("lab");
//! suite.add_test_case(TestCase::new("a", TestCaseStatus::success()));
//! let mut status = TestCaseStatus::non_success(NonSuccessKind::Failure);
//! status.set_message("not equal");
//! suite.add_test_case(TestCase::new("b", status));
//! let mut report = Report::new("my-run");
//! report.add_test_suite(suite);
//!
//! let xml = report.to_string()?;
//! assert_eq!(Report::deserialize_from_str(&xml)?, report);
//! # Ok::<(), Box<dyn std::error::Error>>(())
//! ```
//!
//! docs/MIGRATING.md names what differs. quick-junit's types hold some of the crates chrono, uuid, newtype-uuid and indexmap; the modules
//! [`chrono`], [`uuid`] and [`indexmap`] have small ones with the same names and the methods that programs use, so that this crate has
//! no dependencies.
//!
//! Reading is tokenizing and reading by the proved library, and the tree decoded ([`Report::from`] a [`Tree`](crate::Tree)). Writing is
//! the tree laid out ([`Report::layout`]), checked by the proved check of layouts, and written by the proved writer of XML. Decoding and
//! laying out are code of this crate: tested, not proved.
#![forbid(unsafe_code)]

mod blame;
mod case;
pub mod chrono;
mod decode;
mod encode;
mod errors;
pub mod indexmap;
mod text;
mod types;
pub mod uuid;

pub use crate::{FlakyOrRerun, NonSuccessKind};
pub use case::{NonSuccessReruns, Property, TestCase, TestCaseStatus, TestRerun};
pub use encode::Layout;
pub use errors::{
    AttrError, DeserializeError, DeserializeErrorKind, EscapeError, LimitError, PathElement, SerializeError, SerializeErrorKind, XmlError,
};
pub use text::{Output, XmlString};
pub use types::{Report, TestSuite};
pub use uuid::{ReportKind, ReportUuid};

/// The key of the suite's extra that the library has a field for.
const HOSTNAME: &str = "hostname";
