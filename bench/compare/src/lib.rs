//! The comparison of the proved library with quick-junit 0.8.0 and with expat, in one process. See README.md beside this.
pub mod builders;
pub mod calls;
pub mod compare;
pub mod coverage;
pub mod documents;
#[cfg(has_expat)]
pub mod expat;
pub mod explain;
pub mod fixed;
pub mod fuzz;
pub mod generator;
pub mod lenient;
pub mod merging;
pub mod numbers;
pub mod programs;
pub mod random;
pub mod reference;
pub mod report;
pub mod respelling;
pub mod shrink;
#[path = "../../../ports/rust/src/sys.rs"]
#[allow(dead_code)]
pub mod sys;
pub mod table;
#[cfg(test)]
mod tests;
#[cfg(has_expat)]
pub mod tokens;
#[cfg(writes_xml)]
pub mod write_xml;

/// What the requests that have landed changed (docs/DIFFERENCES.md), 8 and 12 among them; 3 and 7 stand in `respelling`.
pub fn changes() -> quick_xml::replay::Changes {
    quick_xml::replay::Changes { scratch_alone: true, hostname: true }
}
