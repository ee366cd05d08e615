//! A report as it lies in its areas, by docs/TREE.md: nothing is copied.
#![forbid(unsafe_code)]

use crate::limits::{self, RECORD};
use crate::table::LINE;
use crate::{sys, Cause, Counts, FlakyOrRerun, NonSuccessKind, Refusal, Timestamp};
use std::{iter::FusedIterator, time::Duration};

pub(crate) mod kind {
    pub const REPORT: u32 = 1;
    pub const SUITE: u32 = 2;
    pub const CASE: u32 = 3;
    pub const SUITE_PROPERTY: u32 = 4;
    pub const CASE_PROPERTY: u32 = 5;
    pub const FAILURE: u32 = 6;
    pub const ERROR: u32 = 7;
    pub const SKIPPED: u32 = 8;
    pub const FLAKY_FAILURE: u32 = 9;
    pub const FLAKY_ERROR: u32 = 10;
    pub const RERUN_FAILURE: u32 = 11;
    pub const RERUN_ERROR: u32 = 12;
    pub const SUITE_EXTRA: u32 = 13;
    pub const CASE_EXTRA: u32 = 14;
    // from here on: replaced by a later record
    pub const DEAD: u32 = 16;
}

/// The records and texts of a report, in document order.
#[derive(Clone, Copy)]
struct Store<'a> {
    records: &'a [u32],
    text: &'a str,
}

/// One record: its 32 words.
#[derive(Clone, Copy)]
pub(crate) struct Record<'a> {
    words: &'a [u32; RECORD],
    text: &'a str,
}

impl<'a> Record<'a> {
    pub(crate) fn kind(self) -> u32 {
        self.words[0]
    }

    pub(crate) fn words(self) -> &'a [u32; RECORD] {
        self.words
    }

    pub(crate) fn has(self, bit: u32) -> bool {
        self.words[1] & (1 << bit) != 0
    }

    // The layout has the text's ends inside the text area and beside characters.
    pub(crate) fn text_at(self, word: usize) -> &'a str {
        let start = self.words[word] as usize;
        let end = start.saturating_add(self.words[word + 1] as usize);
        self.text.get(start..end).unwrap_or_default()
    }

    pub(crate) fn text(self, bit: u32, word: usize) -> Option<&'a str> {
        self.has(bit).then(|| self.text_at(word))
    }

    pub(crate) fn number(self, word: usize) -> u64 {
        u64::from(self.words[word]) | u64::from(self.words[word + 1]) << 32
    }

    pub(crate) fn counts(self) -> Counts {
        Counts {
            tests: self.number(18),
            failures: self.number(20),
            errors: self.number(22),
            skipped: self.number(24),
            disabled: self.has(8).then(|| self.number(26)),
        }
    }

    pub(crate) fn timestamp(self) -> Option<Timestamp> {
        let w = self.words;
        self.has(3).then(|| Timestamp::of([w[8], w[9], w[10], w[11], w[12], w[13], w[14], w[15]]))
    }

    pub(crate) fn time(self) -> Option<Duration> {
        self.has(4).then(|| Duration::new(u64::from(self.words[16]), self.words[17]))
    }
}

impl<'a> Store<'a> {
    fn get(self, i: usize) -> Option<Record<'a>> {
        let words = self.records.get(i * RECORD..(i + 1) * RECORD)?;
        Some(Record { words: words.try_into().ok()?, text: self.text })
    }

    // The live records from i on, with their places.
    fn live(self, i: usize) -> impl Iterator<Item = (usize, Record<'a>)> {
        (i..).map_while(move |i| Some((i, self.get(i)?))).filter(|(_, r)| r.kind() < kind::DEAD)
    }
}

/// A report that was read, built, or found in two areas; it borrows them.
///
/// ```
/// use kerzhoma::{read, Areas, Status, TableBuilder};
///
/// let mut table = TableBuilder::new();
/// table.start("testsuites");
/// table.start("testsuite").attribute("name", "lab").attribute("hostname", "bench-7");
/// table.empty("testcase").attribute("name", "a").attribute("time", "0.25");
/// table.start("testcase").attribute("name", "b");
/// table.empty("failure").attribute("message", "not equal");
/// table.end("testcase").end("testsuite").end("testsuites");
/// let mut areas = Areas::for_table(&table.table());
/// let tree = read(&table.table(), &mut areas)?;
///
/// for suite in tree.suites() {
///     println!("{}: {:?}", suite.name(), suite.hostname());
///     for case in suite.cases() {
///         match case.status() {
///             Status::Success { flaky_runs } => println!("{} passed, {} flaky runs", case.name(), flaky_runs.count()),
///             Status::NonSuccess { kind, message, .. } => println!("{} {kind:?}: {message:?}", case.name()),
///             Status::Skipped { .. } => println!("{} skipped", case.name()),
///         }
///     }
/// }
/// # let names: Vec<_> = tree.suites().flat_map(|s| s.cases()).map(|c| c.name()).collect();
/// # assert_eq!(names, ["a", "b"]);
/// # Ok::<(), kerzhoma::Refusal>(())
/// ```
#[derive(Clone, Copy)]
pub struct Tree<'a> {
    store: Store<'a>,
    report: Record<'a>,
    at: usize,
}

impl<'a> Tree<'a> {
    /// The report in two areas that hold a layout by docs/TREE.md.
    ///
    /// # Errors
    ///
    /// 15 where they hold none.
    pub fn from_layout(records: &'a [u32], text: &'a [u8]) -> Result<Self, Refusal> {
        if !sys::is_layout(records, text) {
            return Err(Refusal::late(Cause::NotLayout));
        }
        Self::over(records, text)
    }

    // Of areas that hold a layout. Records stand at the front with a kind, and zeros behind them; texts have no zero byte, and zeros
    // stand behind them. What is kept is the two fronts.
    pub(crate) fn over(records: &'a [u32], text: &'a [u8]) -> Result<Self, Refusal> {
        let (rows, _) = records.as_chunks::<RECORD>();
        let rows = &rows[..rows.len().min(limits::RECORDS)];
        let used = rows.partition_point(|r| r[0] != 0);
        let text = &text[..text.len().min(limits::BYTES)];
        let text = &text[..text.partition_point(|b| *b != 0)];
        let found = std::str::from_utf8(text).ok().and_then(|text| {
            let store = Store { records: rows[..used].as_flattened(), text };
            let (at, report) = store.live(0).next()?;
            (report.kind() == kind::REPORT).then_some(Tree { store, report, at })
        });
        found.ok_or(Refusal::late(Cause::NotLayout))
    }

    /// The records, 32 words each.
    pub fn records(&self) -> &'a [u32] {
        self.store.records
    }

    /// All texts, also those that were replaced.
    pub fn text(&self) -> &'a str {
        self.store.text
    }

    /// The report's name.
    pub fn name(&self) -> Option<&'a str> {
        self.report.text(0, 2)
    }

    /// Its 16 bytes, the first one first.
    pub fn uuid(&self) -> Option<[u8; 16]> {
        let mut uuid = [0; 16];
        for (bytes, word) in uuid.chunks_exact_mut(4).zip(&self.report.words[4..8]) {
            bytes.copy_from_slice(&word.to_be_bytes());
        }
        self.report.has(1).then_some(uuid)
    }

    /// When the run began.
    pub fn timestamp(&self) -> Option<Timestamp> {
        self.report.timestamp()
    }

    /// How long the run took.
    pub fn time(&self) -> Option<Duration> {
        self.report.time()
    }

    /// The report's own counts, as they were read or added up.
    pub fn counts(&self) -> Counts {
        self.report.counts()
    }

    /// The suites, in document order.
    pub fn suites(&self) -> Suites<'a> {
        Suites { store: self.store, next: self.at + 1 }
    }

    // The live records, in document order: the report, then what stands in it.
    pub(crate) fn live(&self) -> impl Iterator<Item = Record<'a>> {
        let (rows, _) = self.store.records.as_chunks::<RECORD>();
        let text = self.store.text;
        rows[self.at..].iter().filter(|r| r[0] < kind::DEAD).map(move |words| Record { words, text })
    }

    // The lengths of the longest listing, and of the longest written table, that this report can have; its live records and the bytes of
    // their texts, each text by itself.
    pub(crate) fn bounds(&self) -> Bounds {
        let mut bounds = Bounds::default();
        for (_, r) in self.store.live(0) {
            // a missing text has length 0
            let len = |word: usize| u64::from(r.words[word]);
            // what the listing shows of the record, and all of its texts
            let (line, all) = match r.kind() {
                kind::REPORT => (LINE + 2 * len(3), len(3)),
                kind::SUITE => (LINE + 2 * len(3), len(3) + len(5) + len(7) + len(29)),
                kind::CASE => (CASE_LINE + 2 * (len(3) + len(19)), len(3) + len(5) + len(7) + len(19)),
                kind::SUITE_PROPERTY | kind::CASE_PROPERTY | kind::SUITE_EXTRA | kind::CASE_EXTRA => (0, len(3) + len(5)),
                kind::FAILURE | kind::ERROR | kind::SKIPPED => (0, len(3) + len(19) + len(21)),
                _ => (RUN_LINE, len(3) + len(5) + len(7) + len(19) + len(21) + len(23)),
            };
            bounds.listing += line;
            bounds.bytes += WRITTEN + 6 * all;
            bounds.entries += ENTRIES;
            bounds.records += 1;
            bounds.texts += all;
        }
        bounds
    }
}

/// Bytes of the lines of a case and of a run, without texts, at most.
const CASE_LINE: u64 = 64;
const RUN_LINE: u64 = 32;
/// Bytes of an element without its texts, as it is written: tags and keys of it and what stands in it, its numbers.
const WRITTEN: u64 = 1024;
/// Events or attributes that are written for one record: tag, ends, indents, outputs, a list of properties.
const ENTRIES: u64 = 32;

#[derive(Clone, Copy, Default)]
pub(crate) struct Bounds {
    pub listing: u64,
    pub entries: u64,
    pub bytes: u64,
    pub records: u64,
    pub texts: u64,
}

impl std::fmt::Debug for Tree<'_> {
    /// Tells the sizes, and none of the texts.
    fn fmt(&self, f: &mut std::fmt::Formatter<'_>) -> std::fmt::Result {
        f.debug_struct("Tree")
            .field("records", &(self.store.records.len() / RECORD))
            .field("text", &self.store.text.len())
            .field("counts", &self.counts())
            .finish()
    }
}

/// The suites of a report, in document order.
#[derive(Clone)]
pub struct Suites<'a> {
    store: Store<'a>,
    next: usize,
}

impl<'a> Iterator for Suites<'a> {
    type Item = Suite<'a>;

    fn next(&mut self) -> Option<Suite<'a>> {
        let found = self.store.live(self.next).find(|(_, r)| r.kind() == kind::SUITE);
        let Some((at, record)) = found else {
            self.next = self.store.records.len() / RECORD;
            return None;
        };
        self.next = at + 1;
        Some(Suite { store: self.store, record, at })
    }
}

impl FusedIterator for Suites<'_> {}

/// A suite of a report.
#[derive(Clone, Copy)]
pub struct Suite<'a> {
    store: Store<'a>,
    record: Record<'a>,
    at: usize,
}

impl<'a> Suite<'a> {
    /// The suite's name.
    pub fn name(&self) -> &'a str {
        self.record.text_at(2)
    }

    /// The suite's own counts.
    pub fn counts(&self) -> Counts {
        self.record.counts()
    }

    /// When the suite began.
    pub fn timestamp(&self) -> Option<Timestamp> {
        self.record.timestamp()
    }

    /// How long the suite took.
    pub fn time(&self) -> Option<Duration> {
        self.record.time()
    }

    /// The machine that the suite ran on.
    pub fn hostname(&self) -> Option<&'a str> {
        self.record.text(10, 28)
    }

    /// What was written to standard output.
    pub fn system_out(&self) -> Option<&'a str> {
        self.record.text(1, 4)
    }

    /// What was written to standard error.
    pub fn system_err(&self) -> Option<&'a str> {
        self.record.text(2, 6)
    }

    /// The cases, in document order.
    pub fn cases(&self) -> Cases<'a> {
        Cases { store: self.store, next: self.at + 1 }
    }

    /// The properties, in document order.
    pub fn properties(&self) -> Properties<'a> {
        Properties { store: self.store, next: self.at + 1, kind: kind::SUITE_PROPERTY, ends: ends_suite }
    }

    /// Attributes that aren't the suite's own, such as `package`.
    pub fn extras(&self) -> Extras<'a> {
        Extras(Properties { store: self.store, next: self.at + 1, kind: kind::SUITE_EXTRA, ends: |k| k != kind::SUITE_EXTRA })
    }
}

fn ends_suite(kind: u32) -> bool {
    kind == kind::SUITE
}

// A case's records stand before the next case, suite or suite's property.
fn ends_case(kind: u32) -> bool {
    matches!(kind, kind::SUITE | kind::CASE | kind::SUITE_PROPERTY)
}

/// The cases of a suite, in document order.
#[derive(Clone)]
pub struct Cases<'a> {
    store: Store<'a>,
    next: usize,
}

impl<'a> Iterator for Cases<'a> {
    type Item = Case<'a>;

    fn next(&mut self) -> Option<Case<'a>> {
        let found = self.store.live(self.next).find(|(_, r)| r.kind() == kind::CASE || ends_suite(r.kind()));
        match found {
            Some((at, record)) if record.kind() == kind::CASE => {
                self.next = at + 1;
                Some(Case { store: self.store, record, at })
            }
            _ => {
                self.next = self.store.records.len() / RECORD;
                None
            }
        }
    }
}

impl FusedIterator for Cases<'_> {}

/// A case of a suite.
#[derive(Clone, Copy)]
pub struct Case<'a> {
    store: Store<'a>,
    record: Record<'a>,
    at: usize,
}

impl<'a> Case<'a> {
    /// The case's name.
    pub fn name(&self) -> &'a str {
        self.record.text_at(2)
    }

    /// The class name.
    pub fn classname(&self) -> Option<&'a str> {
        self.record.text(5, 18)
    }

    /// The number of assertions.
    pub fn assertions(&self) -> Option<u64> {
        self.record.has(6).then(|| self.record.number(20))
    }

    /// When the case began.
    pub fn timestamp(&self) -> Option<Timestamp> {
        self.record.timestamp()
    }

    /// How long the case took.
    pub fn time(&self) -> Option<Duration> {
        self.record.time()
    }

    /// What was written to standard output.
    pub fn system_out(&self) -> Option<&'a str> {
        self.record.text(1, 4)
    }

    /// What was written to standard error.
    pub fn system_err(&self) -> Option<&'a str> {
        self.record.text(2, 6)
    }

    /// The properties, in document order.
    pub fn properties(&self) -> Properties<'a> {
        Properties { store: self.store, next: self.at + 1, kind: kind::CASE_PROPERTY, ends: ends_case }
    }

    /// Attributes that aren't the case's own.
    pub fn extras(&self) -> Extras<'a> {
        Extras(Properties { store: self.store, next: self.at + 1, kind: kind::CASE_EXTRA, ends: |k| k != kind::CASE_EXTRA })
    }

    /// What the case comes to, by its status elements.
    pub fn status(&self) -> Status<'a> {
        let runs = Runs { store: self.store, next: self.at + 1 };
        let mut main = None;
        let mut family = None;
        for (_, r) in self.store.live(self.at + 1).take_while(|(_, r)| !ends_case(r.kind())) {
            match r.kind() {
                kind::FAILURE | kind::ERROR | kind::SKIPPED => main = Some(r),
                kind::FLAKY_FAILURE | kind::FLAKY_ERROR => family = Some(FlakyOrRerun::Flaky),
                kind::RERUN_FAILURE | kind::RERUN_ERROR => family = Some(FlakyOrRerun::Rerun),
                _ => {}
            }
        }
        let Some(main) = main else {
            return Status::Success { flaky_runs: runs };
        };
        let (message, ty, description) = (main.text(0, 2), main.text(5, 18), main.text(6, 20));
        if main.kind() == kind::SKIPPED {
            return Status::Skipped { message, ty, description };
        }
        let kind = if main.kind() == kind::FAILURE { NonSuccessKind::Failure } else { NonSuccessKind::Error };
        let alone = if main.has(9) { FlakyOrRerun::Flaky } else { FlakyOrRerun::Rerun };
        Status::NonSuccess { kind, message, ty, description, reruns: Reruns { kind: family.unwrap_or(alone), runs } }
    }
}

/// What a case comes to.
#[derive(Clone)]
pub enum Status<'a> {
    /// It passed, perhaps behind runs that didn't.
    Success {
        /// Those runs.
        flaky_runs: Runs<'a>,
    },
    /// It didn't pass.
    NonSuccess {
        /// Failure or error.
        kind: NonSuccessKind,
        /// The message.
        message: Option<&'a str>,
        /// The type.
        ty: Option<&'a str>,
        /// The text of the element.
        description: Option<&'a str>,
        /// The runs.
        reruns: Reruns<'a>,
    },
    /// It wasn't run.
    Skipped {
        /// The message.
        message: Option<&'a str>,
        /// The type.
        ty: Option<&'a str>,
        /// The text of the element.
        description: Option<&'a str>,
    },
}

/// The runs of a failure or error, and of which kind they are, also while there are none.
#[derive(Clone)]
pub struct Reruns<'a> {
    /// Flaky runs or reruns.
    pub kind: FlakyOrRerun,
    /// The runs.
    pub runs: Runs<'a>,
}

/// The runs of a case, in document order.
#[derive(Clone)]
pub struct Runs<'a> {
    store: Store<'a>,
    next: usize,
}

impl<'a> Iterator for Runs<'a> {
    type Item = Run<'a>;

    fn next(&mut self) -> Option<Run<'a>> {
        let is_run = |k: u32| (kind::FLAKY_FAILURE..=kind::RERUN_ERROR).contains(&k);
        let found = self.store.live(self.next).find(|(_, r)| is_run(r.kind()) || ends_case(r.kind()));
        match found {
            Some((at, record)) if is_run(record.kind()) => {
                self.next = at + 1;
                Some(Run { record })
            }
            _ => {
                self.next = self.store.records.len() / RECORD;
                None
            }
        }
    }
}

impl FusedIterator for Runs<'_> {}

/// One run of a case: a flaky one or a rerun.
#[derive(Clone, Copy)]
pub struct Run<'a> {
    record: Record<'a>,
}

impl<'a> Run<'a> {
    /// Failure or error.
    pub fn kind(&self) -> NonSuccessKind {
        match self.record.kind() {
            kind::FLAKY_FAILURE | kind::RERUN_FAILURE => NonSuccessKind::Failure,
            _ => NonSuccessKind::Error,
        }
    }

    /// The message.
    pub fn message(&self) -> Option<&'a str> {
        self.record.text(0, 2)
    }

    /// The type.
    pub fn ty(&self) -> Option<&'a str> {
        self.record.text(5, 18)
    }

    /// The text of the element.
    pub fn description(&self) -> Option<&'a str> {
        self.record.text(6, 20)
    }

    /// The stack trace.
    pub fn stack_trace(&self) -> Option<&'a str> {
        self.record.text(7, 22)
    }

    /// What was written to standard output.
    pub fn system_out(&self) -> Option<&'a str> {
        self.record.text(1, 4)
    }

    /// What was written to standard error.
    pub fn system_err(&self) -> Option<&'a str> {
        self.record.text(2, 6)
    }

    /// When the run began.
    pub fn timestamp(&self) -> Option<Timestamp> {
        self.record.timestamp()
    }

    /// How long the run took.
    pub fn time(&self) -> Option<Duration> {
        self.record.time()
    }
}

/// A property's name and value.
#[derive(Clone, Copy, Debug, PartialEq, Eq)]
pub struct Property<'a> {
    /// The name.
    pub name: &'a str,
    /// The value.
    pub value: &'a str,
}

/// The properties of a suite or case, in document order.
#[derive(Clone)]
pub struct Properties<'a> {
    store: Store<'a>,
    next: usize,
    kind: u32,
    ends: fn(u32) -> bool,
}

impl<'a> Iterator for Properties<'a> {
    type Item = Property<'a>;

    fn next(&mut self) -> Option<Property<'a>> {
        let (kind, ends) = (self.kind, self.ends);
        let found = self.store.live(self.next).find(|(_, r)| r.kind() == kind || ends(r.kind()));
        match found {
            Some((at, record)) if record.kind() == kind => {
                self.next = at + 1;
                Some(Property { name: record.text_at(2), value: record.text_at(4) })
            }
            _ => {
                self.next = self.store.records.len() / RECORD;
                None
            }
        }
    }
}

impl FusedIterator for Properties<'_> {}

/// The extra attributes of a suite or case, keys and values, in document order.
#[derive(Clone)]
pub struct Extras<'a>(Properties<'a>);

impl<'a> Iterator for Extras<'a> {
    type Item = (&'a str, &'a str);

    fn next(&mut self) -> Option<(&'a str, &'a str)> {
        self.0.next().map(|p| (p.name, p.value))
    }
}

impl FusedIterator for Extras<'_> {}

/// Tells nothing, so that no text of a report gets into a log.
macro_rules! silent {
    ($($name:ident),*) => { $(
        impl std::fmt::Debug for $name<'_> {
            fn fmt(&self, f: &mut std::fmt::Formatter<'_>) -> std::fmt::Result {
                f.debug_struct(stringify!($name)).finish_non_exhaustive()
            }
        }
    )* };
}

silent!(Suites, Suite, Cases, Case, Reruns, Runs, Run, Properties, Extras);

impl std::fmt::Debug for Status<'_> {
    /// Tells which, and none of the texts.
    fn fmt(&self, f: &mut std::fmt::Formatter<'_>) -> std::fmt::Result {
        match self {
            Status::Success { .. } => f.write_str("Success"),
            Status::NonSuccess { kind, .. } => write!(f, "{kind:?}"),
            Status::Skipped { .. } => f.write_str("Skipped"),
        }
    }
}
