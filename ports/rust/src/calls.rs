//! Reading, listing, writing, merging, ordering and explaining.
#![forbid(unsafe_code)]

use crate::limits::{self, ENTRY};
use crate::refusal::Lent;
use crate::table::LINE;
use crate::{sys, Areas, Refusal, Starts, Table, TableBuf, Timestamp, Tree};
use std::time::Duration;

/// Reads a table into areas.
///
/// # Errors
///
/// The refusal, by docs/REFUSALS.md; the areas are zero then.
///
/// ```
/// use kerzhoma::{list, read, Areas, TableBuilder};
///
/// let mut table = TableBuilder::new();
/// table.empty("testsuites").attribute("name", "r").attribute("tests", "2");
/// let mut areas = Areas::for_table(&table.table());
/// let tree = read(&table.table(), &mut areas)?;
/// assert_eq!(tree.counts().tests, 2);
/// assert_eq!(list(&tree)?, "(report \"r\" 2 0 0 0 -)\n");
/// # Ok::<(), kerzhoma::Refusal>(())
/// ```
pub fn read<'a>(table: &Table<'_>, areas: &'a mut Areas) -> Result<Tree<'a>, Refusal> {
    let Areas { records, text, scratch } = areas;
    let lent = Lent { records: records.len(), text: text.len(), scratch: scratch.len(), out: 0 };
    Refusal::result(sys::read(table.events, table.attributes, table.source, records, text, scratch), lent)?;
    Tree::over(records, text)
}

/// The longest listing of a report that was read or built: each text stands in the text area once, and is at most doubled.
const LONGEST: u64 = 2 * limits::BYTES as u64 + LINE * limits::RECORDS as u64;

fn area(bytes: u64) -> Vec<u8> {
    vec![0; bytes.min(LONGEST) as usize]
}

// What stands at the front of an area. Listings and explanations are UTF-8.
fn text_of(mut area: Vec<u8>, length: usize) -> String {
    area.truncate(length);
    area.shrink_to_fit();
    String::from_utf8(area).unwrap_or_else(|e| String::from_utf8_lossy(e.as_bytes()).into_owned())
}

/// The public listing of a report: its cases with their statuses, and no private text.
///
/// # Errors
///
/// 16 where it is longer than the listing of any report that was read or built. Only a layout from elsewhere, whose texts overlap, can
/// have such a listing; [`list_into`] takes an area of any length.
pub fn list(tree: &Tree<'_>) -> Result<String, Refusal> {
    let mut out = area(tree.bounds().listing);
    let length = list_into(tree, &mut out)?;
    Ok(text_of(out, length))
}

/// Puts the listing at the front of an area, and zeros behind it: how many bytes it takes.
///
/// # Errors
///
/// 16 where the area is too short; all of it is zero then.
pub fn list_into(tree: &Tree<'_>, out: &mut [u8]) -> Result<usize, Refusal> {
    let listing = sys::list(tree.records(), tree.text().as_bytes(), out);
    Refusal::result(listing.refusal, Lent { out: out.len(), ..Lent::default() })?;
    Ok(listing.length)
}

/// Reading and listing in one call: what [`read`] and then [`list`] give, and no tree that is left. The areas are zero behind it in every
/// case, so that they hold no text of the report; the table stays with the caller.
///
/// # Errors
///
/// The refusal of reading, with its place, and the areas for it; 16 as for [`list`]. [`explain`] takes either.
///
/// ```
/// use kerzhoma::{explain, read_and_list, Areas, TableBuilder};
///
/// let mut table = TableBuilder::new();
/// table.start("testsuites");
/// table.start("testsuite").attribute("name", "lab");
/// let mut areas = Areas::for_table(&table.table());
/// let refusal = read_and_list(&table.table(), &mut areas).unwrap_err();
/// assert!(explain(&refusal, &table.table()).starts_with("refused 8 at testsuites/testsuite[0](\"lab\"): "));
/// assert!(areas.is_clear());
///
/// table.end("testsuite").end("testsuites");
/// let mut areas = Areas::for_table(&table.table());
/// assert_eq!(read_and_list(&table.table(), &mut areas)?, "(report - 0 0 0 0 -\n(suite \"lab\" 0 0 0 0 -))\n");
/// assert!(areas.is_clear());
/// # Ok::<(), kerzhoma::Refusal>(())
/// ```
pub fn read_and_list(table: &Table<'_>, areas: &mut Areas) -> Result<String, Refusal> {
    let mut out = area(table.needs().listing);
    let length = read_and_list_into(table, areas, &mut out)?;
    Ok(text_of(out, length))
}

/// The same into an area, with zeros behind it: how many bytes it takes.
///
/// # Errors
///
/// The same; 16 where the area is too short. All of it is zero then.
pub fn read_and_list_into(table: &Table<'_>, areas: &mut Areas, out: &mut [u8]) -> Result<usize, Refusal> {
    let Areas { records, text, scratch } = areas;
    let lent = Lent { records: records.len(), text: text.len(), scratch: scratch.len(), out: out.len() };
    let listing = sys::read_and_list(table.events, table.attributes, table.source, records, text, scratch, out);
    Refusal::result(listing.refusal, lent)?;
    Ok(listing.length)
}

/// What is printed of [`read_and_list`]: the public listing of a table, or `(refused)` and a newline. The claims on public listings are
/// proved of this call.
///
/// ```
/// use kerzhoma::{public_listing, Areas, TableBuilder};
///
/// let mut table = TableBuilder::new();
/// table.start("testsuites");
/// let mut areas = Areas::for_table(&table.table());
/// assert_eq!(public_listing(&table.table(), &mut areas), "(refused)\n");
/// table.end("testsuites");
/// assert_eq!(public_listing(&table.table(), &mut areas), "(report - 0 0 0 0 -)\n");
/// ```
pub fn public_listing(table: &Table<'_>, areas: &mut Areas) -> String {
    let bound = table.needs().listing.saturating_add("(refused)\n".len() as u64);
    let mut out = area(bound);
    let length = public_listing_into(table, areas, &mut out);
    text_of(out, length)
}

/// The same into an area, with zeros behind it: how many bytes it takes. Where the area is too short for the listing, `(refused)` stands
/// there, as far as it fits. `areas` are zero in every case.
pub fn public_listing_into(table: &Table<'_>, areas: &mut Areas, out: &mut [u8]) -> usize {
    let Areas { records, text, scratch } = areas;
    sys::public_listing(table.events, table.attributes, table.source, records, text, scratch, out)
}

/// The table that a report is written as.
///
/// # Errors
///
/// 16 where it is larger than the limits.
///
/// ```
/// use kerzhoma::{list, read, write, Areas, TableBuilder};
///
/// let mut table = TableBuilder::new();
/// table.empty("testsuites").attribute("name", "r");
/// let mut areas = Areas::for_table(&table.table());
/// let tree = read(&table.table(), &mut areas)?;
/// let written = write(&tree)?;
///
/// let mut others = Areas::for_table(&written.as_table());
/// let again = read(&written.as_table(), &mut others)?;
/// assert_eq!(list(&again)?, list(&tree)?);
/// # Ok::<(), kerzhoma::Refusal>(())
/// ```
pub fn write(tree: &Tree<'_>) -> Result<TableBuf, Refusal> {
    let bounds = tree.bounds();
    let within = |n: u64, limit: usize| usize::try_from(n).unwrap_or(limit).min(limit);
    let mut made = TableBuf {
        events: vec![0; within(bounds.entries, limits::EVENTS) * ENTRY],
        attributes: vec![0; within(bounds.entries, limits::ATTRIBUTES) * ENTRY],
        source: vec![0; within(bounds.bytes, limits::BYTES)],
    };
    let table = write_into(tree, &mut made.events, &mut made.attributes, &mut made.source)?;
    let used = [table.events.len(), table.attributes.len(), table.source.len()];
    Ok(front_of(made, used))
}

// The parts of a table's areas that are in use.
fn front_of(mut made: TableBuf, [events, attributes, bytes]: [usize; 3]) -> TableBuf {
    made.events.truncate(events);
    made.attributes.truncate(attributes);
    made.source.truncate(bytes);
    made.events.shrink_to_fit();
    made.attributes.shrink_to_fit();
    made.source.shrink_to_fit();
    made
}

/// The same into three areas: words of events, words of attributes, bytes.
///
/// # Errors
///
/// 16 where one of them is too short; all of them are zero then.
pub fn write_into<'o>(
    tree: &Tree<'_>, events: &'o mut [u32], attributes: &'o mut [u32], bytes: &'o mut [u8],
) -> Result<Table<'o>, Refusal> {
    let writing = sys::write(tree.records(), tree.text().as_bytes(), events, attributes, bytes);
    written(writing, events, attributes, bytes)
}

// The table that was put into three areas, or why there is none.
fn written<'o>(
    writing: sys::Writing, events: &'o [u32], attributes: &'o [u32], bytes: &'o [u8],
) -> Result<Table<'o>, Refusal> {
    // where one of them is as long as the limits, these may be too short
    let most = events.len() >= limits::EVENTS * ENTRY || attributes.len() >= limits::ATTRIBUTES * ENTRY;
    let out = if most { limits::BYTES } else { bytes.len() };
    Refusal::result(writing.refusal, Lent { out, ..Lent::default() })?;
    let front = |n: usize, len: usize| n.min(len);
    let (m, n) = (front(writing.events * ENTRY, events.len()), front(writing.attributes * ENTRY, attributes.len()));
    let k = front(writing.bytes, bytes.len());
    Ok(Table::new(&events[..m], &attributes[..n], &bytes[..k]))
}

/// The most cases that are made to order.
const CASES: u64 = 4_096;

/// What a report to order has: so many cases, and of them failures, errors, skipped ones, and such as passed with one flaky failure; the
/// others just passed.
#[derive(Clone, Copy, Debug, Default, PartialEq, Eq, Hash)]
pub struct Order {
    /// All cases, at most 4,096.
    pub cases: u64,
    /// Cases that fail.
    pub failures: u64,
    /// Cases that err.
    pub errors: u64,
    /// Cases that are skipped.
    pub skipped: u64,
    /// Cases that pass with one flaky failure.
    pub flaky: u64,
}

/// The table of a report with just these numbers, to rehearse with.
///
/// Report and suite are named `rehearsal`, the cases `case0`, `case1` and so on: failures first, then errors, skipped, flaky, plain.
///
/// # Errors
///
/// 23 where there are more than 4,096 cases, and then 24 where the four kinds together exceed the cases, so that no report has such
/// numbers.
///
/// ```
/// use kerzhoma::{public_listing, rehearse, Areas, Order};
///
/// let table = rehearse(&Order { cases: 2, failures: 1, flaky: 1, ..Order::default() })?;
/// let mut areas = Areas::for_table(&table.as_table());
/// assert_eq!(
///     public_listing(&table.as_table(), &mut areas),
///     "(report \"rehearsal\" 2 1 0 0 -\n(suite \"rehearsal\" 2 1 0 0 -\n(case \"case0\" - - failure rerun 0)\n\
///      (case \"case1\" - - success flaky 1\n(run failure -))))\n"
/// );
/// assert_eq!(rehearse(&Order { cases: 1, failures: 2, ..Order::default() }).unwrap_err().number(), 24);
/// # Ok::<(), kerzhoma::Refusal>(())
/// ```
pub fn rehearse(order: &Order) -> Result<TableBuf, Refusal> {
    let cases = order.cases.min(CASES) as usize;
    let mut made =
        TableBuf { events: vec![0; (7 + 4 * cases) * ENTRY], attributes: vec![0; (10 + cases) * ENTRY], source: vec![0; 400 + 68 * cases] };
    let table = rehearse_into(order, &mut made.events, &mut made.attributes, &mut made.source)?;
    let used = [table.events.len(), table.attributes.len(), table.source.len()];
    Ok(front_of(made, used))
}

/// The same into three areas: words of events, words of attributes, bytes.
///
/// # Errors
///
/// 23 and 24, and then 16 where one of them is too short; all of them are zero then.
pub fn rehearse_into<'o>(
    order: &Order, events: &'o mut [u32], attributes: &'o mut [u32], bytes: &'o mut [u8],
) -> Result<Table<'o>, Refusal> {
    let Order { cases, failures, errors, skipped, flaky } = *order;
    let writing = sys::rehearse(cases, failures, errors, skipped, flaky, events, attributes, bytes);
    written(writing, events, attributes, bytes)
}

/// The first and last start of a run: the earliest and the latest timestamp of the report's cases, and the time between them; none
/// where no case has a timestamp. Offsets are taken into account; of those at the same instant it is the first in the report.
///
/// # Errors
///
/// 15 where the areas hold no layout; of a report that was read, built or found in two areas they do.
///
/// ```
/// use kerzhoma::{read, starts, Areas, TableBuilder};
/// use std::time::Duration;
///
/// let mut table = TableBuilder::new();
/// table.start("testsuites");
/// table.start("testsuite").attribute("name", "lab");
/// table.empty("testcase").attribute("name", "a").attribute("timestamp", "1990-12-31T23:59:59.5Z");
/// table.empty("testcase").attribute("name", "b").attribute("timestamp", "1990-12-31T15:59:59-08:00");
/// table.end("testsuite").end("testsuites");
/// let mut areas = Areas::for_table(&table.table());
/// let found = starts(&read(&table.table(), &mut areas)?)?.expect("two cases have one");
/// assert_eq!(found.first.to_string(), "1990-12-31T15:59:59-08:00");
/// assert_eq!(found.last.to_string(), "1990-12-31T23:59:59.5+00:00");
/// assert_eq!(found.span, Duration::from_millis(500));
/// # Ok::<(), kerzhoma::Refusal>(())
/// ```
pub fn starts(tree: &Tree<'_>) -> Result<Option<Starts>, Refusal> {
    let told = sys::starts(tree.records(), tree.text().as_bytes());
    Refusal::result(told.refusal, Lent::default())?;
    Ok(told.found.then(|| Starts {
        first: Timestamp::of_moment(told.first),
        last: Timestamp::of_moment(told.last),
        span: Duration::new(told.seconds, told.nanos),
    }))
}

/// Two halves of a run as one report: first the suites of one, then of the other, in other areas than theirs.
///
/// The name is the first's. Counts and times are added; `disabled` and the time are missing where both are. The timestamp is the earlier
/// instant, the first's if equal, the only one if one is missing. There is no UUID.
///
/// # Errors
///
/// 17 where a sum of counts passes its limit, then 22 where the summed time reaches 8,388,608 seconds, then 12 and 13 where areas or limits
/// are too short; 15 where areas hold no layout. The areas are zero then. Those of [`Areas::for_merging`] are long enough.
///
/// ```
/// use kerzhoma::{list, merge, read, Areas, TableBuilder};
///
/// let half = |name: &str, suite: &str| {
///     let mut table = TableBuilder::new();
///     table.start("testsuites").attribute("name", name).attribute("tests", "2");
///     table.empty("testsuite").attribute("name", suite).attribute("tests", "2");
///     table.end("testsuites");
///     table.finish()
/// };
/// let (a, b) = (half("night", "lab"), half("late", "field"));
/// let (mut at, mut bt) = (Areas::for_table(&a.as_table()), Areas::for_table(&b.as_table()));
/// let (first, second) = (read(&a.as_table(), &mut at)?, read(&b.as_table(), &mut bt)?);
/// let mut areas = Areas::for_merging(&first, &second);
/// let whole = merge(&first, &second, &mut areas)?;
/// assert_eq!(list(&whole)?, "(report \"night\" 4 0 0 0 -\n(suite \"lab\" 2 0 0 0 -)\n(suite \"field\" 2 0 0 0 -))\n");
/// # Ok::<(), kerzhoma::Refusal>(())
/// ```
pub fn merge<'a>(first: &Tree<'_>, second: &Tree<'_>, areas: &'a mut Areas) -> Result<Tree<'a>, Refusal> {
    let Areas { records, text, .. } = areas;
    let lent = Lent { records: records.len(), text: text.len(), ..Lent::default() };
    let told = sys::merge(first.records(), first.text().as_bytes(), second.records(), second.text().as_bytes(), records, text);
    Refusal::result(told, lent)?;
    Tree::over(records, text)
}

/// The report as an XML document: what people keep as a file.
///
/// # Errors
///
/// 16 where it is longer than 16,777,216 bytes.
///
/// ```
/// use kerzhoma::{list, read, to_xml, tokenize, Areas, TableBuilder};
///
/// let mut table = TableBuilder::new();
/// table.empty("testsuites").attribute("name", "r").attribute("tests", "2");
/// let mut areas = Areas::for_table(&table.table());
/// let tree = read(&table.table(), &mut areas)?;
/// let document = to_xml(&tree)?;
/// assert!(document.ends_with("<testsuites name=\"r\" tests=\"2\" skipped=\"0\" failures=\"0\" errors=\"0\">\n</testsuites>\n"));
///
/// let again = tokenize(document.as_bytes()).unwrap();
/// let mut others = Areas::for_table(&again.as_table());
/// assert_eq!(list(&read(&again.as_table(), &mut others)?)?, list(&tree)?);
/// # Ok::<(), kerzhoma::Refusal>(())
/// ```
pub fn to_xml(tree: &Tree<'_>) -> Result<String, Refusal> {
    let bounds = tree.bounds();
    // beside its own bytes an entry has at most a line's indent of five levels and a few marks
    let bound = bounds.entries.saturating_mul(64).saturating_add(bounds.bytes);
    let mut out = vec![0; usize::try_from(bound).unwrap_or(limits::BYTES).min(limits::BYTES)];
    let length = write_xml(tree, &mut out)?;
    Ok(text_of(out, length))
}

/// Puts the document at the front of an area, and zeros behind it: how many bytes it takes.
///
/// # Errors
///
/// 16 where the area, or the 16,777,216 bytes of it that are used, are too short; all of it is zero then.
pub fn write_xml(tree: &Tree<'_>, out: &mut [u8]) -> Result<usize, Refusal> {
    let document = sys::write_xml(tree.records(), tree.text().as_bytes(), out);
    Refusal::result(document.refusal, Lent { out: out.len(), ..Lent::default() })?;
    Ok(document.length)
}

/// A refusal in words, with the names of suite and case from the table that was refused: one line, ended by a newline.
///
/// A name is private text: this line isn't for the public. What a [`Refusal`] displays has no names.
///
/// ```
/// use kerzhoma::{explain, read, Areas, TableBuilder};
///
/// let mut table = TableBuilder::new();
/// table.start("testsuites");
/// table.start("testsuite").attribute("name", "lab");
/// table.empty("testcase");
/// let table = table.finish();
/// let refusal = read(&table.as_table(), &mut Areas::new(9, 99, 99)).unwrap_err();
/// assert_eq!(
///     explain(&refusal, &table.as_table()),
///     "refused 7 at testsuites/testsuite[0](\"lab\")/testcase[0]/@name: this attribute is missing (event 2)\n"
/// );
/// ```
pub fn explain(refusal: &Refusal, table: &Table<'_>) -> String {
    // a name is a part of the source, at most doubled; a path has at most six
    let longest = 12 * table.source.len().min(limits::SOURCE) + 4096;
    let mut size = 4096;
    loop {
        let mut out = vec![0; size];
        let explained = sys::explain(refusal.told(), refusal.lent(), table.events, table.attributes, table.source, &mut out);
        if explained.refusal.number == 0 {
            return text_of(out, explained.length);
        }
        if size >= longest {
            return format!("{refusal}\n");
        }
        size = (size * 16).min(longest);
    }
}
