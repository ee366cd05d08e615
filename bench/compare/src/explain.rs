//! Refusals in words (rules E1 to E6 and N13 to N15), with the sentences of docs/REFUSALS.md.
use crate::{
    reference::Refused,
    report::put_quoted,
    table::{Table, NONE},
};
use cover::{hit, hit_if};
use quick_xml::rules::{decoded, filtered};
use std::collections::HashMap;

/// Of each cause, by its name: the sentence, and the one where an area of the limits' size is too short.
pub struct Sentences {
    of_cause: Vec<(String, Option<String>)>,
    pub of_document: HashMap<String, String>,
    /// How many attributes have a name in paths: 16 where `hostname` is one.
    pub attributes: usize,
}

const CAUSES: [&str; 26] = [
    "XmlFault",
    "EofInSkip",
    "NotUtf8",
    "BadInteger",
    "BadTimestamp",
    "BadTime",
    "BadUuid",
    "MissingAttribute",
    "MissingReport",
    "EofInElement",
    "StatusRule",
    "UnknownEntity",
    "FaultyAttribute",
    "RepeatedKey",
    "BadReference",
    "BadTable",
    "RecordsSpent",
    "TextFull",
    "ScratchFull",
    "NotLayout",
    "OutputFull",
    "CountLimit",
    "TooManyCases",
    "NoSuchReport",
    "TooManyReports",
    "TimeLimit",
];

/// What stands between the first and the last backtick of a table's cell.
fn ticked(cell: &str) -> Option<String> {
    let (from, to) = (cell.find('`')?, cell.rfind('`')?);
    (from < to).then(|| cell[from + 1..to].to_string())
}

impl Sentences {
    /// From the tables under "In words" of docs/REFUSALS.md.
    pub fn from_page(page: &str) -> Result<Self, String> {
        let words = page.split_once("## In words").ok_or("docs/REFUSALS.md has no heading In words")?.1;
        let (mut of_cause, mut of_document) = (vec![(String::new(), None); CAUSES.len()], HashMap::new());
        let mut last = 0;
        for line in words.lines().filter(|l| l.starts_with("| ")) {
            let cells: Vec<&str> = line.trim_matches('|').split(" | ").map(str::trim).collect();
            match cells[..] {
                [number, cause, sentence] => {
                    let Some(sentence) = ticked(sentence) else { continue };
                    match CAUSES.iter().position(|c| Some(c.to_string()) == ticked(cause)) {
                        Some(i) => (last, of_cause[i].0) = (i, sentence),
                        None if cause == "of the limit's size" => of_cause[last].1 = Some(sentence),
                        None => return Err(format!("docs/REFUSALS.md: which cause is {number} {cause}?")),
                    }
                }
                [number, sentence] => {
                    let when = sentence.split('`').next().unwrap_or("").trim();
                    if let Some(s) = ticked(sentence) {
                        of_document.insert(format!("{number} {when}").trim().to_string(), s);
                    }
                }
                _ => {}
            }
        }
        match of_cause.iter().position(|s| s.0.is_empty()) {
            Some(i) => Err(format!("docs/REFUSALS.md has no sentence of {}", CAUSES[i])),
            None => Ok(Sentences { of_cause, of_document, attributes: 15 }),
        }
    }

    pub fn line(&self, r: &Refused, lent: usize, table: &Table) -> String {
        let mut out = format!("refused {}", r.number);
        hit_if!(r.path.is_empty(), "E1", "without a path", "with a path");
        for (i, element) in r.path.iter().take(6).enumerate() {
            out.push_str(if i == 0 { " at " } else { "/" });
            put_element(&mut out, element, table, self.attributes);
        }
        out.push_str(": ");
        let limit = if r.number == 12 { 65_536 * 32 } else { 16_777_216 };
        let (plain, of_limit) = &self.of_cause[r.cause as usize - 1];
        let most = lent >= limit && of_limit.is_some();
        if matches!(r.number, 12..=14 | 16) {
            hit_if!(most, "E6", "an area of the limits' size", "a shorter area");
        }
        out.push_str(if most { of_limit.as_ref().unwrap() } else { plain });
        match (r.event, r.attribute) {
            (NONE, _) => hit!("E1", "no event"),
            (event, NONE) => {
                hit!("E1", "an event");
                out.push_str(&format!(" (event {event})"))
            }
            (event, attribute) => {
                hit!("E1", "an event and an attribute");
                out.push_str(&format!(" (event {event}, attribute {attribute})"))
            }
        }
        out.push('\n');
        out
    }

    /// The line of a refusal of the tokenizer; `lent` are the words of events and attributes.
    pub fn document_line(&self, source: &[u8], number: u32, byte: u32, lent: [usize; 2]) -> String {
        let mut out = format!("refused {number}");
        let most = lent.map(|n| n >= 5 * 65_536);
        let when = match (number, most) {
            (18, _) if byte as usize == source.len() => "18 at the length:",
            (16, [true, true]) => "16 with both:",
            (16, [true, false]) => "16 with events of the limit's size:",
            (16, [false, true]) => "16 with attributes of the limit's size:",
            (18, _) => "18",
            (19, _) => "19",
            (11, _) => "11",
            _ => "16",
        };
        if number == 16 {
            hit_if!(most == [false, false], "N15", "an area is too short", "an area of the limits' size");
        }
        if byte != NONE {
            let before = &source[..(byte as usize).min(source.len())];
            let line = before.iter().filter(|b| **b == b'\n').count() + 1;
            let behind = before.rsplit(|b| *b == b'\n').next().unwrap_or(b"");
            let column = behind.iter().filter(|b| !(0x80..0xC0).contains(*b)).count() + 1;
            hit_if!(line > 1, "N13", "on a further line", "on the first line");
            out.push_str(&format!(" at byte {byte}, line {line}, column {column}"));
        }
        out.push_str(&format!(": {}\n", self.of_document[when]));
        out
    }
}

/// Rules E2 and E3.
fn put_element(out: &mut String, [kind, index, event]: &[u32; 3], table: &Table, attributes: usize) {
    const NAMES: [&str; 16] = [
        "testsuites",
        "testsuite",
        "testcase",
        "properties",
        "property",
        "failure",
        "error",
        "skipped",
        "flakyFailure",
        "flakyError",
        "rerunFailure",
        "rerunError",
        "?",
        "system-out",
        "system-err",
        "@",
    ];
    const KEYS: [&str; 16] = [
        "name",
        "classname",
        "uuid",
        "timestamp",
        "time",
        "tests",
        "failures",
        "errors",
        "skipped",
        "disabled",
        "assertions",
        "message",
        "type",
        "value",
        "stackTrace",
        "hostname",
    ];
    let known = (1..=16).contains(kind) && *kind != 13;
    if !known {
        hit!("E4", "a kind that isn't there");
    }
    out.push_str(if known { NAMES[*kind as usize - 1] } else { "?" });
    match kind {
        2 | 3 | 5 => {
            hit!("E2", "an index");
            out.push_str(&format!("[{index}]"))
        }
        16 => {
            hit!("E2", "an attribute");
            let there = (1..=attributes as u32).contains(index);
            if !there {
                hit!("E4", "an attribute that isn't there");
            }
            out.push_str(if there { KEYS[*index as usize - 1] } else { "?" })
        }
        _ => hit!("E2", "a name alone"),
    }
    if matches!(kind, 2 | 3) {
        match name_of(*event, table) {
            Some(name) => {
                hit!("E3", "a name");
                out.push('(');
                put_quoted(out, &name);
                out.push(')');
            }
            None => hit!("E3", "no name that is a value"),
        }
    }
}

fn name_of(event: u32, table: &Table) -> Option<String> {
    let [_, _, _, first, count] = *table.events.get(event as usize)?;
    let part = |start: u32, length: u32| table.source.get(start as usize..(start as u64 + length as u64) as usize);
    let attributes = table.attributes.get(first as usize..(first as u64 + count as u64) as usize)?;
    let name = attributes.iter().find(|a| part(a[1], a[2]) == Some(b"name"))?;
    let value = std::str::from_utf8(part(name[3], name[4])?).ok()?;
    decoded(value).map(|v| filtered(&v))
}
