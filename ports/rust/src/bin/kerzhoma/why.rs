//! Why a report is refused, and what could be changed.

use kerzhoma::{Cause, PathElement, Refusal, Table};

// An event's kind and bytes.
fn events<'t>(table: &Table<'t>) -> impl Iterator<Item = (u32, &'t [u8])> {
    let source = table.source;
    table.events.chunks_exact(5).map(move |e| {
        let bytes = source.get(e[1] as usize..).and_then(|rest| rest.get(..e[2] as usize));
        (e[0], bytes.unwrap_or_default())
    })
}

const START: u32 = 0;
const EMPTY: u32 = 1;
const END: u32 = 2;
const REFERENCE: u32 = 5;

/// What is told beside the sentence of a refusal: of the document's tags, and with `values` of its values, too.
pub fn hint(refusal: &Refusal, table: &Table<'_>, values: bool) -> Option<String> {
    match refusal.cause() {
        Cause::MissingReport => {
            let (_, root) = events(table).find(|(kind, _)| *kind == START || *kind == EMPTY)?;
            Some(format!("the root element is {}; a report begins with testsuites", shown(root)))
        }
        Cause::StatusRule => Some(format!("the case has {}", statuses(refusal, table)?)),
        _ if !values => None,
        Cause::MissingAttribute | Cause::EofInElement | Cause::EofInSkip | Cause::XmlFault => None,
        Cause::RecordsSpent | Cause::TextFull | Cause::ScratchFull => None,
        Cause::RepeatedKey | Cause::FaultyAttribute => Some(shown(key(refusal, table)?)),
        Cause::BadReference | Cause::UnknownEntity if is_reference(refusal, table) => {
            Some(format!("&{};", shown(refusal.bytes(table)?)))
        }
        cause => {
            let bytes = refusal.bytes(table)?;
            let fault = std::str::from_utf8(bytes).ok().and_then(|value| fault(cause, value));
            Some(fault.map_or_else(|| shown(bytes), |fault| format!("{} {fault}", shown(bytes))))
        }
    }
}

// Whether it speaks of a reference between texts.
fn is_reference(refusal: &Refusal, table: &Table<'_>) -> bool {
    let event = refusal.event().and_then(|n| events(table).nth(n as usize));
    refusal.attribute().is_none() && event.is_some_and(|(kind, _)| kind == REFERENCE)
}

fn key<'t>(refusal: &Refusal, table: &Table<'t>) -> Option<&'t [u8]> {
    let e = table.attributes.chunks_exact(5).nth(refusal.attribute()? as usize)?;
    table.source.get(e[1] as usize..)?.get(..e[2] as usize)
}

// What the value of a timestamp or a time lacks, where that is easily seen.
fn fault(cause: Cause, value: &str) -> Option<String> {
    match cause {
        Cause::BadTimestamp => {
            let (_, clock) = value.split_once(['T', 't', ' '])?;
            if !clock.contains(['+', '-', 'Z', 'z']) {
                return Some("has no offset".to_owned());
            }
            value.contains(' ').then(|| "has a space".to_owned())
        }
        Cause::BadTime => {
            if value.contains(',') {
                return Some("has a comma".to_owned());
            }
            if value.starts_with('-') {
                return Some("is negative".to_owned());
            }
            if value.contains(['e', 'E']) && value.starts_with(|c: char| c.is_ascii_digit()) {
                return Some("has an exponent".to_owned());
            }
            let (whole, behind) = value.split_once('.').unwrap_or((value, ""));
            let digits = |part: &str| part.bytes().all(|b| b.is_ascii_digit());
            if !digits(whole) || !digits(behind) {
                return None;
            }
            if behind.len() > 9 {
                return Some(format!("has {} digits behind the point", behind.len()));
            }
            (!whole.is_empty()).then(|| "is too long a time".to_owned())
        }
        _ => None,
    }
}

// The status elements of the case that was read, in their order.
fn statuses(refusal: &Refusal, table: &Table<'_>) -> Option<String> {
    const NAMES: [&[u8]; 7] = [b"failure", b"error", b"skipped", b"flakyFailure", b"flakyError", b"rerunFailure", b"rerunError"];
    let Some(PathElement::TestCase { event: Some(case), .. }) = refusal.path().last() else {
        return None;
    };
    let (mut depth, mut found) = (0, Vec::new());
    for (kind, name) in events(table).take(refusal.event()? as usize).skip(case as usize + 1) {
        if depth == 0 && (kind == START || kind == EMPTY) && NAMES.contains(&name) {
            found.push(String::from_utf8_lossy(name).into_owned());
        }
        match kind {
            START => depth += 1,
            END => depth -= 1,
            _ => {}
        }
    }
    if found.len() > 6 {
        found.truncate(6);
        found.push("..".to_owned());
    }
    (!found.is_empty()).then(|| found.join(", "))
}

// Bytes of a document in a line: in quotes where they aren't plain, and not all of many.
fn shown(bytes: &[u8]) -> String {
    const MOST: usize = 60;
    let text = String::from_utf8_lossy(bytes);
    let mut front: String = text.chars().take(MOST).collect();
    let more = if text.chars().nth(MOST).is_some() { ".." } else { "" };
    if front.is_empty() || !front.bytes().all(|b| b.is_ascii_graphic()) {
        front = format!("\"{}\"", front.escape_debug());
    }
    front + more
}

/// What stands at the byte from which on a document isn't XML, where that says something.
pub fn hint_of_byte(document: &[u8], byte: usize) -> Option<String> {
    let (before, rest) = document.split_at_checked(byte)?;
    let first = *rest.first()?;
    if first < b' ' && !matches!(first, b'\t' | b'\n' | b'\r') {
        return Some(format!("the control character U+{first:04X} is not allowed in XML"));
    }
    if before.last() == Some(&b'&') {
        return Some("an ampersand is written &amp;".to_owned());
    }
    // a character that began before it, or begins there
    let open =
        before.iter().rposition(|b| !(0x80..0xc0).contains(b)).filter(|n| before[*n] >= 0xc0 && byte - n < 4).unwrap_or(byte);
    let bytes = &document[open..document.len().min(open + 4)];
    match std::str::from_utf8(bytes) {
        Err(e) if e.valid_up_to() == 0 => Some(format!("the byte {:02X} begins no UTF-8 character there", bytes[0])),
        _ => None,
    }
}
