//! Documents: the tokenizer here and expat, events and contents; the table against the source byte by byte; where a document is refused.
use crate::{
    calls,
    compare::{Bench, Compared},
    expat::{Expat, Seen, BAD_CHAR_REF, DUPLICATE_ATTRIBUTE, UNDEFINED_ENTITY},
    random::Random,
    sys,
    table::{quoted, Input, Table, NONE},
};
use cover::{hit, hit_if, hit_of};
use quick_xml::{replay::*, rules::*};

#[derive(Clone, Debug, Default)]
pub struct DocumentTally {
    pub documents: u64,
    pub accepted: u64,
    pub refused: u64,
    pub listed: u64,
    pub completions: u64,
}

impl DocumentTally {
    pub fn rows(&self) -> [(&'static str, u64); 5] {
        [
            ("documents", self.documents),
            ("tokenized by both", self.accepted),
            ("refused by both", self.refused),
            ("that docs/DIFFERENCES.md or rule N5 lets differ, compared without that", self.listed),
            ("refused bytes tried with other ends", self.completions),
        ]
    }
}

pub struct Tokens {
    pub tally: DocumentTally,
    expat: Expat,
}

fn check(test: bool, what: impl FnOnce() -> String) -> Compared {
    if test {
        Ok(())
    } else {
        Err(what())
    }
}

fn five(words: &[u32], n: u32) -> Vec<[u32; 5]> {
    words.chunks(5).take(n as usize).map(|c| c.try_into().unwrap()).collect()
}

fn is_white(c: u8) -> bool {
    matches!(c, b' ' | b'\t' | b'\n' | b'\r')
}

/// The table of a document, or the number and the byte; with areas that are zero behind it.
pub fn tokenized(source: &[u8]) -> Result<Result<Table, (u32, u32)>, String> {
    let (mut events, mut attributes) = (vec![7u32; 5 * source.len() + 5], vec![7u32; 5 * (source.len() / 4) + 5]);
    let t = calls::tokenize(source, &mut events, &mut attributes);
    let (n, m) = (5 * t.events as usize, 5 * t.attributes as usize);
    let clear = |words: &[u32]| words.iter().all(|w| *w == 0);
    check(clear(&events[n..]) && clear(&attributes[m..]), || "areas aren't zero behind the table".into())?;
    if t.number != 0 {
        check(n == 0 && m == 0, || "a refusal with events".into())?;
        return Ok(Err((t.number, t.byte)));
    }
    check(t.byte == NONE, || "a byte without a refusal".into())?;
    Ok(Ok(Table { events: five(&events, t.events), attributes: five(&attributes, t.attributes), source: source.to_vec() }))
}

/// Line ends as XML 1.0 2.11 has them.
fn line_ends(bytes: &[u8]) -> Vec<u8> {
    let mut out = Vec::with_capacity(bytes.len());
    for (i, &c) in bytes.iter().enumerate() {
        match c {
            b'\r' => out.push(b'\n'),
            b'\n' if i > 0 && bytes[i - 1] == b'\r' => {}
            c => out.push(c),
        }
    }
    out
}

/// A value as XML 1.0 3.3.3 normalizes it.
fn normalized(value: &[u8]) -> Option<Vec<u8>> {
    let mut out = vec![];
    let mut rest = value;
    while let Some(at) = rest.iter().position(|c| *c == b'&') {
        out.extend(line_ends(&rest[..at]).iter().map(|c| if is_white(*c) { b' ' } else { *c }));
        let end = rest[at..].iter().position(|c| *c == b';')? + at;
        out.extend_from_slice(resolved(&rest[at + 1..end])?.as_bytes());
        rest = &rest[end + 1..];
    }
    out.extend(line_ends(rest).iter().map(|c| if is_white(*c) { b' ' } else { *c }));
    Some(out)
}

fn resolved(name: &[u8]) -> Option<String> {
    let name = std::str::from_utf8(name).ok()?;
    predefined(name).map(str::to_string).or_else(|| char_ref(name).map(|c| c.to_string()))
}

/// The table as expat's events are told; none where a reference is one that rule N5 leaves to reading.
fn told(t: &Table) -> Option<Vec<u8>> {
    let mut seen = Seen::default();
    let mut depth = 0u32;
    for (i, e) in t.events.iter().enumerate() {
        let bytes = t.part(e[1], e[2]);
        match e[0] {
            START | EMPTY => {
                let mut parts = vec![bytes.to_vec()];
                for a in &t.attributes[e[3] as usize..(e[3] + e[4]) as usize] {
                    parts.push(t.part(a[1], a[2]).to_vec());
                    parts.push(normalized(t.part(a[3], a[4]))?);
                }
                seen.line(b'S', &parts.iter().map(|p| &p[..]).collect::<Vec<_>>());
                if e[0] == EMPTY {
                    seen.line(b'E', &[bytes])
                } else {
                    depth += 1
                }
            }
            END => {
                depth = depth.checked_sub(1)?;
                seen.line(b'E', &[bytes])
            }
            TEXT if depth > 0 => seen.text(&line_ends(bytes)),
            CDATA => {
                seen.line(b'[', &[]);
                seen.text(&line_ends(bytes));
                seen.line(b']', &[])
            }
            REF => seen.text(resolved(bytes)?.as_bytes()),
            OTHER if is_comment(t, e) => seen.line(b'C', &[&line_ends(bytes)]),
            OTHER if i == 0 && bytes.starts_with(b"xml") && bytes.get(3).is_some_and(|c| is_white(*c)) => {
                let value = |key: &str| pseudo(bytes, key).unwrap_or_default();
                let standalone = pseudo(bytes, "standalone").unwrap_or(b"-".to_vec());
                seen.line(b'D', &[&value("version"), &value("encoding"), &standalone])
            }
            OTHER => {
                let end = bytes.iter().position(|c| is_white(*c)).unwrap_or(bytes.len());
                let data = bytes[end..].iter().position(|c| !is_white(*c)).map_or(&b""[..], |n| &bytes[end + n..]);
                seen.line(b'P', &[&bytes[..end], &line_ends(data)])
            }
            _ => {}
        }
    }
    seen.line(b'.', &[]);
    Some(seen.lines)
}

/// A comment stands behind `<!--`; a processing instruction has at least a name.
fn is_comment(t: &Table, e: &[u32; 5]) -> bool {
    e[2] == 0 || t.source[..e[1] as usize].ends_with(b"<!--")
}

fn pseudo(declaration: &[u8], key: &str) -> Option<Vec<u8>> {
    let text = std::str::from_utf8(declaration).ok()?;
    let behind = &text[text.find(key)? + key.len()..];
    let quote = behind.find(['"', '\''])?;
    let inside = &behind[quote + 1..];
    Some(inside[..inside.find(behind.as_bytes()[quote] as char)?].as_bytes().to_vec())
}

/// Rules N2 to N4: the table's parts, one behind the other, are the source.
fn tiles(t: &Table) -> Compared {
    let s = &t.source[..];
    let mut at = if s.starts_with(b"\xef\xbb\xbf") { 3 } else { 0 };
    hit_if!(at == 3, "N2", "a byte-order mark", "none");
    let wrong = |i: usize, at: usize, what: &str| format!("event {i} at byte {at}: {what}");
    let is = |at: usize, token: &[u8]| s.get(at..).is_some_and(|r| r.starts_with(token));
    // a part that begins at a byte; without length its start is 0
    let lies = |start: u32, length: u32, at: usize| if length == 0 { start == 0 } else { start as usize == at };
    let white = |mut at: usize| {
        while s.get(at).is_some_and(|c| is_white(*c)) {
            at += 1;
        }
        at
    };
    let mut last_text = false;
    let mut attribute = 0;
    for (i, e) in t.events.iter().enumerate() {
        let [kind, start, length, first, count] = *e;
        let n = length as usize;
        check(kind <= EOF, || wrong(i, at, "a kind that no document has"))?;
        hit_of!(kind as usize, "N3", "a Start", "an Empty", "an End", "a Text", "a CData", "a Ref", "an Other", "Eof");
        check(kind < 2 || (first, count) == (0, 0), || wrong(i, at, "attributes"))?;
        check(!(last_text && kind == TEXT), || wrong(i, at, "a Text behind a Text"))?;
        last_text = kind == TEXT;
        let (open, close): (&[u8], &[u8]) = match kind {
            TEXT => (b"", b""),
            REF => (b"&", b";"),
            CDATA => (b"<![CDATA[", b"]]>"),
            OTHER if is(at, b"<!--") => (b"<!--", b"-->"),
            OTHER => (b"<?", b"?>"),
            END => (b"</", b""),
            START | EMPTY => (b"<", b""),
            EOF => {
                check(i + 1 == t.events.len() && at == s.len() && (start, length) == (0, 0), || wrong(i, at, "Eof"))?;
                check(attribute == t.attributes.len(), || "attributes that no event has".into())?;
                hit!("N4", "raw values and marks of 0");
                return Ok(());
            }
            _ => return Err(wrong(i, at, "a kind that no document has")),
        };
        check(is(at, open) && lies(start, length, at + open.len()), || wrong(i, at, "where it begins"))?;
        at += open.len() + n;
        check(is(at, close) && (kind != TEXT || n > 0), || wrong(i, at, "where it ends"))?;
        at += close.len();
        if kind == END {
            at = white(at) + 1;
            check(is(at - 1, b">"), || wrong(i, at, "the End's end"))?;
        }
        if kind > EMPTY {
            continue;
        }
        check(if count == 0 { first == 0 } else { first as usize == attribute }, || wrong(i, at, "its first attribute"))?;
        for _ in 0..count {
            let [mark, key, key_length, value, value_length] = t.attributes[attribute];
            attribute += 1;
            at = white(at);
            check(mark == 0 && key_length > 0 && lies(key, key_length, at), || wrong(i, at, "a key"))?;
            at = white(at + key_length as usize);
            check(is(at, b"="), || wrong(i, at, "="))?;
            at = white(at + 1);
            let quote = s.get(at).copied();
            check(matches!(quote, Some(b'"' | b'\'')) && lies(value, value_length, at + 1), || wrong(i, at, "a value"))?;
            at += 1 + value_length as usize;
            check(s.get(at).copied() == quote, || wrong(i, at, "a value's end"))?;
            at += 1;
        }
        at = white(at);
        let end: &[u8] = if kind == EMPTY { b"/>" } else { b">" };
        check(is(at, end), || wrong(i, at, "the tag's end"))?;
        at += end.len();
    }
    Err("no Eof".into())
}

impl Tokens {
    #[allow(clippy::new_without_default)]
    pub fn new() -> Self {
        Tokens { tally: DocumentTally::default(), expat: Expat::new() }
    }

    pub fn document(&mut self, source: &[u8], how: u64, bench: &mut Bench) -> Compared {
        self.tally.documents += 1;
        let mut r = Random::new(how);
        match tokenized(source)? {
            Ok(table) => {
                self.accepted(&table, true)?;
                self.rooms(source, &table, &mut r)?;
                listed(source, &table, &mut r, bench)
            }
            Err((number, byte)) => {
                self.refused(source, number, byte, &mut r)?;
                lined(source, number, byte, &mut r, bench)
            }
        }
    }

    /// expat takes it, too, with the same events and contents. What rule N5 leaves to reading, and names of the fifth edition, which expat
    /// doesn't know, are put right first.
    fn accepted(&mut self, t: &Table, first: bool) -> Compared {
        tiles(t)?;
        hit!("N1", "a document");
        let (seen, verdict) = self.expat.parse(&[&t.source], true);
        match (verdict, told(t)) {
            (Ok(()), Some(want)) => {
                self.tally.accepted += 1;
                let mut got = seen;
                got.line(b'.', &[]);
                check(got.lines == want, || format!("events:\n  expat {}\n  here  {}", quoted(&got.lines), quoted(&want)))
            }
            (Ok(()), None) => Err("expat takes a reference that is none".into()),
            (Err(code), _) if first => {
                match code {
                    DUPLICATE_ATTRIBUTE => hit!("N5", "a key that stands twice"),
                    UNDEFINED_ENTITY => hit!("N5", "an unknown entity name"),
                    BAD_CHAR_REF => hit!("N5", "a number that names no character"),
                    _ => hit!("N1", "a name of the fifth edition, or a version that expat doesn't take"),
                }
                self.tally.listed += 1;
                let other = put_right(t);
                check(other != t.source, || format!("expat refuses it with {code}"))?;
                match tokenized(&other)? {
                    Ok(table) => self.accepted(&table, false).map_err(|e| format!("{e}\nof {}", quoted(&other))),
                    Err((number, byte)) => Err(format!("put right it is refused {number} at {byte}: {}", quoted(&other))),
                }
            }
            (Err(code), _) => Err(format!("expat refuses it with {code}")),
        }
    }

    fn refused(&mut self, source: &[u8], number: u32, byte: u32, r: &mut Random) -> Compared {
        let at = byte as usize;
        check(matches!(number, 18 | 19) && at <= source.len(), || format!("refused {number} at {byte}"))?;
        if number == 19 {
            hit!("N7", "refused");
            check(source[at..].starts_with(b"<!DOCTYPE"), || "19 where there is none".into())?;
        } else {
            hit_if!(at == source.len(), "N6", "only more is missing", "from a byte on");
        }
        // the bytes before it begin a document
        if at < source.len() {
            let before = tokenized(&source[..at])?;
            let good = match &before {
                Ok(_) => true,
                Err((n, b)) => (*n, *b) == (18, byte),
            };
            check(good, || format!("the bytes before {byte} come to {before:?}"))?;
        }
        let (_, verdict) = self.expat.parse(&[&source[..at]], false);
        if let Err(code) = verdict {
            return self.listed_prefix(&source[..at], code);
        }
        if number == 19 {
            return Ok(());
        }
        let (_, verdict) = self.expat.parse(&[source], true);
        if verdict.is_ok() {
            // expat doesn't look at version and encoding
            self.tally.listed += 1;
            return check(in_declaration(source, at), || format!("refused at {byte}, and expat takes it"));
        }
        self.tally.refused += 1;
        if at < source.len() && r.one(4) {
            self.completed(source, at)
        } else {
            Ok(())
        }
    }

    /// The bytes before the one that is told are refused by expat: by rule N5, or by a name. What is put right begins a document.
    fn listed_prefix(&mut self, before: &[u8], code: i32) -> Compared {
        self.tally.listed += 1;
        if matches!(code, DUPLICATE_ATTRIBUTE | UNDEFINED_ENTITY | BAD_CHAR_REF) {
            return Ok(());
        }
        // a letter that every edition has in names, for each that isn't ASCII
        let text = String::from_utf8_lossy(before.strip_prefix(b"\xef\xbb\xbf").unwrap_or(before));
        let letters: String = text.chars().map(|c| if c.is_ascii() { c } else { 'é' }).collect();
        let (_, verdict) = self.expat.parse(&[letters.as_bytes()], false);
        let good = verdict.is_ok()
            || matches!(verdict, Err(DUPLICATE_ATTRIBUTE | UNDEFINED_ENTITY | BAD_CHAR_REF))
            || in_declaration(before, before.len());
        check(good && !before.is_ascii() || in_declaration(before, before.len()), || {
            format!("expat refuses the bytes before it with {code}")
        })
    }

    /// No end makes a document of the bytes up to the one that is told and with it.
    fn completed(&mut self, source: &[u8], at: usize) -> Compared {
        const ENDS: [&[u8]; 18] = [
            b"",
            b"a",
            b">",
            b"/>",
            b"a>",
            b"=''>",
            b"'>",
            b"\">",
            b"''>",
            b"->",
            b"-->",
            b"]]>",
            b"?>",
            b";",
            b"amp;",
            b"a?>",
            b"CDATA[]]>",
            b"=\"\"/>",
        ];
        self.tally.completions += 1;
        if in_declaration(source, at) {
            return Ok(());
        }
        let front = &source[..=at];
        for end in ENDS {
            let (seen, verdict) = self.expat.parse(&[front, end], false);
            if verdict.is_err() {
                continue;
            }
            let mut closing: Vec<u8> = if seen.roots == 0 { b"<a/>".to_vec() } else { vec![] };
            for name in seen.open.iter().rev() {
                closing.extend_from_slice(b"</");
                closing.extend_from_slice(name);
                closing.push(b'>');
            }
            let (_, verdict) = self.expat.parse(&[front, end, &closing], true);
            let taken = || format!("refused at {at}, but with {} behind it expat takes it", quoted(&[end, &closing[..]].concat()));
            check(verdict.is_err() || front.windows(9).any(|w| w == b"<!DOCTYPE"), taken)?;
        }
        Ok(())
    }

    /// Rule N9: areas that are just long enough, and one word shorter.
    fn rooms(&mut self, source: &[u8], t: &Table, r: &mut Random) -> Compared {
        let (n, m) = (5 * t.events.len(), 5 * t.attributes.len());
        let (e, a) = match r.below(4) {
            0 => (n - 1, m),
            1 => (n, m.saturating_sub(1)),
            2 => (r.index(n + 1), r.index(m + 1)),
            _ => (n, m),
        };
        let (mut events, mut attributes) = (vec![7u32; e], vec![7u32; a]);
        let got = sys::tokenize(source, &mut events, &mut attributes);
        let fits = e >= n && a >= m;
        hit_if!(fits, "N9", "areas that just suffice", "areas that don't suffice");
        hit_if!(fits, "N10", "numbers of events and attributes", "a refusal without a byte");
        if fits {
            let same = events == *t.events.as_flattened() && attributes == *t.attributes.as_flattened();
            return check(got.number == 0 && same, || "areas that just suffice".into());
        }
        let clear = events.iter().chain(&attributes).all(|w| *w == 0);
        check((got.number, got.byte, got.events, got.attributes) == (16, NONE, 0, 0) && clear, || {
            "16 and areas of zero are wanted".into()
        })
    }
}

/// Rule N8, with the longest document that isn't too long.
pub fn limits() -> Compared {
    let mut source = b"<a>".to_vec();
    source.resize(16_777_217, b'x');
    for (length, want) in [(16_777_217, (11, NONE)), (16_777_216, (18, 16_777_216))] {
        let (mut events, mut attributes) = ([7; 10], [7; 5]);
        let t = sys::tokenize(&source[..length], &mut events, &mut attributes);
        hit_if!(want.0 == 11, "N8", "a document that is too long", "a document of the limit's length");
        let clear = events.iter().chain(&attributes).all(|w| *w == 0);
        check((t.number, t.byte) == want && clear, || format!("a document of {length} bytes: refused {} at {}", t.number, t.byte))?;
    }
    Ok(())
}

/// Whether a byte stands in the document's declaration.
fn in_declaration(source: &[u8], at: usize) -> bool {
    let s = source.strip_prefix(b"\xef\xbb\xbf").unwrap_or(source);
    s.starts_with(b"<?xml") && s.windows(2).position(|w| w == b"?>").is_none_or(|end| at <= end + 3)
}

/// The document with references that reading refuses as `&amp;`, keys that differ, names in letters that every edition has, and version 1.0.
fn put_right(t: &Table) -> Vec<u8> {
    let mut edits: Vec<(usize, usize, Vec<u8>)> = vec![];
    let name = |bytes: &[u8]| -> Vec<u8> {
        let text = String::from_utf8_lossy(bytes);
        text.chars()
            .enumerate()
            .flat_map(|(i, c)| {
                if c.is_ascii() {
                    c.to_string()
                } else if i == 0 {
                    "é".into()
                } else {
                    format!("é{}", c as u32 % 10)
                }
                .into_bytes()
            })
            .collect()
    };
    let reference = |edits: &mut Vec<_>, start: usize, bytes: &[u8]| {
        if resolved(bytes).is_none() {
            edits.push((start, bytes.len(), b"amp".to_vec()));
        }
    };
    for (i, e) in t.events.iter().enumerate() {
        let (start, bytes) = (e[1] as usize, t.part(e[1], e[2]));
        match e[0] {
            START | EMPTY | END => edits.push((start, bytes.len(), name(bytes))),
            REF => reference(&mut edits, start, bytes),
            OTHER if !is_comment(t, e) => {
                let end = bytes.iter().position(|c| is_white(*c)).unwrap_or(bytes.len());
                edits.push((start, end, name(&bytes[..end])));
                if i == 0 && &bytes[..end] == b"xml" {
                    if let Some(version) = pseudo(bytes, "version") {
                        let at = bytes.windows(version.len()).position(|w| w == version).unwrap_or(0);
                        edits.push((start + at, version.len(), b"1.0".to_vec()));
                    }
                }
            }
            _ => {}
        }
        for (n, a) in t.attributes[e[3] as usize..(e[3] + e[4]) as usize].iter().enumerate() {
            let (key, value) = (t.part(a[1], a[2]), t.part(a[3], a[4]));
            edits.push((a[1] as usize, key.len(), [&name(key)[..], format!("-{n}").as_bytes()].concat()));
            let mut from = 0;
            while let Some(at) = value[from..].iter().position(|c| *c == b'&') {
                let begin = from + at + 1;
                let end = begin + value[begin..].iter().position(|c| *c == b';').unwrap_or(0);
                reference(&mut edits, a[3] as usize + begin, &value[begin..end]);
                from = end;
            }
        }
    }
    edits.sort_by_key(|e| e.0);
    let (mut out, mut at) = (vec![], 0);
    for (start, length, new) in edits {
        out.extend_from_slice(&t.source[at..start]);
        out.extend_from_slice(&new);
        at = start + length;
    }
    out.extend_from_slice(&t.source[at..]);
    out
}

/// Rule N11: the document's listing is that of its table; now and then the whole comparison of that table.
fn listed(source: &[u8], t: &Table, r: &mut Random, bench: &mut Bench) -> Compared {
    let (e, a) = (5 * t.events.len(), 5 * t.attributes.len());
    let (records, bytes) = (32 * (t.events.len() + t.attributes.len()), source.len() + t.events.len());
    let lengths = if r.one(3) {
        (r.index(records + 1), r.index(bytes + 1), r.index(400))
    } else {
        (records, bytes, 2 * bytes + 200 + 60 * t.events.len())
    };
    let input = Input::new(t.clone());
    let (mut rec, mut text, mut scratch, mut out) =
        (vec![7; lengths.0], vec![7; lengths.1], vec![7; lengths.1], vec![7; lengths.2]);
    let n = sys::public_listing(&input.events(), &input.attributes(), source, &mut rec, &mut text, &mut scratch, &mut out);
    let want = out.clone();
    (rec.fill(7), text.fill(7), scratch.fill(7), out.fill(7));
    let (mut events, mut attributes) = (vec![7; e], vec![7; a]);
    let m = sys::list_xml(source, &mut events, &mut attributes, &mut rec, &mut text, &mut scratch, &mut out);
    let clear = events.iter().chain(&attributes).chain(&rec).all(|w| *w == 0) && text.iter().chain(&scratch).all(|b| *b == 0);
    hit!("N11", "a listing");
    check(n == m && out == want && clear, || "the document's listing isn't its table's".into())?;
    if r.one(4) {
        bench.table(&input, r.next())
    } else {
        Ok(())
    }
}

/// Rules N13 to N15: the line of a refusal.
fn lined(source: &[u8], number: u32, byte: u32, r: &mut Random, bench: &mut Bench) -> Compared {
    let (mut out, mut big) = (vec![7u8; 30], vec![7u8; 5]);
    let m = sys::list_xml(source, &mut [0; 5], &mut [], &mut [], &mut big, &mut [], &mut out);
    hit!("N11", "(refused)");
    check(m == 10 && out.starts_with(b"(refused)\n") && out[10..].iter().all(|b| *b == 0), || {
        "the listing of a refused document".into()
    })?;
    let lent = [r.index(2) * 5 * 65_536, r.index(2) * 5 * 65_536];
    let (number, byte) = match r.below(5) {
        0 => (16, NONE),
        1 => (11, NONE),
        _ => (number, byte),
    };
    let want = bench.sentences.document_line(source, number, byte, lent);
    let length = if r.one(3) { r.index(want.len()) } else { want.len() + r.index(4) };
    let mut out = vec![7u8; length];
    let n = sys::explain_xml(source, number, byte, lent[0], lent[1], &mut out);
    let fits = length >= want.len();
    hit_if!(fits, "N14", "the area suffices", "the area is too short");
    let (line, rest) = out.split_at(n.min(length));
    let good = if fits { line == want.as_bytes() } else { n == 0 };
    check(good && rest.iter().all(|b| *b == 0), || {
        format!("the line of {number} at {byte}: wanted {want:?}, got {:?}", String::from_utf8_lossy(line))
    })
}
