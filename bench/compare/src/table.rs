//! Tables as they are handed in: their check (rules T6 to T12), their form in a file (P1), and how they are shown.
use cover::hit;
pub use quick_xml::replay::{Table, NONE};
use std::{borrow::Cow, fmt::Write};

pub const MOST_ENTRIES: usize = 65_536;
pub const MOST_BYTES: usize = 16_777_216;

/// A table, and words that stand behind its events and attributes, at most four each, so that they don't come in fives.
#[derive(Clone, Debug, Default, PartialEq, Eq)]
pub struct Input {
    pub table: Table,
    pub loose: [usize; 2],
}

fn words(list: &[[u32; 5]], loose: usize) -> Cow<'_, [u32]> {
    match loose {
        0 => Cow::Borrowed(list.as_flattened()),
        n => Cow::Owned(list.as_flattened().iter().copied().chain([0; 4]).take(5 * list.len() + n).collect()),
    }
}

impl Input {
    pub fn new(table: Table) -> Self {
        Input { table, loose: [0, 0] }
    }
    pub fn events(&self) -> Cow<'_, [u32]> {
        words(&self.table.events, self.loose[0])
    }
    pub fn attributes(&self) -> Cow<'_, [u32]> {
        words(&self.table.attributes, self.loose[1])
    }

    /// The event and the attribute that 11 names, where the table isn't sound.
    pub fn check(&self) -> Result<(), (u32, u32)> {
        let t = &self.table;
        if self.loose[0] > 0 {
            hit!("T7", "events");
            return Err((NONE, NONE));
        }
        if self.loose[1] > 0 {
            hit!("T7", "attributes");
            return Err((NONE, NONE));
        }
        if t.events.len() > MOST_ENTRIES {
            hit!("T8", "events");
            return Err((NONE, NONE));
        }
        if t.attributes.len() > MOST_ENTRIES {
            hit!("T8", "attributes");
            return Err((NONE, NONE));
        }
        if t.source.len() > MOST_BYTES {
            hit!("T8", "bytes");
            return Err((NONE, NONE));
        }
        for (i, event) in t.events.iter().enumerate() {
            self.check_event(*event).map_err(|attribute| {
                if t.events[..i].iter().any(|e| matches!(e[0], 7 | 8)) {
                    hit!("T6", "behind an Eof or a Fault");
                }
                hit_place(attribute);
                (i as u32, attribute)
            })?;
        }
        hit!("T6", "sound");
        Ok(())
    }

    fn is_within(&self, start: u32, length: u32) -> bool {
        start as u64 + length as u64 <= self.table.source.len() as u64
    }

    fn check_event(&self, [kind, start, length, first, count]: [u32; 5]) -> Result<(), u32> {
        let t = &self.table;
        if kind > 9 {
            hit!("T9", "no kind");
            return Err(NONE);
        }
        if !self.is_within(start, length) {
            if length == 0 {
                hit!("T10", "no bytes, behind the source's end")
            } else {
                hit!("T10", "bytes outside the source")
            }
            return Err(NONE);
        }
        if length == 0 && start as usize == t.source.len() && start > 0 {
            hit!("T10", "no bytes, at the source's end");
        }
        if count == 0 {
            if first as usize > t.attributes.len() {
                hit!("T11", "no attributes, from a number that isn't there");
            }
            return Ok(());
        }
        if kind > 1 {
            hit!("T11", "attributes of another kind");
            return Err(NONE);
        }
        if first as u64 + count as u64 > t.attributes.len() as u64 {
            hit!("T11", "attributes outside the table");
            return Err(NONE);
        }
        (first..first + count).try_for_each(|a| self.check_attribute(a))
    }

    fn check_attribute(&self, index: u32) -> Result<(), u32> {
        let [mark, key, key_length, value, value_length] = self.table.attributes[index as usize];
        if mark > 1 {
            hit!("T12", "no mark");
        } else if !self.is_within(key, key_length) {
            hit!("T12", "a key outside the source");
        } else if !self.is_within(value, value_length) {
            hit!("T12", "a value outside the source");
        } else {
            if mark == 1 {
                hit!("T2", "faulty")
            } else {
                hit!("T2", "good")
            }
            return Ok(());
        }
        Err(index)
    }

    pub fn to_bytes(&self) -> Vec<u8> {
        let t = &self.table;
        let mut out = Vec::new();
        for n in [t.events.len(), t.attributes.len(), t.source.len()] {
            out.extend_from_slice(&(n as u32).to_le_bytes());
        }
        for word in t.events.as_flattened().iter().chain(t.attributes.as_flattened()) {
            out.extend_from_slice(&word.to_le_bytes());
        }
        out.extend_from_slice(&t.source);
        out
    }

    pub fn from_bytes(b: &[u8]) -> Option<Self> {
        let word = |i: usize| Some(u32::from_le_bytes(b.get(i..i + 4)?.try_into().ok()?));
        let (n, m, k) = (word(0)? as usize, word(4)? as usize, word(8)? as usize);
        if b.len() < 12usize.checked_add(20 * (n + m))?.checked_add(k)? {
            return None;
        }
        let record = |i: usize| std::array::from_fn(|j| word(12 + 20 * i + 4 * j).unwrap_or(0));
        let table = Table {
            events: (0..n).map(record).collect(),
            attributes: (n..n + m).map(record).collect(),
            source: b[12 + 20 * (n + m)..][..k].to_vec(),
        };
        Some(Input::new(table))
    }

    /// Event by event, as people read it.
    pub fn shown(&self) -> String {
        const KINDS: [&str; 10] = ["Start", "Empty", "End", "Text", "CData", "Ref", "Other", "Eof", "Fault", "Indent"];
        let t = &self.table;
        let mut out = String::new();
        let part = |start: u32, length: u32| match t.source.get(start as usize..start as usize + length as usize) {
            Some(bytes) => quoted(bytes),
            None => format!("{start}+{length} outside"),
        };
        for (i, [kind, start, length, first, count]) in t.events.iter().copied().enumerate() {
            let name = KINDS.get(kind as usize).map_or(format!("kind {kind}"), |k| k.to_string());
            write!(out, "{i} {name} {}", part(start, length)).unwrap();
            for a in (0..count.min(1000)).map(|a| first as u64 + a as u64) {
                match t.attributes.get(a as usize) {
                    Some([mark, ks, kl, vs, vl]) => {
                        let marked = if *mark == 0 { String::new() } else { format!(" mark {mark}") };
                        write!(out, " [{a}{marked}]{}={}", part(*ks, *kl), part(*vs, *vl)).unwrap()
                    }
                    None => write!(out, " [{a} outside]").unwrap(),
                }
            }
            out.push('\n');
        }
        for (n, what) in self.loose.iter().zip(["events", "attributes"]) {
            if *n > 0 {
                writeln!(out, "{n} words more behind the {what}").unwrap();
            }
        }
        if t.events.len() + t.attributes.len() + t.source.len() > 0 {
            writeln!(out, "({} events, {} attributes, {} bytes)", t.events.len(), t.attributes.len(), t.source.len()).unwrap();
        } else {
            out.push_str("(no events)\n");
        }
        out
    }
}

fn hit_place(attribute: u32) {
    if attribute == NONE {
        hit!("F10", "an event")
    } else {
        hit!("F10", "an attribute")
    }
}

pub fn quoted(bytes: &[u8]) -> String {
    let mut out = String::from("\"");
    for &c in bytes {
        match c {
            b'"' => out.push_str("\\\""),
            b'\\' => out.push_str("\\\\"),
            b'\n' => out.push_str("\\n"),
            b'\t' => out.push_str("\\t"),
            b'\r' => out.push_str("\\r"),
            0x20..=0x7e => out.push(c as char),
            c => write!(out, "\\x{c:02x}").unwrap(),
        }
    }
    out + "\""
}

/// Events with their own bytes, from which a table is laid out.
#[derive(Clone, Debug, Default, PartialEq, Eq)]
pub struct Event {
    pub kind: u32,
    pub bytes: Vec<u8>,
    pub attributes: Vec<Attribute>,
}

#[derive(Clone, Debug, Default, PartialEq, Eq)]
pub struct Attribute {
    pub mark: u32,
    pub key: Vec<u8>,
    pub value: Vec<u8>,
}

/// The table of events as writing lays it out (rule W12).
pub fn laid_out(events: &[Event]) -> Table {
    fn put(source: &mut Vec<u8>, bytes: &[u8]) -> (u32, u32) {
        if bytes.is_empty() {
            return (0, 0);
        }
        source.extend_from_slice(bytes);
        ((source.len() - bytes.len()) as u32, bytes.len() as u32)
    }
    let mut t = Table::default();
    for e in events {
        let (start, length) = put(&mut t.source, &e.bytes);
        let first = if e.attributes.is_empty() { 0 } else { t.attributes.len() as u32 };
        for a in &e.attributes {
            let (key, key_length) = put(&mut t.source, &a.key);
            let (value, value_length) = put(&mut t.source, &a.value);
            t.attributes.push([a.mark, key, key_length, value, value_length]);
        }
        t.events.push([e.kind, start, length, first, e.attributes.len() as u32]);
    }
    t
}
