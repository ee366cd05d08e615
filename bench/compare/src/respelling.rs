//! Where the product differs from the crate by a request, a table is spelled so that the crate reads what the request says
//! (docs/DIFFERENCES.md). Each event of the new table has the number of the old one.
//!
//! Request 3: a Ref whose name begins with `#` becomes a CData of its character, or a Text `&`, which is refused (10).
//!
//! Request 7: below report level an Empty child becomes its Start and its End, but an Empty `testcase` in a suite, an Empty status element in
//! a case and whatever stands in a gathered text, a property list or a skip. A Start `property` of a list becomes an Empty one, and its
//! content goes; where the table ends in there, a Fault or the table's end is put behind it.
use cover::{hit, hit_if, hit_of};
use quick_xml::{replay::*, rules::*};

pub struct Spelled {
    pub table: Table,
    /// The old number of each new event, and of the new table's end.
    pub old: Vec<u32>,
}

struct Spelling<'a> {
    from: &'a Table,
    at: usize,
    to: Table,
    old: Vec<u32>,
    /// The table ended in the content of a property: nothing behind it is reached.
    cut: bool,
}

/// Reading stops here.
struct Stop;
type Go = Result<(), Stop>;

#[derive(Clone, Copy, PartialEq)]
enum Parent {
    Suite,
    Case,
    Status,
}

/// The table as the crate is to read it; none where that is the table itself.
pub fn respelled(from: &Table) -> Option<Spelled> {
    let changes = |e: &[u32; 5]| match e[0] {
        EMPTY => true,
        START => from.part(e[1], e[2]) == b"property",
        REF => from.part(e[1], e[2]).first() == Some(&b'#'),
        _ => false,
    };
    if !from.events.iter().any(changes) {
        return None;
    }
    let to = Table {
        events: Vec::with_capacity(from.events.len() + 8),
        attributes: from.attributes.clone(),
        source: from.source.clone(),
    };
    let mut s = Spelling { from, at: 0, to, old: Vec::new(), cut: false };
    let _ = s.report();
    if !s.cut {
        while s.at < from.events.len() {
            s.keep();
        }
    }
    s.old.push(from.events.len() as u32);
    Some(Spelled { table: s.to, old: s.old })
}

impl<'a> Spelling<'a> {
    fn put(&mut self, event: [u32; 5], old: usize) {
        self.to.events.push(event);
        self.old.push(old as u32);
    }

    fn name_at(&self, at: usize) -> &'a [u8] {
        let e = self.from.events[at];
        self.from.part(e[1], e[2])
    }

    fn look(&self) -> Result<(u32, &'a [u8]), Stop> {
        let e = self.from.events.get(self.at).ok_or(Stop)?;
        if matches!(e[0], EOF | FAULT) {
            Err(Stop)
        } else {
            Ok((e[0], self.name_at(self.at)))
        }
    }

    fn keep(&mut self) {
        let event = self.from.events[self.at];
        let kept = if event[0] == REF { self.reference(event) } else { event };
        self.put(kept, self.at);
        self.at += 1;
    }

    fn reference(&mut self, event: [u32; 5]) -> [u32; 5] {
        let name = self.from.part(event[1], event[2]);
        let Ok(name) = std::str::from_utf8(name) else { return event };
        if !name.starts_with('#') {
            return event;
        }
        let start = self.to.source.len() as u32;
        let (kind, text) = match char_ref(name) {
            Some(c) => (CDATA, c.to_string()),
            None => (TEXT, "&".to_string()),
        };
        hit_if!(kind == CDATA, "X6", "a good number", "a bad number");
        self.to.source.extend_from_slice(text.as_bytes());
        [kind, start, text.len() as u32, 0, 0]
    }

    /// An Empty child as its Start and its End.
    fn spell(&mut self) {
        let [_, start, length, first, count] = self.from.events[self.at];
        self.put([START, start, length, first, count], self.at);
        self.put([END, start, length, 0, 0], self.at);
        self.at += 1;
    }

    fn report(&mut self) -> Go {
        let mut begun = false;
        loop {
            let (kind, name) = self.look()?;
            self.keep();
            match (kind, name) {
                (START | EMPTY, b"testsuites") => begun = true,
                (END, b"testsuites") => return Err(Stop),
                (START, b"testsuite") if begun => self.children(Parent::Suite)?,
                _ => {}
            }
        }
    }

    fn children(&mut self, of: Parent) -> Go {
        loop {
            let (kind, name) = self.look()?;
            let own = match of {
                Parent::Suite => name == b"testcase",
                Parent::Case => is_status_name(name),
                Parent::Status => false,
            };
            if kind == EMPTY && !own {
                count_empty(of, name);
                self.spell();
                continue;
            }
            self.keep();
            let text = matches!(name, b"system-out" | b"system-err") || of == Parent::Status && name == b"stackTrace";
            match (kind, of) {
                (END, Parent::Suite) if name == b"testsuite" => return Ok(()),
                (END, Parent::Case) if name == b"testcase" => return Ok(()),
                (END, Parent::Status) if is_status_name(name) => return Ok(()),
                (START, Parent::Suite) if own => self.children(Parent::Case)?,
                (START, Parent::Case) if own => self.children(Parent::Status)?,
                (START, Parent::Suite | Parent::Case) if name == b"properties" => self.list()?,
                (START, _) if text => self.text(name)?,
                (START, _) => self.skip(name)?,
                _ => {}
            }
        }
    }

    fn text(&mut self, own: &[u8]) -> Go {
        loop {
            let (kind, name) = self.look()?;
            self.keep();
            if kind == END && name == own {
                return Ok(());
            }
        }
    }

    fn skip(&mut self, own: &[u8]) -> Go {
        let mut depth = 0;
        loop {
            let (kind, name) = self.look()?;
            self.keep();
            match kind {
                START if name == own => depth += 1,
                END if name == own && depth == 0 => return Ok(()),
                END if name == own => depth -= 1,
                _ => {}
            }
        }
    }

    fn list(&mut self) -> Go {
        loop {
            let (kind, name) = self.look()?;
            if kind == START && name == b"property" {
                self.property()?;
                continue;
            }
            self.keep();
            if kind == END && name == b"properties" {
                return Ok(());
            }
        }
    }

    fn property(&mut self) -> Go {
        hit!("R16", "a Start property");
        let [_, start, length, first, count] = self.from.events[self.at];
        self.put([EMPTY, start, length, first, count], self.at);
        let mut depth = 0;
        loop {
            self.at += 1;
            let kind = self.from.events.get(self.at).map_or(EOF, |e| e[0]);
            if matches!(kind, EOF | FAULT) {
                hit_if!(kind == FAULT, "R16", "a Fault in the content", "the table's end in the content");
                if count == 0 {
                    hit!("A12", "an attribute is missing before the content is cut off");
                }
                self.cut = true;
                self.put([if kind == EOF { CUT } else { FAULT }, 0, 0, 0, 0], self.at);
                return Err(Stop);
            }
            if self.name_at(self.at) != b"property" {
                continue;
            }
            match kind {
                START => depth += 1,
                END if depth == 0 => {
                    self.at += 1;
                    return Ok(());
                }
                END => depth -= 1,
                _ => {}
            }
        }
    }
}

fn count_empty(of: Parent, name: &[u8]) {
    match (of, name) {
        (Parent::Status, b"stackTrace" | b"system-out" | b"system-err") => hit!("S3", "an Empty"),
        (Parent::Status, n) => hit_if!(is_status_name(n), "S4", "an Empty with a status name", "an Empty"),
        (_, b"properties") => hit_of!(of as usize, "R13", "an Empty list of a suite", "an Empty list of a case"),
        (_, b"system-out" | b"system-err") => {
            hit_of!(of as usize, "R13", "an Empty output of a suite", "an Empty output of a case")
        }
        _ => hit_of!(of as usize, "R13", "an unknown Empty in a suite", "an unknown Empty in a case"),
    }
}
