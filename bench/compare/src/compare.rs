//! One table: reading, listing, writing, what they explain, and the round trip, each against what the crate and the rules say.
use crate::{
    calls,
    explain::Sentences,
    merging::{joined, merged, Tree},
    random::Random,
    reference::{self, Outcome, Read, Refused},
    report::{fields, is_plain, listing, starts, tree_fields, written},
    sys,
    table::{Input, NONE},
};
use cover::{hit, hit_if};
use quick_xml::replay::{Areas, Changes};

/// What was compared.
#[derive(Clone, Debug, Default)]
pub struct Tally {
    pub tables: u64,
    pub accepted: u64,
    pub refused: u64,
    pub short: u64,
    pub listings: u64,
    pub tables_written: u64,
    pub documents_written: u64,
    pub round_trips: u64,
    pub plain: u64,
    pub explained: u64,
    pub pairs: u64,
    pub reports_built: u64,
    pub calls_built: u64,
    pub orders: u64,
    pub sheets: u64,
    pub starts: u64,
    pub merged: u64,
}

impl Tally {
    pub fn rows(&self) -> [(&'static str, u64); 17] {
        [
            ("tables", self.tables),
            ("accepted", self.accepted),
            ("refused", self.refused),
            ("with areas too short", self.short),
            ("listings", self.listings),
            ("tables written", self.tables_written),
            ("documents written", self.documents_written),
            ("round trips", self.round_trips),
            ("of plain reports", self.plain),
            ("refusals in words", self.explained),
            ("pairs that agree", self.pairs),
            ("reports built", self.reports_built),
            ("calls of builders", self.calls_built),
            ("reports to order", self.orders),
            ("release sheets", self.sheets),
            ("first and last starts", self.starts),
            ("reports merged", self.merged),
        ]
    }
    pub fn slots(&mut self) -> [&mut u64; 17] {
        [
            &mut self.tables,
            &mut self.accepted,
            &mut self.refused,
            &mut self.short,
            &mut self.listings,
            &mut self.tables_written,
            &mut self.documents_written,
            &mut self.round_trips,
            &mut self.plain,
            &mut self.explained,
            &mut self.pairs,
            &mut self.reports_built,
            &mut self.calls_built,
            &mut self.orders,
            &mut self.sheets,
            &mut self.starts,
            &mut self.merged,
        ]
    }
}

pub type Compared = Result<(), String>;

/// What a comparison needs besides the table: the areas, which are lent again and again, and what the requests changed.
pub struct Bench {
    pub tally: Tally,
    pub changes: Changes,
    pub sentences: Sentences,
    records: Vec<u32>,
    text: Vec<u8>,
    scratch: Vec<u8>,
    out: Vec<u8>,
    /// A tree that was read before.
    before: Tree,
}

/// How the areas of a call are chosen.
#[derive(Clone, Copy, Debug, PartialEq)]
enum Room {
    /// More than enough.
    Full,
    /// Just enough.
    Exact,
    /// No multiple of a record; just enough besides.
    Odd,
    /// One record, one byte of text or one of scratch too few.
    Less(usize),
    /// Cut anywhere.
    Cut,
}

fn is_zero(words: &[u32]) -> bool {
    words.iter().all(|w| *w == 0)
}

fn is_clear(bytes: &[u8]) -> bool {
    bytes.iter().all(|b| *b == 0)
}

fn check(test: bool, what: impl FnOnce() -> String) -> Compared {
    if test {
        Ok(())
    } else {
        Err(what())
    }
}

fn accepted(r: &sys::Refusal) -> bool {
    r.number == 0 && r.cause == 0 && r.depth == 0 && r.path == [0; 18] && r.event == NONE && r.attribute == NONE
}

/// The first lines in which two texts differ.
pub fn differing(want: &str, got: &str) -> String {
    for (a, b) in want.lines().zip(got.lines()) {
        if a != b {
            return format!("  wanted {a}\n  got    {b}");
        }
    }
    format!("  wanted {} lines, got {}", want.lines().count(), got.lines().count())
}

impl Bench {
    pub fn new(changes: Changes, mut sentences: Sentences) -> Self {
        let empty = Vec::new;
        sentences.attributes += changes.hostname as usize;
        Bench { tally: Tally::default(), changes, sentences, records: vec![], text: empty(), scratch: empty(), out: empty(), before: Tree::default() }
    }

    /// All areas at the lengths asked for, full of other bytes.
    fn lend(&mut self, words: usize, text: usize, scratch: usize, dirt: u8) {
        self.records.clear();
        self.records.resize(words, u32::from_le_bytes([dirt; 4]));
        self.text.clear();
        self.text.resize(text, dirt);
        self.scratch.clear();
        self.scratch.resize(scratch, dirt);
    }

    /// The whole comparison of a table; `how` chooses the areas.
    pub fn table(&mut self, input: &Input, how: u64) -> Compared {
        self.tally.tables += 1;
        let mut r = Random::new(how);
        let full = reference::read(input, Areas::limits(), self.changes);
        self.case_tags(input)?;
        if let (true, Ok(read)) = (self.changes.hostname && cleans_to_hostname(input), &full.result) {
            return self.listing_alone(input, &listing(&read.report), full.used);
        }
        let (areas, words, room) = choose(&mut r, full.used);
        let fits = areas.records >= full.used.records && areas.text >= full.used.text && areas.scratch >= full.used.scratch;
        hit_if!(fits, "M1", "areas suffice", "areas don't suffice");
        if words % 32 != 0 {
            hit!("M1", "a part of a record is left");
        }
        let want = if fits { full } else { reference::read(input, areas, self.changes) };
        self.tally.short += !fits as u64;
        if let Err(Refused { number: 2 | 10 | 21, attribute, .. }) = &want.result {
            let full = if *attribute == NONE { areas.scratch == want.used.scratch } else { areas.text == want.used.text };
            if full {
                hit!("M7", "what is wrong with a text itself comes before room for it");
            }
        }
        self.reading(input, &want, areas, words, r.next() as u8 | 1)
            .map_err(|e| format!("reading, areas {room:?} {areas:?}: {e}"))?;
        match &want.result {
            Ok(read) => {
                self.tally.accepted += 1;
                self.listing(input, read, areas, words, &mut r)?;
                self.starts(read)?;
                self.merging(&mut r)?;
                self.writing(read, &mut r)?;
                if r.one(4) {
                    self.spoiled(input, areas, words, &mut r)
                } else {
                    Ok(())
                }
            }
            Err(refused) => {
                self.tally.refused += 1;
                self.refusing(input, refused, areas, words, &mut r)
            }
        }
    }

    /// Starts and Empties named `testcase`; of words that no table has, too.
    fn case_tags(&mut self, input: &Input) -> Compared {
        let source = &input.table.source;
        let within = |at: u64| source.len().min(at as usize);
        let is_tag = |e: &&[u32; 5]| e[0] <= 1 && source[within(e[1] as u64)..within(e[1] as u64 + e[2] as u64)] == *b"testcase";
        let want = input.table.events.iter().filter(is_tag).count();
        hit_if!(want > 0, "R21", "testcase tags", "none");
        check(sys::case_tags(&input.events(), source) == want, || format!("testcase tags: wanted {want}"))
    }

    /// The byte where a refusal arose.
    fn place(&self, input: &Input, got: &sys::Refusal) -> Compared {
        let t = &input.table;
        let root = t.events.iter().find(|e| e[0] <= 1 && got.cause == 9).map(|e| e[1] as usize);
        let (event, attribute) = (t.events.get(got.event as usize), t.attributes.get(got.attribute as usize));
        let want = match (got.attribute, got.event, root) {
            (NONE, _, Some(at)) => at,
            (NONE, NONE, None) => NONE as usize,
            (NONE, _, None) => event.filter(|e| e[2] > 0).map_or(t.source.len(), |e| e[1] as usize),
            _ => attribute.map_or(NONE as usize, |a| a[if a[4] == 0 { 1 } else { 3 }] as usize),
        };
        hit_if!(got.attribute == NONE, "F14", "an event's, the root's or none", "an attribute's");
        let byte = sys::refusal_byte(*got, &input.events(), &input.attributes(), &t.source);
        check(byte == want, || format!("the byte of the refusal: wanted {want}, got {byte}"))
    }

    /// Where another key is cleaned to `hostname` the trees differ, and the listings don't.
    fn listing_alone(&mut self, input: &Input, want: &String, used: Areas) -> Compared {
        let more = input.table.attributes.len() + 1;
        self.lend(32 * (used.records + more), used.text + input.table.source.len(), used.scratch + input.table.source.len(), 7);
        self.out.clear();
        self.out.resize(want.len(), 7);
        let (events, attributes) = (input.events(), input.attributes());
        let (records, text, scratch) = (&mut self.records, &mut self.text, &mut self.scratch);
        let got = sys::read_and_list(&events, &attributes, &input.table.source, records, text, scratch, &mut self.out);
        self.listed("listing where another key is cleaned to hostname", Some(want), &got.refusal, got.length)
    }

    fn reading(&mut self, input: &Input, want: &Outcome, areas: Areas, words: usize, dirt: u8) -> Compared {
        self.lend(words, areas.text, areas.scratch, dirt);
        let got = calls::read(
            &input.events(),
            &input.attributes(),
            &input.table.source,
            &mut self.records,
            &mut self.text,
            &mut self.scratch,
        );
        check(is_clear(&self.scratch), || "scratch isn't zero behind it".into())?;
        hit!("M11", "areas that held other bytes");
        match &want.result {
            Err(refused) => {
                check(refused.is(&got), || format!("\n  wanted {}\n  got    {}", refused.shown(), Refused::given(&got).shown()))?;
                self.place(input, &got)?;
                hit!("F13", "areas are zero");
                check(is_zero(&self.records) && is_clear(&self.text), || "areas aren't zero behind a refusal".into())
            }
            Ok(read) => {
                check(accepted(&got), || format!("\n  wanted a report\n  got    {}", Refused::given(&got).shown()))?;
                self.tree(read)
            }
        }
    }

    /// The tree in the areas is the report; behind it all is zero.
    fn tree(&mut self, read: &Read) -> Compared {
        let (got, kinds) = tree_fields(&self.records, &self.text).map_err(|e| format!("the tree: {e}"))?;
        let want = fields(&read.report, self.changes.hostname);
        check(got == want, || format!("the tree:\n{}", differing(&want, &got)))?;
        check(kinds == read.records, || format!("records taken:\n  wanted {:?}\n  got    {kinds:?}", read.records))?;
        let n = read.text.len();
        check(self.text[..n] == read.text[..] && is_clear(&self.text[n..]), || {
            "the text area, or what is behind its texts".into()
        })?;
        hit!("M8", "a layout");
        check(sys::is_layout(&self.records, &self.text), || "what reading leaves is no layout".into())
    }

    fn listing(&mut self, input: &Input, read: &Read, areas: Areas, words: usize, r: &mut Random) -> Compared {
        let want = listing(&read.report);
        let length = match r.below(8) {
            0..=3 => want.len(),
            4 => want.len() - 1,
            5 => r.index(want.len()),
            _ => want.len() + 1 + r.index(70),
        };
        let dirt = r.next() as u8 | 1;
        let fits = length >= want.len();
        hit_if!(fits, "L11", "the output suffices", "the output is too short");
        self.out.clear();
        self.out.resize(length, dirt);
        let got = calls::list(&self.records, &self.text, &mut self.out);
        self.listed("listing", fits.then_some(&want), &got.refusal, got.length)?;
        self.tally.listings += 1;
        self.in_one_call(input, fits.then_some(&want), &Refused::late(16, 21), areas, words, length, dirt)?;
        // the tree is wanted again
        self.lend(words, areas.text, areas.scratch, dirt);
        sys::read(&input.events(), &input.attributes(), &input.table.source, &mut self.records, &mut self.text, &mut self.scratch);
        Ok(())
    }

    /// A listing that is wanted, or 16.
    fn listed(&self, call: &str, want: Option<&String>, refusal: &sys::Refusal, length: usize) -> Compared {
        match want {
            Some(want) => {
                let got = String::from_utf8_lossy(&self.out[..length.min(self.out.len())]);
                check(accepted(refusal) && got == *want, || format!("{call}:\n{}", differing(want, &got)))?;
                hit!("L12", "zero behind the listing");
                check(is_clear(&self.out[length..]), || format!("{call}: the output isn't zero behind the listing"))
            }
            None => {
                let late = Refused::late(16, 21);
                check(late.is(refusal) && length == 0, || format!("{call}: wanted 16, got {}", Refused::given(refusal).shown()))?;
                hit!("F11", "16");
                check(is_clear(&self.out), || format!("{call}: the output isn't zero behind 16"))
            }
        }
    }

    /// Reading and listing in one call, and what is printed of it.
    #[allow(clippy::too_many_arguments)]
    fn in_one_call(
        &mut self, input: &Input, want: Option<&String>, refused: &Refused, areas: Areas, words: usize, length: usize, dirt: u8,
    ) -> Compared {
        let (events, attributes) = (input.events(), input.attributes());
        self.lend(words, areas.text, areas.scratch, dirt);
        self.out.clear();
        self.out.resize(length, dirt);
        let got = sys::read_and_list(
            &events,
            &attributes,
            &input.table.source,
            &mut self.records,
            &mut self.text,
            &mut self.scratch,
            &mut self.out,
        );
        let none = is_zero(&self.records) && is_clear(&self.text) && is_clear(&self.scratch);
        check(none, || "reading and listing in one call leaves something in its areas".into())?;
        match want {
            Some(_) => {
                hit!("L13", "a listing");
                self.listed("reading and listing in one call", want, &got.refusal, got.length)?
            }
            None => {
                hit_if!(refused.number == 16, "L13", "16", "a refusal of reading");
                let same = refused.is(&got.refusal) && got.length == 0 && is_clear(&self.out);
                check(same, || {
                    format!("in one call:\n  wanted {}\n  got    {}", refused.shown(), Refused::given(&got.refusal).shown())
                })?
            }
        }
        self.lend(words, areas.text, areas.scratch, dirt);
        self.out.clear();
        self.out.resize(length, dirt);
        let n = sys::public_listing(
            &events,
            &attributes,
            &input.table.source,
            &mut self.records,
            &mut self.text,
            &mut self.scratch,
            &mut self.out,
        );
        let shown = want.map_or(&b"(refused)\n"[..], |w| w.as_bytes());
        hit_if!(want.is_some(), "L3", "a listing", "(refused)");
        let shown = &shown[..shown.len().min(length)];
        if want.is_none() && length < 10 {
            hit!("L12", "a part of (refused)");
        }
        let none = is_zero(&self.records) && is_clear(&self.text) && is_clear(&self.scratch);
        check(none && n == shown.len() && &self.out[..n] == shown && is_clear(&self.out[n..]), || {
            "the public listing, or its areas".into()
        })
    }

    fn refusing(&mut self, input: &Input, refused: &Refused, areas: Areas, words: usize, r: &mut Random) -> Compared {
        let (length, dirt) = (r.index(40), r.next() as u8 | 1);
        self.in_one_call(input, None, refused, areas, words, length, dirt)?;
        if r.one(4) {
            // areas of zero are no layout
            hit!("L11", "no layout");
            hit!("W13", "no layout");
            hit!("D7", "no layout");
            self.lend(words, areas.text, 0, 0);
            let late = Refused::late(15, 20);
            self.out.clear();
            self.out.resize(length, dirt);
            let got = calls::list(&self.records, &self.text, &mut self.out);
            check(late.is(&got.refusal) && got.length == 0 && is_clear(&self.out), || "listing of areas without a report".into())?;
            let got = sys::write(&self.records, &self.text, &mut [7; 5], &mut [], &mut []);
            check(late.is(&got.refusal), || "writing of areas without a report".into())?;
            let got = sys::starts(&self.records, &self.text);
            check(late.is(&got.refusal) && !got.found && got.seconds == 0 && got.nanos == 0, || {
                "starts of areas without a report".into()
            })?;
            hit!("F11", "15");
        }
        self.explaining(input, refused, areas, words, r)
    }

    /// The line of a refusal (rules E1 to E6), and now and then of one that no call gives.
    fn explaining(&mut self, input: &Input, refused: &Refused, areas: Areas, words: usize, r: &mut Random) -> Compared {
        let mut refused = refused.clone();
        if r.one(8) && !refused.path.is_empty() && refused.number != 11 {
            let (i, word) = (r.index(refused.path.len()), r.index(3));
            refused.path[i][word] = [0, 2, 3, 5, 13, 16, 17, 99, r.index(input.table.events.len() + 2) as u32, NONE][r.index(10)];
        }
        let refused = &refused;
        let lent = match refused.number {
            12 => words,
            13 => areas.text,
            14 => areas.scratch,
            _ => r.index(100),
        };
        // the limits' size is only said here, and not lent
        let lent = if r.one(4) { 65_536 * 256 } else { lent };
        let mut given = sys::read(&input.events(), &input.attributes(), &input.table.source, &mut [], &mut [], &mut []);
        given.number = refused.number;
        given.cause = refused.cause;
        given.depth = refused.path.len() as u32;
        given.path = [0; 18];
        given.path[..3 * refused.path.len()].copy_from_slice(refused.path.as_flattened());
        (given.event, given.attribute) = (refused.event, refused.attribute);
        let want = self.sentences.line(refused, lent, &input.table);
        let length = if r.one(4) { r.index(want.len() + 2) } else { want.len() + r.index(3) };
        let fits = length >= want.len();
        hit_if!(fits, "E5", "the area suffices", "the area is too short");
        self.out.clear();
        self.out.resize(length, 7);
        let got = sys::explain(given, lent, &input.events(), &input.attributes(), &input.table.source, &mut self.out);
        self.tally.explained += 1;
        self.listed("the refusal's line", fits.then_some(&want), &got.refusal, got.length)
    }

    /// This tree behind one that was read before, in areas that suffice and that don't (rules J1 to J11).
    fn merging(&mut self, r: &mut Random) -> Compared {
        let mut first = Tree { records: self.records.clone(), text: self.text.clone() };
        first.records.truncate(first.records.len() / 32 * 32);
        let mut second = std::mem::replace(&mut self.before, first.clone());
        if second.records.is_empty() {
            second = first.clone();
        }
        if r.one(2) {
            std::mem::swap(&mut first, &mut second);
        }
        // the largest count, and the longest time
        let largest = r.one(8).then(|| [18, 20, 22, 24][r.index(4)]);
        if let Some(word) = largest {
            (first.records[word], first.records[word + 1]) = (u32::MAX, u32::MAX - r.below(2) as u32);
        }
        if r.one(8) {
            first.records[1] |= 16;
            (first.records[16], first.records[17]) = (8_388_607, 999_999_999);
        }
        let live = |t: &Tree| (0..t.records.len() / 32).find(|i| t.records[32 * i] == 1) == Some(0);
        if !live(&first) || !live(&second) || !sys::is_layout(&first.records, &first.text) {
            return Ok(());
        }
        self.tally.merged += 1;
        let most = (first.records.len() + second.records.len(), first.text.len() + second.text.len());
        let (words, bytes) = if r.one(3) { (r.index(most.0 + 1), r.index(most.1 + 1)) } else { most };
        let (mut records, mut text) = (vec![7u32; words + r.index(40)], vec![7u8; bytes + r.index(3)]);
        let got = sys::merge(&first.records, &first.text, &second.records, &second.text, &mut records, &mut text);
        match merged(&first, &second, records.len(), text.len()) {
            Ok(want) => {
                hit!("J9", "within the limits");
                let same = accepted(&got) && records.starts_with(&want.records) && text.starts_with(&want.text);
                let zero = is_zero(&records[want.records.len()..]) && is_clear(&text[want.text.len()..]);
                check(same && zero, || "the merged tree".into())?;
                hit!("J11", "a listing of what was merged");
                one_behind_other(&first, &second, &want)?;
            }
            Err((number, cause)) => {
                if number == 17 || number == 22 {
                    hit_if!(number == 17, "J9", "a sum of counts is too large", "the summed time is too long");
                }
                let zero = is_zero(&records) && is_clear(&text);
                check(Refused::late(number, cause).is(&got) && zero, || format!("merging refused with {number}"))?;
            }
        }
        let none = sys::merge(&first.records, &first.text, &[], &[], &mut records, &mut text).number;
        let other = sys::merge(&[], &[], &second.records, &second.text, &mut records, &mut text).number;
        hit!("J1", "no layout");
        check((none, other) == (15, 15) && is_zero(&records) && is_clear(&text), || "merging without a second or a first tree".into())
    }

    fn starts(&mut self, read: &Read) -> Compared {
        self.tally.starts += 1;
        let got = sys::starts(&self.records, &self.text);
        let words = |m: &sys::Moment| {
            [m.year as u32, m.month as u32, m.day as u32, m.hour as u32, m.minute as u32, m.second as u32, m.nanos, m.offset as u32]
        };
        let span = (got.seconds as i128) * 1_000_000_000 + got.nanos as i128;
        match starts(&read.report) {
            Some((first, last, between)) => {
                hit!("D1", "days counted");
                hit!("D2", "days before a year");
                hit!("D3", "an instant");
                hit!("D4", "a first and a last start");
                hit!("D5", "a span");
                let same = got.found
                    && words(&got.first) == first
                    && words(&got.last) == last
                    && span == between
                    && accepted(&got.refusal);
                check(same && got.nanos < 1_000_000_000, || {
                    format!("first and last start: wanted {first:?}, {last:?}, {between} ns")
                })
            }
            None => {
                hit!("D6", "no case has a timestamp");
                let zero = words(&got.first) == [0; 8] && words(&got.last) == [0; 8] && span == 0;
                check(!got.found && zero && accepted(&got.refusal), || "starts where no case has one".into())
            }
        }
    }

    fn writing(&mut self, read: &Read, r: &mut Random) -> Compared {
        let (want, document) = written(&read.report, self.changes.hostname);
        count_written(&want);
        let (n, m, k) = (want.events.len(), want.attributes.len(), want.source.len());
        let (mut e, mut a, mut b) = (5 * n, 5 * m, k);
        match r.below(8) {
            0 => e -= 1 + r.index(4),
            1 => a -= 1 + r.index(4),
            2 => b -= 1,
            3 => (e, a, b) = (r.index(e + 1), r.index(a + 1), r.index(b + 1)),
            4 => (e, a, b) = (e + r.index(12), a + r.index(12), b + r.index(40)),
            _ => {}
        }
        let fits = e >= 5 * n && a >= 5 * m && b >= k;
        hit_if!(fits, "W13", "areas suffice", "areas don't suffice");
        let (mut events, mut attributes, mut bytes) = (vec![7u32; e], vec![7u32; a], vec![7u8; b]);
        let (records, text) = (self.records.clone(), self.text.clone());
        let got = calls::write(&self.records, &self.text, &mut events, &mut attributes, &mut bytes);
        check(records == self.records && text == self.text, || "writing changes its tree".into())?;
        if !fits {
            let none = (got.events, got.attributes, got.bytes) == (0, 0, 0)
                && is_zero(&events)
                && is_zero(&attributes)
                && is_clear(&bytes);
            return check(Refused::late(16, 21).is(&got.refusal) && none, || "writing: 16 and areas of zero are wanted".into());
        }
        self.tally.tables_written += 1;
        check(accepted(&got.refusal), || format!("writing: got {}", Refused::given(&got.refusal).shown()))?;
        check((got.events, got.attributes, got.bytes) == (n, m, k), || "writing: how many events, attributes and bytes".into())?;
        let differs = events[..5 * n].chunks(5).zip(&want.events).position(|(g, w)| g != w);
        check(differs.is_none(), || format!("writing: event {}\nwanted\n{}", differs.unwrap(), Input::new(want.clone()).shown()))?;
        let differs = attributes[..5 * m].chunks(5).zip(&want.attributes).position(|(g, w)| g != w);
        check(differs.is_none(), || {
            format!("writing: attribute {}\nwanted\n{}", differs.unwrap(), Input::new(want.clone()).shown())
        })?;
        check(bytes[..k] == want.source[..], || "writing: the bytes".into())?;
        check(is_zero(&events[5 * n..]) && is_zero(&attributes[5 * m..]) && is_clear(&bytes[k..]), || {
            "writing: zeros behind the table".into()
        })?;
        self.document(read, &document, r)?;
        if r.one(4) {
            self.round_trip(read, Input::new(want))
        } else {
            Ok(())
        }
    }

    /// Trees that reading never leaves: with a dead record more, which changes nothing (rule M13), and with a word or byte changed, which is
    /// no layout or one whose fields can be told (M10); listing, writing and starts refuse what is no layout.
    fn spoiled(&mut self, input: &Input, areas: Areas, words: usize, r: &mut Random) -> Compared {
        self.lend(words, areas.text, areas.scratch, 3);
        sys::read(&input.events(), &input.attributes(), &input.table.source, &mut self.records, &mut self.text, &mut self.scratch);
        let (mut records, mut text) = (self.records.clone(), self.text.clone());
        let taken = (0..records.len() / 32).position(|i| records[32 * i] == 0).unwrap_or(records.len() / 32);
        let list = |records: &[u32], text: &[u8]| {
            let mut out = vec![7u8; 40_000 + 8 * text.len() * (taken + 2)];
            let l = sys::list(records, text, &mut out);
            (l.refusal.number, out[..l.length].to_vec())
        };
        if r.one(2) {
            let before = list(&records, &text);
            let mut dead: Vec<u32> = (0..32).map(|_| r.next() as u32).collect();
            dead[0] = 17 + r.below(14) as u32;
            let at = 32 * r.index(taken + 1);
            records.truncate(32 * taken);
            records.splice(at..at, dead);
            hit!("M13", "a dead record anywhere");
            let good = sys::is_layout(&records, &text) && list(&records, &text) == before;
            return check(good, || format!("a dead record of kind {} before record {} changes something", records[at], at / 32));
        }
        if text.is_empty() || r.below(4) > 0 {
            let at = 32 * r.index(taken) + r.index(32);
            records[at] =
                [0, 1, 2, 3, 6, 8, 9, 11, 13, 14, 17, records[at] ^ 1, records[at] ^ 1 << r.below(32), u32::MAX][r.index(14)];
        } else {
            let at = r.index(text.len());
            text[at] = [0, 1, 0x80, 0xc3, 0xff, b'a'][r.index(6)];
        }
        let good = sys::is_layout(&records, &text);
        hit_if!(good, "M10", "a changed tree that is a layout", "a changed tree that is none");
        let told = tree_fields(&records, &text);
        check(!good || told.is_ok(), || format!("a layout by the call, but {}", told.as_ref().unwrap_err()))?;
        let (listed, starts) = (list(&records, &text).0, sys::starts(&records, &text).refusal.number);
        let (mut e, mut a, mut b) =
            (vec![7; 400 * (taken + 2)], vec![7; 200 * (taken + 2)], vec![7; 4000 + 50 * text.len() * (taken + 2)]);
        let written = sys::write(&records, &text, &mut e, &mut a, &mut b).refusal.number;
        let want = if good { 0 } else { 15 };
        check((listed, starts, written) == (want, want, want), || {
            format!(
                "a tree that {} a layout: listing {listed}, starts {starts}, writing {written}",
                if good { "is" } else { "isn't" }
            )
        })
    }

    /// The written table read again, here and by the crate; of a plain report it is the report.
    fn round_trip(&mut self, read: &Read, again: Input) -> Compared {
        self.tally.round_trips += 1;
        let plain = is_plain(&read.report, self.changes.hostname);
        let want = reference::read(&again, Areas::limits(), self.changes);
        hit_if!(plain, "W15", "plain", "not plain");
        if plain {
            self.tally.plain += 1;
            hit!("W16", "a round trip");
            let back = want.result.as_ref().map(|b| fields(&b.report, self.changes.hostname)).unwrap_or_default();
            let first = fields(&read.report, self.changes.hostname);
            check(back == first, || format!("a plain report doesn't come back:\n{}", differing(&first, &back)))?;
        }
        let (areas, words) = (want.used, 32 * want.used.records);
        self.reading(&again, &want, areas, words, 9).map_err(|e| format!("the written table read again: {e}\n{}", again.shown()))
    }

    #[cfg(not(writes_xml))]
    fn document(&mut self, _: &Read, _: &[u8], _: &mut Random) -> Compared {
        Ok(())
    }

    /// The document that a report is written as, against what the crate's writer spells out; tokenized, a plain report's is read again.
    #[cfg(writes_xml)]
    fn document(&mut self, read: &Read, want: &[u8], r: &mut Random) -> Compared {
        self.tally.documents_written += 1;
        let length = match r.below(6) {
            0 => want.len() - 1,
            1 => r.index(want.len() + 1),
            2 => want.len() + 1 + r.index(20),
            _ => want.len(),
        };
        let mut out = vec![7u8; length];
        let got = crate::write_xml::write_xml(&self.records, &self.text, &mut out);
        hit_if!(length < want.len(), "W20", "the area doesn't suffice", "the area suffices");
        if length < want.len() {
            let late = Refused::late(16, 21).is(&got.refusal) && got.length == 0 && is_clear(&out);
            return check(late, || "the document: 16 and an area of zero are wanted".into());
        }
        let same = accepted(&got.refusal) && got.length == want.len() && out[..want.len()] == *want && is_clear(&out[want.len()..]);
        check(same, || format!("the document:\n{}", differing(&String::from_utf8_lossy(want), &String::from_utf8_lossy(&out))))?;
        hit!("W17", "a document");
        hit!("W18", "tags and texts");
        hit!("W19", "values");
        if !is_plain(&read.report, self.changes.hostname) {
            return Ok(());
        }
        let (mut events, mut attributes) = (vec![7u32; 5 * want.len() + 5], vec![7u32; 5 * want.len()]);
        let t = sys::tokenize(want, &mut events, &mut attributes);
        if t.number != 0 {
            // keys that are no names, characters that are no XML Chars
            hit!("W21", "a plain report whose document isn't one");
            return Ok(());
        }
        let five = |words: &[u32], n: u32| words.chunks(5).take(n as usize).map(|c| c.try_into().unwrap()).collect();
        let table = crate::table::Table {
            events: five(&events, t.events),
            attributes: five(&attributes, t.attributes),
            source: want.to_vec(),
        };
        hit!("W21", "a document's round trip");
        let back = reference::read(&Input::new(table), Areas::limits(), self.changes);
        let first = fields(&read.report, self.changes.hostname);
        let back = back.result.map(|b| fields(&b.report, self.changes.hostname)).unwrap_or_default();
        check(back == first, || format!("a plain report's document doesn't come back:\n{}", differing(&first, &back)))
    }

    /// Two tables that agree and are both accepted or both refused get the same listing (rule L4).
    pub fn pair(&mut self, a: &Input, b: &Input, how: u64) -> Compared {
        check(agree(a, b), || "the pair doesn't agree".into())?;
        self.tally.pairs += 1;
        let mut r = Random::new(how);
        let used = [a, b].map(|t| reference::read(t, Areas::limits(), self.changes).used);
        let most = Areas {
            records: used[0].records.max(used[1].records),
            text: used[0].text.max(used[1].text),
            scratch: used[0].scratch.max(used[1].scratch),
        };
        let (areas, words, _) = choose(&mut r, most);
        let length = [10_000, 200, 40, 9][r.index(4)];
        let mut said = vec![];
        for t in [a, b] {
            self.lend(words, areas.text, areas.scratch, 5);
            let read =
                calls::read(&t.events(), &t.attributes(), &t.table.source, &mut self.records, &mut self.text, &mut self.scratch);
            self.lend(words, areas.text, areas.scratch, 5);
            self.out.clear();
            self.out.resize(length, 5);
            sys::public_listing(
                &t.events(),
                &t.attributes(),
                &t.table.source,
                &mut self.records,
                &mut self.text,
                &mut self.scratch,
                &mut self.out,
            );
            said.push((read.number == 0, self.out.clone()));
        }
        hit!("L1", "private values changed");
        hit!("L2", "a pair that agrees");
        if said[0].0 != said[1].0 {
            hit!("L4", "one of the two is refused");
            return Ok(());
        }
        hit_if!(said[0].0, "L4", "both accepted", "both refused");
        check(said[0].1 == said[1].1, || "two tables that agree are listed differently".into())
    }
}

/// Areas by what is needed: records, bytes of text and of scratch, and the words of the record area.
fn choose(r: &mut Random, need: Areas) -> (Areas, usize, Room) {
    let mut areas = need;
    let room = match r.below(12) {
        0 | 1 => Room::Full,
        2..=4 => Room::Exact,
        5 => Room::Odd,
        6..=8 => Room::Less(r.index(3)),
        _ => Room::Cut,
    };
    match room {
        Room::Full => {
            areas = Areas { records: need.records + r.index(4), text: need.text + r.index(90), scratch: need.scratch + r.index(90) }
        }
        Room::Exact | Room::Odd => {}
        Room::Less(0) => areas.records = need.records.saturating_sub(1),
        Room::Less(1) => areas.text = need.text.saturating_sub(1),
        Room::Less(_) => areas.scratch = need.scratch.saturating_sub(1),
        Room::Cut => {
            areas = Areas { records: r.index(need.records + 2), text: r.index(need.text + 2), scratch: r.index(need.scratch + 2) }
        }
    }
    let odd = if matches!(room, Room::Odd | Room::Cut) { r.index(32) } else { 0 };
    (areas, 32 * areas.records + odd, room)
}

/// Rule L2.
fn agree(a: &Input, b: &Input) -> bool {
    const PUBLIC: [&[u8]; 11] = [
        b"name",
        b"classname",
        b"uuid",
        b"timestamp",
        b"time",
        b"tests",
        b"failures",
        b"errors",
        b"skipped",
        b"disabled",
        b"assertions",
    ];
    if a.check().is_err() || b.check().is_err() {
        hit!("L2", "a table that 11 refuses agrees with any");
        return true;
    }
    let (a, b) = (&a.table, &b.table);
    let public = |t: &crate::table::Table| t.events.iter().filter(|e| !matches!(e[0], 3..=6 | 9)).copied().collect::<Vec<_>>();
    let (x, y) = (public(a), public(b));
    let attributes = |e: &[u32; 5], f: &[u32; 5]| {
        e[4] == f[4]
            && (0..e[4]).all(|i| {
                let (g, h) = (a.attributes[(e[3] + i) as usize], b.attributes[(f[3] + i) as usize]);
                let key = a.part(g[1], g[2]);
                let value = !PUBLIC.contains(&key) || a.part(g[3], g[4]) == b.part(h[3], h[4]);
                g[0] == h[0] && key == b.part(h[1], h[2]) && value
            })
    };
    let same =
        |e: &[u32; 5], f: &[u32; 5]| e[0] == f[0] && (e[0] > 2 || a.part(e[1], e[2]) == b.part(f[1], f[2])) && attributes(e, f);
    x.len() == y.len() && x.iter().zip(&y).all(|(e, f)| same(e, f))
}

/// Request 12 lets crate and product differ where another key is cleaned to `hostname`.
pub fn cleans_to_hostname(input: &Input) -> bool {
    let t = &input.table;
    let cleaned =
        |key: &[u8]| std::str::from_utf8(key).ok().and_then(quick_xml::rules::decoded).map(|k| quick_xml::rules::filtered(&k));
    t.attributes.iter().any(|a| {
        let inside = (a[1] as u64 + a[2] as u64) <= t.source.len() as u64;
        inside && t.part(a[1], a[2]) != b"hostname" && cleaned(t.part(a[1], a[2])).as_deref() == Some("hostname")
    })
}

fn count_written(t: &crate::table::Table) {
    hit!("W1", "a report");
    hit!("W2", "attributes in their order");
    hit!("W12", "laid out");
    for (i, e) in t.events.iter().enumerate() {
        let name = t.part(e[1], e[2]);
        match (e[0], name) {
            (0, b"testsuite" | b"testcase") => hit!("W3", "a Start"),
            (1, b"testsuite" | b"testcase") => hit!("W3", "an Empty"),
            (1, b"property") => hit!("W4", "a property"),
            (3, b"") => hit!("W4", "an empty text"),
            (3, text) => hit_if!(text.contains(&b'&'), "W8", "an escaped text", "a text without escapes"),
            (0, b"failure" | b"error" | b"skipped") => hit!("W5", "a main with a description"),
            (1, b"failure" | b"error" | b"skipped") => hit!("W5", "a main without a description"),
            (0, n) if quick_xml::rules::is_status_name(n) => hit!("W6", "a run"),
            (9, _) => hit_if!(i + 1 == t.events.len(), "W7", "the last event", "behind a description"),
            _ => {}
        }
        for a in &t.attributes[e[3] as usize..(e[3] + e[4]) as usize] {
            match t.part(a[1], a[2]) {
                b"time" => {
                    hit!("W10", "a time");
                    hit!("W11", "a time");
                    hit!("L9", "a time")
                }
                b"timestamp" => hit!("W9", "a timestamp"),
                b"uuid" => hit!("W9", "a UUID"),
                b"tests" => hit!("W9", "a count"),
                _ => {}
            }
        }
    }
}

// The merged tree's listing and document: the new report's own line, then the suites of both.
fn one_behind_other(first: &Tree, second: &Tree, made: &Tree) -> Compared {
    let head = Tree { records: made.records[..32].to_vec(), text: made.text.clone() };
    let room = |t: &Tree| vec![7; 4_000 + 10 * t.text.len() + 30 * t.records.len()];
    let listing = |t: &Tree| {
        let mut out = room(t);
        let got = sys::list(&t.records, &t.text, &mut out);
        out.truncate(got.length);
        check(accepted(&got.refusal), || "one of the trees that are merged isn't listed".into()).map(|_| out)
    };
    let document = |t: &Tree| {
        let mut out = room(t);
        let got = sys::write_xml(&t.records, &t.text, &mut out);
        out.truncate(got.length);
        check(accepted(&got.refusal), || "one of the trees that are merged isn't written".into()).map(|_| out)
    };
    let want = joined(&listing(&head)?, &listing(first)?, &listing(second)?, b"\n(suite ", b")\n");
    check(listing(made)? == want, || "the merged tree's listing".into())?;
    let want = joined(&document(&head)?, &document(first)?, &document(second)?, b"\n    <testsuite ", b"\n</testsuites>\n");
    check(document(made)? == want, || "the merged tree's document".into())
}
