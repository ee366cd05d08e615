//! Tables by seed. The same seed gives the same table in each run and on each machine.
//!
//! Profiles: `clean` (odd, but mostly accepted), `bad` (some bad values and structure), `mutate` (a clean one with events moved, doubled,
//! dropped), `table` (unsound tables), `stress` (many records, long texts), `short` (a few events in a chosen place), `words` (any numbers),
//! `mix` (all of them).
use crate::{
    random::Random,
    table::{Attribute, Event, Input, Table},
};
use std::collections::HashMap;

pub const PROFILES: [&str; 8] = ["mix", "clean", "bad", "mutate", "table", "stress", "short", "words"];

const STATUS: [&str; 7] = ["failure", "error", "skipped", "flakyFailure", "flakyError", "rerunFailure", "rerunError"];
const TAGS: [&str; 22] = [
    "testsuites",
    "testsuite",
    "testcase",
    "properties",
    "property",
    "system-out",
    "system-err",
    "stackTrace",
    "failure",
    "error",
    "skipped",
    "flakyFailure",
    "flakyError",
    "rerunFailure",
    "rerunError",
    "foo",
    "x",
    "foo:bar",
    "Failure",
    "test",
    "testsuitesx",
    "",
];
const PUBLIC: [&str; 11] =
    ["name", "classname", "uuid", "timestamp", "time", "tests", "failures", "errors", "skipped", "disabled", "assertions"];

const GOOD_TEXT: &[&str] = &[
    "",
    "a",
    "b",
    "ab",
    "test_one",
    "mod::tests::it works",
    " lead",
    "trail ",
    "  ",
    "\n",
    "é",
    "日本語",
    "😀",
    "a\nb",
    "tab\tq",
    "ret\rx",
    "quote\"q",
    "back\\slash",
    "&amp;",
    "&lt;t&gt;",
    "&#65;",
    "&#x1F600;",
    "&#x9;&#10;&#13;",
    "&quot;x&apos;",
    "&#x10FFFF;",
    "&#xFFFD;",
    "&#xD7FF;",
    "&#xE000;",
    "&#0000000000000000065;",
    "&#x00000000000041;",
    "&#xaBc;",
    "\u{1}",
    "\u{1} a",
    " \u{1} ",
    "\u{1f}x\u{8}",
    "\u{1b}[31mred\u{1b}[0m",
    "\u{b}\u{c}",
    "\u{b}v\u{c}",
    "\u{85}nel\u{85}",
    "\u{a0}nbsp\u{2003}",
    "\u{1680}o\u{205f}",
    "\u{2028}l\u{2029}",
    "\u{202f}\u{3000}",
    "\u{feff}bom",
    "\u{200b}zw",
    "\u{180e}m",
    "\u{7f}del",
    "]]>",
    "<b>",
    "a;b",
    "&amp;amp;",
    "&#32;pad&#x20;",
    "&#x85;x",
    "\0",
    "a\0b",
    "\u{10ffff}",
    "\u{fffe}",
    "long long long long long long long text",
    "(report",
    "0.5",
    "-",
    "\"\\\n\t\r",
];
const BAD_TEXT: &[&[u8]] = &[
    b"&",
    b"&x;",
    b"&#0;",
    b"&#x0;",
    b"&#1;",
    b"&#x110000;",
    b"&#xD800;",
    b"&#xDFFF;",
    b"&#;",
    b"&#x;",
    b"&amp",
    b"a&",
    b"&;",
    b"&#X41;",
    b"&#+65;",
    b"&#-1;",
    b"&#99999999999999999999999;",
    b"&lt&gt;",
    b"& amp;",
    b"&amp ;",
    b"&#xFFFE;",
    b"&#65535;",
    b"&#x1F;",
    b"&AMP;",
    b"&nbsp;",
    b"&#6 5;",
    b"&#x4G;",
    b"&#4294967361;",
    b"&#x100000041;",
    b"\xff",
    b"a\x80",
    b"\xc0\x80",
    b"\xc1\xbf",
    b"\xed\xa0\x80",
    b"\xf4\x90\x80\x80",
    b"\xe2\x82",
    b"\xf0\x9f\x98",
    b"\xe0\x80\x80",
    b"\xf5\x80\x80\x80",
    b"\xf8\x88\x80\x80\x80",
    b"&\xff;",
    b"ok\xffno",
];
const GOOD_INT: &[&str] = &[
    "0",
    "1",
    "2",
    "10",
    "+5",
    "007",
    "+0",
    "18446744073709551615",
    "+18446744073709551615",
    "00000000000000000000000000018446744073709551615",
    "9223372036854775808",
    "42",
];
const BAD_INT: &[&[u8]] = &[
    b"",
    b"-0",
    b"-1",
    b"+",
    b"++1",
    b"+-1",
    b"1 ",
    b" 1",
    b"18446744073709551616",
    b"1e3",
    b"1.0",
    b"0x10",
    b"\xef\xbc\x99",
    b"999999999999999999999999",
    b"1_0",
    b"\xff",
    b"&#49;",
    b"1\n",
    b"18446744073709551620",
    b"20000000000000000000",
    b"-",
    b"/",
    b":",
];
const EDGE_TIME: &[&str] = &[
    "0",
    "0.",
    ".0",
    "0.5",
    ".5",
    "5.",
    "8388607.999999999",
    "8388607.9999",
    "0.000000001",
    "0.0005",
    "0.0015",
    "0.0625",
    "0.1875",
    "1.0005",
    "2.0005",
    "0.4995",
    "0.9995",
    "0.9994999",
    "0.999500001",
    "0008388607",
    "00000000000000000000000000000000001.5",
    "8388607",
    "1.000000000",
    "123456.7895",
    "4194304.0005",
    "4194303.999999999",
    "1048576.0625",
    "8388607.0625",
    "0.0004999",
    "0.000500001",
    "8388607.9995",
    "8388607.999499999",
    "8388607.9994",
    "2097151.062500000",
];
const BAD_TIME: &[&[u8]] = &[
    b"8388608",
    b"",
    b".",
    b"1e3",
    b"1E0",
    b"-1",
    b"-0",
    b"+1",
    b"inf",
    b"NaN",
    b"infinity",
    b"1.0000000000",
    b"8388607.9999999999",
    b"1,5",
    b" 1",
    b"1 ",
    b"1_0",
    b"0x1",
    b"1.2.3",
    b"99999999999999999999999999",
    b"8388608.0",
    b"..",
    b"1..",
    b"\xff",
    b"&#49;",
    b"16777216",
    b"18446744073709551617",
    b"\xd9\xa1",
    b"1s",
    b".0000000001",
    b"8388608.",
];
const EDGE_STAMP: &[&str] = &[
    "2023-02-28T00:00:00Z",
    "2024-02-29T23:59:59z",
    "2000-02-29t12:00:00.5+01:00",
    "0000-01-01T00:00:00Z",
    "9999-12-31T23:59:59.999999999-23:59",
    "0000-01-01T00:00:00+23:59",
    "2023-01-01T00:00:00-00:00",
    "2023-01-01T00:00:00.123456789+23:59",
    "1999-12-31T23:59:59.9994Z",
    "2023-06-30T10:20:30.000Z",
    "0000-02-29T00:00:00Z",
    "2400-02-29T00:00:00Z",
    "2023-01-31T00:00:00+05:30",
    "2023-11-30T00:00:00.1-00:01",
    "2004-02-29T00:00:00Z",
];
const BAD_STAMP: &[&[u8]] = &[
    b"2023-02-29T00:00:00Z",
    b"1900-02-29T00:00:00Z",
    b"2100-02-29T00:00:00Z",
    b"",
    b"2023-01-01T00:00:60Z",
    b"2016-12-31T23:59:60Z",
    b"2023-01-01T24:00:00Z",
    b"2023-01-01T00:60:00Z",
    b"2023-00-01T00:00:00Z",
    b"2023-13-01T00:00:00Z",
    b"2023-01-00T00:00:00Z",
    b"2023-01-32T00:00:00Z",
    b"2023-04-31T00:00:00Z",
    b"2023-01-01 00:00:00Z",
    b"2023-01-01T00:00:00",
    b"2023-01-01T00:00:00.Z",
    b"2023-01-01T00:00:00.1234567890Z",
    b"2023-01-01T00:00:00+24:00",
    b"2023-01-01T00:00:00+00:60",
    b"2023-01-01T00:00:00+0000",
    b"2023-01-01T00:00:00+00",
    b"2023-01-01T00:00:00ZZ",
    b"2023-01-01T00:00:00Z ",
    b" 2023-01-01T00:00:00Z",
    b"2023-1-01T00:00:00Z",
    b"23-01-01T00:00:00Z",
    b"+2023-01-01T00:00:00Z",
    b"12023-01-01T00:00:00Z",
    b"2023-01-01T00:00Z",
    b"2023-01-01",
    b"2023-01-01T00:00:00,5Z",
    b"\xff",
    b"2023-01-01T00:00:00\xe2\x88\x9200:00",
    b"2023-01-01T00:00:00+ 1:00",
    b"2023-01-01T00:00:00+1:00",
    b"2023/01/01T00:00:00Z",
    b"2023-01-01T00:00:00-24:00",
    b"2023-06-31T00:00:00Z",
    b"2023-01-01T00:00:00+00:00:00",
    b"2023-01-01T00:00:00 Z",
    b"-001-01-01T00:00:00Z",
];
const BAD_UUID: &[&[u8]] = &[
    b"1",
    b"",
    b"0123456789abcdef0123456789abcdef",
    b"{01234567-89ab-cdef-0123-456789abcdef}",
    b"urn:uuid:01234567-89ab-cdef-0123-456789abcdef",
    b"01234567-89ab-cdef-0123-456789abcde",
    b"01234567-89ab-cdef-0123-456789abcdef0",
    b"0123456789ab-cdef--0123-456789abcdef",
    b"g1234567-89ab-cdef-0123-456789abcdef",
    b"01234567_89ab_cdef_0123_456789abcdef",
    b"\xff",
    b"0123456-789ab-cdef-0123-456789abcdef",
    b"01234567-89ab-cdef-0123-456789abcd\xc3\xa9",
    b"01234567-89ab-cdef-0123-456789abcde ",
    b"+1234567-89ab-cdef-0123-456789abcdef",
];

/// Names of Refs in gathered text.
const GOOD_REF: &[&[u8]] =
    &[b"amp", b"lt", b"gt", b"apos", b"quot", b"#65", b"#x41", b"#xe9", b"#0000065", b"#x1F600", b"#9", b"#x10FFFF", b"#32"];
const BAD_REF: &[&[u8]] = &[
    b"nbsp",
    b"",
    b"\xff",
    b"AMP",
    b"amp;",
    b"#",
    b"#x",
    b"#0",
    b"#x110000",
    b"#xD800",
    b"#1",
    b"#X41",
    b"#65;",
    b"#\xff",
    b"#6 5",
    b"#xFFFE",
    b"x#65",
    b"#99999999999999999999",
    b"#-1",
    b"#65;&#66",
];

pub struct Generator<'a> {
    pub r: Random<'a>,
    out: Vec<Event>,
    /// Bad things happen once in so many places; 0 never.
    bad: u64,
    /// What is stressed: 0 nothing, 1 records, 2 texts, 3 gathered texts, 4 the listing.
    stress: u32,
    long: Vec<u8>,
    profile: &'static str,
}

impl<'a> Generator<'a> {
    pub fn new(mut r: Random<'a>, profile: &str) -> Self {
        let profile = match profile {
            "mix" => match r.below(100) {
                0..=37 => "clean",
                38..=61 => "bad",
                62..=72 => "mutate",
                73..=77 => "table",
                78 => "stress",
                79..=97 => "short",
                _ => "words",
            },
            other => PROFILES.iter().find(|p| **p == other).expect("a profile"),
        };
        let bad = if profile == "bad" { *r.pick(&[20, 40, 80, 160]) } else { 0 };
        let stress = if profile == "stress" { 1 + r.below(4) as u32 } else { 0 };
        let n = 20 + r.index(400);
        let long = match stress {
            4 => (0..n).map(|i| b"\"\\\n\""[i % 4]).collect(),
            _ => (0..n).map(|i| b'a' + (i % 26) as u8).collect(),
        };
        Generator { r, out: vec![], bad, stress, long, profile }
    }

    fn events(&mut self) -> Vec<Event> {
        if self.profile == "short" {
            self.short()
        } else {
            self.document()
        }
        if self.profile == "mutate" {
            self.mutate();
        }
        std::mem::take(&mut self.out)
    }

    /// The table.
    pub fn table(&mut self) -> Input {
        if self.profile == "words" {
            return self.words();
        }
        let events = self.events();
        let mut input = Input::new(self.lay(&events));
        if self.profile == "table" {
            self.spoil(&mut input);
        }
        input
    }

    /// Two tables that agree (rule L2).
    pub fn pair(&mut self) -> (Input, Input) {
        let events = self.events();
        let others = self.variant(&events);
        let (mut a, b) = (Input::new(self.lay(&events)), Input::new(self.lay(&others)));
        if self.profile == "table" {
            // a table that 11 refuses agrees with any; what is spoiled and still sound may be another one
            let sound = a.clone();
            self.spoil(&mut a);
            a = if a.check().is_ok() { sound } else { a };
        }
        (a, b)
    }

    fn is_bad(&mut self) -> bool {
        self.bad != 0 && self.r.one(self.bad)
    }

    fn push(&mut self, kind: u32, bytes: &[u8], attributes: Vec<Attribute>) {
        self.out.push(Event { kind, bytes: bytes.to_vec(), attributes });
    }

    // ---- values

    fn good_text(&mut self) -> Vec<u8> {
        if matches!(self.stress, 2 | 3) && self.r.one(2) {
            let n = self.r.index(self.long.len());
            return self.long[..n].to_vec();
        }
        match self.r.below(10) {
            0..=5 => self.r.pick(GOOD_TEXT).as_bytes().to_vec(),
            6 | 7 => format!("t{}", self.r.below(50)).into_bytes(),
            _ => [*self.r.pick(GOOD_TEXT), *self.r.pick(GOOD_TEXT)].concat().into_bytes(),
        }
    }

    fn text(&mut self) -> Vec<u8> {
        if !self.is_bad() {
            return self.good_text();
        }
        let bad = self.r.pick(BAD_TEXT).to_vec();
        if self.r.one(3) {
            [self.good_text(), bad].concat()
        } else {
            bad
        }
    }

    /// Bytes that nobody reads.
    fn any_bytes(&mut self) -> Vec<u8> {
        if self.r.one(2) {
            self.r.pick(BAD_TEXT).to_vec()
        } else {
            self.good_text()
        }
    }

    fn count(&mut self) -> Vec<u8> {
        if self.is_bad() {
            return self.r.pick(BAD_INT).to_vec();
        }
        if self.r.one(3) {
            self.r.pick(GOOD_INT).as_bytes().to_vec()
        } else {
            self.r.below(20).to_string().into_bytes()
        }
    }

    fn time(&mut self) -> Vec<u8> {
        if self.is_bad() {
            return self.r.pick(BAD_TIME).to_vec();
        }
        let shift = self.r.below(24);
        let seconds = self.r.below(1 << shift);
        match self.r.below(4) {
            0 => self.r.pick(EDGE_TIME).as_bytes().to_vec(),
            1 => format!("{seconds}.{:09}", self.r.next() % 1_000_000_000).into_bytes(),
            // near half a thousandth
            2 => format!("{seconds}.{:09}", self.r.below(1000) * 1_000_000 + 499_999 + self.r.below(3)).into_bytes(),
            _ => {
                let n = self.r.index(10);
                let digits: String = (0..n).map(|_| (b'0' + self.r.below(10) as u8) as char).collect();
                format!("{}.{digits}", self.r.below(100)).into_bytes()
            }
        }
    }

    fn timestamp(&mut self) -> Vec<u8> {
        if self.is_bad() {
            return self.r.pick(BAD_STAMP).to_vec();
        }
        if self.r.one(3) {
            return self.r.pick(EDGE_STAMP).as_bytes().to_vec();
        }
        let r = &mut self.r;
        let (year, month) = (if r.one(2) { 1990 + r.below(40) } else { r.below(10_000) }, 1 + r.below(12));
        let t = if r.one(4) { 't' } else { 'T' };
        let mut s =
            format!("{year:04}-{month:02}-{:02}{t}{:02}:{:02}:{:02}", 1 + r.below(28), r.below(24), r.below(60), r.below(60));
        let digits = r.index(10);
        if digits > 0 {
            s.push('.');
            (0..digits).for_each(|_| s.push((b'0' + r.below(10) as u8) as char));
        }
        match r.below(4) {
            0 => s.push('Z'),
            1 => s.push('z'),
            _ => s.push_str(&format!("{}{:02}:{:02}", if r.one(2) { '+' } else { '-' }, r.below(24), r.below(60))),
        }
        s.into_bytes()
    }

    fn uuid(&mut self) -> Vec<u8> {
        if self.is_bad() {
            return self.r.pick(BAD_UUID).to_vec();
        }
        let (a, b) = (self.r.next(), self.r.next());
        let s =
            format!("{:08x}-{:04x}-{:04x}-{:04x}-{:012x}", a >> 32, a >> 16 & 0xffff, a & 0xffff, b >> 48, b & 0xffff_ffff_ffff);
        if self.r.one(3) {
            s.to_uppercase().into_bytes()
        } else {
            s.into_bytes()
        }
    }

    fn value(&mut self, element: &str, key: &[u8]) -> Vec<u8> {
        if self.stress == 4 && matches!(key, b"name" | b"classname") && self.r.below(4) > 0 {
            let n = self.long.len() - self.r.index(self.long.len() / 2);
            return self.long[..n].to_vec();
        }
        match (element, key) {
            ("testsuites" | "testsuite" | "testcase", b"time") | (_, b"time") if element != "property" => self.time(),
            (_, b"timestamp") if element != "property" => self.timestamp(),
            ("testsuites", b"uuid") => self.uuid(),
            ("testcase", b"assertions") => self.count(),
            ("testsuites" | "testsuite", b"tests" | b"failures" | b"errors" | b"skipped" | b"disabled") => self.count(),
            ("testsuites", b"name") => self.text(),
            ("testsuite" | "testcase", _) => self.text(),
            ("property", b"name" | b"value") => self.text(),
            (_, b"message" | b"type") if STATUS.contains(&element) => self.text(),
            _ => self.any_bytes(),
        }
    }

    fn attributes(&mut self, element: &str) -> Vec<Attribute> {
        let own: &[&str] = match element {
            "testsuites" => &["name", "uuid", "timestamp", "time", "tests", "failures", "errors", "skipped", "disabled"],
            "testsuite" => &["name", "tests", "skipped", "disabled", "errors", "failures", "timestamp", "time"],
            "testcase" => &["name", "classname", "assertions", "timestamp", "time"],
            "property" => &["name", "value"],
            _ => &["message", "type", "timestamp", "time"],
        };
        let must: &[&str] = match element {
            "testsuite" | "testcase" => &["name"],
            "property" => &["name", "value"],
            _ => &[],
        };
        let mut keys: Vec<Vec<u8>> = vec![];
        for key in own {
            let there = if must.contains(key) { !self.is_bad() } else { self.r.one(3) };
            if there {
                keys.push(key.as_bytes().to_vec());
            }
        }
        if self.r.one(3) {
            for _ in 0..1 + self.r.below(4) {
                let key = self.other_key();
                if !keys.contains(&key) || self.is_bad() {
                    keys.push(key);
                }
            }
        }
        if self.r.one(2) {
            self.r.shuffle(&mut keys);
        }
        let mut out: Vec<Attribute> =
            keys.into_iter().map(|key| Attribute { mark: 0, value: self.value(element, &key), key }).collect();
        if self.is_bad() && !out.is_empty() {
            let i = self.r.index(out.len());
            if self.r.one(2) {
                out[i].mark = 1;
            } else {
                out.push(out[i].clone());
            }
        }
        out
    }

    /// A key of an extra, or one that is passed over; some are cleaned to the same, or to a key that the element has.
    fn other_key(&mut self) -> Vec<u8> {
        const CLEANED: [&[u8]; 2] = [b"host&#110;ame", b"host\x01name"];
        const KEYS: [&[u8]; 16] = [
            b"hostname",
            b"package",
            b"a",
            b"&#97;",
            b"\x01a",
            b"&#110;ame",
            b"n\x02ame",
            b"uuid",
            b"message",
            b"",
            b"assertions",
            b"\x1f",
            b"\xc3\xa9&lt;",
            b"Name",
            b"classname",
            b"TIME",
        ];
        if self.is_bad() {
            self.r.pick(BAD_TEXT).to_vec()
        } else if self.r.one(50) {
            // of a table with one of these only the listing is compared
            self.r.pick(&CLEANED).to_vec()
        } else {
            self.r.pick(&KEYS).to_vec()
        }
    }

    /// Attributes of an element whose attributes nobody reads.
    fn unread(&mut self) -> Vec<Attribute> {
        let n = if self.r.one(3) { 1 + self.r.below(3) } else { 0 };
        let mut out = vec![];
        for _ in 0..n {
            let key = self.r.pick(&["name", "a", "message", "", "time", "x"]).as_bytes().to_vec();
            out.push(Attribute { mark: self.r.one(4) as u32, key, value: self.any_bytes() });
        }
        out
    }

    // ---- events

    /// Text and the like where nothing is gathered.
    fn noise(&mut self) {
        while self.r.one(3) {
            let bytes = self.any_bytes();
            match self.r.below(6) {
                0 | 1 => self.push(3, b"\n  ", vec![]),
                2 => self.push(3, &bytes, vec![]),
                3 => {
                    let kind = 4 + self.r.below(3) as u32;
                    self.push(kind, &bytes, vec![])
                }
                4 => self.push(6, b" comment ", vec![]),
                _ => self.push(9, if bytes.len() % 2 == 0 { b"" } else { b"zz" }, vec![]),
            }
        }
    }

    /// A piece of gathered text.
    fn piece(&mut self) {
        match self.r.below(10) {
            0..=2 => {
                let bytes = self.text();
                self.push(3, &bytes, vec![]);
            }
            3 => self.push(3, b"\n    ", vec![]),
            4 | 5 => {
                let bytes = match (self.is_bad(), self.r.one(4)) {
                    (true, _) => b"\xff\xfe".to_vec(),
                    (_, true) => b"&raw; & <x>".to_vec(),
                    _ => self.good_text(),
                };
                self.push(4, &bytes, vec![]);
            }
            6 | 7 => {
                let name = if self.is_bad() { *self.r.pick(BAD_REF) } else { *self.r.pick(GOOD_REF) };
                self.push(5, name, vec![]);
            }
            8 => {
                let bytes: &[u8] = if self.r.one(2) { b"" } else { b"\xff" };
                self.push(9, bytes, vec![])
            }
            _ => {
                let bytes = self.any_bytes();
                self.push(6, &bytes, vec![]);
            }
        }
    }

    /// A tag of a kind that may have attributes, with some, or an End.
    fn tag(&mut self, kind: u32, name: &str) {
        let attributes = if kind < 2 { self.unread() } else { vec![] };
        self.push(kind, name.as_bytes(), attributes);
    }

    fn name_but(&mut self, known: &[&str]) -> &'static str {
        let from = self.r.index(TAGS.len());
        let names = TAGS[from..].iter().chain(&TAGS[..from]);
        names.copied().find(|name| !known.contains(name)).expect("a name that isn't known")
    }

    fn stray_end(&mut self, but: &[&str]) {
        let name = self.name_but(but);
        self.push(2, name.as_bytes(), vec![]);
    }

    /// The inside of a gathered text, and its End.
    fn gathered(&mut self, name: &str) {
        if self.stress == 3 && self.r.one(8) {
            let long = self.long.clone();
            for _ in 0..self.r.below(20) {
                let kind = 3 + self.r.below(2) as u32;
                self.push(kind, &long, vec![]);
            }
        }
        for _ in 0..self.r.below(4) {
            self.piece();
            if self.r.one(8) {
                // a tag inside is passed over, and depth isn't counted
                let kind = self.r.below(3) as u32;
                let inside = match (kind, self.r.one(4)) {
                    (0 | 1, true) => name,
                    (2, _) => self.name_but(&[name]),
                    _ => *self.r.pick(&TAGS),
                };
                self.tag(kind, inside);
            }
        }
        if !self.is_bad() {
            self.push(2, name.as_bytes(), vec![]);
        }
    }

    fn output(&mut self, name: &str) {
        let kind = self.r.one(5) as u32;
        self.tag(kind, name);
        if kind == 0 {
            self.gathered(name);
        }
    }

    /// What stands behind a Start that is skipped, and its End.
    fn skipped(&mut self, name: &str) {
        let mut depth = 0;
        for _ in 0..self.r.below(5) {
            match self.r.below(5) {
                0 => {
                    self.tag(0, name);
                    depth += 1;
                }
                1 => self.tag(1, name),
                2 => {
                    let (kind, inside) = (self.r.below(3) as u32, self.name_but(&[name]));
                    self.tag(kind, inside);
                }
                3 if depth > 0 => {
                    self.push(2, name.as_bytes(), vec![]);
                    depth -= 1;
                }
                _ => self.noise(),
            }
        }
        for _ in 0..depth {
            self.push(2, name.as_bytes(), vec![]);
        }
        if self.is_bad() {
            if self.r.one(2) {
                self.push(8, b"", vec![]);
            }
            return;
        }
        self.push(2, name.as_bytes(), vec![]);
    }

    fn properties(&mut self) {
        if self.r.one(6) {
            return self.tag(1, "properties");
        }
        self.tag(0, "properties");
        for _ in 0..self.r.below(4) {
            self.noise();
            match self.r.below(9) {
                0..=3 => {
                    let attributes = self.attributes("property");
                    self.push(1, b"property", attributes);
                }
                4 | 5 => {
                    let attributes = self.attributes("property");
                    self.push(0, b"property", attributes);
                    self.skipped("property");
                }
                6 => self.tag(1, "properties"),
                7 => {
                    let (kind, name) = (self.r.below(2) as u32, self.name_but(&["property"]));
                    self.tag(kind, name);
                }
                _ => self.stray_end(&["properties"]),
            }
        }
        if !self.is_bad() {
            self.push(2, b"properties", vec![]);
        }
    }

    fn status(&mut self, name: &str) {
        const TEXTS: [&str; 3] = ["stackTrace", "system-out", "system-err"];
        let attributes = self.attributes(name);
        if self.r.one(2) {
            return self.push(1, name.as_bytes(), attributes);
        }
        self.push(0, name.as_bytes(), attributes);
        for _ in 0..self.r.below(4) {
            match self.r.below(10) {
                0..=4 => self.piece(),
                5 | 6 => {
                    let name = *self.r.pick(&TEXTS);
                    self.output(name);
                }
                7 | 8 => {
                    let (kind, name) = (self.r.one(3) as u32, self.name_but(&TEXTS));
                    self.tag(kind, name);
                    if kind == 0 {
                        self.skipped(name);
                    }
                }
                _ => self.stray_end(&STATUS),
            }
        }
        if self.is_bad() {
            return;
        }
        let end = if self.r.one(4) { *self.r.pick(&STATUS) } else { name };
        self.push(2, end.as_bytes(), vec![]);
    }

    fn statuses(&mut self) -> Vec<&'static str> {
        let mut out = vec![];
        let main = if self.r.one(2) { "failure" } else { "error" };
        let runs: &[&str] = match self.r.below(6) {
            0 => &[],
            1 => &["flakyFailure", "flakyError"],
            2 => {
                out.push("skipped");
                &[]
            }
            3 => {
                out.push(main);
                &["rerunFailure", "rerunError"]
            }
            4 => {
                out.push(main);
                &["flakyFailure", "flakyError"]
            }
            _ => {
                out.push(main);
                &[]
            }
        };
        if !runs.is_empty() {
            for _ in 0..self.r.below(4) {
                out.push(runs[self.r.index(2)]);
            }
        }
        if self.is_bad() {
            for _ in 0..1 + self.r.below(2) {
                out.push(*self.r.pick(&STATUS));
            }
        }
        if self.r.one(2) {
            self.r.shuffle(&mut out);
        }
        out
    }

    /// A child that suite and case both have, or an odd one.
    fn child(&mut self, known: &[&str], own_end: &str) {
        match self.r.below(12) {
            0 => self.properties(),
            1 => self.output("system-out"),
            2 => self.output("system-err"),
            3 => {
                let name = self.name_but(known);
                self.tag(0, name);
                self.skipped(name);
            }
            4 => {
                let name = self.name_but(known);
                self.tag(1, name);
            }
            5 => self.stray_end(&[own_end]),
            _ => self.noise(),
        }
    }

    fn case(&mut self) {
        const KNOWN: [&str; 10] = [
            "failure",
            "error",
            "skipped",
            "flakyFailure",
            "flakyError",
            "rerunFailure",
            "rerunError",
            "properties",
            "system-out",
            "system-err",
        ];
        let attributes = self.attributes("testcase");
        if self.r.one(4) {
            return self.push(1, b"testcase", attributes);
        }
        self.push(0, b"testcase", attributes);
        for name in self.statuses() {
            self.noise();
            self.child(&KNOWN, "testcase");
            self.status(name);
        }
        for _ in 0..self.r.below(3) {
            self.child(&KNOWN, "testcase");
        }
        self.noise();
        if !self.is_bad() {
            self.push(2, b"testcase", vec![]);
        }
    }

    fn suite(&mut self) {
        const KNOWN: [&str; 4] = ["testcase", "properties", "system-out", "system-err"];
        let attributes = self.attributes("testsuite");
        if self.r.one(6) {
            return self.push(1, b"testsuite", attributes);
        }
        self.push(0, b"testsuite", attributes);
        let cases = match self.stress {
            0 => self.r.below(4),
            1 => self.r.below(40),
            3 => self.r.below(4),
            _ => self.r.below(12),
        };
        for _ in 0..cases {
            self.noise();
            if self.r.one(2) {
                self.child(&KNOWN, "testsuite");
            }
            self.case();
        }
        if self.r.one(2) {
            self.child(&KNOWN, "testsuite");
        }
        self.noise();
        if !self.is_bad() {
            self.push(2, b"testsuite", vec![]);
        }
    }

    /// At report level: all but what counts there.
    fn top_noise(&mut self, begun: bool) {
        self.noise();
        while self.r.one(5) {
            let kind = self.r.below(3) as u32;
            let name = self.name_but(if kind < 2 && begun { &["testsuites", "testsuite"] } else { &["testsuites"] });
            self.tag(kind, name);
            self.noise();
        }
    }

    fn document(&mut self) {
        if self.r.one(2) {
            self.push(6, b"xml version=\"1.0\" encoding=\"UTF-8\"", vec![]);
        }
        self.top_noise(false);
        if self.is_bad() {
            self.push(2, b"testsuites", vec![]);
        }
        let mut closed = false;
        loop {
            let attributes = self.attributes("testsuites");
            let empty = self.r.one(20);
            self.push(empty as u32, b"testsuites", attributes);
            closed |= empty;
            for _ in 0..self.r.below(4).max((self.stress > 0) as u64) {
                self.top_noise(true);
                self.suite();
            }
            self.top_noise(true);
            if !self.r.one(12) {
                break;
            }
        }
        if self.is_bad() {
            self.push(8, b"", vec![]);
        }
        if !(closed && self.r.one(2)) && !self.is_bad() {
            self.push(2, b"testsuites", vec![]);
            match self.r.below(12) {
                0 => self.push(8, b"", vec![]),
                1 => self.suite(),
                2 => self.push(0, b"testsuites", vec![]),
                _ => {}
            }
        }
        if self.r.one(2) {
            self.push(7, b"", vec![]);
            if self.r.one(3) {
                self.push(9, b"", vec![]);
            }
        }
    }

    /// A few events in one of eight places, and the Ends that close all.
    fn short(&mut self) {
        let named = |keys: &[&str]| {
            keys.iter().map(|k| Attribute { mark: 0, key: k.as_bytes().to_vec(), value: b"v".to_vec() }).collect::<Vec<_>>()
        };
        let place = self.r.below(8);
        let mut ends: Vec<&str> = vec![];
        for (i, name) in ["testsuites", "testsuite", "testcase"].into_iter().enumerate().take(place.min(3) as usize) {
            self.push(0, name.as_bytes(), if i == 0 { vec![] } else { named(&["name"]) });
            ends.push(name);
        }
        if place > 3 {
            let name = match place {
                4 | 5 => *self.r.pick(&STATUS),
                6 => "properties",
                _ => *self.r.pick(&["system-out", "system-err", "stackTrace"]),
            };
            if name == "stackTrace" {
                self.push(0, b"failure", vec![]);
                ends.push("failure");
            }
            self.push(0, name.as_bytes(), vec![]);
            ends.push(name);
            if place == 5 {
                let (name, kind) = (*self.r.pick(&["stackTrace", "system-out", "system-err", "x"]), self.r.below(2) as u32);
                self.push(kind, name.as_bytes(), vec![]);
                ends.push(name);
            }
        }
        for _ in 0..1 + self.r.below(8) {
            match self.r.below(20) {
                0..=13 => {
                    let kind = self.r.below(3) as u32;
                    let name = if self.r.one(3) && !ends.is_empty() { *self.r.pick(&ends) } else { *self.r.pick(&TAGS) };
                    let attributes = match (kind, name) {
                        (2, _) => vec![],
                        (_, "property") => named(&["name", "value"]),
                        _ => named(&["name"]),
                    };
                    self.push(kind, name.as_bytes(), attributes);
                }
                14 | 15 => self.push(3, b"t", vec![]),
                16 => self.push(4, b"c", vec![]),
                17 => {
                    let name = if self.r.one(6) { *self.r.pick(BAD_REF) } else { *self.r.pick(GOOD_REF) };
                    self.push(5, name, vec![])
                }
                18 => self.push(9, b"", vec![]),
                _ if self.r.one(4) => {
                    let kind = 7 + self.r.below(2) as u32;
                    self.push(kind, b"", vec![]);
                }
                _ => self.push(6, b"", vec![]),
            }
        }
        if self.r.one(20) {
            return;
        }
        while let Some(end) = ends.pop() {
            self.push(2, end.as_bytes(), vec![]);
        }
    }

    fn mutate(&mut self) {
        for _ in 0..1 + self.r.below(3) {
            let n = self.out.len();
            if n == 0 {
                return;
            }
            let (i, j) = (self.r.index(n), self.r.index(n));
            match self.r.below(12) {
                0 | 1 => drop(self.out.remove(i)),
                2 => self.out.insert(i, self.out[i].clone()),
                3 => self.out.insert(j, self.out[i].clone()),
                4 => self.out.swap(i, j),
                5 | 6 => {
                    let event = &mut self.out[i];
                    event.kind = if event.kind < 3 { self.r.below(3) as u32 } else { 3 + self.r.below(7) as u32 };
                    if event.kind > 1 {
                        event.attributes.clear();
                    }
                }
                7 => {
                    let name = *self.r.pick(&TAGS);
                    if self.out[i].kind < 3 {
                        self.out[i].bytes = name.as_bytes().to_vec();
                    }
                }
                8 => self.out.truncate(i),
                9 => {
                    let kind = 7 + self.r.below(2) as u32;
                    self.out.insert(i, Event { kind, ..Default::default() });
                }
                10 => {
                    let attributes = &mut self.out[i].attributes;
                    if !attributes.is_empty() {
                        let j = self.r.index(attributes.len());
                        attributes.remove(j);
                    }
                }
                _ => {
                    let (kind, name) = (self.r.below(3) as u32, self.r.pick(&TAGS).as_bytes().to_vec());
                    self.out.insert(i, Event { kind, bytes: name, attributes: vec![] });
                }
            }
        }
    }

    // ---- tables

    /// The table of events, laid out in one of several ways: one part behind the other, parts shared, with bytes and attributes that nobody
    /// uses.
    fn lay(&mut self, events: &[Event]) -> Table {
        let style = if self.stress > 0 { 1 } else { self.r.below(3) };
        let mut t = Table::default();
        let mut seen: HashMap<&[u8], u32> = HashMap::new();
        if style == 2 {
            t.source.extend_from_slice(b"\xff&junk;<");
        }
        for e in events {
            let (start, length) = put(&mut t.source, &mut seen, &mut self.r, style, &e.bytes);
            if style == 2 && self.r.one(10) {
                cover::hit!("T12", "a bad attribute that no event uses");
                t.attributes.push([7, 0xffff_ffff, 9, 9, 0xffff_fff0]);
            }
            let first = match e.attributes.is_empty() {
                true if self.r.one(8) => *self.r.pick(&[0xffff_ffff, 1, 77_777]),
                true => 0,
                false => t.attributes.len() as u32,
            };
            for a in &e.attributes {
                let (key, key_length) = put(&mut t.source, &mut seen, &mut self.r, style, &a.key);
                let (value, value_length) = put(&mut t.source, &mut seen, &mut self.r, style, &a.value);
                t.attributes.push([a.mark, key, key_length, value, value_length]);
            }
            t.events.push([e.kind, start, length, first, e.attributes.len() as u32]);
        }
        t
    }

    /// One thing that 11 refuses.
    fn spoil(&mut self, input: &mut Input) {
        let r = &mut self.r;
        let t = &mut input.table;
        if t.events.is_empty() || r.one(12) {
            t.events.push([10, 0, 0, 0, 0]);
        }
        let (i, n) = (r.index(t.events.len()), t.source.len() as u32);
        match r.below(12) {
            0 => t.events[i][0] = 10 + r.below(3) as u32 * 1000,
            1 => t.events[i][1] = n + 1 - t.events[i][2].min(n),
            2 => t.events[i][2] = n + 1 - t.events[i][1].min(n),
            3 => (t.events[i][1], t.events[i][2]) = (*r.pick(&[n, n + 1, u32::MAX]), r.below(3) as u32),
            4 => t.events[i][4] = t.attributes.len() as u32 + 1,
            5 => (t.events[i][3], t.events[i][4]) = (u32::MAX, 1 + r.below(2) as u32),
            6 => {
                if t.attributes.is_empty() {
                    t.attributes.push([0; 5]);
                }
                t.events[i] = [2 + r.below(8) as u32, 0, 0, 0, 1];
            }
            7 => input.loose[r.index(2)] = 1 + r.index(4),
            _ if t.attributes.is_empty() => t.events[i][0] = 99,
            _ => {
                let a = r.index(t.attributes.len());
                let (word, value) = *r.pick(&[(0, 2), (0, 3), (1, n + 1), (2, n + 1), (3, u32::MAX), (4, u32::MAX)]);
                t.attributes[a][word] = value;
            }
        }
    }

    /// Events and attributes of any numbers, most of them small.
    fn words(&mut self) -> Input {
        let r = &mut self.r;
        let source: Vec<u8> = (0..r.index(40)).flat_map(|_| r.pick(&TAGS).as_bytes().to_vec()).collect();
        let n = source.len() as u64 + 2;
        let any = |r: &mut Random, most: u64| if r.one(30) { r.next() as u32 } else { r.below(most.max(1)) as u32 };
        let attributes: Vec<[u32; 5]> = (0..r.index(6)).map(|_| [any(r, 2), any(r, n), any(r, 6), any(r, n), any(r, 6)]).collect();
        let m = attributes.len() as u64 + 1;
        let events = (0..r.index(12))
            .map(|_| [any(r, 10), any(r, n), any(r, 12), any(r, m), if r.one(2) { 0 } else { any(r, m) }])
            .collect();
        Input::new(Table { events, attributes, source })
    }

    /// Other events that agree with these (rule L2).
    fn variant(&mut self, events: &[Event]) -> Vec<Event> {
        let (dropped, more, changed) = (self.r.below(4), self.r.below(4), self.r.below(4));
        let mut out = vec![];
        for e in events {
            if more > 0 && self.r.below(8) < more {
                self.piece();
                out.append(&mut self.out);
            }
            if matches!(e.kind, 3..=6 | 9) {
                if dropped > 0 && self.r.below(6) < dropped {
                    continue;
                }
                if changed > 0 && self.r.below(6) < changed {
                    self.piece();
                    out.append(&mut self.out);
                    continue;
                }
            }
            let mut e = e.clone();
            if e.kind >= 7 {
                e.bytes = if self.r.one(2) { vec![] } else { b"other".to_vec() };
            }
            for a in &mut e.attributes {
                if !PUBLIC.iter().any(|p| p.as_bytes() == a.key) && self.r.one(2) {
                    a.value = self.text();
                }
            }
            out.push(e);
        }
        out
    }
}

fn put<'e>(source: &mut Vec<u8>, seen: &mut HashMap<&'e [u8], u32>, r: &mut Random, style: u64, bytes: &'e [u8]) -> (u32, u32) {
    let n = bytes.len() as u32;
    if n == 0 {
        return (if r.one(2) { 0 } else { r.below(source.len() as u64 + 1) as u32 }, 0);
    }
    if style > 0 {
        if let Some(start) = seen.get(bytes) {
            return (*start, n);
        }
        if n < 8 && source.len() < 2000 && r.one(4) {
            if let Some(start) = source.windows(bytes.len()).position(|w| w == bytes) {
                return (start as u32, n);
            }
        }
    }
    let start = source.len() as u32;
    source.extend_from_slice(bytes);
    if style > 0 {
        seen.insert(bytes, start);
    }
    if style == 2 && r.one(5) {
        source.push(0x80 | r.below(128) as u8);
    }
    (start, n)
}
