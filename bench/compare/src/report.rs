//! The crate's report: as lines that name each field, as its public listing (rules L6 to L10), as the table that it is written as (W12),
//! whether it is plain (W15), and its first and last start (D3 to D5). The tree in two areas (docs/TREE.md), as the same lines.
use crate::table::{laid_out, Attribute, Event, Table};
use chrono::{DateTime, FixedOffset};
use cover::{hit, hit_if, hit_of};
use indexmap::IndexMap;
use newtype_uuid::GenericUuid;
use quick_junit::*;
use quick_xml::{
    replay::Record,
    writer::{take_written, Written},
};
use std::{fmt::Write, time::Duration};

type Moment = DateTime<FixedOffset>;

pub fn put_quoted(out: &mut String, s: &str) {
    out.push('"');
    for c in s.chars() {
        match c {
            '"' => out.push_str("\\\""),
            '\\' => out.push_str("\\\\"),
            '\n' => out.push_str("\\n"),
            '\t' => out.push_str("\\t"),
            '\r' => out.push_str("\\r"),
            c => out.push(c),
        }
    }
    out.push('"');
}

/// A text of the listing, or `-`.
fn list_text(out: &mut String, s: Option<&str>) {
    match s {
        Some(s) => hit_if!(s.contains(['"', '\\', '\n', '\t', '\r']), "L8", "an escaped text", "a text without escapes"),
        None => hit!("L8", "a missing text"),
    }
    put_text(out, s);
}

fn put_text(out: &mut String, s: Option<&str>) {
    match s {
        Some(s) => put_quoted(out, s),
        None => out.push('-'),
    }
}

fn put_number(out: &mut String, n: Option<u64>) {
    match n {
        Some(n) => write!(out, "{n}").unwrap(),
        None => out.push('-'),
    }
}

// ---- the listing

fn list_time(out: &mut String, time: Option<Duration>) {
    match time {
        Some(t) => write!(out, "{:.3}", t.as_secs_f64()).unwrap(),
        None => out.push('-'),
    }
}

fn kind_word(kind: NonSuccessKind) -> &'static str {
    match kind {
        NonSuccessKind::Failure => "failure",
        NonSuccessKind::Error => "error",
    }
}

/// The status' word, the word for its runs, and the runs.
fn status_of(case: &TestCase) -> (&'static str, &'static str, &[TestRerun]) {
    match &case.status {
        TestCaseStatus::Success { flaky_runs } => ("success", "flaky", flaky_runs),
        TestCaseStatus::NonSuccess { kind, reruns, .. } => {
            let runs = if reruns.kind == FlakyOrRerun::Flaky { "flaky" } else { "rerun" };
            (kind_word(*kind), runs, &reruns.runs)
        }
        TestCaseStatus::Skipped { .. } => ("skipped", "none", &[]),
    }
}

fn list_counts(out: &mut String, counts: [usize; 4], disabled: Option<usize>) {
    for n in counts {
        write!(out, " {n}").unwrap();
    }
    out.push(' ');
    put_number(out, disabled.map(|n| n as u64));
}

pub fn listing(r: &Report) -> String {
    let mut out = String::from("(report ");
    hit!("L6", "a report");
    hit!("L10", "a report");
    list_text(&mut out, r.name.as_deref());
    list_counts(&mut out, [r.tests, r.failures, r.errors, r.skipped], r.disabled);
    for s in &r.test_suites {
        out.push_str("\n(suite ");
        hit!("L6", "a suite");
        hit!("L10", "a suite");
        list_text(&mut out, Some(&s.name));
        list_counts(&mut out, [s.tests, s.failures, s.errors, s.skipped], s.disabled);
        for c in &s.test_cases {
            list_case(&mut out, c);
        }
        out.push(')');
    }
    out.push_str(")\n");
    out
}

fn list_case(out: &mut String, c: &TestCase) {
    let (status, kind, runs) = status_of(c);
    out.push_str("\n(case ");
    hit!("L5", "a case");
    hit!("L10", "a case");
    match (status, kind) {
        ("success", _) => hit_if!(runs.is_empty(), "L7", "a success without runs", "a success with runs"),
        ("skipped", _) => hit!("L7", "skipped"),
        (_, "flaky") => hit!("L7", "a failure or error with flaky runs"),
        _ => hit_if!(runs.is_empty(), "L7", "a failure or error without runs", "a failure or error with reruns"),
    }
    list_text(out, Some(&c.name));
    out.push(' ');
    list_text(out, c.classname.as_deref());
    out.push(' ');
    list_time(out, c.time);
    write!(out, " {status} {kind} {}", runs.len()).unwrap();
    for run in runs {
        hit_if!(run.time.is_some(), "L10", "a run with a time", "a run without a time");
        write!(out, "\n(run {} ", kind_word(run.kind)).unwrap();
        list_time(out, run.time);
        out.push(')');
    }
    out.push(')');
}

// ---- every field, of the crate's report

fn put_moment(out: &mut String, m: Option<[u32; 8]>) {
    match m {
        Some([y, mo, d, h, mi, s, ns, off]) => write!(out, "{y}-{mo}-{d}T{h}:{mi}:{s}.{ns:09}{:+}", off as i32 - 1439).unwrap(),
        None => out.push('-'),
    }
}

fn moment_words(m: &Moment) -> [u32; 8] {
    [m.year, m.month, m.day, m.hour, m.minute, m.second, m.nanos, (m.offset + 1439) as u32]
}

fn put_time(out: &mut String, time: Option<(u64, u32)>) {
    match time {
        Some((s, n)) => write!(out, "{s}.{n:09}").unwrap(),
        None => out.push('-'),
    }
}

/// Lines of fields: each has a name before its value.
struct Lines(String);

impl Lines {
    fn line(&mut self, what: &str) -> &mut Self {
        self.0.push('\n');
        self.0.push_str(what);
        self
    }
    fn text(&mut self, name: &str, s: Option<&str>) -> &mut Self {
        write!(self.0, " {name}=").unwrap();
        put_text(&mut self.0, s);
        self
    }
    fn number(&mut self, name: &str, n: Option<u64>) -> &mut Self {
        write!(self.0, " {name}=").unwrap();
        put_number(&mut self.0, n);
        self
    }
    fn moment(&mut self, m: Option<[u32; 8]>) -> &mut Self {
        self.0.push_str(" timestamp=");
        put_moment(&mut self.0, m);
        self
    }
    fn time(&mut self, t: Option<(u64, u32)>) -> &mut Self {
        self.0.push_str(" time=");
        put_time(&mut self.0, t);
        self
    }
    fn uuid(&mut self, u: Option<[u8; 16]>) -> &mut Self {
        write!(self.0, " uuid={u:?}").unwrap();
        self
    }
}

fn parts(t: Option<Duration>) -> Option<(u64, u32)> {
    t.map(|t| (t.as_secs(), t.subsec_nanos()))
}

fn big(n: usize) -> Option<u64> {
    Some(n as u64)
}

pub fn fields(r: &Report, hostname: bool) -> String {
    let mut o = Lines(String::with_capacity(1024));
    o.line("report").text("name", r.name.as_deref()).uuid(r.uuid.map(|u| *u.into_untyped_uuid().as_bytes()));
    o.moment(r.timestamp.as_ref().map(moment_words)).time(parts(r.time));
    o.number("tests", big(r.tests))
        .number("failures", big(r.failures))
        .number("errors", big(r.errors))
        .number("skipped", big(r.skipped));
    o.number("disabled", r.disabled.map(|n| n as u64));
    for s in &r.test_suites {
        o.line(" suite").text("name", Some(&s.name)).moment(s.timestamp.as_ref().map(moment_words)).time(parts(s.time));
        o.number("tests", big(s.tests))
            .number("failures", big(s.failures))
            .number("errors", big(s.errors))
            .number("skipped", big(s.skipped));
        o.number("disabled", s.disabled.map(|n| n as u64))
            .text("out", s.system_out.as_deref())
            .text("err", s.system_err.as_deref());
        let host = s.extra.iter().find(|(k, _)| hostname && k.as_str() == "hostname");
        o.text("hostname", host.map(|(_, v)| v.as_str()));
        for (k, v) in s.extra.iter().filter(|(k, _)| !(hostname && k.as_str() == "hostname")) {
            o.line("  extra").text("key", Some(k)).text("value", Some(v));
        }
        for p in &s.properties {
            o.line("  property").text("name", Some(&p.name)).text("value", Some(&p.value));
        }
        s.test_cases.iter().for_each(|c| case_fields(&mut o, c));
    }
    o.0
}

fn case_fields(o: &mut Lines, c: &TestCase) {
    o.line("  case")
        .text("name", Some(&c.name))
        .text("classname", c.classname.as_deref())
        .number("assertions", c.assertions.map(|n| n as u64));
    o.moment(c.timestamp.as_ref().map(moment_words)).time(parts(c.time));
    o.text("out", c.system_out.as_deref()).text("err", c.system_err.as_deref());
    for (k, v) in &c.extra {
        o.line("   extra").text("key", Some(k)).text("value", Some(v));
    }
    for p in &c.properties {
        o.line("   property").text("name", Some(&p.name)).text("value", Some(&p.value));
    }
    let (status, kind, runs) = status_of(c);
    o.line("   status ").0.push_str(status);
    let texts = match &c.status {
        TestCaseStatus::NonSuccess { message, ty, description, .. } | TestCaseStatus::Skipped { message, ty, description } => {
            [message, ty, description]
        }
        _ => [&None; 3],
    };
    for (name, text) in ["message", "type", "description"].iter().zip(texts) {
        o.text(name, text.as_deref());
    }
    write!(o.0, " runs={kind}").unwrap();
    for r in runs {
        o.line("    run ").0.push_str(kind_word(r.kind));
        o.moment(r.timestamp.as_ref().map(moment_words)).time(parts(r.time));
        o.text("message", r.message.as_deref()).text("type", r.ty.as_deref()).text("description", r.description.as_deref());
        o.text("trace", r.stack_trace.as_deref()).text("out", r.system_out.as_deref()).text("err", r.system_err.as_deref());
    }
}

// ---- every field, of a tree

/// One record of 32 words with its texts; what was asked for is remembered, so that a word nobody knows of is found.
struct Words<'a> {
    words: &'a [u32],
    text: &'a [u8],
    used: u32,
}

impl<'a> Words<'a> {
    fn bit(&self, bit: u32) -> bool {
        self.words[1] >> bit & 1 == 1
    }
    fn use_words(&mut self, from: usize, n: usize) -> &'a [u32] {
        self.used |= ((1u64 << n) - 1 << from) as u32;
        &self.words[from..from + n]
    }
    fn text(&mut self, at: usize, bit: u32) -> Result<Option<&'a str>, String> {
        if !self.bit(bit) {
            return Ok(None);
        }
        let (start, length) = (self.use_words(at, 2)[0] as usize, self.words[at + 1] as usize);
        let bytes = self.text.get(start..start + length).ok_or("a text outside the text area")?;
        std::str::from_utf8(bytes).map(Some).map_err(|_| "a text that isn't UTF-8".to_string())
    }
    fn always(&mut self, at: usize, bit: u32) -> Result<Option<&'a str>, String> {
        self.text(at, bit)?.map(Some).ok_or("a text is missing".to_string())
    }
    fn count(&mut self, at: usize) -> Option<u64> {
        let w = self.use_words(at, 2);
        Some(w[0] as u64 | (w[1] as u64) << 32)
    }
    fn number(&mut self, at: usize, bit: u32) -> Option<u64> {
        if self.bit(bit) {
            self.count(at)
        } else {
            None
        }
    }
    fn moment(&mut self) -> Result<Option<[u32; 8]>, String> {
        if !self.bit(3) {
            return Ok(None);
        }
        let words: [u32; 8] = self.use_words(8, 8).try_into().unwrap();
        let [y, mo, d, h, mi, s, ns, offset] = words;
        let good = offset <= 2878 && Moment::new(y, mo, d, h, mi, s, ns, offset as i32 - 1439).is_some();
        if good {
            Ok(Some(words))
        } else {
            Err(format!("a timestamp of {words:?}"))
        }
    }
    fn time(&mut self) -> Result<Option<(u64, u32)>, String> {
        if !self.bit(4) {
            return Ok(None);
        }
        let (seconds, nanos) = (self.use_words(16, 2)[0], self.words[17]);
        let good = seconds < 8_388_608 && nanos < 1_000_000_000;
        if good {
            Ok(Some((seconds as u64, nanos)))
        } else {
            Err(format!("a time of {seconds}.{nanos:09}"))
        }
    }
    fn uuid(&mut self) -> Option<[u8; 16]> {
        self.bit(1).then(|| {
            let bytes: Vec<u8> = self.use_words(4, 4).iter().flat_map(|w| w.to_be_bytes()).collect();
            bytes.try_into().unwrap()
        })
    }
    /// No bit and no word beside those that the record's kind has.
    fn done(&self, bits: u32) -> Result<(), String> {
        if self.words[1] & !bits != 0 {
            return Err(format!("bits {:#x} of a record of kind {}", self.words[1], self.words[0]));
        }
        match (2..32).find(|i| self.words[*i] != 0 && self.used >> i & 1 == 0) {
            Some(i) => Err(format!("word {i} of a record of kind {} isn't zero", self.words[0])),
            None => Ok(()),
        }
    }
}

#[derive(Default)]
struct CaseLines {
    head: String,
    extras: String,
    properties: String,
    main: Option<(u32, String)>,
    bit_9: bool,
    runs: Vec<(u32, String)>,
}

#[derive(Default)]
struct SuiteLines {
    head: String,
    extras: String,
    properties: String,
    cases: Vec<CaseLines>,
}

/// The fields of the tree in two areas, and the kinds of its records, dead ones among them.
pub fn tree_fields(records: &[u32], text: &[u8]) -> Result<(String, Vec<Record>), String> {
    let mut kinds = vec![];
    let mut report: Option<String> = None;
    let mut suites: Vec<SuiteLines> = vec![];
    let whole = records.len() / 32;
    let taken = (0..whole).position(|i| records[32 * i] == 0).unwrap_or(whole);
    if records[32 * taken..].iter().any(|w| *w != 0) {
        return Err("words behind the last record aren't zero".into());
    }
    for words in records[..32 * taken].chunks(32) {
        let kind = words[0] & 15;
        kinds.push(match kind {
            1 => Record::Report,
            2 => Record::Suite,
            3 => Record::Case,
            4 | 5 => Record::Property,
            6..=12 => Record::Status,
            13 | 14 => Record::Extra,
            _ => return Err(format!("a record of kind {}", words[0])),
        });
        if words[0] >= 32 {
            return Err(format!("a record of kind {}", words[0]));
        }
        if words[0] >= 16 {
            hit_of!(
                kind as usize - 1,
                "M12",
                "a dead report",
                "a dead suite",
                "a dead case",
                "a suite's dead property",
                "a case's dead property",
                "a dead failure",
                "a dead error",
                "a dead skipped",
                "a dead flakyFailure",
                "a dead flakyError",
                "a dead rerunFailure",
                "a dead rerunError",
                "a suite's dead extra",
                "a case's dead extra"
            );
            continue;
        }
        let mut w = Words { words, text, used: 3 };
        let line = record_line(&mut w, kind)?;
        let no_suite = "a record before its suite";
        match kind {
            1 if report.is_some() => return Err("two reports".into()),
            1 => report = Some(line),
            2 => suites.push(SuiteLines { head: line, ..Default::default() }),
            3 => suites.last_mut().ok_or(no_suite)?.cases.push(CaseLines { head: line, ..Default::default() }),
            4 => suites.last_mut().ok_or(no_suite)?.properties += &line,
            13 => suites.last_mut().ok_or(no_suite)?.extras += &line,
            _ => {
                let case = suites.last_mut().and_then(|s| s.cases.last_mut()).ok_or("a record before its case")?;
                match kind {
                    5 => case.properties += &line,
                    14 => case.extras += &line,
                    6..=8 if case.main.is_some() => return Err("two mains".into()),
                    6..=8 => {
                        if !case.runs.is_empty() {
                            hit!("S11", "the main behind its runs");
                        }
                        case.bit_9 = words[1] & 0x200 != 0;
                        case.main = Some((kind, line))
                    }
                    _ => case.runs.push((kind, line)),
                }
            }
        }
    }
    let mut out = report.ok_or("no report")?;
    for s in &suites {
        out += &s.head;
        out += &s.extras;
        out += &s.properties;
        s.cases.iter().for_each(|c| put_case(&mut out, c));
    }
    Ok((out, kinds))
}

fn put_case(out: &mut String, c: &CaseLines) {
    for part in [&c.head, &c.extras, &c.properties] {
        *out += part;
    }
    // bit 9: a failure or error without runs whose kind is Flaky, which reading never leaves
    let flaky = c.runs.first().map_or(c.bit_9, |r| r.0 <= 10);
    let none = " message=- type=- description=-".to_string();
    let (status, texts, kind) = match &c.main {
        None => ("success", &none, "flaky"),
        Some((8, line)) => ("skipped", line, "none"),
        Some((k, line)) => (if *k == 6 { "failure" } else { "error" }, line, if flaky { "flaky" } else { "rerun" }),
    };
    write!(out, "\n   status {status}{texts} runs={kind}").unwrap();
    count_status(c, flaky);
    for (_, run) in &c.runs {
        *out += run;
    }
}

fn count_status(c: &CaseLines, flaky: bool) {
    for (kind, _) in c.main.iter().chain(&c.runs) {
        hit_of!(
            *kind as usize - 6,
            "S1",
            "failure",
            "error",
            "skipped",
            "flakyFailure",
            "flakyError",
            "rerunFailure",
            "rerunError"
        );
    }
    match (&c.main, c.runs.is_empty()) {
        (None, true) => hit!("S5", "no status elements"),
        (None, false) => hit!("S10", "flaky runs of a success"),
        (Some((8, _)), _) => hit!("S5", "skipped"),
        (Some(_), true) => hit!("S11", "a failure or error without runs"),
        (Some(_), false) => hit_if!(flaky, "S11", "with flaky runs", "with reruns"),
    }
}

fn record_line(w: &mut Words<'_>, kind: u32) -> Result<String, String> {
    let mut o = Lines(String::new());
    match kind {
        1 => {
            o.line("report").text("name", w.text(2, 0)?).uuid(w.uuid()).moment(w.moment()?).time(w.time()?);
            o.number("tests", w.count(18))
                .number("failures", w.count(20))
                .number("errors", w.count(22))
                .number("skipped", w.count(24));
            o.number("disabled", w.number(26, 8));
            w.done(0x11b)?;
        }
        2 => {
            o.line(" suite").text("name", w.always(2, 0)?).moment(w.moment()?).time(w.time()?);
            o.number("tests", w.count(18))
                .number("failures", w.count(20))
                .number("errors", w.count(22))
                .number("skipped", w.count(24));
            o.number("disabled", w.number(26, 8))
                .text("out", w.text(4, 1)?)
                .text("err", w.text(6, 2)?)
                .text("hostname", w.text(28, 10)?);
            w.done(0x51f)?;
        }
        3 => {
            o.line("  case").text("name", w.always(2, 0)?).text("classname", w.text(18, 5)?).number("assertions", w.number(20, 6));
            o.moment(w.moment()?).time(w.time()?).text("out", w.text(4, 1)?).text("err", w.text(6, 2)?);
            w.done(0x7f)?;
        }
        4 | 5 | 13 | 14 => {
            let (deep, what) = (if matches!(kind, 4 | 13) { "  " } else { "   " }, if kind < 6 { "property" } else { "extra" });
            o.line(deep).0.push_str(what);
            o.text(if kind < 6 { "name" } else { "key" }, w.always(2, 0)?).text("value", w.always(4, 1)?);
            w.done(3)?;
        }
        6..=8 => {
            o.text("message", w.text(2, 0)?).text("type", w.text(18, 5)?).text("description", w.text(20, 6)?);
            w.done(if kind == 8 { 0x61 } else { 0x261 })?;
        }
        _ => {
            o.line("    run ").0.push_str(if matches!(kind, 9 | 11) { "failure" } else { "error" });
            o.moment(w.moment()?)
                .time(w.time()?)
                .text("message", w.text(2, 0)?)
                .text("type", w.text(18, 5)?)
                .text("description", w.text(20, 6)?);
            o.text("trace", w.text(22, 7)?).text("out", w.text(4, 1)?).text("err", w.text(6, 2)?);
            w.done(0xff)?;
        }
    }
    Ok(o.0)
}

// ---- writing

/// What `serialize_report` writes: the events, and the document's bytes.
pub fn serialized(r: &Report) -> (Vec<Written>, Vec<u8>) {
    take_written();
    let mut document = Vec::new();
    r.serialize(&mut document).unwrap();
    (take_written(), document)
}

/// The same with the events as a table. Where `hostname` is a field it stands before a suite's extras.
pub fn written(r: &Report, hostname: bool) -> (Table, Vec<u8>) {
    let (events, document) = if hostname {
        let mut first = r.clone();
        for suite in &mut first.test_suites {
            suite.extra = hostname_first(&suite.extra);
        }
        serialized(&first)
    } else {
        serialized(r)
    };
    let events: Vec<Event> = events.into_iter().map(event_of).collect();
    (laid_out(&events), document)
}

fn hostname_first(extras: &IndexMap<XmlString, XmlString>) -> IndexMap<XmlString, XmlString> {
    let mut out = IndexMap::new();
    for first in [true, false] {
        for (k, v) in extras.iter().filter(|(k, _)| (k.as_str() == "hostname") == first) {
            out.insert(k.clone(), v.clone());
        }
    }
    out
}

fn event_of(w: Written) -> Event {
    let attributes = w.attributes.into_iter().map(|(key, value)| Attribute { mark: 0, key, value }).collect();
    Event { kind: w.kind, bytes: w.bytes, attributes }
}

/// Rule W15, but for the limits of the table.
pub fn is_plain(r: &Report, hostname: bool) -> bool {
    fn gathered(t: &Option<XmlString>) -> bool {
        t.as_ref().is_none_or(|t| t.trim() == t.as_str())
    }
    fn description(t: &Option<XmlString>) -> bool {
        gathered(t) && t.as_ref().is_none_or(|t| !t.is_empty())
    }
    let time = |t: &Option<Duration>| t.is_none_or(|t| t.subsec_nanos() % 1_000_000 == 0);
    let moment = |t: &Option<Moment>| t.is_none_or(|t| t.nanos % 1_000_000 == 0);
    let own = |key: &str, keys: &[&str]| key.contains('&') || keys.contains(&key);
    let run = |r: &TestRerun| {
        gathered(&r.stack_trace)
            && gathered(&r.system_out)
            && gathered(&r.system_err)
            && description(&r.description)
            && time(&r.time)
            && moment(&r.timestamp)
    };
    let case = |c: &TestCase| {
        let status = match &c.status {
            TestCaseStatus::Success { flaky_runs } => flaky_runs.iter().all(run),
            TestCaseStatus::NonSuccess { description: d, reruns, .. } => {
                description(d) && reruns.runs.iter().all(run) && (!reruns.runs.is_empty() || reruns.kind == FlakyOrRerun::Rerun)
            }
            TestCaseStatus::Skipped { description: d, .. } => description(d),
        };
        let keys = !c.extra.keys().any(|k| own(k, &["name", "classname", "assertions", "timestamp", "time"]));
        status && keys && gathered(&c.system_out) && gathered(&c.system_err) && time(&c.time) && moment(&c.timestamp)
    };
    let suite = |s: &TestSuite| {
        let keys = ["name", "tests", "skipped", "disabled", "errors", "failures", "timestamp", "time"];
        let keys = !s.extra.keys().any(|k| own(k, &keys) && !(hostname && k.as_str() == "hostname"));
        keys && gathered(&s.system_out)
            && gathered(&s.system_err)
            && time(&s.time)
            && moment(&s.timestamp)
            && s.test_cases.iter().all(case)
    };
    time(&r.time) && moment(&r.timestamp) && r.test_suites.iter().all(suite)
}

// ---- the first and last start

/// Days before each year, counted year by year from 0000 on.
fn days_before(year: u32) -> i64 {
    thread_local! {
        static DAYS: Vec<i64> = (0..10_000).scan(0, |days, y| { let before = *days; *days += 365 + chrono::is_leap(y) as i64; Some(before) }).collect();
    }
    DAYS.with(|d| d[year as usize])
}

/// The days before a date, from 0000-01-01 on.
pub fn days_to(year: u32, month: u32, day: u32) -> i64 {
    days_before(year as _) + (1..month).map(|k| chrono::month_length(year as _, k as _) as i64).sum::<i64>() + i64::from(day) - 1
}

fn instant(m: &Moment) -> i128 {
    let days = days_before(m.year) + (1..m.month).map(|k| chrono::month_length(m.year, k) as i64).sum::<i64>() + m.day as i64 - 1;
    let seconds = days * 86_400 + m.hour as i64 * 3600 + m.minute as i64 * 60 + m.second as i64 - m.offset as i64 * 60;
    seconds as i128 * 1_000_000_000 + m.nanos as i128
}

/// The earliest and the latest timestamp of the cases, as words, and the nanoseconds between them.
pub fn starts(r: &Report) -> Option<([u32; 8], [u32; 8], i128)> {
    let moments = r.test_suites.iter().flat_map(|s| &s.test_cases).filter_map(|c| c.timestamp);
    let mut ends: Option<(Moment, Moment)> = None;
    for m in moments {
        match &mut ends {
            None => ends = Some((m, m)),
            Some((first, last)) => {
                match instant(&m).cmp(&instant(first)) {
                    std::cmp::Ordering::Equal => hit!("D4", "the same instant as the first"),
                    std::cmp::Ordering::Less => *first = m,
                    _ => {}
                }
                if instant(&m) > instant(last) {
                    *last = m;
                }
            }
        }
    }
    ends.map(|(first, last)| {
        if instant(&last) % 1_000_000_000 < instant(&first) % 1_000_000_000 {
            hit!("D5", "a second is borrowed");
        }
        (moment_words(&first), moment_words(&last), instant(&last) - instant(&first))
    })
}
