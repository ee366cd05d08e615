//! Builders: scripts of calls here and by the crate's own builders, listings and written tables compared; in areas that suffice, just
//! suffice, lack a record or a byte, or are cut anywhere; behind the end of each some calls that are refused (rule B12), and calls with
//! builders that are made up.
use crate::{
    calls,
    compare::{differing, Bench, Compared},
    random::Random,
    reference::Refused,
    report::{listing, written},
    sys,
};
use chrono::{DateTime, FixedOffset};
use cover::{hit, hit_if, hit_of};
use quick_junit::*;
use quick_xml::rules::filtered;
use std::time::Duration;

const NONE: u32 = u32::MAX;
const CLOSED: sys::Builder = sys::Builder { records: 0, bytes: 0, report: NONE, suite: NONE, case: NONE, main: NONE };
const REPORT: u32 = 0;
const SUITE: u32 = 1;
const CASE: u32 = 2;
const STATUS: u32 = 3;
const LAST: u32 = 4;

/// A call. Elements, fields and other codes are those of ports/c/kerzhoma.h.
#[derive(Clone, Debug, PartialEq)]
pub enum Call {
    New(Option<Vec<u8>>),
    Suite(Vec<u8>),
    Case(Vec<u8>, u32),
    Run(u32),
    Kind(u32),
    Property(u32, Vec<u8>, Vec<u8>),
    Extra(u32, Vec<u8>, Vec<u8>),
    Text(u32, u32, Vec<u8>),
    Lossy(u32, u32, Vec<u8>),
    Moment(u32, [u32; 8]),
    Time(u32, u32, u32),
    Uuid([u32; 4]),
    Number(u32, u64),
    Finish,
}

/// What a call takes of the areas, in order.
#[derive(Clone, Copy)]
enum Take {
    Record,
    Text(usize),
}

fn made(call: &Call, b: sys::Builder, records: &mut [u32], text: &mut [u8]) -> sys::Built {
    match call {
        Call::New(None) => sys::unnamed_report(records, text),
        Call::New(Some(name)) => sys::new_report(records, text, name),
        Call::Suite(name) => sys::add_test_suite(b, records, text, name),
        Call::Case(name, outcome) => sys::add_test_case(b, records, text, name, *outcome),
        Call::Run(kind) => sys::add_rerun(b, records, text, *kind),
        Call::Kind(family) => sys::set_rerun_kind(b, records, text, *family),
        Call::Property(holder, name, value) => sys::add_property(b, records, text, *holder, name, value),
        Call::Extra(holder, key, value) => calls::add_extra(b, records, text, *holder, key, value),
        Call::Text(element, field, s) => sys::set_text(b, records, text, *element, *field, s),
        Call::Lossy(element, field, s) => sys::set_output_lossy(b, records, text, *element, *field, s),
        Call::Moment(element, [year, month, day, hour, minute, second, nanos, offset]) => {
            let (month, day, hour, minute, second) = (*month as u8, *day as u8, *hour as u8, *minute as u8, *second as u8);
            let moment =
                sys::Moment { year: *year as u16, month, day, hour, minute, second, nanos: *nanos, offset: *offset as u16 };
            sys::set_timestamp(b, records, text, *element, moment)
        }
        Call::Time(element, seconds, nanos) => sys::set_time(b, records, text, *element, *seconds, *nanos),
        Call::Uuid([a, b2, c, d]) => sys::set_uuid(b, records, text, sys::Uuid { a: *a, b: *b2, c: *c, d: *d }),
        Call::Number(field, n) => sys::set_number(b, records, text, *field, *n),
        Call::Finish => sys::finish_report(b, records, text),
    }
}

// ---- what the crate's builders make of a script

struct Script {
    report: Option<Report>,
    /// With how far it is: 0 extras, 1 properties, 2 cases.
    suite: Option<(TestSuite, u32)>,
    /// With how far it is: 0 extras, 1 properties, 2 runs.
    case: Option<(TestCase, u32)>,
    /// What `LAST` is: a run, a main, or something that isn't set by it here.
    last: Option<u32>,
    takes: Vec<(usize, Take)>,
    over: bool,
}

/// What a call comes to by the rules, but for areas that are too short.
enum Said {
    Done,
    Refused(u32),
    /// It isn't said here; no script that is compared has it.
    Unsaid,
}

fn text_of(bytes: &[u8]) -> Option<String> {
    std::str::from_utf8(bytes).ok().map(str::to_string)
}

impl Script {
    fn new() -> Self {
        Script { report: None, suite: None, case: None, last: None, takes: vec![], over: false }
    }

    fn close_case(&mut self) {
        if let (Some((case, _)), Some((suite, _))) = (self.case.take(), &mut self.suite) {
            hit!("C1", "a case is counted");
            hit!("B8", "a case raises its suite's counts");
            suite.add_test_case(case);
        }
    }

    /// Whether the sums stay within their limits.
    fn close_suite(&mut self) -> bool {
        self.close_case();
        let (Some((suite, _)), Some(report)) = (self.suite.take(), &mut self.report) else { return true };
        let disabled = report.disabled.unwrap_or(0).checked_add(suite.disabled.unwrap_or(0));
        hit_if!(suite.disabled.is_some() || report.disabled.is_some(), "C2", "disabled in one of them", "disabled in none");
        hit_if!(disabled.is_some(), "B8", "a suite raises the report's counts", "a count past its limit");
        if disabled.is_some() {
            report.add_test_suite(suite);
        }
        disabled.is_some()
    }

    fn take(&mut self, at: usize, take: Take) {
        self.takes.push((at, take));
    }

    fn store(&mut self, at: usize, s: &str) {
        self.take(at, Take::Text(filtered(s).len()));
    }

    fn call(&mut self, at: usize, call: &Call) -> Said {
        if let Call::New(name) = call {
            return self.begin(at, name.as_deref());
        }
        if self.report.is_none() || self.over {
            hit!("B12", "a call behind the end, or before a report");
            return Said::Refused(15);
        }
        match call {
            Call::Suite(name) => self.add_suite(at, name),
            Call::Case(name, outcome) => self.add_case(at, name, *outcome),
            Call::Run(kind) => self.add_run(at, *kind),
            Call::Kind(family) => self.set_kind(*family),
            Call::Property(holder, name, value) => self.add_pair(at, false, *holder, name, value),
            Call::Extra(holder, key, value) => self.add_pair(at, true, *holder, key, value),
            Call::Text(element, field, s) => match (self.has(*element, *field), text_of(s)) {
                (Said::Done, Some(s)) => self.set_text(at, *element, *field, s),
                (Said::Done, None) => {
                    hit!("B6", "a text that isn't UTF-8");
                    Said::Refused(2)
                }
                (said, _) => said,
            },
            Call::Lossy(element, field, s) => match (*field, self.has(*element, *field)) {
                (5 | 6, Said::Done) => {
                    hit_if!(std::str::from_utf8(s).is_ok(), "B6", "an output of UTF-8", "an output of other bytes");
                    self.set_text(at, *element, *field, String::from_utf8_lossy(s).to_string())
                }
                (5 | 6, said) => said,
                _ => Said::Refused(15),
            },
            Call::Moment(element, words) => self.set_moment(*element, *words),
            Call::Time(element, seconds, nanos) => self.set_time(*element, *seconds, *nanos),
            Call::Uuid(words) => {
                let bytes: Vec<u8> = words.iter().flat_map(|w| w.to_be_bytes()).collect();
                self.report.as_mut().unwrap().set_uuid(uuid::Uuid::from_bytes(bytes.try_into().unwrap()));
                Said::Done
            }
            Call::Number(0, n) => match &mut self.case {
                Some((case, _)) => {
                    case.set_assertions(*n as usize);
                    Said::Done
                }
                None => Said::Refused(15),
            },
            Call::Number(1, n) => match &mut self.suite {
                Some((suite, _)) => {
                    suite.disabled = Some(*n as usize);
                    Said::Done
                }
                None => Said::Refused(15),
            },
            Call::Number(..) => Said::Refused(15),
            Call::Finish => {
                self.over = true;
                if self.close_suite() {
                    Said::Done
                } else {
                    Said::Refused(17)
                }
            }
            Call::New(_) => Said::Unsaid,
        }
    }

    fn begin(&mut self, at: usize, name: Option<&[u8]>) -> Said {
        if at > 0 {
            return Said::Unsaid;
        }
        hit_if!(name.is_some(), "B1", "with a name", "without a name");
        self.take(at, Take::Record);
        self.report = Some(Report::unnamed());
        match name.map(text_of) {
            Some(None) => return Said::Refused(2),
            Some(Some(name)) => {
                self.store(at, &name);
                self.report = Some(Report::new(name));
            }
            None => {}
        }
        Said::Done
    }

    fn add_suite(&mut self, at: usize, name: &[u8]) -> Said {
        if !self.close_suite() {
            hit!("B5", "17 before a record");
            return Said::Refused(17);
        }
        self.take(at, Take::Record);
        let Some(name) = text_of(name) else { return Said::Refused(2) };
        self.store(at, &name);
        self.suite = Some((TestSuite::new(name), 0));
        self.last = None;
        Said::Done
    }

    fn add_case(&mut self, at: usize, name: &[u8], outcome: u32) -> Said {
        let status = match outcome {
            0 => TestCaseStatus::success(),
            1 => TestCaseStatus::non_success(NonSuccessKind::Failure),
            2 => TestCaseStatus::non_success(NonSuccessKind::Error),
            3 => TestCaseStatus::skipped(),
            _ => {
                hit!("B4", "no such code");
                return Said::Refused(15);
            }
        };
        if self.suite.is_none() {
            hit!("B4", "no suite is open");
            return Said::Refused(15);
        }
        self.close_case();
        self.take(at, Take::Record);
        let Some(name) = text_of(name) else { return Said::Refused(2) };
        self.store(at, &name);
        if outcome > 0 {
            hit!("B5", "the record of a main comes last");
            self.take(at, Take::Record);
        }
        self.suite.as_mut().unwrap().1 = 2;
        self.case = Some((TestCase::new(name, status), 0));
        self.last = (outcome > 0).then_some(STATUS);
        Said::Done
    }

    fn add_run(&mut self, at: usize, kind: u32) -> Said {
        if kind > 1 {
            hit!("B4", "no such code");
            return Said::Refused(15);
        }
        let Some((case, stage)) = &mut self.case else {
            hit!("B4", "no case is open");
            return Said::Refused(15);
        };
        match case.status {
            TestCaseStatus::Skipped { .. } => {
                hit!("B4", "a run of a skipped case");
                return Said::Refused(15);
            }
            TestCaseStatus::Success { .. } => hit!("B9", "a run of a success"),
            TestCaseStatus::NonSuccess { .. } => hit!("B9", "a run of a failure or error"),
        }
        *stage = 2;
        case.status.add_rerun(TestRerun::new(if kind == 0 { NonSuccessKind::Failure } else { NonSuccessKind::Error }));
        self.last = Some(LAST);
        self.take(at, Take::Record);
        Said::Done
    }

    fn set_kind(&mut self, family: u32) -> Said {
        let Some((case, _)) = &mut self.case else { return Said::Refused(15) };
        if family > 1 || !matches!(case.status, TestCaseStatus::NonSuccess { .. }) {
            hit!("B4", "a kind of runs where there is no failure or error");
            return Said::Refused(15);
        }
        hit!("B9", "the kind is set");
        case.status.set_rerun_kind(if family == 0 { FlakyOrRerun::Flaky } else { FlakyOrRerun::Rerun });
        Said::Done
    }

    fn add_pair(&mut self, at: usize, extra: bool, holder: u32, key: &[u8], value: &[u8]) -> Said {
        let stage = match holder {
            0 => self.suite.as_ref().map(|s| s.1),
            1 => self.case.as_ref().map(|c| c.1),
            _ => None,
        };
        let most = if extra { 0 } else { 1 };
        if stage.is_none_or(|s| s > most) {
            hit_if!(stage.is_some(), "B3", "an extra or property too late", "an extra or property of nothing open");
            return Said::Refused(15);
        }
        let (Some(key), Some(value)) = (text_of(key), text_of(value)) else {
            return if std::str::from_utf8(key).is_err() || holder == 9 { Said::Refused(2) } else { Said::Unsaid };
        };
        hit!("B5", "the texts of a property or extra before its record");
        self.store(at, &key);
        self.store(at, &value);
        let main = self.last == Some(STATUS) && holder == 1 && extra;
        if extra {
            let extras =
                if holder == 0 { &mut self.suite.as_mut().unwrap().0.extra } else { &mut self.case.as_mut().unwrap().0.extra };
            let new = extras.insert(XmlString::new(&key), XmlString::new(&value)).is_none();
            hit_if!(new, "B7", "a new extra", "an extra whose key is there");
            if new {
                self.take(at, Take::Record);
            }
        } else {
            let property = Property::new(key, value);
            match holder {
                0 => drop(self.suite.as_mut().unwrap().0.add_property(property)),
                _ => drop(self.case.as_mut().unwrap().0.add_property(property)),
            }
            self.take(at, Take::Record);
        }
        let stage = if holder == 0 { &mut self.suite.as_mut().unwrap().1 } else { &mut self.case.as_mut().unwrap().1 };
        *stage = (*stage).max(!extra as u32);
        if !main {
            self.last = None;
        }
        Said::Done
    }

    /// Whether an element is open and has the text.
    fn has(&self, element: u32, field: u32) -> Said {
        let main = self.case.as_ref().is_some_and(|c| !matches!(c.0.status, TestCaseStatus::Success { .. }));
        let good = match (element, field) {
            (_, 8..) | (5.., _) => false,
            (REPORT, _) => false,
            (SUITE, 5..=7) => self.suite.is_some(),
            (CASE, 0 | 5 | 6) => self.case.is_some(),
            (STATUS, 1..=3) => main,
            (LAST, 1..=6) if self.last == Some(LAST) => true,
            (LAST, 1..=3) if self.last == Some(STATUS) => true,
            (LAST, _) => return Said::Unsaid,
            _ => false,
        };
        hit_if!(good, "B3", "a setter of an open element", "a setter that doesn't fit");
        if good {
            Said::Done
        } else {
            Said::Refused(15)
        }
    }

    fn last_run(&mut self) -> &mut TestRerun {
        match &mut self.case.as_mut().unwrap().0.status {
            TestCaseStatus::Success { flaky_runs } => flaky_runs.last_mut().unwrap(),
            TestCaseStatus::NonSuccess { reruns, .. } => reruns.runs.last_mut().unwrap(),
            TestCaseStatus::Skipped { .. } => unreachable!(),
        }
    }

    /// The crate has it as an extra.
    fn set_hostname(&mut self, s: &str) {
        self.suite.as_mut().unwrap().0.extra.insert(XmlString::new("hostname"), XmlString::new(s));
    }

    fn set_text(&mut self, at: usize, element: u32, field: u32, s: String) -> Said {
        self.store(at, &s);
        let run = element == LAST && self.last == Some(LAST);
        match (element, field) {
            (SUITE, 5) => drop(self.suite.as_mut().unwrap().0.set_system_out(s)),
            (SUITE, 7) => self.set_hostname(&s),
            (SUITE, _) => drop(self.suite.as_mut().unwrap().0.set_system_err(s)),
            (CASE, 0) => drop(self.case.as_mut().unwrap().0.set_classname(s)),
            (CASE, 5) => drop(self.case.as_mut().unwrap().0.set_system_out(s)),
            (CASE, _) => drop(self.case.as_mut().unwrap().0.set_system_err(s)),
            (_, 1) if run => drop(self.last_run().set_message(s)),
            (_, 2) if run => drop(self.last_run().set_type(s)),
            (_, 3) if run => drop(self.last_run().set_description(s)),
            (_, 4) if run => drop(self.last_run().set_stack_trace(s)),
            (_, 5) if run => drop(self.last_run().set_system_out(s)),
            (_, _) if run => drop(self.last_run().set_system_err(s)),
            (_, 1) => drop(self.case.as_mut().unwrap().0.status.set_message(s)),
            (_, 2) => drop(self.case.as_mut().unwrap().0.status.set_type(s)),
            _ => drop(self.case.as_mut().unwrap().0.status.set_description(s)),
        }
        Said::Done
    }

    /// Whether an element is open and has time and timestamp.
    fn has_times(&self, element: u32) -> Said {
        match element {
            REPORT => Said::Done,
            SUITE if self.suite.is_some() => Said::Done,
            CASE if self.case.is_some() => Said::Done,
            LAST if self.last == Some(LAST) => Said::Done,
            LAST if self.last == Some(STATUS) => Said::Refused(15),
            LAST => Said::Unsaid,
            _ => Said::Refused(15),
        }
    }

    fn set_moment(&mut self, element: u32, [y, mo, d, h, mi, s, ns, offset]: [u32; 8]) -> Said {
        let said = self.has_times(element);
        if !matches!(said, Said::Done) {
            return said;
        }
        let good = if offset <= 2878 { DateTime::<FixedOffset>::new(y, mo, d, h, mi, s, ns, offset as i32 - 1439) } else { None };
        hit_if!(good.is_some(), "B10", "a timestamp in range", "a timestamp out of range");
        let Some(moment) = good else { return Said::Refused(4) };
        match element {
            REPORT => drop(self.report.as_mut().unwrap().set_timestamp(moment)),
            SUITE => drop(self.suite.as_mut().unwrap().0.set_timestamp(moment)),
            CASE => drop(self.case.as_mut().unwrap().0.set_timestamp(moment)),
            _ => drop(self.last_run().set_timestamp(moment)),
        }
        Said::Done
    }

    fn set_time(&mut self, element: u32, seconds: u32, nanos: u32) -> Said {
        let said = self.has_times(element);
        if !matches!(said, Said::Done) {
            return said;
        }
        let good = seconds < 8_388_608 && nanos < 1_000_000_000;
        hit_if!(good, "B10", "a time in range", "a time out of range");
        if !good {
            return Said::Refused(5);
        }
        let time = Duration::new(seconds as u64, nanos);
        match element {
            REPORT => drop(self.report.as_mut().unwrap().set_time(time)),
            SUITE => drop(self.suite.as_mut().unwrap().0.set_time(time)),
            CASE => drop(self.case.as_mut().unwrap().0.set_time(time)),
            _ => drop(self.last_run().set_time(time)),
        }
        Said::Done
    }
}

// ---- scripts

fn text(r: &mut Random) -> Vec<u8> {
    const POOL: [&str; 25] = [
        "a", "b", "Z", "0", " ", "\n", "\t", "&", "<", ">", "\"", "'", "\u{1}", "\u{8}", "\u{b}", "\u{1f}", "é", "\u{7f}",
        "\u{85}", "€", "\u{2028}", "😀", "\u{fffd}", "\\", "\r",
    ];
    let n = match r.below(6) {
        0 => 0,
        1 => 1,
        5 => r.below(40),
        _ => r.below(8),
    };
    (0..n).flat_map(|_| r.pick(&POOL).as_bytes().to_vec()).collect()
}

fn any_bytes(r: &mut Random) -> Vec<u8> {
    const POOL: [&[u8]; 8] =
        [b"a", "é€😀".as_bytes(), b"\xe2", b"\xe2\x82", b"\xff", b"\xf0\x9f\x98", b"\xed\xa0\x80", b"\xc0\x80"];
    (0..r.below(8)).flat_map(|_| r.pick(&POOL).to_vec()).collect()
}

fn moment(r: &mut Random) -> [u32; 8] {
    let (year, month) = (r.below(10_000) as u32, 1 + r.below(12) as u32);
    let day = 1 + r.below(chrono::month_length(year, month) as u64) as u32;
    let nanos = if r.one(2) { r.below(1000) as u32 * 1_000_000 } else { (r.next() % 1_000_000_000) as u32 };
    [year, month, day, r.below(24) as u32, r.below(60) as u32, r.below(60) as u32, nanos, r.below(2879) as u32]
}

/// A setter of an element that has it, or any.
fn setter(r: &mut Random, element: u32) -> Call {
    match r.below(8) {
        0 => Call::Time(element, (r.next() % 8_388_608) as u32, r.below(2000) as u32 * 500_000 % 1_000_000_000),
        1 => Call::Moment(element, moment(r)),
        2 => Call::Lossy(element, 5 + r.below(2) as u32, any_bytes(r)),
        3 if element == CASE => Call::Number(0, r.next() >> r.below(64)),
        3 if element == SUITE => Call::Number(1, r.below(1000)),
        3 | 4 if element == REPORT => Call::Uuid([r.next() as u32, r.next() as u32, r.next() as u32, r.next() as u32]),
        _ => Call::Text(element, r.below(8) as u32, text(r)),
    }
}

/// Any call, with any values.
fn any_call(r: &mut Random) -> Call {
    let element = r.below(6) as u32;
    match r.below(14) {
        0 => Call::Suite(any_bytes(r)),
        1 => Call::Case(any_bytes(r), r.below(5) as u32),
        2 => Call::Run(r.below(3) as u32),
        3 => Call::Kind(r.below(3) as u32),
        4 => Call::Property(r.below(3) as u32, any_bytes(r), text(r)),
        5 => Call::Extra(r.below(3) as u32, any_bytes(r), text(r)),
        6 => Call::Lossy(element, r.below(8) as u32, any_bytes(r)),
        7 => {
            let mut words = moment(r);
            // as large as the fields of the call's struct are
            let (at, most) = *r.pick(&[(0, 65_535), (1, 255), (2, 255), (3, 255), (4, 255), (5, 255), (6, u32::MAX), (7, 65_535)]);
            words[at] = [0, 13, 32, 60, 61, 2879, 10_000, 1_000_000_000, u32::MAX][r.index(9)].min(most);
            Call::Moment(element, words)
        }
        8 => Call::Time(
            element,
            [0, 8_388_607, 8_388_608, u32::MAX][r.index(4)],
            [0, 999_999_999, 1_000_000_000, u32::MAX][r.index(4)],
        ),
        9 => Call::Uuid([1, 2, 3, r.next() as u32]),
        10 => Call::Number(r.below(3) as u32, r.next()),
        11 => Call::Finish,
        _ => Call::Text(element, r.below(9) as u32, any_bytes(r)),
    }
}

fn script(r: &mut Random) -> Vec<Call> {
    let mut out = vec![Call::New(if r.one(4) { None } else { Some(text(r)) })];
    let mut some = |out: &mut Vec<Call>, r: &mut Random, element: u32| {
        while r.one(3) {
            out.push(setter(r, element));
        }
    };
    some(&mut out, r, REPORT);
    for _ in 0..r.below(4) {
        out.push(Call::Suite(text(r)));
        some(&mut out, r, SUITE);
        if r.one(12) {
            out.push(Call::Number(1, u64::MAX));
        }
        pairs(&mut out, r, 0);
        for _ in 0..r.below(4) {
            some(&mut out, r, SUITE);
            case(&mut out, r, &mut some);
        }
        some(&mut out, r, REPORT);
    }
    if r.one(6) {
        let at = 1 + r.index(out.len());
        out.insert(at, any_call(r));
    }
    out.push(Call::Finish);
    out
}

fn pairs(out: &mut Vec<Call>, r: &mut Random, holder: u32) {
    while r.one(3) {
        let key = match r.below(3) {
            0 => b"k\x01".to_vec(),
            1 => b"k".to_vec(),
            _ => text(r),
        };
        out.push(Call::Extra(holder, key, text(r)));
    }
    while r.one(3) {
        out.push(Call::Property(holder, text(r), text(r)));
    }
}

fn case(out: &mut Vec<Call>, r: &mut Random, some: &mut impl FnMut(&mut Vec<Call>, &mut Random, u32)) {
    let outcome = r.below(4) as u32;
    out.push(Call::Case(text(r), outcome));
    some(out, r, CASE);
    if outcome > 0 {
        let element = if r.one(2) { STATUS } else { LAST };
        some(out, r, element);
    }
    pairs(out, r, 1);
    some(out, r, CASE);
    if matches!(outcome, 1 | 2) && r.one(4) {
        out.push(Call::Kind(r.below(2) as u32));
    }
    while outcome != 3 && r.one(2) {
        out.push(Call::Run(r.below(2) as u32));
        some(out, r, LAST);
        if r.one(4) && outcome > 0 {
            out.push(Call::Kind(r.below(2) as u32));
        }
        if outcome > 0 {
            some(out, r, STATUS);
        }
    }
}

// ---- the comparison

fn is_zero(records: &[u32], text: &[u8]) -> bool {
    records.iter().all(|w| *w == 0) && text.iter().all(|b| *b == 0)
}

/// What each refusal has: an empty path, no event and no attribute, no builder, areas of zero (rule B11).
fn is_clean(built: &sys::Built, number: u32, records: &[u32], text: &[u8]) -> bool {
    let (b, f) = (built.builder, built.refusal);
    let none = [b.records, b.bytes, b.report, b.suite, b.case, b.main] == [0, 0, NONE, NONE, NONE, NONE];
    f.number == number && f.depth == 0 && f.event == NONE && f.attribute == NONE && none && is_zero(records, text)
}

impl Bench {
    /// The script of a seed, shrunk where it differs.
    pub fn building(&mut self, r: &mut Random) -> Compared {
        let calls = script(r);
        let how = r.next();
        self.tally.reports_built += 1;
        let Err(first) = self.built(&calls, how) else { return self.made_up(r) };
        let mut best = calls;
        let mut at = 0;
        while at < best.len() {
            let shorter = smaller(&best, at).into_iter().find(|next| self.built(next, how).is_err());
            match shorter {
                Some(next) => (best, at) = (next, 0),
                None => at += 1,
            }
        }
        let why = self.built(&best, how).err().unwrap_or(first);
        Err(format!("building, {why}\n{}", best.iter().map(|c| format!("  {c:?}\n")).collect::<String>()))
    }

    fn built(&mut self, calls: &[Call], how: u64) -> Compared {
        let mut s = Script::new();
        // the call that is refused by itself, if one is
        let mut due: Option<(usize, u32)> = None;
        for (i, call) in calls.iter().enumerate() {
            match s.call(i, call) {
                Said::Done => {}
                Said::Refused(n) => {
                    due = Some((i, n));
                    break;
                }
                Said::Unsaid => return Ok(()),
            }
        }
        let mut r = Random::new(how);
        let records = s.takes.iter().filter(|t| matches!(t.1, Take::Record)).count();
        let bytes: usize = s.takes.iter().map(|t| if let Take::Text(n) = t.1 { n } else { 0 }).sum();
        let (mut room, mut text_room) = match r.below(6) {
            0 => (records + 7, bytes + 99),
            1 => (records.saturating_sub(1), bytes),
            2 => (records, bytes.saturating_sub(1)),
            _ => (records, bytes),
        };
        if r.one(6) {
            (room, text_room) = (r.index(records + 1), r.index(bytes + 1));
        }
        let short = short_at(&s.takes, room, text_room);
        // of one call, what it refuses by itself comes where its turn is (rule B5): only scripts with one of the two are said here
        let due = match (due, short) {
            (Some((i, _)), Some((j, _))) if i == j => return Ok(()),
            (Some(d), Some(t)) => Some(if d.0 < t.0 { d } else { t }),
            (d, t) => d.or(t),
        };
        let (mut area, mut text) = (vec![7u32; 32 * room + r.index(32)], vec![7u8; text_room]);
        let mut b = CLOSED;
        for (i, call) in calls.iter().enumerate() {
            let got = made(call, b, &mut area, &mut text);
            self.tally.calls_built += 1;
            let want = match due {
                Some((j, n)) if i == j => n,
                Some((j, _)) if i > j => 15,
                _ => 0,
            };
            if want > 0 {
                hit_of!(
                    match want {
                        2 => 0,
                        4 => 1,
                        5 => 2,
                        12 => 3,
                        13 => 4,
                        15 => 5,
                        _ => 6,
                    },
                    "B11",
                    "2",
                    "4",
                    "5",
                    "12",
                    "13",
                    "15",
                    "17"
                );
                if want == 17 {
                    hit!("C3", "refused");
                    hit!("F11", "17");
                }
            }
            let good = if want == 0 { got.refusal.number == 0 } else { is_clean(&got, want, &area, &text) };
            if !good {
                return Err(format!("call {i} {call:?}: wanted {want}, got {}", Refused::given(&got.refusal).shown()));
            }
            b = got.builder;
        }
        match due {
            None if calls.last() == Some(&Call::Finish) => {
                self.finished(s.report.as_ref().unwrap(), b, (records, bytes), &area, &text, &mut r)
            }
            _ => Ok(()),
        }
    }

    fn finished(
        &mut self, report: &Report, b: sys::Builder, used: (usize, usize), area: &[u32], text: &[u8], r: &mut Random,
    ) -> Compared {
        hit!("B2", "a report that is listed and written");
        if area.len() / 32 == used.0 && text.len() == used.1 {
            hit!("M9", "a report in areas that it just fits");
        }
        let open = [b.report, b.suite, b.case, b.main];
        if (b.records as usize, b.bytes as usize) != used || open != [NONE; 4] {
            return Err(format!("the end's builder: wanted {used:?} and nothing open, got {b:?}"));
        }
        let want = listing(report);
        let mut out = vec![7u8; want.len()];
        let l = calls::list(area, text, &mut out);
        if l.refusal.number != 0 || out != want.as_bytes() {
            return Err(format!("the listing:\n{}", differing(&want, &String::from_utf8_lossy(&out))));
        }
        let (table, _) = written(report, true);
        let (mut e, mut a, mut s) =
            (vec![7u32; 5 * table.events.len()], vec![7u32; 5 * table.attributes.len()], vec![7u8; table.source.len()]);
        let w = sys::write(area, text, &mut e, &mut a, &mut s);
        if w.refusal.number != 0 || e != table.events.as_flattened() || a != table.attributes.as_flattened() || s != table.source {
            return Err("the table that is written".into());
        }
        report.test_suites.iter().flat_map(|s| &s.test_cases).for_each(count_odd);
        // behind the end
        let (mut area, mut text, call) = (area.to_vec(), text.to_vec(), any_call(r));
        let got = made(&call, b, &mut area, &mut text);
        hit!("B12", "a call behind the end");
        if is_clean(&got, 15, &area, &text) {
            Ok(())
        } else {
            Err(format!("behind the end {call:?}: wanted 15 and areas of zero"))
        }
    }

    /// A call with a builder that is made up, in areas that hold anything: an answer, or a refusal with areas of zero; 15 where nothing is open.
    fn made_up(&mut self, r: &mut Random) -> Compared {
        let words = [0, 1, 31, 32, 33, 64, 96, 320][r.index(8)];
        let bytes = [0, 1, 5, 40, 200][r.index(5)];
        let mut area: Vec<u32> = (0..words).map(|_| if r.one(3) { r.below(20) as u32 } else { r.next() as u32 }).collect();
        let mut text: Vec<u8> = (0..bytes).map(|_| r.next() as u8).collect();
        let room = words as u32 / 32;
        let records = [0, 1, 2, room, room + 1, r.next() as u32][r.index(6)];
        let mut mark = || [0, 1, 2, records.wrapping_sub(1), records, NONE, 65_535, 65_536, r.next() as u32][r.index(9)];
        let mut marks = [mark(), mark(), mark(), mark()];
        if r.one(4) {
            marks = [NONE; 4];
        }
        let b = sys::Builder {
            records,
            bytes: [0, 1, bytes as u32, bytes as u32 + 1, r.next() as u32][r.index(5)],
            report: marks[0],
            suite: marks[1],
            case: marks[2],
            main: marks[3],
        };
        let call = any_call(r);
        let got = made(&call, b, &mut area, &mut text);
        self.tally.calls_built += 1;
        let number = got.refusal.number;
        if number == 15 {
            hit!("B4", "a made-up builder");
        }
        let clean = number == 0 || is_clean(&got, number, &area, &text);
        if clean && (marks != [NONE; 4] || number == 15) {
            Ok(())
        } else {
            Err(format!("a made-up builder {b:?}, {call:?}: got {number}"))
        }
    }
}

/// What reading never leaves, and a builder does.
fn count_odd(case: &TestCase) {
    let description = match &case.status {
        TestCaseStatus::Success { .. } => return,
        TestCaseStatus::NonSuccess { description, reruns, .. } => {
            if reruns.runs.is_empty() && reruns.kind == FlakyOrRerun::Flaky {
                hit!("W14", "a failure or error without runs whose kind is Flaky");
            }
            description
        }
        TestCaseStatus::Skipped { description, .. } => description,
    };
    if description.as_deref() == Some("") {
        hit!("W14", "an empty description");
    }
}

/// Scripts that are smaller by a call, or by a text of it.
fn smaller(calls: &[Call], at: usize) -> Vec<Vec<Call>> {
    let mut out = vec![];
    if at > 0 {
        out.push([&calls[..at], &calls[at + 1..]].concat());
    }
    for n in 0..2 {
        for part in 0..3 {
            let mut call = calls[at].clone();
            let text = match &mut call {
                Call::New(Some(a)) | Call::Suite(a) | Call::Case(a, _) | Call::Text(_, _, a) | Call::Lossy(_, _, a) if n == 0 => a,
                Call::Property(_, a, _) | Call::Extra(_, a, _) if n == 0 => a,
                Call::Property(_, _, b) | Call::Extra(_, _, b) => b,
                _ => continue,
            };
            if text.is_empty() {
                continue;
            }
            let keep = [0, text.len() / 2, text.len() - 1][part];
            text.truncate(keep);
            out.push([&calls[..at], &[call], &calls[at + 1..]].concat());
        }
    }
    out
}

/// The call at which an area is too short, and the number.
fn short_at(takes: &[(usize, Take)], room: usize, text_room: usize) -> Option<(usize, u32)> {
    let (mut records, mut bytes) = (0, 0);
    for (i, take) in takes {
        match take {
            Take::Record => records += 1,
            Take::Text(n) => bytes += n,
        }
        if records > room || bytes > text_room {
            return Some((*i, if records > room { 12 } else { 13 }));
        }
    }
    None
}
