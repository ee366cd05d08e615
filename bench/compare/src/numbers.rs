//! What has numbers alone: counts (rules C1 to C3), release sheets (C4 to C9), reports to order (O1 to O8), times in words (W10).
use crate::{
    compare::{Bench, Compared},
    random::Random,
    reference::{self, Refused},
    report::{listing, written},
    sys,
    table::Input,
};
use cover::{hit, hit_if};
use quick_junit::*;
use quick_xml::replay::Areas;

fn count(r: &mut Random) -> u64 {
    match r.below(6) {
        0 => u64::MAX,
        1 => u64::MAX - r.below(3),
        2 => r.next() >> r.below(64),
        _ => r.below(20),
    }
}

fn counts(r: &mut Random, small: bool) -> sys::Counts {
    let mut one = || if small { r.below(1000) } else { count(r) };
    let (tests, failures, errors, skipped, disabled) = (one(), one(), one(), one(), one());
    sys::Counts { tests, failures, errors, skipped, disabled, presence: r.one(2) }
}

fn words(c: &sys::Counts) -> ([u64; 4], Option<u64>) {
    ([c.tests, c.failures, c.errors, c.skipped], c.presence.then_some(c.disabled))
}

fn expect(good: bool, what: impl FnOnce() -> String) -> Compared {
    if good {
        Ok(())
    } else {
        Err(what())
    }
}

impl Bench {
    pub fn numbers(&mut self, seed: u64) -> Compared {
        let r = &mut Random::new(seed ^ 0xc0de);
        self.adding(r)?;
        self.timing(r)?;
        match r.below(3) {
            0 => self.sheet(r),
            1 => self.order(r),
            _ => Ok(()),
        }
    }

    fn adding(&mut self, r: &mut Random) -> Compared {
        let small = r.one(2);
        let (a, b, outcome) = (counts(r, small), counts(r, small), r.below(5) as u32);
        let got = sys::add_case(a, outcome);
        let (old, disabled) = words(&a);
        let raised: Option<Vec<u64>> =
            old.iter().enumerate().map(|(i, n)| n.checked_add((i == 0 || i == outcome as usize) as u64)).collect();
        let number = if outcome > 3 {
            15
        } else if raised.is_none() {
            17
        } else {
            0
        };
        let want = if number == 0 { raised.unwrap() } else { old.to_vec() };
        hit_if!(number == 0, "C1", "a case raises counts", "it doesn't");
        expect(got.refusal.number == number && words(&got.counts) == (want.try_into().unwrap(), disabled), || {
            format!("a case of {outcome} added to {old:?}")
        })?;
        let got = sys::add_suite(a, b);
        let (more, more_disabled) = words(&b);
        let sums: Option<Vec<u64>> = old.iter().zip(more).map(|(x, y)| x.checked_add(y)).collect();
        let all_disabled = match (disabled, more_disabled) {
            (None, None) => Some(None),
            (x, y) => x.unwrap_or(0).checked_add(y.unwrap_or(0)).map(Some),
        };
        hit_if!(disabled.is_some() == more_disabled.is_some(), "C2", "both or none have disabled", "one of them has disabled");
        let (number, want) = match (sums, all_disabled) {
            (Some(sums), Some(d)) => (0, (sums.try_into().unwrap(), d)),
            _ => (17, (old, disabled)),
        };
        hit_if!(number == 0, "C3", "within the limits", "past a limit");
        expect(got.refusal.number == number && words(&got.counts) == want, || {
            format!("{more:?} {more_disabled:?} added to {old:?} {disabled:?}")
        })
    }

    fn timing(&mut self, r: &mut Random) -> Compared {
        let shift = r.below(24);
        let seconds = r.below(1 << shift) as u32;
        let nanos = match r.below(3) {
            0 => (r.next() % 1_000_000_000) as u32,
            1 => (r.below(2000) * 500_000 % 1_000_000_000) as u32,
            _ => (r.below(1000) * 1_000_000 + 499_999 + r.below(3)) as u32,
        };
        let float = seconds as f64 + nanos as f64 / 1e9;
        let want = format!("{float:.3}");
        let mut out = [7u8; 14];
        let n = sys::time_text(&mut out, seconds, nanos);
        hit!("W10", "a time alone");
        // rule W11: the written time in nanoseconds, off by at most half a thousandth of a second
        let written: i128 = want.replace('.', "").parse::<i128>().unwrap() * 1_000_000;
        let off = (written - (seconds as i128 * 1_000_000_000 + nanos as i128)).abs();
        hit_if!(nanos % 1_000_000 == 0, "W11", "whole milliseconds", "a part of a millisecond");
        expect(off <= 500_000 && (nanos % 1_000_000 != 0 || off == 0), || format!("{seconds}.{nanos:09} is written as {want}"))?;
        expect(&out[..n] == want.as_bytes() && out[n..].iter().all(|b| *b == 7), || {
            format!("the time {seconds}.{nanos:09}: wanted {want}")
        })
    }

    fn sheet(&mut self, r: &mut Random) -> Compared {
        self.tally.sheets += 1;
        let n = if r.one(200) { 4090 + r.index(12) } else { r.index(6) };
        let small = r.one(2);
        let mut list: Vec<sys::Counts> = (0..n).map(|_| counts(r, small)).collect();
        let sum = |f: &dyn Fn(&sys::Counts) -> u64| list.iter().map(|c| f(c) as u128).sum::<u128>();
        let sums = [
            sum(&|c| c.tests),
            sum(&|c| c.failures),
            sum(&|c| c.errors),
            sum(&|c| c.skipped),
            sum(&|c| if c.presence { c.disabled } else { 0 }),
        ];
        let has = list.iter().any(|c| c.presence);
        let number = if n > 4096 {
            11
        } else if sums.iter().any(|s| *s > u64::MAX as u128) {
            17
        } else {
            0
        };
        let passed = sums[0].saturating_sub(sums[1] + sums[2] + sums[3]);
        hit_if!(n > 4096, "C4", "too many reports", "not too many");
        hit_if!(number == 17, "C5", "a sum past the limit", "sums within the limits");
        hit_if!(has, "C5", "disabled in one", "disabled in none");
        let got = sys::release_sheet(&list);
        let zero = (got.sheet.passed, words(&got.sheet.sums)) == (0, ([0; 4], None));
        let same = || {
            hit_if!(sums[1] + sums[2] + sums[3] > sums[0], "C6", "the three exceed tests", "the three don't exceed tests");
            let want: [u64; 4] = std::array::from_fn(|i| sums[i] as u64);
            got.sheet.passed as u128 == passed && words(&got.sheet.sums) == (want, has.then_some(sums[4] as u64))
        };
        expect(got.refusal.number == number && if number == 0 { same() } else { zero }, || format!("the sheet of {n} reports"))?;
        r.shuffle(&mut list);
        hit!("C7", "another order");
        let again = sys::release_sheet(&list);
        let sheet = |s: &sys::Sheet| (s.passed, words(&s.sums));
        expect((again.refusal.number, sheet(&again.sheet)) == (number, sheet(&got.sheet)), || "the sheet in another order".into())?;
        let disabled = if has { sums[4].to_string() } else { "-".into() };
        let want = format!(
            "(tests {})\n(failures {})\n(errors {})\n(skipped {})\n(disabled {disabled})\n(passed {passed} {})\n",
            sums[0], sums[1], sums[2], sums[3], sums[0]
        );
        let length = if number == 0 && r.one(3) { r.index(want.len()) } else { want.len() + r.index(4) };
        let mut out = vec![7u8; length];
        let got = sys::print_sheet(&list, &mut out);
        let number = if number == 0 && length < want.len() { 16 } else { number };
        hit!("C8", "a printed sheet");
        hit_if!(number == 0, "C9", "no refusal", "a refusal");
        let clear = |out: &[u8]| out.iter().all(|b| *b == 0);
        let good = if number == 0 {
            got.length == want.len() && out.starts_with(want.as_bytes()) && clear(&out[want.len()..])
        } else {
            got.length == 0 && clear(&out)
        };
        expect(got.refusal.number == number && good, || format!("the printed sheet of {n} reports"))
    }

    fn order(&mut self, r: &mut Random) -> Compared {
        self.tally.orders += 1;
        let cases = match r.below(40) {
            0 => 4090 + r.below(12),
            1 => r.next(),
            2..=6 => 0,
            _ => r.below(12),
        };
        let mut left = cases;
        let mut kinds = [0u64; 4];
        for kind in &mut kinds {
            *kind = if r.one(20) { count(r) } else { r.below(left.min(4096) + 1) };
            left = left.saturating_sub(*kind);
        }
        let stated: u128 = kinds.iter().map(|k| *k as u128).sum();
        let number = if cases > 4096 {
            23
        } else if stated > cases as u128 {
            24
        } else {
            0
        };
        let [failures, errors, skipped, flaky] = kinds;
        hit_if!(cases > 4096, "O1", "more than 4,096 cases", "not too many cases");
        hit_if!(number == 24, "O2", "the kinds exceed the cases", "they don't");
        if number != 0 {
            let (mut e, mut a, mut b) = (vec![7u32; r.index(50)], vec![7u32; r.index(50)], vec![7u8; r.index(50)]);
            let got = sys::rehearse(cases, failures, errors, skipped, flaky, &mut e, &mut a, &mut b);
            hit!("F11", "23 or 24");
            let clear = e.iter().chain(&a).all(|w| *w == 0) && b.iter().all(|b| *b == 0);
            return expect(Refused::late(number, number).is(&got.refusal) && clear, || {
                format!("an order of {cases}, {kinds:?}: wanted {number}")
            });
        }
        let report = ordered(cases, kinds);
        let (want, _) = written(&report, false);
        let (n, m, k) = (5 * want.events.len(), 5 * want.attributes.len(), want.source.len());
        let (e, a, b) = match r.below(6) {
            0 => (n - 1, m, k),
            1 => (n, m - 1, k),
            2 => (n, m, k - 1),
            3 => (n + 7, m + 7, k + 7),
            _ => (n, m, k),
        };
        let (mut e, mut a, mut b) = (vec![7u32; e], vec![7u32; a], vec![7u8; b]);
        let got = sys::rehearse(cases, failures, errors, skipped, flaky, &mut e, &mut a, &mut b);
        let fits = e.len() >= n && a.len() >= m && b.len() >= k;
        hit_if!(fits, "O7", "areas suffice", "areas don't suffice");
        if !fits {
            let clear = e.iter().chain(&a).all(|w| *w == 0) && b.iter().all(|b| *b == 0);
            return expect(Refused::late(16, 21).is(&got.refusal) && clear, || "an order in areas that are too short".into());
        }
        hit!("O3", "one suite");
        hit!("O4", "names in order");
        hit!("O5", "statuses");
        hit_if!(cases == 0, "O6", "no cases", "cases");
        let same = e[..n] == *want.events.as_flattened() && a[..m] == *want.attributes.as_flattened() && b[..k] == want.source[..];
        let clear = e[n..].iter().chain(&a[m..]).all(|w| *w == 0) && b[k..].iter().all(|b| *b == 0);
        expect(got.refusal.number == 0 && same && clear, || format!("the table of an order of {cases}, {kinds:?}"))?;
        let read = reference::read(&Input::new(want), Areas::limits(), self.changes).result.map_err(|r| r.shown())?;
        hit!("O8", "read again");
        expect(listing(&read.report) == listing(&report), || format!("an order of {cases}, {kinds:?} read again"))
    }
}

fn ordered(cases: u64, [failures, errors, skipped, flaky]: [u64; 4]) -> Report {
    let mut suite = TestSuite::new("rehearsal");
    for i in 0..cases {
        let status = if i < failures {
            TestCaseStatus::non_success(NonSuccessKind::Failure)
        } else if i < failures + errors {
            TestCaseStatus::non_success(NonSuccessKind::Error)
        } else if i < failures + errors + skipped {
            TestCaseStatus::skipped()
        } else {
            let mut status = TestCaseStatus::success();
            if i < failures + errors + skipped + flaky {
                status.add_rerun(TestRerun::new(NonSuccessKind::Failure));
            }
            status
        };
        suite.add_test_case(TestCase::new(format!("case{i}"), status));
    }
    let mut report = Report::new("rehearsal");
    report.add_test_suite(suite);
    report
}
