//! The stand-ins for chrono and uuid against the crates themselves: what both take is the same, read and written; what only the crate takes is
//! a form that docs/DIFFERENCES.md lists.
use chrono::{Datelike, Timelike};
use std::{collections::BTreeMap, process::exit};

struct Random(u64);

impl Random {
    fn below(&mut self, n: u64) -> u64 {
        self.0 ^= self.0 << 13;
        self.0 ^= self.0 >> 7;
        self.0 ^= self.0 << 17;
        (self.0 >> 8) % n
    }
    fn pick<T: Copy>(&mut self, list: &[T]) -> T {
        list[self.below(list.len() as u64) as usize]
    }
}

fn timestamp(r: &mut Random) -> String {
    let date = format!("{:04}-{:02}-{:02}", r.below(10_000), r.below(14), r.below(33));
    let mut s = format!("{date}{}{:02}:{:02}:{:02}", r.pick(&["T", "t", "T", " "]), r.below(25), r.below(61), r.below(61));
    let digits = r.below(12);
    if digits > 1 {
        s.push('.');
        (1..digits).for_each(|_| s.push((b'0' + r.below(10) as u8) as char));
    }
    match r.below(5) {
        0 => s.push('Z'),
        1 => s.push('z'),
        2 => {}
        _ => s += &format!("{}{:02}:{:02}", r.pick(&["+", "-"]), r.below(25), r.below(61)),
    }
    if r.below(8) == 0 {
        let at = r.below(s.len() as u64) as usize;
        s.insert(at, r.pick(b"0Z:-+ .9T\n") as char);
        if r.below(2) == 0 {
            s.remove(at + 1);
        }
    }
    s
}

/// Why chrono takes what rules V5 to V8 don't; none where it is no reason that docs/DIFFERENCES.md has.
fn reason(s: &str) -> Option<&'static str> {
    let digits = s.split_once('.').map_or(0, |p| p.1.bytes().take_while(u8::is_ascii_digit).count());
    match s.get(17..19) {
        Some("60") => Some("second 60"),
        _ if digits > 9 => Some("more than nine fraction digits"),
        _ => None,
    }
}

fn same_moment(s: &str, a: &chrono::DateTime<chrono::FixedOffset>, b: &our_chrono::DateTime<our_chrono::FixedOffset>) -> bool {
    let form = "%Y-%m-%dT%H:%M:%S%.3f%:z";
    let n = a.naive_local();
    let theirs = [n.year() as u32, n.month(), n.day(), n.hour(), n.minute(), n.second(), n.nanosecond()];
    let ours = [b.year, b.month, b.day, b.hour, b.minute, b.second, b.nanos];
    let same =
        theirs == ours && a.offset().local_minus_utc() == 60 * b.offset && a.format(form).to_string() == b.format(form).to_string();
    if !same {
        println!("{s} differs");
    }
    same
}

fn timestamps(r: &mut Random, count: u64) -> bool {
    let (mut taken, mut refused, mut listed, mut good) = (0, 0, BTreeMap::new(), true);
    for _ in 0..count {
        let s = timestamp(r);
        match (chrono::DateTime::parse_from_rfc3339(&s), our_chrono::DateTime::parse_from_rfc3339(&s)) {
            (Ok(a), Ok(b)) => {
                taken += 1;
                good &= same_moment(&s, &a, &b);
            }
            (Err(_), Err(_)) => refused += 1,
            (Ok(_), Err(_)) if reason(&s).is_some() => *listed.entry(reason(&s).unwrap()).or_insert(0) += 1,
            _ => {
                println!("{s:?} is taken by one of the two");
                good = false;
            }
        }
    }
    println!("timestamps: {taken} taken by both and equal, {refused} refused by both; taken by chrono alone: {listed:?}");
    good
}

fn uuids(r: &mut Random, count: u64) -> bool {
    let (mut taken, mut refused, mut good) = (0, 0, true);
    for _ in 0..count {
        let words = (r.below(1 << 32), r.below(65_536), r.below(65_536), r.below(65_536), r.below(1 << 48));
        let mut s = format!("{:08x}-{:04x}-{:04x}-{:04x}-{:012x}", words.0, words.1, words.2, words.3, words.4);
        if r.below(3) == 0 {
            s = s.to_uppercase();
        }
        if r.below(4) == 0 {
            let at = r.below(36) as usize;
            s.replace_range(at..at + 1, r.pick(&["g", "-", "0", ""]));
        }
        match (s.parse::<uuid::Uuid>(), s.parse::<our_uuid::Uuid>()) {
            (Ok(a), Ok(b)) if a.to_string() == b.to_string() && a.as_bytes() == b.as_bytes() => taken += 1,
            (Err(_), Err(_)) => refused += 1,
            _ => {
                println!("{s:?} differs");
                good = false;
            }
        }
    }
    println!("UUIDs: {taken} taken by both and equal, {refused} refused by both");
    good
}

fn main() {
    let count = std::env::args().nth(1).and_then(|n| n.parse().ok()).unwrap_or(2_000_000);
    let r = &mut Random(88172645463325252);
    let good = timestamps(r, count) & uuids(r, count / 4);
    exit(!good as i32)
}
