//! Stand-in for chrono: a timestamp as it is written, with its offset. Reading takes what rules V5 to V8 take and nothing else: RFC 3339
//! with at most nine fraction digits and no second 60. The forms that chrono takes besides are refused here (docs/DIFFERENCES.md).
use std::{fmt, marker::PhantomData};

/// The one kind of zone that there is.
#[derive(Clone, Copy, Debug, PartialEq, Eq)]
pub struct FixedOffset;

#[derive(Clone, Copy, Debug, PartialEq, Eq)]
pub struct DateTime<Tz> {
    pub year: u32,
    pub month: u32,
    pub day: u32,
    pub hour: u32,
    pub minute: u32,
    pub second: u32,
    pub nanos: u32,
    /// Minutes east of UTC.
    pub offset: i32,
    zone: PhantomData<Tz>,
}

#[derive(Clone, Copy, Debug, PartialEq, Eq)]
pub struct ParseError;

pub fn is_leap(year: u32) -> bool {
    (year % 4 == 0 && year % 100 != 0) || year % 400 == 0
}

pub fn month_length(year: u32, month: u32) -> u32 {
    match month {
        2 => 28 + is_leap(year) as u32,
        4 | 6 | 9 | 11 => 30,
        1..=12 => 31,
        _ => 0,
    }
}

fn digits(part: Option<&[u8]>) -> Option<u32> {
    part?.iter().try_fold(0, |n, c| c.is_ascii_digit().then(|| n * 10 + (c - b'0') as u32))
}

impl DateTime<FixedOffset> {
    #[allow(clippy::too_many_arguments)]
    pub fn new(year: u32, month: u32, day: u32, hour: u32, minute: u32, second: u32, nanos: u32, offset: i32) -> Option<Self> {
        let good = year <= 9999 && (1..=month_length(year, month)).contains(&day) && hour < 24 && minute < 60 && second < 60;
        let good = good && nanos < 1_000_000_000 && offset.abs() < 24 * 60;
        good.then_some(DateTime { year, month, day, hour, minute, second, nanos, offset, zone: PhantomData })
    }

    pub fn parse_from_rfc3339(s: &str) -> Result<Self, ParseError> {
        Self::from_form(s.as_bytes()).ok_or(ParseError)
    }

    fn from_form(b: &[u8]) -> Option<Self> {
        let number = |from: usize, n: usize| digits(b.get(from..from + n));
        let is = |at: usize, set: &[u8]| b.get(at).is_some_and(|c| set.contains(c));
        if !(is(4, b"-") && is(7, b"-") && is(10, b"Tt") && is(13, b":") && is(16, b":")) {
            return None;
        }
        let mut at = 19;
        let mut nanos = 0;
        if is(at, b".") {
            let n = b[at + 1..].iter().take_while(|c| c.is_ascii_digit()).count();
            if n == 0 || n > 9 {
                return None;
            }
            nanos = number(at + 1, n)? * 10u32.pow(9 - n as u32);
            at += 1 + n;
        }
        let offset = if is(at, b"Zz") {
            at += 1;
            0
        } else {
            if !(is(at, b"+-") && is(at + 3, b":")) {
                return None;
            }
            let (hours, minutes) = (number(at + 1, 2)?, number(at + 4, 2)?);
            if hours > 23 || minutes > 59 {
                return None;
            }
            let east = (hours * 60 + minutes) as i32;
            let west = b[at] == b'-';
            at += 6;
            if west {
                -east
            } else {
                east
            }
        };
        if at != b.len() {
            return None;
        }
        Self::new(number(0, 4)?, number(5, 2)?, number(8, 2)?, number(11, 2)?, number(14, 2)?, number(17, 2)?, nanos, offset)
    }

    /// The specifiers of serialize.rs: `%Y`, `%m`, `%d`, `%H`, `%M`, `%S`, `%.3f` and `%:z`.
    pub fn format<'a>(&self, form: &'a str) -> Formatted<'a> {
        Formatted { moment: *self, form }
    }
}

pub struct Formatted<'a> {
    moment: DateTime<FixedOffset>,
    form: &'a str,
}

impl fmt::Display for Formatted<'_> {
    fn fmt(&self, f: &mut fmt::Formatter<'_>) -> fmt::Result {
        let m = &self.moment;
        let mut rest = self.form;
        while let Some(c) = rest.chars().next() {
            let (taken, done) = match rest {
                r if r.starts_with("%Y") => (2, write!(f, "{:04}", m.year)),
                r if r.starts_with("%m") => (2, write!(f, "{:02}", m.month)),
                r if r.starts_with("%d") => (2, write!(f, "{:02}", m.day)),
                r if r.starts_with("%H") => (2, write!(f, "{:02}", m.hour)),
                r if r.starts_with("%M") => (2, write!(f, "{:02}", m.minute)),
                r if r.starts_with("%S") => (2, write!(f, "{:02}", m.second)),
                r if r.starts_with("%.3f") => (4, write!(f, ".{:03}", m.nanos / 1_000_000)),
                r if r.starts_with("%:z") => {
                    let sign = if m.offset < 0 { '-' } else { '+' };
                    (3, write!(f, "{sign}{:02}:{:02}", m.offset.abs() / 60, m.offset.abs() % 60))
                }
                r if r.starts_with('%') => panic!("no such specifier: {r}"),
                _ => (c.len_utf8(), write!(f, "{c}")),
            };
            done?;
            rest = &rest[taken..];
        }
        Ok(())
    }
}
