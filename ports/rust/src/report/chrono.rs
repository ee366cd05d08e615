//! What reports use of the crate chrono, under its names: moments with an offset.
//!
//! A moment has a year from 0 to 9999, seconds up to 59 and an offset of whole minutes, as in a report; chrono has more. Two moments are
//! equal where they are the same instant, whatever their offsets, as chrono has it.
//!
//! A program that has chrono itself hands a moment over as text, or without its offset:
//! `t.to_rfc3339().parse::<DateTime<FixedOffset>>()`, `set_timestamp(SystemTime::from(t))`.
#![forbid(unsafe_code)]

use crate::Timestamp;
use std::marker::PhantomData;
use std::time::{Duration, SystemTime, UNIX_EPOCH};
use std::{cmp::Ordering, error, fmt, hash, str::FromStr};

/// An offset from UTC, in whole minutes and less than a day.
#[derive(Clone, Copy, Debug, PartialEq, Eq, Hash)]
pub struct FixedOffset {
    minutes: i16,
}

impl FixedOffset {
    /// So many seconds east of UTC, where these are whole minutes and less than a day.
    pub fn east_opt(seconds: i32) -> Option<Self> {
        let whole = seconds % 60 == 0 && seconds.abs() < 86_400;
        whole.then_some(FixedOffset { minutes: (seconds / 60) as i16 })
    }

    /// So many seconds west of UTC, where these are whole minutes and less than a day.
    pub fn west_opt(seconds: i32) -> Option<Self> {
        Self::east_opt(seconds.checked_neg()?)
    }

    /// The seconds east of UTC.
    pub fn local_minus_utc(&self) -> i32 {
        i32::from(self.minutes) * 60
    }

    /// The seconds west of UTC.
    pub fn utc_minus_local(&self) -> i32 {
        -self.local_minus_utc()
    }
}

/// The zone of moments without an offset.
#[derive(Clone, Copy, Debug, PartialEq, Eq, Hash)]
pub struct Utc;

impl Utc {
    /// The moment that the system's clock shows.
    pub fn now() -> DateTime<Utc> {
        SystemTime::now().into()
    }
}

/// A moment: date, time of day and offset.
///
/// ```
/// use kerzhoma::report::chrono::{DateTime, FixedOffset};
///
/// let a = DateTime::parse_from_rfc3339("2021-04-01T10:52:37-08:00")?;
/// let b = DateTime::parse_from_rfc2822("Thu, 1 Apr 2021 18:52:37 +0000")?;
/// assert_eq!(a, b);
/// assert_eq!(a.timestamp(), 1_617_303_157);
/// assert_eq!(b.with_timezone(&FixedOffset::west_opt(8 * 3600).unwrap()).to_rfc3339(), "2021-04-01T10:52:37-08:00");
/// # Ok::<(), kerzhoma::report::chrono::ParseError>(())
/// ```
#[derive(Clone, Copy)]
pub struct DateTime<Tz> {
    at: Timestamp,
    zone: PhantomData<Tz>,
}

/// A text is no moment.
#[derive(Clone, Copy, Debug, PartialEq, Eq)]
pub struct ParseError(());

impl fmt::Display for ParseError {
    fn fmt(&self, f: &mut fmt::Formatter<'_>) -> fmt::Result {
        f.write_str("not a date and time with an offset")
    }
}

impl error::Error for ParseError {}

const DAY: i64 = 86_400;
// days from 0000-03-01 to 1970-01-01, and of 400 years
const TO_EPOCH: i64 = 719_468;
const ERA: i64 = 146_097;

fn days_of(year: i64, month: i64, day: i64) -> i64 {
    let years = if month <= 2 { year - 1 } else { year };
    let (era, in_era) = (years.div_euclid(400), years.rem_euclid(400));
    let in_year = (153 * ((month + 9) % 12) + 2) / 5 + day - 1;
    era * ERA + in_era * 365 + in_era / 4 - in_era / 100 + in_year - TO_EPOCH
}

fn date_of(days: i64) -> (i64, i64, i64) {
    let days = days + TO_EPOCH;
    let (era, in_era) = (days.div_euclid(ERA), days.rem_euclid(ERA));
    let years = (in_era - in_era / 1460 + in_era / 36_524 - in_era / 146_096) / 365;
    let in_year = in_era - (365 * years + years / 4 - years / 100);
    let shifted = (5 * in_year + 2) / 153;
    let (month, day) = (if shifted < 10 { shifted + 3 } else { shifted - 9 }, in_year - (153 * shifted + 2) / 5 + 1);
    (era * 400 + years + i64::from(month <= 2), month, day)
}

// The moment, if its year is 0 to 9999.
fn at(seconds: i64, nanos: u32, offset_minutes: i16) -> Option<Timestamp> {
    let local = seconds.checked_add(i64::from(offset_minutes) * 60)?;
    let ((year, month, day), in_day) = (date_of(local.div_euclid(DAY)), local.rem_euclid(DAY));
    let moment = Timestamp {
        year: u16::try_from(year).ok()?,
        month: month as u8,
        day: day as u8,
        hour: (in_day / 3600) as u8,
        minute: (in_day / 60 % 60) as u8,
        second: (in_day % 60) as u8,
        nanos,
        offset_minutes,
    };
    is_good(&moment).then_some(moment)
}

fn is_good(t: &Timestamp) -> bool {
    let days = days_of(i64::from(t.year), i64::from(t.month), i64::from(t.day));
    let date = (i64::from(t.year), i64::from(t.month), i64::from(t.day));
    t.year <= 9999
        && (1..=12).contains(&t.month)
        && date_of(days) == date
        && t.hour < 24
        && t.minute < 60
        && t.second < 60
        && t.nanos < 1_000_000_000
        && t.offset_minutes.unsigned_abs() < 1440
}

impl<Tz> DateTime<Tz> {
    pub(super) fn of(at: Timestamp) -> Self {
        DateTime { at, zone: PhantomData }
    }

    pub(super) fn told(&self) -> Timestamp {
        self.at
    }

    /// The seconds since 1970-01-01T00:00:00Z.
    pub fn timestamp(&self) -> i64 {
        let t = &self.at;
        let days = days_of(i64::from(t.year), i64::from(t.month), i64::from(t.day));
        let in_day = i64::from(t.hour) * 3600 + i64::from(t.minute) * 60 + i64::from(t.second);
        days * DAY + in_day - i64::from(t.offset_minutes) * 60
    }

    /// The milliseconds since 1970-01-01T00:00:00Z.
    pub fn timestamp_millis(&self) -> i64 {
        self.timestamp() * 1000 + i64::from(self.at.nanos / 1_000_000)
    }

    /// The nanoseconds behind the last whole second.
    pub fn timestamp_subsec_nanos(&self) -> u32 {
        self.at.nanos
    }

    /// The offset.
    pub fn offset(&self) -> FixedOffset {
        FixedOffset { minutes: self.at.offset_minutes }
    }

    /// The same moment, with its offset kept.
    pub fn fixed_offset(&self) -> DateTime<FixedOffset> {
        DateTime::of(self.at)
    }

    /// The same instant with another offset; where that would be before year 0 or behind year 9999, the moment as it is.
    pub fn with_timezone(&self, zone: &FixedOffset) -> DateTime<FixedOffset> {
        DateTime::of(at(self.timestamp(), self.at.nanos, zone.minutes).unwrap_or(self.at))
    }

    /// The same instant in UTC; where that would be before year 0 or behind year 9999, the moment as it is.
    pub fn to_utc(&self) -> DateTime<Utc> {
        DateTime::of(at(self.timestamp(), self.at.nanos, 0).unwrap_or(self.at))
    }

    fn put(&self, f: &mut fmt::Formatter<'_>, between: &str, before: &str) -> fmt::Result {
        let Timestamp { year, month, day, hour, minute, second, nanos, offset_minutes } = self.at;
        write!(f, "{year:04}-{month:02}-{day:02}{between}{hour:02}:{minute:02}:{second:02}")?;
        match nanos {
            0 => {}
            n if n % 1_000_000 == 0 => write!(f, ".{:03}", n / 1_000_000)?,
            n if n % 1_000 == 0 => write!(f, ".{:06}", n / 1_000)?,
            n => write!(f, ".{n:09}")?,
        }
        let (sign, away) = (if offset_minutes < 0 { '-' } else { '+' }, offset_minutes.unsigned_abs());
        write!(f, "{before}{sign}{:02}:{:02}", away / 60, away % 60)
    }

    /// The moment by RFC 3339, with no, three, six or nine digits of the fraction.
    pub fn to_rfc3339(&self) -> String {
        format!("{self:?}")
    }
}

impl DateTime<Utc> {
    /// The moment so many seconds since 1970-01-01T00:00:00Z, and nanoseconds behind them, if its year is 0 to 9999.
    pub fn from_timestamp(seconds: i64, nanos: u32) -> Option<Self> {
        at(seconds, nanos, 0).map(DateTime::of)
    }
}

fn digits(part: Option<&[u8]>) -> Option<u32> {
    let part = part.filter(|p| !p.is_empty() && p.len() <= 9)?;
    part.iter().try_fold(0, |n, c| c.is_ascii_digit().then(|| n * 10 + u32::from(c - b'0')))
}

// `+08:00` or, without the colon, `+0800`; `Z` where that is allowed.
fn offset_of(b: &[u8], colon: bool) -> Option<i16> {
    if colon && matches!(b, b"Z" | b"z") {
        return Some(0);
    }
    let minutes = if colon { 4 } else { 3 };
    if b.len() != minutes + 2 || (colon && b[3] != b':') {
        return None;
    }
    let (hours, minutes) = (digits(b.get(1..3))?, digits(b.get(minutes..))?);
    let away = i16::try_from(hours * 60 + minutes).ok().filter(|_| hours < 24 && minutes < 60)?;
    match b[0] {
        b'+' => Some(away),
        b'-' => Some(-away),
        _ => None,
    }
}

fn rfc3339(b: &[u8]) -> Option<Timestamp> {
    let number = |from: usize, n: usize| digits(b.get(from..from + n));
    let is = |at: usize, set: &[u8]| b.get(at).is_some_and(|c| set.contains(c));
    if !(is(4, b"-") && is(7, b"-") && is(10, b"Tt") && is(13, b":") && is(16, b":")) {
        return None;
    }
    let mut end = 19;
    let mut nanos = 0;
    if is(end, b".") {
        let n = b[end + 1..].iter().take_while(|c| c.is_ascii_digit()).count();
        nanos = number(end + 1, n)? * 10u32.pow(9 - n as u32);
        end += 1 + n;
    }
    let small = |from: usize| number(from, 2).map(|n| n as u8);
    let moment = Timestamp {
        year: number(0, 4)? as u16,
        month: small(5)?,
        day: small(8)?,
        hour: small(11)?,
        minute: small(14)?,
        second: small(17)?,
        nanos,
        offset_minutes: offset_of(b.get(end..)?, true)?,
    };
    is_good(&moment).then_some(moment)
}

const MONTHS: [&str; 12] = ["jan", "feb", "mar", "apr", "may", "jun", "jul", "aug", "sep", "oct", "nov", "dec"];
const DAYS: [&str; 7] = ["thu", "fri", "sat", "sun", "mon", "tue", "wed"];

fn place_in(names: &[&str], word: &str) -> Option<usize> {
    names.iter().position(|n| n.eq_ignore_ascii_case(word))
}

// `Thu, 1 Apr 2021 10:52:37 -0800`; the day of the week, where it is there, is that of the date.
fn rfc2822(s: &str) -> Option<Timestamp> {
    let (week_day, rest) = match s.split_once(',') {
        Some((name, rest)) => (Some(place_in(&DAYS, name.trim())?), rest),
        None => (None, s),
    };
    let words: Vec<&str> = rest.split_ascii_whitespace().collect();
    let [day, month, year, time, zone] = words.as_slice() else { return None };
    let small = |s: &str| (s.len() <= 2).then(|| digits(Some(s.as_bytes()))).flatten().map(|n| n as u8);
    let mut parts = time.split(':');
    let (hour, minute) = (small(parts.next()?)?, small(parts.next()?)?);
    let second = parts.next().map_or(Some(0), small)?;
    if parts.next().is_some() || year.len() != 4 {
        return None;
    }
    let offset_minutes = match *zone {
        "GMT" | "UT" | "Z" => 0,
        zone => offset_of(zone.as_bytes(), false)?,
    };
    let year = digits(Some(year.as_bytes()))? as u16;
    let month = place_in(&MONTHS, month)? as u8 + 1;
    let moment = Timestamp { year, month, day: small(day)?, hour, minute, second, nanos: 0, offset_minutes };
    let days = days_of(i64::from(moment.year), i64::from(moment.month), i64::from(moment.day));
    let fits = week_day.is_none_or(|w| days.rem_euclid(7) == w as i64);
    (fits && is_good(&moment)).then_some(moment)
}

impl DateTime<FixedOffset> {
    /// A moment as reports have it: RFC 3339, at most nine digits of the fraction, no second 60.
    ///
    /// # Errors
    ///
    /// Where the text has another form, or names no date.
    pub fn parse_from_rfc3339(s: &str) -> Result<Self, ParseError> {
        rfc3339(s.as_bytes()).map(DateTime::of).ok_or(ParseError(()))
    }

    /// A moment as mails have it: `Thu, 1 Apr 2021 10:52:37 -0800`.
    ///
    /// # Errors
    ///
    /// Where the text has another form, or names no date.
    pub fn parse_from_rfc2822(s: &str) -> Result<Self, ParseError> {
        rfc2822(s).map(DateTime::of).ok_or(ParseError(()))
    }
}

impl FromStr for DateTime<FixedOffset> {
    type Err = ParseError;

    fn from_str(s: &str) -> Result<Self, ParseError> {
        Self::parse_from_rfc3339(s)
    }
}

impl From<DateTime<Utc>> for DateTime<FixedOffset> {
    fn from(t: DateTime<Utc>) -> Self {
        t.fixed_offset()
    }
}

impl From<DateTime<FixedOffset>> for DateTime<Utc> {
    fn from(t: DateTime<FixedOffset>) -> Self {
        t.to_utc()
    }
}

// Before year 0 and behind year 9999 it is the first or last moment that there is.
impl From<SystemTime> for DateTime<Utc> {
    fn from(t: SystemTime) -> Self {
        let (seconds, nanos) = match t.duration_since(UNIX_EPOCH) {
            Ok(behind) => (i64::try_from(behind.as_secs()).unwrap_or(i64::MAX), behind.subsec_nanos()),
            Err(e) => {
                let before = e.duration();
                let seconds = i64::try_from(before.as_secs()).unwrap_or(i64::MAX);
                match before.subsec_nanos() {
                    0 => (-seconds, 0),
                    n => (-seconds - 1, 1_000_000_000 - n),
                }
            }
        };
        let seconds = seconds.clamp(days_of(0, 1, 1) * DAY, days_of(10_000, 1, 1) * DAY - 1);
        DateTime::of(at(seconds, nanos, 0).unwrap_or(Timestamp {
            year: 1970,
            month: 1,
            day: 1,
            hour: 0,
            minute: 0,
            second: 0,
            nanos: 0,
            offset_minutes: 0,
        }))
    }
}

impl From<SystemTime> for DateTime<FixedOffset> {
    fn from(t: SystemTime) -> Self {
        DateTime::<Utc>::from(t).fixed_offset()
    }
}

impl<Tz> From<DateTime<Tz>> for SystemTime {
    fn from(t: DateTime<Tz>) -> Self {
        let seconds = t.timestamp();
        let away = Duration::from_secs(seconds.unsigned_abs());
        let whole = if seconds < 0 { UNIX_EPOCH - away } else { UNIX_EPOCH + away };
        whole + Duration::from_nanos(u64::from(t.at.nanos))
    }
}

impl<Tz> From<DateTime<Tz>> for Timestamp {
    fn from(t: DateTime<Tz>) -> Self {
        t.at
    }
}

impl TryFrom<Timestamp> for DateTime<FixedOffset> {
    type Error = ParseError;

    fn try_from(t: Timestamp) -> Result<Self, ParseError> {
        is_good(&t).then_some(DateTime::of(t)).ok_or(ParseError(()))
    }
}

impl<Tz, Other> PartialEq<DateTime<Other>> for DateTime<Tz> {
    fn eq(&self, other: &DateTime<Other>) -> bool {
        self.timestamp() == other.timestamp() && self.at.nanos == other.at.nanos
    }
}

impl<Tz> Eq for DateTime<Tz> {}

impl<Tz, Other> PartialOrd<DateTime<Other>> for DateTime<Tz> {
    fn partial_cmp(&self, other: &DateTime<Other>) -> Option<Ordering> {
        Some((self.timestamp(), self.at.nanos).cmp(&(other.timestamp(), other.at.nanos)))
    }
}

impl<Tz> Ord for DateTime<Tz> {
    fn cmp(&self, other: &Self) -> Ordering {
        (self.timestamp(), self.at.nanos).cmp(&(other.timestamp(), other.at.nanos))
    }
}

impl<Tz> hash::Hash for DateTime<Tz> {
    fn hash<H: hash::Hasher>(&self, state: &mut H) {
        (self.timestamp(), self.at.nanos).hash(state);
    }
}

impl<Tz> fmt::Debug for DateTime<Tz> {
    fn fmt(&self, f: &mut fmt::Formatter<'_>) -> fmt::Result {
        self.put(f, "T", "")
    }
}

impl<Tz> fmt::Display for DateTime<Tz> {
    fn fmt(&self, f: &mut fmt::Formatter<'_>) -> fmt::Result {
        self.put(f, " ", " ")
    }
}
