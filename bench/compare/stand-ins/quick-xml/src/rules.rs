//! Rules of docs/RULES.md that stand in the place of quick_xml's own: references (X3, X4), the filter (X8), the form of times (V3, V4).
use cover::{hit, hit_if};

pub fn predefined(name: &str) -> Option<&'static str> {
    match name {
        "lt" => Some("<"),
        "gt" => Some(">"),
        "amp" => Some("&"),
        "apos" => Some("'"),
        "quot" => Some("\""),
        _ => None,
    }
}

/// XML 1.0, production [2].
pub fn is_xml_char(c: u32) -> bool {
    matches!(c, 0x9 | 0xA | 0xD | 0x20..=0xD7FF | 0xE000..=0xFFFD | 0x10000..=0x10FFFF)
}

/// XML 1.0, production [66], between `&` and `;`.
pub fn char_ref(name: &str) -> Option<char> {
    let digits = name.strip_prefix('#')?;
    let (digits, radix) = match digits.strip_prefix('x') {
        Some(hex) => (hex, 16),
        None => (digits, 10),
    };
    if digits.is_empty() {
        return None;
    }
    let mut n: u32 = 0;
    for c in digits.chars() {
        n = n.saturating_mul(radix).saturating_add(c.to_digit(radix)?).min(0x110000);
    }
    if !is_xml_char(n) {
        hit!("X4", "a number that is no XML Char");
        return None;
    }
    hit_if!(radix == 16, "X4", "a hexadecimal number", "a decimal number");
    if digits.len() > 1 && digits.starts_with('0') {
        hit!("X4", "leading zeros");
    }
    char::from_u32(n)
}

/// All references of a text decoded; none where one is bad.
pub fn decoded(s: &str) -> Option<String> {
    let mut out = String::with_capacity(s.len());
    let mut rest = s;
    while let Some(i) = rest.find('&') {
        out.push_str(&rest[..i]);
        let behind = &rest[i + 1..];
        let Some(j) = behind.find(';') else {
            hit!("X5", "no semicolon");
            return None;
        };
        let name = &behind[..j];
        match predefined(name) {
            Some(t) => {
                hit!("X3", "one of the five names");
                out.push_str(t)
            }
            None => {
                if name.starts_with("#X") {
                    hit!("X4", "#X");
                }
                if !name.starts_with('#') {
                    hit!("X3", "another name");
                }
                out.push(char_ref(name)?)
            }
        }
        rest = &behind[j + 1..];
    }
    out.push_str(rest);
    Some(out)
}

pub fn is_filtered(c: char) -> bool {
    matches!(c as u32, 0..=8 | 0xB | 0xC | 0xE..=0x1F)
}

pub fn filtered(s: &str) -> String {
    s.chars().filter(|&c| !is_filtered(c)).collect()
}

pub fn is_status_name(name: &[u8]) -> bool {
    status_index(name).is_some()
}

pub fn status_index(name: &[u8]) -> Option<usize> {
    let names: [&[u8]; 7] = [b"failure", b"error", b"skipped", b"flakyFailure", b"flakyError", b"rerunFailure", b"rerunError"];
    names.iter().position(|n| *n == name)
}

/// Rules V3 and V4.
pub fn is_time(s: &str) -> bool {
    let (whole, fraction) = s.split_once('.').unwrap_or((s, ""));
    let all_digits = |s: &str| s.bytes().all(|b| b.is_ascii_digit());
    if !all_digits(whole) || !all_digits(fraction) || fraction.len() > 9 || whole.len() + fraction.len() == 0 {
        hit!("V3", "not the form");
        return false;
    }
    let seconds = whole.bytes().fold(0u64, |n, b| (n * 10 + (b - b'0') as u64).min(8_388_608));
    hit_if!(seconds < 8_388_608, "V4", "under the limit", "8,388,608 seconds or more");
    if whole.is_empty() {
        hit!("V3", "no digit before the point");
    }
    if s.ends_with('.') {
        hit!("V3", "no digit behind the point");
    }
    if fraction.len() == 9 {
        hit!("V4", "nine fraction digits");
    }
    seconds < 8_388_608
}
