//! One JSON object a file.

use crate::out::is_control;
use kerzhoma::{Counts, Place};

pub fn string(text: &str) -> String {
    let mut out = String::from("\"");
    for c in text.chars() {
        match c {
            '"' | '\\' => out.extend(['\\', c]),
            c if is_control(c) => out += &format!("\\u{:04x}", c as u32),
            c => out.push(c),
        }
    }
    out + "\""
}

pub struct Object<'a> {
    pub file: &'a str,
    pub verdict: &'a str,
    pub number: Option<u32>,
    pub path: Option<&'a str>,
    pub place: Option<Place>,
    pub why: Option<&'a str>,
    /// Stated, and those of the cases.
    pub counts: Option<[Counts; 2]>,
}

impl Object<'_> {
    /// A line; what isn't there is null.
    pub fn line(&self) -> String {
        let text = |t: Option<&str>| t.map_or("null".to_owned(), string);
        let number = self.number.map_or("null".to_owned(), |n| n.to_string());
        let place = self
            .place
            .map_or("null".to_owned(), |p| format!("{{\"byte\":{},\"line\":{},\"column\":{}}}", p.byte, p.line, p.column));
        let counts = self
            .counts
            .map_or("null".to_owned(), |[stated, cases]| format!("{{\"stated\":{},\"cases\":{}}}", four(&stated), four(&cases)));
        format!(
            "{{\"file\":{},\"verdict\":{},\"number\":{number},\"path\":{},\"place\":{place},\"why\":{},\"counts\":{counts}}}\n",
            string(self.file),
            string(self.verdict),
            text(self.path),
            text(self.why)
        )
    }
}

fn four(c: &Counts) -> String {
    format!("{{\"tests\":{},\"failures\":{},\"errors\":{},\"skipped\":{}}}", c.tests, c.failures, c.errors, c.skipped)
}
