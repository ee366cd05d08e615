//! Standard output, a file in its place, and standard error.

use crate::closed;
use std::ffi::OsStr;
use std::fs::File;
use std::io::{self, ErrorKind, IsTerminal, Write};
use std::path::{Path, PathBuf};

/// Where results go: standard output, or the file that -o names, which is made when there is something to put.
pub struct Out {
    to: Option<PathBuf>,
    file: Option<File>,
}

/// Output failed; what is to be told of it, if anything.
pub struct Failed(pub Option<String>);

impl Out {
    pub fn new(to: Option<PathBuf>) -> Self {
        Out { to: to.filter(|file| file.as_os_str() != OsStr::new("-")), file: None }
    }

    /// The file that -o names.
    pub fn named(&self) -> Option<&Path> {
        self.to.as_deref()
    }

    pub fn is_terminal(&self) -> bool {
        self.to.is_none() && io::stdout().is_terminal()
    }

    /// Text: on a terminal without what could change it.
    pub fn put_text(&mut self, text: &str) -> Result<(), Failed> {
        match self.is_terminal() {
            true => self.put(escaped(text).as_bytes()),
            false => self.put(text.as_bytes()),
        }
    }

    pub fn put(&mut self, bytes: &[u8]) -> Result<(), Failed> {
        let Some(to) = &self.to else {
            return to_standard(bytes);
        };
        let failed = |e: io::Error| Failed(Some(format!("{}: {e}", to.display())));
        let file = match self.file.take() {
            Some(file) => file,
            None => File::create(to).map_err(failed)?,
        };
        self.file.insert(file).write_all(bytes).map_err(failed)
    }
}

fn to_standard(bytes: &[u8]) -> Result<(), Failed> {
    if !closed::was_open() {
        return Err(Failed(Some("standard output is closed".to_owned())));
    }
    let mut out = io::stdout().lock();
    out.write_all(bytes).and_then(|()| out.flush()).map_err(|e| match e.kind() {
        // the reader has gone, and who reads standard error may not want to know
        ErrorKind::BrokenPipe => Failed(None),
        _ => Failed(Some(format!("standard output: {e}"))),
    })
}

/// A line on standard error.
pub fn say(what: &str) {
    let line = match io::stderr().is_terminal() {
        true => escaped(what),
        false => what.to_owned(),
    };
    // nothing is left to do where standard error is closed
    let _ = writeln!(io::stderr(), "kerzhoma: {line}");
}

/// Control characters, and marks that turn the direction of writing.
pub fn is_control(c: char) -> bool {
    c.is_control()
        || matches!(c, '\u{61c}' | '\u{200e}' | '\u{200f}' | '\u{2028}'..='\u{202e}' | '\u{2066}'..='\u{2069}' | '\u{feff}')
}

fn escaped(text: &str) -> String {
    let mut out = String::with_capacity(text.len());
    for c in text.chars() {
        match is_control(c) && c != '\n' {
            true => out.extend(c.escape_unicode()),
            false => out.push(c),
        }
    }
    out
}

#[cfg(test)]
mod tests {
    #[test]
    fn what_could_change_a_terminal() {
        let name = "a\u{1b}[1m\u{9b}2J\u{202e}\t\u{7f}\u{e9} \u{1f600}\n";
        assert_eq!(super::escaped(name), "a\\u{1b}[1m\\u{9b}2J\\u{202e}\\u{9}\\u{7f}\u{e9} \u{1f600}\n");
    }
}
