//! What was asked for, by the table of commands.

use crate::help;
use crate::table::{command, Choice, Command, Takes, OPTIONS};
use std::ffi::{OsStr, OsString};
use std::io::{self, IsTerminal};
use std::path::PathBuf;

pub struct Asked {
    pub command: &'static Command,
    /// Files, numbers or words, as the command takes them.
    pub words: Vec<OsString>,
    pub output: Option<PathBuf>,
    flags: Vec<&'static str>,
}

impl Asked {
    pub fn has(&self, long: &str) -> bool {
        self.flags.contains(&long)
    }
}

pub enum Parsed {
    Run(Asked),
    Say(String),
}

/// What is wrong, and how it would be right.
pub struct Misused {
    pub what: String,
    pub usage: String,
}

pub fn parse(arguments: &[OsString]) -> Result<Parsed, Misused> {
    let anything = || "kerzhoma COMMAND [OPTION..] [FILE..]; kerzhoma help lists the commands".to_owned();
    let Some((first, rest)) = arguments.split_first() else {
        return Err(Misused { what: "there is no command".to_owned(), usage: anything() });
    };
    match first.to_str() {
        Some("--version" | "-V") => return Ok(Parsed::Say(format!("kerzhoma {}\n", help::VERSION))),
        Some("--help" | "-h") => return Ok(Parsed::Say(help::overview())),
        _ => {}
    }
    let Some(command) = first.to_str().and_then(command) else {
        return Err(Misused { what: format!("there is no command {}", first.display()), usage: anything() });
    };
    let asked = given(command, rest).and_then(|asked| match asked.has("help") {
        true => Ok(asked),
        false => fitting(asked),
    });
    match asked {
        Ok(asked) if asked.has("help") => Ok(Parsed::Say(help::about(command))),
        Ok(asked) => Ok(Parsed::Run(asked)),
        Err(what) => Err(Misused { what, usage: command.usage() }),
    }
}

// Options, and words that are none.
fn given(command: &'static Command, arguments: &[OsString]) -> Result<Asked, String> {
    let mut asked = Asked { command, words: Vec::new(), output: None, flags: Vec::new() };
    let (mut rest, mut options) = (arguments.iter(), true);
    while let Some(a) = rest.next() {
        if options && a == "--" {
            options = false;
        } else if options && a != "-" && a.as_encoded_bytes().starts_with(b"-") {
            let (choice, value) = option(a)?;
            if !command.options.contains(&choice.long) {
                return Err(format!("--{} doesn't belong to {}", choice.long, command.name));
            }
            if choice.value.is_none() && value.is_some() {
                return Err(format!("--{} takes no value", choice.long));
            }
            if choice.value.is_some() {
                let value = value.or_else(|| rest.next().cloned()).ok_or(format!("--{} needs a file", choice.long))?;
                if asked.output.replace(PathBuf::from(value)).is_some() {
                    return Err(format!("--{} is there twice", choice.long));
                }
            }
            asked.flags.push(choice.long);
        } else {
            asked.words.push(a.clone());
        }
    }
    Ok(asked)
}

// `--long`, `--long=VALUE`, `-s` or `-sVALUE`.
fn option(a: &OsStr) -> Result<(&'static Choice, Option<OsString>), String> {
    let none = || format!("there is no option {}", a.display());
    let text = a.to_str().ok_or_else(none)?;
    let (found, value) = match text.strip_prefix("--") {
        Some(long) => {
            let (long, value) = long.split_once('=').map_or((long, None), |(l, v)| (l, Some(v)));
            (OPTIONS.iter().find(|o| o.long == long), value)
        }
        None => {
            let short = text.chars().nth(1);
            let value = text.get(2..).filter(|v| !v.is_empty());
            (OPTIONS.iter().find(|o| o.short.is_some() && o.short == short), value)
        }
    };
    let choice = found.ok_or_else(none)?;
    // -qx is no option
    if choice.value.is_none() && value.is_some() && !text.starts_with("--") {
        return Err(none());
    }
    Ok((choice, value.map(OsString::from)))
}

// Whether the words are those that the command takes.
fn fitting(mut asked: Asked) -> Result<Asked, String> {
    for (one, other) in [("xml", "table"), ("xml-out", "table-out")] {
        if asked.has(one) && asked.has(other) {
            return Err(format!("--{one} and --{other} exclude each other"));
        }
    }
    let name = asked.command.name;
    let other = |n: usize| asked.words.get(n).map(|w| w.display().to_string());
    match asked.command.takes {
        Takes::Files | Takes::File if asked.words.is_empty() => {
            if io::stdin().is_terminal() {
                return Err("there is no file, and standard input is a terminal".to_owned());
            }
            asked.words.push(OsString::from("-"));
        }
        Takes::Files => {}
        Takes::File => other(1).map_or(Ok(()), |w| Err(format!("{name} takes one file, and {w} is another")))?,
        Takes::Numbers(names) if asked.words.len() != names.len() => return Err(format!("{name} needs {} numbers", names.len())),
        Takes::Numbers(_) => {}
        Takes::Word(what, words) => match asked.words.as_slice() {
            [w] if words.iter().any(|known| w == known) => {}
            _ => return Err(format!("{name} needs a {what}: {}", words.join(", "))),
        },
        Takes::Command => match asked.words.as_slice() {
            [] => {}
            [w] if w.to_str().and_then(command).is_some() => {}
            [w, ..] => return Err(format!("there is no command {}", w.display())),
        },
        Takes::Nothing => other(0).map_or(Ok(()), |w| Err(format!("{name} takes nothing, and {w} is something")))?,
    }
    Ok(asked)
}
