//! Files and folders, what they hold, and why a report in them is refused.

use crate::why::{hint, hint_of_byte};
use kerzhoma::input::{self, is_named_xml, Input, Kind};
use kerzhoma::{explain, explain_xml, tokenize, Place, Refusal, Table, TableBuf, XmlRefusal};
use std::ffi::{OsStr, OsString};
use std::path::{Path, PathBuf};
use std::{fs, io};

/// A file that can't be used.
pub struct Unusable {
    pub name: String,
    pub why: String,
}

impl Unusable {
    fn of(file: &Path, why: &dyn std::fmt::Display) -> Self {
        Unusable { name: shown(file), why: why.to_string() }
    }
}

fn shown(file: &Path) -> String {
    if file.as_os_str() == OsStr::new("-") {
        return "standard input".to_owned();
    }
    file.display().to_string()
}

/// The files that are named, and the *.xml of folders; and whether results need their names.
pub fn files(words: &[OsString]) -> (Vec<Result<PathBuf, Unusable>>, bool) {
    let mut files = Vec::new();
    let mut several = words.len() > 1;
    for word in words {
        let path = PathBuf::from(word);
        if word != "-" && path.is_dir() {
            several = true;
            match inside(&path) {
                Ok(found) if found.is_empty() => files.push(Err(Unusable::of(&path, &"there is no *.xml in this folder"))),
                Ok(found) => files.extend(found.into_iter().map(Ok)),
                Err(e) => files.push(Err(Unusable::of(&path, &e))),
            }
        } else {
            files.push(Ok(path));
        }
    }
    (files, several)
}

fn inside(folder: &Path) -> io::Result<Vec<PathBuf>> {
    let mut found = Vec::new();
    for entry in fs::read_dir(folder)? {
        let path = entry?.path();
        if is_named_xml(&path) && path.is_file() {
            found.push(path);
        }
    }
    found.sort();
    Ok(found)
}

/// A file's table.
pub struct Loaded {
    pub name: String,
    pub table: Result<TableBuf, XmlRefusal>,
    pub is_document: bool,
    /// A document that isn't tokenized.
    pub document: Vec<u8>,
    pub trailing: bool,
}

pub fn load(file: &Path, xml: bool, table: bool) -> Result<Loaded, Unusable> {
    let kind = match (xml, table) {
        (true, _) => Kind::Document,
        (_, true) => Kind::Table,
        _ => Kind::Either,
    };
    let name = shown(file);
    Ok(match input::load(file, kind).map_err(|e| Unusable::of(file, &e))? {
        Input::Document(document) => {
            let table = tokenize(&document);
            let document = if table.is_ok() { Vec::new() } else { document };
            Loaded { name, table, is_document: true, document, trailing: false }
        }
        Input::Table(input::Loaded { table, trailing }) => {
            Loaded { name, table: Ok(table), is_document: false, document: Vec::new(), trailing }
        }
    })
}

/// Why a report is refused.
pub struct Why {
    pub number: u32,
    pub path: Option<String>,
    pub place: Option<Place>,
    pub words: String,
}

impl Why {
    /// Of a document that isn't tokenized.
    pub fn of_document(refusal: &XmlRefusal, document: &[u8], values: bool) -> Self {
        let mut words = explain_xml(refusal, document).trim_end().to_owned();
        if let Some(hint) = refusal.byte().filter(|_| values).and_then(|byte| hint_of_byte(document, byte as usize)) {
            words += &format!(" ({hint})");
        }
        Why { number: refusal.number(), path: None, place: refusal.place(document), words }
    }

    /// Of a table; with `values` names and values are told, too. Of a document its place is told, and not the numbers of event and attribute.
    pub fn of_table(refusal: &Refusal, table: &Table<'_>, is_document: bool, values: bool) -> Self {
        let mut words = match values {
            true => explain(refusal, table).trim_end().to_owned(),
            false => refusal.to_string(),
        };
        if is_document {
            if let Some(end) = words.rfind(" (event ") {
                words.truncate(end);
            }
            if let Some(hint) = hint(refusal, table, values) {
                words += &format!(" ({hint})");
            }
        }
        let path: Vec<String> = refusal.path().map(|element| element.to_string()).collect();
        let place = if is_document { refusal.place(table) } else { None };
        Why { number: refusal.number(), path: (!path.is_empty()).then(|| path.join("/")), place, words }
    }

    /// `FILE:LINE:COLUMN: refused ..`
    pub fn line(&self, file: &str) -> String {
        match self.place {
            Some(place) => format!("{file}:{}:{}: {}", place.line, place.column, self.words),
            None => format!("{file}: {}", self.words),
        }
    }
}
