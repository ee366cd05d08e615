//! The command line: lists, checks, explains, sums up, writes and merges reports. The table of commands stands in `table`.
#![deny(unsafe_code)]

mod closed;
mod help;
mod json;
mod out;
mod parse;
mod report;
mod table;
mod why;

use json::Object;
use kerzhoma::{merge, print_sheet, read, read_and_list, rehearse, starts, to_xml, write};
use kerzhoma::{Areas, CaseTags, Counts, NonSuccessKind, Order, Refusal, Status, TableBuf, Tree};
use out::{say, Failed, Out};
use parse::{parse, Asked, Parsed};
use report::{files, load, Loaded, Unusable, Why};
use std::env;
use std::ffi::OsString;
use std::path::Path;
use std::process::ExitCode;

const ACCEPTED: u8 = 0;
const REFUSED: u8 = 1;
const FAILED: u8 = 2;
const FAILED_CASES: u8 = 3;

fn main() -> ExitCode {
    let arguments: Vec<OsString> = env::args_os().skip(1).collect();
    let status = match parse(&arguments) {
        Ok(Parsed::Run(asked)) => Work::of(asked).done(),
        Ok(Parsed::Say(text)) => ended(Out::new(None).put_text(&text), false),
        Err(misused) => {
            say(&misused.what);
            say(&format!("usage: {}", misused.usage));
            FAILED
        }
    };
    ExitCode::from(status)
}

// What failed output comes to.
fn ended(put: Result<(), Failed>, quiet: bool) -> u8 {
    let Err(Failed(what)) = put else {
        return ACCEPTED;
    };
    if let (Some(what), false) = (what, quiet) {
        say(&what);
    }
    FAILED
}

struct Work {
    asked: Asked,
    out: Out,
    quiet: bool,
    /// Whether results stand under their files' names.
    several: bool,
    status: u8,
    /// For `sheet`.
    stated: Vec<Counts>,
    /// For `merge`: the reports so far as one.
    merged: Option<Areas>,
}

type Done = Result<(), Failed>;

impl Work {
    fn of(mut asked: Asked) -> Self {
        let out = Out::new(asked.output.take());
        Work { quiet: asked.has("quiet"), asked, out, several: false, status: ACCEPTED, stated: Vec::new(), merged: None }
    }

    fn done(mut self) -> u8 {
        let done = match self.asked.command.name {
            "rehearse" => self.rehearse(),
            "help" => self.out.put_text(&help::help(self.asked.words.first().and_then(|w| w.to_str()))),
            "man" => self.out.put_text(&help::man()),
            "completions" => {
                let shell = self.asked.words.first().and_then(|w| w.to_str()).unwrap_or_default();
                self.out.put_text(&help::completions(shell))
            }
            _ => self.all(),
        };
        let output = ended(done, self.quiet);
        self.worse(output);
        self.status
    }

    // Bad input or output is worse than a refusal, and that worse than failed cases.
    fn worse(&mut self, status: u8) {
        let rank = |s: u8| [ACCEPTED, FAILED_CASES, REFUSED, FAILED].iter().position(|known| *known == s);
        if rank(status) > rank(self.status) {
            self.status = status;
        }
    }

    fn say(&self, what: &str) {
        if !self.quiet {
            say(what);
        }
    }

    fn all(&mut self) -> Done {
        let (files, several) = files(&self.asked.words);
        self.several = several;
        let count = files.len();
        if self.asked.command.name == "merge" && count < 2 {
            return Err(Failed(Some("merge needs two reports or more".to_owned())));
        }
        for file in files {
            match file {
                Ok(file) => self.one(&file)?,
                Err(unusable) => self.unusable(&unusable)?,
            }
        }
        if self.asked.command.name == "sheet" && self.status == ACCEPTED {
            return match print_sheet(&self.stated) {
                Ok(text) => self.out.put_text(&text),
                Err(refusal) => self.refuse(&refusal),
            };
        }
        match self.merged.take() {
            Some(areas) if self.status == ACCEPTED => self.put_merged(&areas, count),
            _ => Ok(()),
        }
    }

    fn one(&mut self, file: &Path) -> Done {
        let loaded = match load(file, self.asked.has("xml"), self.asked.has("table")) {
            Ok(loaded) => loaded,
            Err(unusable) => return self.unusable(&unusable),
        };
        if loaded.trailing {
            self.say(&format!("{}: bytes behind the table are ignored", loaded.name));
        }
        let table = match &loaded.table {
            Ok(table) => table,
            Err(refusal) => {
                let why = Why::of_document(refusal, &loaded.document, self.tells_values());
                return self.refused(&loaded.name, &why);
            }
        };
        let done = match self.asked.command.name {
            "list" => self.list(&loaded, table),
            "check" => self.check(&loaded, table),
            "explain" => self.explain(&loaded, table),
            "summary" => self.summary(&loaded, table),
            "write" => self.write(table),
            "merge" => self.merge(table),
            "span" => self.span(&loaded, table),
            _ => self.add(&loaded, table),
        };
        match done {
            Ok(done) => done,
            Err(refusal) => {
                let why = Why::of_table(&refusal, &table.as_table(), loaded.is_document, self.tells_values());
                self.refused(&loaded.name, &why)
            }
        }
    }

    // Names and values are for those who ask for them.
    fn tells_values(&self) -> bool {
        self.asked.command.name == "explain" || self.asked.has("why")
    }

    fn unusable(&mut self, file: &Unusable) -> Done {
        self.worse(FAILED);
        self.say(&format!("{}: {}", file.name, file.why));
        if self.asked.has("json") {
            let object = Object {
                file: &file.name,
                verdict: "unusable",
                number: None,
                path: None,
                place: None,
                why: Some(&file.why),
                counts: None,
            };
            return self.out.put_text(&object.line());
        }
        Ok(())
    }

    // A listing of what is refused is `(refused)`; explain's answer is the line.
    fn refused(&mut self, name: &str, why: &Why) -> Done {
        self.worse(REFUSED);
        let line = why.line(name);
        if self.asked.has("json") {
            let object = Object {
                file: name,
                verdict: "refused",
                number: Some(why.number),
                path: why.path.as_deref(),
                place: why.place,
                why: Some(&why.words),
                counts: None,
            };
            return self.out.put_text(&object.line());
        }
        match self.asked.command.name {
            "explain" => return self.out.put_text(&format!("{line}\n")),
            "list" => self.headed(name, "(refused)\n")?,
            "check" if self.several && !self.quiet => self.out.put_text(&format!("{name}: refused {}\n", why.number))?,
            _ => {}
        }
        self.say(&line);
        Ok(())
    }

    // A refusal that concerns no file.
    fn refuse(&mut self, refusal: &Refusal) -> Done {
        self.worse(REFUSED);
        self.say(&refusal.to_string());
        Ok(())
    }

    fn headed(&mut self, name: &str, text: &str) -> Done {
        match self.several {
            true => self.out.put_text(&format!("==> {name} <==\n{text}")),
            false => self.out.put_text(text),
        }
    }

    // ---- one report each

    fn list(&mut self, loaded: &Loaded, table: &TableBuf) -> Result<Done, Refusal> {
        let table = table.as_table();
        // no tree is left while the listing goes out
        let listing = read_and_list(&table, &mut Areas::for_table(&table))?;
        let done = self.headed(&loaded.name, &listing);
        // each case has a line of its own
        let cases = listing.lines().filter(|line| line.starts_with("(case ")).count();
        self.tell_left_out(loaded, CaseTags { tags: table.case_tags(), cases });
        Ok(done)
    }

    fn check(&mut self, loaded: &Loaded, table: &TableBuf) -> Result<Done, Refusal> {
        let table = table.as_table();
        let mut areas = Areas::for_table(&table);
        let tree = read(&table, &mut areas)?;
        let cases = cases_of(&tree);
        if self.asked.has("failed") && cases.failures + cases.errors > 0 {
            self.worse(FAILED_CASES);
            self.say(&format!("{}: {} failed, {} with errors", loaded.name, cases.failures, cases.errors));
        }
        self.tell_left_out(loaded, CaseTags::of(&table, &tree));
        if self.asked.has("json") {
            return Ok(self.accepted_object(loaded, tree.counts(), cases));
        }
        Ok(match self.several && !self.quiet {
            true => self.out.put_text(&format!("{}: accepted\n", loaded.name)),
            false => Ok(()),
        })
    }

    fn explain(&mut self, loaded: &Loaded, table: &TableBuf) -> Result<Done, Refusal> {
        let table = table.as_table();
        let mut areas = Areas::for_table(&table);
        let tree = read(&table, &mut areas)?;
        Ok(match self.asked.has("json") {
            true => self.accepted_object(loaded, tree.counts(), cases_of(&tree)),
            false => self.out.put_text(&format!("{}: accepted\n", loaded.name)),
        })
    }

    fn accepted_object(&mut self, loaded: &Loaded, stated: Counts, cases: Counts) -> Done {
        let counts = Some([stated, cases]);
        let object = Object { file: &loaded.name, verdict: "accepted", number: None, path: None, place: None, why: None, counts };
        self.out.put_text(&object.line())
    }

    fn summary(&mut self, loaded: &Loaded, table: &TableBuf) -> Result<Done, Refusal> {
        let table = table.as_table();
        let mut areas = Areas::for_table(&table);
        let tree = read(&table, &mut areas)?;
        let (stated, cases) = (tree.counts(), cases_of(&tree));
        self.tell_left_out(loaded, CaseTags::of(&table, &tree));
        if self.asked.has("json") {
            return Ok(self.accepted_object(loaded, stated, cases));
        }
        let row = |what: &str, c: Counts, mark: &str| {
            format!("  {what:<8} {:>10} {:>10} {:>10} {:>10}{mark}\n", c.tests, c.failures, c.errors, c.skipped)
        };
        let mark = if four(stated) == four(cases) { "" } else { "  differs" };
        let head = format!("{}\n  {:<8} {:>10} {:>10} {:>10} {:>10}\n", loaded.name, "", "tests", "failures", "errors", "skipped");
        Ok(self.out.put_text(&(head + &row("stated", stated, "") + &row("cases", cases, mark))))
    }

    fn write(&mut self, table: &TableBuf) -> Result<Done, Refusal> {
        let table = table.as_table();
        let mut areas = Areas::for_table(&table);
        let tree = read(&table, &mut areas)?;
        self.put_report(&tree)
    }

    // The reports so far, and this one behind them.
    fn merge(&mut self, table: &TableBuf) -> Result<Done, Refusal> {
        let table = table.as_table();
        let mut areas = Areas::for_table(&table);
        let tree = read(&table, &mut areas)?;
        self.merged = Some(match self.merged.take() {
            None => areas,
            Some(before) => {
                let first = before.tree()?;
                let mut both = Areas::for_merging(&first, &tree);
                merge(&first, &tree, &mut both)?;
                both
            }
        });
        Ok(Ok(()))
    }

    fn put_merged(&mut self, areas: &Areas, count: usize) -> Done {
        if count > 2 {
            self.say(&format!("{count} reports are merged one after the other, in this order"));
        }
        let put = areas.tree().and_then(|tree| self.put_report(&tree));
        put.unwrap_or_else(|refusal| self.refuse(&refusal))
    }

    // XML, but for a file whose name ends in .bin.
    fn put_report(&mut self, tree: &Tree<'_>) -> Result<Done, Refusal> {
        let is_table = self.out.named().and_then(Path::extension).is_some_and(|end| end.eq_ignore_ascii_case("bin"));
        if !(self.asked.has("table-out") || is_table && !self.asked.has("xml-out")) {
            let document = to_xml(tree)?;
            return Ok(self.out.put_text(&document));
        }
        let written = write(tree)?;
        if self.out.is_terminal() {
            return Ok(Err(Failed(Some("a table isn't for a terminal: name a file with -o".to_owned()))));
        }
        Ok(self.out.put(&written.to_bytes()))
    }

    // One bracket form a line, as listings have them.
    fn span(&mut self, loaded: &Loaded, table: &TableBuf) -> Result<Done, Refusal> {
        let table = table.as_table();
        let mut areas = Areas::for_table(&table);
        let text = starts(&read(&table, &mut areas)?)?.map_or_else(
            || "(first -)\n(last -)\n(span -)\n".to_owned(),
            |s| format!("(first {})\n(last {})\n(span {} {})\n", s.first, s.last, s.span.as_secs(), s.span.subsec_nanos()),
        );
        Ok(self.headed(&loaded.name, &text))
    }

    // The counts of the report itself. Many runners state none: where its cases come to others, that is told.
    fn add(&mut self, loaded: &Loaded, table: &TableBuf) -> Result<Done, Refusal> {
        let table = table.as_table();
        let mut areas = Areas::for_table(&table);
        let tree = read(&table, &mut areas)?;
        let (states, has) = (tree.counts(), cases_of(&tree));
        if four(states) != four(has) {
            let told =
                |c: Counts| format!("{} tests, {} failures, {} errors, {} skipped", c.tests, c.failures, c.errors, c.skipped);
            let (file, states, has) = (&loaded.name, told(states), told(has));
            self.say(&format!("{file}: it states {states}, and its cases are {has}; the sheet takes what it states"));
        }
        self.stated.push(states);
        Ok(Ok(()))
    }

    // ---- reports to order

    fn rehearse(&mut self) -> Done {
        let mut numbers = Vec::new();
        for word in &self.asked.words {
            match word.to_str().and_then(|w| w.parse().ok()) {
                Some(n) => numbers.push(n),
                None => return Err(Failed(Some(format!("{} is no number up to 18446744073709551615", word.display())))),
            }
        }
        let &[cases, failures, errors, skipped, flaky] = numbers.as_slice() else {
            return Err(Failed(Some("rehearse needs 5 numbers".to_owned())));
        };
        // a report to order reads back
        let made = rehearse(&Order { cases, failures, errors, skipped, flaky }).and_then(|table| {
            let table = table.as_table();
            let mut areas = Areas::for_table(&table);
            let tree = read(&table, &mut areas)?;
            self.put_report(&tree)
        });
        made.unwrap_or_else(|refusal| self.refuse(&refusal))
    }

    // Tells of `testcase` elements that the rules pass over.
    fn tell_left_out(&mut self, loaded: &Loaded, counted: CaseTags) {
        if counted.left_out() == 0 {
            return;
        }
        if self.asked.has("all-cases") {
            self.worse(REFUSED);
        }
        let where_they_are = "they stand inside nested suites, under unknown elements or outside a suite";
        let numbers = format!("{} of {}", counted.left_out(), counted.tags);
        self.say(&format!("{}: {numbers} testcase elements are not in this report ({where_they_are})", loaded.name));
    }
}

fn four(c: Counts) -> [u64; 4] {
    [c.tests, c.failures, c.errors, c.skipped]
}

// What the cases of a report come to; at most 65,536.
fn cases_of(tree: &Tree<'_>) -> Counts {
    let mut counts = Counts::default();
    for case in tree.suites().flat_map(|suite| suite.cases()) {
        counts.tests += 1;
        match case.status() {
            Status::Success { .. } => {}
            Status::NonSuccess { kind: NonSuccessKind::Failure, .. } => counts.failures += 1,
            Status::NonSuccess { kind: NonSuccessKind::Error, .. } => counts.errors += 1,
            Status::Skipped { .. } => counts.skipped += 1,
        }
    }
    counts
}
