//! The table of commands and options: what is parsed, and what help, man page and completions tell.

/// What stands behind a command, beside its options.
#[derive(Clone, Copy, PartialEq, Eq)]
pub enum Takes {
    /// Files and folders; standard input where none is named.
    Files,
    /// One file; standard input where none is named.
    File,
    /// So many numbers, with these names.
    Numbers(&'static [&'static str]),
    /// One of these words.
    Word(&'static str, &'static [&'static str]),
    /// A command of this table, or nothing.
    Command,
    Nothing,
}

pub struct Command {
    pub name: &'static str,
    pub takes: Takes,
    /// One line.
    pub what: &'static str,
    /// The rest, a paragraph each.
    pub more: &'static [&'static str],
    /// Long names from `OPTIONS`.
    pub options: &'static [&'static str],
}

pub struct Choice {
    pub long: &'static str,
    pub short: Option<char>,
    /// The name of its value, if it takes one; a file.
    pub value: Option<&'static str>,
    pub what: &'static str,
}

pub const OPTIONS: &[Choice] = &[
    Choice { long: "output", short: Some('o'), value: Some("FILE"), what: "write to FILE, not to standard output" },
    Choice { long: "quiet", short: Some('q'), value: None, what: "say nothing on standard error" },
    Choice { long: "xml", short: None, value: None, what: "take every file for an XML document" },
    Choice { long: "table", short: None, value: None, what: "take every file for a table of XML events" },
    Choice { long: "json", short: None, value: None, what: "write one JSON object a file, each on a line" },
    Choice { long: "why", short: None, value: None, what: "tell names and values, too, where a report is refused" },
    Choice { long: "failed", short: None, value: None, what: "status 3 where a case failed or has an error" },
    Choice { long: "all-cases", short: None, value: None, what: "status 1 where a testcase element is not in its report" },
    Choice { long: "xml-out", short: None, value: None, what: "write an XML document, whatever the name of FILE" },
    Choice { long: "table-out", short: None, value: None, what: "write a table of XML events" },
    Choice { long: "help", short: Some('h'), value: None, what: "tell about the command" },
];

const READING: &[&str] = &["output", "quiet", "xml", "table", "help"];

pub const COMMANDS: &[Command] = &[
    Command {
        name: "list",
        takes: Takes::Files,
        what: "write the public listing of a report, or (refused)",
        more: &[
            "A listing has the cases with their statuses and no private text. Above each of several stands a line with its file's name. \
             Why a report is refused is told on standard error, without the report's names and values; with --why they are told, too.",
        ],
        options: &["output", "quiet", "xml", "table", "why", "help"],
    },
    Command {
        name: "check",
        takes: Takes::Files,
        what: "tell whether reports are accepted",
        more: &[
            "The exit status tells it; where there are several files, so does a line for each. Why a report is refused is told on standard \
             error, without the report's names and values.",
        ],
        options: &["output", "quiet", "xml", "table", "json", "failed", "all-cases", "help"],
    },
    Command {
        name: "explain",
        takes: Takes::Files,
        what: "write why a report is refused, and where",
        more: &["One line a file, with line and column of a document, the names of suite and case, and the value: it may have private text."],
        options: &["output", "quiet", "xml", "table", "json", "help"],
    },
    Command {
        name: "summary",
        takes: Takes::Files,
        what: "write the counts a report states beside those of its cases",
        more: &["Runners often state none, or others than their cases come to."],
        options: &["output", "quiet", "xml", "table", "json", "help"],
    },
    Command {
        name: "write",
        takes: Takes::File,
        what: "write the report again",
        more: &["It is written as an XML document, or as a table where the name of -o ends in .bin or --table-out is given."],
        options: &["output", "quiet", "xml", "table", "xml-out", "table-out", "help"],
    },
    Command {
        name: "merge",
        takes: Takes::Files,
        what: "write two reports or more as one",
        more: &[
            "First the suites of one, then of the next. The name is the first's; counts and times are added; the timestamp is the earliest; \
             there is no UUID. More than two are merged one after the other, in their order, and that is told on standard error. Where a \
             report isn't accepted nothing is written. It is written as write does.",
        ],
        options: &["output", "quiet", "xml", "table", "xml-out", "table-out", "help"],
    },
    Command {
        name: "sheet",
        takes: Takes::Files,
        what: "write one sheet over the counts that many reports state",
        more: &[
            "Exact sums over at most 4096 reports, and the tests that passed, in any order the same. Where a report isn't accepted there is \
             no sheet; where its cases come to other counts that is told on standard error.",
        ],
        options: READING,
    },
    Command {
        name: "span",
        takes: Takes::Files,
        what: "write the first and last start of a report's cases",
        more: &["Three lines, the last one with the seconds and nanoseconds between the two; - where no case has a timestamp."],
        options: READING,
    },
    Command {
        name: "rehearse",
        takes: Takes::Numbers(&["CASES", "FAILURES", "ERRORS", "SKIPPED", "FLAKY"]),
        what: "write a report with just these numbers",
        more: &["It has at most 4096 cases. It is written as write does."],
        options: &["output", "quiet", "xml-out", "table-out", "help"],
    },
    Command {
        name: "help",
        takes: Takes::Command,
        what: "tell about a command, or list them all",
        more: &[],
        options: &["output", "help"],
    },
    Command { name: "man", takes: Takes::Nothing, what: "write the manual page", more: &[], options: &["output", "help"] },
    Command {
        name: "completions",
        takes: Takes::Word("SHELL", &["bash", "zsh", "fish"]),
        what: "write the completions of a shell",
        more: &[],
        options: &["output", "help"],
    },
];

/// What holds for all commands.
pub const FILES: &str = "A FILE is an XML document where its name ends in .xml, or where it begins with < behind a byte-order mark and white \
    space and its first four bytes are no number of events within the limits. Else it is a table of XML events: three little-endian words, \
    the numbers of events, attributes and source bytes (65536, 65536 and 16777216 at most), then the three; bytes behind it are ignored. \
    A folder stands for the *.xml in it, in the order of their names. - is standard input; it is read, too, where no file is named and it \
    isn't a terminal.";

pub const PRIVATE: &str =
    "A listing has no private text. What list and check say on standard error has no names and no values of the \
    report; explain and list --why tell them. Control characters of names are escaped where the output is a terminal.";

pub const STATUSES: &[(u8, &str)] = &[
    (0, "every report is accepted"),
    (1, "a report is refused; check --all-cases: or leaves a testcase element out"),
    (2, "bad usage, or input or output that fails"),
    (3, "check --failed: all are accepted, and a case failed or has an error"),
];

pub const ABOUT: &str = "JUnit test reports, read by a proved library";

pub fn command(name: &str) -> Option<&'static Command> {
    COMMANDS.iter().find(|c| c.name == name)
}

impl Command {
    pub fn choices(&self) -> impl Iterator<Item = &'static Choice> + '_ {
        OPTIONS.iter().filter(|o| self.options.contains(&o.long))
    }

    /// What stands behind the name: `[OPTION..] [FILE..]`.
    pub fn arguments(&self) -> String {
        match self.takes {
            Takes::Files => "[OPTION..] [FILE..]".to_owned(),
            Takes::File => "[OPTION..] [FILE]".to_owned(),
            Takes::Numbers(names) => format!("[OPTION..] {}", names.join(" ")),
            Takes::Word(_, words) => words.join("|"),
            Takes::Command => "[COMMAND]".to_owned(),
            Takes::Nothing => String::new(),
        }
    }

    pub fn usage(&self) -> String {
        format!("kerzhoma {} {}", self.name, self.arguments()).trim_end().to_owned()
    }
}

impl Choice {
    /// `-o, --output FILE`.
    pub fn spelled(&self) -> String {
        let short = self.short.map_or(String::new(), |s| format!("-{s}, "));
        let value = self.value.map_or(String::new(), |v| format!(" {v}"));
        format!("{short}--{}{value}", self.long)
    }
}
