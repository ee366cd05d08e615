//! Help, manual page and completions, all from the table of commands.

use crate::table::{command, Choice, Command, Takes, ABOUT, COMMANDS, FILES, OPTIONS, PRIVATE, STATUSES};

pub const VERSION: &str = env!("CARGO_PKG_VERSION");

/// All commands; it fits a screen of 24 lines.
pub fn overview() -> String {
    let mut text = format!("kerzhoma: {ABOUT}\n\n    kerzhoma COMMAND [OPTION..] [FILE..]\n\n");
    for c in COMMANDS {
        text += &format!("    {:<12} {}\n", c.name, c.what);
    }
    text += "\nkerzhoma help COMMAND tells the options. A FILE is an XML document, or a table\n\
             of XML events; a folder stands for the *.xml in it; - is standard input.\n\nExit status: ";
    let statuses: Vec<String> = STATUSES.iter().take(3).map(|(n, what)| format!("{n} {what}")).collect();
    text += &filled(&statuses.join(", "), 64).replacen('\n', "\n             ", 1);
    text + "\n"
}

pub fn about(c: &Command) -> String {
    let mut text = format!("{}\n\n{}\n", c.usage(), filled(&sentence(c.what), 78));
    for more in c.more {
        text += &format!("{}\n", filled(more, 78));
    }
    text += "\n";
    for o in c.choices() {
        text += &format!("    {:<20} {}\n", o.spelled(), o.what);
    }
    if reads(c) {
        text += &format!("\n{}\n\n{}\n\nExit status:\n", filled(FILES, 78), filled(PRIVATE, 78));
        for (n, what) in STATUSES.iter().filter(|(n, _)| *n != 3 || c.options.contains(&"failed")) {
            text += &format!("    {n}  {what}\n");
        }
    }
    text
}

fn reads(c: &Command) -> bool {
    matches!(c.takes, Takes::Files | Takes::File)
}

fn sentence(words: &str) -> String {
    let mut letters = words.chars();
    letters.next().map_or(String::new(), |first| format!("{}{}.", first.to_uppercase(), letters.as_str()))
}

// Words in lines of at most so many characters.
fn filled(words: &str, most: usize) -> String {
    let mut lines = vec![String::new()];
    for word in words.split_whitespace() {
        let last = lines.len() - 1;
        if !lines[last].is_empty() && lines[last].chars().count() + 1 + word.chars().count() > most {
            lines.push(word.to_owned());
        } else {
            let space = if lines[last].is_empty() { "" } else { " " };
            lines[last] += &format!("{space}{word}");
        }
    }
    lines.join("\n")
}

// ---- the manual page

fn roff(words: &str) -> String {
    words.replace('\\', "\\e").replace('-', "\\-").replace('\'', "\\(aq")
}

fn tagged(tag: &str, words: &str) -> String {
    format!(".TP\n.B {}\n{}\n", roff(tag), roff(words))
}

pub fn man() -> String {
    let mut page =
        format!(".TH KERZHOMA 1 \"\" \"kerzhoma {VERSION}\" \"User Commands\"\n.SH NAME\nkerzhoma \\- {}\n", roff(ABOUT));
    page += ".SH SYNOPSIS\n";
    for c in COMMANDS {
        let arguments = roff(&c.arguments());
        let arguments = if arguments.is_empty() { arguments } else { arguments + "\n" };
        page += &format!(".B {}\n{arguments}.br\n", roff(&format!("kerzhoma {}", c.name)));
    }
    page += ".B kerzhoma \\-\\-version\n.SH COMMANDS\n";
    for c in COMMANDS {
        page += &tagged(c.name, &sentence(c.what));
        for more in c.more {
            page += &format!("{}\n", roff(more));
        }
        let options: Vec<String> = c.choices().map(|o| format!("--{}", o.long)).collect();
        page += &format!("Options: {}.\n", roff(&options.join(", ")));
    }
    page += ".SH OPTIONS\n";
    for o in OPTIONS {
        page += &tagged(&o.spelled(), &sentence(o.what));
    }
    page += &tagged("--version", "Write the version.");
    page += &format!(".SH FILES\n{}\n.SH PRIVATE TEXT\n{}\n.SH EXIT STATUS\n", roff(FILES), roff(PRIVATE));
    for (n, what) in STATUSES {
        page += &tagged(&n.to_string(), &sentence(what));
    }
    page + ".SH EXAMPLES\n.EX\nkerzhoma list report.xml\nkerzhoma check \\-\\-failed build/reports\nkerzhoma explain refused.xml\n.EE\n"
}

// ---- completions

pub fn completions(shell: &str) -> String {
    match shell {
        "zsh" => zsh(),
        "fish" => fish(),
        _ => bash(),
    }
}

fn names() -> Vec<&'static str> {
    COMMANDS.iter().map(|c| c.name).collect()
}

fn words(c: &Command) -> Vec<&'static str> {
    match c.takes {
        Takes::Word(_, words) => words.to_vec(),
        Takes::Command => names(),
        _ => Vec::new(),
    }
}

fn flags(o: &Choice) -> Vec<String> {
    o.short.map(|s| format!("-{s}")).into_iter().chain([format!("--{}", o.long)]).collect()
}

fn bash() -> String {
    let valued: Vec<String> = OPTIONS.iter().filter(|o| o.value.is_some()).flat_map(flags).collect();
    let mut rows = String::new();
    for c in COMMANDS {
        let options: Vec<String> = c.choices().flat_map(flags).collect();
        let files = if reads(c) { " files=1" } else { "" };
        rows += &format!("        {}) options='{}' words='{}'{files} ;;\n", c.name, options.join(" "), words(c).join(" "));
    }
    format!(
        "# completions of kerzhoma for bash
_kerzhoma() {{
    local word=${{COMP_WORDS[COMP_CWORD]}} before=${{COMP_WORDS[COMP_CWORD-1]}} options= words= files=
    COMPREPLY=()
    if [ \"$COMP_CWORD\" -eq 1 ]; then
        mapfile -t COMPREPLY < <(compgen -W '{} --help --version' -- \"$word\")
        return
    fi
    case ${{COMP_WORDS[1]}} in
{rows}    esac
    case $before in
        {}) mapfile -t COMPREPLY < <(compgen -f -- \"$word\"); return ;;
    esac
    case $word in
        -?*) mapfile -t COMPREPLY < <(compgen -W \"$options\" -- \"$word\") ;;
        *)
            if [ -n \"$files\" ]; then
                mapfile -t COMPREPLY < <(compgen -f -- \"$word\")
            else
                mapfile -t COMPREPLY < <(compgen -W \"$words\" -- \"$word\")
            fi
            ;;
    esac
}}
complete -o filenames -F _kerzhoma kerzhoma
",
        names().join(" "),
        valued.join(" | ")
    )
}

fn zsh() -> String {
    let mut text = "#compdef kerzhoma\n\n_kerzhoma() {\n  local -a commands\n  commands=(\n".to_owned();
    for c in COMMANDS {
        text += &format!("    '{}:{}'\n", c.name, c.what);
    }
    text += "  )\n  if (( CURRENT == 2 )); then\n    _describe -t commands command commands\n    return\n  fi\n  \
             local command=${words[2]}\n  shift words\n  (( CURRENT-- ))\n  case $command in\n";
    for c in COMMANDS {
        text += &format!("    {})\n      _arguments", c.name);
        for o in c.choices() {
            let file = if o.value.is_some() { ":file:_files" } else { "" };
            text += &match o.short {
                Some(s) => format!(" \\\n        '(-{s} --{0})'{{-{s},--{0}}}'[{1}]{file}'", o.long, o.what),
                None => format!(" \\\n        '--{}[{}]{file}'", o.long, o.what),
            };
        }
        text += &match c.takes {
            Takes::Files => " \\\n        '*:file:_files'\n".to_owned(),
            Takes::File => " \\\n        '1:file:_files'\n".to_owned(),
            Takes::Word(..) | Takes::Command => format!(" \\\n        '1:word:({})'\n", words(c).join(" ")),
            _ => "\n".to_owned(),
        };
        text += "      ;;\n";
    }
    text + "  esac\n}\n\n_kerzhoma \"$@\"\n"
}

fn fish() -> String {
    let mut text = "# completions of kerzhoma for fish\ncomplete -c kerzhoma -f\n".to_owned();
    for c in COMMANDS {
        text += &format!("complete -c kerzhoma -n __fish_use_subcommand -a {} -d '{}'\n", c.name, c.what);
    }
    for c in COMMANDS {
        let seen = format!("complete -c kerzhoma -n '__fish_seen_subcommand_from {}'", c.name);
        if reads(c) {
            text += &format!("{seen} -F\n");
        }
        if !words(c).is_empty() {
            text += &format!("{seen} -a '{}'\n", words(c).join(" "));
        }
        for o in c.choices() {
            let short = o.short.map_or(String::new(), |s| format!(" -s {s}"));
            let value = if o.value.is_some() { " -r -F" } else { "" };
            text += &format!("{seen}{short} -l {}{value} -d '{}'\n", o.long, o.what);
        }
    }
    text
}

/// Help of a command by its name, or of all.
pub fn help(name: Option<&str>) -> String {
    name.and_then(command).map_or_else(overview, about)
}
