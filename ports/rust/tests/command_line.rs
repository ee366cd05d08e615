//! The command line: statuses, messages, and input that is cut off, too long, or none.
mod common;

use common::{hold, replayed, repository, spoil, Random};
use kerzhoma::{TableBuf, TableBuilder};
use std::io::Write;
use std::path::PathBuf;
use std::process::{Command, Stdio};
use std::{env, fs};

struct Ran {
    status: i32,
    out: Vec<u8>,
    err: String,
}

fn run(arguments: &[&str], input: &[u8]) -> Ran {
    let mut child = Command::new(env!("CARGO_BIN_EXE_kerzhoma"))
        .args(arguments)
        .stdin(Stdio::piped())
        .stdout(Stdio::piped())
        .stderr(Stdio::piped())
        .spawn()
        .unwrap();
    let mut to = child.stdin.take().unwrap();
    let input = input.to_vec();
    // the program may stop reading before the end
    let writer = std::thread::spawn(move || drop(to.write_all(&input)));
    let output = child.wait_with_output().unwrap();
    writer.join().unwrap();
    let err = String::from_utf8(output.stderr).unwrap();
    assert!(!err.contains("panicked"), "{err}");
    Ran { status: output.status.code().unwrap(), out: output.stdout, err }
}

fn text(ran: &Ran) -> &str {
    std::str::from_utf8(&ran.out).unwrap()
}

fn room(name: &str) -> PathBuf {
    PathBuf::from(env!("CARGO_TARGET_TMPDIR")).join(name)
}

const WORKED: &str = "\
(report \"r\" 2 0 0 0 -
(suite \"lab\" 2 0 0 0 -
(case \"a\" - 0.500 success flaky 0)
(case \"b\" - - failure rerun 1
(run failure -))))
";

fn worked() -> Vec<u8> {
    fs::read(repository("example/worked.bin")).unwrap()
}

fn refused() -> Vec<u8> {
    let mut t = TableBuilder::new();
    t.start("testsuites");
    t.start("testsuite").attribute("name", "private lab");
    t.empty("testcase").attribute("name", "private case").attribute("time", "soon");
    t.finish().to_bytes()
}

#[test]
fn a_file_that_is_accepted() {
    let path = repository("example/worked.bin");
    let file = path.to_str().unwrap();
    let listed = run(&["list", file], b"");
    assert_eq!((listed.status, text(&listed), listed.err.as_str()), (0, WORKED, ""));
    let checked = run(&["check", file], b"");
    assert_eq!((checked.status, text(&checked), checked.err.as_str()), (0, "", ""));
    let explained = run(&["explain", file], b"");
    assert_eq!((explained.status, text(&explained), explained.err.clone()), (0, &*format!("{file}: accepted\n"), String::new()));
}

#[test]
fn standard_streams() {
    let listed = run(&["list", "-"], &worked());
    assert_eq!((listed.status, text(&listed)), (0, WORKED));
    // standard input where no file is named
    let listed = run(&["list"], &worked());
    assert_eq!((listed.status, text(&listed)), (0, WORKED));
    let written = run(&["write", "--table-out"], &worked());
    assert_eq!(written.status, 0);
    let again = run(&["list", "-"], &written.out);
    assert_eq!((again.status, text(&again)), (0, WORKED));
}

#[test]
fn a_file_that_is_written() {
    let to = room("written.bin");
    let _ = fs::remove_file(&to);
    let file = to.to_str().unwrap();
    let ran = run(&["write", "-o", file, "--", "-"], &worked());
    assert_eq!((ran.status, ran.out.len(), ran.err.as_str()), (0, 0, ""));
    assert_eq!(fs::read(&to).unwrap(), run(&["write", "-", "--table-out", "-o", "-"], &worked()).out);
    let bad = run(&["write", "-", "-o", "no/such/folder/x"], &worked());
    assert_eq!(bad.status, 2);
    assert!(bad.err.starts_with("kerzhoma: no/such/folder/x: "), "{}", bad.err);
    // nothing is written where the report is refused
    fs::remove_file(&to).unwrap();
    assert_eq!(run(&["write", "-", "-o", file], &refused()).status, 1);
    assert!(!to.exists());
}

// Names only from explain, and on standard output.
#[test]
fn a_report_that_is_refused() {
    let line =
        "refused 5 at testsuites/testsuite[0](\"private lab\")/testcase[0]/@time: a time must be digits with at most nine behind \
                the point, under 8388608 seconds (event 2, attribute 2)\n";
    let explained = run(&["explain", "-"], &refused());
    assert_eq!(
        (explained.status, text(&explained), explained.err.clone()),
        (1, &*format!("standard input: {line}"), String::new())
    );
    let asked = run(&["list", "--why"], &refused());
    assert_eq!((asked.status, text(&asked), asked.err.clone()), (1, "(refused)\n", format!("kerzhoma: standard input: {line}")));
    for (task, out) in [("list", "(refused)\n"), ("check", "")] {
        let ran = run(&[task, "-"], &refused());
        assert_eq!((ran.status, text(&ran)), (1, out));
        assert_eq!(ran.err, format!("kerzhoma: standard input: {}", line.replace("(\"private lab\")", "")));
        let ran = run(&[task, "-q"], &refused());
        assert_eq!((ran.status, text(&ran), ran.err.as_str()), (1, out, ""));
    }
}

#[test]
fn input_that_is_cut_off() {
    let whole = worked();
    assert_eq!(run(&["check"], b"").err, "kerzhoma: standard input: it is empty\n");
    for n in 0..whole.len() {
        let ran = run(&["check", "--table", "-"], &whole[..n]);
        assert_eq!(ran.status, 2, "{n}");
        assert!(ran.err.starts_with("kerzhoma: standard input: the table is cut off: "), "{}", ran.err);
    }
    let ran = run(&["check", "-"], &whole[..5]);
    assert_eq!(ran.err, "kerzhoma: standard input: the table is cut off: 5 of the 12 bytes of its header are there\n");
}

#[test]
fn bytes_behind_the_table() {
    let mut more = worked();
    more.extend_from_slice(b"and more");
    let ran = run(&["list", "-"], &more);
    assert_eq!((ran.status, text(&ran)), (0, WORKED));
    assert_eq!(ran.err, "kerzhoma: standard input: bytes behind the table are ignored\n");
}

#[test]
fn tables_above_the_limits() {
    for (at, part, number) in [(0, "events", 65_537u32), (4, "attributes", u32::MAX), (8, "source bytes", 16_777_217)] {
        let mut head = vec![0; 12];
        head[at..at + 4].copy_from_slice(&number.to_le_bytes());
        let ran = run(&["list", "-"], &head);
        assert_eq!((ran.status, text(&ran)), (2, ""));
        let limit = if part == "source bytes" { 16_777_216 } else { 65_536 };
        let want =
            format!("kerzhoma: standard input: the table is too large: it tells of {number} {part}, and {limit} are the limit\n");
        assert_eq!(ran.err, want);
    }
}

// 65,536 events, 65,536 attributes, 16,777,216 source bytes.
#[test]
fn a_table_of_the_limits_size() {
    let mut t = TableBuilder::new();
    t.start("testsuites");
    t.start("testsuite").attribute("name", "s");
    for i in 0..65_532 {
        t.empty("testcase").attribute("name", format!("case {i}"));
    }
    t.end("testsuite").end("testsuites");
    let mut table = t.finish();
    table.attributes.resize(65_536 * 5, 0);
    table.source.resize(16_777_216, b' ');
    assert_eq!(table.events.len(), 65_536 * 5);
    let path = room("full.bin");
    fs::write(&path, table.to_bytes()).unwrap();
    let ran = run(&["list", path.to_str().unwrap()], b"");
    assert_eq!((ran.status, ran.err.as_str()), (0, ""));
    assert_eq!(text(&ran).lines().count(), 65_534);
    let ran = run(&["check", path.to_str().unwrap()], b"");
    assert_eq!(ran.status, 0);
    // written it would have more events than a table may
    let ran = run(&["write", path.to_str().unwrap(), "--table-out"], b"");
    assert_eq!((ran.status, ran.out.len()), (1, 0));
    let name = path.display();
    assert_eq!(ran.err, format!("kerzhoma: {name}: refused 16: an area for output is too short, or the table has more than 65536 events, 65536 attributes or 16777216 bytes\n"));
    fs::remove_file(path).unwrap();
}

#[test]
fn what_is_no_table() {
    let ran = run(&["list", "--table"], b"<?xml version=\"1.0\"?><testsuites/>");
    assert_eq!(ran.status, 2);
    assert!(ran.err.contains("this looks like an XML document"), "{}", ran.err);
    let ran = run(&["list"], b"{\"tests\": []}");
    assert_eq!(ran.status, 2);
    assert!(ran.err.contains("neither an XML document nor a table"), "{}", ran.err);
    let ran = run(&["list", "no such file"], b"");
    assert_eq!(ran.status, 2);
    assert!(ran.err.starts_with("kerzhoma: no such file: "), "{}", ran.err);
    let ran = run(&["list", &format!("{}/src", env!("CARGO_MANIFEST_DIR"))], b"");
    assert_eq!(ran.status, 2);
    assert!(ran.err.contains("there is no *.xml in this folder"), "{}", ran.err);
}

// A document by its name, or by how it begins; a table of 60 events begins with `<`, too.
#[test]
fn documents_by_how_they_begin() {
    for before in ["", "\u{feff}", " \n\t", "                \n"] {
        let document = format!("{before}<testsuites/>");
        let ran = run(&["list"], document.as_bytes());
        assert_eq!((ran.status, text(&ran)), (0, "(report - 0 0 0 0 -)\n"), "{before:?}");
    }
    assert_eq!(run(&["explain"], b"<a>").status, 1);
    let mut t = TableBuilder::new();
    t.start("testsuites");
    for _ in 0..58 {
        t.text(" ");
    }
    t.end("testsuites");
    let table = t.finish().to_bytes();
    assert_eq!(table[0], b'<');
    let ran = run(&["list"], &table);
    assert_eq!((ran.status, text(&ran)), (0, "(report - 0 0 0 0 -)\n"));
    assert_eq!(run(&["list", "--table"], &table).status, 0);
    let ran = run(&["explain", "--xml"], &table);
    assert_eq!(ran.status, 1);
    assert!(text(&ran).starts_with("standard input:1:2: refused 18"), "{}", text(&ran));
}

const DOCUMENT: &str = "<testsuites name=\"r\" tests=\"2\"><testsuite name=\"lab\" tests=\"2\"><testcase name=\"a\" time=\"0.5\"/>\
    <testcase name=\"b\"><failure message=\"m\"/><rerunFailure/></testcase></testsuite></testsuites>";

#[test]
fn documents() {
    for (name, option) in [("worked.xml", None), ("worked.XML", None), ("worked", Some("--xml"))] {
        let path = room(name);
        fs::write(&path, DOCUMENT).unwrap();
        let file = path.to_str().unwrap();
        let arguments: Vec<&str> = ["list"].into_iter().chain(option).chain([file]).collect();
        let listed = run(&arguments, b"");
        assert_eq!((listed.status, text(&listed), listed.err.as_str()), (0, WORKED, ""));
        fs::remove_file(path).unwrap();
    }
    let listed = run(&["list", "--xml", "-"], DOCUMENT.as_bytes());
    assert_eq!((listed.status, text(&listed)), (0, WORKED));
    let checked = run(&["check", "-", "--xml"], DOCUMENT.as_bytes());
    assert_eq!((checked.status, text(&checked), checked.err.as_str()), (0, "", ""));
    // written as a table
    let written = run(&["write", "--xml", "--table-out", "-", "-o", "-"], DOCUMENT.as_bytes());
    assert_eq!(text(&run(&["list", "-"], &written.out)), WORKED);
}

// The same report as a file that people keep.
const FILE: &str = "<?xml version=\"1.0\" encoding=\"UTF-8\"?>
<testsuites name=\"r\" tests=\"2\" skipped=\"0\" failures=\"0\" errors=\"0\">
    <testsuite name=\"lab\" tests=\"2\" skipped=\"0\" errors=\"0\" failures=\"0\">
        <testcase name=\"a\" time=\"0.500\"/>
        <testcase name=\"b\">
            <failure message=\"m\"/>
            <rerunFailure>
            </rerunFailure>
        </testcase>
    </testsuite>
</testsuites>
";

#[test]
fn documents_that_are_written() {
    let written = run(&["write", "--xml-out", "-", "-o", "-"], &worked());
    assert_eq!((written.status, text(&written), written.err.as_str()), (0, FILE, ""));
    let again = run(&["write", "--xml", "--xml-out", "-", "-o", "-"], FILE.as_bytes());
    assert_eq!((again.status, text(&again)), (0, FILE));
    assert_eq!(text(&run(&["list", "--xml", "-"], FILE.as_bytes())), WORKED);
    let to = room("kept.xml");
    let file = to.to_str().unwrap();
    let ran = run(&["write", "--xml", "-", "-o", file], DOCUMENT.as_bytes());
    assert_eq!((ran.status, ran.out.len(), ran.err.as_str()), (0, 0, ""));
    assert_eq!(fs::read_to_string(&to).unwrap(), FILE);
    fs::remove_file(&to).unwrap();
    assert_eq!(text(&run(&["write"], DOCUMENT.as_bytes())), FILE);
    assert_eq!(run(&["list", "--xml-out", "-"], &worked()).status, 2);
}

#[test]
fn orders_as_documents() {
    let order = ["rehearse", "5", "1", "1", "1", "1"];
    let table = run(&[&order[..], &["--table-out"]].concat(), b"");
    let document = run(&["write", "--xml-out", "-", "-o", "-"], &table.out);
    assert!(text(&document).ends_with("        <testcase name=\"case4\"/>\n    </testsuite>\n</testsuites>\n"));
    let asked = run(&[&order[..], &["--xml-out", "-o", "-"]].concat(), b"");
    assert_eq!((asked.status, text(&asked), asked.err.as_str()), (0, text(&document), ""));
    let to = room("order.xml");
    let file = to.to_str().unwrap();
    let named = run(&[&order[..], &["-o", file]].concat(), b"");
    assert_eq!((named.status, named.out.len(), named.err.as_str()), (0, 0, ""));
    assert_eq!(fs::read_to_string(&to).unwrap(), text(&document));
    assert_eq!(text(&run(&["list", file], b"")), text(&run(&["list", "-"], &table.out)));
    fs::remove_file(&to).unwrap();
    assert_eq!(run(&["rehearse", "5000", "0", "0", "0", "0", "--xml-out", "-o", "-"], b"").status, 1);
}

#[test]
fn documents_that_are_refused() {
    for (document, line) in [
        ("", "1:1: refused 18 at byte 0, line 1, column 1: the document ends too early"),
        ("<a>\n\u{e9}<</a>", "2:3: refused 18 at byte 7, line 2, column 3: from this byte on the document is not well-formed XML"),
        ("<a>\n</b>", "2:3: refused 18 at byte 6, line 2, column 3: from this byte on the document is not well-formed XML"),
        ("<!DOCTYPE a><a/>", "1:1: refused 19 at byte 0, line 1, column 1: a document type declaration is not taken"),
    ] {
        let line = format!("standard input:{line}");
        let explained = run(&["explain", "--xml", "-"], document.as_bytes());
        assert_eq!((explained.status, text(&explained), explained.err.as_str()), (1, &*format!("{line}\n"), ""));
        for (task, out) in [("list", "(refused)\n"), ("check", "")] {
            let ran = run(&[task, "--xml", "-"], document.as_bytes());
            assert_eq!((ran.status, text(&ran), ran.err.clone()), (1, out, format!("kerzhoma: {line}\n")));
        }
    }
    // read, and refused there: numbers, and a name only from explain
    let document = b"<testsuites><testsuite name=\"lab\"><testcase/></testsuite></testsuites>";
    let explained = run(&["explain", "--xml", "-"], document);
    let line = "standard input:1:36: refused 7 at testsuites/testsuite[0](\"lab\")/testcase[0]/@name: this attribute is missing\n";
    assert_eq!((explained.status, text(&explained)), (1, line));
    // a byte more than the limit
    let mut long = b"<a>".to_vec();
    long.resize(16_777_217, b' ');
    let explained = run(&["explain", "--xml", "-"], &long);
    assert_eq!(
        (explained.status, text(&explained)),
        (1, "standard input:1:16777217: refused 11: the document is longer than 16777216 bytes\n")
    );
    // an event more than the limit
    let mut many = b"<a>".to_vec();
    many.extend_from_slice(&b"<b/>".repeat(65_534));
    many.extend_from_slice(b"</a>");
    let explained = run(&["explain", "--xml", "-"], &many);
    let line = "standard input:1:262143: refused 16: the document has more than 65536 events or attributes\n";
    assert_eq!((explained.status, text(&explained)), (1, line));
    assert_eq!(run(&["list", "--xml", "no such file.xml"], b"").status, 2);
}

// The counts that reports state; their cases may come to others.
#[test]
fn release_sheets() {
    let stated = "<testsuites tests=\"3\" failures=\"1\" skipped=\"1\" disabled=\"4\"><testsuite name=\"s\"><testcase name=\"a\"/>\
        <testcase name=\"b\"><failure/></testcase><testcase name=\"c\"><skipped/></testcase></testsuite></testsuites>";
    let silent = "<testsuites><testsuite name=\"s\"><testcase name=\"a\"><error/></testcase></testsuite></testsuites>";
    let files: Vec<PathBuf> = ["sheet1.xml", "sheet2.xml", "sheet3.xml"].into_iter().map(room).collect();
    let [one, two, bad] = [0, 1, 2].map(|i| files[i].to_str().unwrap());
    for (file, document) in files.iter().zip([stated, silent, "<testsuites>"]) {
        fs::write(file, document).unwrap();
    }
    let ran = run(&["sheet", one], b"");
    let sheet = "(tests 3)\n(failures 1)\n(errors 0)\n(skipped 1)\n(disabled 4)\n(passed 1 3)\n";
    assert_eq!((ran.status, text(&ran), ran.err.as_str()), (0, sheet, ""));
    // a report that states nothing, and a table, in two orders
    let path = repository("example/worked.bin");
    let table = path.to_str().unwrap();
    let sheet = "(tests 5)\n(failures 1)\n(errors 0)\n(skipped 1)\n(disabled 4)\n(passed 3 5)\n";
    for arguments in [["sheet", one, two, table], ["sheet", table, two, one]] {
        let ran = run(&arguments, b"");
        assert_eq!((ran.status, text(&ran)), (0, sheet));
        let said = |file: &str, states: &str, cases: &str| {
            format!("kerzhoma: {file}: it states {states}, and its cases are {cases}; the sheet takes what it states\n")
        };
        let none = "0 tests, 0 failures, 0 errors, 0 skipped";
        assert!(ran.err.contains(&said(two, none, "1 tests, 0 failures, 1 errors, 0 skipped")), "{}", ran.err);
        let (states, has) = ("2 tests, 0 failures, 0 errors, 0 skipped", "2 tests, 1 failures, 0 errors, 0 skipped");
        assert!(ran.err.contains(&said(table, states, has)), "{}", ran.err);
        assert_eq!(ran.err.lines().count(), 2);
    }
    // no sheet where one isn't read, and each is told
    let ran = run(&["sheet", bad, one, bad], b"");
    assert_eq!((ran.status, text(&ran), ran.err.lines().count()), (1, "", 2));
    assert!(ran.err.starts_with(&format!("kerzhoma: {bad}:1:13: refused 18 at byte 12")), "{}", ran.err);
    let ran = run(&["sheet", bad, "no such file", one], b"");
    assert_eq!((ran.status, text(&ran), ran.err.lines().count()), (2, "", 2));
    // 4,096 reports and one more; a sum past the limit
    let file = room("sheet");
    fs::write(&file, "<testsuites tests=\"1\"/>").unwrap();
    let many: Vec<&str> = ["sheet", "--xml"].into_iter().chain([file.to_str().unwrap(); 4097]).collect();
    let ran = run(&many[..4098], b"");
    assert!(ran.status == 0 && text(&ran).starts_with("(tests 4096)\n") && ran.err.lines().count() == 4096);
    let ran = run(&many, b"");
    assert_eq!((ran.status, text(&ran)), (1, ""));
    assert_eq!(ran.err.lines().last(), Some("kerzhoma: refused 11: a release sheet takes the counts of at most 4096 reports"));
    fs::write(&file, "<testsuites tests=\"18446744073709551615\"/>").unwrap();
    let ran = run(&many[..4], b"");
    assert_eq!((ran.status, text(&ran)), (1, ""));
    assert_eq!(ran.err.lines().last(), Some("kerzhoma: refused 17: a count would pass 18446744073709551615"));
    for file in files.iter().chain([&file]) {
        fs::remove_file(file).unwrap();
    }
}

#[test]
fn halves_of_a_run() {
    let half = |name: &str, suite: &str, time: &str| {
        format!("<testsuites name=\"{name}\" tests=\"1\" time=\"{time}\"><testsuite name=\"{suite}\"/></testsuites>")
    };
    let (a, b, long) = (half("night", "lab", "1.25"), half("late", "field", "2"), half("x", "y", "8388605.75"));
    let path = folder("halves", &[("a.xml", &a), ("b.xml", &b), ("long.xml", &long), ("no.xml", "<testsuites tests=\"private\"/>")]);
    let [a, b, long, no, to, table] =
        ["a.xml", "b.xml", "long.xml", "no.xml", "out.xml", "out.bin"].map(|name| path.join(name).to_str().unwrap().to_owned());
    let two = "(report \"night\" 2 0 0 0 -\n(suite \"lab\" 0 0 0 0 -)\n(suite \"field\" 0 0 0 0 -))\n";
    for to in [&to, &table] {
        let ran = run(&["merge", &a, &b, "-o", to], b"");
        assert_eq!((ran.status, ran.out.len(), ran.err.as_str()), (0, 0, ""));
        assert_eq!(text(&run(&["list", to], b"")), two);
    }
    assert!(fs::read_to_string(&to).unwrap().contains(" time=\"3.250\""));
    // a table that was written is one of them; more than two are told
    let ran = run(&["merge", &table, &b, &a, "-o", &to], b"");
    assert_eq!((ran.status, ran.err.as_str()), (0, "kerzhoma: 3 reports are merged one after the other, in this order\n"));
    let listed = run(&["list", &to], b"");
    assert!(text(&listed).starts_with("(report \"night\" 4 ") && text(&listed).matches("(suite ").count() == 4);
    fs::remove_file(&to).unwrap();
    // the summed time; a report that isn't accepted; one alone
    let ran = run(&["merge", &a, &b, &long, "-o", &to], b"");
    let why = "refused 22: the times of the two reports together reach 8388608 seconds";
    assert_eq!((ran.status, ran.err), (1, format!("kerzhoma: {long}: {why}\n")));
    let ran = run(&["merge", &a, &no, &b, "-o", &to], b"");
    assert!(ran.status == 1 && ran.err.contains("refused 3 ") && !ran.err.contains("private"), "{}", ran.err);
    let ran = run(&["merge", &a, "-o", &to], b"");
    assert_eq!((ran.status, ran.err.as_str()), (2, "kerzhoma: merge needs two reports or more\n"));
    assert!(!PathBuf::from(&to).exists());
}

#[test]
fn first_and_last_start() {
    let case =
        |t: &mut TableBuilder, stamp: &str| _ = t.empty("testcase").attribute("name", "private").attribute("timestamp", stamp);
    let mut t = TableBuilder::new();
    t.start("testsuites").attribute("timestamp", "2000-01-01T00:00:00Z");
    t.start("testsuite").attribute("name", "lab").attribute("timestamp", "2000-01-01T00:00:00Z");
    case(&mut t, "1990-12-31T15:59:59.9-08:00");
    case(&mut t, "1990-12-31T23:59:58.25Z");
    t.end("testsuite").end("testsuites");
    let ran = run(&["span", "-"], &t.finish().to_bytes());
    let told = "(first 1990-12-31T23:59:58.25+00:00)\n(last 1990-12-31T15:59:59.9-08:00)\n(span 1 650000000)\n";
    assert_eq!((ran.status, text(&ran), ran.err.as_str()), (0, told, ""));
    let none = run(&["span", "--xml", "-"], DOCUMENT.as_bytes());
    assert_eq!((none.status, text(&none), none.err.as_str()), (0, "(first -)\n(last -)\n(span -)\n", ""));
    let ran = run(&["span", "-"], &refused());
    assert_eq!((ran.status, text(&ran)), (1, ""));
    assert!(ran.err.starts_with("kerzhoma: standard input: refused 5 ") && !ran.err.contains("private"), "{}", ran.err);
}

#[test]
fn usage() {
    let help = run(&["--help"], b"");
    assert_eq!((help.status, help.err.as_str()), (0, ""));
    assert!(text(&help).lines().count() <= 24 && text(&help).lines().all(|l| l.len() <= 80));
    assert_eq!(text(&run(&["help"], b"")), text(&help));
    for command in COMMANDS {
        assert!(text(&help).contains(&format!("\n    {command} ")), "{command}");
        let about = run(&["help", command], b"");
        assert!(about.status == 0 && text(&about).starts_with(&format!("kerzhoma {command}")), "{command}");
        assert!(text(&about).lines().all(|l| l.len() <= 80), "{command}");
        assert_eq!(text(&run(&[command, "x", "--help"], b"")), text(&about));
    }
    assert_eq!(text(&run(&["--version"], b"")), format!("kerzhoma {}\n", env!("CARGO_PKG_VERSION")));
    for arguments in [
        &[][..],
        &["lists", "x"],
        &["write", "x", "y"],
        &["write", "x", "-o"],
        &["write", "x", "-o", "y", "-o", "z"],
        &["write", "x", "--xml-out", "--table-out"],
        &["list", "--all", "x"],
        &["list", "--failed", "x"],
        &["list", "--xml", "--table", "x"],
        &["list", "--why=x", "x"],
        &["list", "-qx", "x"],
        &["rehearse", "1", "0", "0", "0", "-o", "y"],
        &["rehearse", "1", "0", "0", "0", "0", "0", "-o", "y"],
        &["rehearse", "--xml", "1", "0", "0", "0", "0", "-o", "y"],
        &["help", "lists"],
        &["man", "x"],
        &["completions", "csh"],
        &["completions"],
        &[""],
    ] {
        let ran = run(arguments, b"");
        assert_eq!((ran.status, ran.out.len()), (2, 0), "{arguments:?}");
        assert!(ran.err.contains("usage: kerzhoma"), "{arguments:?}");
    }
    for number in ["x", "18446744073709551616"] {
        let ran = run(&["rehearse", "1", "0", "0", "0", number], b"");
        assert_eq!((ran.status, ran.out.len()), (2, 0));
    }
}

const COMMANDS: [&str; 12] =
    ["list", "check", "explain", "summary", "write", "merge", "sheet", "span", "rehearse", "help", "man", "completions"];

// Manual page and completions have every command with every option that its help tells.
#[test]
fn made_from_one_table() {
    let [man, bash, zsh, fish] =
        [&["man"][..], &["completions", "bash"], &["completions", "zsh"], &["completions", "fish"]].map(|a| {
            let ran = run(a, b"");
            assert_eq!((ran.status, ran.err.as_str()), (0, ""));
            text(&ran).to_owned()
        });
    for command in COMMANDS {
        let about = run(&["help", command], b"");
        let options = text(&about).lines().filter_map(|l| l.strip_prefix("    ").filter(|l| l.starts_with('-')));
        let options: Vec<&str> = options.flat_map(|l| l.split([' ', ',']).filter(|w| w.starts_with("--"))).collect();
        assert!(options.contains(&"--help"), "{command}");
        assert!(man.contains(&format!(".TP\n.B {command}\n")), "{command}");
        let row = bash.lines().find(|l| l.trim_start().starts_with(&format!("{command}) options='"))).unwrap();
        let from = zsh.find(&format!("\n    {command})\n")).unwrap();
        let case = &zsh[from..from + zsh[from..].find(";;").unwrap()];
        for option in options {
            assert!(man.contains(&option.replace('-', "\\-")), "{command} {option}");
            assert!(row.contains(option), "{command} {option}");
            assert!(case.contains(option), "{command} {option}");
            let long = option.trim_start_matches('-');
            let line = fish
                .lines()
                .find(|l| l.contains(&format!("seen_subcommand_from {command}'")) && l.contains(&format!("-l {long} ")));
            assert!(line.is_some(), "{command} {option}");
        }
    }
}

fn folder(name: &str, files: &[(&str, &str)]) -> PathBuf {
    let folder = room(name);
    let _ = fs::remove_dir_all(&folder);
    fs::create_dir_all(&folder).unwrap();
    for (file, document) in files {
        fs::write(folder.join(file), document).unwrap();
    }
    folder
}

const PLAIN: &str = "<testsuites tests=\"1\"><testsuite name=\"s\"><testcase name=\"a\"/></testsuite></testsuites>";
const BAD: &str = "<testsuites>\n<testsuite name=\"private\" time=\"secret\"/></testsuites>";

// Results in order, under the names of their files; a folder stands for its *.xml.
#[test]
fn several_files() {
    let path = folder("several", &[("b.xml", BAD), ("a.xml", PLAIN), ("c.XML", DOCUMENT), ("d.txt", "no report")]);
    let folder = path.to_str().unwrap();
    let ran = run(&["list", folder], b"");
    let listing = format!(
        "==> {folder}/a.xml <==\n(report - 1 0 0 0 -\n(suite \"s\" 0 0 0 0 -\n(case \"a\" - - success flaky 0)))\n\
         ==> {folder}/b.xml <==\n(refused)\n==> {folder}/c.XML <==\n{WORKED}"
    );
    assert_eq!((ran.status, text(&ran)), (1, &*listing));
    let line = format!(
        "kerzhoma: {folder}/b.xml:2:33: refused 5 at testsuites/testsuite[0]/@time: \
         a time must be digits with at most nine behind the point, under 8388608 seconds\n"
    );
    assert_eq!(ran.err, line);
    let ran = run(&["check", folder], b"");
    let lines = format!("{folder}/a.xml: accepted\n{folder}/b.xml: refused 5\n{folder}/c.XML: accepted\n");
    assert_eq!((ran.status, text(&ran), ran.err.clone()), (1, &*lines, line));
    let ran = run(&["check", "-q", folder], b"");
    assert_eq!((ran.status, text(&ran), ran.err.as_str()), (1, "", ""));
    // one by one, in the order that is asked for, and with a file that isn't there
    let [a, c] = ["a.xml", "c.XML"].map(|f| format!("{folder}/{f}"));
    let ran = run(&["check", &c, "no such file", &a], b"");
    assert_eq!((ran.status, text(&ran)), (2, &*format!("{c}: accepted\n{a}: accepted\n")));
    let ran = run(&["span", &a, "-"], &worked());
    assert_eq!(text(&ran).matches("==> ").count(), 2);
    assert!(text(&ran).contains("==> standard input <==\n"));
    // failed cases: worse than nothing, and better than a refusal
    for (arguments, status) in [
        (&["check", "--failed", &*a][..], 0),
        (&["check", "--failed", &a, &c], 3),
        (&["check", &c], 0),
        (&["check", "--failed", folder], 1),
    ] {
        assert_eq!(run(arguments, b"").status, status, "{arguments:?}");
    }
    let ran = run(&["check", "--failed", &c], b"");
    assert_eq!(ran.err, format!("kerzhoma: {c}: 1 failed, 0 with errors\n"));
    let ran = run(&["summary", &a, &c], b"");
    let head = "                tests   failures     errors    skipped\n";
    let rows = |a: &str, b: &str| format!("  stated   {a}\n  cases    {b}\n");
    let summary = format!(
        "{a}\n{head}{}{c}\n{head}{}",
        rows("         1          0          0          0", "         1          0          0          0"),
        rows("         2          0          0          0", "         2          1          0          0  differs")
    );
    assert_eq!((ran.status, text(&ran), ran.err.as_str()), (0, &*summary, ""));
}

// Cases that the rules pass over are told of, and nothing else changes.
#[test]
fn cases_that_are_left_out() {
    let nested = "<testsuites><testcase name=\"private\"/><testsuite name=\"s\"><testcase name=\"a\"/><group><testcase name=\"b\"/></group>\
                  <testsuite name=\"t\"><testcase name=\"c\"></testcase><testcase name=\"d\"/></testsuite></testsuite></testsuites>";
    let path = folder("nested", &[("a.xml", PLAIN), ("b.xml", nested)]);
    let [a, b] = ["a.xml", "b.xml"].map(|f| path.join(f).to_str().unwrap().to_owned());
    let told = format!(
        "kerzhoma: {b}: 4 of 5 testcase elements are not in this report \
         (they stand inside nested suites, under unknown elements or outside a suite)\n"
    );
    let listing = "(report - 0 0 0 0 -\n(suite \"s\" 0 0 0 0 -\n(case \"a\" - - success flaky 0)))\n";
    let ran = run(&["list", &b], b"");
    assert_eq!((ran.status, text(&ran), &*ran.err), (0, listing, &*told));
    for (arguments, status, err) in [
        (&["check", &*b][..], 0, &*told),
        (&["check", "--all-cases", &b], 1, &told),
        (&["check", "--all-cases", "-q", &b], 1, ""),
        (&["check", "--all-cases", "--failed", &b, "-q", &a], 1, ""),
        (&["check", "--all-cases", &a], 0, ""),
        (&["list", "-q", &b], 0, ""),
    ] {
        let ran = run(arguments, b"");
        assert_eq!((ran.status, &*ran.err), (status, err), "{arguments:?}");
    }
    assert_eq!(run(&["list", "--all-cases", &b], b"").status, 2);
    // a table of any words and bytes has some number of them
    assert_eq!(kerzhoma::Table::new(&[1, 0, 8, 0, 0, 1, 0, 9, 7, 7, 0, 1], &[], b"testcase").case_tags(), 2);
}

#[test]
fn objects() {
    let path = folder("objects", &[("a.xml", PLAIN), ("b.xml", BAD)]);
    let folder = path.to_str().unwrap();
    let four = |t: u32| format!("{{\"tests\":{t},\"failures\":0,\"errors\":0,\"skipped\":0}}");
    let accepted = format!(
        "{{\"file\":\"{folder}/a.xml\",\"verdict\":\"accepted\",\"number\":null,\"path\":null,\"place\":null,\"why\":null,\
         \"counts\":{{\"stated\":{},\"cases\":{}}}}}\n",
        four(1),
        four(1)
    );
    let sentence = "a time must be digits with at most nine behind the point, under 8388608 seconds";
    let refused = |why: &str| {
        format!(
            "{{\"file\":\"{folder}/b.xml\",\"verdict\":\"refused\",\"number\":5,\"path\":\"testsuites/testsuite[0]/@time\",\
             \"place\":{{\"byte\":45,\"line\":2,\"column\":33}},\"why\":\"refused 5 at testsuites/testsuite[0]/@time: {sentence}{why}\",\
             \"counts\":null}}\n"
        )
    };
    for (command, why) in [("check", ""), ("summary", ""), ("explain", " (secret)")] {
        let ran = run(&[command, "--json", folder], b"");
        assert_eq!((ran.status, text(&ran), ran.err.as_str()), (1, &*(accepted.clone() + &refused(why)), ""), "{command}");
    }
    let ran = run(&["check", "--json", "no\"such\nfile"], b"");
    assert_eq!(ran.status, 2);
    assert!(text(&ran).starts_with("{\"file\":\"no\\\"such\\u000afile\",\"verdict\":\"unusable\","), "{}", text(&ran));
}

// -o for every output; one that is full or closed is an error.
#[test]
fn outputs() {
    let path = folder("outputs", &[("a.xml", DOCUMENT)]);
    let (file, to) = (path.join("a.xml"), path.join("out"));
    let (file, to) = (file.to_str().unwrap(), to.to_str().unwrap());
    for arguments in [
        &["list", file][..],
        &["explain", file],
        &["summary", file],
        &["write", file],
        &["merge", file, file],
        &["sheet", file],
        &["span", file],
        &["check", "--json", file],
        &["rehearse", "1", "0", "0", "0", "0"],
        &["help"],
        &["help", "list"],
        &["man"],
        &["completions", "zsh"],
    ] {
        let said = run(arguments, b"");
        assert!(said.status == 0 && !said.out.is_empty(), "{arguments:?}");
        for option in [&["-o", to][..], &["--output", to], &[&*format!("--output={to}")], &[&*format!("-o{to}")]] {
            let ran = run(&[arguments, option].concat(), b"");
            assert_eq!((ran.status, ran.out.len()), (0, 0), "{arguments:?}");
            assert_eq!(fs::read(to).unwrap(), said.out, "{arguments:?}");
            fs::remove_file(to).unwrap();
        }
        for (ends, said) in [(">/dev/full", "standard output: "), (">&-", "standard output is closed")] {
            let line = format!("exec \"$0\" \"$@\" {ends}");
            let ran = Command::new("sh").args(["-c", &line, env!("CARGO_BIN_EXE_kerzhoma")]).args(arguments).output().unwrap();
            let err = String::from_utf8(ran.stderr).unwrap();
            assert!(ran.status.code() == Some(2) && err.contains(said), "{arguments:?} {ends} {err}");
        }
        let ran = run(&[arguments, &["-o", "/dev/full"]].concat(), b"");
        assert!(ran.status == 2 && ran.err.contains("/dev/full: "), "{arguments:?}");
    }
}

// One document a cause, in tests/refused: its line with names and values, and the line that has none.
#[test]
fn refusals_of_documents() {
    let folder = PathBuf::from(env!("CARGO_MANIFEST_DIR")).join("tests/refused");
    let said = |command: &str, folder: &PathBuf| {
        let ran = Command::new(env!("CARGO_BIN_EXE_kerzhoma")).args([command, "."]).current_dir(folder).output().unwrap();
        assert_eq!(ran.status.code(), Some(1));
        String::from_utf8(if command == "explain" { ran.stdout } else { ran.stderr }).unwrap()
    };
    let explained = said("explain", &folder);
    hold("refused.txt", &explained);
    let checked = said("check", &folder);
    hold("refused_public.txt", &checked);
    assert!(!checked.contains("private") && !checked.contains("12 of 14"), "{checked}");
    assert_eq!(said("list", &folder), checked);
    assert_eq!(explained.lines().count(), checked.lines().count());
    for line in explained.lines().chain(checked.lines().map(|l| l.trim_start_matches("kerzhoma: "))) {
        let mut parts = line.splitn(4, ':').skip(1);
        let place = [parts.next(), parts.next()].map(|n| n.and_then(|n| n.parse::<u64>().ok()));
        assert!(place.iter().all(|n| n.is_some_and(|n| n > 0)), "{line}");
        assert!(parts.next().is_some_and(|rest| rest.starts_with(" refused ")), "{line}");
    }
    // above the limits: too many records, in a document that is too long to be stored
    let cases = "<testcase name=\"a\"><failure/></testcase>".repeat(15_000)
        + &"<testcase name=\"b\" x=\"1\" y=\"2\" z=\"3\"/>".repeat(12_000);
    let document = format!("<testsuites><testsuite name=\"s\">\n{cases}</testsuite></testsuites>");
    let ran = run(&["check"], document.as_bytes());
    let line = "kerzhoma: standard input:2:937583: refused 12 at testsuites/testsuite[0]/testcase[23883]: the report has more than 65536 records\n";
    assert_eq!((ran.status, ran.err.as_str()), (1, line));
}

const REHEARSED: &str = "\
(report \"rehearsal\" 5 1 1 1 -
(suite \"rehearsal\" 5 1 1 1 -
(case \"case0\" - - failure rerun 0)
(case \"case1\" - - error rerun 0)
(case \"case2\" - - skipped none 0)
(case \"case3\" - - success flaky 1
(run failure -))
(case \"case4\" - - success flaky 0)))
";

#[test]
fn reports_to_order() {
    let path = room("ordered.bin");
    let file = path.to_str().unwrap();
    let ran = run(&["rehearse", "5", "1", "1", "1", "1", "-o", file], b"");
    assert_eq!((ran.status, ran.out.len(), ran.err.as_str()), (0, 0, ""));
    let listed = run(&["list", file], b"");
    assert_eq!((listed.status, text(&listed)), (0, REHEARSED));
    fs::remove_file(path).unwrap();
    let ran = run(&["rehearse", "--table-out", "0", "0", "0", "0", "0", "-o", "-"], b"");
    assert_eq!(text(&run(&["list", "-"], &ran.out)), "(report \"rehearsal\" 0 0 0 0 -\n(suite \"rehearsal\" 0 0 0 0 -))\n");
    // written again it is the same table
    assert_eq!(run(&["write", "--table-out"], &ran.out).out, ran.out);
    for (order, line) in [
        (["4097", "9", "9", "9", "9"], "refused 23: a report to order has at most 4096 cases"),
        (["5", "2", "2", "2", "0"], "refused 24: failures, errors, skipped and flaky cases together are more than the cases"),
        (
            ["1", "18446744073709551615", "1", "0", "0"],
            "refused 24: failures, errors, skipped and flaky cases together are more than the cases",
        ),
    ] {
        let ran = run(&[&["rehearse"], &order[..], &["-o", "-"]].concat(), b"");
        assert_eq!((ran.status, ran.out.len(), ran.err), (1, 0, format!("kerzhoma: {line}\n")));
    }
}

// The stored tables, spoiled: a status and no panic, whatever they hold.
#[test]
fn spoiled_tables() {
    let mut random = Random(0x2545_f491_4f6c_dd1d);
    for table in replayed().iter().step_by(6) {
        let mut table: TableBuf = table.clone();
        spoil(&mut table, &mut random, 3);
        let mut file = table.to_bytes();
        if random.below(4) == 0 {
            file.truncate(random.below(file.len()));
        }
        for task in [
            &["list", "-"][..],
            &["explain", "-"],
            &["check", "-"],
            &["span", "-"],
            &["summary", "-"],
            &["check", "--json"],
            &["write", "--table-out"],
            &["write", "--xml-out"],
        ] {
            let ran = run(task, &file);
            // something is said where the status isn't 0
            let said = if ran.status == 1 && (task[0] == "explain" || task[1] == "--json") { text(&ran) } else { &ran.err };
            assert!(ran.status == 0 && ran.err.is_empty() || ran.status <= 2 && !said.is_empty(), "{task:?} {}", ran.status);
        }
    }
}
