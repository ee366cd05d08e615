//! Rows of docs/DIFFERENCES.md: what the crate makes of the smallest table, and what is read here, by the library and by the respelled table.
//! Then the stand-ins, at the borders of their forms.
use crate::{calls, changes, lenient, reference, report, shrink, table::Input};
use quick_junit::{DeserializeErrorKind, Report};
use quick_xml::replay::{replaying, Areas, Changes};

fn in_suite(inside: &str) -> Input {
    Input::new(lenient::tokenized(format!("<testsuites><testsuite name=\"s\">{inside}</testsuite></testsuites>").as_bytes()))
}

fn in_case(inside: &str) -> Input {
    in_suite(&format!("<testcase name=\"c\">{inside}</testcase>"))
}

/// The crate on the table as it stands: the report, or the error's text and the last element of its path.
fn crates(input: &Input) -> Result<Report, String> {
    let read = replaying(&input.table, Areas::limits(), Changes::default(), || Report::deserialize(&b""[..])).0;
    read.map_err(|e| match e.kind() {
        DeserializeErrorKind::InvalidStructure(s) => format!("{s} at {}", e.path().last().map_or(String::new(), |p| p.to_string())),
        kind => format!("{kind:?}"),
    })
}

/// The number, 0 where it is accepted, by the library; which is what is wanted by the reference.
fn here(input: &Input) -> (u32, Option<Report>) {
    let want = reference::read(input, Areas::limits(), changes());
    let (mut records, mut text, mut scratch) = (vec![7; 3200], vec![7; 1000], vec![7; 1000]);
    let got = calls::read(&input.events(), &input.attributes(), &input.table.source, &mut records, &mut text, &mut scratch);
    match want.result {
        Ok(read) => {
            let fields = report::tree_fields(&records, &text).expect("a tree").0;
            assert_eq!(fields, report::fields(&read.report, false));
            (got.number, Some(read.report))
        }
        Err(refused) => {
            assert!(refused.is(&got), "{}", refused.shown());
            (got.number, None)
        }
    }
}

#[test]
fn empty_children_of_a_status_element() {
    let t = in_case("<failure><system-out/></failure>");
    assert_eq!(crates(&t).unwrap_err(), "unexpected EOF in <system-out> at system-out");
    assert_eq!(here(&t).0, 0);
    let t = in_case("<failure><x/></failure>");
    assert_eq!(crates(&t).unwrap_err(), "XmlError(EofInSkip)");
    assert_eq!(here(&t).0, 0);
}

#[test]
fn empty_outputs_and_lists() {
    let t = in_suite("<system-out/>");
    assert!(crates(&t).unwrap().test_suites[0].system_out.is_none());
    assert_eq!(here(&t).1.unwrap().test_suites[0].system_out.as_deref(), Some(""));
    let t = in_suite("<properties><property name=\"a\" value=\"b\"/></properties><properties/>");
    assert_eq!(crates(&t).unwrap().test_suites[0].properties.len(), 1);
    assert_eq!(here(&t).1.unwrap().test_suites[0].properties.len(), 0);
}

#[test]
fn start_properties() {
    let t = in_suite("<properties><property></property></properties>");
    assert_eq!(crates(&t).unwrap().test_suites[0].properties.len(), 0);
    assert_eq!(here(&t).0, 7);
    let t = in_suite("<properties><property name=\"a\" value=\"b\">x<property></property></property></properties>");
    assert_eq!(here(&t).1.unwrap().test_suites[0].properties.len(), 1);
}

#[test]
fn numbers_of_refs() {
    for (name, number, text) in
        [("#9", 0, ""), ("#233", 0, "é"), ("#x41", 0, "A"), ("#", 10, ""), ("#65;&#66", 10, ""), ("x", 21, "")]
    {
        let mut t = in_suite("<system-out>&r;</system-out>");
        let at = t.table.events.iter().position(|e| e[0] == 5).unwrap();
        t.table.events[at][1] = t.table.source.len() as u32;
        t.table.events[at][2] = name.len() as u32;
        t.table.source.extend_from_slice(name.as_bytes());
        assert!(crates(&t).unwrap_err().starts_with("unrecognized entity"));
        let (got, report) = here(&t);
        assert_eq!(got, number, "{name}");
        if let Some(report) = report {
            assert_eq!(report.test_suites[0].system_out.as_deref(), Some(text));
        }
    }
}

#[test]
fn what_the_crate_decides() {
    let t = in_suite("<system-out><system-out></system-out>a</system-out>");
    assert_eq!(here(&t).1.unwrap().test_suites[0].system_out.as_deref(), Some(""));
    let t = Input::new(lenient::tokenized(b"<testsuites name=\"a\"/><testsuites/>"));
    assert_eq!(here(&t).1.unwrap().name.as_deref(), None);
    let t = Input::new(lenient::tokenized(b"<testsuites/><testsuite name=\"\" a=\"1\" &#97;=\"2\"/>"));
    let extras: Vec<_> = here(&t).1.unwrap().test_suites[0].extra.iter().map(|(k, v)| (k.to_string(), v.to_string())).collect();
    assert_eq!(extras, [("a".to_string(), "2".to_string())]);
}

#[test]
fn forms_of_values() {
    let with =
        |key: &str, value: &str| here(&Input::new(lenient::tokenized(format!("<testsuites {key}=\"{value}\"/>").as_bytes()))).0;
    for (key, value, number) in [
        ("time", "8388607.999999999", 0),
        ("time", "8388608", 5),
        ("time", "1e0", 5),
        ("time", "0.0000000000", 5),
        ("time", ".5", 0),
        ("time", ".", 5),
        ("timestamp", "2000-02-29T00:00:00Z", 0),
        ("timestamp", "1900-02-29T00:00:00Z", 4),
        ("timestamp", "2016-12-31T23:59:60Z", 4),
        ("timestamp", "2000-01-01T00:00:00.0000000000Z", 4),
        ("timestamp", "2000-01-01 00:00:00Z", 4),
        ("timestamp", "2000-01-01T00:00:00UTC", 4),
        ("timestamp", "2000-01-01T00:00:00+24:00", 4),
        ("timestamp", "2000-01-01t00:00:00.1-23:59", 0),
        ("uuid", "01234567-89ab-CDEF-0123-456789abcdef", 0),
        ("uuid", "00000000000000000000000000000000", 6),
        ("uuid", "", 6),
        ("tests", "+5", 0),
        ("tests", "18446744073709551616", 3),
        ("tests", "&#53;", 3),
    ] {
        assert_eq!(with(key, value), number, "{key}={value}");
    }
}

#[test]
fn the_crates_document() {
    let case = "<testcase name='a'><flakyError>d<system-out>o</system-out></flakyError></testcase>";
    let source = format!("<testsuites name='r' time='0.0005'><testsuite name='s'>{case}</testsuite></testsuites>");
    let t = Input::new(lenient::tokenized(source.as_bytes()));
    let report = here(&t).1.unwrap();
    let (_, document) = report::serialized(&report);
    let want = "<?xml version=\"1.0\" encoding=\"UTF-8\"?>\n<testsuites name=\"r\" tests=\"0\" skipped=\"0\" failures=\"0\" errors=\"0\" time=\"0.001\">\n    \
                <testsuite name=\"s\" tests=\"0\" skipped=\"0\" errors=\"0\" failures=\"0\">\n        <testcase name=\"a\">\n            <flakyError>d\n                \
                <system-out>o</system-out>\n            </flakyError>\n        </testcase>\n    </testsuite>\n</testsuites>\n";
    assert_eq!(String::from_utf8_lossy(&document), want);
}

#[test]
fn shrinking() {
    // what has a Start `failure` differs: it is all that is left
    let input = in_case("<system-out>long text</system-out><failure message=\"m\">d</failure>");
    let small = shrink::shrunk(&input, &mut |i| {
        i.table.events.iter().any(|e| e[0] == 0 && i.table.source.get(e[1] as usize..(e[1] + e[2]) as usize) == Some(b"failure"))
    });
    assert_eq!(small.table.events.len(), 1);
    assert_eq!(small.table.source, b"failure");
    let small = shrink::shrunk_bytes(b"<a><b x='1'/>text<!--c--></a>", &mut |s| s.windows(3).any(|w| w == b"!--"));
    assert_eq!(small, b"!--");
}

#[test]
fn every_rule_has_a_counter() {
    let page = std::fs::read_to_string(concat!(env!("CARGO_MANIFEST_DIR"), "/../../docs/RULES.md")).unwrap();
    for kind in [crate::coverage::Kind::Tables, crate::coverage::Kind::Documents, crate::coverage::Kind::Programs] {
        let (_, never) = crate::coverage::Coverage::here().told(&page, kind, false);
        let wrong: Vec<_> = never.iter().filter(|n| n.contains("no counter") || n.contains("no such rule")).collect();
        assert!(wrong.is_empty(), "{wrong:?}");
    }
}
