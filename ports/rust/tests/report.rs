//! The stored reports as owned values: decoded, laid out, written and read again.
mod common;

use common::{replayed, repository, Random};
use kerzhoma::report::chrono::{DateTime, FixedOffset, Utc};
use kerzhoma::report::indexmap::IndexMap;
use kerzhoma::report::{self, DeserializeErrorKind, LimitError, PathElement, Report, SerializeErrorKind, TestCase, TestCaseStatus};
use kerzhoma::report::{NonSuccessReruns, Property, TestRerun, TestSuite, XmlString};
use kerzhoma::*;
use std::error::Error;
use std::time::{Duration, SystemTime};
use std::{fs, io};

fn owned(text: Option<&str>) -> Option<XmlString> {
    text.map(XmlString::new)
}

fn moment(t: Option<Timestamp>) -> Option<DateTime<FixedOffset>> {
    t.map(|t| t.try_into().unwrap())
}

fn runs(runs: Runs<'_>) -> Vec<TestRerun> {
    runs.map(|run| {
        let mut owned_run = TestRerun::new(run.kind());
        owned_run.timestamp = moment(run.timestamp());
        owned_run.time = run.time();
        owned_run.message = owned(run.message());
        owned_run.ty = owned(run.ty());
        owned_run.stack_trace = owned(run.stack_trace());
        owned_run.system_out = owned(run.system_out());
        owned_run.system_err = owned(run.system_err());
        owned_run.description = owned(run.description());
        owned_run
    })
    .collect()
}

fn case_of(case: Case<'_>) -> TestCase {
    let status = match case.status() {
        Status::Success { flaky_runs } => TestCaseStatus::Success { flaky_runs: runs(flaky_runs) },
        Status::NonSuccess { kind, message, ty, description, reruns } => TestCaseStatus::NonSuccess {
            kind,
            message: owned(message),
            ty: owned(ty),
            description: owned(description),
            reruns: NonSuccessReruns { kind: reruns.kind, runs: runs(reruns.runs) },
        },
        Status::Skipped { message, ty, description } => {
            TestCaseStatus::Skipped { message: owned(message), ty: owned(ty), description: owned(description) }
        }
    };
    let mut owned_case = TestCase::new(case.name(), status);
    owned_case.classname = owned(case.classname());
    owned_case.assertions = case.assertions().map(|n| n as usize);
    owned_case.timestamp = moment(case.timestamp());
    owned_case.time = case.time();
    owned_case.system_out = owned(case.system_out());
    owned_case.system_err = owned(case.system_err());
    owned_case.extra.extend(case.extras().map(|(k, v)| (k.into(), v.into())));
    owned_case.add_properties(case.properties().map(|p| Property::new(p.name, p.value)));
    owned_case
}

// The same report by the tree's iterators.
fn by_iterators(tree: &Tree<'_>) -> Report {
    let mut report = Report::unnamed();
    report.name = owned(tree.name());
    tree.uuid().map(|uuid| report.set_uuid(uuid.into()).tests);
    report.timestamp = moment(tree.timestamp());
    report.time = tree.time();
    let c = tree.counts();
    (report.tests, report.failures) = (c.tests as usize, c.failures as usize);
    (report.errors, report.skipped) = (c.errors as usize, c.skipped as usize);
    report.disabled = c.disabled.map(|n| n as usize);
    for suite in tree.suites() {
        let mut owned_suite = TestSuite::new(suite.name());
        let c = suite.counts();
        (owned_suite.tests, owned_suite.failures) = (c.tests as usize, c.failures as usize);
        (owned_suite.errors, owned_suite.skipped) = (c.errors as usize, c.skipped as usize);
        owned_suite.disabled = c.disabled.map(|n| n as usize);
        owned_suite.timestamp = moment(suite.timestamp());
        owned_suite.time = suite.time();
        owned_suite.system_out = owned(suite.system_out());
        owned_suite.system_err = owned(suite.system_err());
        owned_suite.extra.extend(suite.hostname().map(|s| ("hostname".into(), s.into())));
        owned_suite.extra.extend(suite.extras().map(|(k, v)| (k.into(), v.into())));
        owned_suite.add_properties(suite.properties().map(|p| Property::new(p.name, p.value)));
        owned_suite.test_cases.extend(suite.cases().map(case_of));
        report.test_suites.push(owned_suite);
    }
    report
}

// The documents of the stored reports, and those that people write.
fn documents() -> Vec<Vec<u8>> {
    let mut documents = Vec::new();
    for table in replayed() {
        let mut areas = Areas::for_table(&table.as_table());
        let Ok(tree) = read(&table.as_table(), &mut areas) else { continue };
        documents.push(to_xml(&tree).unwrap().into_bytes());
    }
    for folder in ["example", "example/refused", "ports/rust/tests/reports", "ports/rust/tests/refused"] {
        let Ok(files) = fs::read_dir(repository(folder)) else { continue };
        let mut files: Vec<_> = files.map(|f| f.unwrap().path()).filter(|f| f.extension().is_some_and(|e| e == "xml")).collect();
        files.sort();
        documents.extend(files.iter().map(|f| fs::read(f).unwrap()));
    }
    documents
}

#[test]
fn stored_trees_decoded_and_laid_out() {
    let mut seen = 0;
    for table in replayed() {
        let mut areas = Areas::for_table(&table.as_table());
        let Ok(tree) = read(&table.as_table(), &mut areas) else { continue };
        let report = Report::from(&tree);
        assert_eq!(report, by_iterators(&tree));
        let layout = report.layout().unwrap();
        assert_eq!(list(&layout.tree()), list(&tree));
        assert_eq!(Report::from(&layout.tree()), report);
        if !has_equal_extras(&tree) {
            assert_eq!(write(&layout.tree()), write(&tree));
            assert_eq!(report.to_string().unwrap(), to_xml(&tree).unwrap());
        }
        seen += 1;
    }
    assert!(seen > 180, "{seen}");
}

// What is written may differ from what was read: texts are trimmed, and times cut, once. Then the types come back equal.
#[test]
fn documents_come_back_equal() {
    let (mut accepted, mut refused) = (0, 0);
    for document in documents() {
        let table = tokenize(&document);
        let mut areas = table.as_ref().map_or(Areas::default(), |t| Areas::for_table(&t.as_table()));
        let tree = match &table {
            Ok(table) => read(&table.as_table(), &mut areas).ok(),
            Err(_) => None,
        };
        let owned = Report::deserialize(document.as_slice());
        let Some(tree) = tree else {
            owned.unwrap_err();
            refused += 1;
            continue;
        };
        let owned = owned.unwrap();
        assert_eq!(owned, Report::from(&tree));
        let written = owned.to_string().unwrap();
        assert!(has_equal_extras(&tree) || written == to_xml(&tree).unwrap());
        let again = match Report::deserialize_from_str(&written) {
            Ok(again) => again,
            // an extra's key that is no name, or a character that XML doesn't have
            Err(e) => {
                assert!(matches!(e.kind(), DeserializeErrorKind::XmlError(_)), "{e}");
                refused += 1;
                continue;
            }
        };
        let mut bytes = Vec::new();
        again.serialize(&mut bytes).unwrap();
        let third = Report::deserialize(bytes.as_slice()).unwrap();
        assert_eq!(third, again);
        assert_eq!(third.to_string().unwrap().as_bytes(), bytes);
        accepted += 1;
    }
    assert!(accepted > 140 && refused > 0, "{accepted} {refused}");
}

// Whether owned values tell less than the tree, or in another order: extras with one key, or a suite's extra `hostname`.
fn has_equal_extras(tree: &Tree<'_>) -> bool {
    let twice = |extras: Extras<'_>| {
        let keys: Vec<&str> = extras.map(|(k, _)| k).collect();
        keys.iter().enumerate().any(|(i, k)| keys[..i].contains(k))
    };
    let named = |mut extras: Extras<'_>| extras.any(|(k, _)| k == "hostname");
    tree.suites().any(|s| twice(s.extras()) || named(s.extras()) || s.cases().any(|c| twice(c.extras())))
}

// Layouts that reading doesn't leave: words of the stored ones are changed, and what is still a layout is decoded.
#[test]
fn changed_layouts() {
    let mut random = Random(0x9e37_79b9_7f4a_7c15);
    let mut seen = 0;
    for table in replayed() {
        let mut areas = Areas::for_table(&table.as_table());
        let Ok(tree) = read(&table.as_table(), &mut areas) else { continue };
        for _ in 0..40 {
            let (mut records, text) = (tree.records().to_vec(), tree.text().as_bytes());
            let (i, j) = (random.below(records.len()), random.below(records.len() / 32) * 32);
            match random.below(4) {
                0 => records[i] = random.below(20) as u32,
                1 => records[j] ^= 16,
                2 => records[j] = random.below(15) as u32,
                // a record and the next change places
                _ if j + 64 <= records.len() => records[j..j + 64].rotate_left(32),
                _ => {}
            }
            let Ok(changed) = Tree::from_layout(&records, text) else { continue };
            let report = Report::from(&changed);
            assert_eq!(report, by_iterators(&changed));
            if !has_equal_extras(&changed) {
                assert_eq!(report.to_string().unwrap(), to_xml(&changed).unwrap());
            }
            seen += 1;
        }
    }
    assert!(seen > 1_000, "{seen}");
}

// Documents with bytes changed: the same ones are accepted, and errors have the path of the refusal.
#[test]
fn spoiled_documents() {
    let mut random = Random(0x2545_f491_4f6c_dd1d);
    let (mut accepted, mut refused, mut broken) = (0, 0, 0);
    for document in documents() {
        for _ in 0..12 {
            let mut document = document.clone();
            for _ in 0..=random.below(3) {
                let i = random.below(document.len());
                let bytes = b"<>&;\"'=/ ax1-.:";
                if let Some(byte) = document.get_mut(i) {
                    *byte = bytes[random.below(bytes.len())];
                }
            }
            let owned = Report::deserialize(document.as_slice());
            let Ok(table) = tokenize(&document) else {
                let error = owned.unwrap_err();
                assert!(matches!(error.kind(), DeserializeErrorKind::XmlError(_)) && error.path().is_empty());
                broken += 1;
                continue;
            };
            match read(&table.as_table(), &mut Areas::for_table(&table.as_table())) {
                Ok(tree) => {
                    assert_eq!(owned.unwrap(), Report::from(&tree));
                    accepted += 1;
                }
                Err(refusal) => {
                    let error = owned.unwrap_err();
                    let plain = |e: &PathElement| match e {
                        PathElement::TestSuite(i, _) => PathElement::TestSuite(*i, None).to_string(),
                        PathElement::TestCase(i, _) => PathElement::TestCase(*i, None).to_string(),
                        e => e.to_string(),
                    };
                    assert!(error.path().iter().map(plain).eq(refusal.path().map(|e| e.to_string())));
                    assert!(!error.to_string().is_empty());
                    refused += 1;
                }
            }
        }
    }
    assert!(accepted > 100 && refused > 100 && broken > 1_000, "{accepted} {refused} {broken}");
}

#[test]
fn many_extras() {
    let mut document = "<testsuites><testsuite name='s'".to_owned();
    for i in 0..60_000 {
        document += &format!(" k{i}='v'");
    }
    let report = Report::deserialize_from_str(&(document + "/></testsuites>")).unwrap();
    let extra = &report.test_suites[0].extra;
    assert_eq!((extra.len(), extra["k59999"].as_str(), extra.get_index_of("k123")), (60_000, "v", Some(123)));
    assert_eq!(report.clone(), report);
}

// A suite's `hostname` is a field of the tree, and the first extra of the owned suite. Areas for writing and merging count its bytes.
#[test]
fn a_suites_hostname() {
    let host = "h<".repeat(5_000);
    let mut report = Report::new("r");
    let mut suite = TestSuite::new("s");
    suite.extra.extend([("package".into(), "p".into()), ("hostname".into(), XmlString::new(&host))]);
    report.add_test_suite(suite);
    let layout = report.layout().unwrap();
    let tree = layout.tree();
    let told: Vec<_> = tree.suites().map(|s| (s.hostname(), s.extras().collect::<Vec<_>>())).collect();
    assert_eq!(told, [(Some(host.as_str()), vec![("package", "p")])]);

    let again = Report::deserialize_from_str(&report.to_string().unwrap()).unwrap();
    assert_eq!(again, report);
    assert_eq!(again.test_suites[0].extra.keys().map(|k| k.as_str()).collect::<Vec<_>>(), ["hostname", "package"]);
    let mut areas = Areas::for_merging(&tree, &tree);
    let merged = merge(&tree, &tree, &mut areas).unwrap();
    assert!(merged.suites().all(|s| s.hostname() == Some(&host)));
    assert_eq!(merged.suites().count(), 2);
}

#[test]
fn refusals_are_errors() {
    let mut kinds = std::collections::BTreeSet::new();
    for table in replayed() {
        // the document of a table that is refused: its events spelled out, where they make one
        let mut areas = Areas::for_table(&table.as_table());
        if let Err(refusal) = read(&table.as_table(), &mut areas) {
            kinds.insert(refusal.number());
        }
    }
    assert!(kinds.len() > 8, "{kinds:?}");
    let error = Report::deserialize_from_str("<testsuites>\n\u{e9}<</testsuites>").unwrap_err();
    let DeserializeErrorKind::XmlError(e) = error.kind() else { panic!("{error:?}") };
    assert_eq!((e.number(), e.byte(), e.line(), e.column()), (18, Some(16), 2, 3));
    assert!(
        error.path().is_empty() && error.source().unwrap().to_string().starts_with("refused 18 at byte 16, line 2, column 3: ")
    );
}

#[test]
fn readers_and_writers_that_fail() {
    struct Broken;
    impl io::Read for Broken {
        fn read(&mut self, _: &mut [u8]) -> io::Result<usize> {
            Err(io::Error::other("broken"))
        }
    }
    impl io::Write for Broken {
        fn write(&mut self, _: &[u8]) -> io::Result<usize> {
            Err(io::Error::other("broken"))
        }
        fn flush(&mut self) -> io::Result<()> {
            Ok(())
        }
    }
    let error = Report::deserialize(io::BufReader::new(Broken)).unwrap_err();
    assert!(matches!(error.kind(), DeserializeErrorKind::IoError(_)) && error.source().unwrap().to_string() == "broken");
    let error = Report::new("r").serialize(Broken).unwrap_err();
    assert!(matches!(error.kind(), SerializeErrorKind::Io(_)));
    assert_eq!(error.to_string(), "error serializing JUnit report");
    assert_eq!(error.source().unwrap().source().unwrap().to_string(), "broken");
}

#[test]
fn above_the_limits() {
    let error = Report::deserialize_from_str(&" ".repeat(limits::SOURCE + 1)).unwrap_err();
    assert!(matches!(error.kind(), DeserializeErrorKind::LimitError(LimitError::Document(r)) if r.number() == 11), "{error}");
    let error = Report::deserialize(io::BufReader::new(io::repeat(b' '))).unwrap_err();
    assert!(matches!(error.kind(), DeserializeErrorKind::LimitError(LimitError::Document(r)) if r.number() == 11), "{error}");

    let mut suite = TestSuite::new("lab");
    suite.add_test_cases((0..limits::RECORDS).map(|_| TestCase::new("a", TestCaseStatus::success())));
    let mut report = Report::new("r");
    report.add_test_suite(suite);
    let error = report.to_string().unwrap_err();
    assert!(matches!(error.kind(), SerializeErrorKind::Refused(r) if r.number() == 12), "{:?}", error.kind());
    report.test_suites[0].test_cases.truncate(limits::RECORDS - 2);
    assert!(report.to_string().is_ok());

    let mut report = Report::new("r");
    report.add_test_suite(TestSuite::new("lab"));
    report.test_suites[0].set_system_out("x".repeat(limits::BYTES));
    let error = report.to_string().unwrap_err();
    assert!(matches!(error.kind(), SerializeErrorKind::Refused(r) if r.number() == 13), "{:?}", error.kind());

    let mut case = TestCase::new("a", TestCaseStatus::success());
    case.set_time(Duration::from_secs(8_388_608));
    let mut suite = TestSuite::new("lab");
    suite.add_test_case(case);
    let mut report = Report::new("r");
    report.add_test_suite(suite);
    let error = report.to_string().unwrap_err();
    assert!(matches!(error.kind(), SerializeErrorKind::TimeTooLong(_)));
    let path: Vec<String> = error.path().iter().map(PathElement::to_string).collect();
    assert_eq!(path.join("/"), "testsuites/testsuite[0](\"lab\")/testcase[0](\"a\")/@time");
}

#[test]
fn moments() {
    let mut random = Random(7);
    for _ in 0..2_000 {
        let seconds = (random.next() % 315_500_000_000) as i64 - 62_160_000_000;
        let moment = DateTime::from_timestamp(seconds, random.below(1_000_000_000) as u32).unwrap();
        assert_eq!(moment.timestamp(), seconds);
        let zone = FixedOffset::east_opt((random.below(2_879) as i32 - 1_439) * 60).unwrap();
        let there = moment.with_timezone(&zone);
        assert_eq!(there, moment);
        assert_eq!(there.offset(), zone);
        assert_eq!(there.to_rfc3339().parse::<DateTime<FixedOffset>>().unwrap().to_rfc3339(), there.to_rfc3339());
        assert_eq!(SystemTime::from(there), SystemTime::from(moment));
        assert_eq!(DateTime::<Utc>::from(SystemTime::from(moment)), moment);
    }
    assert!(FixedOffset::east_opt(30).is_none() && FixedOffset::west_opt(86_400).is_none());
    let good = ["2024-02-29T23:59:59Z", "0000-01-01T00:00:00+23:59", "9999-12-31t00:00:00.123456789-23:59"];
    assert!(good.iter().all(|s| DateTime::parse_from_rfc3339(s).is_ok()));
    let bad = [
        "",
        "2023-02-29T00:00:00Z",
        "2024-01-01T00:00:60Z",
        "2024-01-01T00:00:00",
        "2024-01-01T00:00:00.Z",
        "2024-01-01T24:00:00Z",
    ];
    assert!(bad.iter().all(|s| DateTime::parse_from_rfc3339(s).is_err()));
    let mail = DateTime::parse_from_rfc2822("Thu, 1 Apr 2021 10:52:37 -0800").unwrap();
    assert_eq!(mail.to_rfc3339(), "2021-04-01T10:52:37-08:00");
    assert!(DateTime::parse_from_rfc2822("Fri, 1 Apr 2021 10:52:37 -0800").is_err());
    assert!(Utc::now() > mail);
}

#[test]
fn maps() {
    let mut random = Random(3);
    let mut map: IndexMap<XmlString, usize> = IndexMap::new();
    let mut pairs: Vec<(String, usize)> = Vec::new();
    for i in 0..3_000 {
        let key = format!("k{}", random.below(200));
        let place = pairs.iter().position(|p| p.0 == key);
        match random.below(5) {
            0 => assert_eq!(map.shift_remove(key.as_str()), place.map(|p| pairs.remove(p).1)),
            1 => assert_eq!(map.swap_remove(key.as_str()), place.map(|p| pairs.swap_remove(p).1)),
            _ => {
                assert_eq!(map.insert(key.as_str().into(), i), place.map(|p| std::mem::replace(&mut pairs[p].1, i)));
                if place.is_none() {
                    pairs.push((key.clone(), i));
                }
            }
        }
        assert_eq!(map.get(key.as_str()), pairs.iter().find(|p| p.0 == key).map(|p| &p.1));
    }
    assert!(map.iter().map(|(k, v)| (k.as_str(), *v)).eq(pairs.iter().map(|(k, v)| (k.as_str(), *v))));
    let reversed: IndexMap<XmlString, usize> = pairs.iter().rev().map(|(k, v)| (k.into(), *v)).collect();
    assert_eq!(map, reversed);
    map.retain(|_, v| *v % 2 == 0);
    assert_ne!(map, reversed);
    assert_eq!(map.len(), map.keys().filter(|k| map.contains_key(k.as_str())).count());
}

#[test]
fn counts_and_statuses() {
    let mut status = TestCaseStatus::success();
    status.set_message("x").set_type("x").set_description("x").set_rerun_kind(FlakyOrRerun::Rerun);
    assert_eq!(status, TestCaseStatus::success());
    let mut status = TestCaseStatus::skipped();
    status.add_rerun(TestRerun::new(NonSuccessKind::Error));
    assert_eq!(status, TestCaseStatus::skipped());

    let mut suite = TestSuite::new("lab");
    suite.disabled = Some(2);
    suite.add_test_case(TestCase::new("a", TestCaseStatus::non_success(NonSuccessKind::Error)));
    suite.add_test_case(TestCase::new("b", TestCaseStatus::non_success(NonSuccessKind::Failure)));
    suite.add_test_cases([TestCase::new("c", TestCaseStatus::skipped()), TestCase::new("d", TestCaseStatus::success())]);
    let mut report = Report::unnamed();
    report.add_test_suites([suite.clone(), TestSuite::new("empty"), suite]);
    assert_eq!((report.tests, report.failures, report.errors, report.skipped, report.disabled), (8, 2, 2, 2, Some(4)));
    assert_eq!(report::Output::new("a\u{8}b"), *"ab");
}
