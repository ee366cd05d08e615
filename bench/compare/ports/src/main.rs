//! ports/rust on N tables and documents: what it answers against the crate. Under a sanitizer this runs the port's own code.
use compare::{changes, compare::cleans_to_hostname, documents::Documents, generator::Generator, random::Random, reference, report, table::Input};
use kerzhoma::{Areas, Status, Table, TableBuf, Tree};
use quick_junit::{Report, TestCaseStatus};
use quick_xml::replay;

fn same(name: &str, seed: u64, good: bool) {
    if !good {
        eprintln!("seed {seed}: {name} differs");
        std::process::exit(1);
    }
}

/// The tree's texts and runs, walked, against the report's.
fn walk(tree: &Tree<'_>, report: &Report) -> bool {
    let mut good = tree.name() == report.name.as_deref() && tree.suites().count() == report.test_suites.len();
    good &= tree.uuid().is_some() == report.uuid.is_some() && tree.time() == report.time;
    for (suite, want) in tree.suites().zip(&report.test_suites) {
        good &= suite.name() == want.name.as_str() && suite.system_out() == want.system_out.as_deref() && suite.time() == want.time;
        let host = want.extra.iter().find(|(key, _)| key.as_str() == "hostname").map(|(_, value)| value.as_str());
        good &= suite.hostname() == host && suite.extras().count() + host.iter().count() == want.extra.len();
        good &= suite.properties().count() == want.properties.len();
        good &= suite.cases().count() == want.test_cases.len();
        for (case, want) in suite.cases().zip(&want.test_cases) {
            good &= case.name() == want.name.as_str() && case.classname() == want.classname.as_deref();
            good &= case.assertions() == want.assertions.map(|n| n as u64) && case.system_err() == want.system_err.as_deref();
            good &= case.properties().count() == want.properties.len() && case.extras().count() == want.extra.len();
            good &= match (case.status(), &want.status) {
                (Status::Success { flaky_runs }, TestCaseStatus::Success { flaky_runs: want }) => flaky_runs.count() == want.len(),
                (Status::NonSuccess { message, reruns, .. }, TestCaseStatus::NonSuccess { message: want, reruns: runs, .. }) => {
                    let texts = reruns
                        .runs
                        .clone()
                        .zip(&runs.runs)
                        .all(|(a, b)| a.stack_trace() == b.stack_trace.as_deref() && a.time() == b.time);
                    message == want.as_deref() && reruns.runs.count() == runs.runs.len() && texts
                }
                (Status::Skipped { description, .. }, TestCaseStatus::Skipped { description: want, .. }) => {
                    description == want.as_deref()
                }
                _ => false,
            };
        }
    }
    good
}

fn table(seed: u64, input: &Input) -> bool {
    let bytes = input.to_bytes();
    let (owned, used) = TableBuf::from_bytes(&bytes).expect("a table's own bytes");
    same("the file's length", seed, used == bytes.len());
    let (events, attributes) = (input.events(), input.attributes());
    let table = Table::new(&events, &attributes, &input.table.source);
    same("the file", seed, owned.as_table().to_bytes() == bytes || input.loose != [0, 0]);
    let want = reference::read(input, replay::Areas::limits(), changes());
    let mut areas = Areas::for_table(&table);
    let mut spare = Areas::for_table(&table);
    let listing = kerzhoma::public_listing(&table, &mut spare);
    same("areas behind a public listing", seed, spare.is_clear());
    let one = kerzhoma::read_and_list(&table, &mut spare);
    match (kerzhoma::read(&table, &mut areas), want.result) {
        (Ok(tree), Ok(want)) => {
            let listed = report::listing(&want.report);
            same(
                "listing",
                seed,
                kerzhoma::list(&tree).ok().as_deref() == Some(&listed) && listing == listed && one.ok().as_deref() == Some(&listed),
            );
            if cleans_to_hostname(input) {
                return true;
            }
            same("the tree", seed, walk(&tree, &want.report));
            let (written, _) = report::written(&want.report, true);
            let got = kerzhoma::write(&tree).map(|t| t.as_table().to_bytes());
            same("writing", seed, got.ok() == Some(Input::new(written).to_bytes()));
            let starts = kerzhoma::starts(&tree).map(|s| s.is_some());
            same("starts", seed, starts.ok() == Some(report::starts(&want.report).is_some()));
            let again = Tree::from_layout(tree.records(), tree.text().as_bytes()).is_ok();
            same("the layout", seed, again);
            true
        }
        (Err(got), Err(want)) => {
            let none = |n: u32| (n != u32::MAX).then_some(n);
            let place = got.number() == want.number && got.event() == none(want.event) && got.attribute() == none(want.attribute);
            same("the refusal", seed, place && got.path().count() == want.path.len() && listing == "(refused)\n" && one.is_err());
            let line = kerzhoma::explain(&got, &table);
            same("the refusal's line", seed, line.starts_with(&format!("refused {}", want.number)) && line.ends_with('\n'));
            false
        }
        _ => {
            same("reading", seed, false);
            false
        }
    }
}

fn document(seed: u64) {
    let source = Documents { r: Random::new(seed) }.document();
    let listed = kerzhoma::read_and_list_xml(&source);
    match kerzhoma::tokenize(&source) {
        Ok(t) => {
            let mut areas = Areas::for_table(&t.as_table());
            let list = kerzhoma::public_listing(&t.as_table(), &mut areas);
            same("a document's listing", seed, listed.unwrap_or("(refused)\n".into()) == list);
        }
        Err(e) => {
            let line = kerzhoma::explain_xml(&e, &source);
            same(
                "a document's line",
                seed,
                listed.is_err() && line.starts_with(&format!("refused {}", e.number())) && line.ends_with('\n'),
            );
        }
    }
}

fn main() {
    let n: u64 = std::env::args().nth(1).and_then(|n| n.replace(',', "").parse().ok()).expect("how many tables");
    let mut accepted = 0u64;
    for seed in 0..n {
        let input = Generator::new(Random::new(seed), "mix").table();
        accepted += table(seed, &input) as u64;
        document(seed);
    }
    println!("{n} tables, {accepted} of them accepted, and {n} documents through ports/rust: no difference");
}
