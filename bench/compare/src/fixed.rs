//! Tables that no seed gives: those at the limits of sizes (rule T8), and the worked example.
use crate::table::{laid_out, Attribute, Event, Input, Table};

fn event(kind: u32, name: &str) -> Event {
    Event { kind, bytes: name.as_bytes().to_vec(), attributes: vec![] }
}

fn named(kind: u32, name: &str, keys: &[(&str, &str)]) -> Event {
    let attributes =
        keys.iter().map(|(k, v)| Attribute { mark: 0, key: k.as_bytes().to_vec(), value: v.as_bytes().to_vec() }).collect();
    Event { attributes, ..event(kind, name) }
}

/// Each with what it is.
pub fn tables() -> Vec<(&'static str, Input)> {
    let around = |n: usize| {
        let mut t = laid_out(&[event(0, "testsuites"), event(2, "testsuites")]);
        let end = t.events.pop().unwrap();
        t.events.resize(n - 1, [9, 0, 0, 0, 0]);
        t.events.push(end);
        Input::new(t)
    };
    let attributes = |n: usize| {
        let mut t = laid_out(&[event(1, "testsuites")]);
        t.attributes = vec![[0; 5]; n];
        Input::new(t)
    };
    let bytes = |n: usize| {
        let mut t = laid_out(&[event(1, "testsuites")]);
        t.source.resize(n, b'x');
        Input::new(t)
    };
    let in_case = |events: &[Event]| {
        let mut all = vec![event(0, "testsuites"), named(0, "testsuite", &[("name", "s")]), named(0, "testcase", &[("name", "c")])];
        all.extend_from_slice(events);
        all.extend(["testcase", "testsuite", "testsuites"].map(|n| event(2, n)));
        Input::new(laid_out(&all))
    };
    let mut shared = laid_out(&[event(0, "testsuites"), event(1, "x"), event(2, "testsuites")]);
    shared.attributes = vec![[2, 0, 0, 0, 0]];
    shared.events[0][4] = 1;
    shared.events[1][4] = 1;
    vec![
        ("no events", Input::new(Table::default())),
        ("65,536 events", around(65_536)),
        ("65,537 events", around(65_537)),
        ("65,536 attributes", attributes(65_536)),
        ("65,537 attributes", attributes(65_537)),
        ("16,777,216 bytes", bytes(16_777_216)),
        ("16,777,217 bytes", bytes(16_777_217)),
        ("a bad attribute that two events share", Input::new(shared)),
        ("an Empty output in a failure", in_case(&[event(0, "failure"), event(1, "system-out"), event(2, "failure")])),
        ("an unknown Empty in a failure", in_case(&[event(0, "failure"), event(1, "x"), event(2, "failure")])),
        (
            "a Start property",
            in_case(&[
                event(0, "properties"),
                named(0, "property", &[("name", "a"), ("value", "b")]),
                event(2, "property"),
                event(2, "properties"),
            ]),
        ),
        (
            "a Start property without attributes",
            in_case(&[event(0, "properties"), event(0, "property"), event(2, "property"), event(2, "properties")]),
        ),
        ("a Ref of a number", in_case(&[event(0, "system-out"), event(5, "#233"), event(2, "system-out")])),
        ("a Ref of a bad number", in_case(&[event(0, "system-out"), event(5, "#"), event(2, "system-out")])),
    ]
}
