//! The program of ports/rust/tests/quick_junit with quick-junit's own files: prints the document that it builds, and what it shows of it.
//! The stand-in for quick_xml reads no documents, so that part is only compiled here.
#![allow(dead_code)]

include!("../../../../ports/rust/tests/quick_junit/program.rs");

fn main() {
    let report = built();
    print!("{}", written(&report).expect("it is written"));
    if std::env::args().nth(1).as_deref() == Some("--shown") {
        print!("{}", shown(&report));
    }
}
