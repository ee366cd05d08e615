//! The programs `list`, `write`, `write_xml` and `list_xml` (rules P1 to P6 and N12), each started for each table or document.
use crate::{
    compare::{cleans_to_hostname, differing, Bench, Compared},
    documents::Documents,
    generator::Generator,
    random::Random,
    reference,
    report::{listing, written},
    sys,
    table::{Input, Table},
};
use cover::{hit, hit_if};
use quick_xml::replay::Areas;
use std::{
    io::Write,
    path::Path,
    process::{Command, Stdio},
};

const BUFFER: usize = 65_536;
const REFUSED: &[u8] = b"(refused)\n";

fn run(program: &Path, input: &[u8]) -> Result<Vec<u8>, String> {
    let told = |e: std::io::Error| format!("{}: {e}", program.display());
    let mut child = Command::new(program).stdin(Stdio::piped()).stdout(Stdio::piped()).spawn().map_err(told)?;
    // a program may end before it has read all
    let _ = child.stdin.take().unwrap().write_all(input);
    let done = child.wait_with_output().map_err(told)?;
    hit!("P4", "the status is 0");
    if done.status.success() {
        Ok(done.stdout)
    } else {
        Err(format!("{} ended with {}", program.display(), done.status))
    }
}

fn fits(t: &Table) -> bool {
    20 * t.events.len() <= BUFFER && 20 * t.attributes.len() <= BUFFER && t.source.len() <= BUFFER
}

fn same(name: &str, want: &[u8], got: &[u8]) -> Compared {
    let lines = || differing(&String::from_utf8_lossy(want), &String::from_utf8_lossy(got));
    if want == got {
        Ok(())
    } else {
        Err(format!("the program {name}:\n{}", lines()))
    }
}

impl Bench {
    pub fn programs(&mut self, seed: u64, folder: &Path) -> Compared {
        self.tally.tables += 1;
        let mut g = Generator::new(Random::new(seed), "mix");
        let mut input = g.table();
        input.loose = [0, 0];
        let r = &mut g.r;
        if r.one(20) {
            let n = 3270 + r.index(12);
            input.table.events.resize(n, [6, 0, 0, 0, 0]);
        }
        let mut bytes = input.to_bytes();
        let cut = r.one(12);
        match (cut, r.one(6)) {
            (true, _) => bytes.truncate(r.index(bytes.len())),
            (_, true) => {
                hit!("P1", "bytes behind the table");
                bytes.extend_from_slice(b"more is ignored")
            }
            _ => hit!("P1", "a table"),
        }
        if cut {
            hit!("P2", "cut off");
        } else {
            hit_if!(fits(&input.table), "P2", "a buffer suffices", "longer than a buffer");
        }
        let areas = Areas { records: 512, text: BUFFER, scratch: BUFFER };
        hit!("P3", "a buffer for each area");
        let read = if cut || !fits(&input.table) { None } else { reference::read(&input, areas, self.changes).result.ok() };
        let listed =
            read.as_ref().map(|r| listing(&r.report).into_bytes()).filter(|l| l.len() <= BUFFER).unwrap_or(REFUSED.to_vec());
        hit_if!(listed == REFUSED, "P4", "(refused)", "a listing");
        same("list", &listed, &run(&folder.join("list"), &bytes)?)?;
        if self.changes.hostname && read.is_some() && cleans_to_hostname(&input) {
            return self.document_program(seed, folder);
        }
        let (table, document) = read.map(|r| written(&r.report, self.changes.hostname)).unzip();
        let table = table.filter(fits).map_or(REFUSED.to_vec(), |t| Input::new(t).to_bytes());
        hit_if!(table == REFUSED, "P5", "(refused)", "a table");
        same("write", &table, &run(&folder.join("write"), &bytes)?)?;
        let document = document.filter(|d| d.len() <= BUFFER).unwrap_or(REFUSED.to_vec());
        hit_if!(document == REFUSED, "P6", "(refused)", "a table's document");
        same("write_xml", &document, &run(&folder.join("write_xml"), &bytes)?)?;
        self.document_program(seed, folder)
    }

    fn document_program(&mut self, seed: u64, folder: &Path) -> Compared {
        let mut d = Documents { r: Random::new(seed) };
        let mut source = d.document();
        if d.r.one(30) {
            source.extend(std::iter::repeat_n(b' ', BUFFER - source.len() + d.r.index(3)));
        }
        let (mut events, mut attributes) = (vec![7u32; BUFFER / 4], vec![7u32; BUFFER / 4]);
        let t = sys::tokenize(&source, &mut events, &mut attributes);
        let five = |words: &[u32], n: u32| words.chunks(5).take(n as usize).map(|c| c.try_into().unwrap()).collect();
        let read = if t.number == 0 && source.len() <= BUFFER {
            let table =
                Table { events: five(&events, t.events), attributes: five(&attributes, t.attributes), source: source.clone() };
            let areas = Areas { records: 512, text: BUFFER, scratch: BUFFER };
            reference::read(&Input::new(table), areas, self.changes).result.ok()
        } else {
            None
        };
        let want =
            read.as_ref().map(|r| listing(&r.report).into_bytes()).filter(|l| l.len() <= BUFFER).unwrap_or(REFUSED.to_vec());
        hit_if!(source.len() > BUFFER, "N12", "a document that is too long", "a document");
        hit_if!(want == REFUSED, "N12", "(refused)", "a listing");
        same("list_xml", &want, &run(&folder.join("list_xml"), &source)?)?;
        let document = read.map(|r| written(&r.report, self.changes.hostname).1).filter(|d| d.len() <= BUFFER);
        hit_if!(document.is_none(), "P6", "no document", "a document's document");
        same("write_xml", &document.unwrap_or(REFUSED.to_vec()), &run(&folder.join("write_xml"), &source)?)
    }
}
