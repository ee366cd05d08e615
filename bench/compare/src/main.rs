//! See ../README.md.
use compare::{
    changes,
    compare::Bench,
    coverage::{Coverage, Kind},
    explain::Sentences,
    fixed,
    generator::{Generator, PROFILES},
    random::Random,
    shrink::shrunk,
    table::Input,
};
use quick_xml::replay::Changes;
use std::{
    env, fs,
    io::{BufRead, BufReader, Write},
    path::{Path, PathBuf},
    process::{exit, Command, Stdio},
    time::Instant,
};

const USAGE: &str = "usage: compare N                 N tables against the crate
       compare --xml N           N documents against expat
       compare --mutate N PATH.. N changed copies of the tables and documents in these files and folders, against both
       compare --programs N DIR  N tables and documents through the programs list, write, write_xml and list_xml of a folder
       compare --file FILE       one table (as the program `list` takes it) or document, compared and shown
       compare --tables N        N tables to standard output, each behind its length as a word
       compare --replay DIR      the fuzzer's inputs in a folder
       compare --select FROM TO  of the fuzzer's inputs in a folder, those that reach a branch of a rule first, the shortest of them
options: --seed S (the first seed, 0), --profile P, --jobs J (processes, 2), --most D (differences to be shown, 5),
         --rules (every counter), --allow-unreached (rules that are never reached are no failure),
         --with R (the archive has request R: 8, a gathered text alone in scratch; 12, a suite's hostname),
         --wrong W (the library's answers are spoiled; `--wrong list` names the ways)";

/// The row with the milliseconds of processor time.
const TIME: &str = "time";

#[derive(Clone, PartialEq)]
enum Mode {
    Tables,
    Documents,
    Mutate(Vec<PathBuf>),
    Programs(PathBuf),
}

struct Options {
    mode: Mode,
    count: u64,
    seed: u64,
    profile: String,
    jobs: u64,
    part: Option<u64>,
    most: u64,
    rules: bool,
    allow_unreached: bool,
    changes: Changes,
}

fn usage() -> ! {
    eprintln!("{USAGE}");
    exit(2)
}

fn page(name: &str) -> String {
    let path = Path::new(env!("CARGO_MANIFEST_DIR")).join("../../docs").join(name);
    fs::read_to_string(&path).unwrap_or_else(|e| panic!("{}: {e}", path.display()))
}

fn bench(changes: Changes) -> Bench {
    Bench::new(changes, Sentences::from_page(&page("REFUSALS.md")).unwrap_or_else(|e| panic!("{e}")))
}

fn number(word: Option<String>) -> u64 {
    word.and_then(|w| w.replace(['_', ','], "").parse().ok()).unwrap_or_else(|| usage())
}

fn options() -> Options {
    let mut o = Options {
        mode: Mode::Tables,
        count: 0,
        seed: 0,
        profile: "mix".into(),
        jobs: 2,
        part: None,
        most: 5,
        rules: false,
        allow_unreached: false,
        changes: changes(),
    };
    let mut words = env::args().skip(1);
    let mut paths = vec![];
    while let Some(word) = words.next() {
        match word.as_str() {
            "--xml" => o.mode = Mode::Documents,
            "--mutate" => o.mode = Mode::Mutate(vec![]),
            "--programs" => o.mode = Mode::Programs(PathBuf::new()),
            "--seed" => o.seed = number(words.next()),
            "--jobs" => o.jobs = number(words.next()).max(1),
            "--part" => o.part = Some(number(words.next())),
            "--most" => o.most = number(words.next()),
            "--rules" => o.rules = true,
            "--allow-unreached" => o.allow_unreached = true,
            "--profile" => o.profile = words.next().filter(|p| PROFILES.contains(&p.as_str())).unwrap_or_else(|| usage()),
            "--file" => exit(show_file(&PathBuf::from(words.next().unwrap_or_else(|| usage())), o.changes)),
            "--tables" => exit(put_tables(number(words.next()))),
            "--replay" => exit(replay(&PathBuf::from(words.next().unwrap_or_else(|| usage())), None)),
            "--select" => {
                let (from, to) = (words.next().unwrap_or_else(|| usage()), words.next().unwrap_or_else(|| usage()));
                exit(replay(&PathBuf::from(from), Some(&PathBuf::from(to))))
            }
            "--with" => match number(words.next()) {
                8 => o.changes.scratch_alone = true,
                12 => o.changes.hostname = true,
                _ => usage(),
            },
            "--wrong" => {
                let name = words.next().unwrap_or_default();
                if name == "list" || name.is_empty() {
                    compare::calls::WRONG.iter().for_each(|(n, what)| println!("{n}: {what}"));
                    exit(0);
                }
                if !compare::calls::ask_for(&name) {
                    usage();
                }
            }
            w if w.starts_with("--") => usage(),
            w if w.bytes().all(|b| b.is_ascii_digit() || b == b',' || b == b'_') && o.count == 0 => o.count = number(Some(word)),
            _ => paths.push(PathBuf::from(word)),
        }
    }
    match &mut o.mode {
        Mode::Mutate(list) => *list = paths.clone(),
        Mode::Programs(folder) if paths.len() == 1 => *folder = paths[0].clone(),
        Mode::Programs(_) => usage(),
        _ => {}
    }
    if o.count == 0 || (paths.is_empty() == matches!(o.mode, Mode::Mutate(_) | Mode::Programs(_))) {
        usage();
    }
    o
}

/// So many tables, each behind its length, for programs in other languages.
fn put_tables(n: u64) -> i32 {
    let mut out = std::io::BufWriter::new(std::io::stdout().lock());
    for seed in 0..n {
        let bytes = Generator::new(Random::new(seed), "mix").table().to_bytes();
        let done = out.write_all(&(bytes.len() as u32).to_le_bytes()).and_then(|_| out.write_all(&bytes));
        if done.is_err() {
            return 1;
        }
    }
    out.flush().is_err() as i32
}

/// The fuzzer's inputs in a folder, from the shortest on; those that are the first to reach a branch of a rule are put into another.
fn replay(from: &Path, to: Option<&Path>) -> i32 {
    let mut inputs: Vec<(Vec<u8>, PathBuf)> = vec![];
    for file in fs::read_dir(from).unwrap_or_else(|e| panic!("{}: {e}", from.display())).flatten() {
        if let Ok(bytes) = fs::read(file.path()) {
            inputs.push((bytes, file.path()));
        }
    }
    inputs.sort_by(|a, b| (a.0.len(), &a.0).cmp(&(b.0.len(), &b.0)));
    let mut fuzzed = compare::fuzz::Fuzzed::new();
    let reached = || cover::slots().iter().filter(|s| s.count() > 0).count();
    let (mut differences, mut kept) = (0, 0);
    for (bytes, path) in &inputs {
        let before = reached();
        if let Err(e) = fuzzed.one(bytes) {
            println!("{} differs: {e}", path.display());
            differences += 1;
        }
        if let (Some(to), true) = (to, reached() > before) {
            kept += 1;
            fs::write(to.join(format!("{kept:03}")), bytes).unwrap_or_else(|e| panic!("{}: {e}", to.display()));
        }
    }
    println!(
        "{} inputs, {} branches of rules reached, {differences} differ{}",
        inputs.len(),
        reached(),
        if to.is_some() { format!("; {kept} kept") } else { String::new() }
    );
    (differences > 0) as i32
}

fn show_file(path: &Path, changes: Changes) -> i32 {
    let bytes = fs::read(path).unwrap_or_else(|e| panic!("{}: {e}", path.display()));
    let mut bench = bench(changes);
    let result = match Input::from_bytes(&bytes) {
        Some(input) => {
            print!("{}", input.shown());
            (0..64).try_for_each(|how| bench.table(&input, how))
        }
        None => document(&bytes, &mut bench),
    };
    match &result {
        Ok(()) => println!("no difference"),
        Err(e) => println!("{e}"),
    }
    result.is_err() as i32
}

#[cfg(has_expat)]
fn document(bytes: &[u8], bench: &mut Bench) -> Result<(), String> {
    let mut tokens = compare::tokens::Tokens::new();
    (0..64).try_for_each(|how| tokens.document(bytes, how, bench))
}

#[cfg(not(has_expat))]
fn document(_: &[u8], _: &mut Bench) -> Result<(), String> {
    Err("this was built without expat (libexpat1-dev)".into())
}

// ---- one part of a run

struct Part {
    bench: Bench,
    differences: u64,
    most: u64,
}

impl Part {
    /// A difference in a table, shrunk to the smallest one that still differs.
    fn differs(&mut self, what: &str, input: &Input, how: u64) {
        let small = shrunk(input, &mut |i| self.bench.table(i, how).is_err());
        let why = self.bench.table(&small, how).err().unwrap_or_default();
        self.tell(format!("{what} differs; the smallest table that does:\n{}{why}", small.shown()));
    }

    fn tell(&mut self, text: String) {
        self.differences += 1;
        if self.differences <= self.most {
            println!("{text}\n");
        }
    }
}

fn run_tables(o: &Options, from: u64, to: u64, part: &mut Part) {
    if from == o.seed {
        for (name, input) in fixed::tables() {
            if let Some(how) = (0..8).find(|how| part.bench.table(&input, *how).is_err()) {
                part.differs(name, &input, how);
            }
        }
    }
    for seed in from..to {
        let input = Generator::new(Random::new(seed), &o.profile).table();
        if part.bench.table(&input, seed).is_err() {
            part.differs(&format!("seed {seed}"), &input, seed);
        }
        if seed % 4 == 0 {
            if let Err(e) = part.bench.building(&mut Random::new(seed ^ 0xb1d)) {
                part.tell(format!("seed {seed}: {e}"));
            }
        }
        if seed % 8 == 1 {
            let (a, b) = Generator::new(Random::new(seed ^ 0x5555_0000_0000), &o.profile).pair();
            if let Err(e) = part.bench.pair(&a, &b, seed) {
                part.tell(format!("seed {seed}: {e}\n{}{}", a.shown(), b.shown()));
            }
        }
        if seed % 8 == 2 {
            if let Err(e) = part.bench.numbers(seed) {
                part.tell(format!("seed {seed}: {e}"));
            }
        }
    }
}

#[cfg(not(has_expat))]
fn run_documents(_: &Options, _: u64, _: u64, _: &mut Part) -> Vec<(&'static str, u64)> {
    eprintln!("this was built without expat: install libexpat1-dev and build again");
    exit(2)
}

#[cfg(has_expat)]
fn run_documents(o: &Options, from: u64, to: u64, part: &mut Part) -> Vec<(&'static str, u64)> {
    use compare::{documents::Documents, shrink::shrunk_bytes, table::quoted, tokens::Tokens};
    let files = match &o.mode {
        Mode::Mutate(paths) => files_of(paths),
        _ => vec![],
    };
    let mut tokens = Tokens::new();
    if from == o.seed {
        if let Err(e) = compare::tokens::limits() {
            part.tell(e);
        }
    }
    for seed in from..to {
        let mut d = Documents { r: Random::new(seed) };
        let source = match files.is_empty() {
            true => d.document(),
            false => {
                let mut bytes = d.r.pick(&files).clone();
                for _ in 0..d.r.below(4) {
                    d.change(&mut bytes);
                }
                bytes
            }
        };
        // a changed table is a table, too, if its three numbers still fit
        if let (false, Some(input)) = (files.is_empty(), Input::from_bytes(&source)) {
            if part.bench.table(&input, seed).is_err() {
                part.differs(&format!("seed {seed}"), &input, seed);
            }
            continue;
        }
        if tokens.document(&source, seed, &mut part.bench).is_err() {
            let small = shrunk_bytes(&source, &mut |s| tokens.document(s, seed, &mut part.bench).is_err());
            let why = tokens.document(&small, seed, &mut part.bench).err().unwrap_or_default();
            part.tell(format!("seed {seed} differs; the smallest document that does:\n{}\n{why}", quoted(&small)));
        }
        if !files.is_empty() && std::str::from_utf8(&source).is_err() || seed % 16 == 0 {
            // what isn't well formed as a parser that doesn't check would read it
            let input = Input::new(compare::lenient::tokenized(&source));
            if part.bench.table(&input, seed).is_err() {
                part.differs(&format!("seed {seed}, read leniently,"), &input, seed);
            }
        }
    }
    tokens.tally.rows().to_vec()
}

fn files_of(paths: &[PathBuf]) -> Vec<Vec<u8>> {
    let (mut out, mut todo) = (vec![], paths.to_vec());
    while let Some(path) = todo.pop() {
        if path.is_dir() {
            let mut inside: Vec<PathBuf> = fs::read_dir(&path).map(|d| d.flatten().map(|e| e.path()).collect()).unwrap_or_default();
            inside.sort();
            todo.extend(inside);
        } else if let Ok(bytes) = fs::read(&path) {
            let document = bytes.strip_prefix(b"\xef\xbb\xbf").unwrap_or(&bytes).trim_ascii_start().starts_with(b"<");
            if bytes.len() < 200_000 && (document || Input::from_bytes(&bytes).is_some()) {
                out.push(bytes);
            }
        }
    }
    if out.is_empty() {
        eprintln!("there are no tables and no documents in {paths:?}");
        exit(2);
    }
    out
}

fn run_part(o: &Options, number: u64) {
    let share = |i: u64| o.seed + (o.count as u128 * i as u128 / o.jobs as u128) as u64;
    let mut part = Part { bench: bench(o.changes), differences: 0, most: o.most };
    let (from, to) = (share(number), share(number + 1));
    let mut rows = match o.mode {
        Mode::Tables => {
            run_tables(o, from, to, &mut part);
            vec![]
        }
        Mode::Programs(ref folder) => {
            for seed in from..to {
                if let Err(e) = part.bench.programs(seed, folder) {
                    part.tell(format!("seed {seed}: {e}"));
                }
            }
            vec![]
        }
        _ => run_documents(o, from, to, &mut part),
    };
    rows.extend(part.bench.tally.rows());
    rows.push(("differences", part.differences));
    rows.push((TIME, processor_time()));
    for (name, n) in rows {
        println!("#tally\t{name}\t{n}");
    }
    for (rule, branch, n) in Coverage::here().rows() {
        println!("#rule\t{rule}\t{branch}\t{n}");
    }
    println!("#end");
}

/// Milliseconds that this process has had of a processor.
fn processor_time() -> u64 {
    let stat = fs::read_to_string("/proc/self/stat").unwrap_or_default();
    let behind = stat.rsplit(')').next().unwrap_or("");
    let ticks: u64 = behind.split_whitespace().skip(11).take(2).filter_map(|n| n.parse::<u64>().ok()).sum();
    ticks * 10
}

// ---- the whole run: a process for each part

/// What the parts of a run said, summed.
#[derive(Default)]
struct Whole {
    rows: Vec<(String, u64)>,
    coverage: Coverage,
    broken: u64,
}

impl Whole {
    fn add(&mut self, line: &str) {
        let cells: Vec<&str> = line.split('\t').collect();
        match cells[..] {
            ["#tally", name, n] => {
                let n = n.parse().unwrap_or(0);
                match self.rows.iter_mut().find(|r| r.0 == name) {
                    Some(row) => row.1 += n,
                    None => self.rows.push((name.to_string(), n)),
                }
            }
            ["#rule", rule, branch, n] => self.coverage.add(rule, branch, n.parse().unwrap_or(0)),
            _ => {}
        }
    }
    fn row(&self, name: &str) -> u64 {
        self.rows.iter().find(|r| r.0 == name).map_or(0, |r| r.1)
    }
}

/// A process for each part; each is read in a thread of its own, so that none waits for another.
fn run_parts(o: &Options) -> Whole {
    let me = env::current_exe().expect("this program");
    let read = |i: u64| {
        let mut command = Command::new(&me);
        command.args(env::args().skip(1)).args(["--jobs", &o.jobs.to_string(), "--part", &i.to_string()]);
        let mut child = command.stdout(Stdio::piped()).spawn().expect("a part of the run");
        std::thread::spawn(move || {
            let mut kept = vec![];
            for line in BufReader::new(child.stdout.take().unwrap()).lines().map_while(Result::ok) {
                if line.starts_with('#') {
                    kept.push(line)
                } else {
                    println!("{line}")
                }
            }
            (kept, child.wait())
        })
    };
    let readers: Vec<_> = (0..o.jobs).map(read).collect();
    let mut whole = Whole::default();
    for (i, reader) in readers.into_iter().enumerate() {
        let (kept, status) = reader.join().expect("a reader");
        if kept.last().map(String::as_str) != Some("#end") {
            println!("part {i} of the run broke off: {status:?}");
            whole.broken += 1;
        }
        kept.iter().for_each(|line| whole.add(line));
    }
    whole
}

fn main() {
    let o = options();
    if let Some(part) = o.part {
        return run_part(&o, part);
    }
    let began = Instant::now();
    let whole = run_parts(&o);
    let kind = match o.mode {
        Mode::Tables => Kind::Tables,
        Mode::Programs(_) => Kind::Programs,
        _ => Kind::Documents,
    };
    let (rules, never) = whole.coverage.told(&page("RULES.md"), kind, o.rules);
    print!("{rules}");
    let judged = o.profile == "mix" && !matches!(o.mode, Mode::Mutate(_));
    if judged {
        never.iter().for_each(|n| println!("{n}"));
    }
    for (name, n) in whole.rows.iter().filter(|r| r.0 != TIME && (r.1 > 0 || r.0 == "differences")) {
        println!("{name}: {n}");
    }
    let (seconds, busy) = (began.elapsed().as_secs_f64(), whole.row(TIME) as f64 / 1e3);
    println!("{seconds:.1} s, {busy:.1} s of processor time: {:.0} for each second of it", o.count as f64 / busy.max(0.01));
    let unreached = judged && !never.is_empty() && !o.allow_unreached;
    exit((whole.row("differences") > 0 || whole.broken > 0 || unreached) as i32)
}
