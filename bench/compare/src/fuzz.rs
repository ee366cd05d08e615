//! Inputs as a fuzzer makes them. The first byte says what the others are: a table as the program `list` takes it, choices of the generator, a
//! document, or choices of a script for builders; the second chooses areas, or the generator's profile, too.
use crate::{changes, compare::Bench, explain::Sentences, generator::Generator, lenient, random::Random, table::Input};

pub struct Fuzzed {
    bench: Bench,
    #[cfg(has_expat)]
    tokens: crate::tokens::Tokens,
}

impl Fuzzed {
    #[allow(clippy::new_without_default)]
    pub fn new() -> Self {
        let page =
            std::fs::read_to_string(concat!(env!("CARGO_MANIFEST_DIR"), "/../../docs/REFUSALS.md")).expect("docs/REFUSALS.md");
        let sentences = Sentences::from_page(&page).expect("the sentences");
        Fuzzed {
            bench: Bench::new(changes(), sentences),
            #[cfg(has_expat)]
            tokens: crate::tokens::Tokens::new(),
        }
    }

    pub fn one(&mut self, bytes: &[u8]) -> Result<(), String> {
        let [kind, how, rest @ ..] = bytes else { return Ok(()) };
        let how = *how as u64;
        match kind % 4 {
            0 => match Input::from_bytes(rest) {
                Some(input) => self.table(&input, how),
                None => Ok(()),
            },
            1 => {
                let profile = ["clean", "bad", "mutate", "table", "short", "words"][how as usize % 6];
                let input = Generator::new(Random::of_bytes(rest), profile).table();
                self.table(&input, how / 6)
            }
            2 => {
                self.table(&Input::new(lenient::tokenized(rest)), how)?;
                #[cfg(has_expat)]
                self.tokens.document(rest, how, &mut self.bench).map_err(|e| format!("{e}\n{}", crate::table::quoted(rest)))?;
                Ok(())
            }
            _ => self.bench.building(&mut Random::of_bytes(rest)),
        }
    }

    fn table(&mut self, input: &Input, how: u64) -> Result<(), String> {
        self.bench.table(input, how).map_err(|e| format!("{e}\n{}", input.shown()))
    }
}

/// What libFuzzer calls, with the branches of the rules as counters beside those of the code.
#[cfg(fuzzing)]
mod target {
    use super::Fuzzed;
    use std::cell::RefCell;

    const MOST: usize = 2048;

    #[link_section = "__libfuzzer_extra_counters"]
    static mut COUNTERS: [u8; MOST] = [0; MOST];

    thread_local! {
        static FUZZED: RefCell<Option<(Fuzzed, Vec<u64>)>> = const { RefCell::new(None) };
    }

    fn count(before: &mut [u64]) {
        for (i, slot) in cover::slots().iter().enumerate().take(MOST) {
            let n = slot.count() - before[i];
            before[i] = slot.count();
            // libFuzzer reads and clears them between two calls, and there is one thread
            unsafe { COUNTERS[i] = n.min(255) as u8 };
        }
    }

    #[no_mangle]
    pub extern "C" fn LLVMFuzzerTestOneInput(data: *const u8, length: usize) -> i32 {
        let bytes = if length == 0 { &[][..] } else { unsafe { std::slice::from_raw_parts(data, length) } };
        FUZZED.with(|f| {
            let mut f = f.borrow_mut();
            let (fuzzed, before) = f.get_or_insert_with(|| (Fuzzed::new(), vec![0; cover::slots().len()]));
            if let Err(e) = fuzzed.one(bytes) {
                eprintln!("a difference: {e}");
                std::process::abort();
            }
            count(before);
        });
        0
    }
}
