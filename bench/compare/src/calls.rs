//! The library's calls. With a wrong answer asked for (`--wrong`), what one of them answers is spoiled, so that the comparison itself can be
//! tried: it has to find the difference and to shrink it.
use crate::sys;
use std::sync::atomic::{AtomicUsize, Ordering::Relaxed};

/// The wrong answers that can be asked for: which call, and what it gets wrong.
pub const WRONG: [(&str, &str); 10] = [
    ("number", "reading refuses a bad time with 4"),
    ("path", "reading gives the second suite of a path the index 0"),
    ("event", "reading tells of the event behind the one that it refuses for a reference"),
    ("attribute", "reading tells of the attribute behind a repeated key"),
    ("tree", "reading leaves a run's time in nanoseconds less by one"),
    ("dirty", "reading leaves a byte of scratch as it was where it accepts a description"),
    ("listing", "listing calls skipped cases errors"),
    ("writing", "writing leaves out the length of an empty output's place"),
    ("builder", "a builder keeps an extra's old value"),
    ("token", "tokenizing ends a comment one byte early"),
];

static ASKED: AtomicUsize = AtomicUsize::new(0);

/// Whether there is such a wrong answer.
pub fn ask_for(name: &str) -> bool {
    let found = WRONG.iter().position(|w| w.0 == name);
    ASKED.store(found.map_or(0, |i| i + 1), Relaxed);
    found.is_some()
}

fn wrong(name: &str) -> bool {
    let asked = ASKED.load(Relaxed);
    asked > 0 && WRONG[asked - 1].0 == name
}

pub fn read(
    events: &[u32], attributes: &[u32], source: &[u8], records: &mut [u32], text: &mut [u8], scratch: &mut [u8],
) -> sys::Refusal {
    let before = scratch.first().copied();
    let mut r = sys::read(events, attributes, source, records, text, scratch);
    if ASKED.load(Relaxed) == 0 {
        return r;
    }
    if wrong("number") && r.number == 5 {
        (r.number, r.cause) = (4, 5);
    }
    if wrong("path") && r.depth > 1 && r.path[3] == 2 && r.path[4] == 1 {
        r.path[4] = 0;
    }
    if wrong("event") && r.number == 10 && r.attribute == u32::MAX {
        r.event += 1;
    }
    if wrong("attribute") && r.cause == 14 {
        r.attribute += 1;
    }
    let accepted = r.number == 0;
    if wrong("tree") && accepted {
        if let Some(run) = records.chunks_mut(32).find(|c| c.len() == 32 && (9..=12).contains(&c[0]) && c[1] & 16 != 0 && c[17] > 0)
        {
            run[17] -= 1;
        }
    }
    if wrong("dirty") && accepted && records.chunks(32).any(|c| c.len() == 32 && (6..=8).contains(&c[0]) && c[1] & 64 != 0) {
        if let (Some(first), Some(before)) = (scratch.first_mut(), before) {
            *first = before;
        }
    }
    r
}

pub fn list(records: &[u32], text: &[u8], out: &mut [u8]) -> sys::Listing {
    let l = sys::list(records, text, out);
    if wrong("listing") {
        let (old, new) = (b" skipped none ", b" error   none ");
        if let Some(at) = out.windows(old.len()).position(|w| w == old) {
            out[at..at + new.len()].copy_from_slice(new);
        }
    }
    l
}

pub fn write(records: &[u32], text: &[u8], events: &mut [u32], attributes: &mut [u32], bytes: &mut [u8]) -> sys::Writing {
    let w = sys::write(records, text, events, attributes, bytes);
    if wrong("writing") {
        for i in 1..w.events {
            if events[5 * i] == 3 && events[5 * i + 2] == 0 {
                events[5 * i + 1] = events[5 * i - 4] + events[5 * i - 3];
            }
        }
    }
    w
}

pub fn add_extra(b: sys::Builder, records: &mut [u32], text: &mut [u8], holder: u32, key: &[u8], value: &[u8]) -> sys::Built {
    let old = if wrong("builder") { records.to_vec() } else { vec![] };
    let built = sys::add_extra(b, records, text, holder, key, value);
    if wrong("builder") && built.refusal.number == 0 && built.builder.records == b.records {
        records.copy_from_slice(&old);
    }
    built
}

pub fn tokenize(source: &[u8], events: &mut [u32], attributes: &mut [u32]) -> sys::Tokenized {
    let t = sys::tokenize(source, events, attributes);
    if wrong("token") {
        for e in events.chunks_mut(5).filter(|e| e.len() == 5 && e[0] == 6 && e[2] > 1) {
            let at = e[1] as usize;
            if at >= 4 && &source[at - 4..at] == b"<!--" {
                e[2] -= 1;
            }
        }
    }
    t
}
