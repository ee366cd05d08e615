//! The smallest table that still differs: events, attributes, words and bytes go as long as it does.
use crate::table::{Input, Table};

/// `differs` says what is different, where something is.
pub fn shrunk(input: &Input, differs: &mut dyn FnMut(&Input) -> bool) -> Input {
    let mut best = input.clone();
    for loose in 0..2 {
        try_with(&mut best, differs, |i| i.loose[loose] = 0);
    }
    loop {
        let before = size(&best);
        shrink_events(&mut best, differs);
        shrink_attributes(&mut best, differs);
        shrink_bytes(&mut best, differs);
        try_with(&mut best, differs, |i| i.table = compact(&i.table).unwrap_or_default());
        if size(&best) >= before {
            return best;
        }
    }
}

fn size(i: &Input) -> usize {
    let words: usize = i.table.events.iter().map(|e| 4 + e[2] as usize + e[4] as usize).sum();
    let values: usize = i.table.attributes.iter().map(|a| 2 + (a[2] as usize).min(9999) + (a[4] as usize).min(9999)).sum();
    words + values + i.table.source.len()
}

/// The change stays where the table still differs.
fn try_with(best: &mut Input, differs: &mut dyn FnMut(&Input) -> bool, change: impl FnOnce(&mut Input)) -> bool {
    let mut next = best.clone();
    change(&mut next);
    let better = next != *best && differs(&next);
    if better {
        *best = next;
    }
    better
}

fn shrink_events(best: &mut Input, differs: &mut dyn FnMut(&Input) -> bool) {
    let mut step = (best.table.events.len() / 2).max(1);
    loop {
        let mut i = 0;
        while i < best.table.events.len() {
            let end = (i + step).min(best.table.events.len());
            if !try_with(best, differs, |t| drop(t.table.events.drain(i..end))) {
                i += step;
            }
        }
        if step == 1 {
            return;
        }
        step /= 2;
    }
}

fn shrink_attributes(best: &mut Input, differs: &mut dyn FnMut(&Input) -> bool) {
    for i in 0..best.table.events.len() {
        // fewer, from both ends
        while best.table.events[i][4] > 0 && best.table.events[i][0] < 2 {
            let last = try_with(best, differs, |t| t.table.events[i][4] -= 1);
            let first = !last
                && try_with(best, differs, |t| {
                    t.table.events[i][3] = t.table.events[i][3].wrapping_add(1);
                    t.table.events[i][4] -= 1;
                });
            if !last && !first {
                break;
            }
        }
    }
    if let Some(table) = compact(&best.table) {
        try_with(best, differs, |t| t.table = table);
    }
    // one from within
    let mut a = 0;
    while a < best.table.attributes.len() {
        let gone = try_with(best, differs, |t| {
            t.table.attributes.remove(a);
            for e in &mut t.table.events {
                let (first, count) = (e[3] as usize, e[4] as usize);
                if count > 0 && first <= a && a < first + count {
                    e[4] -= 1;
                } else if count > 0 && first > a {
                    e[3] -= 1;
                }
            }
        });
        a += !gone as usize;
    }
}

fn shrink_bytes(best: &mut Input, differs: &mut dyn FnMut(&Input) -> bool) {
    for i in 0..best.table.events.len() {
        shorten(best, differs, |t| (&mut t.events[i], 1));
    }
    for a in 0..best.table.attributes.len() {
        shorten(best, differs, |t| (&mut t.attributes[a], 1));
        shorten(best, differs, |t| (&mut t.attributes[a], 3));
    }
}

/// A part of the source whose start and length stand in a record from a word on: shorter, from its end and from its front.
fn shorten(best: &mut Input, differs: &mut dyn FnMut(&Input) -> bool, part: impl Fn(&mut Table) -> (&mut [u32; 5], usize)) {
    for n in [0, 1, 2, 4, 8, 16, 32] {
        let (record, word) = part(&mut best.table);
        if n < record[word + 1]
            && try_with(best, differs, |t| {
                let (r, w) = part(&mut t.table);
                r[w + 1] = n;
            })
        {
            break;
        }
    }
    loop {
        let (record, word) = part(&mut best.table);
        if record[word + 1] == 0 {
            return;
        }
        let shorter = try_with(best, differs, |t| {
            let (r, w) = part(&mut t.table);
            r[w + 1] -= 1;
        });
        let later = !shorter
            && try_with(best, differs, |t| {
                let (r, w) = part(&mut t.table);
                r[w] = r[w].wrapping_add(1);
                r[w + 1] -= 1;
            });
        if !shorter && !later {
            return;
        }
    }
}

/// Only what is used, one part behind the other; none where a part lies outside.
fn compact(t: &Table) -> Option<Table> {
    let mut out = Table::default();
    fn put(from: &[u8], to: &mut Vec<u8>, start: u32, length: u32) -> Option<(u32, u32)> {
        if length == 0 {
            return Some((0, 0));
        }
        let bytes = from.get(start as usize..(start as usize).checked_add(length as usize)?)?;
        to.extend_from_slice(bytes);
        Some(((to.len() - bytes.len()) as u32, length))
    }
    for e in &t.events {
        let (start, length) = put(&t.source, &mut out.source, e[1], e[2])?;
        let first = if e[4] == 0 { 0 } else { out.attributes.len() as u32 };
        let used =
            if e[4] == 0 { &[][..] } else { t.attributes.get(e[3] as usize..(e[3] as usize).checked_add(e[4] as usize)?)? };
        for a in used {
            let (key, key_length) = put(&t.source, &mut out.source, a[1], a[2])?;
            let (value, value_length) = put(&t.source, &mut out.source, a[3], a[4])?;
            out.attributes.push([a[0], key, key_length, value, value_length]);
        }
        out.events.push([e[0], start, length, first, e[4]]);
    }
    Some(out)
}

/// The same for a document: the bytes that still differ.
pub fn shrunk_bytes(bytes: &[u8], differs: &mut dyn FnMut(&[u8]) -> bool) -> Vec<u8> {
    let mut best = bytes.to_vec();
    loop {
        let before = best.len();
        best = fewer_bytes(&best, differs);
        best = fewer_tokens(&best, differs);
        if best.len() == before {
            return best;
        }
    }
}

/// Two tokens at once, such as a tag and its End.
fn fewer_tokens(bytes: &[u8], differs: &mut dyn FnMut(&[u8]) -> bool) -> Vec<u8> {
    let mut tokens: Vec<Vec<u8>> = vec![];
    for &b in bytes {
        let ends = tokens.last().is_none_or(|t| t.last() == Some(&b'>')) || b == b'<';
        if ends {
            tokens.push(vec![b])
        } else {
            tokens.last_mut().unwrap().push(b)
        }
    }
    for i in 0..tokens.len() {
        for other in [&b"<a/>"[..], b"<a>", b"</a>"] {
            let mut next = tokens.clone();
            next[i] = other.to_vec();
            if tokens[i].len() > other.len() && differs(&next.concat()) {
                tokens = next;
            }
        }
    }
    let (mut i, mut j) = (0, 1);
    while i + 1 < tokens.len() {
        let mut both = tokens.clone();
        both[i] = b"<a/>".to_vec();
        both.remove(j);
        if tokens[i].len() + tokens[j].len() > 4 && differs(&both.concat()) {
            tokens = both;
            j = i + 1;
            if j >= tokens.len() {
                break;
            }
        }
        let mut next = tokens.clone();
        next.remove(j);
        next.remove(i);
        if differs(&next.concat()) {
            tokens = next;
            j = i + 1;
        } else {
            j += 1;
        }
        if j >= tokens.len() {
            i += 1;
            j = i + 1;
        }
    }
    tokens.concat()
}

fn fewer_bytes(bytes: &[u8], differs: &mut dyn FnMut(&[u8]) -> bool) -> Vec<u8> {
    let mut best = bytes.to_vec();
    let mut step = (best.len() / 2).max(1);
    loop {
        let (mut i, mut gone) = (0, false);
        while i < best.len() {
            let mut next = best.clone();
            next.drain(i..(i + step).min(best.len()));
            if differs(&next) {
                best = next;
                gone = true;
            } else {
                i += step;
            }
        }
        if step == 1 && !gone {
            return best;
        }
        step = (step / 2).max(1);
    }
}
