//! Two trees as one (rules J1 to J11), word by word.
use crate::report::days_to;
use cover::{hit, hit_if};

/// Records and texts.
#[derive(Clone, Default)]
pub struct Tree {
    pub records: Vec<u32>,
    pub text: Vec<u8>,
}

const TIME: u128 = 8_388_608_000_000_000;

// Presence bits and first words of the texts that a record of this kind may have.
fn texts(kind: u32) -> &'static [(u32, usize)] {
    match kind {
        1 => &[(0, 2)],
        2 => &[(0, 2), (1, 4), (2, 6), (10, 28)],
        3 => &[(0, 2), (1, 4), (2, 6), (5, 18)],
        4 | 5 | 13 | 14 => &[(0, 2), (1, 4)],
        6..=8 => &[(0, 2), (5, 18), (6, 20)],
        _ => &[(0, 2), (1, 4), (2, 6), (5, 18), (6, 20), (7, 22)],
    }
}

fn has(r: &[u32], bit: u32) -> bool {
    r[1] >> bit & 1 == 1
}

fn count(r: &[u32], word: usize) -> u128 {
    u128::from(r[word]) + (u128::from(r[word + 1]) << 32)
}

fn nanos(r: &[u32]) -> u128 {
    u128::from(r[16]) * 1_000_000_000 + u128::from(r[17])
}

// By the words of a timestamp.
fn instant(w: &[u32]) -> i128 {
    let seconds = days_to(w[0], w[1], w[2]) * 86_400 + i64::from(w[3] * 3600 + w[4] * 60 + w[5]) - (i64::from(w[7]) - 1439) * 60;
    i128::from(seconds) * 1_000_000_000 + i128::from(w[6])
}

impl Tree {
    fn live(&self) -> Vec<&[u32]> {
        self.records.chunks_exact(32).take_while(|r| r[0] != 0).filter(|r| r[0] < 16).collect()
    }
}

fn head(a: &[u32], b: &[u32]) -> Result<[u32; 32], (u32, u32)> {
    let mut r = [0; 32];
    r[0] = 1;
    if has(a, 0) {
        (r[1], r[3]) = (1, a[3]);
    }
    hit_if!(has(a, 0), "J2", "the first's name", "no name");
    for word in [18, 20, 22, 24, 26] {
        let sum = count(a, word) + count(b, word);
        let sum = u64::try_from(sum).map_err(|_| (17, 22))?;
        (r[word], r[word + 1]) = (sum as u32, (sum >> 32) as u32);
    }
    let either = |bit: u32| has(a, bit) || has(b, bit);
    hit_if!(either(8), "J4", "disabled in one", "no disabled");
    hit_if!(either(4), "J5", "a time", "no time");
    let sum = nanos(a) + nanos(b);
    if sum >= TIME {
        return Err((22, 26));
    }
    (r[16], r[17]) = ((sum / 1_000_000_000) as u32, (sum % 1_000_000_000) as u32);
    let first = has(a, 3) && !(has(b, 3) && instant(&b[8..16]) < instant(&a[8..16]));
    hit_if!(first, "J6", "the first's timestamp", "the second's, or none");
    r[8..16].copy_from_slice(if first { &a[8..16] } else { &b[8..16] });
    for bit in [3, 4, 8] {
        r[1] |= u32::from(either(bit)) << bit;
    }
    Ok(r)
}

/// The merged tree of two layouts, in areas of so many words and bytes, or number and cause.
pub fn merged(first: &Tree, second: &Tree, words: usize, bytes: usize) -> Result<Tree, (u32, u32)> {
    let (a, b) = (first.live(), second.live());
    let mut made = Tree::default();
    made.records.extend(head(a[0], b[0])?);
    if has(a[0], 0) {
        made.text.extend(&first.text[a[0][2] as usize..][..a[0][3] as usize]);
    }
    hit_if!(a.len() > 1 && b.len() > 1, "J3", "suites in both", "not in both");
    for (tree, rows) in [(first, &a), (second, &b)] {
        hit_if!(tree.records.iter().step_by(32).any(|k| *k > 16), "J7", "dead records", "none is dead");
        for row in &rows[1..] {
            let mut r = row.to_vec();
            for word in texts(r[0]).iter().filter(|text| has(row, text.0)).map(|text| text.1) {
                hit!("J8", "a text");
                r[word] = made.text.len() as u32;
                made.text.extend(&tree.text[row[word] as usize..][..row[word + 1] as usize]);
            }
            made.records.extend(r);
        }
    }
    if made.records.len() / 32 > words / 32 {
        hit!("J10", "records don't fit");
        return Err((12, 17));
    }
    if made.text.len() > bytes {
        hit!("J10", "texts don't fit");
        return Err((13, 18));
    }
    hit!("J10", "both fit");
    Ok(made)
}

/// A listing or document of two reports as one: `head` is that of the new report without suites, `a` and `b` those of the two; `start` begins
/// the first suite, `end` stands behind the last one.
pub fn joined(head: &[u8], a: &[u8], b: &[u8], start: &[u8], end: &[u8]) -> Vec<u8> {
    let suites = |all: &'_ [u8]| {
        let last = all.len() - end.len();
        all[all.windows(start.len()).position(|w| w == start).unwrap_or(last)..last].to_vec()
    };
    [&head[..head.len() - end.len()], &suites(a), &suites(b), end].concat()
}
