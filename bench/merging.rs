// Times two trees merged into one: 1,000, 10,000 and 65,536 records with names of 16, 64 and 240 bytes, in areas that are just long enough and
// in areas of the limits' size.
// Build and run: see README.md beside this file.
use std::time::Instant;

#[repr(C)]
struct Refusal {
    number: u32,
    cause: u32,
    depth: u32,
    path: [u32; 18],
    event: u32,
    attribute: u32,
}

extern "C" {
    fn kerzhoma_merge(
        first: *const u32, first_length: usize, first_text: *const u8, first_text_length: usize,
        second: *const u32, second_length: usize, second_text: *const u8, second_text_length: usize,
        records: *mut u32, records_length: usize, text: *mut u8, text_length: usize,
    ) -> Refusal;
}

type Tree = (Vec<u32>, Vec<u8>);

// A report, a suite and cases, each name with bytes of its own.
fn tree(n: usize, len: usize) -> Tree {
    let mut words = vec![0u32; n * 32];
    words[0] = 1;
    for i in 1..n {
        let record = [if i == 1 { 2 } else { 3 }, 1, (i * len) as u32, len as u32];
        words[i * 32..i * 32 + 4].copy_from_slice(&record);
    }
    (words, vec![b'a'; n * len])
}

fn merge(a: &Tree, b: &Tree, out: &mut Tree) -> u32 {
    // The function takes areas of every length and content.
    unsafe {
        kerzhoma_merge(
            a.0.as_ptr(), a.0.len(), a.1.as_ptr(), a.1.len(), b.0.as_ptr(), b.0.len(), b.1.as_ptr(), b.1.len(),
            out.0.as_mut_ptr(), out.0.len(), out.1.as_mut_ptr(), out.1.len(),
        )
    }
    .number
}

fn time(n: usize, len: usize, limits: bool) {
    let half = (n + 1) / 2;
    let (a, b) = (tree(half, len), tree(n + 1 - half, len));
    let size = if limits { (65_536 * 32, 16_777_216) } else { (n * 32, n * len) };
    let mut out = (vec![7u32; size.0], vec![7u8; size.1]);
    let mut best = f64::MAX;
    for _ in 0..40 {
        let began = Instant::now();
        let number = merge(&a, &b, &mut out);
        best = best.min(began.elapsed().as_secs_f64());
        assert_eq!(number, 0);
    }
    assert_eq!(out.0.chunks(32).take_while(|r| r[0] != 0).count(), n);
    let areas = if limits { "areas of the limits' size" } else { "areas just long enough" };
    println!("{n} records, names of {len} bytes, {areas}: {:.3} ms, {:.1} ns a record", best * 1e3, best * 1e9 / n as f64);
}

fn main() {
    for limits in [false, true] {
        for len in [16, 64, 240] {
            for n in [1_000, 10_000, 65_536] {
                time(n, len, limits);
            }
        }
    }
}
