// Times the layout check on trees of 1,000, 10,000 and 65,536 records.
// Build and run: see README.md beside this file.
use std::time::Instant;

extern "C" {
    fn kerzhoma_is_layout(records: *const u32, words: usize, text: *const u8, bytes: usize) -> bool;
}

fn is_layout(records: &[u32], text: &[u8]) -> bool {
    // The function takes areas of every length and content.
    unsafe { kerzhoma_is_layout(records.as_ptr(), records.len(), text.as_ptr(), text.len()) }
}

// A report, a suite, and cases; each name is `len` bytes from the start of the text area on.
fn tree(n: usize, len: u32) -> Vec<u32> {
    let mut words = vec![0u32; n * 32];
    words[0] = 1;
    for i in 1..n {
        words[i * 32] = if i == 1 { 2 } else { 3 };
        words[i * 32 + 1] = 1;
        words[i * 32 + 3] = len;
    }
    words
}

fn main() {
    let text = vec![b'a'; 4096];
    for len in [8u32, 4096] {
        for n in [1_000usize, 10_000, 65_536] {
            let words = tree(n, len);
            let mut best = f64::MAX;
            for _ in 0..20 {
                let began = Instant::now();
                assert!(is_layout(&words, &text));
                best = best.min(began.elapsed().as_secs_f64());
            }
            println!("{} records, names of {} bytes: {:.3} ms, {:.1} ns a record", n, len, best * 1e3, best * 1e9 / n as f64);
        }
    }
    let mut words = tree(65_536, 8);
    words[65_535 * 32 + 3] = 4097;
    assert!(!is_layout(&words, &text));
}
