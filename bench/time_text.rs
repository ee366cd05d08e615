// Compares the time printer of crate `time_text` with Rust's own formatting of the same float sum.
// Build and run: see README.md beside this file.
use std::fmt::Write;

extern "C" {
    fn kerzhoma_time_text(out: *mut u8, len: usize, secs: u32, nanos: u32) -> usize;
}

fn printed(buf: &mut [u8; 40], secs: u32, nanos: u32) -> usize {
    // The function takes every area and every pair of numbers.
    unsafe { kerzhoma_time_text(buf.as_mut_ptr(), buf.len(), secs, nanos) }
}

mod random;

use random::Random;

fn main() {
    let mut random = Random(0x9e3779b97f4a7c15);
    let mut buf = [0u8; 40];
    let mut want = String::new();
    let (mut tried, mut ties, mut differ) = (0u64, 0u64, 0u64);
    let mut try_one = |secs: u32, nanos: u32| {
        let sum = secs as f64 + nanos as f64 / 1e9;
        want.clear();
        write!(want, "{:.3}", sum).unwrap();
        let n = printed(&mut buf, secs, nanos);
        tried += 1;
        // A float is an exact tie between two thousandths just at the odd sixteenths of a second.
        if nanos % 125_000_000 == 62_500_000 {
            ties += 1;
        }
        if &buf[..n] != want.as_bytes() {
            differ += 1;
            if differ <= 10 {
                println!("{} {}: {:?} instead of {}", secs, nanos, std::str::from_utf8(&buf[..n]), want);
            }
        }
    };
    // The limits.
    for secs in [0u32, 1, 2, 9, 10, 99, 4095, 4096, 8388606, 8388607, 4294967295] {
        for nanos in [0u32, 1, 499_999, 500_000, 500_001, 999_499_999, 999_500_000, 999_999_999] {
            try_one(secs, nanos);
        }
    }
    for _ in 0..4_000_000 {
        try_one((random.next() % 8_388_608) as u32, (random.next() % 1_000_000_000) as u32);
    }
    for _ in 0..4_000_000 {
        // Sixteenths of a second: every other one is an exact tie.
        try_one((random.next() % 8_388_608) as u32, (random.next() % 16) as u32 * 62_500_000);
    }
    // Halves of a thousandth as nanoseconds, most of which no float holds exactly.
    for _ in 0..4_000_000 {
        try_one((random.next() % 8_388_608) as u32, (random.next() % 1000) as u32 * 1_000_000 + 500_000);
    }
    for bits in 0..23 {
        for _ in 0..50_000 {
            try_one((random.next() % (1 << bits).max(1)) as u32, (random.next() % 1_000_000_000) as u32);
        }
    }
    for _ in 0..1_000_000 {
        try_one(random.next() as u32, random.next() as u32);
    }
    println!("{} times, {} exact ties, {} differ", tried, ties, differ);
}
