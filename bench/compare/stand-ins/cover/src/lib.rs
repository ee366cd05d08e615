//! Counters of the rules' branches: each place that says `hit!` has one, also where it is never reached. The counters of a program stand
//! together in one section of it, so that all of them can be told.
use std::sync::atomic::{AtomicU64, Ordering::Relaxed};

#[repr(C, align(64))]
pub struct Slot {
    pub rule: &'static str,
    pub branch: &'static str,
    count: AtomicU64,
}

impl Slot {
    pub const fn new(rule: &'static str, branch: &'static str) -> Self {
        Slot { rule, branch, count: AtomicU64::new(0) }
    }
    /// One thread counts; loading and storing is cheaper than adding.
    #[inline(always)]
    pub fn hit(&self) {
        #[cfg(not(uncounted))]
        self.count.store(self.count.load(Relaxed) + 1, Relaxed);
    }
    pub fn count(&self) -> u64 {
        self.count.load(Relaxed)
    }
}

/// Counts a branch of a rule: `hit!("R3", "a further Start")`.
#[macro_export]
macro_rules! hit {
    ($rule:literal, $branch:literal) => {{
        #[used]
        #[link_section = "cover_slots"]
        static SLOT: $crate::Slot = $crate::Slot::new($rule, $branch);
        SLOT.hit();
    }};
}

/// Counts the branch of a rule with this index: `hit_of!(kind, "T3", "Start", "Empty")`.
#[macro_export]
macro_rules! hit_of {
    ($index:expr, $rule:literal, $($branch:literal),+ $(,)?) => {{
        #[used]
        #[link_section = "cover_slots"]
        static SLOTS: [$crate::Slot; [$($branch),+].len()] = [$($crate::Slot::new($rule, $branch)),+];
        SLOTS[$index].hit();
    }};
}

/// Counts the first or the second of two branches.
#[macro_export]
macro_rules! hit_if {
    ($test:expr, $rule:literal, $yes:literal, $no:literal) => {
        if $test {
            $crate::hit!($rule, $yes)
        } else {
            $crate::hit!($rule, $no)
        }
    };
}

#[allow(improper_ctypes)]
extern "C" {
    static __start_cover_slots: Slot;
    static __stop_cover_slots: Slot;
}

pub fn slots() -> &'static [Slot] {
    let (first, end) = (&raw const __start_cover_slots, &raw const __stop_cover_slots);
    // the linker sets both names around the section, which holds nothing but slots
    unsafe { std::slice::from_raw_parts(first, end.offset_from(first) as usize) }
}
