//! Choices: by a seed, the same in each run, or by bytes, so that a fuzzer makes them.
pub struct Random<'a> {
    state: u64,
    bytes: Option<&'a [u8]>,
}

impl<'a> Random<'a> {
    pub fn new(seed: u64) -> Self {
        Random { state: seed.wrapping_mul(0x2545F4914F6CDD1D) ^ 0x1234_5678_9abc_def0, bytes: None }
    }
    pub fn of_bytes(bytes: &'a [u8]) -> Self {
        Random { state: 0, bytes: Some(bytes) }
    }
    pub fn next(&mut self) -> u64 {
        if let Some(bytes) = &mut self.bytes {
            // behind the last byte every choice is 1, by which no list goes on
            let n = bytes.len().min(2);
            let value = bytes[..n].iter().fold(0, |v, b| v << 8 | *b as u64);
            *bytes = &bytes[n..];
            return if n == 0 { 1 } else { value };
        }
        self.state = self.state.wrapping_add(0x9E3779B97F4A7C15);
        let mut z = self.state;
        z = (z ^ (z >> 30)).wrapping_mul(0xBF58476D1CE4E5B9);
        z = (z ^ (z >> 27)).wrapping_mul(0x94D049BB133111EB);
        z ^ (z >> 31)
    }
    pub fn below(&mut self, n: u64) -> u64 {
        self.next() % n
    }
    pub fn index(&mut self, n: usize) -> usize {
        self.below(n as u64) as usize
    }
    /// True once in n.
    pub fn one(&mut self, n: u64) -> bool {
        self.below(n) == 0
    }
    pub fn pick<'b, T>(&mut self, list: &'b [T]) -> &'b T {
        &list[self.index(list.len())]
    }
    pub fn shuffle<T>(&mut self, list: &mut [T]) {
        for i in (1..list.len()).rev() {
            list.swap(i, self.index(i + 1));
        }
    }
}
