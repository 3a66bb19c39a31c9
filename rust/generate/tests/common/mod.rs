//! How often generated cases reach what a generator is made for.

pub struct Counts<const N: usize> {
    names: [&'static str; N],
    counts: [u32; N],
}

impl<const N: usize> Counts<N> {
    pub fn new(names: [&'static str; N]) -> Counts<N> {
        Counts { names, counts: [0; N] }
    }

    pub fn add(&mut self, found: [bool; N]) {
        self.counts.iter_mut().zip(found).for_each(|(count, fact)| *count += fact as u32);
    }

    /// Prints the counts, and fails where one that isn't `left_out` isn't above `floor`.
    pub fn expect_above(&self, floor: u32, left_out: impl Fn(&str) -> bool) {
        for (name, count) in self.names.iter().zip(self.counts) {
            println!("{name}: {count}");
            assert!(count > floor || left_out(name), "{name}: {count}");
        }
    }
}
