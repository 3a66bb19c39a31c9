//! A small deterministic random generator (splitmix64) and single values.

use reference::{Days, Row};

/// The generator.
#[derive(Clone, Debug)]
pub struct Random {
    state: u64,
}

impl Random {
    /// A generator from a seed.
    pub fn new(seed: u64) -> Random {
        Random { state: seed }
    }

    /// A generator whose seed is printed under a name. The environment variable
    /// `GENERATE_SEED`, a number in base ten, replaces the seed.
    pub fn announced(name: &str, seed: u64) -> Random {
        let given = std::env::var("GENERATE_SEED").ok().and_then(|text| text.parse().ok());
        let seed = given.unwrap_or(seed);
        println!("{name}: seed {seed}");
        Random::new(seed)
    }

    /// Any 64 bits.
    pub fn draw(&mut self) -> u64 {
        self.state = self.state.wrapping_add(0x9e37_79b9_7f4a_7c15);
        let mut z = self.state;
        z = (z ^ (z >> 30)).wrapping_mul(0xbf58_476d_1ce4_e5b9);
        z = (z ^ (z >> 27)).wrapping_mul(0x94d0_49bb_1331_11eb);
        z ^ (z >> 31)
    }

    /// A number below `bound`, which is at least 1.
    pub fn below(&mut self, bound: usize) -> usize {
        (self.draw() % bound as u64) as usize
    }

    /// A number from `low` to `high`, both included.
    pub fn between(&mut self, low: usize, high: usize) -> usize {
        low + self.below(high - low + 1)
    }

    /// True in `part` of `whole` cases.
    pub fn chance(&mut self, part: usize, whole: usize) -> bool {
        self.below(whole) < part
    }

    /// One of a list.
    pub fn pick<T: Copy>(&mut self, list: &[T]) -> T {
        list[self.below(list.len())]
    }

    /// Puts a list in random order.
    pub fn shuffle<T>(&mut self, list: &mut [T]) {
        for place in (1..list.len()).rev() {
            list.swap(place, self.below(place + 1));
        }
    }

    /// A word: small, at an extreme, or any.
    pub fn word(&mut self) -> u32 {
        match self.below(4) {
            0 => self.below(4) as u32,
            1 => self.pick(&[0, 1, 0x7fff_ffff, 0x8000_0000, u32::MAX - 1, u32::MAX]),
            2 => self.below(2_000) as u32,
            _ => self.draw() as u32,
        }
    }

    /// A numeral, 1 or more.
    pub fn numeral(&mut self) -> u32 {
        self.word().max(1)
    }

    /// Minutes: small, at an extreme, or any.
    pub fn minutes(&mut self) -> i32 {
        match self.below(4) {
            0 => self.pick(&[0, 1, -1, i32::MIN, i32::MIN + 1, i32::MAX]),
            1 | 2 => self.between(0, 2_000) as i32 - 1_000,
            _ => self.draw() as i32,
        }
    }

    /// A limit of distance: small, at an extreme, or any.
    pub fn limit(&mut self) -> i32 {
        match self.below(6) {
            0 => self.pick(&[i32::MIN, i32::MIN + 1, i32::MAX - 1, i32::MAX]),
            1 => self.pick(&[-65_536, -65_535, 65_535, 65_536]),
            2 => self.draw() as i32,
            _ => self.between(0, 12) as i32 - 6,
        }
    }

    /// A place or number of machine width: small, near `near`, or at an extreme.
    pub fn place(&mut self, near: usize) -> usize {
        match self.below(4) {
            0 => self.below(3),
            1 => near.saturating_add(self.below(3)).saturating_sub(1),
            2 => self.pick(&[1_023, 1_024, 1_025, u32::MAX as usize, usize::MAX - 1, usize::MAX]),
            _ => self.draw() as usize,
        }
    }

    /// A generator for days. It leaves this one as it is, so that all other words of a case are the
    /// same with days and without.
    pub(crate) fn beside(&self) -> Random {
        Random::new(self.state ^ 0x6461_7973)
    }

    /// Two words as days, in order.
    pub fn any_days(&mut self) -> Days {
        let (one, other) = (self.word(), self.word());
        Days::new(one.min(other), one.max(other))
    }

    /// Days of which the first is after the last: by one mostly.
    pub fn backward_days(&mut self) -> Days {
        let first = self.word().max(1);
        let last = if self.chance(2, 3) { first - 1 } else { self.draw() as u32 % first };
        Days::new(first, last)
    }

    /// The row with days that an add takes: in one of two cases those of a row without.
    pub(crate) fn with_days(&self, row: Row) -> Row {
        let mut random = self.beside();
        if random.chance(1, 2) {
            return row;
        }
        let days = random.any_days();
        row.on(days.first, days.last)
    }

    /// The row with any days: in one of four cases the first is after the last.
    pub(crate) fn with_any_days(&self, row: Row) -> Row {
        let mut random = self.beside();
        if random.chance(3, 4) {
            return self.with_days(row);
        }
        let days = random.backward_days();
        row.on(days.first, days.last)
    }

    /// A row that an add takes, but for the number of rows.
    pub fn row(&mut self) -> Row {
        let row = Row::undated(self.word(), self.numeral(), self.word(), self.minutes());
        self.with_days(row)
    }

    /// A row with numeral 1 or more, as `other` must have; in one of three cases a
    /// sibling that ties with it: of its order, of its numeral too, or equal in all
    /// fields.
    pub fn row_beside(&mut self, other: Row) -> Row {
        let row = self.row();
        match self.below(9) {
            0 => Row { numeral: row.numeral, ..other },
            1 => Row { minutes: row.minutes, ..other },
            2 => other,
            _ => row,
        }
    }

    /// A row of any words, numeral 0 and first days after the last among them.
    pub fn any_row(&mut self) -> Row {
        let row = Row::undated(self.word(), self.word(), self.word(), self.minutes());
        self.with_any_days(row)
    }

    /// Words to fill a slice with beforehand.
    pub fn noise(&mut self, length: usize) -> Vec<u32> {
        (0..length).map(|_| self.draw() as u32).collect()
    }

    /// Wide words to fill a slice with beforehand.
    pub fn wide_noise(&mut self, length: usize) -> Vec<i64> {
        (0..length).map(|_| self.draw() as i64).collect()
    }
}
