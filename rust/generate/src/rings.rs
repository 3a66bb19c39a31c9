//! Edges of rings and of what hangs from them.

use crate::random::Random;

/// Edges made so far, the numerals on rings and all numerals, and the next numeral.
struct Writer {
    edges: Vec<(u32, u32)>,
    on_rings: Vec<u32>,
    numerals: Vec<u32>,
    next: u32,
}

impl Writer {
    /// A new ring of so many rows; answers one of its numerals.
    fn ring(&mut self, random: &mut Random, length: usize) -> u32 {
        let (first, last) = (self.next, self.next + length as u32 - 1);
        for numeral in first..=last {
            self.edges.push((if numeral == first { last } else { numeral - 1 }, numeral));
            self.on_rings.push(numeral);
            self.numerals.push(numeral);
        }
        self.next = last + 1;
        random.between(first as usize, last as usize) as u32
    }

    /// A chain of so many rows below a numeral that is there.
    fn tail(&mut self, random: &mut Random, length: usize) {
        let mut above = random.pick(&self.numerals);
        for _ in 0..length {
            self.edges.push((above, self.next));
            self.numerals.push(self.next);
            above = self.next;
            self.next += 1;
        }
    }

    /// A row between two numerals that are there: one repeated, or one below any numeral, whose own
    /// is on a ring or any.
    fn between(&mut self, random: &mut Random) {
        let above = random.pick(&self.numerals);
        let edge = match random.below(4) {
            0 | 1 => random.pick(&self.edges),
            2 => (above, random.pick(&self.on_rings)),
            _ => (above, random.pick(&self.numerals)),
        };
        self.edges.push(edge);
    }
}

/// `count` edges over numerals from `first` to at most `first + count - 1`: rings of one row and
/// more, alone or joined with one before, by a row that is on no ring; tails of one row and more;
/// up to three rows between any two numerals.
///
/// Each ring is joined with at most one before it, so that but for those three rows there are
/// hardly more paths than rows.
pub fn rings(random: &mut Random, first: u32, count: usize) -> Vec<(u32, u32)> {
    let longest = random.pick(&[1, 2, 3, 3, 8, count]);
    let tails = random.below(4);
    let joined = random.chance(2, 3);
    let mut between = random.below(4).min(count / 3);
    let mut writer =
        Writer { edges: Vec::new(), on_rings: Vec::new(), numerals: Vec::new(), next: first };
    while writer.edges.len() < count {
        let room = count - writer.edges.len();
        let before = writer.on_rings.len();
        if before > 0 && between > 0 && random.chance(1, 4) {
            between -= 1;
            writer.between(random);
        } else if before > 0 && random.below(6) < tails {
            let length = random.pick(&[1, 1, 2, 5, room]).min(room);
            writer.tail(random, length);
        } else {
            let length = random.between(1, longest.min(room));
            let own = writer.ring(random, length);
            if joined && before > 0 && length < room {
                let other = random.pick(&writer.on_rings[..before]);
                writer.edges.push(random.pick(&[(other, own), (own, other)]));
            }
        }
    }
    writer.edges
}
