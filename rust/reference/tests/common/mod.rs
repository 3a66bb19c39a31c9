//! What builds answer and leave, for the tests of builds.

use reference::*;

pub fn accepted(nodes: u32, left: u32) -> Built {
    Built { refusal: 0, nodes, left }
}

pub fn refused(refusal: u32) -> Built {
    Built { refusal, nodes: 0, left: 0 }
}

pub struct Image {
    pub built: Built,
    pub index: Vec<u32>,
    pub totals: Vec<i64>,
}

impl Image {
    /// The n + 1 totals.
    pub fn totals(&self) -> &[i64] {
        &self.totals[..=self.built.nodes as usize]
    }
}

/// Builds in slices for `room` nodes and seven words and totals more. A refused build leaves zeros,
/// an accepted one an index that the check accepts and unchanged words beyond.
pub fn image_in(room: usize, build: impl FnOnce(&mut [u32], &mut [i64]) -> Built) -> Image {
    let mut index = vec![77; 8 + 6 * room + 7];
    let mut totals = vec![77; room + 1 + 7];
    let built = build(&mut index, &mut totals);
    if built.refusal == 0 {
        let n = built.nodes as usize;
        assert!(index_check(&index));
        assert!(index[8 + 6 * n..].iter().all(|word| *word == 77));
        assert!(totals[n + 1..].iter().all(|total| *total == 77));
    } else {
        assert_eq!(built, refused(built.refusal));
        zeroed(&index, &totals);
    }
    Image { built, index, totals }
}

pub fn zeroed(index: &[u32], totals: &[i64]) {
    assert!(index.iter().all(|word| *word == 0) && totals.iter().all(|total| *total == 0));
}
