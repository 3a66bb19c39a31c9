//! The bodies of an index with their flags apart.

use crate::common::Image;
use reference::Body;

/// Numeral, row number, tree size, parent rank, root rank, level, closing, orphan of each node.
pub fn bodies(image: &Image) -> Vec<[u32; 8]> {
    (1..=image.built.nodes as usize)
        .map(|rank| Body::read(&image.index, rank))
        .map(|b| {
            let (closing, orphan) = (b.closing as u32, b.orphan as u32);
            [b.numeral, b.row, b.size, b.parent, b.root, b.level, closing, orphan]
        })
        .collect()
}
