//! Indexes that no build made.

/// An index of the given bodies: size, parent, level; check word right.
pub fn index_of(bodies: &[(u32, u32, u32)]) -> Vec<u32> {
    let mut index = vec![bodies.len() as u32, 8, 6, 0, 0, 0, 0, 0];
    let mut roots = vec![0];
    for (place, &(size, parent, level)) in bodies.iter().enumerate() {
        let rank = place as u32 + 1;
        let root = if parent == 0 { rank } else { *roots.get(parent as usize).unwrap_or(&0) };
        roots.push(root);
        index.extend([7, 7, size, parent, root, level]);
    }
    seal(&mut index);
    index
}

pub fn seal(index: &mut [u32]) {
    let end = 8 + 6 * index[0] as usize;
    index[3] = index[8..end].iter().fold(0, |sum: u32, word| sum.wrapping_add(*word));
}
