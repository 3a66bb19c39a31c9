//! The listing of the scope paper.

pub const LISTING: &str = "rank size parent level root cycle orphan id sum
1 8 0 1 1 0 0 10 15
2 4 1 2 1 0 0 30 6
3 3 2 3 1 0 0 40 2
4 2 3 4 1 0 0 20 1
5 1 4 5 1 1 0 40 2
6 3 1 2 1 0 0 20 4
7 2 6 3 1 0 0 40 1
8 1 7 4 1 1 0 20 -1
9 1 0 1 9 0 1 91 7
";
