//! The marked board of the scope paper.

use reference::*;

pub const MARKED: [Row; 7] = [
    Row::undated(0, 10, 1, 5),
    Row::undated(10, 20, 2, 3),
    Row::undated(10, 30, 1, 4),
    Row::undated(20, 40, 1, 2),
    Row::undated(30, 40, 1, 1),
    Row::undated(40, 20, 1, -1),
    Row::undated(90, 91, 1, 7),
];

/// The board to which the rows were added one after the other.
pub fn board_of(rows: &[Row]) -> Board {
    let mut board = Board::EMPTY;
    for row in rows {
        let edited = board.add(*row);
        assert_eq!(edited.refusal, 0);
        board = edited.board;
    }
    board
}
