//! The examples of docs/INDEX-FORMAT.md.

use flowpewter::{
    build_dated, build_levelled, build_shortest, build_with_code, days_len, index_check, index_len,
    subtree_sum, totals_len, Board, Built, Days, Options, Orphan, Refusal, Row, Start,
};

const PAGE: &str = include_str!("../../../docs/INDEX-FORMAT.md");

/// The numbers of a block of the page.
fn block(name: &str) -> Vec<i64> {
    let start = format!("```{name}\n");
    let text = PAGE.split(&start).nth(1).expect("a block").split("```").next().unwrap();
    text.split_whitespace().map(|word| word.parse().expect("a number")).collect()
}

/// A board of the rows of a block, which are without days.
fn board(name: &str) -> Result<Board, Refusal> {
    let mut board = Board::EMPTY;
    for row in block(name).chunks(4) {
        board.add(Row::new(row[0] as u32, row[1] as u32, row[2] as u32, row[3] as i32))?;
    }
    Ok(board)
}

/// The same of rows with days.
fn dated_board(name: &str) -> Result<Board, Refusal> {
    let mut board = Board::EMPTY;
    for words in block(name).chunks(6) {
        let row = Row::new(words[0] as u32, words[1] as u32, words[2] as u32, words[3] as i32);
        board.add(row.on(words[4] as u32, words[5] as u32))?;
    }
    Ok(board)
}

/// Builds an example of four nodes: its blocks' names begin with `prefix`, and the
/// subtree sum of a rank is given in the text.
fn compare(prefix: &str, rank: u32, sum: i64) -> Result<(), Refusal> {
    let board = board(&format!("{prefix}rows"))?;
    let mut index = [0; index_len(4)];
    let mut totals = [0; totals_len(4)];
    build_with_code(&board, 3, None, Start::ParentZero, &mut index, &mut totals)?;
    assert_eq!(index.map(i64::from).to_vec(), block(&format!("{prefix}index")));
    assert_eq!(totals.to_vec(), block(&format!("{prefix}totals")));
    assert!(index_check(&index));
    assert_eq!(subtree_sum(&index, &totals, rank)?, sum);
    Ok(())
}

#[test]
fn index_format() -> Result<(), Refusal> {
    compare("", 1, 10)
}

#[test]
fn index_format_with_an_entry() -> Result<(), Refusal> {
    compare("ring-", 2, 5)
}

#[test]
fn index_format_of_a_shortest_placement() -> Result<(), Refusal> {
    let board = board("placed-rows")?;
    let mut index = [0; index_len(4)];
    let mut totals = [7; totals_len(4)];
    let built = build_shortest(&board, Start::ParentZero, &mut index, &mut totals)?;
    assert_eq!(built, Built { nodes: 4, left: 3 });
    assert_eq!(index.map(i64::from).to_vec(), block("placed-index"));
    assert_eq!(totals.to_vec(), block("placed-totals"));
    assert!(index_check(&index));
    Ok(())
}

#[test]
fn index_format_of_a_dated_build() -> Result<(), Refusal> {
    let board = dated_board("dated-rows")?;
    let attached = Options { orphan: Orphan::Ignore, ..Options::default() };
    let mut index = [0; index_len(6)];
    let mut totals = [7; totals_len(6)];
    let mut days = [7; days_len(6)];
    let window = Days::new(140, 220);
    let built = build_dated(&board, &attached, window, &mut index, &mut totals, &mut days)?;
    assert_eq!(built, Built { nodes: 6, left: 0 });
    assert_eq!(index.map(i64::from).to_vec(), block("dated-index"));
    assert_eq!(totals.to_vec(), block("dated-totals"));
    assert_eq!(days.map(i64::from).to_vec(), block("dated-days"));
    assert!(index_check(&index));
    Ok(())
}

#[test]
fn index_format_of_a_levelled_list() -> Result<(), Refusal> {
    let cells: Vec<u32> = block("list-cells").into_iter().map(|cell| cell as u32).collect();
    let mut index = [0; index_len(6)];
    let mut totals = [7; totals_len(6)];
    let built = build_levelled(&cells, 3, &mut index, &mut totals)?;
    assert_eq!(built, Built { nodes: 6, left: 1 });
    assert_eq!(index.map(i64::from).to_vec(), block("list-index"));
    assert_eq!(totals.to_vec(), block("list-totals"));
    assert!(index_check(&index));
    Ok(())
}
