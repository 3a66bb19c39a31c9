//! The guide's examples through the library.

use differential::edits::row;
use flowpewter::{
    build, build_dated_with_code, build_levelled, build_shortest, build_with_code, Board, Climber,
    Days, Options, Refusal,
};
use guide::{DatedImage, Engine, Image};
use reference::{Asked, Row, Start};

struct Library;

const NODES: usize = 1_000;

fn number(refusal: Refusal) -> u32 {
    refusal.number()
}

fn holding(rows: &[Row]) -> Result<Board, u32> {
    let mut board = Board::EMPTY;
    for added in rows {
        board.add(row(*added)).map_err(number)?;
    }
    Ok(board)
}

fn start_rule(start: Start<'_>) -> flowpewter::Start<'_> {
    match start {
        Start::ParentZero => flowpewter::Start::ParentZero,
        Start::Numerals(list) => flowpewter::Start::Numerals(list),
    }
}

impl Engine for Library {
    fn build(
        &self,
        rows: &[Row],
        code: u32,
        depth: Option<i32>,
        start: Start,
    ) -> Result<Image, u32> {
        let (board, start) = (holding(rows)?, start_rule(start));
        let mut index = vec![0; flowpewter::index_len(NODES)];
        let mut totals = vec![0; flowpewter::totals_len(NODES)];
        let built =
            build_with_code(&board, code, depth, start, &mut index, &mut totals).map_err(number)?;
        assert_eq!(built.nodes, index[0]);
        Ok(Image { index, totals, left: built.left })
    }

    fn build_shortest(&self, rows: &[Row], start: Start) -> Result<Image, u32> {
        let (board, start) = (holding(rows)?, start_rule(start));
        let mut index = vec![0; flowpewter::index_len(NODES)];
        let mut totals = vec![0; flowpewter::totals_len(NODES)];
        let built = build_shortest(&board, start, &mut index, &mut totals).map_err(number)?;
        assert_eq!(built.nodes, index[0]);
        Ok(Image { index, totals, left: built.left })
    }

    fn build_default(&self, rows: &[Row]) -> Result<Image, u32> {
        let board = holding(rows)?;
        let mut index = vec![0; flowpewter::index_len(NODES)];
        let mut totals = vec![0; flowpewter::totals_len(NODES)];
        let options = Options::default();
        let built = build(&board, &options, &mut index, &mut totals).map_err(number)?;
        assert_eq!(built.nodes, index[0]);
        Ok(Image { index, totals, left: built.left })
    }

    fn build_levelled(&self, cells: &[u32], width: u32) -> Result<Image, u32> {
        let mut index = vec![0; flowpewter::index_len(NODES)];
        let mut totals = vec![0; flowpewter::totals_len(NODES)];
        let built = build_levelled(cells, width, &mut index, &mut totals).map_err(number)?;
        assert_eq!(built.nodes, index[0]);
        Ok(Image { index, totals, left: built.left })
    }

    fn build_dated(&self, rows: &[Row], asked: Asked) -> Result<DatedImage, u32> {
        let (board, start) = (holding(rows)?, start_rule(asked.start));
        let window = Days::new(asked.window.first, asked.window.last);
        let mut index = vec![0; flowpewter::index_len(NODES)];
        let mut totals = vec![0; flowpewter::totals_len(NODES)];
        let mut days = vec![0; flowpewter::days_len(NODES)];
        let (code, depth) = (asked.code, asked.depth);
        let built = build_dated_with_code(
            &board,
            code,
            depth,
            start,
            window,
            &mut index,
            &mut totals,
            &mut days,
        )
        .map_err(number)?;
        assert_eq!(built.nodes, index[0]);
        Ok(DatedImage { image: Image { index, totals, left: built.left }, days })
    }

    fn descendants(
        &self,
        index: &[u32],
        rank: u32,
        lower: i32,
        upper: i32,
    ) -> Result<Vec<u32>, u32> {
        let mut list = vec![0; NODES];
        let ranks = flowpewter::descendants(index, rank, lower..=upper, &mut list);
        ranks.map(<[u32]>::to_vec).map_err(number)
    }

    fn ancestors(
        &self,
        index: &[u32],
        rank: u32,
        lower: i32,
        upper: i32,
    ) -> Result<(Vec<u32>, u32), u32> {
        let mut list = vec![0; NODES];
        let found = flowpewter::ancestors(index, rank, lower..=upper, &mut list);
        found.map(|found| (found.ranks.to_vec(), found.links as u32)).map_err(number)
    }

    fn siblings(&self, index: &[u32], rank: u32) -> Result<Vec<u32>, u32> {
        let mut list = vec![0; NODES];
        flowpewter::siblings(index, rank, &mut list).map(<[u32]>::to_vec).map_err(number)
    }

    fn siblings_by_hops(&self, index: &[u32], rank: u32) -> Result<(Vec<u32>, u32), u32> {
        let mut list = vec![0; NODES];
        let found = flowpewter::siblings_by_hops(index, rank, &mut list);
        found.map(|found| (found.ranks.to_vec(), found.hops as u32)).map_err(number)
    }

    fn meet(&self, index: &[u32], a: u32, b: u32) -> Result<Option<u32>, u32> {
        flowpewter::meet(index, a, b).map_err(number)
    }

    fn climb(&self, index: &[u32], rank: u32) -> Result<Option<u32>, u32> {
        Climber::new(index, rank).next().transpose().map_err(number)
    }

    fn span(&self, index: &[u32], rank: u32) -> Result<Vec<u32>, u32> {
        flowpewter::span(index, rank).map(<[u32]>::to_vec).map_err(number)
    }

    fn subtree_sum(&self, index: &[u32], totals: &[i64], rank: u32) -> Result<i64, u32> {
        flowpewter::subtree_sum(index, totals, rank).map_err(number)
    }

    fn path_sum(&self, index: &[u32], totals: &[i64], rank: u32) -> Result<i64, u32> {
        flowpewter::path_sum(index, totals, rank).map_err(number)
    }

    fn pull(
        &self,
        index: &[u32],
        totals: &mut [i64],
        row: u32,
        difference: i64,
    ) -> Result<(), u32> {
        flowpewter::pull(index, totals, row, difference).map_err(number)
    }

    fn index_check(&self, index: &[u32]) -> bool {
        flowpewter::index_check(index)
    }
}

guide::run_examples!(Library);
