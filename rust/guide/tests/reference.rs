//! The guide's examples through the reference.

use generate::ties::{ties, Tie};
use guide::{DatedImage, Engine, Image, EXAMPLES};
use reference::*;
use std::cell::RefCell;

/// The reference, and the ties of all that it has built.
#[derive(Default)]
struct Reference {
    ties: RefCell<Vec<Tie>>,
}

const NODES: usize = 1_000;

fn of(refusal: u32) -> Result<(), u32> {
    if refusal == 0 {
        Ok(())
    } else {
        Err(refusal)
    }
}

impl Engine for Reference {
    fn build(
        &self,
        rows: &[Row],
        code: u32,
        depth: Option<i32>,
        start: Start,
    ) -> Result<Image, u32> {
        let mut index = vec![0; 8 + 6 * NODES];
        let mut totals = vec![0; NODES + 1];
        let built = build(rows, code, depth, start, &mut index, &mut totals);
        of(built.refusal)?;
        assert_eq!(built.nodes, index[0]);
        self.ties.borrow_mut().extend(ties(rows, &index));
        Ok(Image { index, totals, left: built.left })
    }

    fn build_default(&self, rows: &[Row]) -> Result<Image, u32> {
        let mut index = vec![0; 8 + 6 * NODES];
        let mut totals = vec![0; NODES + 1];
        let built = build_default(rows, &mut index, &mut totals);
        of(built.refusal)?;
        assert_eq!(built.nodes, index[0]);
        self.ties.borrow_mut().extend(ties(rows, &index));
        Ok(Image { index, totals, left: built.left })
    }

    fn build_levelled(&self, cells: &[u32], width: u32) -> Result<Image, u32> {
        let mut index = vec![0; 8 + 6 * NODES];
        let mut totals = vec![0; NODES + 1];
        let built = build_levelled(cells, width, &mut index, &mut totals);
        of(built.refusal)?;
        assert_eq!(built.nodes, index[0]);
        Ok(Image { index, totals, left: built.left })
    }

    fn build_shortest(&self, rows: &[Row], start: Start) -> Result<Image, u32> {
        let mut index = vec![0; 8 + 6 * NODES];
        let mut totals = vec![0; NODES + 1];
        let built = build_shortest(rows, start, &mut index, &mut totals);
        of(built.refusal)?;
        assert_eq!(built.nodes, index[0]);
        self.ties.borrow_mut().extend(ties(rows, &index));
        Ok(Image { index, totals, left: built.left })
    }

    fn build_dated(&self, rows: &[Row], asked: Asked) -> Result<DatedImage, u32> {
        let mut index = vec![0; 8 + 6 * NODES];
        let mut totals = vec![0; NODES + 1];
        let mut days = vec![0; 2 * NODES];
        let built = build_dated(rows, asked, &mut index, &mut totals, &mut days);
        of(built.refusal)?;
        assert_eq!(built.nodes, index[0]);
        self.ties.borrow_mut().extend(ties(rows, &index));
        Ok(DatedImage { image: Image { index, totals, left: built.left }, days })
    }

    fn descendants(
        &self,
        index: &[u32],
        rank: u32,
        lower: i32,
        upper: i32,
    ) -> Result<Vec<u32>, u32> {
        let mut list = vec![0; NODES];
        let listed = descendants(index, rank, lower, upper, &mut list);
        of(listed.refusal)?;
        list.truncate(listed.length as usize);
        Ok(list)
    }

    fn ancestors(
        &self,
        index: &[u32],
        rank: u32,
        lower: i32,
        upper: i32,
    ) -> Result<(Vec<u32>, u32), u32> {
        let mut list = vec![0; NODES];
        let climbed = ancestors(index, rank, lower, upper, &mut list);
        of(climbed.refusal)?;
        list.truncate(climbed.length as usize);
        Ok((list, climbed.links))
    }

    fn siblings(&self, index: &[u32], rank: u32) -> Result<Vec<u32>, u32> {
        let mut list = vec![0; NODES];
        let listed = siblings(index, rank, &mut list);
        of(listed.refusal)?;
        list.truncate(listed.length as usize);
        Ok(list)
    }

    fn siblings_by_hops(&self, index: &[u32], rank: u32) -> Result<(Vec<u32>, u32), u32> {
        let mut list = vec![0; NODES];
        let hopped = siblings_by_hops(index, rank, &mut list);
        of(hopped.refusal)?;
        list.truncate(hopped.length as usize);
        Ok((list, hopped.hops))
    }

    fn meet(&self, index: &[u32], a: u32, b: u32) -> Result<Option<u32>, u32> {
        let meeting = meet(index, a, b);
        of(meeting.refusal).map(|()| meeting.found.then_some(meeting.rank))
    }

    fn climb(&self, index: &[u32], rank: u32) -> Result<Option<u32>, u32> {
        let step = Climber::at(index, rank).up();
        of(step.refusal).map(|()| (!step.root).then_some(step.rank))
    }

    fn span(&self, index: &[u32], rank: u32) -> Result<Vec<u32>, u32> {
        let spanned = span(index, rank);
        of(spanned.refusal)?;
        Ok(index[spanned.words].to_vec())
    }

    fn subtree_sum(&self, index: &[u32], totals: &[i64], rank: u32) -> Result<i64, u32> {
        let summed = subtree_sum(index, totals, rank);
        of(summed.refusal).map(|()| summed.sum)
    }

    fn path_sum(&self, index: &[u32], totals: &[i64], rank: u32) -> Result<i64, u32> {
        let summed = path_sum(index, totals, rank);
        of(summed.refusal).map(|()| summed.sum)
    }

    fn pull(
        &self,
        index: &[u32],
        totals: &mut [i64],
        row: u32,
        difference: i64,
    ) -> Result<(), u32> {
        of(pull(index, totals, row, difference))
    }

    fn index_check(&self, index: &[u32]) -> bool {
        index_check(index)
    }
}

guide::run_examples!(Reference::default());

/// Every example is in the list of `run_examples!`.
#[test]
fn every_example_is_run() {
    let source = include_str!("../src/examples.rs");
    let list = include_str!("../src/lib.rs");
    let mut count = 0;
    for line in source.lines().filter_map(|line| line.strip_prefix("pub fn ")) {
        let name = line.split('(').next().unwrap();
        assert!(list.lines().any(|line| line.trim() == name), "{name} is not run");
        count += 1;
    }
    assert_eq!(count, 74);
}

/// What the page's table of ties says of an example, the first two columns: how many neighbouring
/// siblings have equal orders, and of how many the row number decides. All others are decided by
/// the numeral, against the row numbers.
fn line_of_ties(name: &str, ties: &[Tie]) -> String {
    let by_row_number = ties.iter().filter(|tie| tie.row_number_decides()).count();
    let by_numeral = ties.iter().filter(|tie| tie.numeral_decides()).count();
    assert_eq!(by_numeral + by_row_number, ties.len(), "{name}");
    match by_row_number {
        0 => format!("| `{name}` | {by_numeral} |"),
        _ => format!("| `{name}` | {}, {by_row_number} by row number |", ties.len()),
    }
}

/// The page lists all examples with ties.
#[test]
fn ties_are_those_of_the_page() {
    let page = include_str!("../../../docs/TESTING.md");
    let table = page.split("\n### Ties in the examples\n").nth(1).expect("a section of ties");
    let table = table.split("\n### ").next().unwrap();
    let mut listed = table.lines().filter(|line| line.starts_with("| `"));
    for (name, example) in EXAMPLES {
        let engine = Reference::default();
        example(&engine);
        let ties = engine.ties.into_inner();
        if !ties.is_empty() {
            let line = line_of_ties(name, &ties);
            let listed = listed.next().unwrap_or("no more lines");
            assert!(listed.starts_with(&line), "{line} is on the page as {listed}");
        }
    }
    assert_eq!(listed.next(), None);
}
