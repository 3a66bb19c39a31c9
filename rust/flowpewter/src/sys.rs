//! The C face in Rust types: each function is safe for every argument, and answers the refusal number, 0 for none.
//!
//! This is the one module with unsafe code. Each call hands over pointers and lengths of slices that are borrowed for
//! the call, and plain structs; the other side is proved to stay inside them.
#![allow(unsafe_code)]

use crate::board::{Board, Row};
use crate::days::Days;

/// What an edit answers; of a refused edit the board is the one it got.
#[repr(C)]
#[derive(Clone, Copy, Debug, PartialEq, Eq)]
pub struct Edited {
    pub board: Board,
    pub refusal: u32,
}

/// What a replay answers: the number of calls and the board after them; none and the empty board if refused.
#[repr(C)]
#[derive(Clone, Copy, Debug, PartialEq, Eq)]
pub struct Replayed {
    pub refusal: u32,
    pub calls: usize,
    pub board: Board,
}

/// What a build answers: the number of nodes, and the number of rows that end no node, or of lines of a levelled list
/// that are wholly blank.
#[repr(C)]
#[derive(Clone, Copy, Debug, PartialEq, Eq)]
pub struct Built {
    pub refusal: u32,
    pub nodes: u32,
    pub left: u32,
}

/// Where a span stands in the index slice: its first word, counted from 0, and its number of words; both 0 if refused.
#[repr(C)]
#[derive(Clone, Copy, Debug, PartialEq, Eq)]
pub struct Span {
    pub refusal: u32,
    pub start: usize,
    pub words: usize,
}

/// What a call that lists ranks answers.
#[repr(C)]
#[derive(Clone, Copy, Debug, PartialEq, Eq)]
pub struct Listed {
    pub refusal: u32,
    pub len: usize,
}

/// What a call that lists ancestors answers.
#[repr(C)]
#[derive(Clone, Copy, Debug, PartialEq, Eq)]
pub struct Climbed {
    pub refusal: u32,
    pub len: usize,
    pub links: usize,
}

/// What a call that lists siblings by hops answers.
#[repr(C)]
#[derive(Clone, Copy, Debug, PartialEq, Eq)]
pub struct Hopped {
    pub refusal: u32,
    pub len: usize,
    pub hops: usize,
}

/// Where two nodes meet; not found and rank 0 where they don't, and if refused.
#[repr(C)]
#[derive(Clone, Copy, Debug, PartialEq, Eq)]
pub struct Meeting {
    pub refusal: u32,
    pub found: bool,
    pub rank: u32,
}

/// What a climber's call answers: whether it is at a root, and the rank come to; at a root, or if refused, the rank it was
/// at.
#[repr(C)]
#[derive(Clone, Copy, Debug, PartialEq, Eq)]
pub struct ClimbedOne {
    pub refusal: u32,
    pub root: bool,
    pub rank: u32,
}

/// What a call that sums minutes answers.
#[repr(C)]
#[derive(Clone, Copy, Debug, PartialEq, Eq)]
pub struct Summed {
    pub refusal: u32,
    pub sum: i64,
}

extern "C" {
    fn flowpewter_empty() -> Board;
    fn flowpewter_sound(board: Board) -> bool;
    fn flowpewter_add(board: Board, row: Row) -> Edited;
    fn flowpewter_withdraw(board: Board, k: usize) -> Edited;
    fn flowpewter_remark(board: Board, k: usize, minutes: i32) -> Edited;
    fn flowpewter_undo(board: Board) -> Edited;
    fn flowpewter_redo(board: Board) -> Edited;
    fn flowpewter_replay(
        words: *const u32,
        words_len: usize,
        refusals: *mut u32,
        refusals_len: usize,
    ) -> Replayed;
    fn flowpewter_build(
        board: Board,
        code: u32,
        has_depth: bool,
        depth: i32,
        by_list: bool,
        list: *const u32,
        list_len: usize,
        index: *mut u32,
        index_len: usize,
        totals: *mut i64,
        totals_len: usize,
    ) -> Built;
    fn flowpewter_build_default(
        board: Board,
        index: *mut u32,
        index_len: usize,
        totals: *mut i64,
        totals_len: usize,
    ) -> Built;
    fn flowpewter_build_shortest(
        board: Board,
        by_list: bool,
        list: *const u32,
        list_len: usize,
        index: *mut u32,
        index_len: usize,
        totals: *mut i64,
        totals_len: usize,
    ) -> Built;
    fn flowpewter_build_dated(
        board: Board,
        code: u32,
        has_depth: bool,
        depth: i32,
        by_list: bool,
        list: *const u32,
        list_len: usize,
        first_day: u32,
        last_day: u32,
        index: *mut u32,
        index_len: usize,
        totals: *mut i64,
        totals_len: usize,
        days: *mut u32,
        days_len: usize,
    ) -> Built;
    fn flowpewter_build_levelled(
        cells: *const u32,
        cells_len: usize,
        width: u32,
        index: *mut u32,
        index_len: usize,
        totals: *mut i64,
        totals_len: usize,
    ) -> Built;
    fn flowpewter_span(index: *const u32, index_len: usize, rank: u32) -> Span;
    fn flowpewter_descendants(
        index: *const u32,
        index_len: usize,
        rank: u32,
        lo: i32,
        hi: i32,
        out: *mut u32,
        out_len: usize,
    ) -> Listed;
    fn flowpewter_ancestors(
        index: *const u32,
        index_len: usize,
        rank: u32,
        lo: i32,
        hi: i32,
        out: *mut u32,
        out_len: usize,
    ) -> Climbed;
    fn flowpewter_siblings(
        index: *const u32,
        index_len: usize,
        rank: u32,
        out: *mut u32,
        out_len: usize,
    ) -> Listed;
    fn flowpewter_siblings_by_hops(
        index: *const u32,
        index_len: usize,
        rank: u32,
        out: *mut u32,
        out_len: usize,
    ) -> Hopped;
    fn flowpewter_meet(index: *const u32, index_len: usize, a: u32, b: u32) -> Meeting;
    fn flowpewter_climb(index: *const u32, index_len: usize, rank: u32) -> ClimbedOne;
    fn flowpewter_subtree_sum(
        index: *const u32,
        index_len: usize,
        totals: *const i64,
        totals_len: usize,
        rank: u32,
    ) -> Summed;
    fn flowpewter_path_sum(
        index: *const u32,
        index_len: usize,
        totals: *const i64,
        totals_len: usize,
        rank: u32,
    ) -> Summed;
    fn flowpewter_pull(
        index: *const u32,
        index_len: usize,
        totals: *mut i64,
        totals_len: usize,
        row: u32,
        difference: i64,
    ) -> u32;
    fn flowpewter_index_check(index: *const u32, index_len: usize) -> bool;
}

pub fn empty() -> Board {
    unsafe { flowpewter_empty() }
}

pub fn sound(board: &Board) -> bool {
    unsafe { flowpewter_sound(*board) }
}

pub fn add(board: &Board, row: Row) -> Edited {
    unsafe { flowpewter_add(*board, row) }
}

pub fn withdraw(board: &Board, k: usize) -> Edited {
    unsafe { flowpewter_withdraw(*board, k) }
}

pub fn remark(board: &Board, k: usize, minutes: i32) -> Edited {
    unsafe { flowpewter_remark(*board, k, minutes) }
}

pub fn undo(board: &Board) -> Edited {
    unsafe { flowpewter_undo(*board) }
}

pub fn redo(board: &Board) -> Edited {
    unsafe { flowpewter_redo(*board) }
}

pub fn replay(words: &[u32], refusals: &mut [u32]) -> Replayed {
    unsafe { flowpewter_replay(words.as_ptr(), words.len(), refusals.as_mut_ptr(), refusals.len()) }
}

/// Start rows are those with parent 0 where there is no list. The code is that of [`crate::Options::code`].
pub fn build(
    board: &Board,
    code: u32,
    depth: Option<i32>,
    list: Option<&[u32]>,
    index: &mut [u32],
    totals: &mut [i64],
) -> Built {
    let numerals = list.unwrap_or(&[]);
    unsafe {
        flowpewter_build(
            *board,
            code,
            depth.is_some(),
            depth.unwrap_or(0),
            list.is_some(),
            numerals.as_ptr(),
            numerals.len(),
            index.as_mut_ptr(),
            index.len(),
            totals.as_mut_ptr(),
            totals.len(),
        )
    }
}

pub fn build_default(board: &Board, index: &mut [u32], totals: &mut [i64]) -> Built {
    unsafe {
        flowpewter_build_default(
            *board,
            index.as_mut_ptr(),
            index.len(),
            totals.as_mut_ptr(),
            totals.len(),
        )
    }
}

/// Start rows are those with parent 0 where there is no list.
pub fn build_shortest(
    board: &Board,
    list: Option<&[u32]>,
    index: &mut [u32],
    totals: &mut [i64],
) -> Built {
    let numerals = list.unwrap_or(&[]);
    unsafe {
        flowpewter_build_shortest(
            *board,
            list.is_some(),
            numerals.as_ptr(),
            numerals.len(),
            index.as_mut_ptr(),
            index.len(),
            totals.as_mut_ptr(),
            totals.len(),
        )
    }
}

/// Start rows are those with parent 0 where there is no list. The code is that of [`crate::Options::code`].
#[allow(clippy::too_many_arguments)]
pub fn build_dated(
    board: &Board,
    code: u32,
    depth: Option<i32>,
    list: Option<&[u32]>,
    window: Days,
    index: &mut [u32],
    totals: &mut [i64],
    days: &mut [u32],
) -> Built {
    let numerals = list.unwrap_or(&[]);
    unsafe {
        flowpewter_build_dated(
            *board,
            code,
            depth.is_some(),
            depth.unwrap_or(0),
            list.is_some(),
            numerals.as_ptr(),
            numerals.len(),
            window.first,
            window.last,
            index.as_mut_ptr(),
            index.len(),
            totals.as_mut_ptr(),
            totals.len(),
            days.as_mut_ptr(),
            days.len(),
        )
    }
}

pub fn build_levelled(cells: &[u32], width: u32, index: &mut [u32], totals: &mut [i64]) -> Built {
    unsafe {
        flowpewter_build_levelled(
            cells.as_ptr(),
            cells.len(),
            width,
            index.as_mut_ptr(),
            index.len(),
            totals.as_mut_ptr(),
            totals.len(),
        )
    }
}

pub fn span(index: &[u32], rank: u32) -> Span {
    unsafe { flowpewter_span(index.as_ptr(), index.len(), rank) }
}

pub fn descendants(index: &[u32], rank: u32, lo: i32, hi: i32, out: &mut [u32]) -> Listed {
    unsafe {
        flowpewter_descendants(
            index.as_ptr(),
            index.len(),
            rank,
            lo,
            hi,
            out.as_mut_ptr(),
            out.len(),
        )
    }
}

pub fn ancestors(index: &[u32], rank: u32, lo: i32, hi: i32, out: &mut [u32]) -> Climbed {
    unsafe {
        flowpewter_ancestors(index.as_ptr(), index.len(), rank, lo, hi, out.as_mut_ptr(), out.len())
    }
}

pub fn siblings(index: &[u32], rank: u32, out: &mut [u32]) -> Listed {
    unsafe { flowpewter_siblings(index.as_ptr(), index.len(), rank, out.as_mut_ptr(), out.len()) }
}

pub fn siblings_by_hops(index: &[u32], rank: u32, out: &mut [u32]) -> Hopped {
    unsafe {
        flowpewter_siblings_by_hops(index.as_ptr(), index.len(), rank, out.as_mut_ptr(), out.len())
    }
}

pub fn meet(index: &[u32], a: u32, b: u32) -> Meeting {
    unsafe { flowpewter_meet(index.as_ptr(), index.len(), a, b) }
}

/// The caller keeps the rank, and passes the answered one to the next call.
pub fn climb(index: &[u32], rank: u32) -> ClimbedOne {
    unsafe { flowpewter_climb(index.as_ptr(), index.len(), rank) }
}

pub fn subtree_sum(index: &[u32], totals: &[i64], rank: u32) -> Summed {
    unsafe {
        flowpewter_subtree_sum(index.as_ptr(), index.len(), totals.as_ptr(), totals.len(), rank)
    }
}

pub fn path_sum(index: &[u32], totals: &[i64], rank: u32) -> Summed {
    unsafe { flowpewter_path_sum(index.as_ptr(), index.len(), totals.as_ptr(), totals.len(), rank) }
}

/// Answers the refusal number alone.
pub fn pull(index: &[u32], totals: &mut [i64], row: u32, difference: i64) -> u32 {
    unsafe {
        flowpewter_pull(
            index.as_ptr(),
            index.len(),
            totals.as_mut_ptr(),
            totals.len(),
            row,
            difference,
        )
    }
}

pub fn index_check(index: &[u32]) -> bool {
    unsafe { flowpewter_index_check(index.as_ptr(), index.len()) }
}
