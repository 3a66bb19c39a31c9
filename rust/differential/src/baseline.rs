//! The same jobs in plain Rust, written for speed: what the library is measured against.
//!
//! Links and an explicit stack: rows of one numeral are a class, the children of a class are a range of the rows in
//! sibling order, and a mark per class tells whether it stands on the path. A dated build reads the days of the path
//! from its own answer, and goes no further where none are left. Which numerals are on rings is found for all at once,
//! by strongly connected components. The shortest placement is a breadth-first search over classes; its queue
//! gives all tree sizes backwards and all ranks forwards, without a walk. The lines of a levelled list are sorted as
//! arrays of their width, and each is compared with the one before. A pull moves the totals in one pass, which is taken
//! back where it comes to one beyond use. Nothing is allocated.

use flowpewter::sys::{Built, ClimbedOne, Edited, Hopped, Listed, Meeting};
use flowpewter::{
    Board, Days, Entry, Row, BODY, CLOSING_BIT, CONTENTS, LEVEL_MASK, MAX_KEPT, MAX_LINES,
    MAX_NODES, MAX_ROWS, MAX_UNDONE, ORPHAN_BIT,
};
use std::mem::replace;

/// Stands for no class.
const NONE: u16 = u16::MAX;

fn can_be_carried_out(entry: &Entry, count: usize) -> bool {
    let at = entry.at as usize;
    match entry.kind {
        Entry::TAKE_OUT => at < count,
        Entry::PUT_IN => entry.row.numeral != 0 && count < MAX_ROWS && at <= count,
        Entry::SET => entry.row.numeral != 0 && at < count,
        _ => false,
    }
}

pub fn sound(board: &Board) -> bool {
    board.count <= MAX_ROWS
        && board.kept <= MAX_KEPT
        && board.undone <= MAX_UNDONE
        && board.held().iter().all(|row| row.numeral != 0)
        && board.kept_steps().last().is_none_or(|newest| can_be_carried_out(newest, board.count))
        && board.undone_steps().first().is_none_or(|newest| can_be_carried_out(newest, board.count))
}

/// Makes the entry the newest kept one; of 257 the oldest is dropped, and the entries up to place `end` move up by one.
fn keep(board: &mut Board, entry: Entry, end: usize) {
    if board.kept == MAX_KEPT {
        board.journal.copy_within(1..end, 0);
        board.kept -= 1;
    }
    board.journal[board.kept] = entry;
    board.kept += 1;
}

/// Answers the entry that leads back.
fn carry_out(board: &mut Board, entry: Entry) -> Entry {
    let at = entry.at as usize;
    match entry.kind {
        Entry::TAKE_OUT => {
            let row = board.rows[at];
            board.rows.copy_within(at + 1..board.count, at);
            board.count -= 1;
            Entry { kind: Entry::PUT_IN, at: entry.at, row }
        }
        Entry::PUT_IN => {
            board.rows.copy_within(at..board.count, at + 1);
            board.rows[at] = entry.row;
            board.count += 1;
            Entry { kind: Entry::TAKE_OUT, ..entry }
        }
        _ => Entry { row: replace(&mut board.rows[at], entry.row), ..entry },
    }
}

/// In the caller's storage.
#[inline(never)]
pub fn add_in_place(board: &mut Board, row: Row) -> u32 {
    if !sound(board) {
        return 1;
    }
    if row.numeral == 0 {
        return 2;
    }
    if row.first_day > row.last_day {
        return 20;
    }
    if board.count == MAX_ROWS {
        return 3;
    }
    let entry = Entry { kind: Entry::TAKE_OUT, at: board.count as u32, row };
    keep(board, entry, MAX_KEPT);
    board.undone = 0;
    board.rows[board.count] = row;
    board.count += 1;
    0
}

#[inline(never)]
pub fn undo_in_place(board: &mut Board) -> u32 {
    if !sound(board) {
        return 1;
    }
    if board.kept == 0 {
        return 5;
    }
    board.kept -= 1;
    board.undone = (board.undone + 1).min(MAX_UNDONE);
    let entry = board.journal[board.kept];
    board.journal[board.kept] = carry_out(board, entry);
    0
}

#[inline(never)]
pub fn redo_in_place(board: &mut Board) -> u32 {
    if !sound(board) {
        return 1;
    }
    if board.undone == 0 {
        return 17;
    }
    let entry = board.journal[board.kept];
    let back = carry_out(board, entry);
    keep(board, back, MAX_KEPT + board.undone);
    board.undone -= 1;
    0
}

/// By value, as the library has it.
#[inline(never)]
pub fn add(mut board: Board, row: Row) -> Edited {
    let refusal = add_in_place(&mut board, row);
    Edited { board, refusal }
}

#[inline(never)]
pub fn undo(mut board: Board) -> Edited {
    let refusal = undo_in_place(&mut board);
    Edited { board, refusal }
}

#[inline(never)]
pub fn redo(mut board: Board) -> Edited {
    let refusal = redo_in_place(&mut board);
    Edited { board, refusal }
}

/// A call by the C convention that does nothing: what handing a board over and back costs by itself.
pub fn nothing(board: &Board) -> Edited {
    unchanged(*board)
}

#[inline(never)]
extern "C" fn unchanged(board: Board) -> Edited {
    Edited { board, refusal: 0 }
}

/// The rows of a board in classes, and the children of each class.
struct Links {
    class_of: [u16; MAX_ROWS],
    /// All rows by parent class, in sibling order within each.
    sorted: [u16; MAX_ROWS],
    /// Where the children of a class begin in `sorted`; one more for the end.
    begin: [u16; MAX_ROWS + 1],
    /// Rows in sibling order.
    siblings: [u16; MAX_ROWS],
    /// Class of each row's parent.
    parent_class: [u16; MAX_ROWS],
}

impl Links {
    #[inline(always)]
    fn new(rows: &[Row]) -> (Links, [u32; MAX_ROWS], usize) {
        let mut links = Links {
            class_of: [0; MAX_ROWS],
            sorted: [0; MAX_ROWS],
            begin: [0; MAX_ROWS + 1],
            siblings: [0; MAX_ROWS],
            parent_class: [NONE; MAX_ROWS],
        };
        let mut numerals = [0; MAX_ROWS];
        let mut keys = [0u64; MAX_ROWS];
        let keys = &mut keys[..rows.len()];

        for (place, row) in rows.iter().enumerate() {
            keys[place] = (row.numeral as u64) << 10 | place as u64;
        }
        keys.sort_unstable();
        let mut classes = 0;
        for (at, key) in keys.iter_mut().enumerate() {
            let (numeral, place) = ((*key >> 10) as u32, (*key & 1_023) as usize);
            if classes == 0 || numerals[classes - 1] != numeral {
                numerals[classes] = numeral;
                classes += 1;
            }
            links.class_of[place] = classes as u16 - 1;
            // `at` stands for numeral and place: by order and then by it, rows are in sibling order.
            *key = (rows[place].order as u64) << 20 | (at as u64) << 10 | place as u64;
        }
        keys.sort_unstable();

        for (place, row) in rows.iter().enumerate() {
            if let Ok(class) = numerals[..classes].binary_search(&row.parent) {
                links.parent_class[place] = class as u16;
                links.begin[class + 1] += 1;
            }
        }
        for class in 0..classes {
            links.begin[class + 1] += links.begin[class];
        }
        let mut next = links.begin;
        for (at, key) in keys.iter().enumerate() {
            let place = (key & 1_023) as usize;
            links.siblings[at] = place as u16;
            let class = links.parent_class[place];
            if class != NONE {
                links.sorted[next[class as usize] as usize] = place as u16;
                next[class as usize] += 1;
            }
        }
        (links, numerals, classes)
    }

    /// The same as a call: where the search follows, the compiler moves the arrays about otherwise.
    #[inline(never)]
    fn called(rows: &[Row]) -> (Links, [u32; MAX_ROWS], usize) {
        Links::new(rows)
    }
}

/// A level of the path that is being walked.
#[derive(Clone, Copy, Default)]
struct Level {
    /// Next child, and the end of the children, in `sorted`.
    next: u16,
    end: u16,
    class: u16,
    rank: u32,
}

/// What a node ends with: a row, or an entry, whose number is 0.
#[derive(Clone, Copy)]
struct End {
    numeral: u32,
    number: u32,
    minutes: i32,
    class: u16,
}

struct Walk<'a> {
    rows: &'a [Row],
    links: &'a Links,
    bodies: &'a mut [u32],
    totals: &'a mut [i64],
    /// The days of each node; of a build without a window none.
    days: &'a mut [[u32; 2]],
    capacity: usize,
    count: usize,
    check: u32,
    total: i64,
    closing: bool,
    marks: [bool; MAX_ROWS],
    reached: [bool; MAX_ROWS],
    shared: [u32; MAX_ROWS],
}

impl Walk<'_> {
    #[inline(always)]
    fn row(&self, place: usize) -> End {
        let Row { numeral, minutes, .. } = self.rows[place];
        End { numeral, number: place as u32 + 1, minutes, class: self.links.class_of[place] }
    }

    /// Writes all words of a node but its size. None when there is no room.
    #[inline(always)]
    fn write(&mut self, end: End, parent: u32, root: u32, last: u32) -> Option<u32> {
        if self.count == self.capacity {
            return None;
        }
        let at = BODY * self.count;
        self.count += 1;
        let rank = self.count as u32;
        let root = if root == 0 { rank } else { root };
        let body = &mut self.bodies[at..at + BODY];
        body[0] = end.numeral;
        body[1] = end.number;
        body[2] = 1;
        body[3] = parent;
        body[4] = root;
        body[5] = last;
        self.check = self
            .check
            .wrapping_add(end.numeral)
            .wrapping_add(end.number)
            .wrapping_add(parent)
            .wrapping_add(root)
            .wrapping_add(last);
        self.total += end.minutes as i64;
        self.totals[self.count] = self.total;
        self.shared[end.class as usize] += 1;
        Some(rank)
    }

    /// Whether the row has days among the given ones: if so, they are written as those of the next node. There is a place
    /// for them where there is one for the node.
    #[inline(always)]
    fn has_days(&mut self, place: usize, [first, last]: [u32; 2]) -> bool {
        let Row { first_day, last_day, .. } = self.rows[place];
        let common = [first.max(first_day), last.min(last_day)];
        if common[0] > common[1] {
            return false;
        }
        if let Some(days) = self.days.get_mut(self.count) {
            *days = common;
        }
        true
    }

    #[inline(always)]
    fn set_size(&mut self, rank: u32) {
        let size = self.count as u32 + 1 - rank;
        self.bodies[BODY * (rank as usize - 1) + 2] = size;
        self.check = self.check.wrapping_add(size);
    }

    /// All paths from one first row, whose days are written.
    #[inline(always)]
    fn tree<const ORPHAN: bool, const DATED: bool>(
        &mut self,
        first: usize,
        parent: u32,
        base: u32,
        limit: usize,
        within: &[bool; MAX_ROWS],
        stack: &mut [Level; MAX_ROWS + 1],
    ) -> Option<()> {
        self.reached[first] = true;
        self.paths::<ORPHAN, DATED>(self.row(first), parent, base, limit, within, stack)
    }

    /// All paths that begin alike. `base` is the level above, `within` the rows that paths may have (all if none).
    fn paths<const ORPHAN: bool, const DATED: bool>(
        &mut self,
        first: End,
        parent: u32,
        base: u32,
        limit: usize,
        within: &[bool; MAX_ROWS],
        stack: &mut [Level; MAX_ROWS + 1],
    ) -> Option<()> {
        let flag = if ORPHAN { ORPHAN_BIT } else { 0 };
        let rank = self.write(first, parent, parent, (base + 1) | flag)?;
        let root = if parent == 0 { rank } else { parent };
        self.marks[first.class as usize] = true;
        stack[0] = self.level(first.class, rank, limit > 1);
        let mut depth = 1;
        while depth > 0 {
            let top = &mut stack[depth - 1];
            if top.next == top.end {
                let (rank, class) = (top.rank, top.class);
                self.marks[class as usize] = false;
                self.set_size(rank);
                depth -= 1;
                continue;
            }
            let place = self.links.sorted[top.next as usize] as usize;
            top.next += 1;
            let above = top.rank;
            if ORPHAN && !within[place] {
                continue;
            }
            if DATED && !self.has_days(place, self.days[above as usize - 1]) {
                continue;
            }
            self.reached[place] = true;
            let class = self.links.class_of[place];
            let closing = self.marks[class as usize];
            let word = (base + 1 + depth as u32) | flag | (closing as u32 * CLOSING_BIT);
            let rank = self.write(self.row(place), above, root, word)?;
            if closing {
                self.closing = true;
                self.check = self.check.wrapping_add(1);
                continue;
            }
            depth += 1;
            let begins = self.links.begin[class as usize];
            if depth >= limit || begins == self.links.begin[class as usize + 1] {
                self.check = self.check.wrapping_add(1);
                depth -= 1;
                continue;
            }
            self.marks[class as usize] = true;
            stack[depth - 1] = self.level(class, rank, true);
        }
        Some(())
    }

    #[inline(always)]
    fn level(&self, class: u16, rank: u32, open: bool) -> Level {
        let next = self.links.begin[class as usize];
        let end = if open { self.links.begin[class as usize + 1] } else { next };
        Level { next, end, class, rank }
    }

    /// All paths from entries, `within` being the rows of islands.
    #[inline(never)]
    fn islands(
        &mut self,
        parent: u32,
        base: u32,
        classes: usize,
        within: &mut [bool; MAX_ROWS],
        stack: &mut [Level; MAX_ROWS + 1],
    ) -> Option<()> {
        let mut ringed = on_rings(self.links, classes, within, stack);
        for place in 0..self.rows.len() {
            let row = self.row(place);
            if !within[place] || !ringed[row.class as usize] {
                continue;
            }
            let entry = End { number: 0, minutes: 0, ..row };
            let before = self.count;
            self.paths::<true, false>(entry, parent, base, MAX_ROWS + 1, within, stack)?;
            // All rows below a numeral leave together, and with them each ring that it is on.
            for body in self.bodies[BODY * (before + 1)..BODY * self.count].chunks_exact(BODY) {
                let place = body[1] as usize - 1;
                within[place] = false;
                ringed[self.links.class_of[place] as usize] = false;
            }
        }
        Some(())
    }
}

/// Whether each class is on a ring of the rows of `within`: it has another class in its strongly connected component,
/// or a row below itself. Tarjan's low links, in time linear in the rows.
fn on_rings(
    links: &Links,
    classes: usize,
    within: &[bool; MAX_ROWS],
    stack: &mut [Level; MAX_ROWS + 1],
) -> [bool; MAX_ROWS] {
    /// In place of the number of a class whose component is complete.
    const COMPLETE: u16 = u16::MAX;
    let mut ringed = [false; MAX_ROWS];
    // In the order met, from 1; 0 for not met.
    let mut number = [0; MAX_ROWS];
    let mut low = [0; MAX_ROWS];
    // Classes that are met and whose component isn't complete.
    let mut open = [0; MAX_ROWS];
    let (mut opened, mut met) = (0, 0);
    for first in 0..classes {
        if number[first] != 0 {
            continue;
        }
        let mut depth = 0;
        let mut next = Some(first);
        loop {
            if let Some(class) = next.take() {
                met += 1;
                (number[class], low[class]) = (met, met);
                open[opened] = class as u16;
                opened += 1;
                let (next, end) = (links.begin[class], links.begin[class + 1]);
                stack[depth] = Level { next, end, class: class as u16, rank: 0 };
                depth += 1;
            }
            let top = &mut stack[depth - 1];
            let class = top.class as usize;
            if top.next < top.end {
                let place = links.sorted[top.next as usize] as usize;
                top.next += 1;
                if within[place] {
                    let below = links.class_of[place] as usize;
                    if number[below] == 0 {
                        next = Some(below);
                    } else {
                        low[class] = low[class].min(number[below]);
                        ringed[class] |= below == class;
                    }
                }
                continue;
            }
            if low[class] == number[class] {
                let alone = open[opened - 1] as usize == class;
                loop {
                    opened -= 1;
                    let last = open[opened] as usize;
                    number[last] = COMPLETE;
                    ringed[last] |= !alone;
                    if last == class {
                        break;
                    }
                }
            }
            depth -= 1;
            if depth == 0 {
                break;
            }
            let above = stack[depth - 1].class as usize;
            low[above] = low[above].min(low[class]);
        }
    }
    ringed
}

/// Marks the start rows. `start` is none for parent 0.
#[inline(always)]
fn mark_starts(
    rows: &[Row],
    links: &Links,
    numerals: &[u32],
    start: Option<&[u32]>,
    starts: &mut [bool; MAX_ROWS],
) {
    match start {
        None => rows.iter().zip(starts).for_each(|(row, start)| *start = row.parent == 0),
        Some(list) => {
            let mut listed = [false; MAX_ROWS];
            for numeral in list {
                if let Ok(class) = numerals.binary_search(numeral) {
                    listed[class] = true;
                }
            }
            for (place, start) in starts[..rows.len()].iter_mut().enumerate() {
                *start = listed[links.class_of[place] as usize];
            }
        }
    }
}

fn refuse(refusal: u32, index: &mut [u32], totals: &mut [i64]) -> Built {
    index.fill(0);
    totals.fill(0);
    Built { refusal, nodes: 0, left: 0 }
}

/// The whole build, refusals in order. `start` is none for parent 0.
#[inline(never)]
pub fn build(
    board: &Board,
    code: u32,
    depth: Option<i32>,
    start: Option<&[u32]>,
    index: &mut [u32],
    totals: &mut [i64],
) -> Built {
    let asked = Asked { code, depth, start, window: Days::ALL };
    match attempt::<false>(board, asked, index, totals, &mut []) {
        Ok(built) => built,
        Err(refusal) => refuse(refusal, index, totals),
    }
}

/// The whole dated build, refusals in order. `start` is none for parent 0.
#[inline(never)]
#[allow(clippy::too_many_arguments)]
pub fn build_dated(
    board: &Board,
    code: u32,
    depth: Option<i32>,
    start: Option<&[u32]>,
    window: Days,
    index: &mut [u32],
    totals: &mut [i64],
    days: &mut [u32],
) -> Built {
    let asked = Asked { code, depth, start, window };
    match attempt::<true>(board, asked, index, totals, days) {
        Ok(built) => built,
        Err(refusal) => {
            days.fill(0);
            refuse(refusal, index, totals)
        }
    }
}

/// What a build is asked for; without a window it is all days.
struct Asked<'a> {
    code: u32,
    depth: Option<i32>,
    start: Option<&'a [u32]>,
    window: Days,
}

fn attempt<const DATED: bool>(
    board: &Board,
    Asked { code, depth, start, window }: Asked<'_>,
    index: &mut [u32],
    totals: &mut [i64],
    days: &mut [u32],
) -> Result<Built, u32> {
    if !sound(board) {
        return Err(1);
    }
    if code > 23 {
        return Err(6);
    }
    if window.is_empty() {
        return Err(20);
    }
    let (orphan, multi, cycle) = (code % 4, code / 4 % 3, code / 12);
    if (DATED || depth.is_some()) && orphan != 0 {
        return Err(7);
    }
    let rows = board.held();
    let (links, numerals, classes) = Links::new(rows);
    let mut starts = [false; MAX_ROWS];
    mark_starts(rows, &links, &numerals[..classes], start, &mut starts);
    let siblings = &links.siblings[..rows.len()];
    let last_start = siblings.iter().rev().find(|place| starts[**place as usize]);
    if orphan == 2 && last_start.is_none() && !rows.is_empty() {
        return Err(8);
    }
    if index.len() < CONTENTS || totals.is_empty() {
        return Err(9);
    }
    let mut capacity = MAX_NODES.min((index.len() - CONTENTS) / BODY).min(totals.len() - 1);
    let days = days.as_chunks_mut().0;
    if DATED {
        capacity = capacity.min(days.len());
    }
    let limit = match depth {
        None => MAX_ROWS + 1,
        Some(depth) if depth < 0 => 0,
        Some(depth) => (depth as usize + 1).min(MAX_ROWS + 1),
    };

    let (contents, bodies) = index.split_at_mut(CONTENTS);
    totals[0] = 0;
    let mut walk = Walk {
        rows,
        links: &links,
        bodies,
        totals,
        days,
        capacity,
        count: 0,
        check: 0,
        total: 0,
        closing: false,
        marks: [false; MAX_ROWS],
        reached: [false; MAX_ROWS],
        shared: [0; MAX_ROWS],
    };
    let mut stack = [Level::default(); MAX_ROWS + 1];
    let mut last_root = 0;
    if limit > 0 {
        for &place in siblings {
            let place = place as usize;
            if starts[place] && (!DATED || walk.has_days(place, [window.first, window.last])) {
                last_root = walk.count as u32 + 1;
                walk.tree::<false, DATED>(place, 0, 0, limit, &starts, &mut stack).ok_or(9u32)?;
            }
        }
    }
    let unreached = walk.reached[..rows.len()].iter().any(|reached| !reached);
    if unreached && orphan >= 2 {
        let mut within = [false; MAX_ROWS];
        for (within, reached) in within[..rows.len()].iter_mut().zip(&walk.reached) {
            *within = !reached;
        }
        let adopter = if orphan == 2 { last_root } else { 0 };
        let base = (orphan == 2) as u32;
        let before = walk.count;
        for &place in siblings {
            let place = place as usize;
            if within[place] && links.parent_class[place] == NONE {
                walk.tree::<true, false>(place, adopter, base, MAX_ROWS + 1, &within, &mut stack)
                    .ok_or(9u32)?;
            }
        }
        for (within, reached) in within[..rows.len()].iter_mut().zip(&walk.reached) {
            *within = !reached;
        }
        if within[..rows.len()].contains(&true) {
            walk.islands(adopter, base, classes, &mut within, &mut stack).ok_or(9u32)?;
        }
        if adopter != 0 {
            let added = (walk.count - before) as u32;
            walk.bodies[BODY * (adopter as usize - 1) + 2] += added;
            walk.check = walk.check.wrapping_add(added);
        }
    }

    if cycle == 1 && walk.closing {
        return Err(10);
    }
    let shares = |body: &[u32]| {
        // A ring closes on its entry, so that each entry shares its numeral.
        let Some(place) = body[1].checked_sub(1) else { return true };
        let class = links.class_of[place as usize];
        walk.shared[class as usize] > 1 && (multi == 2 || body[2] > 1)
    };
    if multi != 0 && walk.bodies[..BODY * walk.count].chunks_exact(BODY).any(shares) {
        return Err(11);
    }
    if orphan == 1 && unreached {
        return Err(12);
    }
    let left = walk.reached[..rows.len()].iter().filter(|reached| !**reached).count();
    let (nodes, check) = (walk.count as u32, walk.check);
    contents.copy_from_slice(&[nodes, 8, 6, check, 0, 0, 0, 0]);
    Ok(Built { refusal: 0, nodes, left: left as u32 })
}

/// A path that the shortest placement keeps, in the order met: fewer rows first, and among as many in path order.
#[derive(Clone, Copy)]
struct Kept {
    /// Place of its last row.
    place: u16,
    /// Where the path without its last row stands in the queue, from 1; 0 for a root.
    above: u16,
    level: u16,
    size: u16,
    root: u16,
    rank: u16,
    /// Rank of the next child.
    next: u16,
}

impl Kept {
    const EMPTY: Kept = Kept { place: 0, above: 0, level: 0, size: 0, root: 0, rank: 0, next: 0 };
}

/// The kept paths, and which classes they reach.
struct Search {
    queue: [Kept; MAX_ROWS],
    count: usize,
    met: [bool; MAX_ROWS],
}

impl Search {
    const EMPTY: Search =
        Search { queue: [Kept::EMPTY; MAX_ROWS], count: 0, met: [false; MAX_ROWS] };

    /// Keeps a path to the row, unless one to its class is kept.
    #[inline(always)]
    fn meet(&mut self, links: &Links, place: u16, above: u16, level: u16) {
        let met = &mut self.met[links.class_of[place as usize] as usize];
        if !*met {
            *met = true;
            self.queue[self.count] = Kept { place, above, level, size: 1, ..Kept::EMPTY };
            self.count += 1;
        }
    }

    /// Breadth first from the start rows.
    #[inline(always)]
    fn run(&mut self, links: &Links, siblings: &[u16], starts: &[bool; MAX_ROWS]) {
        for &place in siblings.iter().filter(|place| starts[**place as usize]) {
            self.meet(links, place, 0, 1);
        }
        let mut at = 0;
        while at < self.count {
            let Kept { place, level, .. } = self.queue[at];
            at += 1;
            let class = links.class_of[place as usize] as usize;
            let children = links.begin[class] as usize..links.begin[class + 1] as usize;
            for &child in &links.sorted[children] {
                self.meet(links, child, at as u16, level + 1);
            }
        }
    }

    /// Tree sizes from the last path met to the first, then ranks from the first to the last.
    #[inline(always)]
    fn number(&mut self) {
        for at in (0..self.count).rev() {
            let Kept { above, size, .. } = self.queue[at];
            if above != 0 {
                self.queue[above as usize - 1].size += size;
            }
        }
        let mut next_root = 1;
        for at in 0..self.count {
            let Kept { above, size, .. } = self.queue[at];
            let (rank, root) = if above == 0 {
                next_root += size;
                (next_root - size, next_root - size)
            } else {
                let above = &mut self.queue[above as usize - 1];
                above.next += size;
                (above.next - size, above.root)
            };
            let kept = &mut self.queue[at];
            (kept.rank, kept.root, kept.next) = (rank, root, rank + 1);
        }
    }
}

/// The whole build of the shortest placement, refusals in order. `start` is none for parent 0.
#[inline(never)]
pub fn build_shortest(
    board: &Board,
    start: Option<&[u32]>,
    index: &mut [u32],
    totals: &mut [i64],
) -> Built {
    let built = shortest(board, start, index, totals);
    built.unwrap_or_else(|refusal| refuse(refusal, index, totals))
}

fn shortest(
    board: &Board,
    start: Option<&[u32]>,
    index: &mut [u32],
    totals: &mut [i64],
) -> Result<Built, u32> {
    if !sound(board) {
        return Err(1);
    }
    let rows = board.held();
    let (links, numerals, classes) = Links::called(rows);
    let mut starts = [false; MAX_ROWS];
    mark_starts(rows, &links, &numerals[..classes], start, &mut starts);
    let mut search = Search::EMPTY;
    search.run(&links, &links.siblings[..rows.len()], &starts);
    let nodes = search.count;
    if index.len() < CONTENTS + BODY * nodes || totals.len() <= nodes {
        return Err(9);
    }
    search.number();

    let (contents, bodies) = index.split_at_mut(CONTENTS);
    let bodies = &mut bodies.as_chunks_mut::<BODY>().0[..nodes];
    let totals = &mut totals[..=nodes];
    totals[0] = 0;
    for kept in &search.queue[..nodes] {
        let Row { numeral, minutes, .. } = rows[kept.place as usize];
        let parent = if kept.above == 0 { 0 } else { search.queue[kept.above as usize - 1].rank };
        let [size, parent, root, level] =
            [kept.size, parent, kept.root, kept.level].map(|word| word as u32);
        bodies[kept.rank as usize - 1] =
            [numeral, kept.place as u32 + 1, size, parent, root, level];
        totals[kept.rank as usize] = minutes as i64;
    }
    let mut total = 0;
    for own in totals {
        total += *own;
        *own = total;
    }
    let check = bodies.as_flattened().iter().fold(0u32, |sum, word| sum.wrapping_add(*word));
    contents.copy_from_slice(&[nodes as u32, 8, 6, check, 0, 0, 0, 0]);
    Ok(Built { refusal: 0, nodes: nodes as u32, left: (rows.len() - nodes) as u32 })
}

/// The whole build of a levelled list, refusals in order.
#[inline(never)]
pub fn build_levelled(cells: &[u32], width: u32, index: &mut [u32], totals: &mut [i64]) -> Built {
    let built = match width {
        1 => levelled::<1>(cells, index, totals),
        2 => levelled::<2>(cells, index, totals),
        3 => levelled::<3>(cells, index, totals),
        4 => levelled::<4>(cells, index, totals),
        5 => levelled::<5>(cells, index, totals),
        6 => levelled::<6>(cells, index, totals),
        7 => levelled::<7>(cells, index, totals),
        8 => levelled::<8>(cells, index, totals),
        _ => Err(18),
    };
    built.unwrap_or_else(|refusal| refuse(refusal, index, totals))
}

fn levelled<const WIDTH: usize>(
    cells: &[u32],
    index: &mut [u32],
    totals: &mut [i64],
) -> Result<Built, u32> {
    let (lines, []) = cells.as_chunks::<WIDTH>() else { return Err(18) };
    if lines.len() > MAX_LINES {
        return Err(19);
    }
    if index.len() < CONTENTS || totals.is_empty() {
        return Err(9);
    }
    // Each cell one less, so that blanks wrap to the largest number; equal lines need not be told apart.
    let mut sorted = [[0; WIDTH]; MAX_LINES];
    let sorted = &mut sorted[..lines.len()];
    for (keys, line) in sorted.iter_mut().zip(lines) {
        *keys = line.map(|cell| cell.wrapping_sub(1));
    }
    sorted.sort_unstable();

    let (contents, bodies) = index.split_at_mut(CONTENTS);
    let bodies = bodies.as_chunks_mut().0;
    let capacity = bodies.len().min(totals.len() - 1);
    let nodes = beginnings(sorted, &mut bodies[..capacity]).ok_or(9u32)?;
    let words = bodies[..nodes].as_flattened();
    let check = words.iter().fold(0u32, |sum, word| sum.wrapping_add(*word));
    contents.copy_from_slice(&[nodes as u32, 8, 6, check, 0, 0, 0, 0]);
    totals[..=nodes].fill(0);
    let blank = sorted.iter().rev().take_while(|keys| **keys == [u32::MAX; WIDTH]).count();
    Ok(Built { refusal: 0, nodes: nodes as u32, left: blank as u32 })
}

/// Writes the bodies of sorted lines, whose cells are one less, and answers their number. None when there is no room.
#[inline(always)]
fn beginnings<const WIDTH: usize>(
    sorted: &[[u32; WIDTH]],
    bodies: &mut [[u32; BODY]],
) -> Option<usize> {
    let (mut count, mut root) = (0, 0);
    // Rank of the node of each column on the line before, 0 where it is blank.
    let mut ranks = [0; WIDTH];
    let close = |bodies: &mut [[u32; BODY]], ranks: &[u32], count: usize| {
        for rank in ranks.iter().filter(|rank| **rank != 0) {
            bodies[*rank as usize - 1][2] = count as u32 + 1 - rank;
        }
    };
    // The first line shares no cell with this one.
    let mut before = sorted.first().map_or([0; WIDTH], |keys| keys.map(|key| !key));
    for (keys, row) in sorted.iter().zip(1..) {
        let (mut shared, mut parent) = (0, 0);
        while shared < WIDTH && keys[shared] == before[shared] {
            if ranks[shared] != 0 {
                parent = ranks[shared];
            }
            shared += 1;
        }
        close(bodies, &ranks[shared..], count);
        for column in shared..WIDTH {
            ranks[column] = 0;
            if keys[column] == u32::MAX {
                continue;
            }
            let body = bodies.get_mut(count)?;
            count += 1;
            let rank = count as u32;
            if parent == 0 {
                root = rank;
            }
            *body = [keys[column].wrapping_add(1), row, 1, parent, root, column as u32 + 1];
            ranks[column] = rank;
            parent = rank;
        }
        before = *keys;
    }
    close(bodies, &ranks, count);
    Some(count)
}

fn contents(index: &[u32]) -> Option<(usize, &[u32])> {
    if index.len() < CONTENTS || index[1] != 8 || index[2] != 6 || index[0] as usize > MAX_NODES {
        return None;
    }
    let n = index[0] as usize;
    index.get(CONTENTS..CONTENTS + BODY * n).map(|bodies| (n, bodies))
}

/// The ranks, from `first` on, of the bodies to be kept.
fn list(first: u32, bodies: &[u32], keeps: impl Fn(&[u32]) -> bool, out: &mut [u32]) -> Listed {
    let len = bodies.chunks_exact(BODY).filter(|body| keeps(body)).count();
    if len > out.len() {
        return Listed { refusal: 16, len: 0 };
    }
    let kept = bodies.chunks_exact(BODY).zip(first..).filter(|(body, _)| keeps(body));
    for (place, (_, rank)) in out[..len].iter_mut().zip(kept) {
        *place = rank;
    }
    Listed { refusal: 0, len }
}

#[inline(never)]
pub fn descendants(index: &[u32], rank: u32, lo: i32, hi: i32, out: &mut [u32]) -> Listed {
    let refused = |refusal| Listed { refusal, len: 0 };
    let Some((n, bodies)) = contents(index) else { return refused(13) };
    let first = rank as usize;
    if first == 0 || first > n {
        return refused(14);
    }
    let size = bodies[BODY * (first - 1) + 2] as usize;
    if size == 0 || first + size - 1 > n {
        return refused(15);
    }
    let span = &bodies[BODY * (first - 1)..BODY * (first + size - 1)];
    let base = (span[5] & LEVEL_MASK) as i64;
    let (lo, hi) = (lo as i64 + base, hi as i64 + base);
    list(rank, span, |body| (lo..=hi).contains(&((body[5] & LEVEL_MASK) as i64)), out)
}

#[inline(never)]
pub fn siblings(index: &[u32], rank: u32, out: &mut [u32]) -> Listed {
    let refused = |refusal| Listed { refusal, len: 0 };
    let Some((n, bodies)) = contents(index) else { return refused(13) };
    if rank == 0 || rank as usize > n {
        return refused(14);
    }
    let parent = bodies[BODY * (rank as usize - 1) + 3];
    list(1, bodies, |body| body[3] == parent, out)
}

#[inline(never)]
pub fn siblings_by_hops(index: &[u32], rank: u32, out: &mut [u32]) -> Hopped {
    let refused = |refusal| Hopped { refusal, len: 0, hops: 0 };
    let Some((n, bodies)) = contents(index) else { return refused(13) };
    if rank == 0 || rank as usize > n {
        return refused(14);
    }
    let size = |at: usize| bodies[BODY * (at - 1) + 2] as usize;
    let parent = bodies[BODY * (rank as usize - 1) + 3] as usize;
    if parent > n || (parent != 0 && (size(parent) == 0 || parent + size(parent) - 1 > n)) {
        return refused(15);
    }
    let last = if parent == 0 { n } else { parent + size(parent) - 1 };
    let (mut at, mut len) = (parent + 1, 0);
    while at <= last {
        if size(at) == 0 {
            return refused(15);
        }
        len += 1;
        at += size(at);
    }
    if len > out.len() {
        return refused(16);
    }
    at = parent + 1;
    for place in &mut out[..len] {
        *place = at as u32;
        at += size(at);
    }
    Hopped { refusal: 0, len, hops: len }
}

/// The parent rank, or none where it isn't below the rank's own.
fn link(bodies: &[u32], rank: u32) -> Option<u32> {
    let parent = bodies[BODY * (rank as usize - 1) + 3];
    (parent < rank).then_some(parent)
}

/// The larger of two ranks goes up until they are equal, 0 where they don't meet; then the rest of the climb is judged.
fn climbs_meet(bodies: &[u32], a: u32, b: u32) -> Option<u32> {
    let (mut x, mut y) = (a, b);
    while x != y {
        if x < y {
            y = link(bodies, y)?;
        } else {
            x = link(bodies, x)?;
        }
    }
    let mut at = x;
    while at != 0 {
        at = link(bodies, at)?;
    }
    Some(x)
}

#[inline(never)]
pub fn meet(index: &[u32], a: u32, b: u32) -> Meeting {
    let refused = |refusal| Meeting { refusal, found: false, rank: 0 };
    let Some((n, bodies)) = contents(index) else { return refused(13) };
    if a == 0 || b == 0 || a.max(b) as usize > n {
        return refused(14);
    }
    match climbs_meet(bodies, a, b) {
        None => refused(15),
        Some(rank) => Meeting { refusal: 0, found: rank != 0, rank },
    }
}

#[inline(never)]
pub fn climb(index: &[u32], rank: u32) -> ClimbedOne {
    let stay = |refusal, root| ClimbedOne { refusal, root, rank };
    let Some((n, bodies)) = contents(index) else { return stay(13, false) };
    if rank == 0 || rank as usize > n {
        return stay(14, false);
    }
    match link(bodies, rank) {
        None => stay(15, false),
        Some(0) => stay(0, true),
        Some(parent) => ClimbedOne { refusal: 0, root: false, rank: parent },
    }
}

/// A total that sums take.
fn of_use(total: i64) -> bool {
    (-1 << 47..=1 << 47).contains(&total)
}

/// Moves the totals of nodes by the difference for each node up to them that ends in the row, until one is or would come
/// beyond use. Answers how many are moved.
fn move_totals(bodies: &[u32], totals: &mut [i64], row: u32, difference: i64) -> usize {
    let mut shift = 0i64;
    for (at, (body, total)) in bodies.chunks_exact(BODY).zip(totals.iter_mut()).enumerate() {
        if body[1] == row {
            shift = shift.wrapping_add(difference);
        }
        // No shift so far is beyond 2^48: where this one or the sum wraps, it comes to nothing of use.
        let moved = total.wrapping_add(shift);
        if !(of_use(*total) & of_use(moved)) {
            return at;
        }
        *total = moved;
    }
    totals.len()
}

#[inline(never)]
pub fn pull(index: &[u32], totals: &mut [i64], row: u32, difference: i64) -> u32 {
    if row == 0 {
        return 4;
    }
    let Some((n, bodies)) = contents(index) else { return 13 };
    let Some((first, totals)) = totals.get_mut(..=n).and_then(<[i64]>::split_first_mut) else {
        return 13;
    };
    if !of_use(*first) {
        return 15;
    }
    let moved = move_totals(bodies, totals, row, difference);
    if moved < n {
        move_totals(bodies, &mut totals[..moved], row, difference.wrapping_neg());
        return 15;
    }
    0
}

#[inline(never)]
pub fn index_check(index: &[u32]) -> bool {
    let Some((n, bodies)) = contents(index) else { return false };
    if index[4..8] != [0; 4] {
        return false;
    }
    if bodies.iter().fold(0u32, |sum, word| sum.wrapping_add(*word)) != index[3] {
        return false;
    }
    let mut rank = 0usize;
    bodies.chunks_exact(BODY).all(|body| {
        rank += 1;
        let end = rank as u64 + body[2] as u64 - 1;
        if body[2] == 0 || body[5] & 0x3fff_0000 != 0 {
            return false;
        }
        // The innermost open interval: the rank before, or what it hangs from.
        let mut above = rank - 1;
        while above > 0 && above as u64 + (bodies[BODY * (above - 1) + 2] as u64) <= rank as u64 {
            above = bodies[BODY * (above - 1) + 3] as usize;
        }
        if body[3] as usize != above {
            return false;
        }
        if above == 0 {
            return end <= n as u64 && body[4] as usize == rank && body[5] & LEVEL_MASK >= 1;
        }
        let parent = &bodies[BODY * (above - 1)..BODY * above];
        end < above as u64 + parent[2] as u64
            && body[4] == parent[4]
            && body[5] & LEVEL_MASK > parent[5] & LEVEL_MASK
    })
}
