//! The board record, its soundness and the edits on it.

use crate::machine::{Call, Machine};
use crate::{JOURNAL_PLACES, MAX_KEPT, MAX_ROWS, MAX_UNDONE};

/// A row of a board. Parent 0 is none; minutes are negative for a deduction. Both days are included;
/// on a board made by hand the first may be after the last.
#[repr(C)]
#[derive(Clone, Copy, Debug, PartialEq, Eq, Default)]
pub struct Row {
    pub parent: u32,
    pub numeral: u32,
    pub order: u32,
    pub minutes: i32,
    pub first_day: u32,
    pub last_day: u32,
}

impl Row {
    /// What a place holds before a row is put there: all words 0, the days too.
    pub const BLANK: Row =
        Row { parent: 0, numeral: 0, order: 0, minutes: 0, first_day: 0, last_day: 0 };

    /// A row entered without days, which gets all there are.
    pub const fn undated(parent: u32, numeral: u32, order: u32, minutes: i32) -> Row {
        Row { parent, numeral, order, minutes, first_day: 0, last_day: u32::MAX }
    }

    /// The same row with these days.
    pub const fn on(self, first_day: u32, last_day: u32) -> Row {
        Row { first_day, last_day, ..self }
    }
}

/// Kind of an entry: takes out the row at place `at`. Its own row is not read.
pub const TAKE_OUT: u32 = 0;
/// Kind of an entry: puts `row` in at place `at`; later rows move down by one.
pub const PUT_IN: u32 = 1;
/// Kind of an entry: makes place `at` hold `row`.
pub const SET: u32 = 2;

/// A journal entry, which is an operation on the rows. `at` counts from 0; an entry of another kind
/// can't be carried out.
#[repr(C)]
#[derive(Clone, Copy, Debug, PartialEq, Eq, Default)]
pub struct Entry {
    pub kind: u32,
    pub at: u32,
    pub row: Row,
}

/// The board record. The journal has the kept entries, oldest first, and right behind them the
/// undone ones, newest first.
#[repr(C)]
#[derive(Clone, Debug, PartialEq, Eq)]
pub struct Board {
    pub count: usize,
    pub rows: [Row; MAX_ROWS],
    pub kept: usize,
    pub undone: usize,
    pub journal: [Entry; JOURNAL_PLACES],
}

/// What an edit gives: its refusal (0 for none) and the board.
#[derive(Clone, Debug, PartialEq, Eq)]
pub struct Edited {
    pub refusal: u32,
    pub board: Board,
}

/// The row list after `entry` is carried out on `rows`, or none if it can't be: it names a row which
/// isn't there, or gives over 1,024 rows or one with numeral 0.
pub fn carried_out(rows: &[Row], entry: &Entry) -> Option<Vec<Row>> {
    let mut list = rows.to_vec();
    let at = entry.at as usize;
    match entry.kind {
        TAKE_OUT => {
            if at >= list.len() {
                return None;
            }
            list.remove(at);
        }
        PUT_IN => {
            if at > list.len() {
                return None;
            }
            list.insert(at, entry.row);
        }
        SET => {
            if at >= list.len() {
                return None;
            }
            list[at] = entry.row;
        }
        _ => return None,
    }
    if list.len() > MAX_ROWS {
        return None;
    }
    if list.iter().any(|row| row.numeral == 0) {
        return None;
    }
    Some(list)
}

/// The entry that leads back to `rows` after `entry` was carried out on them.
pub fn inverse(rows: &[Row], entry: &Entry) -> Entry {
    let at = entry.at;
    match entry.kind {
        TAKE_OUT => Entry { kind: PUT_IN, at, row: rows[at as usize] },
        PUT_IN => Entry { kind: TAKE_OUT, at, row: entry.row },
        SET => Entry { kind: SET, at, row: rows[at as usize] },
        _ => unreachable!("an entry of another kind can't be carried out"),
    }
}

impl Board {
    /// No rows, no kept and no undone steps.
    pub const EMPTY: Board = Board {
        count: 0,
        rows: [Row::BLANK; MAX_ROWS],
        kept: 0,
        undone: 0,
        journal: [Entry { kind: 0, at: 0, row: Row::BLANK }; JOURNAL_PLACES],
    };

    /// The rows held; of a count above 1,024 all places.
    pub fn held(&self) -> &[Row] {
        &self.rows[..self.count.min(MAX_ROWS)]
    }

    /// The kept entries, oldest first; of a kept number above 256 the first 256.
    pub fn kept_entries(&self) -> &[Entry] {
        &self.journal[..self.kept.min(MAX_KEPT)]
    }

    /// The undone entries, newest first; of an undone number above 256 the first 256.
    pub fn undone_entries(&self) -> &[Entry] {
        let first = self.kept.min(MAX_KEPT);
        &self.journal[first..first + self.undone.min(MAX_UNDONE)]
    }

    /// Whether the board is sound.
    pub fn sound(&self) -> bool {
        if self.count > MAX_ROWS {
            return false;
        }
        if self.kept > MAX_KEPT {
            return false;
        }
        if self.undone > MAX_UNDONE {
            return false;
        }
        for row in self.held() {
            if row.numeral == 0 {
                return false;
            }
        }
        // The newest kept entry can be undone.
        if self.kept > 0 && carried_out(self.held(), &self.journal[self.kept - 1]).is_none() {
            return false;
        }
        // The newest undone entry can be redone within the same limits.
        if self.undone > 0 && carried_out(self.held(), &self.journal[self.kept]).is_none() {
            return false;
        }
        true
    }

    /// R, and the lists K and F that the journal gives, or none if an entry can't be carried out on
    /// the rows that the ones before it lead to.
    pub fn machine(&self) -> Option<Machine> {
        let mut machine = Machine::new();
        machine.rows = self.held().to_vec();
        let mut rows = self.held().to_vec();
        for entry in self.kept_entries().iter().rev() {
            rows = carried_out(&rows, entry)?;
            machine.kept.push(rows.clone());
        }
        let mut rows = self.held().to_vec();
        for entry in self.undone_entries() {
            rows = carried_out(&rows, entry)?;
            machine.undone.push(rows.clone());
        }
        Some(machine)
    }

    /// Makes one call on the board.
    pub fn call(self, call: Call) -> Edited {
        match call {
            Call::Add(row) => self.add(row),
            Call::Withdraw(k) => self.withdraw(k),
            Call::Remark(k, minutes) => self.remark(k, minutes),
            Call::Undo => self.undo(),
            Call::Redo => self.redo(),
        }
    }

    /// Adds `row` at the end.
    pub fn add(self, row: Row) -> Edited {
        if !self.sound() {
            return self.refused(1);
        }
        if row.numeral == 0 {
            return self.refused(2);
        }
        if row.first_day > row.last_day {
            return self.refused(20);
        }
        if self.count == MAX_ROWS {
            return self.refused(3);
        }
        let mut list = self.held().to_vec();
        list.push(row);
        let entry = Entry { kind: TAKE_OUT, at: self.count as u32, row };
        self.noted(entry).accepted(&list)
    }

    /// Takes row number `k` out.
    pub fn withdraw(self, k: usize) -> Edited {
        if !self.sound() {
            return self.refused(1);
        }
        if k == 0 || k > self.count {
            return self.refused(4);
        }
        let mut list = self.held().to_vec();
        let row = list.remove(k - 1);
        let entry = Entry { kind: PUT_IN, at: (k - 1) as u32, row };
        self.noted(entry).accepted(&list)
    }

    /// Gives row number `k` new minutes.
    pub fn remark(self, k: usize, minutes: i32) -> Edited {
        if !self.sound() {
            return self.refused(1);
        }
        if k == 0 || k > self.count {
            return self.refused(4);
        }
        let mut list = self.held().to_vec();
        let row = list[k - 1];
        list[k - 1].minutes = minutes;
        let entry = Entry { kind: SET, at: (k - 1) as u32, row };
        self.noted(entry).accepted(&list)
    }

    /// Undoes the newest kept step. Its inverse takes its place as the newest undone one; of 257
    /// undone steps the last is no longer counted.
    pub fn undo(mut self) -> Edited {
        if !self.sound() {
            return self.refused(1);
        }
        if self.kept == 0 {
            return self.refused(5);
        }
        let entry = self.journal[self.kept - 1];
        let list =
            carried_out(self.held(), &entry).expect("the newest kept entry of a sound board");
        self.journal[self.kept - 1] = inverse(self.held(), &entry);
        self.kept -= 1;
        if self.undone < MAX_UNDONE {
            self.undone += 1;
        }
        self.accepted(&list)
    }

    /// Redoes the newest undone step. Its inverse takes its place as the newest kept one; of 257
    /// kept steps the oldest is dropped by shifting, and the undone ones move along.
    pub fn redo(mut self) -> Edited {
        if !self.sound() {
            return self.refused(1);
        }
        if self.undone == 0 {
            return self.refused(17);
        }
        let entry = self.journal[self.kept];
        let list =
            carried_out(self.held(), &entry).expect("the newest undone entry of a sound board");
        let back = inverse(self.held(), &entry);
        if self.kept == MAX_KEPT {
            self.shift(self.kept + self.undone);
        } else {
            self.kept += 1;
        }
        self.journal[self.kept - 1] = back;
        self.undone -= 1;
        self.accepted(&list)
    }

    /// Whether two boards hold the same rows and the same kept and undone steps.
    /// Words beyond the count and the two numbers are not compared, nor is the
    /// own row of an entry that takes a row out, as nothing reads it.
    pub fn same(&self, other: &Board) -> bool {
        self.count == other.count
            && self.kept == other.kept
            && self.undone == other.undone
            && self.held() == other.held()
            && alike(self.kept_entries(), other.kept_entries())
            && alike(self.undone_entries(), other.undone_entries())
    }

    fn refused(self, refusal: u32) -> Edited {
        Edited { refusal, board: self }
    }

    /// Puts an entry behind the kept ones; of 257 the oldest is dropped by shifting. Nothing stays
    /// undone.
    fn noted(mut self, entry: Entry) -> Board {
        if self.kept == MAX_KEPT {
            self.shift(self.kept);
            self.kept -= 1;
        }
        self.journal[self.kept] = entry;
        self.kept += 1;
        self.undone = 0;
        self
    }

    /// Moves the first `places` entries up by one; the first is lost, the last place keeps its words.
    fn shift(&mut self, places: usize) {
        for place in 0..places - 1 {
            self.journal[place] = self.journal[place + 1];
        }
    }

    /// Writes `list` to the front of the places; the words beyond stay.
    fn accepted(mut self, list: &[Row]) -> Edited {
        for (place, row) in list.iter().enumerate() {
            self.rows[place] = *row;
        }
        self.count = list.len();
        Edited { refusal: 0, board: self }
    }
}

/// Whether two lists of entries, equally many, do the same.
fn alike(one: &[Entry], other: &[Entry]) -> bool {
    one.iter()
        .zip(other)
        .all(|(a, b)| a.kind == b.kind && a.at == b.at && (a.kind == TAKE_OUT || a.row == b.row))
}
