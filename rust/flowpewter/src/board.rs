//! A parts list by value, and its edits.
#![forbid(unsafe_code)]

use crate::days::{Days, LAST_DAY};
use crate::refusal::Refusal;
use crate::sys;

/// Places for rows on a board.
pub const MAX_ROWS: usize = 1_024;
/// Most steps kept, to be undone.
pub const MAX_KEPT: usize = 256;
/// Most steps undone, to be redone.
pub const MAX_UNDONE: usize = 256;
/// Places for journal entries on a board.
pub const JOURNAL_PLACES: usize = MAX_KEPT + MAX_UNDONE;

/// A row of a board. Parent 0 is none; minutes are negative for a deduction. Its days are those from the first to the
/// last, both included; only [`build_dated`](crate::build_dated) reads them.
///
/// ```
/// use flowpewter::{Days, Row};
///
/// let valve = Row::new(10, 40, 1, 30);
/// assert_eq!(valve.days(), Days::ALL);
/// assert_eq!(valve.on(366, 730).days(), Days::new(366, 730));
/// ```
#[repr(C)]
#[derive(Clone, Copy, Debug, PartialEq, Eq, Hash)]
pub struct Row {
    pub parent: u32,
    pub numeral: u32,
    pub order: u32,
    pub minutes: i32,
    pub first_day: u32,
    pub last_day: u32,
}

impl Row {
    /// What a place holds before a row is put there: all words 0, the days too.
    const BLANK: Row = Row::new(0, 0, 0, 0).on(0, 0);

    /// A row entered without days, which gets all there are.
    pub const fn new(parent: u32, numeral: u32, order: u32, minutes: i32) -> Row {
        Row { parent, numeral, order, minutes, first_day: 0, last_day: LAST_DAY }
    }

    /// The same row with these days.
    pub const fn on(self, first_day: u32, last_day: u32) -> Row {
        Row { first_day, last_day, ..self }
    }

    /// The days of the row; none on a board from elsewhere where the first is after the last.
    pub const fn days(self) -> Days {
        Days::new(self.first_day, self.last_day)
    }
}

impl Default for Row {
    /// Without days given.
    fn default() -> Row {
        Row::new(0, 0, 0, 0)
    }
}

/// A journal entry: a change of the rows, which an undo or a redo carries out. `at` is a place, counted from 0.
///
/// An entry can be carried out when its place is there (`at` below the count; to put in, at most the count) and the
/// rows afterwards are at most 1,024, each with numeral 1 or more. Of an entry that takes a row out, edits make `row`
/// that row, and nothing reads it.
#[repr(C)]
#[derive(Clone, Copy, Debug, PartialEq, Eq, Hash, Default)]
pub struct Entry {
    /// [`Entry::TAKE_OUT`], [`Entry::PUT_IN`] or [`Entry::SET`]; an entry of another kind can't be carried out.
    pub kind: u32,
    pub at: u32,
    pub row: Row,
}

impl Entry {
    /// Takes out the row at place `at`; later rows move up by one.
    pub const TAKE_OUT: u32 = 0;
    /// Puts `row` in at place `at`; the row there and later ones move down by one.
    pub const PUT_IN: u32 = 1;
    /// Makes place `at` hold `row`.
    pub const SET: u32 = 2;
}

/// A board: its rows, and a journal that is one tape with a cursor.
///
/// The first `kept` entries of the journal are the steps to undo, oldest first; the next `undone` entries are the steps
/// to redo, newest first. So an undo carries out `journal[kept - 1]` and a redo `journal[kept]`; each leaves the entry
/// that leads back in that place, and moves the cursor over it. Where a 257th step is kept, by an add, withdraw, remark
/// or redo, the entries move up by one first and the oldest goes.
///
/// An accepted add, withdraw or remark becomes the newest kept step; of 257 the oldest is forgotten, and so are all
/// undone steps.
///
/// ```
/// use flowpewter::{Board, Refusal, Row};
///
/// let mut board = Board::EMPTY;
/// board.add(Row::new(0, 10, 1, 30))?;
/// board.add(Row::new(10, 40, 1, 12))?;
/// board.remark(2, 15)?;
/// assert_eq!(board.held()[1].minutes, 15);
/// board.undo()?;
/// assert_eq!(board.held()[1].minutes, 12);
/// board.redo()?;
/// assert_eq!(board.held()[1].minutes, 15);
///
/// board.undo()?;
/// board.withdraw(1)?;
/// assert_eq!(board.held(), [Row::new(10, 40, 1, 12)]);
/// assert_eq!(board.redo(), Err(Refusal::NothingUndone)); // the withdrawal came after the undo
/// assert_eq!(board.withdraw(2), Err(Refusal::NoSuchRow));
/// # Ok::<(), Refusal>(())
/// ```
///
/// The fields are open since a board may come from anywhere: a call on one that isn't sound is refused. Row number k is
/// `rows[k - 1]`.
///
/// Two boards are the same when what they hold is: [`Board::held`], [`Board::kept_steps`] and [`Board::undone_steps`];
/// of an entry that takes a row out, `row` doesn't count. `==` compares all places, also those beyond, which hold what
/// was left there.
///
/// ```
/// use flowpewter::{Board, Refusal, Row};
///
/// let mut board = Board::EMPTY;
/// board.add(Row::new(0, 10, 1, 30))?;
/// let mut other = board;
/// other.add(Row::new(10, 40, 1, 12))?;
/// other.undo()?;
/// board.remark(1, 45)?;
/// other.remark(1, 45)?;
/// assert_eq!(board.held(), other.held());
/// assert_eq!(board.kept_steps(), other.kept_steps());
/// assert_eq!(board.undone_steps(), other.undone_steps());
/// assert_ne!(board, other); // the place of the row that was added keeps it
/// # Ok::<(), Refusal>(())
/// ```
#[repr(C)]
#[derive(Clone, Copy, Debug, PartialEq, Eq)]
pub struct Board {
    pub count: usize,
    pub rows: [Row; MAX_ROWS],
    pub kept: usize,
    pub undone: usize,
    pub journal: [Entry; JOURNAL_PLACES],
}

impl Default for Board {
    fn default() -> Board {
        Board::EMPTY
    }
}

impl Board {
    /// No rows and no steps.
    pub const EMPTY: Board = Board {
        count: 0,
        rows: [Row::BLANK; MAX_ROWS],
        kept: 0,
        undone: 0,
        journal: [Entry { kind: 0, at: 0, row: Row::BLANK }; JOURNAL_PLACES],
    };

    /// The rows held, in order; of a count above 1,024, which no sound board has, all places.
    pub fn held(&self) -> &[Row] {
        &self.rows[..self.count.min(MAX_ROWS)]
    }

    /// The entries that undo the kept steps, oldest first. A kept number above 256, which no sound board has, is taken
    /// for 256.
    ///
    /// ```
    /// use flowpewter::{Board, Entry, Refusal, Row};
    ///
    /// let mut board = Board::EMPTY;
    /// board.add(Row::new(0, 10, 1, 30))?;
    /// board.remark(1, 45)?;
    /// let first = Entry { kind: Entry::TAKE_OUT, at: 0, row: Row::new(0, 10, 1, 30) };
    /// let second = Entry { kind: Entry::SET, at: 0, row: Row::new(0, 10, 1, 30) };
    /// assert_eq!(board.kept_steps(), [first, second]);
    /// # Ok::<(), Refusal>(())
    /// ```
    pub fn kept_steps(&self) -> &[Entry] {
        &self.journal[..self.kept.min(MAX_KEPT)]
    }

    /// The entries that redo the undone steps, newest first. A kept or undone number above 256, which no sound board
    /// has, is taken for 256.
    ///
    /// ```
    /// use flowpewter::{Board, Entry, Refusal, Row};
    ///
    /// let mut board = Board::EMPTY;
    /// board.add(Row::new(0, 10, 1, 30))?;
    /// board.remark(1, 45)?;
    /// board.undo()?;
    /// board.undo()?;
    /// let first = Entry { kind: Entry::PUT_IN, at: 0, row: Row::new(0, 10, 1, 30) };
    /// let second = Entry { kind: Entry::SET, at: 0, row: Row::new(0, 10, 1, 45) };
    /// assert_eq!(board.undone_steps(), [first, second]);
    /// # Ok::<(), Refusal>(())
    /// ```
    pub fn undone_steps(&self) -> &[Entry] {
        &self.journal[self.kept.min(MAX_KEPT)..][..self.undone.min(MAX_UNDONE)]
    }

    /// Whether the board is one that edits and builds take: the count is at most 1,024, the kept number and the undone
    /// number at most 256 each, every held row has numeral 1 or more, and the newest kept entry and the newest undone
    /// one, if any, can each be carried out on the held rows. Every board that edits make from the empty one is sound.
    /// Older entries aren't looked at: on a board from elsewhere an undo or a redo can leave one that isn't sound. Nor
    /// are days.
    ///
    /// ```
    /// use flowpewter::Board;
    ///
    /// assert!(Board::EMPTY.is_sound());
    /// assert!(!Board { count: 2_000, ..Board::EMPTY }.is_sound());
    /// assert!(!Board { undone: 1, ..Board::EMPTY }.is_sound()); // no row is there to take out
    /// ```
    pub fn is_sound(&self) -> bool {
        sys::sound(self)
    }

    /// Puts a row at the end. Refused with 1, 2, 20 or 3, in this order.
    ///
    /// ```
    /// use flowpewter::{Board, Refusal, Row};
    ///
    /// let mut board = Board::EMPTY;
    /// let valve = Row::new(10, 40, 1, 30);
    /// assert_eq!(board.add(valve.on(731, 730)), Err(Refusal::NoDays));
    /// board.add(valve.on(730, 730))?;
    /// board.withdraw(1)?;
    /// board.undo()?;
    /// assert_eq!(board.held(), [valve.on(730, 730)]);
    /// # Ok::<(), Refusal>(())
    /// ```
    pub fn add(&mut self, row: Row) -> Result<(), Refusal> {
        self.take(sys::add(self, row))
    }

    /// Takes out row `number`, counted from 1; later rows move up by one. Refused with 1 or 4.
    pub fn withdraw(&mut self, number: usize) -> Result<(), Refusal> {
        self.take(sys::withdraw(self, number))
    }

    /// Gives row `number`, counted from 1, new minutes; its days stay. Refused with 1 or 4.
    pub fn remark(&mut self, number: usize, minutes: i32) -> Result<(), Refusal> {
        self.take(sys::remark(self, number, minutes))
    }

    /// Goes back to the rows before the newest kept step, which becomes the newest undone one and can be redone.
    /// Refused with 1 or 5.
    pub fn undo(&mut self) -> Result<(), Refusal> {
        self.take(sys::undo(self))
    }

    /// Goes forward to the rows after the newest undone step, which becomes the newest kept one and can be undone.
    /// Refused with 1 or 17.
    ///
    /// A board that edits make from the empty one has at most 256 steps, kept and undone together, so that undo and
    /// redo forget none. On any other sound board an undo forgets the oldest undone step beyond 256, and a redo the
    /// oldest kept one.
    pub fn redo(&mut self) -> Result<(), Refusal> {
        self.take(sys::redo(self))
    }

    /// Makes one call.
    pub fn call(&mut self, call: Call) -> Result<(), Refusal> {
        match call {
            Call::Add(row) => self.add(row),
            Call::Withdraw(number) => self.withdraw(number as usize),
            Call::Remark(number, minutes) => self.remark(number as usize, minutes),
            Call::Undo => self.undo(),
            Call::Redo => self.redo(),
        }
    }

    /// A refused edit returns the board it got, so that the board is taken in either case.
    fn take(&mut self, edited: sys::Edited) -> Result<(), Refusal> {
        *self = edited.board;
        Refusal::check(edited.refusal)
    }
}

/// Words of a call that [`replay`] reads.
pub const CALL_WORDS: usize = 7;

/// An edit as a value. Row numbers are counted from 1.
#[derive(Clone, Copy, Debug, PartialEq, Eq, Hash)]
pub enum Call {
    Add(Row),
    Withdraw(u32),
    Remark(u32, i32),
    Undo,
    Redo,
}

impl Call {
    /// The words by which [`replay`] knows the call.
    pub fn words(self) -> [u32; CALL_WORDS] {
        match self {
            Call::Add(row) => {
                let Row { parent, numeral, order, minutes, first_day, last_day } = row;
                [0, parent, numeral, order, minutes as u32, first_day, last_day]
            }
            Call::Withdraw(number) => [1, number, 0, 0, 0, 0, 0],
            Call::Remark(number, minutes) => [2, number, minutes as u32, 0, 0, 0, 0],
            Call::Undo => [3, 0, 0, 0, 0, 0, 0],
            Call::Redo => [4, 0, 0, 0, 0, 0, 0],
        }
    }
}

/// Runs the calls that the words tell, seven to a call, from the empty board. The refusal number of each call, 0 for
/// none, goes to the front of `refusals`; the rest stays. Answers the board after the calls. Refused with 101, 102 or
/// 103.
///
/// ```
/// use flowpewter::{replay, Call, Refusal, Row};
///
/// let row = Row::new(0, 10, 1, 30).on(366, 730);
/// let calls = [Call::Add(row), Call::Withdraw(2), Call::Undo, Call::Undo, Call::Redo, Call::Redo];
/// let words: Vec<u32> = calls.into_iter().flat_map(Call::words).collect();
/// let mut refusals = [9; 7];
/// let board = replay(&words, &mut refusals)?;
/// assert_eq!(refusals, [0, 4, 0, 5, 0, 17, 9]);
/// assert_eq!(board.held(), [row]);
/// # Ok::<(), Refusal>(())
/// ```
pub fn replay(words: &[u32], refusals: &mut [u32]) -> Result<Board, Refusal> {
    let replayed = sys::replay(words, refusals);
    Refusal::check(replayed.refusal)?;
    Ok(replayed.board)
}
