//! Edits, soundness and replay.

use crate::tally::Tally;
use crate::{baseline, builds};
use flowpewter::sys::{self, Edited};
use flowpewter::{Board, Entry, Row, CALL_WORDS, MAX_KEPT, MAX_UNDONE};
use generate::{history, history_on, sound_boards, unsound_boards, History, Random};
use reference::{Call, Machine};

/// The library's row of the same words.
pub fn row(from: reference::Row) -> Row {
    Row::new(from.parent, from.numeral, from.order, from.minutes).on(from.first_day, from.last_day)
}

/// The library's board of the same words.
pub fn board(from: &reference::Board) -> Board {
    let entry = |e: reference::Entry| Entry { kind: e.kind, at: e.at, row: row(e.row) };
    Board {
        count: from.count,
        rows: from.rows.map(row),
        kept: from.kept,
        undone: from.undone,
        journal: from.journal.map(entry),
    }
}

fn held(machine: &Machine) -> Vec<Row> {
    machine.rows.iter().copied().map(row).collect()
}

/// The library's edit.
pub fn edit(board: &Board, call: Call) -> Edited {
    match call {
        Call::Add(added) => sys::add(board, row(added)),
        Call::Withdraw(k) => sys::withdraw(board, k),
        Call::Remark(k, minutes) => sys::remark(board, k, minutes),
        Call::Undo => sys::undo(board),
        Call::Redo => sys::redo(board),
    }
}

/// The reference's board after a list of calls from the empty one; the library's has the same words.
pub fn after_history(random: &mut Random, kind: History) -> reference::Board {
    let mut reference = reference::Board::EMPTY;
    let mut library = sys::empty();
    for call in history(random, kind) {
        reference = reference.call(call).board;
        library = edit(&library, call).board;
    }
    assert!(library == board(&reference));
    reference
}

/// The baseline's edit; it has no withdrawal and no remark.
fn by_baseline(board: Board, call: Call) -> Option<Edited> {
    match call {
        Call::Add(added) => Some(baseline::add(board, row(added))),
        Call::Undo => Some(baseline::undo(board)),
        Call::Redo => Some(baseline::redo(board)),
        Call::Withdraw(_) | Call::Remark(..) => None,
    }
}

/// The name under which a call on the board is counted. Undos and redos that drop a step have names of their own: no
/// board that calls make from the empty one has them.
fn name(board: &Board, call: Call, refusal: u32) -> &'static str {
    match call {
        Call::Add(_) => "add",
        Call::Withdraw(_) => "withdraw",
        Call::Remark(..) => "remark",
        Call::Undo if refusal == 0 && board.undone == MAX_UNDONE => "undo that drops",
        Call::Undo => "undo",
        Call::Redo if refusal == 0 && board.kept == MAX_KEPT => "redo that drops",
        Call::Redo => "redo",
    }
}

/// One call on both sides, and by the baseline; answers the refusal and the boards after it.
fn compare(
    library: &Board,
    reference: reference::Board,
    call: Call,
) -> (u32, Board, reference::Board) {
    let edited = edit(library, call);
    let expected = reference.call(call);
    assert_eq!(edited.refusal, expected.refusal, "{call:?}");
    assert!(edited.board == board(&expected.board), "{call:?} leaves another board");
    if edited.refusal != 0 {
        assert!(edited.board == *library, "the refused {call:?} changes the board");
    }
    assert!(by_baseline(*library, call).is_none_or(|other| other == edited), "baseline, {call:?}");
    (edited.refusal, edited.board, expected.board)
}

/// The library's board, the reference's of the same words, and the plain machine of the same R, K and F.
struct Followed {
    library: Board,
    reference: reference::Board,
    machine: Machine,
}

impl Followed {
    /// One call on all three; answers the refusal.
    fn call(&mut self, call: Call) -> u32 {
        let refusal = self.machine.call(call);
        let answer = compare(&self.library, self.reference.clone(), call);
        assert_eq!(answer.0, refusal, "{call:?}");
        (self.library, self.reference) = (answer.1, answer.2);
        assert_eq!(self.library.held(), held(&self.machine));
        assert_eq!(self.library.kept, self.machine.kept.len());
        assert_eq!(self.library.undone, self.machine.undone.len());
        assert!(sys::sound(&self.library));
        refusal
    }

    fn calls(&mut self, calls: &[Call], tally: &mut Tally) {
        for call in calls {
            let before = self.library;
            let refusal = self.call(*call);
            tally.note(name(&before, *call, refusal), refusal);
        }
    }

    /// The same call until it is refused.
    fn until_refused(&mut self, call: Call, name: &'static str, tally: &mut Tally) {
        let mut refusal = 0;
        while refusal == 0 {
            refusal = self.call(call);
            tally.note(name, refusal);
        }
    }
}

/// One list of calls from the empty board against the plain machine and the reference's board, then undone to the
/// bottom and redone to the top; one build or two after each of the three.
pub fn histories(random: &mut Random, kind: History, tally: &mut Tally) {
    let library = sys::empty();
    assert!(library == Board::EMPTY);
    let (reference, machine) = (reference::Board::EMPTY, Machine::new());
    let mut followed = Followed { library, reference, machine };
    followed.calls(&history(random, kind), tally);
    if builds::edited(random, &followed.reference, tally) {
        tally.reach("history that ends in islands");
    }
    followed.until_refused(Call::Undo, "undo to the bottom", tally);
    builds::edited(random, &followed.reference, tally);
    followed.until_refused(Call::Redo, "redo to the top", tally);
    builds::edited(random, &followed.reference, tally);
}

/// Any call on boards that no history makes, sound and not, then undo and redo on what it leaves; where every entry can
/// be carried out in its turn, also a list of calls against the plain machine.
pub fn boards(random: &mut Random, tally: &mut Tally) {
    let mut all = unsound_boards(random);
    all.extend(sound_boards(random));
    for (kind, reference) in all {
        let library = board(&reference);
        assert_eq!(sys::sound(&library), reference.sound(), "{kind}");
        let near = reference.count.min(2_000);
        for call in [
            Call::Add(random.any_row()),
            Call::Add(random.row()),
            Call::Withdraw(random.place(near)),
            Call::Remark(random.place(near), random.minutes()),
            Call::Undo,
            Call::Redo,
        ] {
            let (refusal, after, expected) = compare(&library, reference.clone(), call);
            tally.note(name(&library, call, refusal), refusal);
            assert_eq!(sys::sound(&after), expected.sound(), "{kind}, {call:?}");
            for next in [Call::Undo, Call::Redo] {
                let (refusal, ..) = compare(&after, expected.clone(), next);
                tally.note(name(&after, next, refusal), refusal);
            }
        }
        if !reference.sound() {
            continue;
        }
        if let Some(machine) = reference.machine() {
            let calls = history_on(random, &machine);
            Followed { library, reference, machine }.calls(&calls, tally);
        }
    }
}

fn words(call: Call, random: &mut Random) -> [u32; CALL_WORDS] {
    let mut words = [0; CALL_WORDS].map(|_| random.word());
    let used: &[u32] = match call {
        Call::Add(row) => &[
            0,
            row.parent,
            row.numeral,
            row.order,
            row.minutes as u32,
            row.first_day,
            row.last_day,
        ],
        Call::Withdraw(k) => &[1, k as u32],
        Call::Remark(k, minutes) => &[2, k as u32, minutes as u32],
        Call::Undo => &[3],
        Call::Redo => &[4],
    };
    words[..used.len()].copy_from_slice(used);
    words
}

/// A row number as `replay` can tell it.
fn narrow(call: Call) -> Call {
    match call {
        Call::Withdraw(k) => Call::Withdraw(k as u32 as usize),
        Call::Remark(k, minutes) => Call::Remark(k as u32 as usize, minutes),
        other => other,
    }
}

/// One list of calls as words, some of them damaged, with any number of refusal words.
pub fn replays(random: &mut Random, kind: History, tally: &mut Tally) {
    let calls: Vec<Call> = history(random, kind).into_iter().map(narrow).collect();
    let mut told: Vec<u32> = calls.iter().flat_map(|call| words(*call, random)).collect();
    if random.chance(1, 5) {
        let extra = random.between(1, CALL_WORDS - 1);
        told.extend(random.noise(extra));
    }
    if random.chance(1, 5) && !calls.is_empty() {
        told[CALL_WORDS * random.below(calls.len())] = random.pick(&[5, 6, 1 << 31, u32::MAX]);
    }
    let room = match random.below(5) {
        0 => random.below(calls.len() + 1),
        1 => calls.len() + random.between(1, 9),
        _ => calls.len(),
    };
    let lent = random.noise(room);

    let mut after = lent.clone();
    let replayed = sys::replay(&told, &mut after);
    let refusal = if !told.len().is_multiple_of(CALL_WORDS) {
        101
    } else if told.chunks(CALL_WORDS).any(|call| call[0] > 4) {
        102
    } else if room < calls.len() {
        103
    } else {
        0
    };
    tally.note("replay", refusal);
    assert_eq!(replayed.refusal, refusal);
    if refusal != 0 {
        assert_eq!(replayed.calls, 0);
        assert!(replayed.board == Board::EMPTY);
        assert_eq!(after, lent);
        return;
    }
    let mut machine = Machine::new();
    let mut reference = reference::Board::EMPTY;
    for (place, call) in calls.iter().enumerate() {
        assert_eq!(after[place], machine.call(*call), "call {place}: {call:?}");
        reference = reference.call(*call).board;
    }
    assert_eq!(after[calls.len()..], lent[calls.len()..]);
    assert_eq!(replayed.calls, calls.len());
    assert_eq!(replayed.board.held(), held(&machine));
    assert!(replayed.board == board(&reference));
}
