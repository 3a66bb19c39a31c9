//! The board record against the plain machine, over generated histories.

use generate::*;
use reference::*;
use std::collections::BTreeSet;

/// Runs calls on both; gives the refusals seen.
fn follow(board: Board, machine: Machine, calls: &[Call]) -> (Board, Machine, Vec<u32>) {
    let mut board = board;
    let mut machine = machine;
    let mut refusals = Vec::new();
    for call in calls {
        let before = board.clone();
        let expected = machine.call(*call);
        let edited = board.call(*call);
        assert_eq!(edited.refusal, expected, "{call:?}");
        board = edited.board;
        if expected != 0 {
            assert!(board == before, "a refused call changes nothing");
        }
        assert!(board.sound());
        assert!(board.held() == machine.rows);
        assert_eq!(board.kept, machine.kept.len());
        assert_eq!(board.undone, machine.undone.len());
        refusals.push(expected);
    }
    // The journal gives K and F.
    assert!(board.machine().as_ref() == Some(&machine));
    (board, machine, refusals)
}

fn from_empty(calls: &[Call]) -> (Board, Machine, Vec<u32>) {
    follow(Board::EMPTY, Machine::new(), calls)
}

/// A call that is accepted.
fn done(board: Board, call: Call) -> Board {
    let edited = board.call(call);
    assert_eq!(edited.refusal, 0, "{call:?}");
    edited.board
}

/// Undoes to the bottom, redoes to the top and undoes back; every row list is met each way. K and F
/// have at most 256 lists together.
fn walk(board: Board, machine: &Machine) {
    let (kept, undone) = (machine.kept.len(), machine.undone.len());
    let mut board = board;
    for rows in &machine.kept {
        board = done(board, Call::Undo);
        assert!(board.held() == rows);
    }
    assert_eq!((board.kept, board.undone), (0, kept + undone));
    let edited = board.undo();
    assert_eq!(edited.refusal, 5);
    board = edited.board;

    // All later lists, oldest first: the rest of K, R and F.
    let mut lists: Vec<&Vec<Row>> = machine.kept.iter().rev().collect();
    lists.push(&machine.rows);
    lists.extend(&machine.undone);
    for rows in &lists[1..] {
        board = done(board, Call::Redo);
        assert!(board.held() == **rows);
    }
    assert_eq!((board.kept, board.undone), (kept + undone, 0));
    let edited = board.redo();
    assert_eq!(edited.refusal, 17);
    board = edited.board;
    for _ in 0..undone {
        board = done(board, Call::Undo);
    }
    assert!(board.machine().as_ref() == Some(machine));
}

#[test]
fn histories() {
    let mut random = Random::announced("histories", 11);
    let mut seen = [0u32; 21];
    let (mut with_days, mut without) = (0, 0);
    for round in 0..160 {
        let kind = match round % 16 {
            0 => History::Full,
            1 | 6 | 11 => History::Wild,
            2 | 5 | 8 | 13 => History::Runs,
            3 => History::Islands,
            9 => History::Dated,
            _ => random.pick(&[History::Small, History::Deep]),
        };
        let calls = history(&mut random, kind);
        let (board, machine, refusals) = from_empty(&calls);
        for (call, refusal) in calls.iter().zip(refusals) {
            seen[refusal as usize] += 1;
            match call {
                Call::Add(row) if refusal == 0 && Days::of(row) == Days::ALL => without += 1,
                Call::Add(_) if refusal == 0 => with_days += 1,
                _ => {}
            }
        }
        assert!(machine.kept.len() + machine.undone.len() <= 256);
        walk(board, &machine);
    }
    println!("refusals 0 to 5: {:?}; 17: {}; 20: {}", &seen[..6], seen[17], seen[20]);
    println!("rows added with days {with_days}, without {without}");
    assert!([0, 2, 3, 4, 5, 17, 20].iter().all(|refusal| seen[*refusal] > 20), "{seen:?}");
    assert!(with_days > 1_000 && without > 1_000);
}

#[test]
fn deep_histories_lose_the_oldest_steps() {
    let mut random = Random::announced("deep histories", 12);
    let calls = history(&mut random, History::Deep);
    let (_, _, refusals) = from_empty(&calls);
    assert!(refusals.contains(&5));
    let accepted = refusals.iter().filter(|refusal| **refusal == 0).count();
    assert!(accepted > 512);
}

#[test]
fn full_histories_reach_the_places() {
    let mut random = Random::announced("full histories", 13);
    let calls = history(&mut random, History::Full);
    let (_, _, refusals) = from_empty(&calls);
    assert!(refusals[..1_024].iter().all(|refusal| *refusal == 0));
    assert!(refusals.contains(&3));
}

/// What histories of runs come to: both ends and one step further, and changes that empty F.
#[test]
fn runs_reach_both_ends() {
    let mut random = Random::announced("runs", 16);
    let (mut bottom, mut top, mut redone, mut emptied, mut left, mut longest) = (0, 0, 0, 0, 0, 0);
    for _ in 0..40 {
        let mut machine = Machine::new();
        for call in history(&mut random, History::Runs) {
            let before = machine.undone.len();
            let refusal = machine.call(call);
            match (call, refusal) {
                (Call::Undo, 5) if before > 0 => bottom += 1,
                (Call::Redo, 17) if !machine.kept.is_empty() => top += 1,
                (Call::Redo, 0) => redone += 1,
                (Call::Add(_) | Call::Withdraw(_) | Call::Remark(..), 0) if before > 0 => {
                    emptied += 1
                }
                (_, 2..=4) if before > 0 => left += 1,
                _ => {}
            }
            longest = longest.max(machine.undone.len());
        }
    }
    println!("undos refused at the bottom {bottom}, redos at the top {top}, redos {redone}");
    println!("changes that empty F {emptied}, refused ones that don't {left}, longest F {longest}");
    assert!([bottom, top, emptied, left].iter().all(|times| *times > 20));
    assert!(redone > 1_000);
    assert_eq!(longest, 256);
}

#[test]
fn unsound() {
    let mut random = Random::announced("unsound boards", 14);
    for _ in 0..40 {
        let boards = unsound_boards(&mut random);
        let names: BTreeSet<&str> = boards.iter().map(|(name, _)| *name).collect();
        assert_eq!((boards.len(), names.len()), (43, 43));
        for (name, board) in boards {
            assert!(!board.sound(), "{name}");
            let row = random.any_row();
            for call in
                [Call::Add(row), Call::Withdraw(1), Call::Remark(1, 5), Call::Undo, Call::Redo]
            {
                let edited = board.clone().call(call);
                assert_eq!(edited.refusal, 1, "{name}");
                assert!(edited.board == board, "{name}");
            }
            let mut index = random.noise(20);
            let mut totals = random.wide_noise(3);
            let built = build_board(&board, 0, None, Start::ParentZero, &mut index, &mut totals);
            assert_eq!(built, Built { refusal: 1, nodes: 0, left: 0 });
            assert!(index == [0; 20] && totals == [0; 3]);
        }
    }
}

/// Where the kept or the undone steps are bad, nothing else is: without them the board is sound.
#[test]
fn unsound_by_one_list() {
    let mut random = Random::announced("unsound by one list", 17);
    let mut mended = 0;
    for (name, mut board) in (0..10).flat_map(|_| unsound_boards(&mut random)) {
        if name.contains("undone ") {
            board.undone = 0;
        } else if name.contains("kept ") {
            board.journal.copy_within(board.kept.min(MAX_KEPT).., 0);
            board.kept = 0;
        } else {
            continue;
        }
        assert!(board.sound(), "{name}");
        mended += 1;
    }
    assert_eq!(mended, 10 * (2 * 3 + 2 * 14 + 2));
}

#[test]
fn sound() {
    let mut random = Random::announced("sound boards", 15);
    for _ in 0..40 {
        let boards = sound_boards(&mut random);
        let names: BTreeSet<&str> = boards.iter().map(|(name, _)| *name).collect();
        assert_eq!((boards.len(), names.len()), (36, 36));
        for (name, board) in boards {
            assert!(board.sound(), "{name}");
            let rows = board.held().to_vec();
            // After an add, withdraw or remark nothing stays undone, undoing it gives the rows back,
            // and redoing it the edited board.
            for call in [Call::Add(random.row()), Call::Withdraw(1), Call::Remark(1, 5)] {
                let edited = board.clone().call(call);
                if edited.refusal == 0 {
                    let edited = edited.board;
                    assert!(edited.sound(), "{name}");
                    assert_eq!((edited.kept, edited.undone), ((board.kept + 1).min(256), 0));
                    assert_eq!(edited.clone().redo().refusal, 17, "{name}");
                    let undone = done(edited.clone(), Call::Undo);
                    assert!(undone.held() == rows, "{name}");
                    assert_eq!((undone.kept, undone.undone), (edited.kept - 1, 1), "{name}");
                    // An older entry may be bad.
                    let redone = undone.clone().redo();
                    if undone.sound() {
                        assert_eq!(redone.refusal, 0, "{name}");
                        assert!(redone.board == edited, "{name}");
                    } else {
                        assert_eq!(redone.refusal, 1, "{name}");
                    }
                } else {
                    assert!(edited.board == board, "{name}");
                }
            }
            there_and_back(name, &board, Call::Undo, Call::Redo);
            there_and_back(name, &board, Call::Redo, Call::Undo);
        }
    }
}

/// One step and the opposite one, where the entry after the step isn't bad: the same rows, and the
/// same steps but for one that was dropped.
fn there_and_back(name: &str, board: &Board, there: Call, back: Call) {
    let undoing = there == Call::Undo;
    let (from, to) = if undoing { (board.kept, board.undone) } else { (board.undone, board.kept) };
    let first = board.clone().call(there);
    if from == 0 {
        assert_eq!(first.refusal, if undoing { 5 } else { 17 }, "{name}");
        assert!(first.board == *board, "{name}");
        return;
    }
    assert_eq!(first.refusal, 0, "{name}");
    let numbers = |board: &Board| {
        if undoing {
            (board.kept, board.undone)
        } else {
            (board.undone, board.kept)
        }
    };
    assert_eq!(numbers(&first.board), (from - 1, (to + 1).min(256)), "{name}");
    let sound = first.board.sound();
    let second = first.board.call(back);
    assert_eq!(second.refusal, if sound { 0 } else { 1 }, "{name}");
    if sound {
        assert!(second.board.held() == board.held(), "{name}");
        assert_eq!(numbers(&second.board), (from, to.min(255)), "{name}");
        assert!(to == 256 || second.board.same(board), "{name}");
    }
}

/// Boards whose every entry can be carried out, followed by the machine of their lists: here K and F
/// have 256 lists each, and undo and redo drop the last.
#[test]
fn steps_on_boards_made_by_hand() {
    let mut random = Random::announced("steps on boards made by hand", 18);
    let (mut stepped, mut dropped_kept, mut dropped_undone) = (0, 0, 0);
    for _ in 0..8 {
        for (name, board) in sound_boards(&mut random) {
            let Some(machine) = board.machine() else { continue };
            if name.starts_with("steps") {
                stepped += 1;
            }
            let calls = history_on(&mut random, &machine);
            let mut model = machine.clone();
            for call in &calls {
                let (kept, undone) = (model.kept.len(), model.undone.len());
                let accepted = model.call(*call) == 0;
                match call {
                    Call::Undo if accepted && undone == 256 => dropped_undone += 1,
                    Call::Redo if accepted && kept == 256 => dropped_kept += 1,
                    _ => {}
                }
            }
            follow(board, machine, &calls);
        }
    }
    println!("lists dropped by a redo {dropped_kept}, by an undo {dropped_undone}");
    assert_eq!(stepped, 8 * 8);
    assert!(dropped_kept > 500 && dropped_undone > 500);
}
