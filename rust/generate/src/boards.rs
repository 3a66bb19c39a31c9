//! Boards made by hand, sound and unsound, with noise in the words beyond.

use crate::random::Random;
use reference::board::{carried_out, PUT_IN, SET, TAKE_OUT};
use reference::{Board, Entry, Row, MAX_KEPT, MAX_ROWS, MAX_UNDONE};

/// An entry of any words.
pub fn any_entry(random: &mut Random) -> Entry {
    Entry {
        kind: if random.chance(3, 4) { random.below(3) as u32 } else { random.word() },
        at: random.place(0) as u32,
        row: random.any_row(),
    }
}

/// A board with the given numbers: held rows with numeral 1 or more, many of
/// which tie with the one before, and any days; noise in all other words,
/// numeral 0 and bad entries among them.
pub fn noisy_board(random: &mut Random, count: usize, kept: usize, undone: usize) -> Board {
    let mut board = Board::EMPTY;
    let mut last = random.row();
    for (place, row) in board.rows.iter_mut().enumerate() {
        last = random.row_beside(last);
        *row = if place < count { random.with_any_days(last) } else { random.any_row() };
    }
    for entry in board.journal.iter_mut() {
        *entry = any_entry(random);
    }
    board.count = count;
    board.kept = kept;
    board.undone = undone;
    board
}

/// A noisy board with the given newest entries, kept and undone; 1, 2, 17 or
/// 256 steps where one is given, no step where none is.
fn with_newest(
    random: &mut Random,
    count: usize,
    newest_kept: Option<Entry>,
    newest_undone: Option<Entry>,
) -> Board {
    let kept = if newest_kept.is_some() { random.pick(&[1, 2, 17, MAX_KEPT]) } else { 0 };
    let undone = if newest_undone.is_some() { random.pick(&[1, 2, 17, MAX_UNDONE]) } else { 0 };
    let mut board = noisy_board(random, count, kept, undone);
    if let Some(entry) = newest_kept {
        board.journal[kept - 1] = entry;
    }
    if let Some(entry) = newest_undone {
        board.journal[kept] = entry;
    }
    board
}

/// A sound board that holds `rows`, at most 1,024 with numeral 1 or more, with
/// noise in all other words; its newest entries, if any, can be carried out.
pub fn holding(random: &mut Random, rows: &[Row]) -> Board {
    let count = rows.len();
    let newest_kept = some_good_entry(random, count);
    let newest_undone = some_good_entry(random, count);
    let mut board = with_newest(random, count, newest_kept, newest_undone);
    board.rows[..count].copy_from_slice(rows);
    board
}

/// The board that holds `rows`, at most 1,024, and nothing else.
pub fn bare_board(rows: &[Row]) -> Board {
    let mut board = Board { count: rows.len(), ..Board::EMPTY };
    board.rows[..rows.len()].copy_from_slice(rows);
    board
}

/// Every list of up to `most` rows with parents of 0 to 3, numerals of 1 to 3 and
/// orders below `orders`.
pub fn small_boards(most: u32, orders: u32) -> impl Iterator<Item = Vec<Row>> {
    let kinds = 4 * 3 * orders;
    let row = |kind: u32| Row::undated(kind % 4, kind / 4 % 3 + 1, kind / 12, 1 << kind);
    (0..=most).flat_map(move |count| {
        let nth =
            move |number| (0..count).map(|place| row(number / kinds.pow(place) % kinds)).collect();
        (0..kinds.pow(count)).map(nth)
    })
}

/// A board of the given numbers, at most 1,024, 256 and 256, whose every entry
/// can be carried out in its turn, so that its journal gives a K and an F of
/// that many lists. The words beyond are noise.
pub fn stepped_board(random: &mut Random, count: usize, kept: usize, undone: usize) -> Board {
    let mut board = noisy_board(random, count, kept, undone);
    for (step, entry) in chain(random, board.held(), kept).into_iter().enumerate() {
        board.journal[kept - 1 - step] = entry;
    }
    for (step, entry) in chain(random, board.held(), undone).into_iter().enumerate() {
        board.journal[kept + step] = entry;
    }
    board
}

/// Entries that can be carried out one after the other, the first on `rows`.
fn chain(random: &mut Random, rows: &[Row], length: usize) -> Vec<Entry> {
    let mut rows = rows.to_vec();
    let mut entries = Vec::new();
    for _ in 0..length {
        let entry = good_entry(random, rows.len());
        rows = carried_out(&rows, &entry).expect("an entry that can be carried out");
        entries.push(entry);
    }
    entries
}

/// An entry that can be carried out on `count` rows with numeral 1 or more; the
/// own row of one that takes out is noise.
fn good_entry(random: &mut Random, count: usize) -> Entry {
    let mut kinds = Vec::new();
    if count > 0 {
        kinds.extend([TAKE_OUT, SET]);
    }
    if count < MAX_ROWS {
        kinds.push(PUT_IN);
    }
    match random.pick(&kinds) {
        PUT_IN => {
            let at = random.between(0, count);
            with_a_row(random, PUT_IN, at)
        }
        SET => {
            let at = random.below(count);
            with_a_row(random, SET, at)
        }
        _ => {
            let at = random.below(count) as u32;
            Entry { kind: TAKE_OUT, at, row: random.any_row() }
        }
    }
}

/// None, or an entry that can be carried out on `count` rows.
fn some_good_entry(random: &mut Random, count: usize) -> Option<Entry> {
    if random.chance(1, 3) {
        None
    } else {
        Some(good_entry(random, count))
    }
}

/// An entry that can't be carried out on `count` rows.
fn bad_entry(random: &mut Random, count: usize) -> Entry {
    match random.below(6) {
        0 => with_a_row(random, 3, 0),
        1 => with_a_row(random, TAKE_OUT, count),
        2 => with_a_row(random, PUT_IN, count + 1),
        3 => with_numeral_0(random, PUT_IN, 0),
        4 => with_a_row(random, SET, count),
        _ => with_numeral_0(random, SET, 0),
    }
}

/// An entry of the kind for the place, with a row of numeral 1 or more and any days.
fn with_a_row(random: &mut Random, kind: u32, at: usize) -> Entry {
    let row = random.row();
    Entry { kind, at: at as u32, row: random.with_any_days(row) }
}

/// An entry of the kind for the place, with a row of numeral 0.
fn with_numeral_0(random: &mut Random, kind: u32, at: usize) -> Entry {
    Entry { kind, at: at as u32, row: Row { numeral: 0, ..random.row() } }
}

/// A kind of newest entry: its names as a kept and as an undone one, the number
/// of rows it is for, and the entry.
type Newest = ([&'static str; 2], usize, Entry);

macro_rules! both {
    ($name:literal) => {
        [concat!("kept ", $name), concat!("undone ", $name)]
    };
}

/// One entry of each kind that can't be carried out.
fn bad_entries(random: &mut Random) -> Vec<Newest> {
    let count = random.between(1, 40);
    let some = random.pick(&[0, 1, 5, 1_000, MAX_ROWS]);
    let short = some.min(MAX_ROWS - 1);
    let widest = u32::MAX as usize;
    let (inside, within) = (random.below(count), random.between(0, count));
    let anywhere = random.between(0, MAX_ROWS);
    vec![
        (both!("take-out from no rows"), 0, with_a_row(random, TAKE_OUT, 0)),
        (both!("take-out at the end"), some, with_a_row(random, TAKE_OUT, some)),
        (both!("take-out at the widest place"), count, with_a_row(random, TAKE_OUT, widest)),
        (both!("take-out beyond the places"), MAX_ROWS, with_a_row(random, TAKE_OUT, MAX_ROWS)),
        (both!("put-in beyond the end"), short, with_a_row(random, PUT_IN, short + 1)),
        (both!("put-in at the widest place"), count, with_a_row(random, PUT_IN, widest)),
        (both!("put-in on 1,024 rows"), MAX_ROWS, with_a_row(random, PUT_IN, anywhere)),
        (both!("put-in of numeral 0"), count, with_numeral_0(random, PUT_IN, within)),
        (both!("set at the end"), some, with_a_row(random, SET, some)),
        (both!("set at the widest place"), count, with_a_row(random, SET, widest)),
        (both!("set beyond the places"), MAX_ROWS, with_a_row(random, SET, MAX_ROWS)),
        (both!("set to numeral 0"), count, with_numeral_0(random, SET, inside)),
        (both!("entry of kind 3"), count, with_a_row(random, 3, 0)),
        (both!("entry of the widest kind"), count, with_a_row(random, u32::MAX, 0)),
    ]
}

/// One entry of each kind that can be carried out.
fn good_entries(random: &mut Random) -> Vec<Newest> {
    let count = random.between(1, 40);
    let inside = random.below(count);
    vec![
        (both!("take-out of the first row"), count, with_a_row(random, TAKE_OUT, 0)),
        (
            both!("take-out with an unused numeral 0"),
            count,
            with_numeral_0(random, TAKE_OUT, inside),
        ),
        (both!("take-out of the last row"), count, with_a_row(random, TAKE_OUT, count - 1)),
        (both!("take-out of the only row"), 1, with_a_row(random, TAKE_OUT, 0)),
        (
            both!("take-out of the last place"),
            MAX_ROWS,
            with_numeral_0(random, TAKE_OUT, MAX_ROWS - 1),
        ),
        (both!("put-in at the front"), count, with_a_row(random, PUT_IN, 0)),
        (both!("put-in at the end"), count, with_a_row(random, PUT_IN, count)),
        (both!("put-in of the only row"), 0, with_a_row(random, PUT_IN, 0)),
        (both!("put-in of the last place"), MAX_ROWS - 1, with_a_row(random, PUT_IN, MAX_ROWS - 1)),
        (both!("set of a whole row"), count, with_a_row(random, SET, inside)),
        (both!("set of the last place"), MAX_ROWS, with_a_row(random, SET, MAX_ROWS - 1)),
    ]
}

/// One board of each kind of unsoundness, with its name: a number beyond the
/// places, a held row with numeral 0, a newest kept or a newest undone entry
/// that can't be carried out, and full journals where one such entry stands
/// among good ones.
pub fn unsound_boards(random: &mut Random) -> Vec<(&'static str, Board)> {
    let mut list = Vec::new();
    let count = random.between(1, 40);

    for (name, count) in [
        ("count one above the places", MAX_ROWS + 1),
        ("count of the widest word", usize::MAX),
        ("count above 32 bits", 1 << 40),
    ] {
        let mut board = noisy_board(random, MAX_ROWS, 0, 0);
        board.count = count;
        list.push((name, board));
    }
    // Wherever the newest entries are looked for, they can be carried out.
    for (name, kept) in [
        ("kept number one above the places", MAX_KEPT + 1),
        ("kept number of the widest word", usize::MAX),
        ("kept number above 32 bits", 1 << 40),
    ] {
        let undone = random.pick(&[0, 1, MAX_UNDONE]);
        let mut board = noisy_board(random, count, kept, undone);
        board.journal.fill_with(|| good_entry(random, count));
        list.push((name, board));
    }
    for (name, undone) in [
        ("undone number one above the places", MAX_UNDONE + 1),
        ("undone number of the widest word", usize::MAX),
        ("undone number above 32 bits", 1 << 40),
    ] {
        let kept = random.pick(&[0, 1, MAX_KEPT]);
        let mut board = noisy_board(random, count, kept, undone);
        board.journal.fill_with(|| good_entry(random, count));
        list.push((name, board));
    }
    for (name, place) in [
        ("first held row with numeral 0", 0),
        ("last held row with numeral 0", count - 1),
        ("some held row with numeral 0", random.below(count)),
    ] {
        let mut board = noisy_board(random, count, 0, 0);
        board.rows[place].numeral = 0;
        list.push((name, board));
    }

    for ([name, _], count, entry) in bad_entries(random) {
        let newest_undone = some_good_entry(random, count);
        list.push((name, with_newest(random, count, Some(entry), newest_undone)));
    }
    for ([_, name], count, entry) in bad_entries(random) {
        let newest_kept = some_good_entry(random, count);
        list.push((name, with_newest(random, count, newest_kept, Some(entry))));
    }

    for (name, places) in [
        ("full journal, bad newest kept entry", &[MAX_KEPT - 1][..]),
        ("full journal, bad newest undone entry", &[MAX_KEPT]),
        ("full journal, both newest entries bad", &[MAX_KEPT - 1, MAX_KEPT]),
    ] {
        let mut board = stepped_board(random, count, MAX_KEPT, MAX_UNDONE);
        for place in places {
            board.journal[*place] = bad_entry(random, count);
        }
        list.push((name, board));
    }
    list
}

/// Sound boards no history makes, with their names: noise beyond the numbers, a
/// newest kept or a newest undone entry of each kind that can be carried out,
/// bad entries where none is looked at, and journals of up to 256 kept and 256
/// undone entries that can all be carried out in their turn.
pub fn sound_boards(random: &mut Random) -> Vec<(&'static str, Board)> {
    let mut list = Vec::new();
    let count = random.between(1, 40);
    list.push(("no rows, no entries, noise", noisy_board(random, 0, 0, 0)));
    list.push(("rows, no entries, noise", noisy_board(random, count, 0, 0)));
    list.push(("all places, no entries", noisy_board(random, MAX_ROWS, 0, 0)));
    for ([name, _], count, entry) in good_entries(random) {
        let newest_undone = some_good_entry(random, count);
        list.push((name, with_newest(random, count, Some(entry), newest_undone)));
    }
    for ([_, name], count, entry) in good_entries(random) {
        let newest_kept = some_good_entry(random, count);
        list.push((name, with_newest(random, count, newest_kept, Some(entry))));
    }

    // Only the two newest entries are looked at, and those by the two numbers alone.
    for (name, kept, undone) in [
        ("bad entry behind the kept ones", MAX_KEPT, 0),
        ("bad entry behind the undone ones", 0, MAX_UNDONE),
        ("full journal, good newest entries alone", MAX_KEPT, MAX_UNDONE),
    ] {
        let mut board = noisy_board(random, count, kept, undone);
        board.journal.fill_with(|| bad_entry(random, count));
        if kept > 0 {
            board.journal[kept - 1] = good_entry(random, count);
        }
        if undone > 0 {
            board.journal[kept] = good_entry(random, count);
        }
        list.push((name, board));
    }

    let (some_kept, some_undone) = (random.between(1, 255), random.between(1, 255));
    for (name, count, kept, undone) in [
        ("steps, some kept and some undone", count, some_kept, some_undone),
        ("steps, 256 undone alone", count, 0, MAX_UNDONE),
        ("steps, 256 kept and some undone", count, MAX_KEPT, some_undone),
        ("steps, 256 kept and 1 undone", count, MAX_KEPT, 1),
        ("steps, some kept and 256 undone", count, some_kept, MAX_UNDONE),
        ("steps, 256 kept and 256 undone", count, MAX_KEPT, MAX_UNDONE),
        ("steps, 256 kept and 256 undone on no rows", 0, MAX_KEPT, MAX_UNDONE),
        ("steps, 256 kept and 256 undone on all places", MAX_ROWS, MAX_KEPT, MAX_UNDONE),
    ] {
        list.push((name, stepped_board(random, count, kept, undone)));
    }
    list
}
