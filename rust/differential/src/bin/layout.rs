//! Prints size, alignment and field offsets of each struct, and each constant; `tests/layout.c` prints the header's.

use flowpewter::sys::{
    self, Climbed, ClimbedOne, Edited, Hopped, Listed, Meeting, Replayed, Span, Summed,
};
use flowpewter::*;
use std::mem::{align_of, offset_of, size_of};

macro_rules! layout {
    ($name:literal, $type:ty, $($field:ident)*) => {
        println!("{} {} {}", $name, size_of::<$type>(), align_of::<$type>());
        $(println!("  {} {}", stringify!($field), offset_of!($type, $field));)*
    };
}

macro_rules! constants {
    ($($name:ident)*) => { $(println!("{} {}", stringify!($name), $name);)* };
}

fn main() {
    layout!("row", Row, parent numeral order minutes first_day last_day);
    layout!("entry", Entry, kind at row);
    layout!("board", Board, count rows kept undone journal);
    layout!("edited", Edited, board refusal);
    layout!("replayed", Replayed, refusal calls board);
    layout!("built", sys::Built, refusal nodes left);
    layout!("span_answer", Span, refusal start words);
    layout!("listed", Listed, refusal len);
    layout!("climbed", Climbed, refusal len links);
    layout!("hopped", Hopped, refusal len hops);
    layout!("meeting", Meeting, refusal found rank);
    layout!("climbed_one", ClimbedOne, refusal root rank);
    layout!("summed", Summed, refusal sum);
    constants!(MAX_ROWS MAX_KEPT MAX_UNDONE JOURNAL_PLACES LAST_DAY MAX_WIDTH MAX_LINES);
    constants!(MAX_NODES CONTENTS BODY LEVEL_MASK CLOSING_BIT ORPHAN_BIT CALL_WORDS);
    println!("entries {} {} {}", Entry::TAKE_OUT, Entry::PUT_IN, Entry::SET);
    println!("lengths {} {} {}", index_len(7), totals_len(7), days_len(7));
    let Row { parent, numeral, order, minutes, first_day, last_day } = Row::new(1, 2, 3, 4);
    println!("undated row {parent} {numeral} {order} {minutes} {first_day} {last_day}");
    for refusal in REFUSALS {
        println!("{refusal:?} {}", refusal.number());
    }
    for orphan in [Orphan::Ignore, Orphan::Error, Orphan::Adopt, Orphan::Root] {
        for multi in [Multi::Allow, Multi::Leaves, Multi::Error] {
            for cycle in [Cycle::BreakUp, Cycle::Error] {
                let options = Options { orphan, multi, cycle, ..Options::default() };
                println!("{orphan:?} {multi:?} {cycle:?} {}", options.code());
            }
        }
    }
    println!("default {}", Options::default().code());
    let added = Call::Add(Row::default());
    for call in [added, Call::Withdraw(0), Call::Remark(0, 0), Call::Undo, Call::Redo] {
        println!("call {}", call.words()[0]);
    }
    let words = [0, 1, 2, 3, 4, 5];
    let body = Body::of_words(words);
    let places = [body.numeral, body.row, body.size, body.parent, body.root, body.level];
    println!("body {places:?}");
}
