//! Draws as many cases as it is told and compares the library with the reference on each: `soak COUNT [SEED]`.
//! Prints its seed first and the counts at the end; fails at the first difference.
#![forbid(unsafe_code)]

use differential::{builds, dated, defaults, edits, levelled, navigation, pulls, shortest, Tally};
use generate::{Random, HISTORIES};
use std::time::{SystemTime, UNIX_EPOCH};

fn main() {
    let mut arguments = std::env::args().skip(1).map(|text| text.parse::<u64>());
    let count = match arguments.next() {
        Some(Ok(count)) => count,
        _ => {
            eprintln!("usage: soak COUNT [SEED]");
            std::process::exit(2);
        }
    };
    let seed = match arguments.next() {
        Some(Ok(seed)) => seed,
        _ => SystemTime::now().duration_since(UNIX_EPOCH).map_or(1, |since| since.as_secs()),
    };
    println!("seed {seed}, {count} rounds");
    let mut random = Random::new(seed);
    let mut tally = Tally::new();
    for round in 0..count {
        for _ in 0..100 {
            builds::cases(&mut random, &mut tally);
            builds::islands(&mut random, &mut tally);
            defaults::cases(&mut random, &mut tally);
            shortest::cases(&mut random, &mut tally);
            dated::cases(&mut random, &mut tally);
            dated::without_a_window(&mut random, &mut tally);
            levelled::cases(&mut random, &mut tally);
            navigation::calls(&mut random, &mut tally);
            navigation::hop_calls(&mut random, &mut tally);
            navigation::meeting_calls(&mut random, &mut tally);
            navigation::checks(&mut random, &mut tally);
            pulls::cases(&mut random, &mut tally);
        }
        for _ in 0..10 {
            pulls::remarks_of_builds(&mut random, &mut tally);
            pulls::remarks_of_defaults(&mut random, &mut tally);
            pulls::remarks_of_placements(&mut random, &mut tally);
            pulls::remarks_of_dated_builds(&mut random, &mut tally);
            pulls::one_after_the_other(&mut random, &mut tally);
            pulls::pulls_of_lists(&mut random, &mut tally);
        }
        pulls::remarks_by_every_code(&mut random, &mut tally);
        builds::codes(&mut random, &mut tally);
        dated::codes(&mut random, &mut tally);
        defaults::drawn_in_any_order(&mut random, &mut tally);
        let kind = HISTORIES[round as usize % HISTORIES.len()];
        edits::histories(&mut random, kind, &mut tally);
        edits::replays(&mut random, kind, &mut tally);
        edits::boards(&mut random, &mut tally);
        shortest::edited(&mut random, kind, &mut tally);
        dated::edited(&mut random, kind, &mut tally);
        pulls::remarks_after_edits(&mut random, kind, &mut tally);
        builds::unsound(&mut random, &mut tally);
        shortest::unsound(&mut random, &mut tally);
        dated::unsound(&mut random, &mut tally);
        if round % 20 == 0 {
            shortest::full(&mut random, &mut tally);
            dated::full(&mut random, &mut tally);
            let nodes = random.between(65_530, 65_540);
            builds::limits(&mut random, nodes, &mut tally);
            dated::limits(&mut random, nodes, &mut tally);
            pulls::remarks_at_the_limit(&mut random, nodes, &mut tally);
            pulls::large(&mut random, &mut tally);
        }
    }
    println!("{tally}");
    println!("{} answers compared, no difference", tally.all());
}
