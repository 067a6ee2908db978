//! Whole cards: the program `towerwatch` is started for each, and has to print what SPEC 10.10 has for it (SPEC 11.1),
//! in whatever pieces it gets the card (SPEC 11.2), and to end with exit status 0 (SPEC 11.3).

use super::{same, show, Run};
use crate::card::make::random_card;
use crate::card::printed;
use crate::tally::Outcome;
use std::io::{Read, Write};
use std::process::{Command, Stdio};

/// Hands the card over in pieces of that many bytes, and answers what the program prints and whether it ended well. The
/// program may end before it has read all, so a failed write is none of our business.
fn play(program: &str, card: &[u8], piece: usize) -> (Vec<u8>, bool) {
    let mut child = Command::new(program)
        .stdin(Stdio::piped())
        .stdout(Stdio::piped())
        .spawn()
        .unwrap_or_else(|error| panic!("{program}: {error}"));
    let mut input = child.stdin.take().unwrap();
    let mut output = Vec::new();
    std::thread::scope(|scope| {
        scope.spawn(move || card.chunks(piece).all(|bytes| input.write_all(bytes).is_ok()));
        child.stdout.take().unwrap().read_to_end(&mut output).expect("the program's output");
    });
    (output, child.wait().expect("the program's end").success())
}

pub fn card_case(run: &mut Run, number: u64) {
    let card = random_card(&mut run.random);
    let wanted = printed(&card);
    let small = 1 + run.random.below(40);
    let piece = run.random.pick(&[card.len().max(1), small, 21, 4096]);
    let (output, ended_well) = play(run.program, &card, piece);
    let case = || format!("card {number} in pieces of {piece}: {}", show(&card));
    same(show(&output), show(&wanted.bytes()), case);
    same(ended_well, true, || format!("the exit status of {}", case()));
    run.tally.add(Outcome::Card(wanted.edition, wanted.end));
    let Some(edition) = wanted.edition else { return };
    for verdict in &wanted.verdicts {
        run.tally.add(Outcome::CardVerdict(edition, wanted.names_velocity, *verdict));
    }
    if card.len() > 32_768 && wanted.verdicts.len() >= 500 {
        run.tally.add(Outcome::LongCard(edition, wanted.end.is_some()));
    }
}
