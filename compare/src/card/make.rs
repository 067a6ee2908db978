//! Random cards: fine ones, and ones that are broken at a line of each sort.

use crate::random::Random;
use crate::rule::make::{random_parameters, random_rule, random_ticks};
use crate::rule::{scramble, text_of};

/// Lines that are broken, for each of the four first places and the ticks.
const BROKEN: [&[&str]; 5] = [
    &[
        "", "edition=3", "edition=0", "edition=01", "edition=02", "edition=1 ", " edition=1", "edition=2 ", "edition=",
        "edition=10", "edition=12", "edition=21", "edition=1\r", "edition=2\r", "Edition=1", "Edition=2", "edition",
        "edition=+2", "edition=1,2",
    ],
    &[
        "", "k=", "k=0,0,0,0,0,0,0", "k=0,0,0,0,0,0,0,0,0", "k=0,0,0,0,0,0,0,1000000", "k=00,0,0,0,0,0,0,0",
        "k=0,0,0,0,,0,0,0", "k=0,0,0,0,0,0,0,0,", "k=0, 0,0,0,0,0,0,0", "k=+1,0,0,0,0,0,0,0",
        "k=0,0,0,4294967296,0,0,0,0", "k=0,0,0,0,0,0,0,18446744073709551616", "k 0,0,0,0,0,0,0,0",
        "k=0;0;0;0;0;0;0;0", "k=01,0,0,0,0,0,0,0",
    ],
    &["", "watch", "watch:len<=1", " watch=len<=1", "Watch=len<=1", "watch len<=1", "watc=len<=1", "len<=1"],
    &[
        "", "ticks=", "ticks=1000000", "ticks=01", "ticks=00", "ticks=-1", "ticks=1 ", "tick=1", "ticks=5a",
        "ticks=4294967296",
    ],
    &[
        "", "t=", "t=2,0000000000000000", "t=01,0000000000000000", "t=1,000000000000000", "t=1,00000000000000000",
        "t=1;0000000000000000", "t=1,000000000000000A", "t=1,000000000000000g", "t=,0000000000000000",
        "t=0 0000000000000000", "t=0,+000000000000000", "T=0,0000000000000000", "verdict=1", "ticks=5",
        "t=0,000000000000000:", "t=0,/000000000000000", "t=2,0000000000000000,5", "t=1,000000000000000,5",
        "t=1,00000000000000000,5", "t=1;0000000000000000,5", "t=1,000000000000000A,5", "t=0,0000000000000000;5",
        "t=0,0000000000000000 5", "t=0,00000000000000005", "T=0,0000000000000000,5",
    ],
];

/// What can stand behind the digits of a tick: a velocity, or one that is wrong in edition 2, in edition 1, or in both.
const ENDS: [&str; 32] = [
    "", ",", ",0", ",5", ",90", ",126", ",127", ",128", ",128", ",128", ",129", ",200", ",255", ",256", ",999999",
    ",1000000", ",4294967296", ",18446744073709551621", ",+5", ",+5", ",-1", ",-0", ",05", ",05", ",00", ",007", ",5,",
    ",127,", ",5 ", ", 5", ",5a", ",v",
];

/// The text of a card's rule: mostly a rule, and now and then one as long as a line can be.
fn text(random: &mut Random) -> Vec<u8> {
    if random.once_in(3) {
        return scramble::random_text(random);
    }
    let size = 1 + random.below(8);
    let rule = random_rule(random, size, false);
    let mut text = text_of(random, &rule);
    if random.once_in(20) {
        let length = random.pick(&[2047, 2048, 2049, 4088, 4089, 4090]);
        text.resize(length.max(text.len()), b' ');
    }
    text
}

/// The lines of a fine card, if its text is a rule.
fn lines(random: &mut Random, count: usize) -> Vec<Vec<u8>> {
    let edition = random.pick(&[1, 2]);
    let k = random_parameters(random).map(|k| k.to_string()).join(",");
    let watch = [b"watch=".to_vec(), text(random)].concat();
    let first = format!("edition={edition}").into();
    let mut lines = vec![first, format!("k={k}").into(), watch, format!("ticks={count}").into()];
    for tick in random_ticks(random, count) {
        let velocity = if edition == 1 { String::new() } else { format!(",{}", tick.velocity) };
        lines.push(format!("t={},{:016x}{velocity}", u32::from(tick.start), tick.signals).into());
    }
    lines
}

/// Puts another end behind the digits of a tick's line.
fn turn_end(random: &mut Random, line: &mut Vec<u8>) {
    line.truncate(20);
    line.extend(random.pick(&ENDS).bytes());
}

/// Makes the first line that of the other edition, so that the ticks are wrong.
fn turn_edition(line: &mut [u8]) {
    if let [.., edition] = line {
        *edition ^= b'1' ^ b'2';
    }
}

fn joined(lines: &[Vec<u8>]) -> Vec<u8> {
    lines.iter().flat_map(|line| line.iter().chain(b"\n")).copied().collect()
}

/// Changes, removes or adds a byte of a line.
fn touch(random: &mut Random, line: &mut Vec<u8>) {
    const BYTES: &[u8] = b"0123456789abcdefgks=,t` \n\r\x00\xff";
    if line.is_empty() {
        return;
    }
    let at = random.below(line.len());
    match random.below(3) {
        0 => line[at] = random.pick(BYTES),
        1 => {
            line.remove(at);
        }
        _ => line.insert(at, random.pick(BYTES)),
    }
}

/// A card with its lines, one of them damaged, at a line of a sort that is picked evenly.
fn damaged(random: &mut Random, mut lines: Vec<Vec<u8>>) -> Vec<u8> {
    let sort = random.below(if lines.len() > 4 { 5 } else { 4 });
    let at = if sort < 4 { sort } else { 4 + random.below(lines.len() - 4) };
    match random.below(10) {
        0 if sort == 0 => turn_edition(&mut lines[0]),
        0..=2 if sort == 4 => turn_end(random, &mut lines[at]),
        0..=3 => lines[at] = random.pick(BROKEN[sort]).into(),
        4 | 5 => touch(random, &mut lines[at]),
        6 => {
            lines.remove(at);
        }
        7 => lines.insert(at, lines[at].clone()),
        8 => {
            let byte = if random.once_in(2) { b' ' } else { b'0' };
            lines[at].resize(random.pick(&[4094, 4095, 4096, 5000, 40_000]), byte);
        }
        _ => {
            // the input ends within the line, or before it
            let kept = joined(&lines[..at]);
            let end = if random.once_in(3) { 0 } else { random.below(lines[at].len() + 1) };
            return [&kept, &lines[at][..end]].concat();
        }
    }
    joined(&lines)
}

/// A random card; one in sixty is longer than the program's buffer.
pub fn random_card(random: &mut Random) -> Vec<u8> {
    let count = if random.once_in(60) { 1600 + random.below(3000) } else { random.below(30) };
    let lines = lines(random, count);
    match random.below(8) {
        0..=2 => joined(&lines),
        3 => {
            const MORE: [&[u8]; 7] =
                [b"\n", b"t", b" ", b"\x00", b"t=0,0000000000000000\n", b"t=0,0000000000000000,5\n", b"edition=1\n"];
            let more = random.pick(&MORE);
            [&joined(&lines), more].concat()
        }
        _ => damaged(random, lines),
    }
}
