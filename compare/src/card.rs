//! What a card prints: a reader of cards of its own, and verdicts by the interval meaning.

pub mod make;

use crate::rule::meaning::{verdict, Moment};
use crate::rule::{read, velocity_tests, Rule};

/// The lines of a card in their order, and what comes after the last.
#[derive(Clone, Copy, PartialEq, Eq, PartialOrd, Ord, Debug)]
pub enum Place {
    Edition,
    Parameters,
    Rule,
    Count,
    Tick,
    After,
}

/// What is wrong there: a line fails (SPEC 10.7), a rule is refused (SPEC 10.9), or there is too much (SPEC 10.8).
#[derive(Clone, Copy, PartialEq, Eq, PartialOrd, Ord, Debug)]
pub enum Why {
    /// No byte of the line is there.
    Missing,
    /// The input ends within the line.
    Unfinished,
    /// The line has more than 4,096 bytes.
    OverLong,
    /// The line is not what stands at its place.
    Broken,
    /// The same of a tick, where nothing but the velocity is wrong.
    Velocity(Wrong),
    /// The rule's own refusal.
    Refused(u32),
    /// There are bytes after the last tick.
    More,
}

/// What is wrong with a tick's velocity.
#[derive(Clone, Copy, PartialEq, Eq, PartialOrd, Ord, Debug)]
pub enum Wrong {
    /// There is one in edition 1.
    Extra,
    /// There is none in edition 2, with its comma or without.
    Missing,
    /// It has a sign.
    Signed,
    /// It is a number with a needless 0.
    NeedlessZero,
    /// It is 128, or a number above that.
    JustAbove,
    High,
    /// Something comes after it: a comma, or a space.
    Followed,
    /// It is something else.
    Other,
}

/// Those of edition 2.
pub const WRONG_VELOCITIES: [Wrong; 7] = [
    Wrong::Missing,
    Wrong::Signed,
    Wrong::NeedlessZero,
    Wrong::JustAbove,
    Wrong::High,
    Wrong::Followed,
    Wrong::Other,
];

/// SPEC 10.2: the editions.
#[derive(Clone, Copy, PartialEq, Eq, PartialOrd, Ord, Debug)]
pub enum Edition {
    One,
    Two,
}

pub const EDITIONS: [Edition; 2] = [Edition::One, Edition::Two];

impl Edition {
    /// The first line of its cards.
    fn line(self) -> &'static [u8] {
        match self {
            Edition::One => b"edition=1",
            Edition::Two => b"edition=2",
        }
    }
}

#[derive(Clone, Copy, PartialEq, Eq, PartialOrd, Ord, Debug)]
pub struct End(pub Place, pub Why);

impl End {
    /// The refusal's number: the rule's own, 18 (SPEC 7.18) or 17 (SPEC 7.17).
    fn number(self) -> u32 {
        match self {
            End(_, Why::Refused(number)) => number,
            End(Place::Tick | Place::After, _) => 18,
            _ => 17,
        }
    }
}

/// The verdicts that a card prints, and the refusal that it ends with. Also the card's edition, if it has one, and
/// whether its rule, if it has one, names `v`.
#[derive(Default)]
pub struct Printed {
    pub edition: Option<Edition>,
    pub names_velocity: bool,
    pub verdicts: Vec<u32>,
    pub end: Option<End>,
}

impl Printed {
    /// SPEC 10.10: the lines that are printed.
    pub fn bytes(&self) -> Vec<u8> {
        let mut text: String = self.verdicts.iter().map(|v| format!("verdict={v}\n")).collect();
        if let Some(end) = self.end {
            text.push_str(&format!("refused={}\n", end.number()));
        }
        text.into_bytes()
    }
}

/// SPEC 10.1: takes the next line, and answers it without its end.
fn line<'a>(card: &mut &'a [u8]) -> Result<&'a [u8], Why> {
    let end = card.iter().take(4096).position(|b| *b == 10);
    match end {
        Some(end) => {
            let line = &card[..end];
            *card = &card[end + 1..];
            Ok(line)
        }
        None if card.is_empty() => Err(Why::Missing),
        None if card.len() > 4096 => Err(Why::OverLong),
        None => Err(Why::Unfinished),
    }
}

/// A decimal number up to 999,999, its digits by SPEC 2.8.
fn decimal(digits: &[u8]) -> Option<u32> {
    let fine = matches!(digits.len(), 1..=6) && digits.iter().all(u8::is_ascii_digit);
    if !fine || digits.len() > 1 && digits[0] == b'0' {
        return None;
    }
    Some(digits.iter().fold(0, |x, b| 10 * x + u32::from(b - b'0')))
}

/// SPEC 10.3: the eight parameters.
fn parameters(line: &[u8]) -> Option<[u32; 8]> {
    let numbers: Option<Vec<u32>> = line.strip_prefix(b"k=")?.split(|b| *b == b',').map(decimal).collect();
    numbers?.try_into().ok()
}

/// SPEC 10.6: a tick.
fn tick(line: &[u8], edition: Edition) -> Result<Moment, Why> {
    let [b't', b'=', start @ (b'0' | b'1'), b',', digits @ ..] = line else { return Err(Why::Broken) };
    let is_digit = |b: &u8| matches!(b, b'0'..=b'9' | b'a'..=b'f');
    let Some((digits, rest)) = digits.split_at_checked(16) else { return Err(Why::Broken) };
    if !digits.iter().all(is_digit) {
        return Err(Why::Broken);
    }
    let digits = std::str::from_utf8(digits).unwrap();
    let signals = u64::from_str_radix(digits, 16).unwrap();
    let velocity = match edition {
        Edition::One => no_velocity(rest)?,
        Edition::Two => velocity(rest)?,
    };
    Ok(Moment { start: *start == b'1', signals, velocity })
}

/// SPEC 10.6: the velocity in edition 1, where nothing stands behind the digits.
fn no_velocity(rest: &[u8]) -> Result<u32, Why> {
    match rest {
        [] => Ok(0),
        [b',', digits @ ..] if decimal(digits).is_some() => Err(Why::Velocity(Wrong::Extra)),
        _ => Err(Why::Broken),
    }
}

/// SPEC 10.6: the velocity in edition 2, which stands behind a comma.
fn velocity(rest: &[u8]) -> Result<u32, Why> {
    let digits = match rest {
        [] | [b','] => return Err(Why::Velocity(Wrong::Missing)),
        [b',', digits @ ..] => digits,
        _ => return Err(Why::Broken),
    };
    match decimal(digits) {
        Some(velocity @ 0..=127) => Ok(velocity),
        Some(128) => Err(Why::Velocity(Wrong::JustAbove)),
        Some(_) => Err(Why::Velocity(Wrong::High)),
        None => Err(Why::Velocity(wrong(digits))),
    }
}

/// What is wrong with a velocity that is no number up to 999,999.
fn wrong(text: &[u8]) -> Wrong {
    match text {
        [b'+' | b'-', digits @ ..] if decimal(digits).is_some() => Wrong::Signed,
        [digits @ .., b',' | b' '] if decimal(digits).is_some() => Wrong::Followed,
        [b'0', digits @ ..] if digits.iter().all(u8::is_ascii_digit) => Wrong::NeedlessZero,
        digits if digits.iter().all(u8::is_ascii_digit) => Wrong::High,
        _ => Wrong::Other,
    }
}

/// The first line (SPEC 10.2).
fn edition(card: &mut &[u8]) -> Result<Edition, End> {
    let line = line(card).map_err(|w| End(Place::Edition, w))?;
    EDITIONS.into_iter().find(|e| e.line() == line).ok_or(End(Place::Edition, Why::Broken))
}

/// The three lines after it: parameters, rule (SPEC 10.4) and number of ticks (SPEC 10.5).
fn head(card: &mut &[u8]) -> Result<([u32; 8], Rule, u32), End> {
    let broken = |place| End(place, Why::Broken);
    let k = line(card).map_err(|w| End(Place::Parameters, w))?;
    let k = parameters(k).ok_or(broken(Place::Parameters))?;
    let text = line(card).map_err(|w| End(Place::Rule, w))?;
    let text = text.strip_prefix(b"watch=").ok_or(broken(Place::Rule))?;
    let rule = read(text).map_err(|number| End(Place::Rule, Why::Refused(number)))?;
    let count = line(card).map_err(|w| End(Place::Count, w))?;
    let count = count.strip_prefix(b"ticks=").and_then(decimal).ok_or(broken(Place::Count))?;
    Ok((k, rule, count))
}

/// The ticks of a card, each with its verdict.
fn play(mut card: &[u8], printed: &mut Printed) -> Result<(), End> {
    let edition = edition(&mut card)?;
    printed.edition = Some(edition);
    let (k, rule, count) = head(&mut card)?;
    printed.names_velocity = !velocity_tests(&rule).is_empty();
    let mut trace = Vec::new();
    for e in 0..count as usize {
        let line = line(&mut card).map_err(|w| End(Place::Tick, w))?;
        trace.push(tick(line, edition).map_err(|w| End(Place::Tick, w))?);
        printed.verdicts.push(verdict(&rule, &trace, &k, e));
    }
    if card.is_empty() { Ok(()) } else { Err(End(Place::After, Why::More)) }
}

pub fn printed(card: &[u8]) -> Printed {
    let mut printed = Printed::default();
    printed.end = play(card, &mut printed).err();
    printed
}
