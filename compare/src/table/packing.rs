//! Packing a table (SPEC 8.8), from what a packed table is: equations that cannot be told apart (SPEC 16.2), found by
//! splitting blocks; those that the last two reach (SPEC 16.3); and their numbers in the packed table (SPEC 16.4).

use super::{equation, flaw, Flaw};
use crate::archive::Answer;
use std::collections::HashMap;

/// SPEC 5.3: which of A, B and C are flows in an equation of this kind.
pub fn flow_places(kind: u32) -> [bool; 3] {
    match kind {
        3 | 6 | 7 | 10 | 11 => [true, false, false],
        4 | 5 | 8 | 9 => [true, true, false],
        _ => [false; 3],
    }
}

/// Equation i with another name for each of its operands.
fn renamed(table: &[u32], i: usize, name: impl Fn(usize) -> usize) -> [u32; 4] {
    let mut numbers = equation(table, i);
    for (j, is_flow) in flow_places(numbers[0]).into_iter().enumerate() {
        if is_flow {
            numbers[j + 1] = name(numbers[j + 1] as usize) as u32;
        }
    }
    numbers
}

/// The operands of equation i, those of memories too.
fn operands(table: &[u32], i: usize) -> impl Iterator<Item = usize> {
    let [kind, numbers @ ..] = equation(table, i);
    flow_places(kind).into_iter().zip(numbers).filter(|(is_flow, _)| *is_flow).map(|(_, x)| x as usize)
}

/// SPEC 16.2: for each equation the first that cannot be told from it. All begin in one block. A block is split where
/// its equations differ in kind, in a number that is no flow, or in the block of an operand, until no block is.
pub fn merged(table: &[u32], n: usize) -> Vec<usize> {
    let mut block = vec![0; n];
    let mut count = 1;
    loop {
        let mut parts = HashMap::new();
        let split: Vec<usize> = (0..n)
            .map(|i| {
                let part = parts.len();
                *parts.entry((block[i], renamed(table, i, |x| block[x]))).or_insert(part)
            })
            .collect();
        if parts.len() == count {
            let mut first = HashMap::new();
            return (0..n).map(|i| *first.entry(block[i]).or_insert(i)).collect();
        }
        (block, count) = (split, parts.len());
    }
}

/// For each equation the first with the same kind and numbers, after the operands were renamed so, again and again. It
/// leaves two loops through memories that cannot be told apart as two, and so is not what packing does.
pub fn merged_by_numbers(table: &[u32], n: usize) -> Vec<usize> {
    let mut name: Vec<usize> = (0..n).collect();
    loop {
        let mut first = HashMap::new();
        let next = (0..n).map(|i| *first.entry(renamed(table, i, |x| name[x])).or_insert(i)).collect();
        if next == name {
            return name;
        }
        name = next;
    }
}

/// SPEC 16.3: which equations the last two reach, where an operand leads to its name.
pub fn reached(table: &[u32], n: usize, name: impl Fn(usize) -> usize) -> Vec<bool> {
    let mut reached = vec![false; n];
    let mut open = vec![n - 2, n - 1];
    while let Some(i) = open.pop() {
        if !std::mem::replace(&mut reached[i], true) {
            open.extend(operands(table, i).map(&name));
        }
    }
    reached
}

/// SPEC 16.4: the equations that are reached, in their order, each operand as the new number of its name.
pub fn packed(table: &[u32], n: usize, name: &[usize]) -> Vec<u32> {
    let kept = reached(table, n, |x| name[x]);
    let mut count = 0;
    let mut number = vec![0; n];
    for i in 0..n {
        number[i] = count;
        count += usize::from(kept[i]);
    }
    (0..n).filter(|i| kept[*i]).flat_map(|i| renamed(table, i, |x| number[name[x]])).collect()
}

/// All refusals of packing that apply, in the order of SPEC 8.8: of the table, then SPEC 7.9.
pub fn pack_refusals(table: &[u32], n: usize, second: &[u32]) -> Vec<u32> {
    let mut refusals: Vec<u32> = flaw(table, n).into_iter().map(Flaw::refusal).collect();
    if second.len() < 16384 {
        refusals.push(9);
    }
    refusals
}

/// SPEC 8.8: packs a table into a second one.
pub fn pack(table: &[u32], n: usize, second: &mut [u32]) -> Answer {
    if let Some(refusal) = pack_refusals(table, n, second).first() {
        return Answer::refused(*refusal);
    }
    let packed = packed(table, n, &merged(table, n));
    second[..packed.len()].copy_from_slice(&packed);
    Answer::given(packed.len() as u32 / 4)
}

/// What packing can do to a table.
#[derive(Clone, Copy, PartialEq, Eq, PartialOrd, Ord, Debug)]
pub enum Effect {
    /// Both tables are the same.
    Nothing,
    /// There are fewer equations, fewer memories.
    Shorter,
    FewerMemories,
    /// Two loops through memories become one, which renaming alone does not do.
    Loops,
    /// An equation is left out that no other is merged with and the last two do not reach.
    Unreached,
    /// The started flow, the verdict repeats an equation before the last two.
    StartedRepeats,
    VerdictRepeats,
    /// The last two are alike.
    Alike,
}

pub const EFFECTS: [Effect; 8] = [
    Effect::Nothing,
    Effect::Shorter,
    Effect::FewerMemories,
    Effect::Loops,
    Effect::Unreached,
    Effect::StartedRepeats,
    Effect::VerdictRepeats,
    Effect::Alike,
];

/// How many of the equations are memories (SPEC 5.7).
pub fn memories(table: &[u32]) -> usize {
    table.chunks_exact(4).filter(|e| matches!(e[0], 6 | 7)).count()
}

/// The effects of packing a table, with its equations merged so, to this one.
pub fn effects(table: &[u32], name: &[usize], packed: &[u32]) -> Vec<Effect> {
    let n = name.len();
    let kept = reached(table, n, |x| name[x]);
    let mut members = vec![0; n];
    name.iter().for_each(|i| members[*i] += 1);
    let equations: Vec<&[u32]> = packed.chunks_exact(4).collect();
    let [others @ .., started, verdict] = &equations[..] else { unreachable!("a table of one equation") };
    let seen = [
        (Effect::Nothing, packed == table),
        (Effect::Shorter, packed.len() < table.len()),
        (Effect::FewerMemories, memories(packed) < memories(table)),
        (Effect::Loops, packed.len() < self::packed(table, n, &merged_by_numbers(table, n)).len()),
        (Effect::Unreached, (0..n).any(|i| !kept[i] && members[i] == 1)),
        (Effect::StartedRepeats, others.contains(started)),
        (Effect::VerdictRepeats, others.contains(verdict)),
        (Effect::Alike, started == verdict),
    ];
    seen.into_iter().filter(|s| s.1).map(|s| s.0).collect()
}
