//! Values outside the range of a field, most of them just outside.

use crate::days;
use crate::line::Line;
use crate::random::Random;
use crate::restructuring;
use crate::sovereign;
use crate::values::{AMOUNT_LIMIT, DAYS_LIMIT};

/// What a field holds, as far as its range goes.
#[derive(Clone, Copy)]
enum Sort {
    Amount,
    Class,
    Step,
    SovereignStep,
    Currency,
    Kind,
    Interval,
    Term,
    Type,
    Life,
    Condition,
    Edition,
}

use Sort::*;

const DEAL: &[Sort] = &[
    Amount,
    Class,
    Step,
    SovereignStep,
    Currency,
    Kind,
    Interval,
    Term,
    Type,
    Step,
    Life,
    Edition,
];
const COLLATERAL: &[Sort] = &[
    Amount, Type, Step, Life, Currency, Term, Term, Condition, Condition, Condition, Condition,
];
const GUARANTEE: &[Sort] = &[
    Amount,
    Class,
    Step,
    SovereignStep,
    Currency,
    Term,
    Term,
    Condition,
    Condition,
    Condition,
];

const SWAP: &[Sort] = &[
    Amount,
    Class,
    Step,
    SovereignStep,
    Currency,
    Term,
    Term,
    Condition,
    Condition,
    Condition,
    Condition,
];

/// Some of these are outside for some classes and types only: class 4 for
/// providers, a step of 1 (their own or their sovereign's) and a life of 1 where
/// 0 is due, a life of 0 elsewhere.
fn beside(sort: Sort) -> &'static [u64] {
    match sort {
        Amount => &[AMOUNT_LIMIT + 1, 9_999_999_999_999],
        Class => &[0, 4, 5, 6],
        Step | SovereignStep => &[1, 6, 7, 8],
        Currency => &[0, 1000, 1001],
        Kind => &[0, 4],
        Interval => &[0, 251],
        Term => &[0, DAYS_LIMIT + 1],
        Type => &[0, 1, 2, 10, 11],
        Life => &[0, 1, DAYS_LIMIT, DAYS_LIMIT + 1],
        Condition => &[2, 3, 10],
        Edition => &[0, 4, 5],
    }
}

/// The place of the residual term in collateral, in a guarantee and in a swap.
const RESIDUAL: usize = 5;

/// What a narrower width would cut off; each sum still has 13 digits at most.
/// Days may be accepted with 1 << 16 more, though not as what a cut leaves of
/// them; with 1 << 17 more they are above the limit.
const WIDTHS: &[u64] = &[1 << 8, 1 << 16, 1 << 17, 1 << 32, 1 << 40];

/// Puts a field of a line outside its range; now and then more than one, so
/// that the order of refusals counts.
pub fn put_outside(random: &mut Random, line: &mut Line) {
    for _ in 0..random.weighted(&[(6, 1), (2, 2), (1, 3), (1, 5)]) {
        put_one_outside(random, line);
    }
    // What is refused last, so that the others come before it.
    if line.letter == b'S' && random.percent(20) {
        restructuring::put_wrong(random, line);
    }
}

fn sorts(letter: u8) -> &'static [Sort] {
    match letter {
        b'D' => DEAL,
        b'C' => COLLATERAL,
        b'S' => SWAP,
        _ => GUARANTEE,
    }
}

/// The places of a line's fields that hold days of life or cover.
pub fn fields_of_days(letter: u8) -> impl Iterator<Item = usize> {
    let sorts = sorts(letter).iter().enumerate();
    sorts.filter_map(|(place, sort)| matches!(sort, Term | Life).then_some(place))
}

fn put_one_outside(random: &mut Random, line: &mut Line) {
    match random.below(20) {
        0 | 1 => return days::put(random, line, DAYS_LIMIT + 1),
        2..=6 if line.letter != b'C' => return sovereign::put_wrong(random, line),
        7..=9 if line.letter != b'D' => {
            // A residual term above the original one that follows it.
            line.fields[RESIDUAL] = line.fields[RESIDUAL + 1] + random.between(1, 2);
            return;
        }
        10..=14 if line.letter == b'S' => return restructuring::put_wrong(random, line),
        _ => (),
    }
    let sorts = sorts(line.letter);
    let place = random.index(sorts.len());
    let field = &mut line.fields[place];
    *field = match random.percent(75) {
        true => random.pick(beside(sorts[place])),
        false => (*field + random.pick(WIDTHS)).min(9_999_999_999_999),
    };
}
