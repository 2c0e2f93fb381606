//! The one number that provers get: ((answer × 8192 + place + 1) × 8192 + nodes) × 8192 + links. Of two texts the line at fault
//! stands above it: 2 × line, and 1 more in the second text, times 2^44.

use crate::program::{Fault, Judgement};
use crate::Verdict;

const STEP: i64 = 8192;

/// The number for a verdict. Exact for every verdict that the two checks give; wraps beyond 64 bits
/// for counts that they never give.
pub fn pack(verdict: Verdict) -> i64 {
    (i64::from(verdict.answer) * STEP + i64::from(verdict.place) + 1)
        .wrapping_mul(STEP)
        .wrapping_add(verdict.nodes as i64)
        .wrapping_mul(STEP)
        .wrapping_add(verdict.links as i64)
}

/// The number for what is said of two texts.
pub fn pack_texts(judgement: Judgement) -> i64 {
    let Fault { second, line } = judgement.fault;
    (2 * line as i64 + i64::from(second)) * (1 << 44) + pack(judgement.verdict)
}

/// The verdict that a number stands for, if the number is one that `pack` gives for a verdict with
/// place + 1, nodes and links below 8192.
pub fn unpack(number: i64) -> Option<Verdict> {
    let digit = |power: u32| number / STEP.pow(power) % STEP;
    let answer = u8::try_from(number / STEP.pow(3)).ok()?;
    (number >= 0).then_some(Verdict {
        answer,
        place: digit(2) as i32 - 1,
        nodes: digit(1) as usize,
        links: digit(0) as usize,
    })
}
