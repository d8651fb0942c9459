//! A walk over a tree of serialize.rs as it stands, without words in between.

use crate::serialize::{Block, ControlFlow, MatchArm};

/// What is known of each site.
pub struct Reading {
    pub kinds: Vec<u8>,
    pub numbers: Vec<i32>,
    pub identities: Vec<u32>,
}

/// Rule and result of the first Return that the reading leads to.
pub fn walk(block: &Block, reading: &Reading) -> Option<(u32, u32)> {
    block.steps.iter().find_map(|step| match &step.check {
        ControlFlow::Match { source, arms } => {
            let holding = arms.iter().find(|arm| holds(arm, source.index(), reading));
            holding.and_then(|arm| walk(&arm.body, reading))
        }
        ControlFlow::Equal { a, b, body } => {
            let equal = reading.identities[a.index()] == reading.identities[b.index()];
            equal.then(|| walk(body, reading)).flatten()
        }
        ControlFlow::Loop { .. } => unreachable!("no book has an iterator"),
        ControlFlow::Return { pos, result } => Some((pos.rule, result.index() as u32)),
    })
}

fn holds(arm: &MatchArm, site: usize, reading: &Reading) -> bool {
    let (kind, number, _) = arm.constraint.parts();
    (reading.kinds[site], reading.numbers[site]) == (kind, number)
}
