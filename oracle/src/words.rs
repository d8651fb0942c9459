//! A tree of serialize.rs as document 01's tree words. Arms, places and lets come in the order in
//! which serialize.rs gives them.

use crate::serialize::{Block, ControlFlow, EvalStep, MatchArm};

const EMPTY_PLACE: u32 = 65535;

pub fn tree_words(root: &Block) -> Vec<u32> {
    let mut words = Vec::new();
    put_block(root, &mut words);
    words
}

fn put_block(block: &Block, words: &mut Vec<u32>) {
    let start = words.len();
    words.push(0);
    words.push(block.steps.len() as u32);
    for step in &block.steps {
        put_step(step, words);
    }
    words[start] = (words.len() - start - 1) as u32;
}

fn put_step(step: &EvalStep, words: &mut Vec<u32>) {
    words.push(step.bind_order.len() as u32);
    words.extend(step.bind_order.iter().map(|site| site.index() as u32));
    match &step.check {
        ControlFlow::Match { source, arms } => {
            words.extend([0, source.index() as u32, arms.len() as u32]);
            arms.iter().for_each(|arm| put_arm(arm, words));
        }
        ControlFlow::Equal { a, b, body } => {
            words.extend([1, a.index() as u32, b.index() as u32]);
            put_block(body, words);
        }
        ControlFlow::Loop { .. } => unreachable!("no book has an iterator"),
        ControlFlow::Return { pos, result } => {
            words.extend([3, pos.rule, pos.pos, result.index() as u32]);
        }
    }
}

fn put_arm(arm: &MatchArm, words: &mut Vec<u32>) {
    let (kind, number, fields) = arm.constraint.parts();
    words.extend([kind.into(), fields.into(), number as u32]);
    let place = |site: &Option<_>| site.map_or(EMPTY_PLACE, index_word);
    words.extend(arm.bindings.iter().map(place));
    put_block(&arm.body, words);
}

fn index_word(site: crate::trie_again::BindingId) -> u32 {
    site.index() as u32
}
