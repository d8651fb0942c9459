//! A book's bytes as a `RuleSet`. Nothing is refused here: the Rust has no refusals, and we want to
//! see what it does with books that document 01 refuses by 6, 7 or 8.

use crate::lexer::Pos;
use crate::trie_again::{Binding, BindingId, Constraint, Rule, RuleSet, TupleIndex};

const BLOCK_BYTES: usize = 512;
const SITE_BYTES: usize = 12;
const RULE_BYTES: usize = 72;

/// The sites and rules of a book, or why it cannot be read at all.
pub fn rule_set(book: &[u8]) -> Result<RuleSet, String> {
    if book.is_empty() || !book.len().is_multiple_of(BLOCK_BYTES) {
        return Err("no whole blocks".into());
    }
    let mut rules = RuleSet::default();
    for block in book.chunks(BLOCK_BYTES) {
        let count = usize::from(block[3]);
        match block[2] {
            2 => {
                for record in block[4..508].chunks(SITE_BYTES).take(count) {
                    let id = site_id(rules.bindings.len() as u16);
                    rules.add_binding(id, binding(record)?);
                }
            }
            3 => {
                for record in block[4..508].chunks(RULE_BYTES).take(count) {
                    let index = rules.rules.len() as u32;
                    rules.rules.push(rule(record, index)?);
                }
            }
            _ => {}
        }
    }
    Ok(rules)
}

fn binding(record: &[u8]) -> Result<Binding, String> {
    let source = site_id(half(record, 2));
    let sources = || ids(record, 2, record[1]);
    Ok(match record[0] {
        0 => Binding::Argument {},
        1 => Binding::ConstInt {},
        2 => Binding::ConstPrim {},
        3 => Binding::MatchTuple { source },
        4 => Binding::MakeVariant { fields: sources() },
        5 => Binding::MakeStruct { fields: sources() },
        6 => Binding::Constructor {
            parameters: sources(),
        },
        7 if record[4] == 3 => Binding::MatchSome { source },
        7 => Binding::MatchVariant {
            source,
            variant: number(record, 6),
            field: TupleIndex(record[5]),
        },
        kind => return Err(format!("no site kind {kind}")),
    })
}

fn rule(record: &[u8], index: u32) -> Result<Rule, String> {
    let mut rule = Rule::default();
    rule.prio = number(record, 0).into();
    rule.pos = Pos {
        rule: index,
        pos: number(record, 4) as u32,
    };
    rule.result = site_id(half(record, 8));
    rule.impure = ids(record, 62, record[12]).into_vec();
    for at in (14..46).step_by(8).take(record[10].into()) {
        rule.set_constraint(site_id(half(record, at)), pattern(&record[at + 2..])?);
    }
    for at in (46..62).step_by(4).take(record[11].into()) {
        rule.equals
            .merge(site_id(half(record, at)), site_id(half(record, at + 2)));
    }
    Ok(rule)
}

fn pattern(bytes: &[u8]) -> Result<Constraint, String> {
    let val = number(bytes, 2);
    Ok(match bytes[0] {
        0 => Constraint::ConstInt { val },
        1 => Constraint::ConstPrim { val },
        2 => Constraint::Variant {
            variant: val,
            fields: TupleIndex(bytes[1]),
        },
        3 => Constraint::Some,
        kind => return Err(format!("no pattern kind {kind}")),
    })
}

fn ids(record: &[u8], start: usize, count: u8) -> Box<[BindingId]> {
    (0..usize::from(count))
        .map(|k| site_id(half(record, start + 2 * k)))
        .collect()
}

fn site_id(id: u16) -> BindingId {
    BindingId::from(id)
}

fn half(bytes: &[u8], at: usize) -> u16 {
    u16::from_le_bytes([bytes[at], bytes[at + 1]])
}

fn number(bytes: &[u8], at: usize) -> i32 {
    i32::from_le_bytes([bytes[at], bytes[at + 1], bytes[at + 2], bytes[at + 3]])
}
