//! Stands in for cranelift-isle's `trie_again`: sites, patterns and rules under the names that
//! serialize.rs knows them by, filled from a book. Hash maps stand where the original has them;
//! with the feature `short-lists`, short lists do.

use crate::disjointsets::DisjointSets;
use crate::lexer::Pos;
use std::cmp::Ordering;
#[cfg(not(feature = "short-lists"))]
use std::collections::HashMap;
use std::collections::HashSet;

/// A position in a pattern.
#[derive(Clone, Copy, Debug, Eq, Hash, Ord, PartialEq, PartialOrd)]
pub struct TupleIndex(pub u8);

/// The id of a site.
#[derive(Clone, Copy, Debug, Default, Eq, Hash, Ord, PartialEq, PartialOrd)]
pub struct BindingId(u16);

impl From<u16> for BindingId {
    fn from(id: u16) -> Self {
        BindingId(id)
    }
}

impl BindingId {
    pub fn index(self) -> usize {
        self.0.into()
    }
}

/// A site. What a ConstInt's value or a constructor's name is, a book does not say.
#[derive(Clone, Debug, Eq, Hash, PartialEq)]
#[allow(dead_code)] // serialize.rs names iterators and structs, which no book has
pub enum Binding {
    Argument {},
    ConstInt {},
    ConstPrim {},
    MatchTuple {
        source: BindingId,
    },
    MakeVariant {
        fields: Box<[BindingId]>,
    },
    MakeStruct {
        fields: Box<[BindingId]>,
    },
    Constructor {
        parameters: Box<[BindingId]>,
    },
    MatchVariant {
        source: BindingId,
        variant: i32,
        field: TupleIndex,
    },
    MatchSome {
        source: BindingId,
    },
    ExtractStruct {
        source: BindingId,
    },
    Iterator {
        source: BindingId,
    },
}

impl Binding {
    pub fn sources(&self) -> &[BindingId] {
        match self {
            Binding::Argument {} | Binding::ConstInt {} | Binding::ConstPrim {} => &[],
            Binding::MakeVariant { fields } | Binding::MakeStruct { fields } => fields,
            Binding::Constructor { parameters } => parameters,
            Binding::MatchTuple { source }
            | Binding::MatchVariant { source, .. }
            | Binding::MatchSome { source }
            | Binding::ExtractStruct { source }
            | Binding::Iterator { source } => std::slice::from_ref(source),
        }
    }
}

/// A pattern. Its order is document 01's (kind, signed number, field count), not the original's.
#[derive(Clone, Copy, Debug, Eq, Hash, PartialEq)]
pub enum Constraint {
    ConstInt { val: i32 },
    ConstPrim { val: i32 },
    Variant { variant: i32, fields: TupleIndex },
    Some,
}

impl Constraint {
    /// Pattern kind, signed number and field count, as a rule record has them.
    pub fn parts(self) -> (u8, i32, u8) {
        match self {
            Constraint::ConstInt { val } => (0, val, 0),
            Constraint::ConstPrim { val } => (1, val, 0),
            Constraint::Variant { variant, fields } => (2, variant, fields.0),
            Constraint::Some => (3, 0, 1),
        }
    }

    /// The kind 7 site for each position of the pattern.
    pub fn bindings_for(self, source: BindingId) -> Vec<Binding> {
        match self {
            Constraint::ConstInt { .. } | Constraint::ConstPrim { .. } => vec![],
            Constraint::Some => vec![Binding::MatchSome { source }],
            Constraint::Variant { variant, fields } => (0..fields.0)
                .map(TupleIndex)
                .map(|field| Binding::MatchVariant {
                    source,
                    variant,
                    field,
                })
                .collect(),
        }
    }
}

impl Ord for Constraint {
    fn cmp(&self, other: &Self) -> Ordering {
        self.parts().cmp(&other.parts())
    }
}

impl PartialOrd for Constraint {
    fn partial_cmp(&self, other: &Self) -> Option<Ordering> {
        Some(self.cmp(other))
    }
}

#[cfg(not(feature = "short-lists"))]
type Constraints = HashMap<BindingId, Constraint>;
#[cfg(feature = "short-lists")]
type Constraints = Vec<(BindingId, Constraint)>;

#[derive(Debug, Default)]
pub struct Rule {
    pub pos: Pos,
    constraints: Constraints,
    pub equals: DisjointSets<BindingId>,
    pub iterators: HashSet<BindingId>,
    pub prio: i64,
    pub impure: Vec<BindingId>,
    pub result: BindingId,
}

#[cfg(not(feature = "short-lists"))]
impl Rule {
    pub fn get_constraint(&self, source: BindingId) -> Option<Constraint> {
        self.constraints.get(&source).copied()
    }

    pub fn set_constraint(&mut self, source: BindingId, constraint: Constraint) {
        self.constraints.insert(source, constraint);
    }
}

#[cfg(feature = "short-lists")]
impl Rule {
    pub fn get_constraint(&self, source: BindingId) -> Option<Constraint> {
        self.constraints
            .iter()
            .find(|entry| entry.0 == source)
            .map(|entry| entry.1)
    }

    pub fn set_constraint(&mut self, source: BindingId, constraint: Constraint) {
        self.constraints.push((source, constraint));
    }
}

#[derive(Debug, Default)]
pub struct RuleSet {
    pub rules: Vec<Rule>,
    pub bindings: Vec<Binding>,
    #[cfg(not(feature = "short-lists"))]
    binding_map: HashMap<Binding, BindingId>,
    /// For each site, the kind 7 sites that a pattern on it binds.
    #[cfg(feature = "short-lists")]
    bound_by: Vec<Vec<BindingId>>,
}

#[cfg(not(feature = "short-lists"))]
impl RuleSet {
    pub fn find_binding(&self, binding: &Binding) -> Option<BindingId> {
        self.binding_map.get(binding).copied()
    }

    /// Gives the next site its id. As in the original only sites that patterns bind are looked up,
    /// so others may be alike.
    pub fn add_binding(&mut self, id: BindingId, binding: Binding) {
        self.bindings.push(binding.clone());
        self.binding_map.insert(binding, id);
    }
}

#[cfg(feature = "short-lists")]
impl RuleSet {
    pub fn find_binding(&self, binding: &Binding) -> Option<BindingId> {
        let bound = &self.bound_by[binding.sources()[0].index()];
        bound
            .iter()
            .copied()
            .find(|id| self.bindings[id.index()] == *binding)
    }

    pub fn add_binding(&mut self, id: BindingId, binding: Binding) {
        if matches!(
            binding,
            Binding::MatchVariant { .. } | Binding::MatchSome { .. }
        ) {
            self.bound_by[binding.sources()[0].index()].push(id);
        }
        self.bindings.push(binding);
        self.bound_by.push(Vec::new());
    }
}
