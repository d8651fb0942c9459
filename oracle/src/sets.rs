//! Sequences of calls on `DisjointSets`.

use crate::disjointsets::DisjointSets;

/// Does calls such as `merge,1,2 find,2 same,1,3 remove,4` in order on an empty store. One answer
/// for each, then `store` and, for each set, its root's rank, its representative and its members.
pub fn answers(calls: &str) -> Result<String, String> {
    let mut sets = DisjointSets::default();
    let mut said = Vec::new();
    for call in calls.split_whitespace() {
        said.push(answer(&mut sets, call).ok_or(format!("no set call: {call}"))?);
    }
    said.push("store".into());
    said.extend(store(&sets));
    Ok(said.join(" "))
}

fn answer(sets: &mut DisjointSets<u16>, call: &str) -> Option<String> {
    let (name, ids) = call.split_once(',')?;
    let ids = ids
        .split(',')
        .map(|id| id.parse().ok())
        .collect::<Option<Vec<u16>>>()?;
    Some(match (name, ids.as_slice()) {
        ("merge", &[x, y]) => {
            sets.merge(x, y);
            "merged".into()
        }
        ("find", &[x]) => sets.find(x).map_or("none".into(), |root| root.to_string()),
        ("same", &[x, y]) => sets.in_same_set(x, y).to_string(),
        ("remove", &[x]) => format!("[{}]", listed(&sets.remove_set_of(x))),
        _ => return None,
    })
}

/// Each set that is left, in the order of its smallest member. Ranks are private to the original,
/// so they are read off its Debug form: `DisjointSets { parent: {1: (1, 2), 3: (1, 0)} }`.
fn store(sets: &DisjointSets<u16>) -> Vec<String> {
    let shown = format!("{sets:?}");
    let rank_of = |root: u16| {
        let entry = format!("{root}: ({root}, ");
        let starts = ["{", " "].map(|before| shown.find(&format!("{before}{entry}")));
        let start = starts
            .into_iter()
            .flatten()
            .next()
            .expect("a root stands in the store");
        let rest = &shown[start + 1 + entry.len()..];
        rest[..rest.find(')').expect("an entry ends")].to_string()
    };
    let mut left = sets.clone();
    let mut told = Vec::new();
    for id in 0..=u8::MAX.into() {
        if let Some(root) = left.find(id) {
            told.push(format!(
                "{}:{}:{}",
                rank_of(root),
                root,
                listed(&left.remove_set_of(id))
            ));
        }
    }
    told
}

fn listed(ids: &[u16]) -> String {
    ids.iter().map(u16::to_string).collect::<Vec<_>>().join(",")
}
