//! The crates in layers: each one layer above the highest that it uses.

use crate::crate_list::CrateList;
use std::collections::BTreeSet;

/// A crate, the crates of the repository that it uses besides those that they use, and what it uses
/// of the kit.
pub struct Layered {
    pub name: String,
    pub over: Vec<String>,
    pub kit: Vec<String>,
}

/// The layers from the lowest to the highest, each in the order of the list.
pub fn layers(list: &CrateList) -> Vec<Vec<Layered>> {
    let mut layers: Vec<Vec<Layered>> = Vec::new();
    for name in &list.names {
        let level = level(list, name);
        while layers.len() <= level {
            layers.push(Vec::new());
        }
        let (own, kit): (Vec<String>, _) =
            list.uses[name].iter().cloned().partition(|n| list.has(n));
        layers[level].push(Layered {
            name: name.clone(),
            over: reduced(list, &own),
            kit,
        });
    }
    layers
}

fn level(list: &CrateList, name: &str) -> usize {
    let used = list.uses[name].iter().filter(|n| list.has(n));
    used.map(|n| level(list, n) + 1).max().unwrap_or(0)
}

/// The crates but for those that another of them uses, itself or through others.
fn reduced(list: &CrateList, used: &[String]) -> Vec<String> {
    let mut below = BTreeSet::new();
    for name in used {
        add_below(list, name, &mut below);
    }
    let kept = used.iter().filter(|name| !below.contains(*name));
    kept.cloned().collect()
}

/// Adds all that the crate uses, itself or through others.
fn add_below(list: &CrateList, name: &str, below: &mut BTreeSet<String>) {
    for used in list.uses[name].iter().filter(|n| list.has(n)) {
        if below.insert(used.clone()) {
            add_below(list, used, below);
        }
    }
}
