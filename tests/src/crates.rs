//! The proved crates as crates.txt has them, and the picture of them in README.md.

use crate::workspace::root;
use std::collections::{BTreeMap, BTreeSet};
use std::fs;

/// The crates under one comment line.
pub struct Group {
    pub title: String,
    pub crates: Vec<Crate>,
}

/// A crate, and what its line says that it builds on.
pub struct Crate {
    pub name: String,
    pub on: Vec<String>,
}

/// The groups of crates.txt, in its order.
pub fn groups() -> Vec<Group> {
    let text = fs::read_to_string(root().join("crates.txt")).expect("crates.txt");
    let mut groups: Vec<Group> = Vec::new();
    for line in text.lines() {
        if let Some(title) = line.strip_prefix("# ") {
            groups.push(Group {
                title: title.into(),
                crates: Vec::new(),
            });
        } else if let Some((name, on)) = line.split_once(':') {
            let group = groups.last_mut().expect("a comment line before it");
            group.crates.push(Crate {
                // The boundary for C is marked as a static library.
                name: name.strip_suffix(" staticlib").unwrap_or(name).into(),
                on: on.split_whitespace().map(String::from).collect(),
            });
        }
    }
    groups
}

/// The groups as a picture: a line for each title, and below it one for each crate,
/// with those it builds on beyond what these bring along, and what it is.
pub fn picture(groups: &[Group]) -> String {
    let brought = all_brought(groups);
    let crates = || groups.iter().flat_map(|group| &group.crates);
    let names = crates().map(|one| one.name.len()).max().unwrap_or(0);
    let beside = crates().map(|one| neighbours(one, &brought).len());
    let beside = beside.max().unwrap_or(0);
    let mut lines = Vec::new();
    for group in groups {
        lines.push(group.title.clone());
        for one in &group.crates {
            let (name, on) = (&one.name, neighbours(one, &brought));
            let what = description(name);
            lines.push(format!("  {name:names$}  {on:beside$}  {what}"));
        }
    }
    lines.join("\n")
}

/// All that each crate brings along: what it builds on, at first or second hand. A
/// crate stands below those it builds on.
fn all_brought(groups: &[Group]) -> BTreeMap<&str, BTreeSet<&str>> {
    let mut brought: BTreeMap<&str, BTreeSet<&str>> = BTreeMap::new();
    for one in groups.iter().flat_map(|group| &group.crates) {
        let mut all = BTreeSet::new();
        for name in &one.on {
            all.insert(name.as_str());
            all.extend(brought.get(name.as_str()).into_iter().flatten());
        }
        assert!(
            brought.values().all(|others| !others.contains(&*one.name)),
            "{} stands below a crate that builds on it",
            one.name
        );
        brought.insert(&one.name, all);
    }
    brought
}

/// What a crate builds on that none of the others it builds on brings along.
fn neighbours(one: &Crate, brought: &BTreeMap<&str, BTreeSet<&str>>) -> String {
    let brings = |other: &String, name: &String| {
        let all = brought.get(other.as_str());
        all.is_some_and(|all| all.contains(name.as_str()))
    };
    let names = one.on.iter();
    let names = names.filter(|name| !one.on.iter().any(|other| brings(other, name)));
    names.cloned().collect::<Vec<String>>().join(" ")
}

/// What a crate is: the first comment of its source, up to a comma, colon or full stop.
fn description(name: &str) -> String {
    let folder = root().join("crates").join(name).join("src");
    let sources = ["lib.rt", "main.rt"].map(|file| fs::read_to_string(folder.join(file)));
    let source = sources.into_iter().find_map(Result::ok).expect("a source");
    let lines = source.lines().map_while(|line| line.strip_prefix("// "));
    let comment = lines.collect::<Vec<&str>>().join(" ");
    assert!(!comment.is_empty(), "{name} does not begin with a comment");
    let first = comment.split([',', ':', '.']).next();
    first.unwrap_or_default().into()
}
