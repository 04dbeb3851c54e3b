//! What README.md says of the crates, against crates.txt and the folders there are.

use against::crates::{groups, picture, Group};
use against::workspace::root;
use std::fs;

fn readme() -> String {
    fs::read_to_string(root().join("README.md")).expect("README.md")
}

/// The picture that a document shows: the block that opens with this fence.
fn shown(document: &str) -> Option<&str> {
    let (_, rest) = document.split_once("\n```crates\n")?;
    let (block, _) = rest.split_once("\n```\n")?;
    Some(block)
}

/// The crates in the first cells of a document's tables, by rows.
fn rows(document: &str) -> Vec<Vec<&str>> {
    let cells = document.lines().filter_map(|line| {
        let row = line.strip_prefix("| `crates/")?;
        row.split("` |").next()
    });
    cells
        .map(|cell| cell.split("`, `crates/").collect())
        .collect()
}

/// The names of the crates, by groups.
fn names(groups: &[Group]) -> Vec<Vec<&str>> {
    let crates = groups.iter().map(|group| group.crates.iter());
    crates
        .map(|crates| crates.map(|one| one.name.as_str()).collect())
        .collect()
}

#[test]
fn the_picture_is_drawn_from_crates_txt() {
    let drawn = picture(&groups());
    assert!(
        shown(&readme()) == Some(&drawn),
        "the block of README.md that opens with ```crates should be\n\n{drawn}\n"
    );
}

#[test]
fn the_table_of_folders_has_the_groups_of_crates_txt() {
    assert_eq!(rows(&readme()), names(&groups()));
}

#[test]
fn the_folders_are_the_crates_of_crates_txt() {
    let folders = fs::read_dir(root().join("crates")).expect("the crates");
    let found = folders.map(|folder| folder.expect("a folder").file_name());
    let mut found: Vec<String> = found.filter_map(|name| name.into_string().ok()).collect();
    found.sort();
    let groups = groups();
    let mut named = names(&groups).concat();
    named.sort();
    assert_eq!(found, named);
}
