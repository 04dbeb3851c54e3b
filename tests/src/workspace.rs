//! Where the workspace and the compiled programs stand.

use std::env;
use std::path::{Path, PathBuf};

/// The folder of the whole workspace.
pub fn root() -> PathBuf {
    Path::new(env!("CARGO_MANIFEST_DIR")).join("..")
}

/// The compiled program `desk`, which is proved, or `brimusket`: where the
/// variable `BRIMUSKET_DESK` or `BRIMUSKET_BRIMUSKET` says, or where it is built.
pub fn program(name: &str) -> PathBuf {
    let (folder, build) = match name {
        "brimusket" => (
            "target/cargo/x86_64-unknown-linux-gnu/release",
            "bin/brimusket --version",
        ),
        _ => ("crates/desk/out", "rt ci"),
    };
    let built = Path::new(folder).join(name);
    let variable = format!("BRIMUSKET_{}", name.to_uppercase());
    let path = root().join(env::var_os(variable).unwrap_or(built.into()));
    let place = path.display();
    assert!(
        path.is_file(),
        "no program at {place}: build it with '{build}'"
    );
    path
}
