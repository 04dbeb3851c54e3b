//! `bench TABLE PICTURE` times the engine under test and the fast sibling side
//! by side on files of growing size, checks that they leave the same journals,
//! and writes a Markdown table and an SVG picture to the two paths. The table
//! is printed as well.

mod picture;
mod table;
mod timing;

use against::kinds::{Kind, KINDS, MOST_NODES};
use std::env;
use std::fs;
use std::process::ExitCode;
use timing::Row;

fn main() -> ExitCode {
    let arguments: Vec<String> = env::args().skip(1).collect();
    let [table_path, picture_path] = arguments.as_slice() else {
        eprintln!("usage: bench TABLE PICTURE");
        return ExitCode::from(2);
    };
    let rows = all_rows();
    let table = table::markdown(&rows);
    print!("{table}");
    let written =
        fs::write(table_path, &table).and_then(|()| fs::write(picture_path, picture::svg(&rows)));
    match written {
        Ok(()) => ExitCode::SUCCESS,
        Err(error) => {
            eprintln!("{error}");
            ExitCode::FAILURE
        }
    }
}

fn all_rows() -> Vec<Row> {
    let rows_of = |kind: Kind| {
        let files = MOST_NODES.map(|most| (kind.make)(most - timing::DEEP_NODES));
        timing::rows(kind.name, files.into_iter())
    };
    KINDS.into_iter().flat_map(rows_of).collect()
}
