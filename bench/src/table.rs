//! The Markdown tables.

use crate::timing::{Chain, Pair, Row, Time};
use against::engine;
use std::fmt::Write;

pub fn markdown(rows: &[Row]) -> String {
    whole_runs(rows) + &stages(rows) + &growth(rows) + &chains(rows)
}

/// Adds a row. Writing to a string cannot fail.
fn add(text: &mut String, row: &Row, cells: &[String]) {
    let cells = cells.join(" | ");
    let _ = writeln!(
        text,
        "| {} | {} | {} | {cells} |",
        row.kind, row.nodes, row.listed
    );
}

fn whole_runs(rows: &[Row]) -> String {
    let mut text = format!(
        "Microseconds of the {name} (first) and the fast sibling (second), medians with half the way\n\
         between the quartiles, and the ratio of the medians. Both run in turn in one process; the\n\
         buffers are cleared before each run, outside the time taken; the journals of the two were\n\
         equal byte for byte in every run.\n\n\
         | file | nodes | L | from empty | | ratio | from finished | | ratio | n = 1 | | ratio |\n\
         |---|--:|--:|--:|--:|--:|--:|--:|--:|--:|--:|--:|\n",
        name = engine::NAME
    );
    for row in rows {
        let timed = [row.from_empty, row.resumed, row.one_record];
        add(&mut text, row, &timed.map(pair));
    }
    text
}

fn stages(rows: &[Row]) -> String {
    let mut text = String::from(
        "\nThe stages: reading, listing and the rest, from empty and from a finished journal.\n\n\
         | file | nodes | L | reading | | ratio | listing | | ratio | rest | | ratio | rest from finished | | ratio |\n\
         |---|--:|--:|--:|--:|--:|--:|--:|--:|--:|--:|--:|--:|--:|--:|\n",
    );
    for row in rows {
        let timed = [row.reading, row.listing, row.rest, row.rest_resumed];
        add(&mut text, row, &timed.map(pair));
    }
    text
}

fn time(time: Time) -> String {
    format!("{:.1} ±{:.1}", time.median, time.spread)
}

fn pair(pair: Pair) -> String {
    format!(
        "{} | {} | {:.2}",
        time(pair.under_test),
        time(pair.fast),
        pair.ratio()
    )
}

/// How the stages grow from a kind's middle file to its largest.
fn growth(rows: &[Row]) -> String {
    let mut text = String::from(
        "\nThe largest file of a kind against the third, which has about a quarter of its nodes: how\n\
         many times L and the time of each stage are as large.\n\n\
         | file | nodes | L | L grows | reading | | listing | | rest | | rest from finished | |\n\
         |---|--:|--:|--:|--:|--:|--:|--:|--:|--:|--:|--:|\n",
    );
    for kind in rows.chunk_by(|row, next| row.kind == next.kind) {
        let [_, _, third, _, largest] = kind else {
            panic!("five files of a kind");
        };
        let times = |of: fn(&Row) -> Pair| growths(of(third), of(largest));
        let listed = largest.listed as f64 / third.listed as f64;
        let cells = [
            format!("{listed:.2}"),
            times(|row| row.reading),
            times(|row| row.listing),
            times(|row| row.rest),
            times(|row| row.rest_resumed),
        ];
        add(&mut text, largest, &cells);
    }
    text
}

fn growths(small: Pair, large: Pair) -> String {
    format!(
        "{:.2} | {:.2}",
        large.under_test.median / small.under_test.median,
        large.fast.median / small.fast.median
    )
}

/// The chain of a query beside the run from the finished journal. Nothing, where the
/// engine under test gives no chains.
fn chains(rows: &[Row]) -> String {
    let timed: Vec<(&Row, Chain)> = rows
        .iter()
        .filter_map(|row| Some((row, row.chain?)))
        .collect();
    if timed.is_empty() {
        return String::new();
    }
    let mut text = String::from(
        "\nThe chain of a query: microseconds of the run from the finished journal and of the longest\n\
         chain from the same journal, the records of both, and the chain's share of the run's time: of\n\
         all, and of what is left when both have read and listed. Both take turns in one process and\n\
         on the same buffers. Kinds without a recorded query have no chain.\n\n\
         | file | nodes | L | from finished | chain | records of the journal | of the chain | share | of the rest |\n\
         |---|--:|--:|--:|--:|--:|--:|--:|--:|\n",
    );
    for (row, chain) in timed {
        let run = row.resumed.under_test;
        let listed = row.reading.under_test.median + row.listing.under_test.median;
        let rest = (chain.time.median - listed) / row.rest_resumed.under_test.median;
        let cells = [
            time(run),
            time(chain.time),
            chain.journal.to_string(),
            chain.records.to_string(),
            format!("{:.2}", chain.time.median / run.median),
            format!("{rest:.2}"),
        ];
        add(&mut text, row, &cells);
    }
    text
}
