//! The tables of crates/definition whose rows the checker computes, held to the driver: each row is a job in hex and the text
//! that the program prints for it (document 01, "The block file and the program").

mod common;

use common::bytes;
use driver::{Outcome, run_job};
use jobs::hex::hex;
use std::fs;
use std::path::Path;

/// A row's job in hex, and its text.
type Row = (String, String);

#[test]
fn the_second_table_has_the_drivers_texts() {
    let rows = rows("SecondTable.antt");
    assert_eq!(rows.len(), 42);
    hold(&rows);
}

/// One more row of this table is a whole block file.
#[test]
fn the_starred_table_has_the_drivers_texts() {
    let rows = rows("Starred.antt");
    assert_eq!(rows.len(), 16);
    hold(&rows);
}

/// The first are the decided points of document 02, No. 6, the last those of No. 3; the Rust doesn't know the records of the others.
#[test]
fn the_readings_of_marks_and_expressions_have_the_drivers_texts() {
    let rows = rows("Readings.antt");
    assert_eq!(rows.len(), 80);
    hold(&rows[..6]);
    hold(&rows[53..]);
}

fn hold(rows: &[Row]) {
    for (job, text) in rows {
        let outcome = run_job(&bytes(job));
        assert_eq!(*text, printed(&outcome), "{job}");
    }
}

/// The rows of a table: its lines of the form `job "HEX" "TEXT"`, behind `∷` but for the first.
fn rows(file: &str) -> Vec<Row> {
    let specs = Path::new(env!("CARGO_MANIFEST_DIR")).join("../../crates/definition/specs");
    let text = fs::read_to_string(specs.join(file)).expect("the table can be read");
    let lines = text
        .lines()
        .map(|line| line.trim().trim_start_matches("∷ "));
    lines
        .filter_map(|line| line.strip_prefix("job \"").map(row))
        .collect()
}

/// A row behind `job "`.
fn row(line: &str) -> Row {
    let parts: Vec<&str> = line.split('"').collect();
    let [job, " ", text, ""] = parts[..] else {
        panic!("not a row: {line}");
    };
    (job.into(), text.replace("\\n", "\n"))
}

/// What the program prints for an outcome: the driver's line, with each part on a line of its own.
fn printed(outcome: &Outcome) -> String {
    let Outcome::Built(b) = outcome else {
        return format!("{}\n", outcome.line());
    };
    let answers: String = b
        .answers
        .iter()
        .zip(&b.marks)
        .map(|(slot, mark)| format!("{slot} {}\n", mark.name()))
        .collect();
    let class = b.class_name.as_ref().map_or("none\n".into(), |name| {
        format!("{}\n{}\n", name.len(), hex(name))
    });
    format!(
        "answers {}\n{answers}pool {}\n{}\nbootstraps {} {}\n{}\nname {}\nclass {class}visits {}\n",
        b.answers.len(),
        b.pool.len(),
        hex(&b.pool),
        b.bootstrap_count,
        b.bootstraps.len(),
        hex(&b.bootstraps),
        b.name_slot,
        b.visits,
    )
}
