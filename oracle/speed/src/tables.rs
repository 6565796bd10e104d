//! The figures as tables for the page.

use crate::figures::*;
use crate::sets::{COLLIDING, SIZES, families};
use crate::worst::GENERATORS;
use driver::tally::grouped;
use jobs::large::KINDS;
use std::fmt::Write;

pub fn all(figures: &Figures) -> String {
    let tables = [
        times(figures),
        counts(figures),
        growth(figures),
        stages(figures),
        loops(figures),
        colliding(figures),
        slowest(figures),
    ];
    tables.join("\n")
}

/// A table's title and head.
fn begun(title: &str, head: &str) -> String {
    let line: String = head.split('|').map(|_| "|---").collect();
    format!("{title}\n\n| {head} |\n{line}|\n")
}

/// Every family and size; the rows of the small jobs too, where there are such.
fn rows(figures: &Figures, measure: &str) -> Vec<(&'static str, String)> {
    let sizes = [SMALL.to_string()]
        .into_iter()
        .chain(SIZES.map(|n| n.to_string()));
    let of_family = |family| sizes.clone().map(move |size| (family, size));
    families()
        .flat_map(of_family)
        .filter(|(family, size)| figures.text(measure, family, size).is_some())
        .collect()
}

fn times(figures: &Figures) -> String {
    let mut table = begun(
        "Time",
        "Family | Constants | Job bytes | Ours, µs | Rust, µs | Ratio | Ratio of the least | Clearing, µs \
         | Ratio without clearing | Ratio with memory allocated",
    );
    for (family, size) in rows(figures, OURS) {
        let number = |measure| figures.number(measure, family, &size);
        let (ours, rust, clearing) = (number(OURS), number(RUST), number(CLEARING));
        let allocated = figures.text(BUILD, family, &size);
        let allocated = allocated.map_or("".into(), |_| format!("{:.2}", number(BUILD) / rust));
        writeln!(
            table,
            "| {family} | {size} | {} | {} | {} | {:.3} | {:.3} | {:.1} | {:.3} | {allocated} |",
            grouped(number(BYTES)),
            grouped(ours / 1e3),
            grouped(rust / 1e3),
            ours / rust,
            number(OURS_LEAST) / number(RUST_LEAST),
            clearing / 1e3,
            (ours - clearing) / rust,
        )
        .unwrap();
    }
    table
}

fn counts(figures: &Figures) -> String {
    let mut table = begun(
        "Instructions",
        "Family | Constants | Ours | Rust | Ratio | Clearing | Ratio without clearing",
    );
    for (family, size) in rows(figures, OURS_COUNT) {
        let number = |measure| figures.number(measure, family, &size);
        let (ours, rust) = (number(OURS_COUNT), number(RUST_COUNT));
        let clearing = number(CLEARING_COUNT);
        writeln!(
            table,
            "| {family} | {size} | {} | {} | {:.3} | {} | {:.3} |",
            grouped(ours),
            grouped(rust),
            ours / rust,
            grouped(clearing),
            (ours - clearing) / rust,
        )
        .unwrap();
    }
    table
}

/// How many times as much 60,000 constants take as 10,000.
fn growth(figures: &Figures) -> String {
    let mut table = begun(
        "Growth",
        "Family | Job bytes | Ours, instructions | Ours, least time | Rust, instructions | Rust, least time",
    );
    for (family, _) in KINDS {
        let grown = |measure| {
            figures.number(measure, family, "60000") / figures.number(measure, family, "10000")
        };
        writeln!(
            table,
            "| {family} | {:.2} | {:.2} | {:.2} | {:.2} | {:.2} |",
            grown(BYTES),
            grown(OURS_COUNT),
            grown(OURS_LEAST),
            grown(RUST_COUNT),
            grown(RUST_LEAST)
        )
        .unwrap();
    }
    table
}

/// Instructions of the stages for each constant, as differences of runs that are refused on the way.
fn stages(figures: &Figures) -> String {
    let mut table = begun(
        "Instructions of a constant, by stages, at 10,000 constants",
        "Family | Form pass | Definitions, record 50 | Requests, building, lengths | Writing | Clearing",
    );
    for (family, _) in KINDS {
        let counts = [
            CLEARING_COUNT,
            FORMED_COUNT,
            DEFINED_COUNT,
            LAID_OUT_COUNT,
            OURS_COUNT,
        ];
        let number = |measure| figures.number(measure, family, "10000");
        let parts = parts(counts.map(number));
        let columns = parts.map(|part| grouped(part / 10_000.0)).join(" | ");
        writeln!(table, "| {family} | {columns} |").unwrap();
    }
    table
}

/// The differences of runs that go further and further; all of them clear, which comes last.
fn parts([clearing, formed, defined, laid_out, whole]: [f64; 5]) -> [f64; 5] {
    [
        formed - clearing,
        defined - formed,
        laid_out - defined,
        whole - laid_out,
        clearing,
    ]
}

/// The form pass and the block file against plain loops.
fn loops(figures: &Figures) -> String {
    let mut table = begun(
        "Nanoseconds of a byte",
        "What | Bytes | Ours | A plain sum of the bytes | Ratio",
    );
    for (family, _) in KINDS {
        let number = |measure| figures.number(measure, family, "60000");
        loop_row(
            &mut table,
            &format!("form pass, {family}"),
            number(BYTES),
            number(FORM),
            number(SUM),
        );
    }
    let number = |measure| figures.number(measure, "blocks", "1048576");
    for (name, measure) in [
        ("blocks written", "write_ns"),
        ("blocks read", "read_ns"),
        ("(checks alone, a plain loop)", "weighted_ns"),
    ] {
        loop_row(&mut table, name, 1_048_576.0, number(measure), number(SUM));
    }
    table
}

fn loop_row(table: &mut String, name: &str, bytes: f64, ours: f64, sum: f64) {
    writeln!(
        table,
        "| {name} | {} | {:.2} | {:.2} | {:.1} |",
        grouped(bytes),
        ours / bytes,
        sum / bytes,
        ours / sum
    )
    .unwrap();
}

fn colliding(figures: &Figures) -> String {
    let mut table = begun(
        "Jobs made to collide",
        "Longs | Ours, µs | Rust, µs | Ratio",
    );
    for size in COLLIDING.map(|n| n.to_string()) {
        let number = |measure| figures.number(measure, "colliding", &size);
        let (ours, rust) = (number(OURS), number(RUST));
        writeln!(
            table,
            "| {size} | {} | {} | {:.1} |",
            grouped(ours / 1e3),
            grouped(rust / 1e3),
            ours / rust
        )
        .unwrap();
    }
    table
}

/// The jobs of the generators, job by job.
fn slowest(figures: &Figures) -> String {
    let mut table = begun(
        "Slowest jobs",
        "Jobs | End | How many | Middle ratio | Above 0.2 | Above 1 | Highest ratio | Ours, ns | Rust, ns | The slowest | Job",
    );
    for family in GENERATORS.into_iter().chain(["heavy"]) {
        for end in ["built", "refused"] {
            let text = |measure| figures.text(measure, family, end).unwrap_or("-");
            let columns = [
                "jobs",
                "middle_ratio",
                "above_0.2",
                "above_1",
                "slowest_ratio",
                "slowest_ours_ns",
                "slowest_rust_ns",
                "slowest_names",
                "slowest_job",
            ];
            let columns = columns.map(text).join(" | ");
            writeln!(table, "| {family} | {end} | {columns} |").unwrap();
        }
    }
    table
}

#[cfg(test)]
mod tests {
    use super::*;

    #[test]
    fn stages_are_differences_and_come_to_the_whole() {
        let parts = parts([1.0, 3.0, 6.0, 10.0, 15.0]);
        assert_eq!(parts, [2.0, 3.0, 4.0, 5.0, 1.0]);
    }
}
