//! The figures file: a line `measure,family,size,value` each.

use std::fs;
use std::io;

/// Measures that are taken of each family and size.
pub const BYTES: &str = "job_bytes";
pub const OURS: &str = "ours_ns";
pub const RUST: &str = "rust_ns";
pub const OURS_LEAST: &str = "ours_least_ns";
pub const RUST_LEAST: &str = "rust_least_ns";
pub const BUILD: &str = "ours_with_allocation_ns";
pub const CLEARING: &str = "clearing_ns";
/// The form pass alone, and a plain sum over as many bytes.
pub const FORM: &str = "form_pass_ns";
pub const SUM: &str = "sum_ns";

pub const OURS_COUNT: &str = "ours_instructions";
pub const RUST_COUNT: &str = "rust_instructions";
pub const CLEARING_COUNT: &str = "clearing_instructions";
/// Runs that are refused by the form pass, when all is defined, and before anything is written; each with its clearing.
pub const FORMED_COUNT: &str = "to_form_instructions";
pub const DEFINED_COUNT: &str = "to_defined_instructions";
pub const LAID_OUT_COUNT: &str = "to_laid_out_instructions";

/// The size of the small jobs, as the file names it.
pub const SMALL: &str = "20-200";

pub struct Figure {
    pub measure: String,
    pub family: String,
    pub size: String,
    pub value: String,
}

#[derive(Default)]
pub struct Figures(Vec<Figure>);

impl Figures {
    /// Puts a figure in the place of an older one.
    pub fn put(&mut self, measure: &str, family: &str, size: &str, value: String) {
        self.0
            .retain(|f| (&*f.measure, &*f.family, &*f.size) != (measure, family, size));
        self.0.push(Figure {
            measure: measure.into(),
            family: family.into(),
            size: size.into(),
            value,
        });
    }

    pub fn put_number(&mut self, measure: &str, family: &str, size: &str, value: f64) {
        self.put(measure, family, size, format!("{value:.0}"));
    }

    pub fn text(&self, measure: &str, family: &str, size: &str) -> Option<&str> {
        let named = |f: &&Figure| (&*f.measure, &*f.family, &*f.size) == (measure, family, size);
        self.0.iter().find(named).map(|f| &*f.value)
    }

    pub fn number(&self, measure: &str, family: &str, size: &str) -> f64 {
        let missing = || panic!("no figure {measure},{family},{size}");
        let text = self.text(measure, family, size).unwrap_or_else(missing);
        text.parse().expect("a figure is a number")
    }

    pub fn read(file: &str) -> io::Result<Figures> {
        let mut figures = Figures::default();
        for line in fs::read_to_string(file)?.lines() {
            let [measure, family, size, value] = line.split(',').collect::<Vec<_>>()[..] else {
                return Err(io::Error::other(format!("not a figure: {line}")));
            };
            figures.put(measure, family, size, value.into());
        }
        Ok(figures)
    }

    pub fn write(&self, file: &str) -> io::Result<()> {
        let line = |f: &Figure| format!("{},{},{},{}\n", f.measure, f.family, f.size, f.value);
        fs::write(file, self.0.iter().map(line).collect::<String>())
    }
}
