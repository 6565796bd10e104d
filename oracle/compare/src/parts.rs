//! The parts of the comparison: which jobs, by which seed, and how many.

use jobs::settings::heavy_settings;
use jobs::stream::{endless, heavy_jobs};

/// Jobs in a row, made as they are asked for.
pub type Jobs = Box<dyn Iterator<Item = Vec<u8>> + Send>;

#[derive(Clone)]
pub struct Part {
    pub kind: String,
    /// A seed and a count of jobs, where jobs are generated.
    pub drawn: Option<(u64, usize)>,
}

/// What is compared when no part is named: fifteen million generated jobs, and all of the fixed ones.
const WHOLE: [(&str, u64, usize); 13] = [
    ("small", 8101, 2_000_000),
    ("pairs", 8102, 500_000),
    ("orders", 8103, 500_000),
    ("ldcfull", 8104, 100_000),
    ("damaged", 8105, 6_900_000),
    ("settings", 8106, 1_000_000),
    ("settings_damaged", 8107, 1_000_000),
    ("lowest", 8109, 999_000),
    ("lowest_full", 8110, 1_000),
    ("worked", 8111, 600_000),
    ("worked_damaged", 8112, 300_000),
    ("worked_pairs", 8113, 100_000),
    ("worked_orders", 8114, 1_000_000),
];
const FIXED: [&str; 3] = ["heavy", "heavy_settings", "short"];

pub fn whole() -> Vec<Part> {
    let drawn = WHOLE.map(|(kind, seed, count)| Part {
        kind: kind.into(),
        drawn: Some((seed, count)),
    });
    let fixed = FIXED.map(|kind| Part {
        kind: kind.into(),
        drawn: None,
    });
    fixed.into_iter().chain(drawn).collect()
}

impl Part {
    /// `KIND SEED COUNT`, or `heavy`, `heavy_settings` or `short`.
    pub fn of(arguments: &[&str]) -> Option<Part> {
        let (kind, drawn) = match arguments {
            [kind] => (kind, None),
            [kind, seed, count] => (kind, Some((seed.parse().ok()?, count.parse().ok()?))),
            _ => return None,
        };
        let part = Part {
            kind: kind.to_string(),
            drawn,
        };
        part.jobs().map(|_| part)
    }

    pub fn is_heavy(&self) -> bool {
        ["heavy", "heavy_settings"].contains(&&self.kind[..])
    }

    /// The jobs of a known part. The generated ones are those of `generate KIND SEED`.
    pub fn jobs(&self) -> Option<Jobs> {
        match (&self.kind[..], self.drawn) {
            ("heavy", None) => Some(Box::new(heavy_jobs())),
            ("heavy_settings", None) => Some(Box::new(heavy_settings())),
            ("short", None) => Some(Box::new(short_strings())),
            (kind, Some((seed, count))) => Some(Box::new(endless(kind, seed)?.take(count))),
            _ => None,
        }
    }
}

/// Every byte string of up to two bytes, and every one of three that begins as a record does.
fn short_strings() -> impl Iterator<Item = Vec<u8>> + Send {
    let bytes = || 0..=u8::MAX;
    let pairs = move || bytes().flat_map(move |a| bytes().map(move |b| [a, b]));
    std::iter::once(vec![])
        .chain(bytes().map(|a| vec![a]))
        .chain(pairs().map(|pair| pair.to_vec()))
        .chain(
            bytes()
                .filter(|kind| is_kind(*kind))
                .flat_map(move |kind| pairs().map(move |[a, b]| vec![kind, a, b])),
        )
}

fn is_kind(byte: u8) -> bool {
    matches!(byte, 1 | 3..=12 | 15..=20 | 0x40..=0x44 | 0x46..=0x49 | 0x50..=0x52 | 0x60)
}

#[cfg(test)]
mod tests {
    use super::*;
    use std::collections::BTreeSet;

    #[test]
    fn the_whole_is_fifteen_million_and_the_fixed_jobs() {
        let drawn: usize = whole()
            .iter()
            .filter_map(|part| part.drawn)
            .map(|d| d.1)
            .sum();
        assert_eq!(drawn, 15_000_000);
        assert!(whole().iter().all(|part| part.jobs().is_some()));
    }

    #[test]
    fn short_strings_are_all_there_once() {
        let all: Vec<Vec<u8>> = short_strings().collect();
        assert_eq!(all.len(), 1 + 256 + 65_536 + 30 * 65_536);
        assert_eq!(all.iter().collect::<BTreeSet<_>>().len(), all.len());
    }

    #[test]
    fn unknown_parts_are_refused() {
        assert!(Part::of(&["small", "1", "9"]).is_some());
        for wrong in [
            &["small"][..],
            &["small", "1"],
            &["heavy", "1", "9"],
            &["small", "x", "9"],
            &["large", "1", "9"],
        ] {
            assert!(Part::of(wrong).is_none(), "{wrong:?}");
        }
    }
}
