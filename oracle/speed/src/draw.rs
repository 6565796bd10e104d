//! Draws the ratios as a picture: a row a family, a dot a size, on a logarithmic scale; time on the left, instructions on the right.

use crate::figures::*;
use crate::sets::families;
use std::fmt::Write;

const WIDTH: f64 = 1_000.0;
const HEIGHT: f64 = 640.0;

/// The panels' left edges and their width.
const LEFT: [f64; 2] = [170.0, 600.0];
const PANEL: f64 = 370.0;

const TOP: f64 = 96.0;
const ROW: f64 = 54.0;
const LINE: f64 = 11.0;

/// The scale's ends, and what is written below it.
const LEAST: f64 = 0.04;
const MOST: f64 = 1.3;
const TICKS: [f64; 5] = [0.05, 0.1, 0.2, 0.5, 1.0];

/// The sizes, from top to bottom of a row, and their colours.
const SHOWN: [(&str, &str, &str); 4] = [
    (SMALL, "20 to 200", "#7fb6dd"),
    ("1000", "1,000", "#3f8fc9"),
    ("10000", "10,000", "#1d5fa0"),
    ("60000", "60,000", "#0b2f5e"),
];

/// A panel's name, what it shows of ours, the Rust and the clearing, and its aims.
struct Panel {
    name: &'static str,
    measures: [&'static str; 3],
    aims: &'static [(f64, &'static str)],
}

const PANELS: [Panel; 2] = [
    Panel {
        name: "Processor time",
        measures: [OURS, RUST, CLEARING],
        aims: &[(0.2, "aim"), (0.1, "aim, small")],
    },
    Panel {
        name: "Instructions",
        measures: [OURS_COUNT, RUST_COUNT, CLEARING_COUNT],
        aims: &[],
    },
];

pub fn picture(figures: &Figures) -> String {
    let mut svg = format!(
        "<svg xmlns=\"http://www.w3.org/2000/svg\" viewBox=\"0 0 {WIDTH} {HEIGHT}\" \
         font-family=\"sans-serif\" font-size=\"13\">\n\
         <rect width=\"{WIDTH}\" height=\"{HEIGHT}\" fill=\"white\"/>\n"
    );
    let title = "Ours as a part of the Rust's, family by family (further left is faster)";
    text(
        &mut svg,
        20.0,
        28.0,
        "start",
        "font-size=\"17\" fill=\"#222\"",
        title,
    );
    legend(&mut svg);
    for (panel, left) in PANELS.iter().zip(LEFT) {
        scale(&mut svg, left, panel);
        for (row, family) in families().enumerate() {
            dots(&mut svg, figures, left, row, family, &panel.measures);
        }
    }
    for (row, family) in families().enumerate() {
        label(&mut svg, row, family);
    }
    svg.push_str("</svg>\n");
    svg
}

fn bottom() -> f64 {
    TOP + ROW * families().count() as f64
}

/// Where a ratio stands in a panel.
fn across(left: f64, ratio: f64) -> f64 {
    let part = (ratio / LEAST).ln() / (MOST / LEAST).ln();
    left + PANEL * part.clamp(0.0, 1.0)
}

fn text(svg: &mut String, x: f64, y: f64, anchor: &str, style: &str, words: &str) {
    writeln!(
        svg,
        "<text x=\"{x:.1}\" y=\"{y:.1}\" text-anchor=\"{anchor}\" {style}>{words}</text>"
    )
    .unwrap();
}

fn line(svg: &mut String, from: (f64, f64), to: (f64, f64), style: &str) {
    writeln!(
        svg,
        "<line x1=\"{:.1}\" y1=\"{:.1}\" x2=\"{:.1}\" y2=\"{:.1}\" {style}/>",
        from.0, from.1, to.0, to.1
    )
    .unwrap();
}

fn circle(svg: &mut String, x: f64, y: f64, fill: &str, stroke: &str) {
    writeln!(
        svg,
        "<circle cx=\"{x:.1}\" cy=\"{y:.1}\" r=\"4\" fill=\"{fill}\" stroke=\"{stroke}\" stroke-width=\"1.5\"/>"
    )
    .unwrap();
}

fn legend(svg: &mut String) {
    let y = 56.0;
    text(svg, 20.0, y, "start", "fill=\"#444\"", "Constants:");
    for (i, (_, words, colour)) in SHOWN.iter().enumerate() {
        let x = 105.0 + 92.0 * i as f64;
        circle(svg, x, y - 4.5, colour, colour);
        text(svg, x + 9.0, y, "start", "fill=\"#444\"", words);
    }
    circle(svg, 490.0, y - 4.5, "white", SHOWN[2].2);
    text(
        svg,
        499.0,
        y,
        "start",
        "fill=\"#444\"",
        "without clearing the lent memory",
    );
}

/// A panel's name, its lines and their numbers; the aims and the Rust stand out.
fn scale(svg: &mut String, left: f64, panel: &Panel) {
    let style = "fill=\"#222\" font-weight=\"bold\"";
    text(svg, left, TOP - 14.0, "start", style, panel.name);
    for tick in TICKS {
        upright(svg, left, tick, "stroke=\"#ddd\"");
        let words = tick.to_string();
        below(svg, left, tick, 18.0, "fill=\"#444\"", &words);
    }
    for (aim, words) in panel.aims {
        let style = "stroke=\"#c0392b\" stroke-width=\"1.5\" stroke-dasharray=\"6 4\"";
        upright(svg, left, *aim, style);
        below(
            svg,
            left,
            *aim,
            33.0,
            "fill=\"#c0392b\" font-size=\"11\"",
            words,
        );
    }
    upright(svg, left, 1.0, "stroke=\"#222\"");
    below(
        svg,
        left,
        1.0,
        33.0,
        "fill=\"#222\" font-size=\"11\"",
        "the Rust",
    );
}

fn upright(svg: &mut String, left: f64, ratio: f64, style: &str) {
    let x = across(left, ratio);
    line(svg, (x, TOP - 4.0), (x, bottom()), style);
}

fn below(svg: &mut String, left: f64, ratio: f64, distance: f64, style: &str, words: &str) {
    let x = across(left, ratio);
    text(svg, x, bottom() + distance, "middle", style, words);
}

fn label(svg: &mut String, row: usize, family: &str) {
    let top = TOP + ROW * row as f64;
    let name = match family {
        "all" => "ten thousand small".to_string(),
        family => family.replace('_', " "),
    };
    text(
        svg,
        20.0,
        top + ROW / 2.0 + 4.0,
        "start",
        "fill=\"#222\"",
        &name,
    );
    line(svg, (20.0, top), (LEFT[1] + PANEL, top), "stroke=\"#eee\"");
}

/// A family's dots in a panel, a line a size.
fn dots(
    svg: &mut String,
    figures: &Figures,
    left: f64,
    row: usize,
    family: &str,
    [ours, rust, clearing]: &[&str; 3],
) {
    let present = |(size, ..): &&(&str, &str, &str)| figures.text(ours, family, size).is_some();
    let shown: Vec<_> = SHOWN.iter().filter(present).collect();
    let middle = TOP + ROW * (row as f64 + 0.5);
    for (i, (size, _, colour)) in shown.iter().enumerate() {
        let number = |measure| figures.number(measure, family, size);
        let y = middle + LINE * (i as f64 - (shown.len() - 1) as f64 / 2.0);
        let with = across(left, number(ours) / number(rust));
        let without = across(left, (number(ours) - number(clearing)) / number(rust));
        line(
            svg,
            (without, y),
            (with, y),
            &format!("stroke=\"{colour}\""),
        );
        circle(svg, without, y, "white", colour);
        circle(svg, with, y, colour, colour);
    }
}

#[cfg(test)]
mod tests {
    use super::*;

    #[test]
    fn the_scale_is_logarithmic_and_keeps_within_the_panel() {
        let left = LEFT[0];
        assert_eq!(across(left, LEAST), left);
        assert_eq!(across(left, MOST), left + PANEL);
        let doubled = |ratio: f64| across(left, 2.0 * ratio) - across(left, ratio);
        assert!((doubled(0.1) - doubled(0.5)).abs() < 1e-9);
        assert_eq!(across(left, 100.0), left + PANEL);
    }

    #[test]
    fn a_picture_has_a_dot_for_every_figure() {
        let mut figures = Figures::default();
        for (measure, value) in [(OURS, 10.0), (RUST, 100.0), (CLEARING, 1.0)] {
            figures.put_number(measure, "ints", "1000", value);
        }
        let (none, one) = (picture(&Figures::default()), picture(&figures));
        let circles = |svg: &str| svg.matches("<circle").count();
        assert_eq!(circles(&one), circles(&none) + 2);
    }
}
