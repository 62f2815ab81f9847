// The figures of reading as bars: nanoseconds a byte, on a scale on which twice as slow is always as far.
use crate::engines::OURS;
use crate::figures::Figures;
use crate::inputs::{self, Kind};
use crate::reading::TAG_COUNTS;

const BAR: f64 = 13.0;
const HEADING: f64 = 30.0;
const NAMES: f64 = 190.0;
const BARS: f64 = 330.0;
const COLUMN: f64 = NAMES + BARS + 70.0;
const TOP: f64 = 64.0;
const FASTEST: f64 = 0.05;
const SLOWEST: f64 = 100.0;
const MARKS: [f64; 11] = [0.05, 0.1, 0.2, 0.5, 1.0, 2.0, 5.0, 10.0, 20.0, 50.0, 100.0];

/// How far right a time stands.
fn along(nanos: f64) -> f64 {
    let part = (nanos / FASTEST).ln() / (SLOWEST / FASTEST).ln();
    BARS * part.clamp(0.0, 1.0)
}

fn text(x: f64, y: f64, words: &str, more: &str) -> String {
    format!("<text x=\"{x:.1}\" y=\"{y:.1}\" {more}>{words}</text>\n")
}

pub fn svg(figures: &Figures) -> String {
    let group = HEADING + BAR * figures.engines().len() as f64;
    let height = TOP + group * inputs::all().count() as f64 + 20.0;
    let width = COLUMN * TAG_COUNTS.len() as f64 + 20.0;
    let mut svg = format!(
        "<svg xmlns=\"http://www.w3.org/2000/svg\" viewBox=\"0 0 {width:.0} {height:.0}\" width=\"{width:.0}\" \
         height=\"{height:.0}\" font-family=\"sans-serif\" font-size=\"10\">\n\
         <rect width=\"100%\" height=\"100%\" fill=\"white\"/>\n"
    );
    svg += &text(
        10.0,
        22.0,
        "Reading: nanoseconds a byte, shorter is faster",
        "font-size=\"16\"",
    );
    for (i, tags) in TAG_COUNTS.iter().enumerate() {
        svg += &column(figures, *tags, 10.0 + COLUMN * i as f64, group);
    }
    svg + "</svg>\n"
}

fn column(figures: &Figures, tags: usize, left: f64, group: f64) -> String {
    let mut svg = text(
        left,
        44.0,
        &format!("{tags} tags of 8 to 32 bytes"),
        "font-size=\"13\" font-weight=\"bold\"",
    );
    svg += &scale(left + NAMES, TOP + group * inputs::all().count() as f64);
    for (i, kind) in inputs::all().enumerate() {
        svg += &bars(figures, tags, kind, left, TOP + group * i as f64);
    }
    svg
}

fn scale(left: f64, bottom: f64) -> String {
    let mut svg = String::new();
    for mark in MARKS {
        let x = left + along(mark);
        svg += &format!(
            "<line x1=\"{x:.1}\" y1=\"{TOP}\" x2=\"{x:.1}\" y2=\"{bottom:.1}\" stroke=\"#ddd\"/>\n"
        );
        svg += &text(
            x,
            bottom + 12.0,
            &mark.to_string(),
            "text-anchor=\"middle\" fill=\"#777\"",
        );
    }
    svg
}

fn bars(figures: &Figures, tags: usize, kind: Kind, left: f64, top: f64) -> String {
    let mut svg = text(
        left,
        top + HEADING - 10.0,
        kind.name(),
        "font-size=\"12\" font-style=\"italic\"",
    );
    for (i, engine) in figures.engines().iter().enumerate() {
        let Some(timed) = figures.timed(engine, tags, kind) else {
            continue;
        };
        let (y, long) = (top + HEADING + BAR * i as f64, along(timed.best()));
        let colour = if OURS.contains(engine) {
            "#2a7f4f"
        } else {
            "#8fa3b8"
        };
        svg += &text(left + NAMES - 6.0, y + 3.0, engine, "text-anchor=\"end\"");
        svg += &format!(
            "<rect x=\"{:.1}\" y=\"{:.1}\" width=\"{long:.1}\" height=\"{}\" fill=\"{colour}\"/>\n",
            left + NAMES,
            y - 6.0,
            BAR - 3.0
        );
        svg += &text(
            left + NAMES + long + 4.0,
            y + 3.0,
            &format!("{:.2}", timed.best()),
            "fill=\"#333\"",
        );
    }
    svg
}
