//! The times as a bar chart in SVG.

use crate::bench::Row;

const LABEL_WIDTH: f64 = 220.0;
const BAR_WIDTH: f64 = 400.0;
const NUMBER_WIDTH: f64 = 70.0;
const BAR: f64 = 9.0;
const GAP: f64 = 10.0;
const HEAD: f64 = 44.0;

const KINDS: [(&str, &str); 3] =
    [("Eddyplume", "#1b6ca8"), ("independent", "#b0b7bf"), ("plain C digest", "#e0a030")];

/// One group of bars for each row, all on one scale.
pub fn chart(rows: &[Row]) -> String {
    let longest = rows.iter().flat_map(bars).map(|(_, time)| time).fold(0.0, f64::max);
    let mut body = legend();
    let mut top = HEAD;
    for row in rows {
        body.push_str(&group(row, top, longest));
        top += BAR * bars(row).len() as f64 + GAP;
    }
    let width = LABEL_WIDTH + BAR_WIDTH + NUMBER_WIDTH;
    format!(
        "<svg xmlns=\"http://www.w3.org/2000/svg\" viewBox=\"0 0 {width} {top}\" \
         width=\"{width}\" height=\"{top}\" font-family=\"sans-serif\" font-size=\"10\">\n\
         <rect width=\"100%\" height=\"100%\" fill=\"white\"/>\n{body}</svg>\n"
    )
}

/// The label of a row and its bars with their times, from `top` down.
fn group(row: &Row, top: f64, longest: f64) -> String {
    let bars = bars(row);
    let middle = top + BAR * bars.len() as f64 / 2.0;
    let label = format!("{}, {}", row.input, row.call);
    let mut group = text(LABEL_WIDTH - 8.0, middle + 4.0, "end", &label);
    for (index, (kind, time)) in bars.into_iter().enumerate() {
        let (y, width) = (top + BAR * index as f64, BAR_WIDTH * time / longest);
        group.push_str(&bar(LABEL_WIDTH, y, width.max(0.5), BAR - 1.0, KINDS[kind].1));
        let x = LABEL_WIDTH + width + 4.0;
        group.push_str(&text(x, y + BAR - 1.5, "start", &format!("{time:.2}")));
    }
    group
}

/// The bars of a row: which kind, and its time.
fn bars(row: &Row) -> Vec<(usize, f64)> {
    let times = [Some(row.full.ours), Some(row.full.independent), row.full.plain_c];
    times.into_iter().enumerate().filter_map(|(kind, time)| Some((kind, time?))).collect()
}

fn legend() -> String {
    let title = "Milliseconds for about 1 MiB, shorter is better";
    let mut legend = text(LABEL_WIDTH, 14.0, "start", title);
    let mut x = LABEL_WIDTH;
    for (name, colour) in KINDS {
        legend.push_str(&bar(x, 22.0, 10.0, 10.0, colour));
        legend.push_str(&text(x + 14.0, 31.0, "start", name));
        x += 110.0;
    }
    legend
}

fn bar(x: f64, y: f64, width: f64, height: f64, colour: &str) -> String {
    format!(
        "<rect x=\"{x:.1}\" y=\"{y:.1}\" width=\"{width:.1}\" height=\"{height:.1}\" \
         fill=\"{colour}\"/>\n"
    )
}

/// `text` has no characters that SVG needs escaped.
fn text(x: f64, y: f64, anchor: &str, text: &str) -> String {
    format!(
        "<text x=\"{x:.1}\" y=\"{y:.1}\" text-anchor=\"{anchor}\" fill=\"#222\">{text}</text>\n"
    )
}
