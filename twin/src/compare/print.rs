//! Traces and reports for people to read: nothing is left out of a trace.

use crate::shrink::{blocks, lines};

/// A trace's lines, indented. Bytes that aren't plain are escaped, a missing last
/// line feed is said, and equal blocks or lines in a row are shown once.
pub fn trace(trace: &[u8]) -> String {
    fold(&blocks(trace), "block", |block| {
        fold(&lines(block), "line", one_line)
    })
}

/// Shows pieces one after the other; of equal ones in a row the first, with their number.
fn fold(pieces: &[Vec<u8>], what: &str, show: fn(&[u8]) -> String) -> String {
    let mut shown = String::new();
    let mut rest = pieces;
    while let Some(piece) = rest.first() {
        let times = rest.iter().take_while(|next| *next == piece).count();
        shown += &show(piece);
        if times > 1 {
            shown += &format!("  (this {what} {times} times in all)\n");
        }
        rest = &rest[times..];
    }
    shown
}

/// The first few lines of a report from the first line in which it differs.
pub fn difference(report: &[u8], other: &[u8]) -> String {
    let (report, other) = (lines(report), lines(other));
    let same = report
        .iter()
        .zip(&other)
        .take_while(|(one, two)| one == two)
        .count();
    let shown: String = report[same..]
        .iter()
        .take(8)
        .map(|line| one_line(line))
        .collect();
    if shown.is_empty() {
        return "  (nothing more)\n".to_string();
    }
    shown
}

fn one_line(line: &[u8]) -> String {
    match line.strip_suffix(b"\n") {
        Some(whole) => format!("  {}\n", whole.escape_ascii()),
        None => format!("  {} (no line feed)\n", line.escape_ascii()),
    }
}
