//! Headings and tables in Markdown.

use std::sync::Mutex;

/// The ratio that reading, simulating, replaying, encoding and checking keep to.
const RATIO: f64 = 1.5;

/// The rows above it, which are printed once more at the end.
static ABOVE: Mutex<Vec<String>> = Mutex::new(Vec::new());

pub fn heading(words: &str, explanation: &str) {
    println!("\n## {words}\n\n{explanation}\n");
}

/// The head of a table: the first so many columns hold words, the others numbers.
pub fn columns(words: usize, names: &[&str]) {
    let sides = (0..names.len()).map(|at| if at < words { "---" } else { "---:" });
    println!("| {} |", names.join(" | "));
    println!("|{}|", sides.collect::<Vec<&str>>().join("|"));
}

pub fn row(cells: &[String]) {
    println!("| {} |", cells.join(" | "));
}

/// A row whose last cell is a ratio.
pub fn ratio_row(cells: &[String], ratio: f64) {
    let cells = [cells, &[hundredths(ratio)]].concat();
    row(&cells);
    if ratio > RATIO {
        let mut above = ABOVE.lock().expect("one thread prints");
        above.push(cells.join(", "));
    }
}

/// So that nobody looks at some rows only.
pub fn rows_above() {
    heading("Rows above 1.5", "The wanted bound of every row.");
    let above = ABOVE.lock().expect("one thread prints");
    if above.is_empty() {
        println!("None.");
    }
    for row in above.iter() {
        println!("- {row}");
    }
}

/// With a comma before each three digits.
pub fn whole(number: f64) -> String {
    let digits = format!("{number:.0}");
    let mut grouped = String::new();
    for (at, digit) in digits.chars().enumerate() {
        if at > 0 && (digits.len() - at) % 3 == 0 {
            grouped.push(',');
        }
        grouped.push(digit);
    }
    grouped
}

pub fn count(number: usize) -> String {
    whole(number as f64)
}

/// Three digits or more.
pub fn short(number: f64) -> String {
    match number {
        0.0..10.0 => format!("{number:.2}"),
        10.0..100.0 => format!("{number:.1}"),
        _ => whole(number),
    }
}

pub fn hundredths(number: f64) -> String {
    format!("{number:.2}")
}
