//! The table of several runs, one for each layout of the libraries.

use crate::rounds::median;
use crate::times::COLUMNS;
use std::fs;

/// Prints a line for each row of the first file: nanoseconds a call, as the median of the files, and the proved library's time as
/// a part of each other column's, as the median of the files, with the least and the greatest where there are several.
pub fn print(files: &[&str]) {
    let runs: Vec<Vec<Vec<String>>> = files.iter().map(|file| rows_of(file)).collect();
    println!(
        "{:<52} {:>16} {:>9} {:>9} {:>9} {:>9}   {:<20} {:<20} {:<20}",
        "", "bytes", "crate ns", "lto ns", "Linux ns", "proved ns", "beside the crate", "beside lto", "beside Linux"
    );
    for (number, row) in runs[0].iter().enumerate() {
        let values = |column: usize| -> Vec<f64> {
            runs.iter().filter_map(|rows| rows[number].get(column)?.parse().ok()).collect()
        };
        if row[0] == "clock" {
            println!("a cycle takes {:.3} ns", median(values(2)).unwrap_or(0.0));
            continue;
        }
        let nanoseconds = |column| median(values(2 + column)).map_or("-".to_string(), |value| format!("{value:.2}"));
        print!("{:<52} {:>16}", row[0], row[1]);
        for column in 0..COLUMNS {
            print!(" {:>9}", nanoseconds(column));
        }
        print!("  ");
        for column in 0..COLUMNS - 1 {
            print!(" {:<20}", ratio(values(2 + COLUMNS + column)));
        }
        println!();
    }
}

// The median, and from where to where the values go.
fn ratio(values: Vec<f64>) -> String {
    let least = values.iter().copied().fold(f64::INFINITY, f64::min);
    let greatest = values.iter().copied().fold(0.0, f64::max);
    match median(values) {
        None => "-".to_string(),
        Some(middle) => format!("{middle:.2} ({least:.2} to {greatest:.2})"),
    }
}

fn rows_of(file: &str) -> Vec<Vec<String>> {
    let text = fs::read_to_string(file).expect("a file of times");
    text.lines().map(|line| line.split('\t').map(str::to_string).collect()).collect()
}
