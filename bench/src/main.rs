//! Times the proved library beside two builds of the Rust crate and Linux's sum, call for call, in one process.

mod compare;
#[path = "../../crates/etherparse_c/include/etherparse.rs"]
mod etherparse;
mod full_speed;
mod library;
mod packets;
mod random;
mod rounds;
mod table;
mod times;

use library::Libraries;
use std::process::exit;

fn main() {
    let arguments: Vec<String> = std::env::args().skip(1).collect();
    let arguments: Vec<&str> = arguments.iter().map(String::as_str).collect();
    match arguments[..] {
        ["compare", folder] => println!("{} answers are the same.", compare::compare(&Libraries::open(folder))),
        ["time", folder, rounds] => time_all(&Libraries::open(folder), number_of(rounds), ""),
        ["time", folder, rounds, words] => time_all(&Libraries::open(folder), number_of(rounds), words),
        ["call", folder, line, column, calls] => {
            call_one(&Libraries::open(folder), number_of(line), number_of(column), number_of(calls))
        }
        ["table", ref files @ ..] if !files.is_empty() => table::print(files),
        _ => {
            eprintln!("usage: bench compare FOLDER | time FOLDER ROUNDS [WORDS] | call FOLDER LINE COLUMN CALLS | table FILE..");
            exit(2)
        }
    }
}

fn number_of(text: &str) -> usize {
    text.parse().expect("a number")
}

// Numbers with tabs between, for each line in whose name these words stand.
fn time_all(libraries: &Libraries, rounds: usize, words: &str) {
    println!("clock\t\t{:.4}", rounds::median_of_a_cycle());
    times::each(libraries, &mut |row| {
        if !row.what.contains(words) {
            return;
        }
        let figures = rounds::compare_times(rounds, row);
        print!("{}\t{}", row.what, row.bytes);
        for figure in figures.nanoseconds.iter().chain(&figures.ratios) {
            match figure {
                Some(figure) => print!("\t{figure:.4}"),
                None => print!("\t-"),
            }
        }
        println!();
    });
}

// The calls of one line and one column, with nothing timed: for a program that counts instructions.
fn call_one(libraries: &Libraries, line: usize, column: usize, calls: usize) {
    let mut number = 0;
    times::each(libraries, &mut |row| {
        if number == line {
            println!("{}\t{}", row.what, row.bytes);
            if let Some(batch) = &row.batches[column] {
                std::hint::black_box(batch(calls as u32));
            }
            exit(0);
        }
        number += 1;
    });
    exit(3);
}
