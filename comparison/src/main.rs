//! Answers the cases of PROTOCOL.md by the Rust crate etherparse: one case a line on standard
//! input, one answer a line on standard output. A call that the crate lacks is answered by a body
//! of this program, made of the crate's other calls or written after the RFC.

mod arguments;
mod constants;
mod errors;
mod fields;
mod iphead;
mod ipv4;
mod ipv6;
mod options;
mod shown;
mod sums;
mod walks;

use std::io::{self, BufRead, BufWriter, Write};
use std::str;

/// The names of the crate's constants and variants, which `names.py` reads out of its source.
mod names {
    include!(env!("NAMES"));
}

fn main() -> io::Result<()> {
    let mut output = BufWriter::new(io::stdout().lock());
    for line in io::stdin().lock().split(b'\n') {
        let line = line?;
        let answer = str::from_utf8(&line).ok().and_then(answer);
        writeln!(output, "{}", answer.as_deref().unwrap_or("bad line"))?;
    }
    output.flush()
}

/// The answer to a case, or nothing where the line is none.
fn answer(line: &str) -> Option<String> {
    let mut words = line.split(' ');
    let operation = words.next()?;
    let words: Vec<&str> = words.collect();
    let (group, call) = operation.split_once('.').unwrap_or((operation, ""));
    match group {
        "dscp" | "frag" | "flow" | "ecn" => fields::answer(group, call, &words),
        "field" | "known" | "ipnum" => fields::answer_number(operation, &words),
        "opt" => options::answer(call, &words),
        "v4" => ipv4::answer(call, &words),
        "v6" => ipv6::answer(call, &words),
        "skip" | "walk" => walks::answer(operation, &words),
        "text" => errors::answer_text(call, &words),
        "off" => errors::answer_offset(call, &words),
        "eq" => errors::answer_equality(call, &words),
        "layer" | "value_type" => errors::answer_kind(operation, &words),
        "c32" | "c64" | "sum" | "upd" => sums::answer(operation, &words),
        "const" | "default" => constants::answer(operation, &words),
        "iphead" => iphead::answer(&words),
        _ => None,
    }
}
