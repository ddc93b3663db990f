//! The oracle: the carried Rust, unchanged, answers request lines from standard input, a line each.

use std::io::{self, BufRead, BufWriter, Write};
use std::process::ExitCode;

// Most of the carried source is never asked here, so unused items say nothing.
#[allow(dead_code)]
#[path = "../../docs/src/src/chord/mod.rs"]
mod chord;
mod harmony;
#[allow(dead_code)]
#[path = "../../docs/src/src/inference/mod.rs"]
mod inference;
mod notes;
mod numbers;
#[path = "stand-ins/parsing.rs"]
mod parsing;
mod parts;
mod ranges;
mod records;
mod requests;
mod shown;
#[path = "../../docs/src/src/voicings/mod.rs"]
mod voicings;

fn main() -> ExitCode {
    match answer_all() {
        Ok(()) => ExitCode::SUCCESS,
        Err(message) => {
            eprintln!("oracle: {message}");
            ExitCode::FAILURE
        }
    }
}

fn answer_all() -> Result<(), String> {
    let mut input = io::stdin().lock();
    let mut output = BufWriter::with_capacity(1 << 16, io::stdout().lock());
    let mut line = String::new();
    let mut number = 0;
    while input.read_line(&mut line).map_err(told)? > 0 {
        number += 1;
        let request = line.strip_suffix('\n').unwrap_or(&line);
        // A panic is no answer: it says which line asked outside the Rust's domain.
        let answer = std::panic::catch_unwind(|| requests::answer(request))
            .unwrap_or_else(|_| Err("the Rust panics".to_string()))
            .map_err(|why| format!("line {number}, `{request}`: {why}"))?;
        writeln!(output, "{answer}").map_err(told)?;
        line.clear();
    }
    output.flush().map_err(told)
}

fn told(error: io::Error) -> String {
    error.to_string()
}
