//! Lashetwold's ordinary comparison program: not proved, written from the rules alone and without a
//! look at the proved code. See README.md for its commands and formats.

mod compare;
mod exhaustive;
#[cfg(test)]
mod figures;
mod generate;
mod graph;
#[cfg(test)]
mod literal;
mod packing;
mod random;
mod report;
mod search;
mod sheet;
mod vectors;

use std::io::{self, Read, Write};
use std::path::PathBuf;
use std::process::ExitCode;
use std::thread::{self, JoinHandle};
use std::time::Duration;

const USAGE: &str = "\
usage: outside compare PROGRAM [--count N] [--seed S] [--save DIR] [--patience SECONDS]
       outside engines [--count N] [--seed S] [--input | --output | --run PROGRAM]
       outside report [FILE]
";

/// A search goes as deep as a graph has pairs.
pub fn with_deep_stack<T: Send + 'static>(
    work: impl FnOnce() -> T + Send + 'static,
) -> JoinHandle<T> {
    thread::Builder::new()
        .stack_size(64 << 20)
        .spawn(work)
        .expect("a thread")
}

fn main() -> ExitCode {
    let arguments: Vec<String> = std::env::args().skip(1).collect();
    let outcome = match arguments.first().map(String::as_str) {
        Some("compare") => compare(&arguments[1..]),
        Some("engines") => engines(&arguments[1..]),
        Some("report") => report(&arguments[1..]),
        _ => Err(USAGE.to_string()),
    };
    match outcome {
        Ok(true) => ExitCode::SUCCESS,
        Ok(false) => ExitCode::from(1),
        Err(message) => {
            eprint!("{message}");
            ExitCode::from(2)
        }
    }
}

fn told(error: io::Error) -> String {
    format!("outside: {error}\n")
}

/// The words of a command: those with a value, by name; the rest in their order.
struct Words {
    plain: Vec<String>,
    named: Vec<(String, String)>,
}

impl Words {
    fn of(arguments: &[String], with_value: &[&str]) -> Result<Words, String> {
        let mut words = Words {
            plain: Vec::new(),
            named: Vec::new(),
        };
        let mut rest = arguments.iter();
        while let Some(word) = rest.next() {
            if with_value.contains(&word.as_str()) {
                let value = rest.next().ok_or(USAGE)?;
                words.named.push((word.clone(), value.clone()));
            } else {
                words.plain.push(word.clone());
            }
        }
        Ok(words)
    }

    fn text(&self, name: &str) -> Option<&str> {
        let found = self.named.iter().rev().find(|(word, _)| word == name);
        found.map(|(_, value)| value.as_str())
    }

    fn number(&self, name: &str, otherwise: u64) -> Result<u64, String> {
        match self.text(name) {
            None => Ok(otherwise),
            Some(value) => value.parse().map_err(|_| USAGE.to_string()),
        }
    }
}

fn compare(arguments: &[String]) -> Result<bool, String> {
    let words = Words::of(arguments, &["--count", "--seed", "--save", "--patience"])?;
    let [program] = &words.plain[..] else {
        return Err(USAGE.to_string());
    };
    let options = compare::Options {
        program: PathBuf::from(program),
        count: words.number("--count", 3_000)? as usize,
        seed: words.number("--seed", 1)?,
        save: words
            .text("--save")
            .map_or_else(std::env::temp_dir, PathBuf::from),
        patience: Duration::from_secs(words.number("--patience", 300)?),
    };
    let differences = compare::compare(&options).map_err(told)?;
    Ok(differences == 0)
}

fn engines(arguments: &[String]) -> Result<bool, String> {
    let words = Words::of(arguments, &["--count", "--seed", "--run"])?;
    let (seed, count) = (words.number("--seed", 1)?, words.number("--count", 12_000)?);
    let (input, output) = match &words.plain[..] {
        [] => (true, true),
        [word] if word == "--input" => (true, false),
        [word] if word == "--output" => (false, true),
        _ => return Err(USAGE.to_string()),
    };
    if let Some(program) = words.text("--run") {
        let differences = vectors::run(&PathBuf::from(program), seed, count).map_err(told)?;
        return Ok(differences == 0);
    }
    let mut out = io::BufWriter::new(io::stdout().lock());
    for index in 0..count {
        let question = vectors::question(seed, index);
        vectors::check(&question);
        let mut text = String::new();
        if input {
            text.push_str(&vectors::input_line(&question));
        }
        if output {
            text.push_str(&vectors::output_lines(&question));
        }
        out.write_all(text.as_bytes()).map_err(told)?;
    }
    out.flush().map_err(told)?;
    Ok(true)
}

fn report(arguments: &[String]) -> Result<bool, String> {
    let bytes = match arguments {
        [] => {
            let mut bytes = Vec::new();
            io::stdin().read_to_end(&mut bytes).map_err(told)?;
            bytes
        }
        [file] => std::fs::read(file).map_err(told)?,
        _ => return Err(USAGE.to_string()),
    };
    let made = with_deep_stack(move || report::report(&bytes)).join();
    let text = made.expect("the report's maker").text;
    io::stdout().write_all(text.as_bytes()).map_err(told)?;
    Ok(true)
}
