//! Scripts over the ledger that is written by hand in plain Rust: `script make COUNT SEED` prints one that stores so many
//! transfers and asks for some, and `script run FILE` runs one and prints its answer.

use plain::{script, Run};
use std::io::{self, Write};
use std::process::ExitCode;
use std::{env, fs};

/// What the words ask for.
fn answer(words: &[String]) -> Option<String> {
    let words: Vec<&str> = words.iter().map(String::as_str).collect();
    match words.as_slice() {
        ["make", count, seed] => Some(script::text(Run {
            count: count.parse().ok()?,
            seed: seed.parse().ok()?,
        })),
        ["run", file] => Some(script::answer(&fs::read_to_string(file).ok()?)),
        _ => None,
    }
}

fn main() -> ExitCode {
    let words: Vec<String> = env::args().skip(1).collect();
    let Some(text) = answer(&words) else {
        eprintln!("usage: script make COUNT SEED or script run FILE");
        return ExitCode::FAILURE;
    };
    match io::stdout().write_all(text.as_bytes()) {
        Ok(()) => ExitCode::SUCCESS,
        Err(_) => ExitCode::FAILURE,
    }
}
