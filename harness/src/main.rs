//! Holds the static library to a plain Rust version of it: same answers, speed beside it, and stack.

mod cases;
mod damage;
mod library;
mod lines;
mod random;
mod reference;
mod speed;
mod stack;

use lines::SHAPES;
use std::fmt::Write;
use std::process::ExitCode;

const SEED: u64 = 0x5A11_2026;
const CASES: usize = 200_000;

/// Writes the measured lines as text, a point a row, for other programs to read.
fn write_lines(folder: &str) -> std::io::Result<()> {
    for shape in SHAPES {
        let mut text = String::new();
        for [x, y] in shape.line::<2>(4096) {
            let _ = writeln!(text, "{x} {y}");
        }
        std::fs::write(format!("{folder}/{}.txt", shape.name().replace(' ', "_")), text)?;
    }
    Ok(())
}

fn main() -> ExitCode {
    let mut words = std::env::args().skip(1);
    let what = words.next().unwrap_or_else(|| "all".to_string());
    let rest = words.next();
    match (what.as_str(), rest) {
        ("lines", Some(folder)) => {
            if let Err(error) = write_lines(&folder) {
                eprintln!("harness: {folder}: {error}");
                return ExitCode::FAILURE;
            }
        }
        ("cases", rest) => {
            let seed = rest.and_then(|word| word.parse().ok()).unwrap_or(SEED);
            if !cases::run(seed, CASES) {
                return ExitCode::FAILURE;
            }
        }
        ("speed", None) => speed::run(),
        ("stack", None) => stack::run(),
        ("all", None) => {
            let same = cases::run(SEED, CASES);
            stack::run();
            speed::run();
            if !same {
                return ExitCode::FAILURE;
            }
        }
        _ => {
            eprintln!("usage: harness [all | cases [SEED] | speed | stack | lines FOLDER]");
            return ExitCode::FAILURE;
        }
    }
    ExitCode::SUCCESS
}
