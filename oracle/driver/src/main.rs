//! Compares the port with the Rust: the same inputs to both, in one process.
//!
//!     driver quick|full|bench|record [--seed N] [--part NAME] [--rounds N] [--into FOLDER]
//!
//! Status: 0 all equal, 1 a difference, 2 bad usage or a failure of its own.

mod core;
mod parts;

use crate::core::bench::Table;
use crate::core::random::Random;
use crate::core::record::Record;
use crate::core::report::Length;
use crate::core::report::Run;
use crate::core::text::thousands;
use crate::core::told;
use crate::parts::Part;
use std::env;
use std::path::PathBuf;
use std::process::ExitCode;
use std::time::Instant;

const USAGE: &str =
    "usage: quick|full|bench|record [--seed N] [--part NAME] [--rounds N] [--into FOLDER]";

#[derive(Clone, Copy)]
enum Command {
    Compare(Length),
    Bench,
    Record,
}

struct Words {
    command: Command,
    seed: u64,
    part: Option<String>,
    rounds: Option<u64>,
    into: PathBuf,
}

fn number(word: &str) -> Result<u64, String> {
    word.parse().map_err(|_| format!("not a number: {word}"))
}

fn words() -> Result<Words, String> {
    let mut words = env::args().skip(1);
    let command = match words.next().as_deref() {
        Some("quick") => Command::Compare(Length::Quick),
        Some("full") => Command::Compare(Length::Full),
        Some("bench") => Command::Bench,
        Some("record") => Command::Record,
        _ => return Err(USAGE.to_string()),
    };
    let mut result = Words {
        command,
        seed: 1,
        part: None,
        rounds: None,
        into: PathBuf::from("crates"),
    };
    while let Some(name) = words.next() {
        let word = words.next().ok_or(USAGE)?;
        match name.as_str() {
            "--seed" => result.seed = number(&word)?,
            "--part" => result.part = Some(word),
            "--rounds" => result.rounds = Some(number(&word)?),
            "--into" => result.into = PathBuf::from(word),
            _ => return Err(USAGE.to_string()),
        }
    }
    Ok(result)
}

/// Runs the parts and stops at the first difference.
fn compare(words: &Words, parts: &[Part], length: Length) -> ExitCode {
    println!("seed {}", words.seed);
    let mut all = 0;
    for part in parts {
        let mut run = Run {
            part: part.name,
            seed: words.seed,
            rounds: words.rounds.unwrap_or(match length {
                Length::Quick => part.rounds.quick,
                Length::Full => part.rounds.full,
            }),
            length,
            cases: 0,
        };
        let start = Instant::now();
        let result = (part.compare)(&mut run);
        all += run.cases;
        if let Err(difference) = result {
            println!("input:  {}", difference.input);
            println!("oracle: {}", difference.shown.oracle);
            println!("port:   {}", difference.shown.port);
            println!(
                "different: part {}, seed {}, after {} cases",
                part.name,
                words.seed,
                thousands(run.cases)
            );
            return ExitCode::from(1);
        }
        println!(
            "{:10} {:>14} cases, {:.1} s",
            part.name,
            thousands(run.cases),
            start.elapsed().as_secs_f64()
        );
    }
    println!("equal: {} cases", thousands(all));
    ExitCode::SUCCESS
}

fn bench(parts: &[Part]) -> ExitCode {
    let mut table = Table::default();
    for part in parts {
        if let Some(bench) = part.bench {
            bench(&mut table);
        }
    }
    println!(
        "Best of many passes, taken in turn; buffers are made before and not cleared between."
    );
    println!();
    table.print();
    println!();
    match table.worst() {
        Some(row) => println!(
            "worst ratio {:.2} ({} at {})",
            row.ratio(),
            row.operation,
            thousands(row.size as u64)
        ),
        None => println!("nothing timed"),
    }
    ExitCode::SUCCESS
}

/// Records all parts in one file, so a single part can't be recorded.
fn record(words: &Words, parts: &[Part]) -> ExitCode {
    if words.part.is_some() {
        eprintln!("record takes all parts");
        return ExitCode::from(2);
    }
    let mut record = Record::default();
    for part in parts {
        if let Some(fill) = part.record {
            let before = record.cases();
            record.about(part.name);
            fill(&mut record, &mut Random::new(words.seed, part.name, 0));
            println!(
                "{:10} {:>6} cases",
                part.name,
                thousands(record.cases() - before)
            );
        }
    }
    let folder = words.into.join("replay");
    if let Err(error) = record.write(&folder) {
        eprintln!("{}: {error}", folder.display());
        return ExitCode::from(2);
    }
    println!("recorded: {} cases", thousands(record.cases()));
    ExitCode::SUCCESS
}

fn main() -> ExitCode {
    told::silence();
    let words = match words() {
        Ok(words) => words,
        Err(message) => {
            eprintln!("{message}");
            return ExitCode::from(2);
        }
    };
    let mut parts = parts::all();
    if let Some(name) = &words.part {
        parts.retain(|part| part.name == name);
        if parts.is_empty() {
            eprintln!("no part {name}");
            return ExitCode::from(2);
        }
    }
    match words.command {
        Command::Compare(length) => compare(&words, &parts, length),
        Command::Bench => bench(&parts),
        Command::Record => record(&words, &parts),
    }
}
