//! oracle records FAMILY [--seed N] [--count N] [--lean], oracle families.

use oracle::records::{Family, Options, FAMILIES};
use std::io::{self, Write};
use std::process::ExitCode;

fn main() -> ExitCode {
    let words: Vec<String> = std::env::args().skip(1).collect();
    let words: Vec<&str> = words.iter().map(String::as_str).collect();
    let text = match &words[..] {
        ["families"] => Ok(families()),
        ["records", family, rest @ ..] => records(family, rest),
        _ => Err("usage: records FAMILY [--seed N] [--count N] [--lean] | families".into()),
    };
    match text {
        Ok(text) => {
            // a reader that stops early, as head does, is no fault
            let _ = io::stdout().write_all(text.as_bytes());
            ExitCode::SUCCESS
        }
        Err(why) => {
            eprintln!("oracle: {why}");
            ExitCode::FAILURE
        }
    }
}

fn families() -> String {
    FAMILIES
        .iter()
        .map(|family| format!("{}: {}\n", family.name, family.about))
        .collect()
}

fn records(family: &str, words: &[&str]) -> Result<String, String> {
    let family = Family::named(family).ok_or(format!("no family {family}"))?;
    let mut options = Options {
        seed: 1,
        count: 1000,
        lean: false,
    };
    let mut words = words.iter();
    while let Some(word) = words.next() {
        let mut number = || {
            let value = words.next().ok_or(format!("{word} wants a number"))?;
            value.parse().map_err(|e| format!("{word} {value}: {e}"))
        };
        match *word {
            "--seed" => options.seed = number()?,
            "--count" => options.count = number()?,
            "--lean" => options.lean = true,
            _ => return Err(format!("no option {word}")),
        }
    }
    Ok(family.records(&options))
}
