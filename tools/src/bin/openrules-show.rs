//! `openrules-show SHEET` prints what the library answers to a sheet, for people: the decision, the rule that gave it, and each rule with what is left of it.
//!
//! `openrules-show --policies SHEET` prints the policies of a sheet in Cedar's syntax. A SHEET of `-` is the standard input.

use std::io::{Read, Write};
use std::process::ExitCode;

use openrules::cedar::Rule;
use openrules::sheet::Sheet;
use openrules::{Answer, Evaluator, Result};

const USAGE: &str = "usage: openrules-show [--policies] SHEET

Prints the decision on a sheet, the rule that gave it, and each rule with what is left of it, in Cedar's syntax.
  --policies  print the policies of the sheet in Cedar's syntax instead
  SHEET       the file of a partial or complete sheet; - is the standard input
";

fn main() -> ExitCode {
    let words: Vec<String> = std::env::args_os().skip(1).map(|word| word.to_string_lossy().into_owned()).collect();
    let words: Vec<&str> = words.iter().map(String::as_str).collect();
    let (whole, place) = match words[..] {
        ["--help" | "-h"] => return print(USAGE),
        ["--policies", place] => (false, place),
        [place] if place == "-" || !place.starts_with('-') => (true, place),
        _ => {
            eprint!("{USAGE}");
            return ExitCode::from(2);
        }
    };
    let bytes = match read(place) {
        Ok(bytes) => bytes,
        Err(error) => {
            eprintln!("openrules-show: {place}: {error}");
            return ExitCode::from(2);
        }
    };
    match if whole { answer(&bytes) } else { policies(&bytes) } {
        Ok(text) => print(&text),
        Err(error) => {
            eprintln!("openrules-show: {place}: {error}");
            ExitCode::FAILURE
        }
    }
}

/// A file, or the standard input. One byte more than a sheet may have is enough to refuse it.
fn read(place: &str) -> std::io::Result<Vec<u8>> {
    let source: Box<dyn Read> = if place == "-" { Box::new(std::io::stdin()) } else { Box::new(std::fs::File::open(place)?) };
    let mut bytes = Vec::new();
    source.take(openrules::SHEET as u64 + 1).read_to_end(&mut bytes)?;
    Ok(bytes)
}

fn print(text: &str) -> ExitCode {
    match std::io::stdout().write_all(text.as_bytes()) {
        Ok(()) => ExitCode::SUCCESS,
        Err(_) => ExitCode::FAILURE,
    }
}

/// The policies of an accepted sheet in Cedar's syntax.
fn policies(bytes: &[u8]) -> Result<String> {
    Evaluator::new().answer(bytes)?;
    let rules = Sheet::read(bytes)?.rules()?;
    Ok(rules.iter().map(|rule| format!("{rule}\n")).collect())
}

/// The decision, why, and each rule.
fn answer(bytes: &[u8]) -> Result<String> {
    let answer = Evaluator::new().answer(bytes)?;
    let rules = Sheet::read(bytes)?.rules()?;
    let mut text = format!("decision: {}\nwhy: {}\n", answer.decision, answer.why.as_deref().unwrap_or("none"));
    rules.iter().for_each(|rule| text.push_str(&shown(rule, &answer)));
    Ok(text)
}

/// A rule: its class or that it is off term, its condition, and what is left of it.
fn shown(rule: &Rule, answer: &Answer) -> String {
    let Some(policy) = answer.policies.iter().find(|policy| policy.id == rule.id) else {
        return format!("\n{}: {}, off term\n  rule: {}\n", rule.id, rule.effect, rule.condition);
    };
    let mut text = format!("\n{}: {}, {}\n  rule: {}\n", policy.id, policy.effect, policy.class, rule.condition);
    if let Some(left) = &policy.residual {
        text.push_str(&format!("  left: {left}\n"));
    }
    text
}
