//! The commands of the documents, run as they stand: each block `console` of docs/LESSON.md and README.md, and the examples of the manual page, docs/openrules.1.
//!
//! A line that begins with `$ ` is a command for `sh` in the repository's folder; what it prints, on both outputs, are the lines up to the next one, but for spaces at
//! their ends. A command with the program `openrules` is run where it was built, target/bin/openrules, and else said and skipped.

use std::io::Write;
use std::path::{Path, PathBuf};
use std::process::Command;

/// A command, its line in the document, and what it prints.
struct Shown {
    line: usize,
    command: String,
    prints: Vec<String>,
}

fn root() -> PathBuf {
    Path::new(env!("CARGO_MANIFEST_DIR")).join("..").canonicalize().expect("the repository's folder")
}

fn read(name: &str) -> String {
    std::fs::read_to_string(root().join(name)).unwrap_or_else(|error| panic!("{name}: {error}"))
}

/// The commands between lines that are `begin` and `end`.
fn commands(text: &str, begin: &str, end: &str) -> Vec<Shown> {
    let mut found: Vec<Shown> = Vec::new();
    let mut inside = false;
    for (place, line) in text.lines().enumerate() {
        match line {
            _ if !inside => inside = line == begin,
            _ if line == end => inside = false,
            _ => match line.strip_prefix("$ ") {
                Some(command) => found.push(Shown { line: place + 1, command: command.into(), prints: Vec::new() }),
                None => found.last_mut().expect("a block begins with a command").prints.push(line.trim_end().into()),
            },
        }
    }
    assert!(!inside, "a block has no end");
    found
}

/// Whether the program `openrules` itself is among the words of a command.
fn asks_the_program(command: &str) -> bool {
    command.split_whitespace().any(|word| word == "openrules" || word == "target/bin/openrules")
}

/// What a command prints, without spaces at the ends of lines.
fn printed(command: &str) -> Vec<String> {
    let tools = Path::new(env!("CARGO_BIN_EXE_openrules-show")).parent().expect("a folder").to_path_buf();
    let mut folders = vec![root().join("target/bin"), tools];
    folders.extend(std::env::split_paths(&std::env::var_os("PATH").unwrap_or_default()));
    let output = Command::new("sh")
        .args(["-c", &format!("exec 2>&1\n{command}")])
        .env("PATH", std::env::join_paths(folders).expect("folders without colons"))
        .env("LC_ALL", "C")
        .current_dir(root())
        .output()
        .expect("sh runs");
    String::from_utf8(output.stdout).expect("it prints text").lines().map(|line| line.trim_end().to_string()).collect()
}

/// Runs the commands of a document, of which there are at least so many.
fn held(name: &str, commands: Vec<Shown>, least: usize) {
    assert!(commands.len() >= least, "{name} has {} commands", commands.len());
    let there = root().join("target/bin/openrules").is_file();
    for shown in commands {
        if asks_the_program(&shown.command) && !there {
            // Straight to standard error, which the test runner does not keep back.
            let _ = writeln!(
                std::io::stderr(),
                "{name}:{}: target/bin/openrules is not there, skipped: {}",
                shown.line,
                shown.command
            );
            continue;
        }
        assert_eq!(printed(&shown.command), shown.prints, "{name}:{}: {}", shown.line, shown.command);
    }
}

#[test]
fn the_lesson() {
    held("docs/LESSON.md", commands(&read("docs/LESSON.md"), "```console", "```"), 15);
}

#[test]
fn the_readme() {
    held("README.md", commands(&read("README.md"), "```console", "```"), 6);
}

#[test]
fn the_manual_page() {
    let plain = read("docs/openrules.1").replace("\\-", "-").replace("\\(aq", "'").replace("\\e", "\\");
    held("docs/openrules.1", commands(&plain, ".EX", ".EE"), 4);
}

/// The synopsis of the manual page has the words that the program lists.
#[test]
fn the_words() {
    if !root().join("target/bin/openrules").is_file() {
        let _ = writeln!(std::io::stderr(), "target/bin/openrules is not there: its words were not compared");
        return;
    }
    let listed: Vec<String> =
        printed("openrules help").iter().map(|line| line.split("  ").next().unwrap_or_default().to_string()).collect();
    let page = read("docs/openrules.1");
    let synopsis = page.split(".SH SYNOPSIS\n.nf\n").nth(1).and_then(|rest| rest.split(".fi\n").next()).expect("a synopsis");
    let plain = ["\\fB", "\\fI", "\\fR"].iter().fold(synopsis.to_string(), |text, font| text.replace(font, ""));
    assert_eq!(plain.lines().collect::<Vec<_>>(), listed);
}
