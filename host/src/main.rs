//! The host: the original Rust text beside the proved library. README.md says how to run each command.

#[cfg(original)]
mod again;
#[cfg(original)]
mod bench;
#[cfg(original)]
mod compare;
#[cfg(original)]
mod draft;
#[cfg(original)]
mod finish;
mod firm;
#[cfg(original)]
mod generate;
#[cfg(original)]
mod heavy;
#[cfg(all(original, feature = "library"))]
mod library;
#[cfg(original)]
mod loads;
#[cfg(original)]
mod pages;
#[cfg(original)]
mod parents;
#[cfg(original)]
mod preview;
#[cfg(original)]
mod random;
#[cfg(original)]
mod replay;
#[cfg(original)]
mod run;
#[cfg(original)]
mod sheet;

#[cfg(original)]
mod commands;

#[cfg(original)]
fn main() -> std::process::ExitCode {
    let args: Vec<String> = std::env::args().skip(1).collect();
    commands::run(&args.iter().map(String::as_str).collect::<Vec<_>>())
}

/// Without the original there is nothing to compare with.
#[cfg(not(original))]
fn main() -> std::process::ExitCode {
    println!("The original source was not found in {} when the host was built.", original::SOURCE);
    println!("Nothing was compared. Set OPENRULES_CEDAR_SRC to the folder that holds cedar-policy-core, and build again.");
    std::process::ExitCode::from(3)
}
