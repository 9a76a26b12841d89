//! The commands of the host.

use std::fs;
use std::io::{Read, Write};
use std::path::Path;
use std::process::ExitCode;

use crate::compare::{self, Call};
use crate::finish::{self, Finish};
use crate::firm::{self, Firm};
use crate::generate;
use crate::loads::{self, Load};
use crate::pages::{self, Page};
use crate::parents::Shown;
use crate::preview::{self, Preview};
use crate::run;
use crate::sheet::{self, Mode, Refusal};
use crate::{again, bench, heavy, replay};

const HELP: &str = "host answer partial|complete < SHEET   the original's answer, or refused=number,line,length, or what says that it was not asked
host cases DIR                         each NAME.MODE.sheet of DIR against NAME.MODE.expect or NAME.MODE.sheet.out
host random N SEED [DIR]               N random sheets, counted; with DIR also written there, with their answers
host show SEED N                       the N-th sheet of a seed, and its answer
host show-triple SEED N                the N-th triple of a seed, and its answers
host compare N SEED                    the library against the original on N sheets and N/4 triples
host self N SEED                       the same with the original on both sides: a check of the comparison itself
host again N SEED                      N answers of partial sheets handed back to the library as sheets
host finish N SEED                     the library's finish on N pairs of sheets that agree or nearly do, against the complete sheet's own run
host pages N SEED                      the library's counter pages of N sheets, against those that the original's answers make
host show-pair SEED N                  the N-th pair of a seed, and what finishing gives
host preview N SEED                    the library's preview on N sheets with a line filled or changed, against the original's run on a copy
host firm N SEED                       the library's firm on N sheets with lists of rows, against the original's run for each row
host show-preview SEED N               the N-th of these, and what it gives
host loads N SEED                      the library's test loads of N seeds, with 1 to 64 policies, against the document's words
host replay FILE                       writes the fixed list of sheets and answers
host replay-check FILE                 runs a written list, with the library where it is linked
host bench [ROUNDS]                    times, in four tables
host bench-loads ROUNDS                the row of test loads of the first
host bench-finish ROUNDS               the third of them: finish beside its two sheets' own runs
host bench-firm ROUNDS                 the fourth: firm with 64 rows beside a call for each row
host heavy DIR                         writes the sheets of the benchmark
host about                             what the host was built with";

#[cfg(feature = "library")]
fn library() -> Option<Call> {
    Some(crate::library::call)
}

#[cfg(not(feature = "library"))]
fn library() -> Option<Call> {
    None
}

#[cfg(feature = "library")]
fn library_finish() -> Option<Finish> {
    Some(crate::library::finish)
}

#[cfg(not(feature = "library"))]
fn library_finish() -> Option<Finish> {
    None
}

#[cfg(feature = "library")]
fn library_page() -> Option<Page> {
    Some(crate::library::page)
}

#[cfg(not(feature = "library"))]
fn library_page() -> Option<Page> {
    None
}

#[cfg(feature = "library")]
fn library_load() -> Option<Load> {
    Some(crate::library::test_load)
}

#[cfg(not(feature = "library"))]
fn library_load() -> Option<Load> {
    None
}

#[cfg(feature = "library")]
fn library_preview() -> Option<Preview> {
    Some(crate::library::preview)
}

#[cfg(not(feature = "library"))]
fn library_preview() -> Option<Preview> {
    None
}

#[cfg(feature = "library")]
fn library_firm() -> Option<Firm> {
    Some(crate::library::firm)
}

#[cfg(not(feature = "library"))]
fn library_firm() -> Option<Firm> {
    None
}

fn not_linked() -> ExitCode {
    println!("The library is not linked: build with --features library (README.md).");
    ExitCode::from(3)
}

pub fn run(args: &[&str]) -> ExitCode {
    match args {
        ["answer", mode @ ("partial" | "complete")] => answer(if *mode == "partial" { Mode::Partial } else { Mode::Complete }),
        ["cases", folder] => cases(Path::new(folder)),
        ["random", count, seed] => random(number(count), number(seed), None),
        ["random", count, seed, folder] => random(number(count), number(seed), Some(Path::new(folder))),
        ["show", seed, n] => {
            let case = generate::sheet(number(seed), number(n));
            println!("entry {}", case.mode.word());
            show(case.mode, &case.bytes);
            ExitCode::SUCCESS
        }
        ["show-triple", seed, n] => {
            let sheets = generate::triple(number(seed), number(n));
            for (n, sheet) in sheets.iter().enumerate() {
                show(if n == 0 { Mode::Partial } else { Mode::Complete }, sheet);
            }
            ExitCode::SUCCESS
        }
        ["compare", count, seed] => match library() {
            Some(call) => compared("the library", call, number(count), number(seed)),
            None => not_linked(),
        },
        ["finish", count, seed] => match library_finish() {
            Some(call) => finished(call, number(count), number(seed)),
            None => not_linked(),
        },
        ["pages", count, seed] => match (library(), library_page()) {
            (Some(call), Some(page)) => paged(call, page, number(count), number(seed)),
            _ => not_linked(),
        },
        ["loads", count, seed] => match (library_load(), library()) {
            (Some(load), Some(call)) => loaded(load, call, number(count), number(seed)),
            _ => not_linked(),
        },
        ["show-pair", seed, n] => {
            let [partial, complete] = finish::pair(number(seed), number(n));
            write(&partial);
            println!("---");
            write(&complete);
            println!("---");
            write(&text_of(finish::answer(&partial, &complete)));
            ExitCode::SUCCESS
        }
        ["preview", count, seed] => match library_preview() {
            Some(call) => previewed(call, number(count), number(seed)),
            None => not_linked(),
        },
        ["firm", count, seed] => match library_firm() {
            Some(call) => quoted(call, number(count), number(seed)),
            None => not_linked(),
        },
        ["show-preview", seed, n] => {
            let trial = preview::trial(number(seed), number(n));
            write(&trial.sheet);
            println!("--- line {}", trial.of_line);
            write(&trial.replacement);
            println!("---");
            write(&text_of(preview::answer(&trial)));
            ExitCode::SUCCESS
        }
        ["self", count, seed] => compared("the original", run::call, number(count), number(seed)),
        ["again", count, seed] => match library() {
            Some(call) => handed_back(call, number(count) as usize, number(seed)),
            None => not_linked(),
        },
        ["replay", file] => {
            let (bytes, line) = replay::list();
            fs::write(file, bytes).expect("the list is written");
            println!("{line}");
            ExitCode::SUCCESS
        }
        ["replay-check", file] => {
            let bytes = fs::read(file).expect("the list is read");
            match replay::check(&bytes, library().unwrap_or(run::call)) {
                Some((records, differences)) => {
                    println!("{records} records, {differences} differences");
                    verdict(differences)
                }
                None => {
                    println!("the list does not read back");
                    ExitCode::FAILURE
                }
            }
        }
        ["bench"] => benched(5),
        ["bench", rounds] => benched(number(rounds) as usize),
        ["bench-loads", rounds] => {
            bench::load_bench(library(), library_load(), number(rounds) as usize);
            ExitCode::SUCCESS
        }
        ["bench-finish", rounds] => match (library(), library_finish()) {
            (Some(call), Some(finish)) => {
                bench::finish_bench(call, finish, number(rounds) as usize);
                ExitCode::SUCCESS
            }
            _ => not_linked(),
        },
        ["bench-firm", rounds] => match (library(), library_firm()) {
            (Some(call), Some(firm)) => {
                bench::firm_bench(call, firm, number(rounds) as usize);
                ExitCode::SUCCESS
            }
            _ => not_linked(),
        },
        ["heavy", folder] => heavy_sheets(Path::new(folder)),
        ["about"] => {
            println!("the original text: {}", original::SOURCE);
            println!("the library: {}", if library().is_some() { "linked" } else { "not linked" });
            ExitCode::SUCCESS
        }
        _ => {
            println!("{HELP}");
            ExitCode::from(2)
        }
    }
}

fn number(text: &str) -> u64 {
    text.parse().unwrap_or_else(|_| panic!("{text} is no number"))
}

/// What is said of an accepted sheet with groups, in the place of an answer.
const GROUPED: &[u8] = b"accepted with groups: the original is not asked\n";

/// What the program prints for a sheet, as far as the original is asked.
fn printed(mode: Mode, sheet: &[u8]) -> Vec<u8> {
    text_of(run::answer(mode, sheet).map(|answer| answer.unwrap_or(GROUPED.to_vec())))
}

/// An answer, or the line of a refusal.
fn text_of(answer: Result<Vec<u8>, Refusal>) -> Vec<u8> {
    answer.unwrap_or_else(|refusal| format!("refused={},{},{}\n", refusal.number, refusal.line, refusal.length).into_bytes())
}

fn write(bytes: &[u8]) {
    std::io::stdout().write_all(bytes).expect("standard output takes it");
}

fn answer(mode: Mode) -> ExitCode {
    let mut sheet = Vec::new();
    std::io::stdin().read_to_end(&mut sheet).expect("standard input gives it");
    write(&printed(mode, &sheet));
    ExitCode::SUCCESS
}

fn show(mode: Mode, sheet: &[u8]) {
    write(sheet);
    println!("---");
    write(&printed(mode, sheet));
    println!("---");
}

/// The sheets of the benchmark as files, with their answers.
fn heavy_sheets(folder: &Path) -> ExitCode {
    fs::create_dir_all(folder).expect("the folder is made");
    let mut sheets: Vec<(String, Mode, Vec<u8>)> =
        [1024, 2048, 4096, 8192, 16384].map(|size| (format!("ordinary-{size}"), Mode::Partial, heavy::ordinary(size))).to_vec();
    for (n, (name, mode, sheet)) in heavy::all().into_iter().enumerate() {
        println!("heavy-{n}: {name}");
        sheets.push((format!("heavy-{n}"), mode, sheet));
    }
    for (name, mode, sheet) in sheets {
        let base = folder.join(name).display().to_string();
        fs::write(format!("{base}.{}.sheet", mode.word()), &sheet).expect("a sheet is written");
        fs::write(format!("{base}.{}.host", mode.word()), printed(mode, &sheet)).expect("an answer is written");
    }
    ExitCode::SUCCESS
}

fn benched(rounds: usize) -> ExitCode {
    bench::bench(library(), library_load(), rounds);
    if let (Some(call), Some(finish)) = (library(), library_finish()) {
        bench::finish_bench(call, finish, rounds);
    }
    if let (Some(call), Some(firm)) = (library(), library_firm()) {
        bench::firm_bench(call, firm, rounds);
    }
    ExitCode::SUCCESS
}

/// Success where nothing differed.
fn verdict(differences: usize) -> ExitCode {
    if differences == 0 {
        ExitCode::SUCCESS
    } else {
        ExitCode::FAILURE
    }
}

fn finished(call: Finish, count: u64, seed: u64) -> ExitCode {
    let counts = finish::compare(call, count, seed);
    println!("finish of the library against the complete sheet's own run, seed {seed}: {}", counts.line());
    verdict(counts.differences)
}

fn paged(call: Call, page: Page, count: u64, seed: u64) -> ExitCode {
    let counts = pages::compare(call, page, count, seed);
    println!("pages of the library against those of the original's answers, seed {seed}: {}", counts.line());
    verdict(counts.differences)
}

fn loaded(load: Load, call: Call, count: u64, seed: u64) -> ExitCode {
    let counts = loads::compare(load, call, count, seed);
    println!("test loads of the library against the document's words, seed {seed}: {}", counts.line());
    verdict(counts.differences)
}

fn previewed(call: Preview, count: u64, seed: u64) -> ExitCode {
    let counts = preview::compare(call, count, seed);
    println!("preview of the library against the original's run on a copy, seed {seed}: {}", counts.line());
    verdict(counts.differences)
}

fn quoted(call: Firm, count: u64, seed: u64) -> ExitCode {
    let counts = firm::compare(call, count, seed);
    println!("firm of the library against the original's run for each row, seed {seed}: {}", counts.line());
    verdict(counts.differences)
}

fn compared(name: &str, call: Call, count: u64, seed: u64) -> ExitCode {
    let counts = compare::compare(call, count, seed);
    println!("{name} against the original, seed {seed}: {}", counts.line());
    verdict(counts.differences)
}

/// Answers handed back to the library.
fn handed_back(call: Call, count: usize, seed: u64) -> ExitCode {
    let counts = again::again(call, count, seed);
    println!("answers of partial sheets, seed {seed}: {}", counts.line());
    verdict(counts.differences)
}

/// Known sheets, each with its expected text, and one of them in several buffers.
fn cases(folder: &Path) -> ExitCode {
    let mut names: Vec<String> = fs::read_dir(folder)
        .expect("the folder is there")
        .map(|entry| entry.expect("an entry").path().display().to_string())
        .collect();
    names.sort();
    let (mut count, mut differences, mut grouped) = (0, 0, 0);
    for name in names {
        let mode = match name {
            ref name if name.ends_with(".partial.sheet") => Mode::Partial,
            ref name if name.ends_with(".complete.sheet") => Mode::Complete,
            _ => continue,
        };
        let stem = name.strip_suffix(".sheet").expect("it ends so");
        let Ok(expected) = fs::read(format!("{stem}.expect")).or(fs::read(format!("{name}.out"))) else {
            println!("{name}: no expected text");
            differences += 1;
            continue;
        };
        let sheet = fs::read(&name).expect("the sheet is read");
        count += 1;
        let text = printed(mode, &sheet);
        let accepted = !expected.starts_with(b"refused=");
        if text == GROUPED && accepted {
            grouped += 1;
        } else if text != expected {
            differences += 1;
            println!("{name} differs");
        }
        if stem.ends_with("/example.partial") {
            let (more, wrong) = lent_cases(&sheet, &expected);
            count += more;
            differences += wrong;
        }
    }
    println!("{count} cases, {differences} differences; {grouped} accepted with groups, their answers not compared");
    verdict(differences)
}

/// The known sheet with an exact, a short and no buffer, and with a short work slice.
fn lent_cases(sheet: &[u8], expected: &[u8]) -> (usize, usize) {
    let needed = expected.len() as u32;
    let call = |sheet: &[u8], work: usize, out: usize| {
        let (mut a, mut b, mut buffer) = (vec![1; work], vec![1; 16384], vec![1; out]);
        run::call(Mode::Partial, sheet, &mut a, &mut b, &mut buffer)
    };
    let checks = [
        (call(sheet, 16384, expected.len()), [0, 0, needed]),
        (call(sheet, 16384, expected.len() - 1), [10, 0, needed]),
        (call(sheet, 16384, 0), [10, 0, needed]),
        (call(b"", 16383, 0), [1, 0, 0]),
        (call(b"", 16384, 0), [3, 1, 0]),
    ];
    (checks.len(), checks.iter().filter(|(got, wanted)| got != wanted).count())
}

/// Random sheets: counts, demand 3 on triples, and perhaps files.
fn random(count: u64, seed: u64, folder: Option<&Path>) -> ExitCode {
    if let Some(folder) = folder {
        fs::create_dir_all(folder).expect("the folder is made");
    }
    let mut numbers = [0; 11];
    let mut shown = Shown::default();
    let put = |name: String, mode: Mode, sheet: &[u8]| {
        if let Some(folder) = folder {
            let base = folder.join(format!("{name}.{}", mode.word()));
            fs::write(base.with_extension(format!("{}.sheet", mode.word())), sheet).expect("a sheet is written");
            fs::write(base.with_extension(format!("{}.host", mode.word())), printed(mode, sheet)).expect("an answer is written");
        }
    };
    for n in 0..count {
        let case = generate::sheet(seed, n);
        let number = sheet::read(case.mode, &case.bytes).map_or_else(|refusal| refusal.number, |_| 0);
        shown.see(case.mode, &case.bytes);
        numbers[number as usize] += 1;
        put(format!("s{seed}-{n}"), case.mode, &case.bytes);
    }
    let mut faults = 0;
    for n in 0..count / 4 {
        let sheets = generate::triple(seed, n);
        let answers: Vec<Vec<u8>> = sheets
            .iter()
            .enumerate()
            .map(|(which, sheet)| {
                let mode = if which == 0 { Mode::Partial } else { Mode::Complete };
                put(format!("t{seed}-{n}-{which}"), mode, sheet);
                printed(mode, sheet)
            })
            .collect();
        if let Err(text) = run::demand3([&sheets[0], &sheets[1], &sheets[2]], [&answers[0], &answers[1], &answers[2]]) {
            faults += 1;
            println!("triple {n}: {text}");
        }
    }
    println!("{count} sheets, numbers {}; {} triples, {faults} against demand 3", compare::by_number(&numbers), count / 4);
    println!("{}", shown.line());
    if faults == 0 {
        ExitCode::SUCCESS
    } else {
        ExitCode::FAILURE
    }
}
