//! The benchmark: the library beside the original, on the same sheets, in one process.
//!
//! A time is the least of several rounds, each of as many calls as take some hundredths of a second, by the processor's
//! clock of this process, so that other processes disturb it little. What is timed of the original is all that a call does: reading the sheet (the host's reader, since the original has none), the
//! original's own text, and printing. The column "reading" says how much of it is the host's reader. Sheets with groups of kinds are
//! not handed to the original: only the library's time is measured.

use std::hint::black_box;

use crate::compare::Call;
use crate::finish::Finish;
use crate::firm::{self, Firm};
use crate::generate;
use crate::heavy;
use crate::loads::{self, Load};
use crate::run;
use crate::sheet::{self, Mode, ANSWER_BYTES, WORK_WORDS};

extern "C" {
    /// C's `clock`: the processor time of the process, on Unix in millionths of a second.
    fn clock() -> std::ffi::c_long;
}

/// The processor time until now, in seconds.
fn now() -> f64 {
    // The function has no arguments and touches nothing of ours.
    unsafe { clock() as f64 / 1e6 }
}

/// The least time of one go of `work`, in nanoseconds.
fn time(rounds: usize, mut work: impl FnMut()) -> f64 {
    let start = now();
    work();
    work();
    let once = ((now() - start) / 2.0).max(1e-6);
    let goes = (0.02 / once).ceil().max(1.0) as usize;
    let mut best = f64::MAX;
    for _ in 0..rounds {
        let start = now();
        for _ in 0..goes {
            work();
        }
        best = best.min((now() - start) / goes as f64);
    }
    best * 1e9
}

struct Times {
    /// None where a sheet has groups.
    original: Option<f64>,
    reading: f64,
    library: Option<f64>,
    bytes: usize,
    answers: usize,
    sheets: usize,
}

impl Times {
    /// The library's time for each byte of sheet and answer.
    fn per_byte(&self) -> Option<f64> {
        self.library.map(|library| library / (self.bytes + self.answers) as f64)
    }

    /// How many times as long the original takes.
    fn ratio(&self) -> Option<f64> {
        Some(self.original? / self.library?)
    }
}

/// A number with so many places after the point; `-` where there is none.
fn shown(number: Option<f64>, places: usize) -> String {
    number.map_or("-".into(), |number| format!("{number:.places$}"))
}

fn measure(sheets: &[(Mode, Vec<u8>)], library: Option<Call>, rounds: usize) -> Times {
    let mut out = vec![0u8; ANSWER_BYTES];
    let (mut a, mut b) = (vec![0u32; WORK_WORDS], vec![0u32; WORK_WORDS]);
    let mut times = Times { original: Some(0.0), reading: 0.0, library: None, bytes: 0, answers: 0, sheets: sheets.len() };
    for (mode, sheet) in sheets {
        let answer = run::answer(*mode, sheet).expect("a sheet of the benchmark is accepted");
        times.bytes += sheet.len();
        times.original = times.original.filter(|_| answer.is_some()).map(|sum| {
            sum + time(rounds, || {
                black_box(run::call(*mode, black_box(sheet), &mut a, &mut b, &mut out));
            })
        });
        times.reading += time(rounds, || {
            let _ = black_box(sheet::read(*mode, black_box(sheet)));
        });
        let mut length = answer.map_or(0, |answer| answer.len());
        if let Some(call) = library {
            let [number, _, written] = call(*mode, sheet, &mut a, &mut b, &mut out);
            assert_eq!(number, 0, "a sheet of the benchmark is accepted");
            length = written as usize;
            let one = time(rounds, || {
                black_box(call(*mode, black_box(sheet), &mut a, &mut b, &mut out));
            });
            times.library = Some(times.library.unwrap_or(0.0) + one);
        }
        times.answers += length;
    }
    times
}

fn row(name: &str, times: &Times) {
    let (sheets, bytes) = (times.sheets as f64, times.bytes as f64);
    println!(
        "| {name} | {:.0} | {} | {} | {:.0} | {} | {} | {} |",
        bytes / sheets,
        shown(times.original.map(|original| original / sheets), 0),
        shown(times.original.map(|original| original / bytes), 1),
        times.reading / sheets,
        shown(times.library.map(|library| library / sheets), 0),
        shown(times.library.map(|library| library / bytes), 2),
        shown(times.ratio(), 1),
    );
}

/// How many times as large; None where one of them is.
fn times_as(number: Option<f64>, ordinary: Option<f64>) -> Option<f64> {
    Some(number? / ordinary?)
}

/// The library's times for the sheets of pairs, each by itself, and for finishing them; the bytes of all.
struct Finishing {
    partial: f64,
    complete: f64,
    finish: f64,
    bytes: usize,
}

fn finishing(pairs: &[[Vec<u8>; 2]], library: Call, finish: Finish, rounds: usize) -> Finishing {
    let mut out = vec![0u8; ANSWER_BYTES];
    let (mut a, mut b) = (vec![0u32; WORK_WORDS], vec![0u32; WORK_WORDS]);
    let mut sum = Finishing { partial: 0.0, complete: 0.0, finish: 0.0, bytes: 0 };
    for [partial, complete] in pairs {
        assert_eq!(finish(partial, complete, &mut a, &mut b, &mut out)[0], 0, "a pair of the benchmark agrees");
        sum.bytes += partial.len() + complete.len();
        sum.partial += time(rounds, || {
            black_box(library(Mode::Partial, black_box(partial), &mut a, &mut b, &mut out));
        });
        sum.complete += time(rounds, || {
            black_box(library(Mode::Complete, black_box(complete), &mut a, &mut b, &mut out));
        });
        sum.finish += time(rounds, || {
            black_box(finish(black_box(partial), complete, &mut a, &mut b, &mut out));
        });
    }
    sum
}

/// The third table: finishing beside the two sheets' own runs.
pub fn finish_bench(library: Call, finish: Finish, rounds: usize) {
    println!(
        "\n| pair | bytes of both sheets | its partial run, ns | its complete run, ns | finish, ns | finish, times both runs |"
    );
    println!("|---|---|---|---|---|---|");
    let random = (0..60).map(|n| generate::triple(4, n)).map(|[partial, complete, _]| [partial, complete]).collect();
    let mut rows: Vec<(String, Vec<[Vec<u8>; 2]>)> = vec![("60 random ones".into(), random)];
    rows.extend(heavy::pairs().into_iter().map(|(name, pair)| (name, vec![pair])));
    for (name, pairs) in rows {
        let times = finishing(&pairs, library, finish, rounds);
        let count = pairs.len() as f64;
        println!(
            "| {name} | {:.0} | {:.0} | {:.0} | {:.0} | {:.2} |",
            times.bytes as f64 / count,
            times.partial / count,
            times.complete / count,
            times.finish / count,
            times.finish / (times.partial + times.complete)
        );
    }
}

/// The fourth table: a list of rows beside a call for each of them, on the sheet with its texts filled in.
pub fn firm_bench(library: Call, call: Firm, rounds: usize) {
    println!(
        "\n| ordinary sheet, bytes | {} calls, ns | firm without rows, ns | with {} rows, ns | a row, ns | of the calls |",
        firm::ROWS,
        firm::ROWS
    );
    println!("|---|---|---|---|---|---|");
    let mut out = vec![0u8; ANSWER_BYTES];
    let (mut a, mut b) = (vec![0u32; WORK_WORDS], vec![0u32; WORK_WORDS]);
    for size in [1024, 4096, 8192, 16384] {
        let sheet = heavy::ordinary(size);
        let text = std::str::from_utf8(&sheet).expect("a sheet of the benchmark is text");
        let mut rows = firm::fitting(text);
        let copies: Vec<String> = rows.iter().map(|row| firm::filled(text, row)).collect();
        for copy in &copies {
            assert_eq!(library(Mode::Partial, copy.as_bytes(), &mut a, &mut b, &mut out)[0], 0, "a filled sheet is accepted");
        }
        assert_eq!(call(&mut rows, &sheet, &mut a, &mut b).0[0], 0, "the rows fit the sheet");
        let calls = time(rounds, || {
            for copy in &copies {
                black_box(library(Mode::Partial, black_box(copy.as_bytes()), &mut a, &mut b, &mut out));
            }
        });
        let none = time(rounds, || {
            black_box(call(&mut [], black_box(&sheet), &mut a, &mut b));
        });
        let all = time(rounds, || {
            black_box(call(&mut rows, black_box(&sheet), &mut a, &mut b));
        });
        println!(
            "| {} | {calls:.0} | {none:.0} | {all:.0} | {:.0} | {:.2} |",
            sheet.len(),
            (all - none) / firm::ROWS as f64,
            all / calls
        );
    }
}

/// The seeds of the test loads that are measured. They are far apart, since near ones may name one sheet.
fn load_seeds() -> impl Iterator<Item = u64> {
    (0..16).map(|n| n << 60)
}

/// Their sheets of most policies: the library's where it is linked.
fn test_loads(load: Option<Load>) -> Vec<(Mode, Vec<u8>)> {
    let own = |seed| loads::sheet(seed, loads::MOST);
    let made = |load: Load, seed| {
        let mut out = vec![0u8; loads::BYTES];
        let [number, _, length] = load(seed, loads::MOST, &mut out);
        assert_eq!(number, 0, "the buffer is long enough");
        out.truncate(length as usize);
        out
    };
    load_seeds().map(|seed| (Mode::Partial, load.map_or_else(|| own(seed), |load| made(load, seed)))).collect()
}

fn load_row(library: Option<Call>, load: Option<Load>, rounds: usize) {
    row("16 test loads of 64 policies", &measure(&test_loads(load), library, rounds));
}

fn table_head() {
    let head = "| sheets | bytes a sheet | original, ns a sheet | original, ns a byte | of it reading, ns a sheet | library, ns a sheet | library, ns a byte | ratio |";
    println!("{head}\n|---|---|---|---|---|---|---|---|");
}

/// The row of test loads by itself, and how long the library takes to make one.
pub fn load_bench(library: Option<Call>, load: Option<Load>, rounds: usize) {
    table_head();
    load_row(library, load, rounds);
    if let Some(load) = load {
        let mut out = vec![0u8; loads::BYTES];
        let making = time(rounds, || {
            for seed in load_seeds() {
                black_box(load(black_box(seed), loads::MOST, &mut out));
            }
        });
        println!("\nthe library makes one in {:.0} ns", making / load_seeds().count() as f64);
    }
}

pub fn bench(library: Option<Call>, load: Option<Load>, rounds: usize) {
    table_head();
    let mixed: Vec<(Mode, Vec<u8>)> = (0..60).map(|n| (Mode::Partial, heavy::mixed(4, n))).collect();
    row("60 random valid ones", &measure(&mixed, library, rounds));
    let mut whole = None;
    for size in [1024, 2048, 4096, 8192, 16384] {
        let times = measure(&[(Mode::Partial, heavy::ordinary(size))], library, rounds);
        row(&format!("ordinary, {size} bytes"), &times);
        whole = Some(times);
    }
    load_row(library, load, rounds);
    let whole = whole.expect("the largest ordinary sheet");
    println!();
    println!("| heavy accepted sheet | bytes | answer, bytes | original, ns | times the ordinary one of 16,384 bytes | library, ns | times the ordinary one | library, ns a byte of sheet and answer | ratio |");
    println!("|---|---|---|---|---|---|---|---|---|");
    let (mut greatest, mut greatest_a_byte) = (0.0f64, 0.0f64);
    for (name, mode, sheet) in heavy::all() {
        let times = measure(&[(mode, sheet)], library, rounds);
        let share = times_as(times.library, whole.library);
        greatest = greatest.max(share.unwrap_or(0.0));
        greatest_a_byte = greatest_a_byte.max(times_as(times.per_byte(), whole.per_byte()).unwrap_or(0.0));
        println!(
            "| {name} | {} | {} | {} | {} | {} | {} | {} | {} |",
            times.bytes,
            times.answers,
            shown(times.original, 0),
            shown(times_as(times.original, whole.original), 1),
            shown(times.library, 0),
            shown(share, 1),
            shown(times.per_byte(), 2),
            shown(times.ratio(), 1),
        );
    }
    match library {
        Some(_) => println!(
            "\nthe heaviest takes the library {greatest:.1} times an ordinary sheet of 16,384 bytes, for each byte of sheet and answer {greatest_a_byte:.1} times"
        ),
        None => println!("\nthe library is not linked: the original alone was measured"),
    }
}
