//! The fixed list: some hundreds of sheets with the original's answers, for a program that replays them without Rust. Sheets with
//! groups of kinds are among those that are refused; the original is not asked for their answers.
//!
//! The first line holds the number of records. A record is a line of six decimal numbers,
//!
//!     entry,sheet,buffer,number,line,length
//!
//! (entry 0 partial, 1 complete; the bytes of the sheet; the length of the answer buffer to lend; what the call returns),
//! then the bytes of the sheet, then, if the number is 0, as many bytes of the answer as the length says.

use crate::generate::{self, Case};
use crate::parents::Shown;
use crate::random::Random;
use crate::run;
use crate::sheet::Mode;

const SEED: u64 = 8;

/// How many records of each number are taken from the random sheets. Those of 1 need other work slices, and there is no 9.
const WANTED: [usize; 11] = [260, 0, 1, 70, 20, 60, 12, 50, 30, 0, 40];

/// Accepted sheets are taken only up to this size, so that the list stays short.
const LONGEST: usize = 2500;

struct List {
    records: usize,
    grouped: usize,
    shown: Shown,
    numbers: [usize; 11],
    bytes: Vec<u8>,
}

/// Whether a line lists two kinds or more.
fn has_group(sheet: &[u8]) -> bool {
    sheet.split(|byte| *byte == b'\n').any(|line| {
        let kinds = line.strip_prefix(b"type=entity,").unwrap_or_default();
        kinds.contains(&b',')
    })
}

impl List {
    fn add(&mut self, case: &Case, buffer: usize) {
        let mut out = vec![0; buffer];
        let mut work = vec![vec![0; crate::sheet::WORK_WORDS]; 2];
        let (a, b) = work.split_at_mut(1);
        let [number, line, length] = run::call(case.mode, &case.bytes, &mut a[0], &mut b[0], &mut out);
        let entry = if case.mode == Mode::Partial { 0 } else { 1 };
        self.bytes.extend_from_slice(format!("{entry},{},{buffer},{number},{line},{length}\n", case.bytes.len()).as_bytes());
        self.bytes.extend_from_slice(&case.bytes);
        if number == 0 {
            self.bytes.extend_from_slice(&out[..length as usize]);
        }
        self.records += 1;
        self.grouped += usize::from(has_group(&case.bytes));
        self.shown.see(case.mode, &case.bytes);
        self.numbers[number as usize] += 1;
    }
}

/// The bytes of the list, and a line about it.
pub fn list() -> (Vec<u8>, String) {
    let mut list = List { records: 0, grouped: 0, shown: Shown::default(), numbers: [0; 11], bytes: Vec::new() };
    // The limits, each met and exceeded.
    for which in 0..generate::LIMITS {
        for over in 0..2 {
            let case = generate::limit(which, over, &mut Random::of(SEED, which as u64));
            if run::answer(case.mode, &case.bytes) != Ok(None) {
                list.add(&case, 65536);
            }
        }
    }
    let mut taken = [0; 11];
    let mut n = 0;
    while taken.iter().zip(&WANTED).any(|(taken, wanted)| taken < wanted) && n < 100_000 {
        let case = generate::sheet(SEED, n);
        let random = &mut Random::of(!SEED, n);
        n += 1;
        let (number, buffer) = match run::answer(case.mode, &case.bytes) {
            Ok(None) => continue,
            Ok(Some(answer)) if random.chance(20) => (10, random.pick(&[0, answer.len() - 1, answer.len() / 2])),
            Ok(Some(answer)) => (0, random.pick(&[answer.len(), answer.len() + 1, 65536])),
            Err(refusal) => (refusal.number as usize, random.pick(&[0, 1, 4096])),
        };
        if taken[number] < WANTED[number] && (number == 2 || case.bytes.len() <= LONGEST) {
            taken[number] += 1;
            list.add(&case, buffer);
        }
    }
    let about: Vec<String> = list.numbers.iter().enumerate().map(|(n, count)| format!("{n}:{count}")).collect();
    let mut bytes = format!("{}\n", list.records).into_bytes();
    bytes.extend_from_slice(&list.bytes);
    let line = format!(
        "{} records, {} bytes; numbers {}; {} with groups; {}",
        list.records,
        bytes.len(),
        about.join(" "),
        list.grouped,
        list.shown.line()
    );
    (bytes, line)
}

/// Reads a list back and runs each record; gives the number of records and of differences.
pub fn check(bytes: &[u8], call: crate::compare::Call) -> Option<(usize, usize)> {
    let mut rest = bytes;
    let count = numbers(&mut rest)?;
    let (mut records, mut differences) = (0, 0);
    while !rest.is_empty() {
        let head = numbers(&mut rest)?;
        let [entry, sheet, buffer, number, line, length] = head[..] else {
            return None;
        };
        let mode = if entry == 0 { Mode::Partial } else { Mode::Complete };
        let answer_length = if number == 0 { length } else { 0 };
        if rest.len() < sheet + answer_length {
            return None;
        }
        let (sheet, after) = rest.split_at(sheet);
        let (answer, after) = after.split_at(answer_length);
        rest = after;
        let mut out = vec![0xAA; buffer];
        let (mut a, mut b) = (vec![7; crate::sheet::WORK_WORDS], vec![7; crate::sheet::WORK_WORDS]);
        let result = call(mode, sheet, &mut a, &mut b, &mut out);
        let same = result.map(|n| n as usize) == [number, line, length]
            && out[..answer_length] == *answer
            && out[answer_length..].iter().all(|byte| *byte == 0xAA)
            && a.iter().chain(&b).all(|word| *word == 0);
        records += 1;
        differences += usize::from(!same);
    }
    (count == [records]).then_some((records, differences))
}

/// A line of decimal numbers.
fn numbers(rest: &mut &[u8]) -> Option<Vec<usize>> {
    let end = rest.iter().position(|byte| *byte == b'\n')?;
    let line = std::str::from_utf8(&rest[..end]).ok()?;
    *rest = &rest[end + 1..];
    line.split(',').map(|item| item.parse().ok()).collect()
}
