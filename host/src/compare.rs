//! The comparison: the proved library beside the original, on random sheets, in whatever is lent.
//!
//! For each sheet both are lent buffers of the same lengths with the same contents, longer and shorter ones among them,
//! inside larger buffers. After the calls all of it must be equal: number, line, length, bytes written and not written,
//! words cleared and not touched, and what lies beside the lent parts. Of an accepted sheet with groups of kinds the original is not
//! asked: the library's answer in a long buffer, whose name its own lines must explain, stands for the original's, and all else is
//! compared. On triples of a partial sheet and two complete ones that agree with it, none with groups, demand 3 is run from the bytes
//! of the three answers.

use crate::generate::{self, Case};
use crate::random::Random;
use crate::run;
use crate::sheet::{Mode, Refusal, WORK_WORDS};

pub type Call = fn(Mode, &[u8], &mut [u32], &mut [u32], &mut [u8]) -> [u32; 3];

/// What lies on each side of a lent part.
const MARGIN: usize = 16;

/// Buffers as they are lent to one call: each with a margin before and after it.
#[derive(Clone, PartialEq)]
pub struct Lent {
    a: Vec<u32>,
    b: Vec<u32>,
    out: Vec<u8>,
}

impl Lent {
    pub fn of(a: usize, b: usize, out: usize, random: &mut Random) -> Lent {
        let (word, byte) = (random.next() as u32 | 1, random.next() as u8 | 128);
        let words = |len: usize, word: u32| (0..len + 2 * MARGIN).map(|i| word.wrapping_add(i as u32) | 1).collect();
        Lent { a: words(a, word), b: words(b, !word), out: vec![byte; out + 2 * MARGIN] }
    }

    /// The parts that are lent.
    pub fn parts(&mut self) -> (&mut [u32], &mut [u32], &mut [u8]) {
        let (a, b, out) = (self.a.len() - MARGIN, self.b.len() - MARGIN, self.out.len() - MARGIN);
        (&mut self.a[MARGIN..a], &mut self.b[MARGIN..b], &mut self.out[MARGIN..out])
    }

    fn call(&mut self, call: Call, case: &Case) -> [u32; 3] {
        let (a, b, out) = self.parts();
        call(case.mode, &case.bytes, a, b, out)
    }

    /// What a call with an answer or refusal leaves here.
    pub fn left(&mut self, answer: Result<Vec<u8>, Refusal>) -> [u32; 3] {
        let (a, b, out) = self.parts();
        run::left(|| answer, a, b, out)
    }

    /// Where a call left something else than expected.
    pub fn differs(&self, expected: &Lent) -> Option<String> {
        if self.out != expected.out {
            let at = self.out.iter().zip(&expected.out).position(|(x, y)| x != y).expect("a place");
            return Some(format!(
                "answer buffer differs at byte {} of {}",
                at as i64 - MARGIN as i64,
                self.out.len() - 2 * MARGIN
            ));
        }
        for (name, x, y) in [("first", &self.a, &expected.a), ("second", &self.b, &expected.b)] {
            if let Some(at) = x.iter().zip(y).position(|(x, y)| x != y) {
                return Some(format!(
                    "{name} work slice differs at word {} of {}",
                    at as i64 - MARGIN as i64,
                    x.len() - 2 * MARGIN
                ));
            }
        }
        None
    }
}

/// Counts of a comparison.
#[derive(Default)]
pub struct Counts {
    pub sheets: usize,
    pub triples: usize,
    pub differences: usize,
    /// Accepted sheets with groups, whose answers are the library's alone.
    pub grouped: usize,
    /// Accepted sheets with a policy that gave the decision, and with several.
    pub named: usize,
    pub several: usize,
    pub numbers: [usize; 11],
}

/// How often each number of the table was met; the table has no 9.
pub fn by_number(numbers: &[usize]) -> String {
    let met = numbers.iter().enumerate().filter(|(n, count)| *n != 9 || **count > 0);
    met.map(|(n, count)| format!("{n}:{count}")).collect::<Vec<String>>().join(" ")
}

impl Counts {
    pub fn line(&self) -> String {
        format!(
            "{} sheets, {} triples, {} differences; numbers {}; {} accepted with groups, their answers not compared; {} with a policy to name, {} of them with several",
            self.sheets,
            self.triples,
            self.differences,
            by_number(&self.numbers),
            self.grouped,
            self.named,
            self.several
        )
    }
}

/// The length of a work slice: mostly as long as needed or longer, at times too short.
pub fn work_length(random: &mut Random) -> usize {
    match random.below(100) {
        0..=69 => WORK_WORDS,
        70..=97 => WORK_WORDS + random.from(1, 80),
        98 => WORK_WORDS - 1,
        _ => random.below(WORK_WORDS),
    }
}

/// The length of an answer buffer, around the length of the answer.
pub fn buffer_length(needed: usize, random: &mut Random) -> usize {
    match random.below(100) {
        0..=39 => needed,
        40..=74 => needed + random.from(1, 100),
        75..=79 => 65536,
        80..=87 => needed.saturating_sub(1),
        88..=91 => 0,
        _ => random.below(needed + 1),
    }
}

/// The answer to a sheet in a buffer that is long enough.
fn whole_answer(call: Call, case: &Case, random: &mut Random) -> Result<Vec<u8>, String> {
    let mut lent = Lent::of(WORK_WORDS, WORK_WORDS + random.below(3), 65536, random);
    let [mut number, mut line, mut length] = lent.call(call, case);
    if number == 10 {
        lent = Lent::of(WORK_WORDS, WORK_WORDS, length as usize, random);
        [number, line, length] = lent.call(call, case);
    }
    match number {
        0 => Ok(lent.out[MARGIN..MARGIN + length as usize].to_vec()),
        _ => Err(format!("it is refused: {number},{line},{length}")),
    }
}

/// The original's answer to a sheet, or its refusal; the library's answer where the original is not asked.
pub fn original(call: Call, case: &Case, random: &mut Random, grouped: &mut usize) -> Result<Result<Vec<u8>, Refusal>, String> {
    match run::answer(case.mode, &case.bytes) {
        Ok(Some(answer)) => Ok(Ok(answer)),
        Ok(None) => {
            *grouped += 1;
            whole_answer(call, case, random).map(Ok).map_err(|text| format!("an accepted sheet with groups: {text}"))
        }
        Err(refusal) => Ok(Err(refusal)),
    }
}

/// Runs both on one sheet and says what differs.
fn one(call: Call, case: &Case, random: &mut Random, counts: &mut Counts) -> Option<String> {
    counts.sheets += 1;
    let answer = match original(call, case, random, &mut counts.grouped) {
        Ok(answer) => answer,
        Err(text) => return Some(text),
    };
    if let Ok(answer) = &answer {
        match run::explained(case.mode, answer) {
            Ok(reasons) => {
                counts.named += usize::from(reasons > 0);
                counts.several += usize::from(reasons > 1);
            }
            Err(text) => return Some(text),
        }
    }
    let (number, differs) = beside(answer, random, |a, b, out| call(case.mode, &case.bytes, a, b, out));
    counts.numbers[number] += 1;
    differs
}

/// A call in whatever is lent, beside what an answer or a refusal should leave there: the number that it should return, and what differs.
pub fn beside(
    answer: Result<Vec<u8>, Refusal>,
    random: &mut Random,
    call: impl FnOnce(&mut [u32], &mut [u32], &mut [u8]) -> [u32; 3],
) -> (usize, Option<String>) {
    let needed = answer.as_ref().map_or(40, Vec::len);
    let mut expected = Lent::of(work_length(random), work_length(random), buffer_length(needed, random), random);
    let mut found = expected.clone();
    let wanted = expected.left(answer);
    let (a, b, out) = found.parts();
    let got = call(a, b, out);
    let differs = if got == wanted { found.differs(&expected) } else { Some(format!("returned {got:?}, expected {wanted:?}")) };
    (wanted[0] as usize, differs)
}

/// A call without an answer buffer, likewise.
pub fn beside_words(
    answer: Result<(), Refusal>,
    random: &mut Random,
    call: impl FnOnce(&mut [u32], &mut [u32]) -> [u32; 3],
) -> (usize, Option<String>) {
    let mut expected = Lent::of(work_length(random), work_length(random), 0, random);
    let mut found = expected.clone();
    let wanted = expected.left(answer.map(|()| Vec::new()));
    let (a, b, _) = found.parts();
    let got = call(a, b);
    let differs = if got == wanted { found.differs(&expected) } else { Some(format!("returned {got:?}, expected {wanted:?}")) };
    (wanted[0] as usize, differs)
}

/// The three answers of a triple, and demand 3 over them.
fn triple(call: Call, sheets: &[Vec<u8>; 3], random: &mut Random) -> Option<String> {
    let mut answers: Vec<Vec<u8>> = Vec::new();
    for (n, sheet) in sheets.iter().enumerate() {
        let mode = if n == 0 { Mode::Partial } else { Mode::Complete };
        match whole_answer(call, &Case { mode, bytes: sheet.clone() }, random) {
            Ok(answer) => answers.push(answer),
            Err(text) => return Some(format!("sheet {n} of a triple: {text}")),
        }
    }
    run::demand3([&sheets[0], &sheets[1], &sheets[2]], [&answers[0], &answers[1], &answers[2]]).err()
}

/// One difference more; the first twenty are printed.
pub fn report(differences: &mut usize, text: String) {
    *differences += 1;
    if *differences <= 20 {
        println!("{text}");
    }
}

/// Compares on so many sheets of a seed, and on a triple for every fourth.
pub fn compare(call: Call, count: u64, seed: u64) -> Counts {
    let mut counts = Counts::default();
    for n in 0..count {
        let case = generate::sheet(seed, n);
        let random = &mut Random::of(!seed, n);
        if let Some(text) = one(call, &case, random, &mut counts) {
            report(&mut counts.differences, format!("seed {seed}, sheet {n}: {text} (host show {seed} {n})"));
        }
        if n % 4 == 0 {
            counts.triples += 1;
            if let Some(text) = triple(call, &generate::triple(seed, n), random) {
                report(&mut counts.differences, format!("seed {seed}, triple {n}: {text} (host show-triple {seed} {n})"));
            }
        }
    }
    counts
}

#[cfg(test)]
mod tests {
    use super::*;

    fn differences(call: Call) -> usize {
        compare(call, 60, 5).differences
    }

    #[test]
    fn the_original_agrees_with_itself() {
        assert_eq!(differences(run::call), 0);
    }

    #[test]
    fn a_word_left_uncleared_is_found() {
        assert!(
            differences(|mode, sheet, a, b, out| {
                let result = run::call(mode, sheet, a, b, out);
                if result[0] != 1 {
                    b[WORK_WORDS - 1] = 9;
                }
                result
            }) > 0
        );
    }

    #[test]
    fn a_word_cleared_too_many_is_found() {
        assert!(
            differences(|mode, sheet, a, b, out| {
                let result = run::call(mode, sheet, a, b, out);
                if result[0] != 1 && a.len() > WORK_WORDS {
                    a[WORK_WORDS] = 0;
                }
                result
            }) > 0
        );
    }

    #[test]
    fn a_byte_past_the_answer_is_found() {
        assert!(
            differences(|mode, sheet, a, b, out| {
                let result = run::call(mode, sheet, a, b, out);
                if let Some(byte) = out.get_mut(result[2] as usize) {
                    *byte = b'x';
                }
                result
            }) > 0
        );
    }

    #[test]
    fn a_sheet_with_groups_refused_is_found() {
        assert!(
            differences(|mode, sheet, a, b, out| {
                let result = run::call(mode, sheet, a, b, out);
                if result[0] != 1 && run::answer(mode, sheet) == Ok(None) {
                    return [3, 1, 0];
                }
                result
            }) > 0
        );
    }

    /// A call whose answer has another name, made of its own one and the policies that gave the decision.
    fn renamed(
        rename: fn(&str, &[&str]) -> String,
        mode: Mode,
        sheet: &[u8],
        a: &mut [u32],
        b: &mut [u32],
        out: &mut [u8],
    ) -> [u32; 3] {
        let Ok(Some(answer)) = run::answer(mode, sheet) else {
            return run::call(mode, sheet, a, b, out);
        };
        let text = String::from_utf8(answer).expect("answers are ASCII");
        let lines: Vec<&str> = text.split_inclusive('\n').collect();
        let reason = if lines[0] == "decision=allow\n" { ",permit,true" } else { ",forbid,true" };
        let reasons: Vec<&str> =
            lines.iter().filter(|line| line.contains(reason)).map(|line| &line[7..line.find(',').unwrap()]).collect();
        let name = rename(lines[2]["why=".len()..].trim_end(), &reasons);
        let other = [&lines[..2].concat(), "why=", &name, "\n", &lines[3..].concat()].concat();
        run::left(|| Ok(other.into_bytes()), a, b, out)
    }

    #[test]
    fn the_same_name_is_no_difference() {
        assert_eq!(differences(|mode, sheet, a, b, out| renamed(|name, _| name.into(), mode, sheet, a, b, out)), 0);
    }

    #[test]
    fn another_policy_that_gave_the_decision_is_found() {
        let last: Call = |mode, sheet, a, b, out| {
            let rename = |name: &str, reasons: &[&str]| {
                if reasons.len() > 1 && name != "none" {
                    reasons[reasons.len() - 1].into()
                } else {
                    name.into()
                }
            };
            renamed(rename, mode, sheet, a, b, out)
        };
        let counts = compare(last, 600, 5);
        assert!(counts.several > 20 && counts.differences > 20);
    }

    #[test]
    fn a_name_left_out_is_found() {
        assert!(differences(|mode, sheet, a, b, out| renamed(|_, _| "none".into(), mode, sheet, a, b, out)) > 0);
    }

    #[test]
    fn another_name_is_found() {
        assert!(differences(|mode, sheet, a, b, out| renamed(|_, _| "0".into(), mode, sheet, a, b, out)) > 0);
    }

    #[test]
    fn another_line_is_found() {
        assert!(
            differences(|mode, sheet, a, b, out| {
                let [number, line, length] = run::call(mode, sheet, a, b, out);
                [number, if line > 20 { line - 1 } else { line }, length]
            }) > 0
        );
    }
}
