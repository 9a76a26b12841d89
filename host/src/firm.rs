//! Document 02, 2.14: the library's `firm` beside the original's runs, one for each row, on copies of the sheet that have the row's two texts.

use crate::compare::{beside_words, by_number, report};
use crate::generate;
use crate::random::Random;
use crate::run;
use crate::sheet::{Mode, Refusal, SHEET_BYTES};

/// A row as the library has it: two texts by number, and a decision.
#[repr(C)]
#[derive(Clone, Copy, Debug, PartialEq, Eq)]
pub struct Row {
    pub principal: u32,
    pub resource: u32,
    pub decision: u32,
}

/// Number, line and length, and the group's decision.
pub type Firm = fn(&mut [Row], &[u8], &mut [u32], &mut [u32]) -> ([u32; 3], u32);

pub const ROWS: usize = 64;
const ALLOW: u32 = 0;
const DENY: u32 = 1;
const OPEN: u32 = 2;

// What a call gives --------------------------------------------------------------------------------------------------------

/// The items of the line of a key that every sheet has once.
fn request<'a>(sheet: &'a str, key: &str) -> Vec<&'a str> {
    let line = sheet.lines().find_map(|line| line.strip_prefix(key)).expect("an accepted sheet has the line");
    line.split(',').collect()
}

/// "a text that does not exist or contradicts a known one"
fn fits(sheet: &str, key: &str, text: u32) -> bool {
    let known = request(sheet, key)[1];
    (text as usize) < sheet.lines().filter(|line| line.starts_with("text=")).count()
        && (known == "?" || known == text.to_string())
}

/// "the sheet with those two texts filled in"
pub fn filled(sheet: &str, row: &Row) -> String {
    sheet
        .lines()
        .map(|line| match line.split_once('=') {
            Some(("principal", items)) => format!("principal={},{}\n", items.split(',').next().unwrap(), row.principal),
            Some(("resource", items)) => format!("resource={},{}\n", items.split(',').next().unwrap(), row.resource),
            _ => format!("{line}\n"),
        })
        .collect()
}

/// As many rows as a call may have: what the sheet knows, else each of its first ten texts in turn, so that no filled sheet is longer than the sheet.
pub fn fitting(sheet: &str) -> Vec<Row> {
    let text = |key: &str, place: usize| request(sheet, key)[1].parse().unwrap_or(place as u32 % 10);
    (0..ROWS).map(|n| Row { principal: text("principal=", n), resource: text("resource=", n / 10), decision: OPEN }).collect()
}

/// The decision that the original's answer begins with.
fn decision(sheet: &str) -> u32 {
    let answer = run::answer(Mode::Partial, sheet.as_bytes()).expect("it is accepted").expect("triples have no groups");
    match answer.split(|byte| *byte == b'\n').next() {
        Some(b"decision=allow") => ALLOW,
        Some(b"decision=deny") => DENY,
        Some(b"decision=open") => OPEN,
        _ => panic!("an answer begins with its decision"),
    }
}

/// The decisions of the rows and the group's, in long enough slices.
pub fn answer(sheet: &[u8], rows: &[Row]) -> Result<(Vec<u32>, u32), Refusal> {
    let refused = |number, line| Err(Refusal { number, line, length: 0 });
    if sheet.len() > SHEET_BYTES {
        return refused(2, 0);
    }
    if rows.len() > ROWS {
        return refused(14, 0);
    }
    run::answer(Mode::Partial, sheet)?;
    let sheet = std::str::from_utf8(sheet).expect("an accepted sheet has bytes 10 and 32 to 126 alone");
    let wrong = |row: &Row| !(fits(sheet, "principal=", row.principal) && fits(sheet, "resource=", row.resource));
    if let Some(place) = rows.iter().position(wrong) {
        return refused(15, place as u32);
    }
    let decisions: Vec<u32> = rows.iter().map(|row| decision(&filled(sheet, row))).collect();
    let group = [DENY, OPEN].into_iter().find(|word| decisions.contains(word)).unwrap_or(ALLOW);
    Ok((decisions, group))
}

// Lists of rows ------------------------------------------------------------------------------------------------------------

/// List `n` of a seed: a partial sheet, and rows that mostly fit it.
pub fn list(seed: u64, n: u64) -> (Vec<u8>, Vec<Row>) {
    let [mut sheet, _, _] = generate::triple(seed, n);
    let random = &mut Random::of(seed ^ 0x2141, n);
    let text = String::from_utf8_lossy(&sheet).into_owned();
    let texts = text.lines().filter(|line| line.starts_with("text=")).count();
    let pick = |key: &str, random: &mut Random| match (request(&text, key)[1].parse(), random.below(200)) {
        (_, 0) => random.pick(&[texts as u32, 9999, 10000, u32::MAX]),
        (Ok(known), 2..) => known,
        _ => random.below(texts) as u32,
    };
    let length = random.pick(&[0, 1, 2, 3, 4, 4, 8, 8, 16, 64, 65]);
    let rows = (0..length)
        .map(|_| Row { principal: pick("principal=", random), resource: pick("resource=", random), decision: 77 })
        .collect();
    match random.below(30) {
        0 => sheet.resize(SHEET_BYTES + 1, b'x'),
        1 => drop(sheet.pop()),
        2 => sheet.extend(b"node=0,lit,0\n"),
        _ => {}
    }
    (sheet, rows)
}

// The comparison -----------------------------------------------------------------------------------------------------------

/// Counts of a comparison.
#[derive(Default)]
pub struct Counts {
    pub lists: usize,
    pub rows: usize,
    pub differences: usize,
    pub numbers: [usize; 16],
}

impl Counts {
    pub fn line(&self) -> String {
        let Counts { lists, rows, differences, .. } = self;
        format!("{lists} lists with {rows} rows filled, {differences} differences; numbers {}", by_number(&self.numbers))
    }
}

/// Runs both on one list and says what differs.
fn one(firm: Firm, sheet: &[u8], rows: &[Row], random: &mut Random, counts: &mut Counts) -> Option<String> {
    counts.lists += 1;
    let answer = answer(sheet, rows);
    let mut found = (rows.to_vec(), OPEN + 1);
    let (number, differs) = beside_words(answer.as_ref().map(|_| ()).map_err(|refusal| *refusal), random, |a, b| {
        let (returned, group) = firm(&mut found.0, sheet, a, b);
        found.1 = group;
        returned
    });
    counts.numbers[number] += 1;
    let mut expected = (rows.to_vec(), OPEN);
    if let (0, Ok((decisions, group))) = (number, answer) {
        counts.rows += rows.len();
        for (row, decision) in expected.0.iter_mut().zip(decisions) {
            row.decision = decision;
        }
        expected.1 = group;
    }
    differs.or_else(|| (found != expected).then(|| format!("left {found:?}, expected {expected:?}")))
}

/// Compares on so many lists of a seed.
pub fn compare(firm: Firm, count: u64, seed: u64) -> Counts {
    let mut counts = Counts::default();
    for n in 0..count {
        let random = &mut Random::of(!seed, n);
        let (sheet, rows) = list(seed, n);
        if let Some(text) = one(firm, &sheet, &rows, random, &mut counts) {
            report(&mut counts.differences, format!("seed {seed}, list {n}: {text}"));
        }
    }
    counts
}

#[cfg(test)]
mod tests {
    use super::*;

    fn call(rows: &mut [Row], sheet: &[u8], a: &mut [u32], b: &mut [u32]) -> ([u32; 3], u32) {
        let answer = answer(sheet, rows);
        let returned = run::left(|| answer.as_ref().map(|_| Vec::new()).map_err(|refusal| *refusal), a, b, &mut []);
        match (returned, answer) {
            ([0, 0, 0], Ok((decisions, group))) => {
                for (row, decision) in rows.iter_mut().zip(decisions) {
                    row.decision = decision;
                }
                (returned, group)
            }
            _ => (returned, OPEN),
        }
    }

    #[test]
    fn the_host_agrees_with_itself_and_meets_every_number() {
        let counts = compare(call, 1000, 5);
        assert_eq!(counts.differences, 0);
        assert!([0, 1, 2, 3, 14, 15].iter().all(|number| counts.numbers[*number] > 5), "{}", counts.line());
    }

    #[test]
    fn a_row_that_changes_on_a_refusal_is_found() {
        let loose: Firm = |rows, sheet, a, b| {
            let returned = call(rows, sheet, a, b);
            if returned.0[0] == 15 {
                rows[0].decision = OPEN;
            }
            returned
        };
        assert!(compare(loose, 500, 5).differences > 0);
    }
}
