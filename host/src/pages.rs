//! Document 02, 2.10: the library's counter pages beside those made here, from the text of an answer and the texts of its sheet.

use crate::compare::{beside, by_number, original, report, Call};
use crate::generate::{self, Case};
use crate::random::Random;
use crate::sheet::Mode;

pub type Page = fn(&[u8], &mut [u32], &mut [u32], &mut [u8]) -> [u32; 3];

// A page -------------------------------------------------------------------------------------------------------------------

const LINES: usize = 60;
const COLUMNS: usize = 72;

/// What stands after `key=` on the lines of a text that begin so.
fn after<'a>(text: &'a [u8], key: &'a [u8]) -> impl Iterator<Item = &'a [u8]> {
    text.split(|byte| *byte == b'\n').filter_map(move |line| line.strip_prefix(key))
}

/// A text in columns, cut or filled with spaces.
fn cell(text: &[u8], columns: usize) -> Vec<u8> {
    let mut cell = text[..text.len().min(columns)].to_vec();
    cell.resize(columns, b' ');
    cell
}

/// The page of a partial sheet with this answer.
pub fn page(sheet: &[u8], answer: &[u8]) -> Vec<u8> {
    let texts: Vec<&[u8]> = after(sheet, b"text=").collect();
    let mut rows: Vec<Vec<u8>> = Vec::new();
    let mut before = 0;
    for policy in after(answer, b"policy=") {
        let items: Vec<&str> = std::str::from_utf8(policy).expect("an answer is a text").split(',').collect();
        let (id, root): (usize, usize) = (items[0].parse().expect("an id"), items[3].parse().expect("a root"));
        let nodes = format!("{:>16}", root + 1 - before);
        before = root + 1;
        rows.push([cell(texts[id], 40), cell(items[1].as_bytes(), 8), cell(items[2].as_bytes(), 8), nodes.into_bytes()].concat());
    }
    if rows.len() > LINES - 1 {
        let left_off = rows.len() - (LINES - 2);
        rows.truncate(LINES - 2);
        rows.push(format!("+{left_off}").into_bytes());
    }
    let decision = after(answer, b"decision=").next().expect("an answer has a decision");
    rows.insert(0, [b"decision=", decision].concat());
    rows.resize(LINES, Vec::new());
    let mut page = Vec::new();
    for row in rows {
        page.extend(cell(&row, COLUMNS));
        page.push(b'\n');
    }
    page
}

// The comparison -----------------------------------------------------------------------------------------------------------

/// Counts of a comparison.
#[derive(Default)]
pub struct Counts {
    pub sheets: usize,
    pub differences: usize,
    /// Accepted sheets with groups, whose pages are those of the library's own answers.
    pub grouped: usize,
    pub numbers: [usize; 11],
}

impl Counts {
    pub fn line(&self) -> String {
        format!(
            "{} sheets, {} differences; numbers {}; {} accepted with groups, by the library's own answers",
            self.sheets,
            self.differences,
            by_number(&self.numbers),
            self.grouped
        )
    }
}

/// The library's page of one sheet beside the page that the original's answer makes; says what differs.
fn one(call: Call, page: Page, case: &Case, random: &mut Random, counts: &mut Counts) -> Option<String> {
    counts.sheets += 1;
    let answer = match original(call, case, random, &mut counts.grouped) {
        Ok(answer) => answer,
        Err(text) => return Some(text),
    };
    let made = answer.map(|text| self::page(&case.bytes, &text));
    let (number, differs) = beside(made, random, |a, b, out| page(&case.bytes, a, b, out));
    counts.numbers[number] += 1;
    differs
}

/// Compares on so many sheets of a seed, each taken as a partial one.
pub fn compare(call: Call, page: Page, count: u64, seed: u64) -> Counts {
    let mut counts = Counts::default();
    for n in 0..count {
        let case = Case { mode: Mode::Partial, bytes: generate::sheet(seed, n).bytes };
        if let Some(text) = one(call, page, &case, &mut Random::of(!seed, n), &mut counts) {
            report(&mut counts.differences, format!("seed {seed}, page {n}: {text} (host show {seed} {n})"));
        }
    }
    counts
}

#[cfg(test)]
mod tests {
    use super::*;
    use crate::run;

    /// The page by the original's answer, changed; where the original is not asked, that of a sheet without policies.
    fn changed(change: fn(&mut Vec<u8>), sheet: &[u8], a: &mut [u32], b: &mut [u32], out: &mut [u8]) -> [u32; 3] {
        let answer = || {
            let mut made = page(sheet, &run::answer(Mode::Partial, sheet)?.unwrap_or(b"decision=deny\n".to_vec()));
            change(&mut made);
            Ok(made)
        };
        run::left(answer, a, b, out)
    }

    #[test]
    fn a_page_by_hand() {
        let sheet = b"sheet=partial\ntext=first\ntext=an id of more than forty bytes is cut off here\n";
        let made = page(sheet, b"decision=deny\npolicy=0,permit,open,2\npolicy=1,forbid,true,3\n");
        assert_eq!(made.len(), 4380);
        let lines: Vec<&[u8]> = made.split(|byte| *byte == b'\n').collect();
        assert_eq!(lines[0], format!("{:72}", "decision=deny").as_bytes());
        assert_eq!(lines[1], format!("{:40}permit  open    {:>16}", "first", 3).as_bytes());
        assert_eq!(
            lines[2],
            format!("{:.40}forbid  true    {:>16}", "an id of more than forty bytes is cut off here", 1).as_bytes()
        );
        assert!(lines[3..60].iter().all(|line| *line == [b' '; 72]));
    }

    #[test]
    fn another_byte_is_found() {
        let same: Page = |sheet, a, b, out| changed(|_| (), sheet, a, b, out);
        let counts = compare(run::call, same, 300, 5);
        assert_eq!(counts.differences, 0);
        assert!(counts.numbers[0] > 50, "{}", counts.line());
        let last: Page = |sheet, a, b, out| changed(|page| page[4378] = b'.', sheet, a, b, out);
        assert!(compare(run::call, last, 60, 5).differences > 0);
    }
}
