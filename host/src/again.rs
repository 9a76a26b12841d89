//! An answer handed back (document 02, 2.13): where the residuals, the made values and the rest of a partial sheet form a sheet within the
//! limits, its answer is the same but for the made values.
//!
//! All is done on lines of text: nothing of an answer is read but the keys of its lines and the items of its policy lines, so whatever
//! else it says is compared as it stands.

use std::collections::HashMap;

use crate::compare::{report, Call};
use crate::generate;
use crate::sheet::{self, Mode, Sheet, ANSWER_BYTES, WORK_WORDS};

/// Counts of answers handed back.
#[derive(Debug, Default, PartialEq, Eq)]
pub struct Counts {
    /// Sheets made, and of these the partial ones that were accepted.
    pub made: u64,
    pub accepted: usize,
    /// Of the accepted ones: those whose answers form a sheet within the limits and are handed back, and for the others which limit is
    /// in the way.
    pub fit: usize,
    pub too_long: usize,
    pub too_many: usize,
    pub differences: usize,
    /// Of those that fit: with links, with groups of kinds, with policies off term, with made values, with open policies.
    pub linked: usize,
    pub grouped: usize,
    pub off_term: usize,
    pub with_made: usize,
    pub with_open: usize,
}

impl Counts {
    pub fn line(&self) -> String {
        format!(
            "{} handed back, {} differences ({} sheets made, {} partial ones accepted; not within the limits: {} too long, {} with too many values); of those handed back {} with links, {} with groups, {} with policies off term, {} with made values, {} with open policies",
            self.fit,
            self.differences,
            self.made,
            self.accepted,
            self.too_long,
            self.too_many,
            self.linked,
            self.grouped,
            self.off_term,
            self.with_made,
            self.with_open
        )
    }
}

/// The key and the value of a line.
fn cut(line: &str) -> (&str, &str) {
    line.split_once('=').unwrap_or((line, ""))
}

/// The lines of a text that have one of these keys.
fn with_keys<'t>(text: &'t str, keys: &[&str]) -> Vec<&'t str> {
    text.split_terminator('\n').filter(|line| keys.contains(&cut(line).0)).collect()
}

/// The items of each line of a key.
fn items<'t>(text: &'t str, key: &str) -> Vec<Vec<&'t str>> {
    with_keys(text, &[key]).iter().map(|line| cut(line).1.split(',').collect()).collect()
}

/// The sheet as which an answer is handed back: the lines of the sheet, with the made values after its own, and in the place of its nodes
/// and policies those of the answer. Residuals are linked, so there are no links; the policies of the answer keep their terms.
pub fn handed_back(sheet: &str, answer: &str) -> String {
    let mut back: Vec<String> = [
        with_keys(sheet, &["sheet", "text", "kind", "type", "shape", "value"]),
        with_keys(answer, &["value"]),
        with_keys(sheet, &["entity", "principal", "action", "resource", "context", "day"]),
        with_keys(answer, &["node"]),
    ]
    .concat()
    .iter()
    .map(|line| line.to_string())
    .collect();
    // The place of a policy in the answer, by its id.
    let mut places: HashMap<&str, usize> = HashMap::new();
    for policy in items(answer, "policy") {
        places.insert(policy[0], places.len());
        back.push(format!("policy={},{},{}", policy[0], policy[1], policy[3]));
    }
    let policies = items(sheet, "policy");
    for term in items(sheet, "term") {
        let policy: usize = term[0].parse().expect("a policy's number");
        if let Some(place) = places.get(policies[policy][0]) {
            back.push(format!("term={place},{},{}", term[1], term[2]));
        }
    }
    back.join("\n") + "\n"
}

/// An answer without its made values.
pub fn without_made(answer: &str) -> String {
    answer.split_inclusive('\n').filter(|line| cut(line).0 != "value").collect()
}

/// The answer of a call on a partial sheet, or the number that it is refused with.
fn answered(call: Call, sheet: &[u8]) -> Result<String, u32> {
    let (mut a, mut b, mut out) = (vec![1; WORK_WORDS], vec![1; WORK_WORDS], vec![1; ANSWER_BYTES]);
    match call(Mode::Partial, sheet, &mut a, &mut b, &mut out) {
        [0, _, length] => Ok(String::from_utf8(out[..length as usize].to_vec()).expect("bytes 32 to 126 and 10")),
        [number, ..] => Err(number),
    }
}

/// Hands the answer of one accepted sheet back and says what differs.
fn one(call: Call, bytes: &[u8], sheet: &Sheet, counts: &mut Counts) -> Option<String> {
    let answer = match answered(call, bytes) {
        Ok(answer) => answer,
        Err(number) => return Some(format!("an accepted sheet is refused: {number}")),
    };
    let back = handed_back(std::str::from_utf8(bytes).expect("bytes 32 to 126 and 10"), &answer);
    if let Err(refusal) = sheet::read(Mode::Partial, back.as_bytes()) {
        // Made values may be too many. Nothing else may be: a value is no deeper than the type that it fits, and what is left of a tree
        // is no deeper than the tree.
        let at = back.split('\n').nth((refusal.line as usize).saturating_sub(1)).unwrap_or_default();
        match (refusal.number, cut(at).0) {
            (2, _) => counts.too_long += 1,
            (4, "value") => counts.too_many += 1,
            (number, _) => return Some(format!("what is handed back is no sheet: {number},{}", refusal.line)),
        }
        return None;
    }
    counts.fit += 1;
    counts.linked += usize::from(!sheet.links.is_empty());
    counts.grouped += usize::from(sheet.has_groups());
    counts.off_term += usize::from(sheet.on_term().len() < sheet.policies.len());
    counts.with_made += usize::from(!with_keys(&answer, &["value"]).is_empty());
    counts.with_open += usize::from(items(&answer, "policy").iter().any(|policy| policy[2] == "open"));
    match answered(call, back.as_bytes()) {
        Ok(again) if again == without_made(&answer) => None,
        Ok(_) => Some("the answer differs when it is handed back".into()),
        Err(number) => Some(format!("what is handed back is refused: {number}")),
    }
}

/// Makes sheets of a seed and hands the answers of the partial ones back, until so many were handed back or a hundred differed.
pub fn again(call: Call, count: usize, seed: u64) -> Counts {
    let mut counts = Counts::default();
    while counts.fit < count && counts.differences < 100 {
        let n = counts.made;
        let case = generate::sheet(seed, n);
        counts.made += 1;
        if case.mode == Mode::Complete {
            continue;
        }
        let Ok(sheet) = sheet::read(Mode::Partial, &case.bytes) else {
            continue;
        };
        counts.accepted += 1;
        if let Some(text) = one(call, &case.bytes, &sheet, &mut counts) {
            report(&mut counts.differences, format!("seed {seed}, sheet {n}: {text} (host show {seed} {n})"));
        }
    }
    counts
}

#[cfg(test)]
mod tests {
    use super::*;
    use crate::run;

    #[test]
    fn lines_of_a_sheet_handed_back() {
        let sheet = "sheet=partial\ntext=node=0\ntext=b\nvalue=bool,1\nentity=0,?,?,?\nday=2000-01-01\nnode=0,slot,p\nnode=0,lit,0\n\
                     policy=4,permit,0\npolicy=7,forbid,1\npolicy=5,permit,1\nlink=0,0,-\nterm=0,1999-01-01,1999-12-31\nterm=2,2000-01-01,2000-01-01\n";
        let answer = "decision=deny\ncounts=0,0,0,1,1,0,0,0\nvalue=bool,0\nnode=0,lit,1\nnode=0,lit,0\npolicy=7,forbid,true,0\npolicy=5,permit,open,1\n";
        let back = "sheet=partial\ntext=node=0\ntext=b\nvalue=bool,1\nvalue=bool,0\nentity=0,?,?,?\nday=2000-01-01\nnode=0,lit,1\nnode=0,lit,0\n\
                    policy=7,forbid,0\npolicy=5,permit,1\nterm=1,2000-01-01,2000-01-01\n";
        assert_eq!(handed_back(sheet, answer), back);
        let rest =
            "decision=deny\ncounts=0,0,0,1,1,0,0,0\nnode=0,lit,1\nnode=0,lit,0\npolicy=7,forbid,true,0\npolicy=5,permit,open,1\n";
        assert_eq!(without_made(answer), rest);
    }

    /// What is counted of one sheet.
    fn of(sheet: &str) -> Counts {
        let mut counts = Counts::default();
        let rows = sheet::read(Mode::Partial, sheet.as_bytes()).unwrap_or_else(|refusal| panic!("{refusal:?}"));
        assert_eq!(one(run::call, sheet.as_bytes(), &rows, &mut counts), None);
        counts
    }

    /// A sheet with so many longs and a policy that makes a set.
    fn with_longs(count: usize) -> String {
        let longs: String = (0..count).map(|n| format!("value=long,{n}\n")).collect();
        format!(
            "sheet=partial\ntext=E\ntext=A\nkind=0,e\nkind=1,a\ntype=bool\ntype=record\ntype=long\ntype=set,2\nshape=1,-\nshape=1,-\n{longs}\
             principal=0,?\naction=1,0\nresource=0,?\ncontext=1,?\nday=2000-01-01\nnode=2,lit,0\nnode=3,set,0\nnode=3,err\nnode=0,eq,1,2\npolicy=0,permit,3\n"
        )
    }

    #[test]
    fn one_value_too_many() {
        let last = of(&with_longs(1023));
        assert_eq!((last.fit, last.with_made, last.too_many), (1, 1, 0));
        let past = of(&with_longs(1024));
        assert_eq!((past.fit, past.too_many), (0, 1));
    }

    #[test]
    fn the_original_answers_the_same_again() {
        let counts = again(run::call, 60, 5);
        assert_eq!(counts.differences, 0);
        assert!(counts.fit == 60 && counts.with_made > 10 && counts.with_open > 10 && counts.linked > 10 && counts.off_term > 5);
    }

    #[test]
    fn another_answer_is_found() {
        // One byte is another where a sheet has no links, as what is handed back has none.
        let wrong: Call = |mode, sheet, a, b, out| {
            let result = run::call(mode, sheet, a, b, out);
            if result[0] == 0 && result[2] > 0 && !sheet.windows(6).any(|part| part == b"\nlink=") {
                out[result[2] as usize - 2] ^= 1;
            }
            result
        };
        assert!(again(wrong, 60, 5).differences > 0);
    }

    #[test]
    fn a_value_made_again_is_found() {
        // An answer that lacks its last made value: what is handed back makes it again, or refers to a value that is not there.
        let wrong: Call = |mode, sheet, a, b, out| {
            let mut result = run::call(mode, sheet, a, b, out);
            let text = String::from_utf8(out[..result[2] as usize].to_vec()).unwrap_or_default();
            if let Some(at) = text.rfind("\nvalue=").filter(|_| result[0] == 0) {
                let end = at + 1 + text[at + 1..].find('\n').expect("a line ends");
                let short = [&text[..at], &text[end..]].concat();
                out[..short.len()].copy_from_slice(short.as_bytes());
                result[2] = short.len() as u32;
            }
            result
        };
        assert!(again(wrong, 60, 5).differences > 0);
    }
}
