//! Document 02, 2.1: the library's `finish` beside the complete sheet's own run by the original, on pairs that agree and pairs that
//! nearly do. Where they do not, the line of number 11 is found here from the lines of both sheets as they stand.

use crate::compare::{beside, by_number, report};
use crate::draft::bytes_of;
use crate::generate;
use crate::random::Random;
use crate::run;
use crate::sheet::{self, Mode, Refusal};

pub type Finish = fn(&[u8], &[u8], &mut [u32], &mut [u32], &mut [u8]) -> [u32; 3];

// Agreement ----------------------------------------------------------------------------------------------------------------

/// The lines of a sheet after the first, each with its key.
fn keyed(sheet: &[u8]) -> Vec<(&str, &str)> {
    let text = std::str::from_utf8(sheet).expect("an accepted sheet is ASCII");
    text.lines().skip(1).map(|line| line.split_once('=').expect("a line has an `=`")).collect()
}

/// Whether each known item of a line is the same on the other.
fn known_same(partial: &str, complete: &str) -> bool {
    let (left, right): (Vec<&str>, Vec<&str>) = (partial.split(',').collect(), complete.split(',').collect());
    left.len() == right.len() && left.iter().zip(&right).all(|(x, y)| *x == "?" || x == y)
}

fn may_be_unknown(key: &str) -> bool {
    ["entity", "principal", "resource", "context"].contains(&key)
}

/// "A line after the first breaks agreement if a known part differs from the partial line of its key and place (an entity line: of its
/// entity), or if it is an added line of a key that must be the same." The first such line of two accepted sheets, the line after the last if
/// there is none and one is lacking, None where they agree.
fn breaking_line(partial: &[u8], complete: &[u8]) -> Option<usize> {
    let (partial, complete) = (keyed(partial), keyed(complete));
    // the line of the other sheet that answers to line `at` of one
    let answering = |one: &[(&str, &str)], at: usize, other: &[(&str, &str)]| -> Option<usize> {
        let (key, rest) = one[at];
        if key == "entity" {
            let entity = rest.split(',').next();
            return other.iter().position(|(k, r)| *k == key && r.split(',').next() == entity);
        }
        let place = one[..at].iter().filter(|(k, _)| *k == key).count();
        other.iter().enumerate().filter(|(_, (k, _))| *k == key).map(|(n, _)| n).nth(place)
    };
    for (at, (key, rest)) in complete.iter().enumerate() {
        let breaks = match answering(&complete, at, &partial) {
            Some(n) if may_be_unknown(key) => !known_same(partial[n].1, rest),
            Some(n) => partial[n].1 != *rest,
            None => !["text", "value", "entity"].contains(key),
        };
        if breaks {
            return Some(at + 2);
        }
    }
    let lacking = (0..partial.len()).any(|at| answering(&partial, at, &complete).is_none());
    lacking.then_some(complete.len() + 2)
}

/// What finishing gives in long enough slices and buffers.
pub fn answer(partial: &[u8], complete: &[u8]) -> Result<Vec<u8>, Refusal> {
    sheet::read(Mode::Partial, partial)?;
    let own = run::answer(Mode::Complete, complete)?.expect("pairs have no groups");
    match breaking_line(partial, complete) {
        Some(line) => Err(Refusal { number: 11, line: line as u32, length: 0 }),
        None => Ok(own),
    }
}

/// A whole call.
#[cfg(test)]
fn call(partial: &[u8], complete: &[u8], work_a: &mut [u32], work_b: &mut [u32], out: &mut [u8]) -> [u32; 3] {
    run::left(|| answer(partial, complete), work_a, work_b, out)
}

// Pairs --------------------------------------------------------------------------------------------------------------------

fn key_of(line: &[u8]) -> &[u8] {
    &line[..line.iter().position(|byte| *byte == b'=').unwrap_or(line.len())]
}

/// An item in the place of another of its line: one that a line of the same key has there, or a small number.
fn item_changed(lines: &mut [Vec<u8>], random: &mut Random) {
    let at = random.from(1, lines.len() - 1);
    let text = String::from_utf8(lines[at].clone()).expect("lines are ASCII");
    let (key, rest) = text.split_once('=').expect("a line has an `=`");
    let mut items: Vec<String> = rest.split(',').map(str::to_string).collect();
    let place = random.below(items.len());
    let others: Vec<String> = lines
        .iter()
        .filter(|line| key_of(line) == key.as_bytes())
        .filter_map(|line| String::from_utf8_lossy(line).split_once('=')?.1.split(',').nth(place).map(str::to_string))
        .collect();
    items[place] = match random.below(4) {
        0 | 1 => random.pick(&others),
        2 => random.below(12).to_string(),
        _ if key == "day" => "2026-11-1".to_string() + &random.below(10).to_string(),
        _ => random.pick(&["?", "-", "permit", "forbid", "0", "1"]).to_string(),
    };
    lines[at] = format!("{key}={}", items.join(",")).into_bytes();
}

/// A line more, at the end of the lines of its key, or of the key before it.
fn line_added(lines: &mut Vec<Vec<u8>>, random: &mut Random) {
    let count = |lines: &[Vec<u8>], key: &str| lines.iter().filter(|line| key_of(line) == key.as_bytes()).count();
    let which = random.below(9);
    let mut below = |key: &str| random.below(count(lines, key) + 1);
    let (key, rest) = match which {
        0 => ("text", format!("more {}", below("node"))),
        1 => ("value", format!("long,{}", 100 + below("node"))),
        2 => ("entity", format!("{},?,?,?", below("value"))),
        3 => ("type", format!("set,{}", below("type"))),
        4 => ("node", format!("{},lit,{}", below("type"), below("value"))),
        5 => ("policy", format!("{},permit,{}", below("text"), below("node"))),
        6 => ("link", format!("{},-,-", below("policy"))),
        7 => ("term", format!("{},1900-01-01,2199-12-31", below("policy"))),
        _ => ("entity", format!("{},{},-,{}", below("value"), below("value"), below("value"))),
    };
    let order = [
        "sheet",
        "text",
        "kind",
        "type",
        "shape",
        "value",
        "entity",
        "principal",
        "action",
        "resource",
        "context",
        "day",
        "node",
        "policy",
        "link",
        "term",
    ];
    let rank = |line: &[u8]| order.iter().position(|word| word.as_bytes() == key_of(line)).unwrap_or(0);
    let own = order.iter().position(|word| *word == key).expect("a key");
    let line = format!("{key}={rest}").into_bytes();
    let at = lines
        .iter()
        .position(|other| rank(other) > own || (rank(other) == own && key == "entity" && entity(other) >= entity(&line)));
    lines.insert(at.unwrap_or(lines.len()), line);
}

/// The entity that an entity line is of.
fn entity(line: &[u8]) -> usize {
    String::from_utf8_lossy(line).split(['=', ',']).nth(1).and_then(|item| item.parse().ok()).unwrap_or(0)
}

/// One item changed, or a line added or dropped.
fn changed(sheet: &[u8], random: &mut Random) -> Vec<u8> {
    let mut lines: Vec<Vec<u8>> =
        sheet.strip_suffix(b"\n").unwrap_or(sheet).split(|byte| *byte == b'\n').map(<[u8]>::to_vec).collect();
    match random.below(4) {
        0 => line_added(&mut lines, random),
        1 => drop(lines.remove(random.from(1, lines.len() - 1))),
        _ => item_changed(&mut lines, random),
    }
    bytes_of(&lines)
}

/// Some changes, such that the sheet is mostly accepted.
fn nearly(mode: Mode, sheet: &[u8], random: &mut Random) -> Vec<u8> {
    let mut other = sheet.to_vec();
    for _ in 0..12 {
        other = changed(sheet, random);
        if random.chance(20) {
            other = changed(&other, random);
        }
        if other != sheet && sheet::read(mode, &other).is_ok_and(|sheet| !sheet.has_groups()) {
            break;
        }
    }
    match sheet::read(mode, &other) {
        Ok(read) if read.has_groups() => sheet.to_vec(),
        _ => other,
    }
}

/// Pair `n` of a seed: a partial sheet and a complete one that agrees with it, or nearly does.
pub fn pair(seed: u64, n: u64) -> [Vec<u8>; 2] {
    let [partial, second, third] = generate::triple(seed, n);
    let random = &mut Random::of(seed ^ 0x2101, n);
    let complete = if random.chance(50) { second } else { third };
    match random.below(10) {
        0..=3 => [partial, complete],
        4..=7 => {
            let other = nearly(Mode::Complete, &complete, random);
            [partial, other]
        }
        8 => [nearly(Mode::Partial, &partial, random), complete],
        _ => [nearly(Mode::Partial, &partial, random), nearly(Mode::Complete, &complete, random)],
    }
}

// The comparison -----------------------------------------------------------------------------------------------------------

/// Counts of a comparison.
#[derive(Default)]
pub struct Counts {
    pub pairs: usize,
    pub differences: usize,
    pub numbers: [usize; 12],
    /// Pairs whose line of number 11 is that after the last.
    pub lacking: usize,
}

impl Counts {
    pub fn line(&self) -> String {
        format!(
            "{} pairs, {} differences; numbers {}; {} of 11 at the line after the last",
            self.pairs,
            self.differences,
            by_number(&self.numbers),
            self.lacking
        )
    }
}

/// Runs both on one pair and says what differs.
fn one(finish: Finish, [partial, complete]: &[Vec<u8>; 2], random: &mut Random, counts: &mut Counts) -> Option<String> {
    counts.pairs += 1;
    let answer = answer(partial, complete);
    if let Err(Refusal { number: 11, line, .. }) = &answer {
        counts.lacking += usize::from(*line as usize > complete.iter().filter(|byte| **byte == b'\n').count());
    }
    let (number, differs) = beside(answer, random, |a, b, out| finish(partial, complete, a, b, out));
    counts.numbers[number] += 1;
    differs
}

/// Compares on so many pairs of a seed.
pub fn compare(finish: Finish, count: u64, seed: u64) -> Counts {
    let mut counts = Counts::default();
    for n in 0..count {
        let random = &mut Random::of(!seed, n);
        if let Some(text) = one(finish, &pair(seed, n), random, &mut counts) {
            report(&mut counts.differences, format!("seed {seed}, pair {n}: {text} (host show-pair {seed} {n})"));
        }
    }
    counts
}

#[cfg(test)]
mod tests {
    use super::*;

    #[test]
    fn the_host_agrees_with_itself_and_meets_every_line() {
        let counts = compare(call, 600, 5);
        assert_eq!(counts.differences, 0);
        assert!(counts.numbers[0] > 150 && counts.numbers[11] > 150 && counts.lacking > 10, "{}", counts.line());
    }

    #[test]
    fn the_complete_sheet_taken_first_is_found() {
        let turned: Finish = |partial, complete, a, b, out| {
            run::left(
                || {
                    sheet::read(Mode::Complete, complete)?;
                    answer(partial, complete)
                },
                a,
                b,
                out,
            )
        };
        assert!(compare(turned, 2000, 5).differences > 0);
    }

    #[test]
    fn another_line_is_found() {
        let later: Finish = |partial, complete, a, b, out| {
            let [number, line, length] = call(partial, complete, a, b, out);
            [number, if number == 11 && line > 20 { line + 1 } else { line }, length]
        };
        assert!(compare(later, 200, 5).differences > 0);
    }

    #[test]
    fn lines_by_hand() {
        let partial = b"sheet=partial\ntext=a\nvalue=bool,0\nentity=0,?,1,?\nprincipal=0,?\nday=2026-11-16\n";
        let with = |old: &str, new: &str| {
            String::from_utf8_lossy(partial).replace("partial", "complete").replace('?', "3").replace(old, new)
        };
        for (old, new, line) in [
            ("", "", None),
            ("text=a\n", "text=a\ntext=b\n", None),
            ("bool,0\n", "bool,0\nvalue=bool,1\n", None),
            ("entity=0", "entity=1,0,0,0\nentity=0", None),
            ("3,1,3", "4,1,5", None),
            ("3,1,3", "3,2,3", Some(4)),
            ("text=a\n", "", Some(6)),
            ("entity=0,3,1,3\n", "", Some(6)),
            ("principal=0", "principal=1", Some(5)),
            ("16\n", "16\nterm=0\n", Some(7)),
            ("entity=0", "entity=1", Some(7)),
        ] {
            assert_eq!(breaking_line(partial, with(old, new).as_bytes()), line, "{new}");
        }
    }
}
