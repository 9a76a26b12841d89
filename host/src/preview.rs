//! Document 02, 2.11: the library's `preview` beside the original's run on a copy that is made here, for lines that are filled, left, changed or
//! lacking. Which line may stand for another is said here from the two lines as they stand.

use crate::compare::{beside, by_number, report};
use crate::generate;
use crate::random::Random;
use crate::run;
use crate::sheet::{Mode, Refusal, SHEET_BYTES};

pub type Preview = fn(&[u8], usize, &[u8], &mut [u32], &mut [u32], &mut [u8]) -> [u32; 3];

/// A partial sheet, the number of a line, and a line for it.
pub struct Trial {
    pub sheet: Vec<u8>,
    pub of_line: usize,
    pub replacement: Vec<u8>,
}

// What a preview gives -----------------------------------------------------------------------------------------------------

/// The key of a line and its items: "items at commas after the first `=`".
fn parted(line: &[u8]) -> Option<(&[u8], Vec<&[u8]>)> {
    let at = line.iter().position(|byte| *byte == b'=')?;
    Some((&line[..at], line[at + 1..].split(|byte| *byte == b',').collect()))
}

fn may_be_filled(key: &[u8]) -> bool {
    [&b"principal"[..], b"resource", b"context", b"entity"].contains(&key)
}

/// "The replacement has no byte 10, keeps the number of items and differs only in items that were a lone `?`, on a principal, resource, context
/// or entity line", and fills something.
fn may_replace(old: &[u8], new: &[u8]) -> bool {
    let (Some((key, items)), Some((new_key, new_items))) = (parted(old), parted(new)) else {
        return false;
    };
    !new.contains(&b'\n')
        && may_be_filled(key)
        && key == new_key
        && old != new
        && items.len() == new_items.len()
        && items.iter().zip(&new_items).all(|(x, y)| x == y || *x == b"?")
}

/// What a preview gives in long enough slices and buffers.
pub fn answer(trial: &Trial) -> Result<Vec<u8>, Refusal> {
    let Trial { sheet, of_line, replacement } = trial;
    if sheet.len() > SHEET_BYTES {
        return Err(Refusal { number: 2, line: 0, length: 0 });
    }
    let mut lines: Vec<&[u8]> = sheet.split(|byte| *byte == b'\n').collect();
    match of_line.checked_sub(1).and_then(|place| lines.get_mut(place)) {
        Some(line) if may_replace(line, replacement) => *line = replacement,
        _ => return Err(Refusal { number: 12, line: *of_line as u32, length: 0 }),
    }
    Ok(run::answer(Mode::Partial, &lines.join(&b'\n'))?.expect("triples have no groups"))
}

/// A whole call.
#[cfg(test)]
fn call(sheet: &[u8], of_line: usize, replacement: &[u8], a: &mut [u32], b: &mut [u32], out: &mut [u8]) -> [u32; 3] {
    let trial = Trial { sheet: sheet.to_vec(), of_line, replacement: replacement.to_vec() };
    run::left(|| answer(&trial), a, b, out)
}

// Trials -------------------------------------------------------------------------------------------------------------------

fn lines_of(sheet: &[u8]) -> Vec<Vec<u8>> {
    sheet.strip_suffix(b"\n").unwrap_or(sheet).split(|byte| *byte == b'\n').map(<[u8]>::to_vec).collect()
}

/// The items of a line that are `?`, some of them filled: from the line of a complete sheet, or by small numbers.
fn filled(line: &[u8], complete: &[Vec<u8>], random: &mut Random) -> Vec<u8> {
    let Some((key, items)) = parted(line) else { return line.to_vec() };
    let own = complete.iter().find_map(|other| parted(other).filter(|(k, i)| *k == key && i[0] == items[0]));
    let fill = |place: usize, random: &mut Random| match (&own, random.below(10)) {
        (Some((_, known)), 0..=6) if place < known.len() => known[place].to_vec(),
        (_, 9) => random.pick(&["x", "", "??", "99", "1=1", "0"]).into(),
        _ => random.below(12).to_string().into_bytes(),
    };
    let new: Vec<Vec<u8>> = items
        .iter()
        .enumerate()
        .map(|(place, item)| if *item == b"?" && random.chance(85) { fill(place, random) } else { item.to_vec() })
        .collect();
    [key, b"=", &new.join(&b',')].concat()
}

/// A replacement that breaks a rule, mostly.
fn broken(line: &[u8], new: &[u8], random: &mut Random) -> Vec<u8> {
    let text = String::from_utf8_lossy(new).into_owned();
    match random.below(9) {
        0 => line.to_vec(),
        1 => [new, b","].concat(),
        2 => [new, b"\n"].concat(),
        3 => text.replacen('=', "", 1).into_bytes(),
        4 => text.replacen(',', "", 1).into_bytes(),
        5 => text.replacen(',', "\n,", 1).into_bytes(),
        6 => text.replacen(|c: char| c.is_ascii_digit(), "7", 1).into_bytes(),
        7 => text.replacen("resource", "principal", 1).into_bytes(),
        _ => Vec::new(),
    }
}

/// Trial `n` of a seed.
pub fn trial(seed: u64, n: u64) -> Trial {
    let [mut sheet, complete, _] = generate::triple(seed, n);
    let random = &mut Random::of(seed ^ 0x2111, n);
    let (lines, complete) = (lines_of(&sheet), lines_of(&complete));
    let open: Vec<usize> = (0..lines.len())
        .filter(|at| parted(&lines[*at]).is_some_and(|(key, items)| may_be_filled(key) && items.contains(&&b"?"[..])))
        .collect();
    let at = if open.is_empty() || random.chance(8) { random.below(lines.len()) } else { random.pick(&open) };
    let mut replacement = filled(&lines[at], &complete, random);
    if random.chance(20) {
        replacement = broken(&lines[at], &replacement, random);
    }
    let mut of_line = at + 1;
    match random.below(40) {
        0 => of_line = random.pick(&[0, 1, lines.len(), lines.len() + 1, lines.len() + 2, 99_999]),
        1 => drop(sheet.pop()),
        2 => sheet = [&lines[..at].join(&b'\n')[..], if at > 0 { b"\n" } else { b"" }, &lines[at]].concat(),
        3 => sheet.resize(SHEET_BYTES + random.below(2), b'x'),
        _ => {}
    }
    Trial { sheet, of_line, replacement }
}

// The comparison -----------------------------------------------------------------------------------------------------------

/// Counts of a comparison.
#[derive(Default)]
pub struct Counts {
    pub trials: usize,
    pub differences: usize,
    pub numbers: [usize; 13],
}

impl Counts {
    pub fn line(&self) -> String {
        format!("{} previews, {} differences; numbers {}", self.trials, self.differences, by_number(&self.numbers))
    }
}

/// Runs both on one trial and says what differs.
fn one(preview: Preview, trial: &Trial, random: &mut Random, counts: &mut Counts) -> Option<String> {
    counts.trials += 1;
    let answer = answer(trial);
    let (number, differs) =
        beside(answer, random, |a, b, out| preview(&trial.sheet, trial.of_line, &trial.replacement, a, b, out));
    counts.numbers[number] += 1;
    differs
}

/// Compares on so many trials of a seed.
pub fn compare(preview: Preview, count: u64, seed: u64) -> Counts {
    let mut counts = Counts::default();
    for n in 0..count {
        let random = &mut Random::of(!seed, n);
        if let Some(text) = one(preview, &trial(seed, n), random, &mut counts) {
            report(&mut counts.differences, format!("seed {seed}, preview {n}: {text} (host show-preview {seed} {n})"));
        }
    }
    counts
}

#[cfg(test)]
mod tests {
    use super::*;

    #[test]
    fn the_host_agrees_with_itself_and_meets_every_number() {
        let counts = compare(call, 2000, 5);
        assert_eq!(counts.differences, 0);
        assert!([0, 1, 2, 3, 5, 7, 10, 12].iter().all(|number| counts.numbers[*number] > 5), "{}", counts.line());
    }

    #[test]
    fn a_known_item_that_changes_is_found() {
        let loose: Preview = |sheet, of_line, replacement, a, b, out| {
            let mut copy: Vec<&[u8]> = sheet.split(|byte| *byte == b'\n').collect();
            match of_line.checked_sub(1).and_then(|place| copy.get_mut(place)) {
                Some(line) if parted(line).is_some_and(|(key, _)| may_be_filled(key)) && *line != replacement => {
                    *line = replacement
                }
                _ => return call(sheet, of_line, replacement, a, b, out),
            }
            let copy = copy.join(&b'\n');
            run::call(Mode::Partial, &copy, a, b, out)
        };
        assert!(compare(loose, 500, 5).differences > 0);
    }

    #[test]
    fn a_line_that_is_ended_in_the_copy_is_found() {
        let ended: Preview = |sheet, of_line, replacement, a, b, out| {
            let mut sheet = sheet.to_vec();
            if !sheet.ends_with(b"\n") && sheet.len() < SHEET_BYTES {
                sheet.push(b'\n');
            }
            call(&sheet, of_line, replacement, a, b, out)
        };
        assert!(compare(ended, 2000, 5).differences > 0);
    }

    #[test]
    fn lines_by_hand() {
        let may = |old: &str, new: &str| may_replace(old.as_bytes(), new.as_bytes());
        assert!(may("principal=0,?", "principal=0,7"));
        assert!(may("entity=7,?,?,?", "entity=7,?,2,?"));
        assert!(may("principal=0,?", "principal=0,=") && may("principal=0,?", "principal=0,"));
        for new in [
            "principal=0,?",
            "principal=1,7",
            "resource=0,7",
            "principal=0,7,7",
            "principal=0",
            "principal=0,7\n",
            "",
            "principal0,7",
        ] {
            assert!(!may("principal=0,?", new), "{new}");
        }
        assert!(!may("resource=2,4", "resource=2,5") && !may("text=?", "text=a") && !may("principal=0,??", "principal=0,7"));
    }
}
