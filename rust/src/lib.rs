//! A partial evaluator for Cedar policies, proved: a safe crate over its static library.
//!
//! A *sheet* is a text of `key=value` lines with a schema, known values, entities with their parents, a request, its day, policies, the links
//! that fill their slots, and their terms. The answer says for each policy on term that day whether it is true, false, in error or open, what
//! is left of it, the decision, and beside it a policy that gave it: `why=` has the text number of the id of a true forbid for a deny, of a true
//! permit for an allow, and `none` for open and for a deny without a true forbid. Where several policies gave it, the first in the sheet's
//! order is named. A partial sheet does not settle the name: an open policy of the same effect that stands before it may still turn true.
//! The library is written in Rattle, and every function of it is proved to meet its contract; the repository's README.md says what is proved and what is assumed.
//!
//! [`Evaluator`] keeps the slices that a call works in and gives an [`Outcome`]:
//!
//! ```
//! use openrules::{Evaluator, Outcome};
//!
//! // No policy, so nothing permits: deny.
//! let sheet = "sheet=partial
//! text=Broker
//! text=Action
//! text=quote
//! kind=0,e
//! kind=1,a
//! type=record
//! shape=0,-
//! shape=0,-
//! principal=0,?
//! action=1,2
//! resource=0,?
//! context=0,?
//! day=2026-06-30
//! ";
//! let mut evaluator = Evaluator::new();
//! match evaluator.partial(sheet.as_bytes()) {
//!     Outcome::Answer(text) => assert_eq!(text, "decision=deny\ncounts=0,0,0,0,0,0,0,0\nwhy=none\n"),
//!     Outcome::Refused(refusal) => panic!("{refusal}"),
//! }
//! ```
//!
//! [`Evaluator::answer`] gives the same as data, an [`Answer`], with what is left of each policy as a tree that prints itself in Cedar's syntax:
//!
//! ```
//! let mut evaluator = openrules::Evaluator::new();
//! let answer = evaluator.answer(include_bytes!("../../examples/bands-overlap.sheet"))?;
//! assert_eq!(answer.decision, openrules::Decision::Allow);
//! assert_eq!(answer.why.as_deref(), Some("low band"));
//! let left = answer.policies[1].residual.as_ref().map(|tree| tree.to_string());
//! assert_eq!(left.as_deref(), Some("context.insured"));
//! # Ok::<(), openrules::Error>(())
//! ```
//!
//! [`sheet::Sheet`] is a sheet as data, and [`cedar`] says how trees are printed. What is proved is the library: the answer as data is taken from the bytes that it
//! wrote, and nothing is worked out anew.
//!
//! A faulty sheet is refused with a number, the line of the first fault and a length:
//!
//! ```
//! use openrules::{Evaluator, Outcome, Refusal};
//!
//! let mut evaluator = Evaluator::new();
//! let outcome = evaluator.partial(b"sheet=partial\ntext=Broker\ntext=Broker\n");
//! assert_eq!(outcome, Outcome::Refused(Refusal { number: 5, line: 3, length: 0 }));
//! ```
//!
//! Where a partial sheet was filled in, [`Evaluator::finish`] takes both sheets and evaluates what the partial run left on the complete one. The
//! answer is that of the complete sheet itself; sheets that do not agree are refused with number 11 and the line that breaks agreement.
//!
//! [`Evaluator::page`] gives the counter page of a partial sheet: 60 lines of 72 columns, with the decision and a line for each policy on term.
//!
//! [`Evaluator::preview`] says what one more answer would do: what a run on a copy of a partial sheet returns that has another line in the place
//! of one of its own. The sheet itself is only read.
//!
//! [`test_load`] gives a partial sheet that a seed and a number of policies name, so that all can measure and compare on the same sheets.
//!
//! Where several brokers ask for the same quote, [`Evaluator::firm`] fills a list of [`Row`]s, each with the decision on the sheet with its two texts.
//!
//! [`partial`], [`complete`], [`finish`], [`page`], [`preview`], [`firm`] and [`test_load`] are the calls themselves, in slices of the caller's own; they allocate nothing.

#![deny(missing_docs)]

mod answer;
pub mod cedar;
mod error;
pub mod sheet;

use std::fmt;

pub use answer::{Answer, Class, Counts, Verdict};
pub use error::{Error, Result};

use sheet::Sheet;

/// The words that each work slice must have.
///
/// ```
/// let mut work = vec![0_u32; openrules::WORDS];
/// assert_eq!(work.len(), 16384);
/// ```
pub const WORDS: usize = 16384;

/// The bytes that a sheet may have.
///
/// ```
/// let long = vec![b'x'; openrules::SHEET + 1];
/// assert_eq!(openrules::Evaluator::new().partial(&long).result().unwrap_err().number, 2);
/// ```
pub const SHEET: usize = 16384;

/// The rows that a call of [`firm`] may have.
///
/// ```
/// use openrules::{Evaluator, Row, ROWS};
///
/// let mut rows = [Row::new(0, 0); ROWS + 1];
/// assert_eq!(Evaluator::new().firm(&mut rows, b"").unwrap_err().number, 14);
/// ```
pub const ROWS: usize = 64;

/// The bytes of an answer buffer that is long enough for every sheet: it is proved that no answer is longer (`answer-most` and `never-ten` in docs/ARCHITECTURE.md). An
/// [`Evaluator`] lends so many, and so never meets the number 10.
///
/// ```
/// use openrules::{partial, ANSWER, WORDS};
///
/// let (mut first, mut second, mut out) = (vec![0; WORDS], vec![0; WORDS], vec![0; ANSWER]);
/// let sheet = include_bytes!("../../examples/bands-overlap.sheet");
/// assert!(partial(sheet, &mut first, &mut second, &mut out).result().is_ok());
/// ```
pub const ANSWER: usize = 1048576;

/// The bytes of a counter page: 60 lines of 72 columns, each ending in byte 10.
///
/// ```
/// assert_eq!(openrules::PAGE, 60 * (72 + 1));
/// ```
pub const PAGE: usize = 4380;

/// The policies that a test load may have.
///
/// ```
/// use openrules::{test_load, POLICIES, SHEET};
///
/// let sheet = test_load(7, POLICIES, &mut [0; SHEET]).result().unwrap().lines().filter(|line| line.starts_with("policy=")).count();
/// assert_eq!(sheet, 64);
/// ```
pub const POLICIES: u32 = 64;

/// Declares C functions, each by the arguments of its own; then come the work slices and the answer buffer, each as a pointer and a length, and where line
/// and length are written.
macro_rules! declare {
    ($($name:ident($($own:ident: $ty:ty),*);)*) => {
        extern "C" {
            $(fn $name(
                $($own: $ty,)*
                first: *mut u32,
                first_len: usize,
                second: *mut u32,
                second_len: usize,
                out: *mut u8,
                out_len: usize,
                line: *mut usize,
                length: *mut usize,
            ) -> u32;)*
        }
    };
}

declare! {
    openrules_partial(sheet: *const u8, sheet_len: usize);
    openrules_complete(sheet: *const u8, sheet_len: usize);
    openrules_page(sheet: *const u8, sheet_len: usize);
    openrules_finish(partial: *const u8, partial_len: usize, complete: *const u8, complete_len: usize);
    openrules_preview(sheet: *const u8, sheet_len: usize, of_line: usize, replacement: *const u8, replacement_len: usize);
}

extern "C" {
    fn openrules_firm(
        rows: *mut Row,
        rows_len: usize,
        sheet: *const u8,
        sheet_len: usize,
        first: *mut u32,
        first_len: usize,
        second: *mut u32,
        second_len: usize,
        line: *mut usize,
        length: *mut usize,
        group: *mut Decision,
    ) -> u32;
    fn openrules_test_load(seed: u64, policies: u32, out: *mut u8, out_len: usize, line: *mut usize, length: *mut usize) -> u32;
}

/// Why there is no answer: number, line and length, by the table of refusals.
///
/// ```
/// let refusal = openrules::Refusal { number: 3, line: 1, length: 0 };
/// assert_eq!(refusal.to_string(), "refused=3,1,0");
/// ```
#[derive(Clone, Copy, Debug, PartialEq, Eq)]
pub struct Refusal {
    /// 1 to 8 or 10 to 15; [`finish`] alone gives 11, [`preview`] alone 12, [`firm`] alone 14 and 15, and [`test_load`] gives 10 and 13 alone.
    pub number: u32,
    /// The line of the first fault, counted from 1, for the numbers 3 to 8; the line of the complete sheet that breaks agreement, or the
    /// line after its last, for the number 11; the line that was to be replaced, for the number 12; the place of a row, counted from 0, for the number 15; else 0.
    pub line: usize,
    /// The bytes that the answer, or the test load, needs, for the number 10; else 0.
    pub length: usize,
}

impl Refusal {
    /// What the number means.
    ///
    /// ```
    /// assert_eq!(openrules::Refusal { number: 6, line: 70, length: 0 }.meaning(), "depth over 64");
    /// ```
    pub fn meaning(&self) -> &'static str {
        match self.number {
            1 => "a work slice has under 16,384 words",
            2 => "the sheet has over 16,384 bytes",
            3 => "form, length, range, key, key order or item count wrong, no such day, `?` misplaced, or a line missing",
            4 => "one line too many of a key, or over 1,024 node uses",
            5 => "a reference is absent, or a repeat, or wrong order, or a grouped kind without its type line, or a term's last day before its first, or a slot without its value",
            6 => "depth over 64",
            7 => "typing, request kind or shape, or a link's value that does not fit its slot, or a kind reached through parents that is not above",
            8 => "a node is used twice or never",
            10 => "the answer buffer is shorter than the answer",
            11 => "the complete sheet does not agree with the partial one",
            12 => "the sheet lacks the line, or the replacement breaks a rule or fills nothing",
            13 => "under 1 or over 64 policies",
            14 => "over 64 rows",
            15 => "a row's text does not exist or contradicts a known one",
            _ => "no refusal",
        }
    }
}

impl fmt::Display for Refusal {
    fn fmt(&self, f: &mut fmt::Formatter<'_>) -> fmt::Result {
        write!(f, "refused={},{},{}", self.number, self.line, self.length)
    }
}

impl std::error::Error for Refusal {}

/// What a call gives: the text of the answer, or a refusal.
///
/// ```
/// use openrules::{Evaluator, Outcome};
///
/// match Evaluator::new().partial(b"") {
///     Outcome::Answer(text) => panic!("{text}"),
///     Outcome::Refused(refusal) => assert_eq!(refusal.to_string(), "refused=3,1,0"),
/// }
/// ```
#[derive(Clone, Copy, Debug, PartialEq, Eq)]
pub enum Outcome<'a> {
    /// The sheet is accepted, and this is its answer.
    Answer(&'a str),
    /// The sheet is refused, or what was lent is too short.
    Refused(Refusal),
}

impl<'a> Outcome<'a> {
    /// The same as a result, for `?`.
    ///
    /// ```
    /// fn decision(sheet: &str) -> Result<String, openrules::Refusal> {
    ///     let mut evaluator = openrules::Evaluator::new();
    ///     let answer = evaluator.partial(sheet.as_bytes()).result()?;
    ///     Ok(answer.lines().next().unwrap_or("").to_string())
    /// }
    /// assert_eq!(decision("sheet=complete\n").unwrap_err().number, 3);
    /// ```
    pub fn result(self) -> Result<&'a str, Refusal> {
        match self {
            Outcome::Answer(text) => Ok(text),
            Outcome::Refused(refusal) => Err(refusal),
        }
    }

    /// The answer as data, where it was given to this sheet: by [`partial`], [`complete`] or [`preview`], or by [`finish`] with this complete sheet. A page and a test load are no
    /// answers.
    ///
    /// ```
    /// use openrules::sheet::Sheet;
    /// use openrules::Evaluator;
    ///
    /// let shown = include_bytes!("../../examples/name-not-settled.sheet");
    /// let filled = include_bytes!("../../examples/name-not-settled-insured.sheet");
    /// let answer = Evaluator::new().finish(shown, filled).answer(&Sheet::read(filled).unwrap()).unwrap();
    /// assert_eq!(answer.why.as_deref(), Some("high band"));
    /// ```
    pub fn answer(self, sheet: &Sheet) -> Result<Answer> {
        Ok(Answer::read(sheet, self.result()?.as_bytes())?)
    }
}

/// Calls a C function of [`declare`] with arguments of its own, in lent slices, and gives the [`Outcome`].
macro_rules! call {
    ($name:ident($($own:expr),*), $first:ident, $second:ident, $out:ident) => {{
        let (mut line, mut length) = (0, 0);
        // SAFETY: every pointer is that of a Rust slice with the length beside it, or of a local number; the borrows keep them
        // apart and valid during the call. The library asks nothing else of its caller.
        let number = unsafe {
            $name(
                $($own,)*
                $first.as_mut_ptr(),
                $first.len(),
                $second.as_mut_ptr(),
                $second.len(),
                $out.as_mut_ptr(),
                $out.len(),
                &mut line,
                &mut length,
            )
        };
        outcome(number, line, length, $out)
    }};
}

/// What a call gave, by its number, line and length and the buffer that it was lent.
fn outcome(number: u32, line: usize, length: usize, out: &[u8]) -> Outcome<'_> {
    if number != 0 {
        return Outcome::Refused(Refusal { number, line, length });
    }
    Outcome::Answer(std::str::from_utf8(&out[..length]).expect("answers and sheets have bytes 10 and 32 to 126 alone"))
}

/// The answer to a partial sheet, in slices of the caller's own.
///
/// Both work slices must have [`WORDS`] words; what they hold does not matter. After number 1 they are untouched, otherwise
/// their first 16,384 words are 0 and the rest untouched. Of `out` only the bytes of the answer change.
///
/// ```
/// use openrules::{partial, Outcome, Refusal, WORDS};
///
/// let (mut first, mut second, mut out) = ([7; WORDS], [7; WORDS - 1], [7; 100]);
/// let outcome = partial(b"sheet=partial\n", &mut first, &mut second, &mut out);
/// assert_eq!(outcome, Outcome::Refused(Refusal { number: 1, line: 0, length: 0 }));
/// assert_eq!(first, [7; WORDS]);
/// ```
pub fn partial<'a>(sheet: &[u8], first: &mut [u32], second: &mut [u32], out: &'a mut [u8]) -> Outcome<'a> {
    call!(openrules_partial(sheet.as_ptr(), sheet.len()), first, second, out)
}

/// The answer to a complete sheet, in slices of the caller's own, as [`partial`] is for a partial one.
///
/// ```
/// use openrules::{complete, Outcome, WORDS};
///
/// let (mut first, mut second, mut out) = ([0; WORDS], [0; WORDS], [0; 200]);
/// let outcome = complete(include_bytes!("../../examples/bands-overlap-complete.sheet"), &mut first, &mut second, &mut out);
/// assert_eq!(outcome, Outcome::Answer(include_str!("../../examples/bands-overlap-complete.answer")));
/// ```
pub fn complete<'a>(sheet: &[u8], first: &mut [u32], second: &mut [u32], out: &'a mut [u8]) -> Outcome<'a> {
    call!(openrules_complete(sheet.as_ptr(), sheet.len()), first, second, out)
}

/// The counter page of a partial sheet, in slices of the caller's own, as [`partial`] has them: [`PAGE`] bytes in the answer's place.
///
/// It is refused as [`partial`] refuses, but for the number 10, which a buffer of under [`PAGE`] bytes gets, with that length.
///
/// ```
/// use openrules::{page, Outcome, Refusal, PAGE, WORDS};
///
/// let sheet = "sheet=partial\ntext=Broker\ntext=Action\ntext=quote\nkind=0,e\nkind=1,a\ntype=record\nshape=0,-\nshape=0,-\n\
///     principal=0,?\naction=1,2\nresource=0,?\ncontext=0,?\nday=2026-06-30\n";
/// let (mut first, mut second, mut out) = ([0; WORDS], [0; WORDS], [0; PAGE]);
/// let outcome = page(sheet.as_bytes(), &mut first, &mut second, &mut out[1..]);
/// assert_eq!(outcome, Outcome::Refused(Refusal { number: 10, line: 0, length: PAGE }));
/// let text = page(sheet.as_bytes(), &mut first, &mut second, &mut out).result().unwrap();
/// assert_eq!(text, format!("{:72}\n", "decision=deny") + &format!("{:72}\n", "").repeat(59));
/// ```
pub fn page<'a>(sheet: &[u8], first: &mut [u32], second: &mut [u32], out: &'a mut [u8]) -> Outcome<'a> {
    call!(openrules_page(sheet.as_ptr(), sheet.len()), first, second, out)
}

/// The answer that what a partial sheet's run left gives on a complete sheet, in slices of the caller's own, as [`partial`] has them.
///
/// Both sheets pass their own checks first, the partial one before the other: the numbers 2 to 8 and their line are those of the sheet at fault,
/// and do not say which one it is. Then comes 11, with the first line of the complete sheet that breaks agreement, or the line after its last if
/// none does and one is lacking. The answer is the one that [`complete`] gives for the complete sheet, byte for byte. The call takes some 84 KB of
/// stack beside what the other calls take.
///
/// ```
/// use openrules::{finish, Outcome, Refusal, WORDS};
///
/// let rest = "text=Broker\ntext=Action\ntext=quote\nkind=0,e\nkind=1,a\ntype=record\nshape=0,-\nshape=0,-\nvalue=record\n";
/// let partial = format!("sheet=partial\n{rest}principal=0,?\naction=1,2\nresource=0,0\ncontext=0,?\nday=2026-06-30\n");
/// let complete = format!("sheet=complete\n{rest}principal=0,2\naction=1,2\nresource=0,0\ncontext=0,0\nday=2026-06-30\n");
/// let (mut first, mut second, mut out) = ([0; WORDS], [0; WORDS], [0; 100]);
/// let outcome = finish(partial.as_bytes(), complete.as_bytes(), &mut first, &mut second, &mut out);
/// assert_eq!(outcome, Outcome::Answer("decision=deny\ncounts=0,0,0,0,0,0,0,0\nwhy=none\n"));
///
/// // The resource was known, and is another one now: line 13.
/// let other = complete.replace("resource=0,0", "resource=0,1");
/// let outcome = finish(partial.as_bytes(), other.as_bytes(), &mut first, &mut second, &mut out);
/// assert_eq!(outcome, Outcome::Refused(Refusal { number: 11, line: 13, length: 0 }));
/// ```
pub fn finish<'a>(partial: &[u8], complete: &[u8], first: &mut [u32], second: &mut [u32], out: &'a mut [u8]) -> Outcome<'a> {
    call!(openrules_finish(partial.as_ptr(), partial.len(), complete.as_ptr(), complete.len()), first, second, out)
}

/// What a run on a copy of a partial sheet gives that has `replacement` in the place of line `of_line`, counted from 1, in slices of the caller's
/// own, as [`partial`] has them. The sheet itself is only read.
///
/// 1 comes first, then 2 for the kept sheet. Then comes 12, with `of_line`, where the sheet has no such line or the replacement may not stand for
/// it: it has no byte 10, the same key, one of `principal`, `resource`, `context` and `entity`, as many items after the first `=`, and differs
/// from the line, only in items that were a lone `?`. The rest is what [`partial`] gives for the copy; the kept sheet is not asked for it. The call
/// takes some 16 KB of stack beside what the other calls take.
///
/// ```
/// use openrules::{partial, preview, Outcome, Refusal, WORDS};
///
/// let sheet = "sheet=partial\ntext=Broker\ntext=Action\ntext=quote\ntext=b7\nkind=0,e\nkind=1,a\ntype=bool\ntype=record\ntype=entity,0\n\
///     shape=1,-\nshape=1,-\nvalue=entity,0,3\nprincipal=0,?\naction=1,2\nresource=0,?\ncontext=1,?\nday=2026-06-30\n\
///     node=2,var,p\nnode=2,lit,0\nnode=0,eq,0,1\npolicy=3,permit,2\n";
/// let (mut first, mut second, mut out) = ([0; WORDS], [0; WORDS], [0; 200]);
/// let open = partial(sheet.as_bytes(), &mut first, &mut second, &mut out).result().unwrap();
/// assert!(open.starts_with("decision=open\n"));
///
/// // Were the broker b7, the rule would permit.
/// let allow = preview(sheet.as_bytes(), 14, b"principal=0,3", &mut first, &mut second, &mut out).result().unwrap();
/// assert!(allow.starts_with("decision=allow\n"));
///
/// // A known item stays as it is.
/// let outcome = preview(sheet.as_bytes(), 14, b"principal=1,3", &mut first, &mut second, &mut out);
/// assert_eq!(outcome, Outcome::Refused(Refusal { number: 12, line: 14, length: 0 }));
/// ```
pub fn preview<'a>(
    sheet: &[u8],
    of_line: usize,
    replacement: &[u8],
    first: &mut [u32],
    second: &mut [u32],
    out: &'a mut [u8],
) -> Outcome<'a> {
    call!(openrules_preview(sheet.as_ptr(), sheet.len(), of_line, replacement.as_ptr(), replacement.len()), first, second, out)
}

/// The test load that a seed and a number of policies name: a partial sheet, which [`partial`] accepts with an answer of at most [`SHEET`]
/// bytes. The number of policies is 1 to [`POLICIES`]; another one gets 13, before 10. A buffer of [`SHEET`] bytes is long enough for every seed. Of
/// `out` only the bytes of the sheet change.
///
/// ```
/// use openrules::{test_load, Evaluator, Outcome, Refusal, SHEET};
///
/// let mut out = [0; SHEET];
/// assert_eq!(test_load(0, 65, &mut out), Outcome::Refused(Refusal { number: 13, line: 0, length: 0 }));
/// assert_eq!(test_load(0, 1, &mut out[..340]), Outcome::Refused(Refusal { number: 10, line: 0, length: 341 }));
/// let sheet = test_load(0, 1, &mut out).result().unwrap();
/// assert!(sheet.ends_with("node=3,var,c\nnode=1,get,0,4\nnode=0,like,1,*\npolicy=5,forbid,2\n"));
/// assert!(Evaluator::new().partial(sheet.as_bytes()).result().is_ok());
/// ```
pub fn test_load(seed: u64, policies: u32, out: &mut [u8]) -> Outcome<'_> {
    let (mut line, mut length) = (0, 0);
    // SAFETY: as for the other calls.
    let number = unsafe { openrules_test_load(seed, policies, out.as_mut_ptr(), out.len(), &mut line, &mut length) };
    outcome(number, line, length, out)
}

/// What the policies decide, on a sheet, for one row or for a group.
///
/// ```
/// assert_eq!(openrules::Decision::Open.to_string(), "open");
/// ```
#[derive(Clone, Copy, Debug, PartialEq, Eq)]
#[repr(u32)]
pub enum Decision {
    /// A permit is true, and no forbid is true or open.
    Allow = 0,
    /// A forbid is true, or nothing permits.
    Deny = 1,
    /// What is unknown decides.
    Open = 2,
}

impl Decision {
    /// The decision that a word of an answer names.
    fn from_word(word: &str) -> Option<Decision> {
        [Decision::Allow, Decision::Deny, Decision::Open].into_iter().find(|decision| decision.word() == word)
    }

    fn word(self) -> &'static str {
        match self {
            Decision::Allow => "allow",
            Decision::Deny => "deny",
            Decision::Open => "open",
        }
    }
}

impl fmt::Display for Decision {
    fn fmt(&self, f: &mut fmt::Formatter<'_>) -> fmt::Result {
        f.write_str(self.word())
    }
}

/// A row of a firm: the numbers of two texts of the sheet, and the decision, which [`firm`] fills.
///
/// ```
/// use openrules::{Decision, Evaluator, Row};
///
/// let mut rows = [Row::new(10, 4), Row::new(3, 4)];
/// let group = Evaluator::new().firm(&mut rows, include_bytes!("../../examples/one-rule-three-brokers.sheet"));
/// assert_eq!(rows.map(|row| row.decision), [Decision::Allow, Decision::Deny]);
/// assert_eq!(group, Ok(Decision::Deny));
/// ```
#[derive(Clone, Copy, Debug, PartialEq, Eq)]
#[repr(C)]
pub struct Row {
    /// The principal's text.
    pub principal: u32,
    /// The resource's text.
    pub resource: u32,
    /// The decision on the sheet with both texts.
    pub decision: Decision,
}

impl Row {
    /// A row that asks for these texts; until a call fills it, it is open.
    ///
    /// ```
    /// use openrules::{Decision, Row};
    ///
    /// assert_eq!(Row::new(10, 4), Row { principal: 10, resource: 4, decision: Decision::Open });
    /// ```
    pub fn new(principal: u32, resource: u32) -> Row {
        Row { principal, resource, decision: Decision::Open }
    }
}

/// For each row the decision on a partial sheet with the row's texts for principal and resource, in slices of the caller's own, as [`partial`] has them;
/// and the group's decision: deny if any row denies, else open if any row is open, else allow.
///
/// A row repeats a text that the sheet knows. The sheet is read once for all rows. First 1, 2 and 14, then the sheet's lines, then 15 of the lowest row; after
/// a refusal no row has changed. The call takes some 64 KB of stack beside what the other calls take.
///
/// ```
/// use openrules::{firm, Decision, Refusal, Row, WORDS};
///
/// // No policy, so nothing permits: deny.
/// let sheet = b"sheet=partial\ntext=Broker\ntext=Action\ntext=quote\nkind=0,e\nkind=1,a\ntype=record\nshape=0,-\nshape=0,-\nprincipal=0,?\naction=1,2\nresource=0,0\ncontext=0,?\nday=2026-06-30\n";
/// let (mut first, mut second) = ([0; WORDS], [0; WORDS]);
/// let mut rows = [Row::new(0, 0), Row::new(1, 0)];
/// assert_eq!(firm(&mut rows, sheet, &mut first, &mut second), Ok(Decision::Deny));
/// assert_eq!(rows[1].decision, Decision::Deny);
///
/// // There are three texts.
/// let mut rows = [Row::new(0, 0), Row::new(3, 0)];
/// assert_eq!(firm(&mut rows, sheet, &mut first, &mut second), Err(Refusal { number: 15, line: 1, length: 0 }));
/// assert_eq!(rows[0].decision, Decision::Open);
/// ```
pub fn firm(rows: &mut [Row], sheet: &[u8], first: &mut [u32], second: &mut [u32]) -> Result<Decision, Refusal> {
    let (mut line, mut length, mut group) = (0, 0, Decision::Open);
    // SAFETY: as for the other calls. A row and a decision have the layout of the C type; the library stores the numbers 0, 1 and 2 alone as decisions.
    let number = unsafe {
        openrules_firm(
            rows.as_mut_ptr(),
            rows.len(),
            sheet.as_ptr(),
            sheet.len(),
            first.as_mut_ptr(),
            first.len(),
            second.as_mut_ptr(),
            second.len(),
            &mut line,
            &mut length,
            &mut group,
        )
    };
    if number != 0 {
        return Err(Refusal { number, line, length });
    }
    Ok(group)
}

/// The slices that calls work in, kept from call to call.
///
/// ```
/// let mut evaluator = openrules::Evaluator::default();
/// for sheet in [&include_bytes!("../../examples/bands-overlap.sheet")[..], include_bytes!("../../examples/open-forbid-alone.sheet")] {
///     println!("{}", evaluator.answer(sheet)?);
/// }
/// # Ok::<(), openrules::Error>(())
/// ```
pub struct Evaluator {
    first: Vec<u32>,
    second: Vec<u32>,
    out: Vec<u8>,
}

impl Evaluator {
    /// Two work slices of [`WORDS`] words and an answer buffer of [`ANSWER`] bytes, so that the numbers 1 and 10 are never met.
    ///
    /// ```
    /// let mut evaluator = openrules::Evaluator::new();
    /// assert!(evaluator.partial(b"").result().is_err());
    /// ```
    pub fn new() -> Evaluator {
        Evaluator { first: vec![0; WORDS], second: vec![0; WORDS], out: vec![0; ANSWER] }
    }

    /// The answer to a sheet, as data. Where its first line is `sheet=complete` it goes to [`complete`], otherwise to [`partial`].
    ///
    /// ```
    /// use openrules::{Decision, Evaluator};
    ///
    /// let mut evaluator = Evaluator::new();
    /// let answer = evaluator.answer(include_bytes!("../../examples/bands-overlap-complete.sheet")).unwrap();
    /// assert_eq!((answer.decision, answer.why.as_deref()), (Decision::Allow, Some("low band")));
    /// assert!(answer.policies.iter().all(|policy| policy.residual.is_none()));
    /// ```
    pub fn answer(&mut self, sheet: &[u8]) -> Result<Answer> {
        let outcome = if sheet.starts_with(b"sheet=complete\n") { self.complete(sheet) } else { self.partial(sheet) };
        let text = outcome.result()?;
        Ok(Answer::read(&Sheet::read(sheet)?, text.as_bytes())?)
    }

    /// The answer to a partial sheet, as the library wrote it.
    ///
    /// ```
    /// let mut evaluator = openrules::Evaluator::new();
    /// let text = evaluator.partial(include_bytes!("../../examples/bands-overlap.sheet")).result().unwrap();
    /// assert_eq!(text, include_str!("../../examples/bands-overlap.answer"));
    /// ```
    pub fn partial(&mut self, sheet: &[u8]) -> Outcome<'_> {
        partial(sheet, &mut self.first, &mut self.second, &mut self.out)
    }

    /// The answer to a complete sheet, as the library wrote it.
    ///
    /// ```
    /// let mut evaluator = openrules::Evaluator::new();
    /// let text = evaluator.complete(include_bytes!("../../examples/bands-overlap-complete.sheet")).result().unwrap();
    /// assert_eq!(text, include_str!("../../examples/bands-overlap-complete.answer"));
    /// ```
    pub fn complete(&mut self, sheet: &[u8]) -> Outcome<'_> {
        complete(sheet, &mut self.first, &mut self.second, &mut self.out)
    }

    /// The counter page of a partial sheet.
    ///
    /// ```
    /// let mut evaluator = openrules::Evaluator::new();
    /// let page = evaluator.page(include_bytes!("../../examples/office-region-firm.sheet")).result().unwrap();
    /// assert_eq!(page, include_str!("../../examples/office-region-firm.page"));
    /// ```
    pub fn page(&mut self, sheet: &[u8]) -> Outcome<'_> {
        page(sheet, &mut self.first, &mut self.second, &mut self.out)
    }

    /// The answer that what a partial sheet's run left gives on a complete sheet.
    ///
    /// ```
    /// let (shown, filled) = (include_bytes!("../../examples/excluded-goods.sheet"), include_bytes!("../../examples/excluded-goods-timber.sheet"));
    /// let mut evaluator = openrules::Evaluator::new();
    /// let text = evaluator.finish(shown, filled).result().unwrap();
    /// assert_eq!(text, include_str!("../../examples/excluded-goods-timber.finished"));
    /// ```
    pub fn finish(&mut self, partial: &[u8], complete: &[u8]) -> Outcome<'_> {
        finish(partial, complete, &mut self.first, &mut self.second, &mut self.out)
    }

    /// What a partial sheet gives with `replacement` in the place of line `of_line`.
    ///
    /// ```
    /// let sheet = include_bytes!("../../examples/one-rule-three-brokers.sheet");
    /// let mut evaluator = openrules::Evaluator::new();
    /// let text = evaluator.preview(sheet, 38, b"principal=0,11").result().unwrap();
    /// assert_eq!(text, include_str!("../../examples/one-rule-three-brokers.preview"));
    /// ```
    pub fn preview(&mut self, sheet: &[u8], of_line: usize, replacement: &[u8]) -> Outcome<'_> {
        preview(sheet, of_line, replacement, &mut self.first, &mut self.second, &mut self.out)
    }

    /// For each row the decision on a partial sheet with the row's two texts, and the group's decision.
    ///
    /// ```
    /// use openrules::{Decision, Evaluator, Row};
    ///
    /// let mut rows = [Row::new(10, 4), Row::new(11, 4), Row::new(12, 4)];
    /// let group = Evaluator::new().firm(&mut rows, include_bytes!("../../examples/one-rule-three-brokers.sheet"));
    /// assert_eq!(group, Ok(Decision::Allow));
    /// ```
    pub fn firm(&mut self, rows: &mut [Row], sheet: &[u8]) -> Result<Decision, Refusal> {
        firm(rows, sheet, &mut self.first, &mut self.second)
    }
}

impl Default for Evaluator {
    fn default() -> Evaluator {
        Evaluator::new()
    }
}
