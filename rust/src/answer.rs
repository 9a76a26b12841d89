//! Answers as data, taken from the bytes that the library wrote. Nothing is worked out anew.

use std::fmt;

use crate::cedar::{Expr, Names, Text};
use crate::sheet::{form_index, form_node, form_value, lines, Effect, Fault, Mode, Node, Scope, Sheet, Value};
use crate::Decision;

/// What is known of a policy.
///
/// ```
/// assert_eq!(openrules::Class::Open.to_string(), "open");
/// ```
#[derive(Clone, Copy, Debug, PartialEq, Eq, Hash)]
pub enum Class {
    /// It is true.
    True,
    /// It is false.
    False,
    /// It yields an error, and is skipped.
    Error,
    /// What is unknown decides.
    Open,
}

/// How many policies there are of each effect and class, as the answer counts them.
///
/// ```
/// use openrules::sheet::Effect;
/// use openrules::{Class, Evaluator};
///
/// let answer = Evaluator::new().answer(include_bytes!("../../examples/bands-overlap.sheet")).unwrap();
/// assert_eq!(answer.counts.of(Effect::Permit, Class::True), 1);
/// assert_eq!(answer.counts.of(Effect::Forbid, Class::Open), 0);
/// assert_eq!(answer.counts.to_string(), "permits: 1 true, 0 false, 0 error, 1 open; forbids: 0 true, 0 false, 0 error, 0 open");
/// ```
#[derive(Clone, Copy, Debug, PartialEq, Eq, Hash)]
pub struct Counts([usize; 8]);

impl Counts {
    /// The policies of an effect and a class.
    ///
    /// ```
    /// use openrules::sheet::Effect;
    /// use openrules::{Class, Evaluator};
    ///
    /// let answer = Evaluator::new().answer(include_bytes!("../../examples/open-forbid-alone.sheet")).unwrap();
    /// assert_eq!(answer.counts.of(Effect::Forbid, Class::Open), 1);
    /// ```
    pub fn of(&self, effect: Effect, class: Class) -> usize {
        self.0[4 * effect as usize + class as usize]
    }
}

/// What an answer says of one policy.
///
/// ```
/// use openrules::sheet::Effect;
/// use openrules::{Class, Evaluator};
///
/// let answer = Evaluator::new().answer(include_bytes!("../../examples/bands-overlap.sheet")).unwrap();
/// let high = &answer.policies[1];
/// assert_eq!((&*high.id, high.effect, high.class), ("high band", Effect::Permit, Class::Open));
/// assert_eq!(high.residual.as_ref().unwrap().to_string(), "context.insured");
/// assert_eq!(high.to_string(), "high band: permit, open\n    context.insured");
/// ```
#[derive(Clone, Debug, PartialEq, Eq)]
pub struct Verdict {
    /// Its id.
    pub id: Text,
    /// What it does where it is true.
    pub effect: Effect,
    /// What is known of it.
    pub class: Class,
    /// The node of the answer at the root of what is left of it; none in the answer to a complete sheet.
    pub root: Option<usize>,
    /// What is left of it, as a tree; none in the answer to a complete sheet.
    pub residual: Option<Expr>,
}

/// An answer. Its `Display` is for people.
///
/// ```
/// let mut evaluator = openrules::Evaluator::new();
/// let answer = evaluator.answer(include_bytes!("../../examples/open-forbid-beside-permit.sheet")).unwrap();
/// assert_eq!(answer.decision, openrules::Decision::Open);
/// assert_eq!(
///     answer.to_string(),
///     "decision: open\n\
///      why: none\n\
///      permits: 1 true, 0 false, 0 error, 0 open; forbids: 0 true, 0 false, 0 error, 1 open\n\
///      low band: permit, true\n\
///      not insured: forbid, open\n    !context.insured\n"
/// );
/// ```
#[derive(Clone, Debug, PartialEq, Eq)]
pub struct Answer {
    /// What the policies decide.
    pub decision: Decision,
    /// How many policies there are of each effect and class.
    pub counts: Counts,
    /// The id of the first policy that gave the decision: a true forbid for a deny, a true permit for an allow; none for open and for a deny without a true
    /// forbid.
    pub why: Option<Text>,
    /// The values that were made, numbered on from the sheet's.
    pub values: Vec<Value>,
    /// The nodes of all residuals. Their numbers for texts, kinds and types are the sheet's, for values the sheet's and those of the made ones.
    pub nodes: Vec<Node>,
    /// The policies on term, in the sheet's order.
    pub policies: Vec<Verdict>,
}

/// The keys of an answer in their order; the first three have one line each.
const KEYS: [&str; 6] = ["decision", "counts", "why", "value", "node", "policy"];

/// The lines of an answer while they are read.
struct Lines<'s> {
    sheet: &'s Sheet,
    scope: Scope,
    decision: Decision,
    counts: Counts,
    why: Option<usize>,
    values: Vec<Value>,
    nodes: Vec<Node>,
    policies: Vec<(usize, Effect, Class, Option<usize>)>,
}

impl Answer {
    /// Reads the answer that the library wrote to a sheet. The answer of [`finish`](crate::finish) belongs to the complete sheet.
    ///
    /// ```
    /// use openrules::sheet::Sheet;
    /// use openrules::{Answer, Decision};
    ///
    /// let sheet = Sheet::read(include_bytes!("../../examples/bands-overlap.sheet")).unwrap();
    /// let answer = Answer::read(&sheet, include_bytes!("../../examples/bands-overlap.answer")).unwrap();
    /// assert_eq!(answer.decision, Decision::Allow);
    /// assert_eq!(answer.why.as_deref(), Some("low band"));
    /// assert_eq!(Answer::read(&sheet, b"decision=perhaps\n").unwrap_err().line, 1);
    /// ```
    pub fn read(sheet: &Sheet, text: &[u8]) -> Result<Answer, Fault> {
        let lines = lines(text)?;
        let mut read = Lines {
            sheet,
            scope: Scope::of_answer(sheet)?,
            decision: Decision::Open,
            counts: Counts([0; 8]),
            why: None,
            values: Vec::new(),
            nodes: Vec::new(),
            policies: Vec::new(),
        };
        let mut last = 0;
        for (number, key, value) in &lines {
            let place = KEYS.iter().position(|one| one == key).ok_or(Fault::new(*number, Fault::FORM))?;
            // The first three lines have the first three keys, the others follow.
            if (*number <= 3 || place < 3) && place + 1 != *number || place < last {
                return Err(Fault::new(*number, Fault::ORDER));
            }
            last = place;
            read.line(key, value).map_err(|reason| Fault::new(*number, reason))?;
        }
        if lines.len() < 3 {
            return Err(Fault::new(lines.len() + 1, Fault::MISSING));
        }
        read.answer()
    }
}

impl Lines<'_> {
    /// Takes a line, or says what is wrong with it.
    fn line(&mut self, key: &str, value: &str) -> Result<(), &'static str> {
        match key {
            "decision" => self.decision = Decision::from_word(value).ok_or(Fault::FORM)?,
            "counts" => {
                let counts: Option<Vec<usize>> = value.split(',').map(form_index).collect();
                self.counts = Counts(counts.and_then(|counts| counts.try_into().ok()).ok_or(Fault::FORM)?);
            }
            "why" if value == "none" => self.why = None,
            "why" => self.why = Some(self.text(value)?),
            "value" => {
                let row = form_value(value).filter(|_| self.sheet.mode == Mode::Partial).ok_or(Fault::FORM)?;
                self.scope.value(&row)?;
                self.values.push(row);
            }
            "node" => {
                let row = form_node(value).filter(|_| self.sheet.mode == Mode::Partial).ok_or(Fault::FORM)?;
                self.scope.node(&row)?;
                self.nodes.push(row);
            }
            "policy" => self.policy(value)?,
            _ => return Err(Fault::FORM),
        }
        Ok(())
    }

    fn text(&self, item: &str) -> Result<usize, &'static str> {
        let text = form_index(item).ok_or(Fault::FORM)?;
        if text < self.scope.texts {
            Ok(text)
        } else {
            Err(Fault::REFERENCE)
        }
    }

    fn policy(&mut self, value: &str) -> Result<(), &'static str> {
        let items: Vec<&str> = value.split(',').collect();
        let (id, effect, class, root) = match (self.sheet.mode, &items[..]) {
            (Mode::Partial, [id, effect, class, root]) => (id, effect, class, Some(form_index(root).ok_or(Fault::FORM)?)),
            (Mode::Complete, [id, effect, class]) => (id, effect, class, None),
            _ => return Err(Fault::FORM),
        };
        let effect = Effect::from_word(effect).ok_or(Fault::FORM)?;
        let class = Class::from_word(class).ok_or(Fault::FORM)?;
        let id = self.text(id)?;
        if let Some(root) = root {
            self.scope.uses(root)?;
        }
        self.policies.push((id, effect, class, root));
        Ok(())
    }

    /// The answer, with the names that its numbers stand for.
    fn answer(self) -> Result<Answer, Fault> {
        let names = Names::new(self.sheet, &self.values)?;
        let mut policies = Vec::new();
        for (id, effect, class, root) in self.policies {
            let residual = root.map(|root| names.tree(&self.nodes, root)).transpose()?;
            policies.push(Verdict { id: names.text(id)?, effect, class, root, residual });
        }
        Ok(Answer {
            decision: self.decision,
            counts: self.counts,
            why: self.why.map(|text| names.text(text)).transpose()?,
            values: self.values,
            nodes: self.nodes,
            policies,
        })
    }
}

impl Class {
    const ALL: [Class; 4] = [Class::True, Class::False, Class::Error, Class::Open];

    fn from_word(word: &str) -> Option<Class> {
        Class::ALL.into_iter().find(|class| class.word() == word)
    }

    fn word(self) -> &'static str {
        match self {
            Class::True => "true",
            Class::False => "false",
            Class::Error => "error",
            Class::Open => "open",
        }
    }
}

impl fmt::Display for Class {
    fn fmt(&self, f: &mut fmt::Formatter<'_>) -> fmt::Result {
        f.write_str(self.word())
    }
}

impl fmt::Display for Counts {
    fn fmt(&self, f: &mut fmt::Formatter<'_>) -> fmt::Result {
        for (effect, words) in [(Effect::Permit, "permits:"), (Effect::Forbid, "; forbids:")] {
            f.write_str(words)?;
            for (place, class) in Class::ALL.into_iter().enumerate() {
                write!(f, "{} {} {class}", if place > 0 { "," } else { "" }, self.of(effect, class))?;
            }
        }
        Ok(())
    }
}

impl fmt::Display for Verdict {
    fn fmt(&self, f: &mut fmt::Formatter<'_>) -> fmt::Result {
        write!(f, "{}: {}, {}", self.id, self.effect, self.class)?;
        match &self.residual {
            Some(left) if self.class == Class::Open => write!(f, "\n    {left}"),
            _ => Ok(()),
        }
    }
}

impl fmt::Display for Answer {
    fn fmt(&self, f: &mut fmt::Formatter<'_>) -> fmt::Result {
        writeln!(f, "decision: {}", self.decision)?;
        writeln!(f, "why: {}", self.why.as_deref().unwrap_or("none"))?;
        writeln!(f, "{}", self.counts)?;
        self.policies.iter().try_for_each(|policy| writeln!(f, "{policy}"))
    }
}
