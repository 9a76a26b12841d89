//! Trees with their texts, printed in Cedar's policy syntax.
//!
//! An [`Expr`] is a policy's tree or what is left of it; its `Display` is Cedar text. Brackets stand where Cedar would read another tree
//! without them, and nowhere else, but for an operand of `!` and `-` that begins with one of them itself. Texts are escaped as Cedar's own printer escapes them.
//!
//! | Tree | Cedar text |
//! |---|---|
//! | `not` of `eq`, `le`, `lt` | `a != b`, `a > b`, `a >= b`: Cedar reads these as the tree |
//! | `get`, `has` of a name that is no identifier | `a["name"]`, `a has "name"` |
//! | `haspath` | `a has b.c` |
//! | `gettag`, `hastag`, `contains`, `all`, `any`, `empty` | `.getTag(..)`, `.hasTag(..)`, `.contains(..)`, `.containsAll(..)`, `.containsAny(..)`, `.isEmpty()` |
//! | `slot` | `?principal`, `?resource`; Cedar itself has slots in the head of a template only |
//!
//! A few trees have no Cedar text. They are printed in forms that Cedar's parser refuses, mostly as calls of functions that it does not have, so that it does not read something else:
//!
//! - `error()`: the node `err`, which yields an error.
//! - `entity("a kind", "b7")` and `is kind("a kind")`: a kind whose name is no Cedar name, that is no identifiers with `::` between them.
//! - `a has b["c d"].e` and `a has "c d".e`: a path of two steps or more with one that is no identifier.
//! - `elided()`: a literal of over 1,024 parts, as only values come to that share parts many times over. Without it a sheet of 16,384 bytes could ask for 2^62 parts.
//!
//! ```
//! use openrules::sheet::Sheet;
//!
//! let sheet = Sheet::read(include_bytes!("../../examples/bands-overlap.sheet")).unwrap();
//! let rule = sheet.rule(1).unwrap();
//! assert_eq!(rule.condition.to_string(), "50 <= resource.weight && context.insured");
//! ```

use std::fmt;
use std::sync::Arc;

use crate::sheet::{Binary, Effect, Fault, Node, Operation, Sheet, Slot, Unary, Value, Variable, GREATEST_ANSWER_DEPTH};

/// A text of a sheet, shared by what names it.
///
/// ```
/// let text: openrules::cedar::Text = "insured".into();
/// assert_eq!(&*text, "insured");
/// ```
pub type Text = Arc<str>;

/// A value with its texts. Parts that values share are shared here too.
///
/// ```
/// use openrules::cedar::Literal;
///
/// let broker = Literal::Entity { kind: "Broker".into(), id: "b7".into() };
/// assert_eq!(broker.to_string(), r#"Broker::"b7""#);
/// assert_eq!(Literal::Set([Literal::Long(-1), Literal::Bool(true)].into()).to_string(), "[-1, true]");
/// ```
#[derive(Clone, Debug, PartialEq, Eq, PartialOrd, Ord, Hash)]
pub enum Literal {
    /// `true` or `false`.
    Bool(bool),
    /// A whole number.
    Long(i64),
    /// A text.
    String(Text),
    /// An entity.
    Entity {
        /// The name of its kind.
        kind: Text,
        /// What it is called.
        id: Text,
    },
    /// The elements of a set.
    Set(Arc<[Literal]>),
    /// The attributes of a record.
    Record(Arc<[(Text, Literal)]>),
}

/// A tree: a policy's condition, or what is left of it.
///
/// ```
/// use openrules::cedar::{Expr, Literal};
/// use openrules::sheet::{Binary, Variable};
///
/// let broker = Expr::Lit(Literal::Entity { kind: "Broker".into(), id: "b7".into() });
/// let same = Expr::Binary(Binary::Eq, Expr::Var(Variable::Principal).into(), broker.into());
/// let insured = Expr::Get(Expr::Var(Variable::Context).into(), "insured".into());
/// let both = Expr::Binary(Binary::And, same.into(), insured.into());
/// assert_eq!(both.to_string(), r#"principal == Broker::"b7" && context.insured"#);
/// ```
#[derive(Clone, Debug, PartialEq, Eq)]
pub enum Expr {
    /// A value.
    Lit(Literal),
    /// It yields an error.
    Err,
    /// A part of the request.
    Var(Variable),
    /// What the link of a policy has there.
    Slot(Slot),
    /// One operand.
    Unary(Unary, Box<Expr>),
    /// Two operands.
    Binary(Binary, Box<Expr>, Box<Expr>),
    /// The test, and the two branches.
    If(Box<Expr>, Box<Expr>, Box<Expr>),
    /// Whether an entity is of a kind.
    Is(Box<Expr>, Text),
    /// A pattern of texts and of `*` as None.
    Like(Box<Expr>, Vec<Option<Text>>),
    /// An attribute.
    Get(Box<Expr>, Text),
    /// Whether there is an attribute.
    Has(Box<Expr>, Text),
    /// Whether there is an attribute at the end of a path.
    HasPath(Box<Expr>, Vec<Text>),
    /// A set.
    Set(Vec<Expr>),
    /// A record.
    Record(Vec<(Text, Expr)>),
}

/// A policy of a sheet. Its `Display` is a policy in Cedar's syntax.
///
/// ```
/// use openrules::sheet::Sheet;
///
/// let sheet = Sheet::read(include_bytes!("../../examples/one-rule-three-brokers.sheet")).unwrap();
/// assert_eq!(
///     sheet.rule(1).unwrap().to_string(),
///     "@id(\"tariff of b2\")\n\
///      permit(principal, action, resource) when { resource.weight <= 100 && principal == Broker::\"b2\" };",
/// );
/// assert_eq!(
///     sheet.template(1).unwrap().to_string(),
///     "@id(\"tariff of b2\")\n\
///      permit(principal, action, resource) when { resource.weight <= 100 && principal == ?principal };",
/// );
/// ```
#[derive(Clone, Debug, PartialEq, Eq)]
pub struct Rule {
    /// Its id.
    pub id: Text,
    /// What it does where it is true.
    pub effect: Effect,
    /// When it is true.
    pub condition: Expr,
}

// From rows to trees -----------------------------------------------------------------------------------------------------

/// The texts of a sheet, and its values with the made ones, as literals.
pub(crate) struct Names<'s> {
    sheet: &'s Sheet,
    pub(crate) texts: Vec<Text>,
    literals: Vec<(Literal, usize)>,
}

/// What no reader lets through, but rows that were made by hand may have.
const UNSOUND: Fault = Fault { line: 0, reason: Fault::REFERENCE };

impl<'s> Names<'s> {
    /// The names of a sheet, with the values that an answer made.
    pub(crate) fn new(sheet: &'s Sheet, made: &[Value]) -> Result<Names<'s>, Fault> {
        let texts = sheet.texts.iter().map(|text| Text::from(&**text)).collect();
        let mut names = Names { sheet, texts, literals: Vec::new() };
        for value in sheet.values.iter().chain(made) {
            let literal = names.literal(value)?;
            names.literals.push(literal);
        }
        Ok(names)
    }

    pub(crate) fn text(&self, number: usize) -> Result<Text, Fault> {
        self.texts.get(number).cloned().ok_or(UNSOUND)
    }

    fn kind(&self, number: usize) -> Result<Text, Fault> {
        self.text(self.sheet.kinds.get(number).ok_or(UNSOUND)?.name)
    }

    fn part(&self, number: usize) -> Result<&(Literal, usize), Fault> {
        self.literals.get(number).ok_or(UNSOUND)
    }

    /// The literal of a value over those before it, and its depth.
    fn literal(&self, value: &Value) -> Result<(Literal, usize), Fault> {
        let mut below = 0;
        let mut part = |number: usize| {
            let (literal, depth) = self.part(number)?;
            below = below.max(*depth);
            Ok(literal.clone())
        };
        let literal = match value {
            Value::Bool(truth) => Literal::Bool(*truth),
            Value::Long(number) => Literal::Long(*number),
            Value::Text(text) => Literal::String(self.text(*text)?),
            Value::Entity { kind, text } => Literal::Entity { kind: self.kind(*kind)?, id: self.text(*text)? },
            Value::Set(elements) => Literal::Set(elements.iter().map(|one| part(*one)).collect::<Result<_, Fault>>()?),
            Value::Record(fields) => {
                let field = |(text, one): &(usize, usize)| Ok((self.text(*text)?, part(*one)?));
                Literal::Record(fields.iter().map(field).collect::<Result<_, Fault>>()?)
            }
        };
        if below >= GREATEST_ANSWER_DEPTH {
            return Err(Fault::new(0, Fault::DEPTH));
        }
        Ok((literal, below + 1))
    }

    /// The tree under a node. Each node stands at most once in it, and its children before it.
    pub(crate) fn tree(&self, nodes: &[Node], root: usize) -> Result<Expr, Fault> {
        let mut left = nodes.len();
        self.under(nodes, root, GREATEST_ANSWER_DEPTH, &mut left)
    }

    fn under(&self, nodes: &[Node], root: usize, depth: usize, left: &mut usize) -> Result<Expr, Fault> {
        let node = nodes.get(root).ok_or(UNSOUND)?;
        if depth == 0 {
            return Err(Fault::new(0, Fault::DEPTH));
        }
        *left = left.checked_sub(1).ok_or(Fault::new(0, Fault::TWICE))?;
        let mut below = |child: usize| {
            if child >= root {
                return Err(UNSOUND);
            }
            self.under(nodes, child, depth - 1, left)
        };
        Ok(match &node.operation {
            Operation::Lit(value) => Expr::Lit(self.part(*value)?.0.clone()),
            Operation::Err => Expr::Err,
            Operation::Var(variable) => Expr::Var(*variable),
            Operation::Slot(slot) => Expr::Slot(*slot),
            Operation::Unary(word, child) => Expr::Unary(*word, below(*child)?.into()),
            Operation::Binary(word, a, b) => Expr::Binary(*word, below(*a)?.into(), below(*b)?.into()),
            Operation::If(a, b, c) => Expr::If(below(*a)?.into(), below(*b)?.into(), below(*c)?.into()),
            Operation::Is(child, kind) => Expr::Is(below(*child)?.into(), self.kind(*kind)?),
            Operation::Like(child, pattern) => {
                let item = |item: &Option<usize>| item.map(|text| self.text(text)).transpose();
                Expr::Like(below(*child)?.into(), pattern.iter().map(item).collect::<Result<_, Fault>>()?)
            }
            Operation::Get(child, text) => Expr::Get(below(*child)?.into(), self.text(*text)?),
            Operation::Has(child, text) => Expr::Has(below(*child)?.into(), self.text(*text)?),
            Operation::HasPath(child, path) => {
                Expr::HasPath(below(*child)?.into(), path.iter().map(|text| self.text(*text)).collect::<Result<_, Fault>>()?)
            }
            Operation::Set(children) => Expr::Set(children.iter().map(|child| below(*child)).collect::<Result<_, Fault>>()?),
            Operation::Record(fields) => {
                let field = |(text, child): &(usize, usize)| Ok((self.text(*text)?, below(*child)?));
                Expr::Record(fields.iter().map(field).collect::<Result<_, Fault>>()?)
            }
        })
    }

    /// A policy of the sheet, its slots as they stand.
    fn template(&self, policy: usize) -> Result<Rule, Fault> {
        let row = self.sheet.policies.get(policy).ok_or(UNSOUND)?;
        Ok(Rule { id: self.text(row.id)?, effect: row.effect, condition: self.tree(&self.sheet.nodes, row.root)? })
    }

    /// A policy of the sheet, with the values of its link in its slots.
    fn rule(&self, policy: usize) -> Result<Rule, Fault> {
        let mut rule = self.template(policy)?;
        if let Some(link) = self.sheet.links.iter().find(|link| link.policy == policy) {
            let value = |number: Option<usize>| number.map(|number| Ok(self.part(number)?.0.clone())).transpose();
            rule.condition.fill(&value(link.principal)?, &value(link.resource)?);
        }
        Ok(rule)
    }
}

impl Sheet {
    /// A policy, by its place from 0, with the values of its link in its slots.
    ///
    /// A sheet that was read always gives one for each of its policies; rows that were made by hand and refer to nothing give a fault.
    ///
    /// ```
    /// use openrules::sheet::Sheet;
    ///
    /// let sheet = Sheet::read(include_bytes!("../../examples/one-rule-three-brokers.sheet")).unwrap();
    /// let rule = sheet.rule(2).unwrap();
    /// assert_eq!(rule.condition.to_string(), r#"resource.weight <= 100 && principal == Broker::"b3""#);
    /// assert!(sheet.rule(3).is_err());
    /// ```
    pub fn rule(&self, policy: usize) -> Result<Rule, Fault> {
        Names::new(self, &[])?.rule(policy)
    }

    /// A policy, by its place from 0, with its slots as they stand.
    ///
    /// ```
    /// use openrules::sheet::Sheet;
    ///
    /// let sheet = Sheet::read(include_bytes!("../../examples/one-rule-three-brokers.sheet")).unwrap();
    /// let rule = sheet.template(2).unwrap();
    /// assert_eq!(rule.condition.to_string(), "resource.weight <= 100 && principal == ?principal");
    /// ```
    pub fn template(&self, policy: usize) -> Result<Rule, Fault> {
        Names::new(self, &[])?.template(policy)
    }

    /// All policies in order, each with the values of its link in its slots.
    ///
    /// ```
    /// use openrules::sheet::Sheet;
    ///
    /// let sheet = Sheet::read(include_bytes!("../../examples/bands-overlap.sheet")).unwrap();
    /// let ids: Vec<String> = sheet.rules().unwrap().iter().map(|rule| rule.id.to_string()).collect();
    /// assert_eq!(ids, ["low band", "high band"]);
    /// ```
    pub fn rules(&self) -> Result<Vec<Rule>, Fault> {
        let names = Names::new(self, &[])?;
        (0..self.policies.len()).map(|policy| names.rule(policy)).collect()
    }
}

impl Expr {
    /// Puts literals where slots stand; a slot without one stays.
    fn fill(&mut self, principal: &Option<Literal>, resource: &Option<Literal>) {
        match self {
            Expr::Slot(slot) => {
                let literal = match slot {
                    Slot::Principal => principal,
                    Slot::Resource => resource,
                };
                if let Some(literal) = literal {
                    *self = Expr::Lit(literal.clone());
                }
            }
            Expr::Lit(_) | Expr::Err | Expr::Var(_) => {}
            Expr::Unary(_, a) | Expr::Is(a, _) | Expr::Like(a, _) | Expr::Get(a, _) | Expr::Has(a, _) | Expr::HasPath(a, _) => {
                a.fill(principal, resource)
            }
            Expr::Binary(_, a, b) => [a, b].into_iter().for_each(|one| one.fill(principal, resource)),
            Expr::If(a, b, c) => [a, b, c].into_iter().for_each(|one| one.fill(principal, resource)),
            Expr::Set(elements) => elements.iter_mut().for_each(|one| one.fill(principal, resource)),
            Expr::Record(fields) => fields.iter_mut().for_each(|(_, one)| one.fill(principal, resource)),
        }
    }
}

// Printing ---------------------------------------------------------------------------------------------------------------

/// How tightly a text holds together, by Cedar's grammar; what is looser than its place asks for stands in brackets.
#[derive(Clone, Copy, PartialEq, Eq, PartialOrd, Ord)]
enum Level {
    If,
    Or,
    And,
    Relation,
    Sum,
    Product,
    Prefix,
    Member,
}

/// The words that are no identifiers.
const RESERVED: [&str; 10] = ["true", "false", "if", "then", "else", "in", "is", "like", "has", "__cedar"];

/// Whether a text may stand as an identifier.
///
/// ```
/// use openrules::cedar::is_identifier;
///
/// assert!(is_identifier("insured_2"));
/// assert!(!is_identifier("low band") && !is_identifier("") && !is_identifier("2nd") && !is_identifier("has"));
/// ```
pub fn is_identifier(text: &str) -> bool {
    let begins = text.starts_with(|first: char| first == '_' || first.is_ascii_alphabetic());
    begins && text.chars().all(|one| one == '_' || one.is_ascii_alphanumeric()) && !RESERVED.contains(&text)
}

/// Whether a text is the name of an entity type: identifiers with `::` between them.
///
/// ```
/// use openrules::cedar::is_name;
///
/// assert!(is_name("Carrier::Broker"));
/// assert!(!is_name("Carrier:Broker") && !is_name("Carrier::") && !is_name("my kind"));
/// ```
pub fn is_name(text: &str) -> bool {
    text.split("::").all(is_identifier)
}

/// A text in quotes, escaped as Cedar does.
struct Quoted<'a>(&'a str);

impl fmt::Display for Quoted<'_> {
    fn fmt(&self, f: &mut fmt::Formatter<'_>) -> fmt::Result {
        write!(f, "\"{}\"", self.0.escape_debug())
    }
}

/// The parts of a literal that are printed at most; so many values may a sheet have.
const GREATEST_PARTS: usize = 1024;

impl Literal {
    /// Takes the parts of the literal from those left; none where they are more.
    fn parts(&self, left: usize) -> Option<usize> {
        let left = left.checked_sub(1)?;
        match self {
            Literal::Set(elements) => elements.iter().try_fold(left, |left, one| one.parts(left)),
            Literal::Record(fields) => fields.iter().try_fold(left, |left, (_, one)| one.parts(left)),
            _ => Some(left),
        }
    }

    fn write(&self, f: &mut fmt::Formatter<'_>) -> fmt::Result {
        match self {
            Literal::Bool(truth) => write!(f, "{truth}"),
            Literal::Long(number) => write!(f, "{number}"),
            Literal::String(text) => write!(f, "{}", Quoted(text)),
            Literal::Entity { kind, id } if is_name(kind) => write!(f, "{kind}::{}", Quoted(id)),
            Literal::Entity { kind, id } => write!(f, "entity({}, {})", Quoted(kind), Quoted(id)),
            Literal::Set(elements) => listed(f, ("[", "]"), elements.iter(), |f, one| one.write(f)),
            Literal::Record(fields) => listed(f, ("{", "}"), fields.iter(), |f, (text, one)| {
                write!(f, "{}: ", Quoted(text))?;
                one.write(f)
            }),
        }
    }
}

/// Items in brackets with commas between them.
fn listed<T>(
    f: &mut fmt::Formatter<'_>,
    (open, close): (&str, &str),
    items: impl Iterator<Item = T>,
    write: impl Fn(&mut fmt::Formatter<'_>, T) -> fmt::Result,
) -> fmt::Result {
    f.write_str(open)?;
    for (place, item) in items.enumerate() {
        if place > 0 {
            f.write_str(", ")?;
        }
        write(f, item)?;
    }
    f.write_str(close)
}

impl fmt::Display for Literal {
    fn fmt(&self, f: &mut fmt::Formatter<'_>) -> fmt::Result {
        match self.parts(GREATEST_PARTS) {
            Some(_) => self.write(f),
            None => f.write_str("elided()"),
        }
    }
}

/// How an operation with two operands is printed: a sign between them with the levels that they need, or a method of the left one.
enum Form {
    Sign(&'static str, Level, Level),
    Method(&'static str),
}

/// Signs between sides of the same level are read from the left; relations do not stand beside each other.
fn form(word: Binary) -> Form {
    match word {
        Binary::Or => Form::Sign("||", Level::Or, Level::And),
        Binary::And => Form::Sign("&&", Level::And, Level::Relation),
        Binary::Eq => Form::Sign("==", Level::Sum, Level::Sum),
        Binary::Lt => Form::Sign("<", Level::Sum, Level::Sum),
        Binary::Le => Form::Sign("<=", Level::Sum, Level::Sum),
        Binary::In => Form::Sign("in", Level::Sum, Level::Sum),
        Binary::Add => Form::Sign("+", Level::Sum, Level::Product),
        Binary::Sub => Form::Sign("-", Level::Sum, Level::Product),
        Binary::Mul => Form::Sign("*", Level::Product, Level::Prefix),
        Binary::GetTag => Form::Method("getTag"),
        Binary::HasTag => Form::Method("hasTag"),
        Binary::Contains => Form::Method("contains"),
        Binary::All => Form::Method("containsAll"),
        Binary::Any => Form::Method("containsAny"),
    }
}

/// The sign of a relation's opposite, where Cedar has one.
fn opposite(word: Binary) -> Option<&'static str> {
    match word {
        Binary::Eq => Some("!="),
        Binary::Lt => Some(">="),
        Binary::Le => Some(">"),
        _ => None,
    }
}

fn level_of(word: Binary) -> Level {
    match word {
        Binary::Or => Level::Or,
        Binary::And => Level::And,
        Binary::Eq | Binary::Lt | Binary::Le | Binary::In => Level::Relation,
        Binary::Add | Binary::Sub => Level::Sum,
        Binary::Mul => Level::Product,
        Binary::GetTag | Binary::HasTag | Binary::Contains | Binary::All | Binary::Any => Level::Member,
    }
}

impl Expr {
    fn level(&self) -> Level {
        match self {
            Expr::If(..) => Level::If,
            Expr::Binary(word, ..) => level_of(*word),
            Expr::Unary(Unary::Not, operand) => match &**operand {
                Expr::Binary(word, ..) if opposite(*word).is_some() => Level::Relation,
                _ => Level::Prefix,
            },
            Expr::Unary(Unary::Neg, _) => Level::Prefix,
            Expr::Lit(Literal::Long(number)) if *number < 0 => Level::Prefix,
            Expr::Is(..) | Expr::Like(..) | Expr::Has(..) | Expr::HasPath(..) => Level::Relation,
            Expr::Unary(Unary::Empty, _)
            | Expr::Lit(_)
            | Expr::Err
            | Expr::Var(_)
            | Expr::Slot(_)
            | Expr::Get(..)
            | Expr::Set(_)
            | Expr::Record(_) => Level::Member,
        }
    }

    /// Prints the tree at a place that needs so much.
    fn at(&self, f: &mut fmt::Formatter<'_>, least: Level) -> fmt::Result {
        if self.level() >= least {
            return self.write(f);
        }
        f.write_str("(")?;
        self.write(f)?;
        f.write_str(")")
    }

    fn write(&self, f: &mut fmt::Formatter<'_>) -> fmt::Result {
        match self {
            Expr::Lit(literal) => write!(f, "{literal}"),
            Expr::Err => f.write_str("error()"),
            Expr::Var(Variable::Principal) => f.write_str("principal"),
            Expr::Var(Variable::Action) => f.write_str("action"),
            Expr::Var(Variable::Resource) => f.write_str("resource"),
            Expr::Var(Variable::Context) => f.write_str("context"),
            Expr::Slot(Slot::Principal) => f.write_str("?principal"),
            Expr::Slot(Slot::Resource) => f.write_str("?resource"),
            Expr::Unary(word, operand) => write_unary(f, *word, operand),
            Expr::Binary(word, left, right) => match form(*word) {
                Form::Sign(sign, ..) => write_sign(f, sign, *word, left, right),
                Form::Method(name) => {
                    left.at(f, Level::Member)?;
                    write!(f, ".{name}({right})")
                }
            },
            Expr::If(test, yes, no) => write!(f, "if {test} then {yes} else {no}"),
            Expr::Is(operand, kind) => write_is(f, operand, kind),
            Expr::Like(operand, pattern) => write_like(f, operand, pattern),
            Expr::Get(operand, text) => {
                operand.at(f, Level::Member)?;
                write_step(f, text)
            }
            Expr::Has(operand, text) => write_has(f, operand, std::slice::from_ref(text)),
            Expr::HasPath(operand, path) => write_has(f, operand, path),
            Expr::Set(elements) => listed(f, ("[", "]"), elements.iter(), |f, one| one.write(f)),
            Expr::Record(fields) => listed(f, ("{", "}"), fields.iter(), |f, (text, one)| write!(f, "{}: {one}", Quoted(text))),
        }
    }
}

/// Two operands with a sign between them.
fn write_sign(f: &mut fmt::Formatter<'_>, sign: &str, word: Binary, left: &Expr, right: &Expr) -> fmt::Result {
    let Form::Sign(_, before, after) = form(word) else { return Err(fmt::Error) };
    left.at(f, before)?;
    write!(f, " {sign} ")?;
    right.at(f, after)
}

fn write_unary(f: &mut fmt::Formatter<'_>, word: Unary, operand: &Expr) -> fmt::Result {
    match (word, operand) {
        (Unary::Empty, _) => {
            operand.at(f, Level::Member)?;
            f.write_str(".isEmpty()")
        }
        (Unary::Not, Expr::Binary(relation, left, right)) if opposite(*relation).is_some() => {
            write_sign(f, opposite(*relation).unwrap_or_default(), *relation, left, right)
        }
        (Unary::Not, _) => {
            f.write_str("!")?;
            operand.at(f, Level::Member)
        }
        // Without brackets Cedar reads `-5` as one literal.
        (Unary::Neg, Expr::Lit(Literal::Long(_))) => write!(f, "-({operand})"),
        (Unary::Neg, _) => {
            f.write_str("-")?;
            operand.at(f, Level::Member)
        }
    }
}

fn write_is(f: &mut fmt::Formatter<'_>, operand: &Expr, kind: &str) -> fmt::Result {
    operand.at(f, Level::Sum)?;
    match is_name(kind) {
        true => write!(f, " is {kind}"),
        false => write!(f, " is kind({})", Quoted(kind)),
    }
}

/// `like` and a pattern, where `*` of a text is escaped.
fn write_like(f: &mut fmt::Formatter<'_>, operand: &Expr, pattern: &[Option<Text>]) -> fmt::Result {
    operand.at(f, Level::Sum)?;
    f.write_str(" like \"")?;
    pattern.iter().try_for_each(|item| match item {
        Some(text) => write!(f, "{}", text.escape_debug().to_string().replace('*', "\\*")),
        None => f.write_str("*"),
    })?;
    f.write_str("\"")
}

/// An attribute of what stands before it.
fn write_step(f: &mut fmt::Formatter<'_>, text: &str) -> fmt::Result {
    match is_identifier(text) {
        true => write!(f, ".{text}"),
        false => write!(f, "[{}]", Quoted(text)),
    }
}

/// `has` and a path.
fn write_has(f: &mut fmt::Formatter<'_>, operand: &Expr, path: &[Text]) -> fmt::Result {
    operand.at(f, Level::Sum)?;
    f.write_str(" has ")?;
    let Some((first, rest)) = path.split_first() else { return f.write_str("\"\"") };
    match is_identifier(first) {
        true => f.write_str(first)?,
        false => write!(f, "{}", Quoted(first))?,
    }
    rest.iter().try_for_each(|text| write_step(f, text))
}

impl fmt::Display for Expr {
    fn fmt(&self, f: &mut fmt::Formatter<'_>) -> fmt::Result {
        self.write(f)
    }
}

impl fmt::Display for Rule {
    fn fmt(&self, f: &mut fmt::Formatter<'_>) -> fmt::Result {
        writeln!(f, "@id({})", Quoted(&self.id))?;
        write!(f, "{}(principal, action, resource) when {{ {} }};", self.effect, self.condition)
    }
}
