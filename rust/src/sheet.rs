//! Sheets as data: the lines of a sheet by key.
//!
//! A number that refers to a line counts the lines of its key from 0, as in the sheet itself. The library alone judges a sheet; nothing here is part of
//! what is proved.
//!
//! ```
//! use openrules::sheet::{Operation, Sheet};
//!
//! let sheet = Sheet::read(include_bytes!("../../examples/bands-overlap.sheet")).unwrap();
//! let root = &sheet.nodes[sheet.policies[0].root];
//! assert_eq!(root.to_string(), "0,le,1,2");
//! assert!(matches!(sheet.nodes[2].operation, Operation::Lit(5)));
//! assert_eq!(sheet.values[5].to_string(), "long,100");
//! ```

pub mod builder;
mod read;

use std::fmt;

pub use read::Fault;
pub(crate) use read::{form_index, form_node, form_value, lines, Scope, GREATEST_ANSWER_DEPTH};

/// Whether parts of a sheet may be unknown.
///
/// ```
/// assert_eq!(openrules::sheet::Mode::Partial.to_string(), "partial");
/// ```
#[derive(Clone, Copy, Debug, PartialEq, Eq, Hash)]
pub enum Mode {
    /// `sheet=partial`.
    Partial,
    /// `sheet=complete`.
    Complete,
}

/// A kind of entities, `kind=`.
///
/// ```
/// let kind = openrules::sheet::Kind { name: 0, action: true };
/// assert_eq!(kind.to_string(), "0,a");
/// ```
#[derive(Clone, Copy, Debug, PartialEq, Eq, Hash)]
pub struct Kind {
    /// The text that names it.
    pub name: usize,
    /// Whether it is a kind of actions.
    pub action: bool,
}

/// A declared attribute of a record type.
///
/// ```
/// use openrules::sheet::{Attribute, Type};
///
/// let insured = Attribute { text: 8, required: true, ty: 0 };
/// assert_eq!(Type::Record(vec![insured]).to_string(), "record,8,r,0");
/// ```
#[derive(Clone, Copy, Debug, PartialEq, Eq, Hash)]
pub struct Attribute {
    /// The text that names it.
    pub text: usize,
    /// Whether every record of the type has it.
    pub required: bool,
    /// Its type.
    pub ty: usize,
}

/// A type, `type=`.
///
/// ```
/// use openrules::sheet::Type;
///
/// assert_eq!(Type::Entity(vec![0, 2]).to_string(), "entity,0,2");
/// ```
#[derive(Clone, Debug, PartialEq, Eq, Hash)]
pub enum Type {
    /// `bool`.
    Bool,
    /// `long`, 64 bits with a sign.
    Long,
    /// `string`.
    String,
    /// `entity` and the kinds, ascending; mostly one.
    Entity(Vec<usize>),
    /// `set` and the type of its elements.
    Set(usize),
    /// `record` and its attributes, ascending by their texts.
    Record(Vec<Attribute>),
}

/// What the entities of a kind have, `shape=`; one for each kind.
///
/// ```
/// let shape = openrules::sheet::Shape { attributes: 1, tags: None, above: vec![3, 4] };
/// assert_eq!(shape.to_string(), "1,-,3,4");
/// ```
#[derive(Clone, Debug, PartialEq, Eq, Hash)]
pub struct Shape {
    /// The record type of the attributes.
    pub attributes: usize,
    /// The type of the tags; none if there are no tags.
    pub tags: Option<usize>,
    /// The kinds that ancestors may have, ascending.
    pub above: Vec<usize>,
}

/// A value, `value=`.
///
/// ```
/// use openrules::sheet::Value;
///
/// assert_eq!(Value::Entity { kind: 0, text: 7 }.to_string(), "entity,0,7");
/// assert_eq!(Value::Set(vec![]).to_string(), "set");
/// ```
#[derive(Clone, Debug, PartialEq, Eq, Hash)]
pub enum Value {
    /// `bool`.
    Bool(bool),
    /// `long`.
    Long(i64),
    /// `text` and the text's number.
    Text(usize),
    /// `entity`: a kind and the text that names the entity.
    Entity {
        /// Its kind.
        kind: usize,
        /// The text that names it.
        text: usize,
    },
    /// `set` and the values in it, ascending.
    Set(Vec<usize>),
    /// `record`: pairs of a text and a value, ascending by the texts.
    Record(Vec<(usize, usize)>),
}

/// What is known of an entity, `entity=`. None is `?`, unknown.
///
/// ```
/// let entity = openrules::sheet::Entity { entity: 0, attributes: Some(2), tags: Some(4), parents: None };
/// assert_eq!(entity.to_string(), "0,2,4,?");
/// ```
#[derive(Clone, Copy, Debug, PartialEq, Eq, Hash)]
pub struct Entity {
    /// The entity value.
    pub entity: usize,
    /// The record of its attributes.
    pub attributes: Option<usize>,
    /// The record of its tags.
    pub tags: Option<usize>,
    /// The set of its parents.
    pub parents: Option<usize>,
}

/// Who or what a request names, `principal=`, `action=` and `resource=`.
///
/// ```
/// let party = openrules::sheet::Party { kind: 0, text: None };
/// assert_eq!(party.to_string(), "0,?");
/// ```
#[derive(Clone, Copy, Debug, PartialEq, Eq, Hash)]
pub struct Party {
    /// Its kind.
    pub kind: usize,
    /// The text that names it; none is `?`, unknown. An action is always known.
    pub text: Option<usize>,
}

/// The context of a request, `context=`.
///
/// ```
/// let context = openrules::sheet::Context { ty: 4, value: None };
/// assert_eq!(context.to_string(), "4,?");
/// ```
#[derive(Clone, Copy, Debug, PartialEq, Eq, Hash)]
pub struct Context {
    /// Its record type.
    pub ty: usize,
    /// The record; none is `?`, unknown.
    pub value: Option<usize>,
}

/// A day of the Gregorian calendar, 1900-01-01 to 2199-12-31. Later days are greater.
///
/// ```
/// let day = openrules::sheet::Day { year: 2026, month: 6, day: 30 };
/// assert_eq!(day.to_string(), "2026-06-30");
/// ```
#[derive(Clone, Copy, Debug, PartialEq, Eq, PartialOrd, Ord, Hash)]
pub struct Day {
    /// 1900 to 2199.
    pub year: u16,
    /// 1 to 12.
    pub month: u8,
    /// 1 to 31.
    pub day: u8,
}

/// A part of the request.
///
/// ```
/// assert_eq!(openrules::sheet::Variable::Context.to_string(), "c");
/// ```
#[derive(Clone, Copy, Debug, PartialEq, Eq, Hash)]
pub enum Variable {
    /// `p`.
    Principal,
    /// `a`.
    Action,
    /// `r`.
    Resource,
    /// `c`.
    Context,
}

/// A place in a template that a link fills.
///
/// ```
/// assert_eq!(openrules::sheet::Slot::Resource.to_string(), "r");
/// ```
#[derive(Clone, Copy, Debug, PartialEq, Eq, Hash)]
pub enum Slot {
    /// `p`.
    Principal,
    /// `r`.
    Resource,
}

/// An operation with one operand.
///
/// ```
/// assert_eq!(openrules::sheet::Unary::Empty.to_string(), "empty");
/// ```
#[derive(Clone, Copy, Debug, PartialEq, Eq, Hash)]
pub enum Unary {
    /// `not`.
    Not,
    /// `neg`.
    Neg,
    /// `empty`: whether a set has no element.
    Empty,
}

impl Unary {
    /// All of them.
    ///
    /// ```
    /// assert_eq!(openrules::sheet::Unary::ALL.len(), 3);
    /// ```
    pub const ALL: [Unary; 3] = [Unary::Not, Unary::Neg, Unary::Empty];

    /// Its word on a sheet.
    ///
    /// ```
    /// assert_eq!(openrules::sheet::Unary::Not.word(), "not");
    /// ```
    pub fn word(self) -> &'static str {
        match self {
            Unary::Not => "not",
            Unary::Neg => "neg",
            Unary::Empty => "empty",
        }
    }
}

/// An operation with two operands.
///
/// ```
/// assert_eq!(openrules::sheet::Binary::HasTag.to_string(), "hastag");
/// ```
#[derive(Clone, Copy, Debug, PartialEq, Eq, Hash)]
pub enum Binary {
    /// `and`.
    And,
    /// `or`.
    Or,
    /// `eq`.
    Eq,
    /// `lt`.
    Lt,
    /// `le`.
    Le,
    /// `add`.
    Add,
    /// `sub`.
    Sub,
    /// `mul`.
    Mul,
    /// `in`.
    In,
    /// `gettag`.
    GetTag,
    /// `hastag`.
    HasTag,
    /// `contains`.
    Contains,
    /// `all`: whether a set contains all of another.
    All,
    /// `any`: whether a set contains any of another.
    Any,
}

impl Binary {
    /// All of them.
    ///
    /// ```
    /// assert_eq!(openrules::sheet::Binary::ALL.len(), 14);
    /// ```
    pub const ALL: [Binary; 14] = [
        Binary::And,
        Binary::Or,
        Binary::Eq,
        Binary::Lt,
        Binary::Le,
        Binary::Add,
        Binary::Sub,
        Binary::Mul,
        Binary::In,
        Binary::GetTag,
        Binary::HasTag,
        Binary::Contains,
        Binary::All,
        Binary::Any,
    ];

    /// Its word on a sheet.
    ///
    /// ```
    /// assert_eq!(openrules::sheet::Binary::Le.word(), "le");
    /// ```
    pub fn word(self) -> &'static str {
        match self {
            Binary::And => "and",
            Binary::Or => "or",
            Binary::Eq => "eq",
            Binary::Lt => "lt",
            Binary::Le => "le",
            Binary::Add => "add",
            Binary::Sub => "sub",
            Binary::Mul => "mul",
            Binary::In => "in",
            Binary::GetTag => "gettag",
            Binary::HasTag => "hastag",
            Binary::Contains => "contains",
            Binary::All => "all",
            Binary::Any => "any",
        }
    }
}

/// What a node does. Its children are earlier nodes.
///
/// ```
/// use openrules::sheet::{Binary, Operation};
///
/// assert_eq!(Operation::Binary(Binary::Eq, 0, 1).to_string(), "eq,0,1");
/// assert_eq!(Operation::Like(3, vec![Some(5), None]).to_string(), "like,3,5,*");
/// ```
#[derive(Clone, Debug, PartialEq, Eq, Hash)]
pub enum Operation {
    /// `lit` and a value.
    Lit(usize),
    /// `err`: it yields an error.
    Err,
    /// `var`: a part of the request.
    Var(Variable),
    /// `slot`: what the policy's link has there.
    Slot(Slot),
    /// One operand.
    Unary(Unary, usize),
    /// Two operands.
    Binary(Binary, usize, usize),
    /// `if`: the test, and the two branches.
    If(usize, usize, usize),
    /// `is`: whether an entity is of a kind.
    Is(usize, usize),
    /// `like`: a pattern of texts and of `*` as None.
    Like(usize, Vec<Option<usize>>),
    /// `get`: the attribute that a text names.
    Get(usize, usize),
    /// `has`: whether there is an attribute that a text names.
    Has(usize, usize),
    /// `haspath`: whether there is an attribute at the end of a path of texts; at least one.
    HasPath(usize, Vec<usize>),
    /// `set` of its children.
    Set(Vec<usize>),
    /// `record`: pairs of a text and a child, ascending by the texts.
    Record(Vec<(usize, usize)>),
}

impl Operation {
    /// The nodes that it takes, from left to right.
    ///
    /// ```
    /// use openrules::sheet::Operation;
    ///
    /// assert_eq!(Operation::If(3, 4, 7).children(), [3, 4, 7]);
    /// assert!(Operation::Lit(0).children().is_empty());
    /// ```
    pub fn children(&self) -> Vec<usize> {
        match self {
            Operation::Lit(_) | Operation::Err | Operation::Var(_) | Operation::Slot(_) => Vec::new(),
            Operation::Unary(_, child)
            | Operation::Is(child, _)
            | Operation::Like(child, _)
            | Operation::Get(child, _)
            | Operation::Has(child, _)
            | Operation::HasPath(child, _) => vec![*child],
            Operation::Binary(_, left, right) => vec![*left, *right],
            Operation::If(test, yes, no) => vec![*test, *yes, *no],
            Operation::Set(children) => children.clone(),
            Operation::Record(fields) => fields.iter().map(|(_, child)| *child).collect(),
        }
    }
}

/// A node of a tree, `node=`.
///
/// ```
/// use openrules::sheet::{Node, Operation, Variable};
///
/// let node = Node { ty: 2, operation: Operation::Var(Variable::Principal) };
/// assert_eq!(node.to_string(), "2,var,p");
/// ```
#[derive(Clone, Debug, PartialEq, Eq, Hash)]
pub struct Node {
    /// Its type.
    pub ty: usize,
    /// What it does.
    pub operation: Operation,
}

/// What a policy does where it is true.
///
/// ```
/// assert_eq!(openrules::sheet::Effect::Forbid.to_string(), "forbid");
/// ```
#[derive(Clone, Copy, Debug, PartialEq, Eq, Hash)]
pub enum Effect {
    /// It permits.
    Permit,
    /// It forbids.
    Forbid,
}

/// A policy, `policy=`.
///
/// ```
/// use openrules::sheet::{Effect, Policy};
///
/// assert_eq!(Policy { id: 5, effect: Effect::Permit, root: 2 }.to_string(), "5,permit,2");
/// ```
#[derive(Clone, Copy, Debug, PartialEq, Eq, Hash)]
pub struct Policy {
    /// The text of its id.
    pub id: usize,
    /// What it does where it is true.
    pub effect: Effect,
    /// The node at the root of its tree.
    pub root: usize,
}

/// What stands in the slots of a policy, `link=`. None is `-`, no slot.
///
/// ```
/// let link = openrules::sheet::Link { policy: 1, principal: Some(7), resource: None };
/// assert_eq!(link.to_string(), "1,7,-");
/// ```
#[derive(Clone, Copy, Debug, PartialEq, Eq, Hash)]
pub struct Link {
    /// The policy.
    pub policy: usize,
    /// The value of the principal's slot.
    pub principal: Option<usize>,
    /// The value of the resource's slot.
    pub resource: Option<usize>,
}

/// The days on which a policy runs, `term=`; both edge days belong to it.
///
/// ```
/// use openrules::sheet::{Day, Term};
///
/// let (first, last) = (Day { year: 2026, month: 4, day: 1 }, Day { year: 2026, month: 6, day: 30 });
/// assert_eq!(Term { policy: 0, first, last }.to_string(), "0,2026-04-01,2026-06-30");
/// ```
#[derive(Clone, Copy, Debug, PartialEq, Eq, Hash)]
pub struct Term {
    /// The policy.
    pub policy: usize,
    /// The first day.
    pub first: Day,
    /// The last day.
    pub last: Day,
}

/// A sheet: the rows of each key. Its `Display` is the text of the sheet.
///
/// ```
/// let text = include_str!("../../examples/bands-overlap.sheet");
/// let sheet: openrules::sheet::Sheet = text.parse().unwrap();
/// assert_eq!(sheet.texts[sheet.policies[0].id], "low band");
/// assert_eq!(sheet.to_string(), text);
/// ```
#[derive(Clone, Debug, PartialEq, Eq)]
pub struct Sheet {
    /// Whether parts may be unknown.
    pub mode: Mode,
    /// The texts.
    pub texts: Vec<String>,
    /// The kinds of entities.
    pub kinds: Vec<Kind>,
    /// The types.
    pub types: Vec<Type>,
    /// What the entities of each kind have.
    pub shapes: Vec<Shape>,
    /// The values.
    pub values: Vec<Value>,
    /// What is known of entities.
    pub entities: Vec<Entity>,
    /// Who asks.
    pub principal: Party,
    /// What for.
    pub action: Party,
    /// On what.
    pub resource: Party,
    /// With what about it.
    pub context: Context,
    /// For which day.
    pub day: Day,
    /// The nodes of the policies' trees.
    pub nodes: Vec<Node>,
    /// The policies.
    pub policies: Vec<Policy>,
    /// What stands in the slots of policies.
    pub links: Vec<Link>,
    /// The terms of policies.
    pub terms: Vec<Term>,
}

impl fmt::Display for Mode {
    fn fmt(&self, f: &mut fmt::Formatter<'_>) -> fmt::Result {
        f.write_str(match self {
            Mode::Partial => "partial",
            Mode::Complete => "complete",
        })
    }
}

impl fmt::Display for Kind {
    fn fmt(&self, f: &mut fmt::Formatter<'_>) -> fmt::Result {
        write!(f, "{},{}", self.name, if self.action { "a" } else { "e" })
    }
}

/// Numbers, each after a comma.
fn write_each<'a>(f: &mut fmt::Formatter<'_>, numbers: impl IntoIterator<Item = &'a usize>) -> fmt::Result {
    numbers.into_iter().try_for_each(|number| write!(f, ",{number}"))
}

/// Pairs of numbers, each after a comma.
fn write_pairs(f: &mut fmt::Formatter<'_>, pairs: &[(usize, usize)]) -> fmt::Result {
    pairs.iter().try_for_each(|(text, number)| write!(f, ",{text},{number}"))
}

/// A number, or the mark that stands for none, after a comma.
fn write_or(f: &mut fmt::Formatter<'_>, number: Option<usize>, mark: &str) -> fmt::Result {
    match number {
        Some(number) => write!(f, ",{number}"),
        None => write!(f, ",{mark}"),
    }
}

impl fmt::Display for Type {
    fn fmt(&self, f: &mut fmt::Formatter<'_>) -> fmt::Result {
        match self {
            Type::Bool => f.write_str("bool"),
            Type::Long => f.write_str("long"),
            Type::String => f.write_str("string"),
            Type::Entity(kinds) => {
                f.write_str("entity")?;
                write_each(f, kinds)
            }
            Type::Set(element) => write!(f, "set,{element}"),
            Type::Record(attributes) => {
                f.write_str("record")?;
                attributes
                    .iter()
                    .try_for_each(|one| write!(f, ",{},{},{}", one.text, if one.required { "r" } else { "o" }, one.ty))
            }
        }
    }
}

impl fmt::Display for Shape {
    fn fmt(&self, f: &mut fmt::Formatter<'_>) -> fmt::Result {
        write!(f, "{}", self.attributes)?;
        write_or(f, self.tags, "-")?;
        write_each(f, &self.above)
    }
}

impl fmt::Display for Value {
    fn fmt(&self, f: &mut fmt::Formatter<'_>) -> fmt::Result {
        match self {
            Value::Bool(truth) => write!(f, "bool,{}", u8::from(*truth)),
            Value::Long(number) => write!(f, "long,{number}"),
            Value::Text(text) => write!(f, "text,{text}"),
            Value::Entity { kind, text } => write!(f, "entity,{kind},{text}"),
            Value::Set(elements) => {
                f.write_str("set")?;
                write_each(f, elements)
            }
            Value::Record(fields) => {
                f.write_str("record")?;
                write_pairs(f, fields)
            }
        }
    }
}

impl fmt::Display for Entity {
    fn fmt(&self, f: &mut fmt::Formatter<'_>) -> fmt::Result {
        write!(f, "{}", self.entity)?;
        write_or(f, self.attributes, "?")?;
        write_or(f, self.tags, "?")?;
        write_or(f, self.parents, "?")
    }
}

impl fmt::Display for Party {
    fn fmt(&self, f: &mut fmt::Formatter<'_>) -> fmt::Result {
        write!(f, "{}", self.kind)?;
        write_or(f, self.text, "?")
    }
}

impl fmt::Display for Context {
    fn fmt(&self, f: &mut fmt::Formatter<'_>) -> fmt::Result {
        write!(f, "{}", self.ty)?;
        write_or(f, self.value, "?")
    }
}

impl fmt::Display for Day {
    fn fmt(&self, f: &mut fmt::Formatter<'_>) -> fmt::Result {
        write!(f, "{:04}-{:02}-{:02}", self.year, self.month, self.day)
    }
}

impl fmt::Display for Variable {
    fn fmt(&self, f: &mut fmt::Formatter<'_>) -> fmt::Result {
        f.write_str(match self {
            Variable::Principal => "p",
            Variable::Action => "a",
            Variable::Resource => "r",
            Variable::Context => "c",
        })
    }
}

impl fmt::Display for Slot {
    fn fmt(&self, f: &mut fmt::Formatter<'_>) -> fmt::Result {
        f.write_str(match self {
            Slot::Principal => "p",
            Slot::Resource => "r",
        })
    }
}

impl fmt::Display for Unary {
    fn fmt(&self, f: &mut fmt::Formatter<'_>) -> fmt::Result {
        f.write_str(self.word())
    }
}

impl fmt::Display for Binary {
    fn fmt(&self, f: &mut fmt::Formatter<'_>) -> fmt::Result {
        f.write_str(self.word())
    }
}

impl fmt::Display for Operation {
    fn fmt(&self, f: &mut fmt::Formatter<'_>) -> fmt::Result {
        match self {
            Operation::Lit(value) => write!(f, "lit,{value}"),
            Operation::Err => f.write_str("err"),
            Operation::Var(variable) => write!(f, "var,{variable}"),
            Operation::Slot(slot) => write!(f, "slot,{slot}"),
            Operation::Unary(word, child) => write!(f, "{word},{child}"),
            Operation::Binary(word, left, right) => write!(f, "{word},{left},{right}"),
            Operation::If(test, yes, no) => write!(f, "if,{test},{yes},{no}"),
            Operation::Is(child, kind) => write!(f, "is,{child},{kind}"),
            Operation::Like(child, pattern) => {
                write!(f, "like,{child}")?;
                pattern.iter().try_for_each(|item| write_or(f, *item, "*"))
            }
            Operation::Get(child, text) => write!(f, "get,{child},{text}"),
            Operation::Has(child, text) => write!(f, "has,{child},{text}"),
            Operation::HasPath(child, path) => {
                write!(f, "haspath,{child}")?;
                write_each(f, path)
            }
            Operation::Set(children) => {
                f.write_str("set")?;
                write_each(f, children)
            }
            Operation::Record(fields) => {
                f.write_str("record")?;
                write_pairs(f, fields)
            }
        }
    }
}

impl fmt::Display for Node {
    fn fmt(&self, f: &mut fmt::Formatter<'_>) -> fmt::Result {
        write!(f, "{},{}", self.ty, self.operation)
    }
}

impl fmt::Display for Effect {
    fn fmt(&self, f: &mut fmt::Formatter<'_>) -> fmt::Result {
        f.write_str(match self {
            Effect::Permit => "permit",
            Effect::Forbid => "forbid",
        })
    }
}

impl fmt::Display for Policy {
    fn fmt(&self, f: &mut fmt::Formatter<'_>) -> fmt::Result {
        write!(f, "{},{},{}", self.id, self.effect, self.root)
    }
}

impl fmt::Display for Link {
    fn fmt(&self, f: &mut fmt::Formatter<'_>) -> fmt::Result {
        write!(f, "{}", self.policy)?;
        write_or(f, self.principal, "-")?;
        write_or(f, self.resource, "-")
    }
}

impl fmt::Display for Term {
    fn fmt(&self, f: &mut fmt::Formatter<'_>) -> fmt::Result {
        write!(f, "{},{},{}", self.policy, self.first, self.last)
    }
}

/// The lines of a key.
fn write_lines<T: fmt::Display>(f: &mut fmt::Formatter<'_>, key: &str, rows: &[T]) -> fmt::Result {
    rows.iter().try_for_each(|row| writeln!(f, "{key}={row}"))
}

impl fmt::Display for Sheet {
    fn fmt(&self, f: &mut fmt::Formatter<'_>) -> fmt::Result {
        writeln!(f, "sheet={}", self.mode)?;
        write_lines(f, "text", &self.texts)?;
        write_lines(f, "kind", &self.kinds)?;
        write_lines(f, "type", &self.types)?;
        write_lines(f, "shape", &self.shapes)?;
        write_lines(f, "value", &self.values)?;
        write_lines(f, "entity", &self.entities)?;
        writeln!(f, "principal={}", self.principal)?;
        writeln!(f, "action={}", self.action)?;
        writeln!(f, "resource={}", self.resource)?;
        writeln!(f, "context={}", self.context)?;
        writeln!(f, "day={}", self.day)?;
        write_lines(f, "node", &self.nodes)?;
        write_lines(f, "policy", &self.policies)?;
        write_lines(f, "link", &self.links)?;
        write_lines(f, "term", &self.terms)
    }
}
