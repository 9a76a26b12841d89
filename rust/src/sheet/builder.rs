//! Sheets by names: a [`Builder`] takes types, values and trees that name what they speak of, and numbers texts, kinds, types, values and nodes itself.
//!
//! It keeps to the form of a sheet: distinct and ascending rows, and the greatest number of lines of each key. Whether types fit is for the library to judge.
//!
//! ```
//! use openrules::sheet::builder::{Builder, Tree, Type, Uid, Value};
//! use openrules::sheet::{Binary, Day, Effect, Mode, Variable};
//! use openrules::{Evaluator, Outcome};
//!
//! let b7 = Uid::new("Broker", "b7");
//! let mut builder = Builder::new(Mode::Partial);
//! let broker = Type::Entity(vec!["Broker".into()]);
//! let is_b7 = Tree::binary(Binary::Eq, Type::Bool, Tree::var(broker.clone(), Variable::Principal), Tree::lit(broker, Value::Entity(b7)));
//! let root = builder.tree(&is_b7)?;
//! builder.policy("low", Effect::Permit, root)?;
//! builder.entity_kind("Broker", &Type::record(), None, &[])?;
//! builder.entity_kind("Tariff", &Type::record(), None, &[])?;
//! builder.action_kind("Action", &[])?;
//! builder.request(("Broker", None), ("Action", "quote"), ("Tariff", Some("T1")))?;
//! builder.context(&Type::record(), None)?;
//! builder.day(Day { year: 2026, month: 6, day: 30 });
//! let sheet = builder.finish()?.to_string();
//! assert!(matches!(Evaluator::new().partial(sheet.as_bytes()), Outcome::Answer(text) if text.starts_with("decision=open\n")));
//! # Ok::<(), openrules::sheet::builder::Fault>(())
//! ```

use super::{
    Attribute, Binary, Context, Day, Effect, Entity, Kind, Link, Mode, Node, Party, Policy, Shape, Sheet, Slot, Term, Unary,
    Variable,
};
use std::collections::{BTreeMap, HashMap};
use std::fmt;
use std::hash::Hash;

/// The greatest depth of a tree, of types and values too.
///
/// ```
/// assert_eq!(openrules::sheet::builder::DEPTH, 64);
/// ```
pub const DEPTH: usize = 64;

/// The nodes that a sheet may have, and the uses of nodes summed over its policies.
///
/// ```
/// assert_eq!(openrules::sheet::builder::NODES, 1024);
/// ```
pub const NODES: usize = 1024;

/// The bytes of a text.
///
/// ```
/// assert_eq!(openrules::sheet::builder::TEXT, 128);
/// ```
pub const TEXT: usize = 128;

/// What a sheet cannot hold, or lacks.
///
/// ```
/// use openrules::sheet::builder::{Builder, Fault};
/// use openrules::sheet::Mode;
///
/// let fault = Builder::new(Mode::Partial).text(&"x".repeat(129)).unwrap_err();
/// assert_eq!(fault, Fault::LongText { bytes: 129 });
/// assert_eq!(fault.to_string(), "a text of 129 bytes, where a sheet has room for 128");
/// ```
#[derive(Clone, Debug, PartialEq, Eq)]
pub enum Fault {
    /// A text has over 128 bytes.
    LongText {
        /// Its bytes.
        bytes: usize,
    },
    /// A text has a byte outside 32 to 126.
    Byte {
        /// The text.
        text: String,
    },
    /// One line too many of a key, or one use of a node too many.
    Many {
        /// What there is too much of.
        what: &'static str,
        /// The greatest number.
        most: usize,
    },
    /// A type, value or tree is deeper than 64.
    Deep,
    /// An id, entity, link or term is there already.
    Repeat {
        /// What it is.
        what: String,
    },
    /// A kind is used that was never declared.
    NoKind {
        /// Its name.
        name: String,
    },
    /// There is no request, context or day.
    Lacking {
        /// What is lacking.
        what: &'static str,
    },
    /// The sheet has over 16,384 bytes.
    Long {
        /// Its bytes.
        bytes: usize,
    },
}

impl fmt::Display for Fault {
    fn fmt(&self, f: &mut fmt::Formatter<'_>) -> fmt::Result {
        match self {
            Fault::LongText { bytes } => write!(f, "a text of {bytes} bytes, where a sheet has room for {TEXT}"),
            Fault::Byte { text } => write!(f, "the text {text:?} has a character that a sheet has not (bytes 32 to 126 alone)"),
            Fault::Many { what, most } => write!(f, "more than {most} {what}, which is what a sheet has room for"),
            Fault::Deep => write!(f, "deeper than {DEPTH}"),
            Fault::Repeat { what } => write!(f, "{what} is there twice"),
            Fault::NoKind { name } => write!(f, "the kind {name:?} is used and not declared"),
            Fault::Lacking { what } => write!(f, "there is no {what}"),
            Fault::Long { bytes } => write!(f, "the sheet has {bytes} bytes, and {} at most are read", crate::SHEET),
        }
    }
}

impl std::error::Error for Fault {}

/// Whether a text may stand on a sheet: at most [`TEXT`] bytes, each from 32 to 126.
///
/// ```
/// use openrules::sheet::builder::{has_room, Fault};
///
/// assert_eq!(has_room("insured"), Ok(()));
/// assert_eq!(has_room("two\nlines"), Err(Fault::Byte { text: "two\nlines".into() }));
/// ```
pub fn has_room(text: &str) -> Result<(), Fault> {
    if text.len() > TEXT {
        return Err(Fault::LongText { bytes: text.len() });
    }
    match text.bytes().all(|byte| (32..=126).contains(&byte)) {
        true => Ok(()),
        false => Err(Fault::Byte { text: text.into() }),
    }
}

/// The name of an entity: its kind and its id.
///
/// ```
/// assert_eq!(openrules::sheet::builder::Uid::new("Broker", "b7").to_string(), "Broker::\"b7\"");
/// ```
#[derive(Clone, Debug, PartialEq, Eq, PartialOrd, Ord, Hash)]
pub struct Uid {
    /// The name of its kind.
    pub kind: String,
    /// Its id.
    pub id: String,
}

impl Uid {
    /// An entity's name.
    ///
    /// ```
    /// assert_eq!(openrules::sheet::builder::Uid::new("Broker", "b7").kind, "Broker");
    /// ```
    pub fn new(kind: &str, id: &str) -> Uid {
        Uid { kind: kind.into(), id: id.into() }
    }
}

impl fmt::Display for Uid {
    fn fmt(&self, f: &mut fmt::Formatter<'_>) -> fmt::Result {
        write!(f, "{}::{:?}", self.kind, self.id)
    }
}

/// A type by names.
///
/// ```
/// use openrules::sheet::builder::Type;
///
/// assert_eq!(Type::Set(Box::new(Type::Entity(vec!["Team".into()]))).to_string(), "Set<Team>");
/// ```
#[derive(Clone, Debug, PartialEq, Eq)]
pub enum Type {
    /// A truth value.
    Bool,
    /// A number of 64 bits with a sign.
    Long,
    /// A text.
    String,
    /// An entity of one of these kinds.
    Entity(Vec<String>),
    /// A set of elements of a type.
    Set(Box<Type>),
    /// A record with these attributes.
    Record(BTreeMap<String, Field>),
}

/// An attribute of a record type.
///
/// ```
/// use openrules::sheet::builder::{Field, Type};
///
/// let name = Field { required: false, ty: Type::String };
/// assert_eq!(Type::Record([("name".to_string(), name)].into()).to_string(), "{name?: String}");
/// ```
#[derive(Clone, Debug, PartialEq, Eq)]
pub struct Field {
    /// Whether every record of the type has it.
    pub required: bool,
    /// Its type.
    pub ty: Type,
}

impl Type {
    /// The record type without attributes.
    ///
    /// ```
    /// assert_eq!(openrules::sheet::builder::Type::record().to_string(), "{}");
    /// ```
    pub fn record() -> Type {
        Type::Record(BTreeMap::new())
    }
}

impl fmt::Display for Type {
    fn fmt(&self, f: &mut fmt::Formatter<'_>) -> fmt::Result {
        match self {
            Type::Bool => f.write_str("Bool"),
            Type::Long => f.write_str("Long"),
            Type::String => f.write_str("String"),
            Type::Entity(kinds) => f.write_str(&kinds.join(" or ")),
            Type::Set(element) => write!(f, "Set<{element}>"),
            Type::Record(fields) => {
                f.write_str("{")?;
                for (place, (name, field)) in fields.iter().enumerate() {
                    let mark = if field.required { "" } else { "?" };
                    write!(f, "{}{name}{mark}: {}", if place == 0 { "" } else { ", " }, field.ty)?;
                }
                f.write_str("}")
            }
        }
    }
}

/// A value by names.
///
/// ```
/// use openrules::sheet::builder::{Builder, Value};
///
/// let mut builder = Builder::new(openrules::sheet::Mode::Partial);
/// let once = builder.value(&Value::Set(vec![Value::Long(7)]));
/// assert_eq!(builder.value(&Value::Set(vec![Value::Long(7), Value::Long(7)])), once);
/// ```
#[derive(Clone, Debug, PartialEq, Eq)]
pub enum Value {
    /// A truth value.
    Bool(bool),
    /// A number.
    Long(i64),
    /// A text.
    Text(String),
    /// An entity.
    Entity(Uid),
    /// A set; order and repeats do not matter.
    Set(Vec<Value>),
    /// A record.
    Record(BTreeMap<String, Value>),
}

/// What a node does, with its children.
///
/// ```
/// use openrules::sheet::builder::{Operation, Tree, Type, Value};
///
/// let text = Tree::lit(Type::String, Value::Text("Bern".into()));
/// let like = Tree { ty: Type::Bool, operation: Operation::Like(Box::new(text), vec![Some("B".into()), None]) };
/// assert_eq!(like.size(), 2);
/// ```
#[derive(Clone, Debug, PartialEq, Eq)]
pub enum Operation {
    /// A value.
    Lit(Value),
    /// It yields an error.
    Err,
    /// A part of the request.
    Var(Variable),
    /// What the policy's link has there.
    Slot(Slot),
    /// One operand.
    Unary(Unary, Box<Tree>),
    /// Two operands.
    Binary(Binary, Box<Tree>, Box<Tree>),
    /// The test, and the two branches.
    If(Box<[Tree; 3]>),
    /// Whether an entity is of a kind.
    Is(Box<Tree>, String),
    /// A pattern of texts and of `*` as None.
    Like(Box<Tree>, Vec<Option<String>>),
    /// An attribute.
    Get(Box<Tree>, String),
    /// Whether there is an attribute.
    Has(Box<Tree>, String),
    /// Whether there is an attribute at the end of a path.
    HasPath(Box<Tree>, Vec<String>),
    /// A set of its children.
    Set(Vec<Tree>),
    /// A record of its children.
    Record(BTreeMap<String, Tree>),
}

/// A tree of operations, each with its type.
///
/// ```
/// use openrules::sheet::builder::{Operation, Tree, Type};
/// use openrules::sheet::Slot;
///
/// let slot = Tree { ty: Type::Entity(vec!["Broker".into()]), operation: Operation::Slot(Slot::Principal) };
/// assert!(slot.has_slot(Slot::Principal) && !slot.has_slot(Slot::Resource));
/// ```
#[derive(Clone, Debug, PartialEq, Eq)]
pub struct Tree {
    /// The type of its root.
    pub ty: Type,
    /// What its root does.
    pub operation: Operation,
}

impl Tree {
    /// A literal of a type.
    ///
    /// ```
    /// use openrules::sheet::builder::{Tree, Type, Value};
    ///
    /// assert!(Tree::lit(Type::Long, Value::Long(1)).children().is_empty());
    /// ```
    pub fn lit(ty: Type, value: Value) -> Tree {
        Tree { ty, operation: Operation::Lit(value) }
    }

    /// A part of the request, of its type.
    ///
    /// ```
    /// use openrules::sheet::builder::{Tree, Type};
    ///
    /// assert_eq!(Tree::var(Type::record(), openrules::sheet::Variable::Context).size(), 1);
    /// ```
    pub fn var(ty: Type, variable: Variable) -> Tree {
        Tree { ty, operation: Operation::Var(variable) }
    }

    /// An operation on one operand, with the type of its result.
    ///
    /// ```
    /// use openrules::sheet::builder::{Tree, Type, Value};
    ///
    /// let yes = Tree::lit(Type::Bool, Value::Bool(true));
    /// assert_eq!(Tree::unary(openrules::sheet::Unary::Not, Type::Bool, yes).size(), 2);
    /// ```
    pub fn unary(word: Unary, ty: Type, child: Tree) -> Tree {
        Tree { ty, operation: Operation::Unary(word, Box::new(child)) }
    }

    /// An operation on two operands, with the type of its result.
    ///
    /// ```
    /// use openrules::sheet::builder::{Tree, Type, Value};
    ///
    /// let one = Tree::lit(Type::Long, Value::Long(1));
    /// assert_eq!(Tree::binary(openrules::sheet::Binary::Add, Type::Long, one.clone(), one).size(), 3);
    /// ```
    pub fn binary(word: Binary, ty: Type, left: Tree, right: Tree) -> Tree {
        Tree { ty, operation: Operation::Binary(word, Box::new(left), Box::new(right)) }
    }

    /// The children of the root, left to right.
    ///
    /// ```
    /// use openrules::sheet::builder::{Tree, Type, Value};
    ///
    /// let one = Tree::lit(Type::Long, Value::Long(1));
    /// let sum = Tree::binary(openrules::sheet::Binary::Add, Type::Long, one.clone(), one.clone());
    /// assert_eq!(sum.children(), [&one, &one]);
    /// ```
    pub fn children(&self) -> Vec<&Tree> {
        match &self.operation {
            Operation::Lit(_) | Operation::Err | Operation::Var(_) | Operation::Slot(_) => vec![],
            Operation::Unary(_, child)
            | Operation::Is(child, _)
            | Operation::Like(child, _)
            | Operation::Get(child, _)
            | Operation::Has(child, _)
            | Operation::HasPath(child, _) => vec![child],
            Operation::Binary(_, left, right) => vec![left, right],
            Operation::If(parts) => parts.iter().collect(),
            Operation::Set(children) => children.iter().collect(),
            Operation::Record(fields) => fields.values().collect(),
        }
    }

    /// The number of its nodes.
    ///
    /// ```
    /// use openrules::sheet::builder::{Tree, Type, Value};
    ///
    /// let one = Tree::lit(Type::Long, Value::Long(1));
    /// let sum = Tree::binary(openrules::sheet::Binary::Add, Type::Long, one.clone(), one.clone());
    /// assert_eq!(sum.size(), 3);
    /// ```
    pub fn size(&self) -> usize {
        1 + self.children().into_iter().map(Tree::size).sum::<usize>()
    }

    /// Whether a slot stands in it.
    ///
    /// ```
    /// use openrules::sheet::builder::{Tree, Type, Value};
    ///
    /// let one = Tree::lit(Type::Long, Value::Long(1));
    /// let sum = Tree::binary(openrules::sheet::Binary::Add, Type::Long, one.clone(), one.clone());
    /// assert!(!sum.has_slot(openrules::sheet::Slot::Principal));
    /// ```
    pub fn has_slot(&self, slot: Slot) -> bool {
        self.operation == Operation::Slot(slot) || self.children().into_iter().any(|child| child.has_slot(slot))
    }
}

/// Distinct rows of a key in the order of their first use.
struct Rows<T> {
    what: &'static str,
    most: usize,
    rows: Vec<T>,
    places: HashMap<T, usize>,
}

impl<T: Clone + Eq + Hash> Rows<T> {
    fn new(what: &'static str, most: usize) -> Rows<T> {
        Rows { what, most, rows: vec![], places: HashMap::new() }
    }

    /// The number of a row, which is added if it is new.
    fn number(&mut self, row: T) -> Result<usize, Fault> {
        if let Some(place) = self.places.get(&row) {
            return Ok(*place);
        }
        if self.rows.len() == self.most {
            return Err(Fault::Many { what: self.what, most: self.most });
        }
        self.rows.push(row.clone());
        self.places.insert(row, self.rows.len() - 1);
        Ok(self.rows.len() - 1)
    }
}

/// A sheet that is being made.
///
/// ```
/// use openrules::sheet::builder::{Builder, Fault};
///
/// let builder = Builder::new(openrules::sheet::Mode::Partial);
/// assert_eq!(builder.finish(), Err(Fault::Lacking { what: "request" }));
/// ```
pub struct Builder {
    mode: Mode,
    texts: Rows<String>,
    kinds: Rows<usize>,
    shapes: BTreeMap<usize, (bool, Shape)>,
    types: Rows<super::Type>,
    values: Rows<super::Value>,
    entities: BTreeMap<usize, Entity>,
    request: Option<[Party; 3]>,
    context: Option<Context>,
    day: Option<Day>,
    nodes: Vec<Node>,
    sizes: Vec<usize>,
    uses: usize,
    policies: Vec<Policy>,
    links: BTreeMap<usize, Link>,
    terms: BTreeMap<usize, Term>,
}

impl Builder {
    /// A sheet without any line but the first.
    ///
    /// ```
    /// let builder = openrules::sheet::builder::Builder::new(openrules::sheet::Mode::Partial);
    /// assert_eq!(builder.undeclared(), None);
    /// ```
    pub fn new(mode: Mode) -> Builder {
        Builder {
            mode,
            texts: Rows::new("texts", 512),
            kinds: Rows::new("kinds of entities", 32),
            shapes: BTreeMap::new(),
            types: Rows::new("types", 128),
            values: Rows::new("values", 1024),
            entities: BTreeMap::new(),
            request: None,
            context: None,
            day: None,
            nodes: vec![],
            sizes: vec![],
            uses: 0,
            policies: vec![],
            links: BTreeMap::new(),
            terms: BTreeMap::new(),
        }
    }

    /// A sheet that goes on from the texts, kinds, types and values of another, with their numbers. So a complete sheet comes to agree with a partial one.
    ///
    /// ```
    /// use openrules::sheet::builder::Builder;
    /// use openrules::sheet::{Mode, Sheet};
    ///
    /// let sheet = Sheet::read(include_bytes!("../../../examples/bands-overlap.sheet")).unwrap();
    /// let mut builder = Builder::after(Mode::Complete, &sheet)?;
    /// assert_eq!(builder.text(&sheet.texts[3])?, 3);
    /// assert_eq!(builder.text("a new one")?, sheet.texts.len());
    /// # Ok::<(), openrules::sheet::builder::Fault>(())
    /// ```
    pub fn after(mode: Mode, sheet: &Sheet) -> Result<Builder, Fault> {
        let mut builder = Builder::new(mode);
        sheet.texts.iter().try_for_each(|row| builder.texts.number(row.clone()).map(|_| ()))?;
        sheet.kinds.iter().try_for_each(|row| builder.kinds.number(row.name).map(|_| ()))?;
        sheet.types.iter().try_for_each(|row| builder.types.number(row.clone()).map(|_| ()))?;
        sheet.values.iter().try_for_each(|row| builder.values.number(row.clone()).map(|_| ()))?;
        Ok(builder)
    }

    /// The number of a text.
    ///
    /// ```
    /// use openrules::sheet::builder::Builder;
    ///
    /// let mut builder = Builder::new(openrules::sheet::Mode::Partial);
    /// assert_eq!((builder.text("a"), builder.text("b"), builder.text("a")), (Ok(0), Ok(1), Ok(0)));
    /// ```
    pub fn text(&mut self, text: &str) -> Result<usize, Fault> {
        has_room(text)?;
        self.texts.number(text.into())
    }

    /// The number of a kind. It needs [`Builder::entity_kind`] or [`Builder::action_kind`] before the sheet is finished.
    ///
    /// ```
    /// use openrules::sheet::builder::Builder;
    ///
    /// let mut builder = Builder::new(openrules::sheet::Mode::Partial);
    /// assert_eq!(builder.kind("Broker"), Ok(0));
    /// assert_eq!(builder.undeclared(), Some("Broker"));
    /// ```
    pub fn kind(&mut self, name: &str) -> Result<usize, Fault> {
        let name = self.text(name)?;
        self.kinds.number(name)
    }

    /// The number of a type.
    ///
    /// ```
    /// use openrules::sheet::builder::{Builder, Type};
    ///
    /// let mut builder = Builder::new(openrules::sheet::Mode::Partial);
    /// // The type of the elements has a line of its own.
    /// assert_eq!(builder.ty(&Type::Set(Box::new(Type::Long))), Ok(1));
    /// ```
    pub fn ty(&mut self, ty: &Type) -> Result<usize, Fault> {
        self.type_within(ty, DEPTH)
    }

    fn type_within(&mut self, ty: &Type, depth: usize) -> Result<usize, Fault> {
        let inner = depth.checked_sub(1).ok_or(Fault::Deep)?;
        let row = match ty {
            Type::Bool => super::Type::Bool,
            Type::Long => super::Type::Long,
            Type::String => super::Type::String,
            Type::Entity(names) => {
                let mut kinds = names.iter().map(|name| self.kind(name)).collect::<Result<Vec<_>, _>>()?;
                kinds.sort_unstable();
                kinds.dedup();
                if kinds.len() > 1 {
                    // Each grouped kind has an earlier line alone.
                    kinds.iter().try_for_each(|kind| self.types.number(super::Type::Entity(vec![*kind])).map(|_| ()))?;
                }
                super::Type::Entity(kinds)
            }
            Type::Set(element) => super::Type::Set(self.type_within(element, inner)?),
            Type::Record(fields) => {
                let mut attributes = vec![];
                for (name, field) in fields {
                    let text = self.text(name)?;
                    attributes.push(Attribute { text, required: field.required, ty: self.type_within(&field.ty, inner)? });
                }
                attributes.sort_unstable_by_key(|attribute| attribute.text);
                super::Type::Record(attributes)
            }
        };
        self.types.number(row)
    }

    /// The number of a value.
    ///
    /// ```
    /// use openrules::sheet::builder::{Builder, Uid, Value};
    ///
    /// let mut builder = Builder::new(openrules::sheet::Mode::Partial);
    /// assert_eq!(builder.value(&Value::Entity(Uid::new("Broker", "b7"))), Ok(0));
    /// ```
    pub fn value(&mut self, value: &Value) -> Result<usize, Fault> {
        self.value_within(value, DEPTH)
    }

    fn value_within(&mut self, value: &Value, depth: usize) -> Result<usize, Fault> {
        let inner = depth.checked_sub(1).ok_or(Fault::Deep)?;
        let row = match value {
            Value::Bool(truth) => super::Value::Bool(*truth),
            Value::Long(number) => super::Value::Long(*number),
            Value::Text(text) => super::Value::Text(self.text(text)?),
            Value::Entity(uid) => super::Value::Entity { kind: self.kind(&uid.kind)?, text: self.text(&uid.id)? },
            Value::Set(elements) => {
                let mut numbers = elements.iter().map(|one| self.value_within(one, inner)).collect::<Result<Vec<_>, _>>()?;
                numbers.sort_unstable();
                numbers.dedup();
                super::Value::Set(numbers)
            }
            Value::Record(fields) => {
                let mut pairs = vec![];
                for (name, field) in fields {
                    let text = self.text(name)?;
                    pairs.push((text, self.value_within(field, inner)?));
                }
                pairs.sort_unstable();
                super::Value::Record(pairs)
            }
        };
        self.values.number(row)
    }

    /// Declares an ordinary kind: its attributes, a record type, its tags, and the kinds that its ancestors may have.
    ///
    /// ```
    /// use openrules::sheet::builder::{Builder, Type};
    ///
    /// let mut builder = Builder::new(openrules::sheet::Mode::Partial);
    /// assert!(builder.entity_kind("Broker", &Type::record(), None, &["Team".into()]).is_ok());
    /// assert_eq!(builder.undeclared(), Some("Team"));
    /// ```
    pub fn entity_kind(&mut self, name: &str, attributes: &Type, tags: Option<&Type>, above: &[String]) -> Result<(), Fault> {
        let kind = self.kind(name)?;
        let attributes = self.ty(attributes)?;
        let tags = tags.map(|ty| self.ty(ty)).transpose()?;
        let above = self.above(above)?;
        self.shapes.insert(kind, (false, Shape { attributes, tags, above }));
        Ok(())
    }

    /// Declares a kind of actions.
    ///
    /// ```
    /// use openrules::sheet::builder::Builder;
    ///
    /// let mut builder = Builder::new(openrules::sheet::Mode::Partial);
    /// assert!(builder.action_kind("Action", &["Action".into()]).is_ok());
    /// assert_eq!(builder.undeclared(), None);
    /// ```
    pub fn action_kind(&mut self, name: &str, above: &[String]) -> Result<(), Fault> {
        let kind = self.kind(name)?;
        let attributes = self.ty(&Type::record())?;
        let above = self.above(above)?;
        self.shapes.insert(kind, (true, Shape { attributes, tags: None, above }));
        Ok(())
    }

    fn above(&mut self, names: &[String]) -> Result<Vec<usize>, Fault> {
        let mut above = names.iter().map(|name| self.kind(name)).collect::<Result<Vec<_>, _>>()?;
        above.sort_unstable();
        above.dedup();
        Ok(above)
    }

    /// The first kind that was used and not declared.
    ///
    /// ```
    /// use openrules::sheet::builder::{Builder, Type};
    ///
    /// let mut builder = Builder::new(openrules::sheet::Mode::Partial);
    /// assert!(builder.ty(&Type::Entity(vec!["Broker".into()])).is_ok());
    /// assert_eq!(builder.undeclared(), Some("Broker"));
    /// ```
    pub fn undeclared(&self) -> Option<&str> {
        let kind = (0..self.kinds.rows.len()).find(|kind| !self.shapes.contains_key(kind))?;
        Some(&self.texts.rows[self.kinds.rows[kind]])
    }

    /// Whether a kind has a number already.
    ///
    /// ```
    /// use openrules::sheet::builder::Builder;
    ///
    /// let mut builder = Builder::new(openrules::sheet::Mode::Partial);
    /// assert!(builder.kind("Broker").is_ok());
    /// assert!(builder.has_kind("Broker") && !builder.has_kind("Team"));
    /// ```
    pub fn has_kind(&self, name: &str) -> bool {
        self.texts.places.get(name).is_some_and(|text| self.kinds.places.contains_key(text))
    }

    /// Every entity that is among the values so far.
    ///
    /// ```
    /// use openrules::sheet::builder::{Builder, Uid, Value};
    ///
    /// let mut builder = Builder::new(openrules::sheet::Mode::Partial);
    /// let b7 = Uid::new("Broker", "b7");
    /// assert!(builder.value(&Value::Set(vec![Value::Entity(b7.clone())])).is_ok());
    /// assert_eq!(builder.mentioned(), [b7]);
    /// ```
    pub fn mentioned(&self) -> Vec<Uid> {
        let name = |kind: &usize| self.texts.rows[self.kinds.rows[*kind]].clone();
        let uid = |value: &super::Value| match value {
            super::Value::Entity { kind, text } => Some(Uid { kind: name(kind), id: self.texts.rows[*text].clone() }),
            _ => None,
        };
        self.values.rows.iter().filter_map(uid).collect()
    }

    /// Whether an entity has its line already.
    ///
    /// ```
    /// use openrules::sheet::builder::{Builder, Uid};
    ///
    /// let mut builder = Builder::new(openrules::sheet::Mode::Partial);
    /// let b7 = Uid::new("Broker", "b7");
    /// assert_eq!(builder.lists(&b7), Ok(false));
    /// assert!(builder.entity(&b7, None, None, None).is_ok());
    /// assert_eq!(builder.lists(&b7), Ok(true));
    /// ```
    pub fn lists(&mut self, uid: &Uid) -> Result<bool, Fault> {
        let number = self.value(&Value::Entity(uid.clone()))?;
        Ok(self.entities.contains_key(&number))
    }

    /// What is known of an entity: its attributes, its tags and its parents. None is unknown, on a partial sheet.
    ///
    /// ```
    /// use openrules::sheet::builder::{Builder, Uid};
    ///
    /// let mut builder = Builder::new(openrules::sheet::Mode::Partial);
    /// let b7 = Uid::new("Broker", "b7");
    /// assert!(builder.entity(&b7, None, None, Some(vec![Uid::new("Team", "north")])).is_ok());
    /// assert!(builder.entity(&b7, None, None, None).is_err());
    /// ```
    pub fn entity(
        &mut self,
        uid: &Uid,
        attributes: Option<BTreeMap<String, Value>>,
        tags: Option<BTreeMap<String, Value>>,
        parents: Option<Vec<Uid>>,
    ) -> Result<(), Fault> {
        let entity = self.value(&Value::Entity(uid.clone()))?;
        if self.entities.contains_key(&entity) {
            return Err(Fault::Repeat { what: format!("the entity {uid}") });
        }
        if self.entities.len() == 128 {
            return Err(Fault::Many { what: "entities", most: 128 });
        }
        let attributes = attributes.map(|fields| self.value(&Value::Record(fields))).transpose()?;
        let tags = tags.map(|fields| self.value(&Value::Record(fields))).transpose()?;
        let set = |parents: Vec<Uid>| Value::Set(parents.into_iter().map(Value::Entity).collect());
        let parents = parents.map(|parents| self.value(&set(parents))).transpose()?;
        self.entities.insert(entity, Entity { entity, attributes, tags, parents });
        Ok(())
    }

    /// The request: kinds and ids. None is unknown, on a partial sheet.
    ///
    /// ```
    /// use openrules::sheet::builder::Builder;
    ///
    /// let mut builder = Builder::new(openrules::sheet::Mode::Partial);
    /// assert!(builder.request(("Broker", None), ("Action", "quote"), ("Tariff", Some("T1"))).is_ok());
    /// ```
    pub fn request(
        &mut self,
        principal: (&str, Option<&str>),
        action: (&str, &str),
        resource: (&str, Option<&str>),
    ) -> Result<(), Fault> {
        let principal = self.party(principal)?;
        let action = self.party((action.0, Some(action.1)))?;
        let resource = self.party(resource)?;
        self.request = Some([principal, action, resource]);
        Ok(())
    }

    fn party(&mut self, (kind, id): (&str, Option<&str>)) -> Result<Party, Fault> {
        Ok(Party { kind: self.kind(kind)?, text: id.map(|id| self.text(id)).transpose()? })
    }

    /// The context's record type, and the record if it is known.
    ///
    /// ```
    /// use openrules::sheet::builder::{Builder, Type, Value};
    ///
    /// let mut builder = Builder::new(openrules::sheet::Mode::Partial);
    /// assert!(builder.context(&Type::record(), Some(&Value::Record([].into()))).is_ok());
    /// ```
    pub fn context(&mut self, ty: &Type, value: Option<&Value>) -> Result<(), Fault> {
        let ty = self.ty(ty)?;
        let value = value.map(|value| self.value(value)).transpose()?;
        self.context = Some(Context { ty, value });
        Ok(())
    }

    /// The day of the request.
    ///
    /// ```
    /// use openrules::sheet::builder::Builder;
    ///
    /// let mut builder = Builder::new(openrules::sheet::Mode::Partial);
    /// builder.day(openrules::sheet::Day { year: 2026, month: 6, day: 30 });
    /// ```
    pub fn day(&mut self, day: Day) {
        self.day = Some(day);
    }

    /// Adds a tree, whose root serves policies, and gives the number of its root.
    ///
    /// ```
    /// use openrules::sheet::builder::{Builder, Tree, Type, Value};
    /// use openrules::sheet::Mode;
    ///
    /// let mut builder = Builder::new(Mode::Partial);
    /// let root = builder.tree(&Tree::lit(Type::Bool, Value::Bool(true)))?;
    /// assert_eq!(root, 0);
    /// # Ok::<(), openrules::sheet::builder::Fault>(())
    /// ```
    pub fn tree(&mut self, tree: &Tree) -> Result<usize, Fault> {
        self.tree_within(tree, DEPTH)
    }

    fn tree_within(&mut self, tree: &Tree, depth: usize) -> Result<usize, Fault> {
        let inner = depth.checked_sub(1).ok_or(Fault::Deep)?;
        let first = self.nodes.len();
        let operation = match &tree.operation {
            Operation::Lit(value) => super::Operation::Lit(self.value(value)?),
            Operation::Err => super::Operation::Err,
            Operation::Var(variable) => super::Operation::Var(*variable),
            Operation::Slot(slot) => super::Operation::Slot(*slot),
            Operation::Unary(word, child) => super::Operation::Unary(*word, self.tree_within(child, inner)?),
            Operation::Binary(word, left, right) => {
                super::Operation::Binary(*word, self.tree_within(left, inner)?, self.tree_within(right, inner)?)
            }
            Operation::If(parts) => {
                let [test, yes, no] = &**parts;
                super::Operation::If(self.tree_within(test, inner)?, self.tree_within(yes, inner)?, self.tree_within(no, inner)?)
            }
            Operation::Is(child, kind) => super::Operation::Is(self.tree_within(child, inner)?, self.kind(kind)?),
            Operation::Like(child, pattern) => {
                let child = self.tree_within(child, inner)?;
                let text = |item: &Option<String>| item.as_ref().map(|item| self.text(item)).transpose();
                super::Operation::Like(child, pattern.iter().map(text).collect::<Result<_, _>>()?)
            }
            Operation::Get(child, name) => super::Operation::Get(self.tree_within(child, inner)?, self.text(name)?),
            Operation::Has(child, name) => super::Operation::Has(self.tree_within(child, inner)?, self.text(name)?),
            Operation::HasPath(child, path) => super::Operation::HasPath(self.tree_within(child, inner)?, self.names(path)?),
            Operation::Set(children) => {
                super::Operation::Set(children.iter().map(|child| self.tree_within(child, inner)).collect::<Result<_, _>>()?)
            }
            Operation::Record(fields) => super::Operation::Record(self.fields(fields, inner)?),
        };
        let ty = self.ty(&tree.ty)?;
        if self.nodes.len() == NODES {
            return Err(Fault::Many { what: "nodes", most: NODES });
        }
        self.nodes.push(Node { ty, operation });
        self.sizes.push(self.nodes.len() - first);
        Ok(self.nodes.len() - 1)
    }

    fn names(&mut self, names: &[String]) -> Result<Vec<usize>, Fault> {
        names.iter().map(|name| self.text(name)).collect()
    }

    /// The children of a record, in the order of their texts' numbers.
    fn fields(&mut self, fields: &BTreeMap<String, Tree>, depth: usize) -> Result<Vec<(usize, usize)>, Fault> {
        let mut named = vec![];
        for (name, child) in fields {
            named.push((self.text(name)?, child));
        }
        named.sort_unstable_by_key(|(text, _)| *text);
        named.into_iter().map(|(text, child)| Ok((text, self.tree_within(child, depth)?))).collect()
    }

    /// Adds a policy with the root of a tree, which may serve several, and gives its number.
    ///
    /// ```
    /// use openrules::sheet::builder::{Builder, Tree, Type, Value};
    /// use openrules::sheet::{Effect, Mode};
    ///
    /// let mut builder = Builder::new(Mode::Partial);
    /// let root = builder.tree(&Tree::lit(Type::Bool, Value::Bool(true)))?;
    /// assert_eq!(builder.policy("one", Effect::Permit, root), Ok(0));
    /// assert_eq!(builder.policy("two", Effect::Forbid, root), Ok(1));
    /// # Ok::<(), openrules::sheet::builder::Fault>(())
    /// ```
    pub fn policy(&mut self, id: &str, effect: Effect, root: usize) -> Result<usize, Fault> {
        let text = self.text(id)?;
        if self.policies.len() == crate::POLICIES as usize {
            return Err(Fault::Many { what: "policies", most: crate::POLICIES as usize });
        }
        if self.policies.iter().any(|policy| policy.id == text) {
            return Err(Fault::Repeat { what: format!("the policy {id:?}") });
        }
        self.uses += self.sizes.get(root).ok_or(Fault::Lacking { what: "such root" })?;
        if self.uses > NODES {
            return Err(Fault::Many { what: "uses of nodes, summed over the policies", most: NODES });
        }
        self.policies.push(Policy { id: text, effect, root });
        Ok(self.policies.len() - 1)
    }

    /// Fills the slots of a policy.
    ///
    /// ```
    /// use openrules::sheet::builder::{Builder, Uid};
    ///
    /// let mut builder = Builder::new(openrules::sheet::Mode::Partial);
    /// assert!(builder.link(0, Some(&Uid::new("Broker", "b7")), None).is_ok());
    /// assert!(builder.link(0, None, None).is_err());
    /// ```
    pub fn link(&mut self, policy: usize, principal: Option<&Uid>, resource: Option<&Uid>) -> Result<(), Fault> {
        let mut value = |uid: Option<&Uid>| uid.map(|uid| self.value(&Value::Entity(uid.clone()))).transpose();
        let link = Link { policy, principal: value(principal)?, resource: value(resource)? };
        match self.links.insert(policy, link) {
            Some(_) => Err(Fault::Repeat { what: format!("the link of policy {policy}") }),
            None => Ok(()),
        }
    }

    /// Gives a policy its first and its last day.
    ///
    /// ```
    /// use openrules::sheet::builder::Builder;
    ///
    /// let mut builder = Builder::new(openrules::sheet::Mode::Partial);
    /// let day = openrules::sheet::Day { year: 2026, month: 6, day: 30 };
    /// assert!(builder.term(0, day, day).is_ok());
    /// assert!(builder.term(0, day, day).is_err());
    /// ```
    pub fn term(&mut self, policy: usize, first: Day, last: Day) -> Result<(), Fault> {
        match self.terms.insert(policy, Term { policy, first, last }) {
            Some(_) => Err(Fault::Repeat { what: format!("the term of policy {policy}") }),
            None => Ok(()),
        }
    }

    /// The sheet.
    ///
    /// ```
    /// use openrules::sheet::builder::Builder;
    ///
    /// let mut builder = Builder::new(openrules::sheet::Mode::Partial);
    /// builder.kind("Broker").unwrap();
    /// assert_eq!(builder.finish().unwrap_err().to_string(), "the kind \"Broker\" is used and not declared");
    /// ```
    pub fn finish(self) -> Result<Sheet, Fault> {
        if let Some(name) = self.undeclared() {
            return Err(Fault::NoKind { name: name.into() });
        }
        let [principal, action, resource] = self.request.ok_or(Fault::Lacking { what: "request" })?;
        let kind = |(name, (action, _)): (&usize, &(bool, Shape))| Kind { name: *name, action: *action };
        let sheet = Sheet {
            mode: self.mode,
            texts: self.texts.rows,
            kinds: self.kinds.rows.iter().zip(self.shapes.values()).map(kind).collect(),
            types: self.types.rows,
            shapes: self.shapes.into_values().map(|(_, shape)| shape).collect(),
            values: self.values.rows,
            entities: self.entities.into_values().collect(),
            principal,
            action,
            resource,
            context: self.context.ok_or(Fault::Lacking { what: "context" })?,
            day: self.day.ok_or(Fault::Lacking { what: "day" })?,
            nodes: self.nodes,
            policies: self.policies,
            links: self.links.into_values().collect(),
            terms: self.terms.into_values().collect(),
        };
        match sheet.to_string().len() {
            bytes if bytes > crate::SHEET => Err(Fault::Long { bytes }),
            _ => Ok(sheet),
        }
    }
}
