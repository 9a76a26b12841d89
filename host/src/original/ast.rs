//! Stand-ins for the syntax tree's types: values, entities, patterns, expressions, policies.

use std::cmp::Ordering;
use std::collections::{BTreeMap, BTreeSet, HashMap, HashSet};
use std::convert::Infallible;
use std::fmt;
use std::str::FromStr;
use std::sync::Arc;

use crate::parser::Loc;
use crate::rows::{make, number, Row};
use crate::{Either, NonEmpty, SmolStr};

/// The type of a complete run's results, as in the original.
#[allow(warnings)]
mod partial_value {
    use super::{Either, Expr, Loc, Unknown, Value};

    include!(concat!(env!("OUT_DIR"), "/partial_value.rs"));
}
pub use partial_value::{split, PartialValue};

pub type Integer = i64;

// Entities ---------------------------------------------------------------------------------------------------------------

/// A kind of the sheet, by its number.
#[derive(Clone, Copy, Debug, PartialEq, Eq, PartialOrd, Ord, Hash)]
pub struct EntityType(pub u32);

#[derive(Clone, Debug, PartialEq, Eq, PartialOrd, Ord, Hash)]
pub struct Eid(pub SmolStr);

#[derive(Clone, Debug, PartialEq, Eq, PartialOrd, Ord, Hash)]
pub struct EntityUID {
    ty: EntityType,
    eid: Eid,
}

impl EntityUID {
    pub fn from_components(ty: EntityType, eid: Eid, _: Option<Loc>) -> Self {
        EntityUID { ty, eid }
    }

    pub fn entity_type(&self) -> &EntityType {
        &self.ty
    }
}

/// A listed entity of a complete sheet.
#[derive(Clone, Debug)]
pub struct Entity {
    uid: EntityUID,
    attrs: BTreeMap<SmolStr, PartialValue>,
    ancestors: HashSet<EntityUID>,
    tags: BTreeMap<SmolStr, PartialValue>,
}

impl Entity {
    pub fn of(
        uid: EntityUID,
        attrs: &BTreeMap<SmolStr, Value>,
        ancestors: HashSet<EntityUID>,
        tags: &BTreeMap<SmolStr, Value>,
    ) -> Self {
        let known =
            |values: &BTreeMap<SmolStr, Value>| values.iter().map(|(t, v)| (t.clone(), PartialValue::Value(v.clone()))).collect();
        Entity { uid, attrs: known(attrs), ancestors, tags: known(tags) }
    }

    pub fn uid(&self) -> &EntityUID {
        &self.uid
    }

    pub fn get(&self, attr: &SmolStr) -> Option<&PartialValue> {
        self.attrs.get(attr)
    }

    pub fn get_tag(&self, tag: &SmolStr) -> Option<&PartialValue> {
        self.tags.get(tag)
    }

    pub fn is_descendant_of(&self, uid: &EntityUID) -> bool {
        self.ancestors.contains(uid)
    }

    pub fn keys(&self) -> impl Iterator<Item = &SmolStr> {
        self.attrs.keys()
    }

    pub fn tag_keys(&self) -> impl Iterator<Item = &SmolStr> {
        self.tags.keys()
    }

    pub fn attrs_len(&self) -> usize {
        self.attrs.len()
    }

    pub fn tags_len(&self) -> usize {
        self.tags.len()
    }
}

// Values -----------------------------------------------------------------------------------------------------------------

/// A value by content. Its place is its row number, which takes no part in comparisons.
#[derive(Clone, Debug)]
pub struct Value {
    pub value: ValueKind,
    pub loc: Option<Loc>,
}

#[derive(Clone, Debug)]
pub enum ValueKind {
    Lit(Literal),
    Set(Set),
    Record(Arc<BTreeMap<SmolStr, Value>>),
    ExtensionValue(Arc<RepresentableExtensionValue>),
}

#[derive(Clone, Debug, PartialEq, Eq, PartialOrd, Ord, Hash)]
pub enum Literal {
    Bool(bool),
    Long(Integer),
    String(SmolStr),
    EntityUID(Arc<EntityUID>),
    /// A whole value as the literal of an expression; no value holds it.
    Given(Given),
}

/// A value that an expression holds as it stands.
#[derive(Clone, Debug)]
pub struct Given(Arc<Value>);

impl Given {
    fn number(&self) -> u32 {
        number(&self.0)
    }
}

impl PartialEq for Given {
    fn eq(&self, other: &Self) -> bool {
        self.number() == other.number()
    }
}

impl Eq for Given {}

impl PartialOrd for Given {
    fn partial_cmp(&self, other: &Self) -> Option<Ordering> {
        Some(self.cmp(other))
    }
}

impl Ord for Given {
    fn cmp(&self, other: &Self) -> Ordering {
        self.number().cmp(&other.number())
    }
}

impl std::hash::Hash for Given {
    fn hash<H: std::hash::Hasher>(&self, state: &mut H) {
        self.number().hash(state)
    }
}

/// A set by content, with a second form for sets of literals, as the text expects.
#[derive(Clone, Debug)]
pub struct Set {
    pub authoritative: Arc<BTreeSet<Value>>,
    pub fast: Option<Arc<HashSet<Literal>>>,
}

/// No value of this type exists: extension values are left out.
#[derive(Clone, Debug, PartialEq, Eq, PartialOrd, Ord)]
pub enum NoExtensionValue {}

#[derive(Clone, Debug, PartialEq, Eq, PartialOrd, Ord)]
pub struct RepresentableExtensionValue {
    pub value: NoExtensionValue,
}

impl RepresentableExtensionValue {
    pub fn new_lazy(value: NoExtensionValue) -> Self {
        RepresentableExtensionValue { value }
    }

    pub fn supports_operator_overloading(&self) -> bool {
        match self.value {}
    }

    pub fn typename(&self) -> Name {
        match self.value {}
    }
}

impl PartialEq for Value {
    fn eq(&self, other: &Self) -> bool {
        self.cmp(other) == Ordering::Equal
    }
}

impl Eq for Value {}

impl PartialOrd for Value {
    fn partial_cmp(&self, other: &Self) -> Option<Ordering> {
        Some(self.cmp(other))
    }
}

impl Ord for Value {
    /// Literals, then sets, then records, each by content. What two values share is not walked.
    fn cmp(&self, other: &Self) -> Ordering {
        match (&self.value, &other.value) {
            (ValueKind::Lit(left), ValueKind::Lit(right)) => left.cmp(right),
            (ValueKind::Set(left), ValueKind::Set(right)) => {
                if Arc::ptr_eq(&left.authoritative, &right.authoritative) {
                    return Ordering::Equal;
                }
                left.authoritative.iter().cmp(right.authoritative.iter())
            }
            (ValueKind::Record(left), ValueKind::Record(right)) => {
                if Arc::ptr_eq(left, right) {
                    return Ordering::Equal;
                }
                left.iter().cmp(right.iter())
            }
            (left, right) => left.rank().cmp(&right.rank()),
        }
    }
}

impl ValueKind {
    fn rank(&self) -> u8 {
        match self {
            ValueKind::Lit(_) => 0,
            ValueKind::Set(_) => 1,
            ValueKind::Record(_) => 2,
            ValueKind::ExtensionValue(_) => 3,
        }
    }
}

impl Set {
    pub fn new(values: impl IntoIterator<Item = Value>) -> Self {
        let authoritative: BTreeSet<Value> = values.into_iter().collect();
        let fast = authoritative.iter().map(|value| value.literal().cloned()).collect::<Option<HashSet<_>>>();
        Set { authoritative: Arc::new(authoritative), fast: fast.map(Arc::new) }
    }

    pub fn iter(&self) -> impl Iterator<Item = &Value> {
        self.authoritative.iter()
    }

    pub fn is_empty(&self) -> bool {
        self.authoritative.is_empty()
    }

    pub fn contains(&self, value: &Value) -> bool {
        match (&self.fast, value.literal()) {
            (Some(fast), Some(literal)) => fast.contains(literal),
            (Some(_), None) => false,
            _ => self.authoritative.contains(value),
        }
    }

    pub fn is_subset(&self, other: &Set) -> bool {
        match (&self.fast, &other.fast) {
            (Some(left), Some(right)) => left.is_subset(right),
            (None, Some(_)) => false,
            _ => self.authoritative.is_subset(&other.authoritative),
        }
    }

    pub fn is_disjoint(&self, other: &Set) -> bool {
        match (&self.fast, &other.fast) {
            (Some(left), Some(right)) => left.is_disjoint(right),
            _ => self.authoritative.is_disjoint(&other.authoritative),
        }
    }
}

impl Value {
    fn bare(value: ValueKind) -> Self {
        Value { value, loc: None }
    }

    fn literal(&self) -> Option<&Literal> {
        match &self.value {
            ValueKind::Lit(literal) => Some(literal),
            _ => None,
        }
    }

    pub fn value_kind(&self) -> &ValueKind {
        &self.value
    }

    pub fn source_loc(&self) -> Option<&Loc> {
        self.loc.as_ref()
    }

    /// Expressions have no place here, so a value keeps its own.
    pub fn with_maybe_source_loc(self, _: Option<Loc>) -> Self {
        self
    }

    pub fn type_of(&self) -> Type {
        match &self.value {
            ValueKind::Lit(Literal::Bool(_)) => Type::Bool,
            ValueKind::Lit(Literal::Long(_)) => Type::Long,
            ValueKind::Lit(Literal::String(_)) => Type::String,
            ValueKind::Lit(Literal::EntityUID(uid)) => Type::Entity { ty: *uid.entity_type() },
            ValueKind::Lit(Literal::Given(given)) => given.0.type_of(),
            ValueKind::Set(_) => Type::Set,
            ValueKind::Record(_) => Type::Record,
            ValueKind::ExtensionValue(value) => match value.value {},
        }
    }

    /// The value of a text, which the original never makes.
    pub fn text(text: &SmolStr) -> Self {
        make(Row::Text(text.number()), || Value::bare(ValueKind::Lit(Literal::String(text.clone()))))
    }

    pub fn set(values: impl IntoIterator<Item = Value>, _: Option<Loc>) -> Self {
        let values: Vec<Value> = values.into_iter().collect();
        let mut numbers: Vec<u32> = values.iter().map(number).collect();
        numbers.sort();
        numbers.dedup();
        make(Row::Set(numbers), || Value::bare(ValueKind::Set(Set::new(values))))
    }

    pub fn record(values: impl IntoIterator<Item = (SmolStr, Value)>, loc: Option<Loc>) -> Self {
        Value::record_arc(Arc::new(values.into_iter().collect()), loc)
    }

    pub fn record_arc(values: Arc<BTreeMap<SmolStr, Value>>, _: Option<Loc>) -> Self {
        let row = values.iter().map(|(text, value)| (text.number(), number(value))).collect();
        make(Row::Record(row), || Value::bare(ValueKind::Record(values)))
    }
}

impl From<bool> for Value {
    fn from(b: bool) -> Self {
        make(Row::Bool(b), || Value::bare(ValueKind::Lit(Literal::Bool(b))))
    }
}

impl From<Integer> for Value {
    fn from(n: Integer) -> Self {
        make(Row::Long(n), || Value::bare(ValueKind::Lit(Literal::Long(n))))
    }
}

impl From<EntityUID> for Value {
    fn from(uid: EntityUID) -> Self {
        let row = Row::Entity(uid.ty.0, uid.eid.0.number());
        make(row, || Value::bare(ValueKind::Lit(Literal::EntityUID(Arc::new(uid)))))
    }
}

impl From<Literal> for Value {
    fn from(literal: Literal) -> Self {
        match literal {
            Literal::Bool(b) => b.into(),
            Literal::Long(n) => n.into(),
            Literal::String(text) => Value::text(&text),
            Literal::EntityUID(uid) => uid.as_ref().clone().into(),
            Literal::Given(given) => given.0.as_ref().clone(),
        }
    }
}

impl From<bool> for Literal {
    fn from(b: bool) -> Self {
        Literal::Bool(b)
    }
}

impl From<SmolStr> for Literal {
    fn from(text: SmolStr) -> Self {
        Literal::String(text)
    }
}

// Patterns ---------------------------------------------------------------------------------------------------------------

/// A pattern as its line has it: texts, and `*` as None.
#[derive(Clone, Debug, PartialEq, Eq)]
pub struct Pattern {
    items: Arc<Vec<Option<SmolStr>>>,
    elements: Arc<Vec<Element>>,
}

#[derive(Clone, Copy, Debug, PartialEq, Eq)]
enum Element {
    Byte(u8),
    Any,
}

impl Pattern {
    pub fn of(items: Vec<Option<SmolStr>>) -> Self {
        let mut elements = Vec::new();
        for item in &items {
            match item {
                Some(text) => elements.extend(text.bytes().bytes().map(Element::Byte)),
                None => elements.push(Element::Any),
            }
        }
        Pattern { items: Arc::new(items), elements: Arc::new(elements) }
    }

    pub fn items(&self) -> &[Option<SmolStr>] {
        &self.items
    }

    /// "`*` matches any run, also empty; a text item matches its own bytes". After a star it is enough to go back to the
    /// last one.
    pub fn wildcard_match(&self, text: &str) -> bool {
        let (text, pattern) = (text.as_bytes(), &self.elements);
        let (mut i, mut j) = (0, 0);
        let mut last: Option<(usize, usize)> = None;
        while i < text.len() {
            match pattern.get(j) {
                Some(Element::Any) => {
                    last = Some((i, j));
                    j += 1;
                }
                Some(Element::Byte(b)) if *b == text[i] => {
                    i += 1;
                    j += 1;
                }
                _ => {
                    let Some((from, star)) = last else {
                        return false;
                    };
                    last = Some((from + 1, star));
                    i = from + 1;
                    j = star + 1;
                }
            }
        }
        pattern[j..].iter().all(|element| *element == Element::Any)
    }
}

// Names, types of the evaluator, operators -------------------------------------------------------------------------------

#[derive(Clone, Debug, PartialEq, Eq, PartialOrd, Ord, Hash)]
pub struct Name(String);

impl Name {
    pub fn parse_unqualified_name(name: &str) -> std::result::Result<Self, Infallible> {
        Ok(Name(name.to_string()))
    }
}

impl FromStr for Name {
    type Err = Infallible;
    fn from_str(name: &str) -> std::result::Result<Self, Infallible> {
        Ok(Name(name.to_string()))
    }
}

/// The evaluator's own types, which stand only in errors.
#[derive(Clone, Debug, PartialEq, Eq, PartialOrd, Ord, Hash)]
pub enum Type {
    Bool,
    Long,
    String,
    Set,
    Record,
    Entity { ty: EntityType },
    Extension { name: Name },
}

impl Type {
    pub fn entity_type(_: Name) -> Self {
        Type::Entity { ty: EntityType(u32::MAX) }
    }
}

impl fmt::Display for Type {
    fn fmt(&self, f: &mut fmt::Formatter<'_>) -> fmt::Result {
        write!(f, "{self:?}")
    }
}

#[derive(Clone, Copy, Debug, PartialEq, Eq)]
pub enum UnaryOp {
    Not,
    Neg,
    IsEmpty,
}

#[derive(Clone, Copy, Debug, PartialEq, Eq)]
pub enum BinaryOp {
    Eq,
    Less,
    LessEq,
    Add,
    Sub,
    Mul,
    In,
    Contains,
    ContainsAll,
    ContainsAny,
    GetTag,
    HasTag,
}

#[derive(Clone, Copy, Debug, PartialEq, Eq)]
pub enum Var {
    Principal,
    Action,
    Resource,
    Context,
}

/// `unwrap` where there is nothing to fail.
pub trait UnwrapInfallible {
    type Output;
    fn unwrap_infallible(self) -> Self::Output;
}

impl<T> UnwrapInfallible for std::result::Result<T, Infallible> {
    type Output = T;
    fn unwrap_infallible(self) -> T {
        match self {
            Ok(value) => value,
            Err(never) => match never {},
        }
    }
}

// Expressions ------------------------------------------------------------------------------------------------------------

#[derive(Clone, Debug, PartialEq, Eq)]
pub struct Expr {
    kind: ExprKind,
}

#[derive(Clone, Debug, PartialEq, Eq)]
pub enum ExprKind {
    Lit(Literal),
    Var(Var),
    Slot(SlotId),
    Unknown(Unknown),
    If { test_expr: Arc<Expr>, then_expr: Arc<Expr>, else_expr: Arc<Expr> },
    And { left: Arc<Expr>, right: Arc<Expr> },
    Or { left: Arc<Expr>, right: Arc<Expr> },
    UnaryApp { op: UnaryOp, arg: Arc<Expr> },
    BinaryApp { op: BinaryOp, arg1: Arc<Expr>, arg2: Arc<Expr> },
    ExtensionFunctionApp { fn_name: Name, args: Arc<Vec<Expr>> },
    GetAttr { expr: Arc<Expr>, attr: SmolStr },
    HasAttr { expr: Arc<Expr>, attr: SmolStr },
    ExtHasAttr { expr: Arc<Expr>, attrs: NonEmpty<SmolStr> },
    Like { expr: Arc<Expr>, pattern: Pattern },
    Is { expr: Arc<Expr>, entity_type: EntityType },
    Set(Arc<Vec<Expr>>),
    Record(Arc<BTreeMap<SmolStr, Expr>>),
}

impl From<ExprKind> for Expr {
    fn from(kind: ExprKind) -> Self {
        Expr { kind }
    }
}

/// A value is a literal as it stands, so that its row is not made again.
impl From<Value> for Expr {
    fn from(value: Value) -> Self {
        ExprKind::Lit(Literal::Given(Given(Arc::new(value)))).into()
    }
}

impl From<PartialValue> for Expr {
    fn from(value: PartialValue) -> Self {
        match value {
            PartialValue::Value(value) => value.into(),
            PartialValue::Residual(expr) => expr,
        }
    }
}

impl Expr {
    pub fn expr_kind(&self) -> &ExprKind {
        &self.kind
    }

    pub fn source_loc(&self) -> Option<&Loc> {
        None
    }

    pub fn with_maybe_source_loc(self, _: Option<Loc>) -> Self {
        self
    }

    pub fn contains_unknown(&self) -> bool {
        true
    }

    pub fn is_projectable(&self) -> bool {
        false
    }

    pub fn val(literal: impl Into<Literal>) -> Self {
        ExprKind::Lit(literal.into()).into()
    }

    pub fn var(var: Var) -> Self {
        ExprKind::Var(var).into()
    }

    pub fn unknown(unknown: Unknown) -> Self {
        ExprKind::Unknown(unknown).into()
    }

    pub fn and(left: Expr, right: Expr) -> Self {
        ExprKind::And { left: left.into(), right: right.into() }.into()
    }

    pub fn or(left: Expr, right: Expr) -> Self {
        ExprKind::Or { left: left.into(), right: right.into() }.into()
    }

    pub fn ite_arc(test_expr: Arc<Expr>, then_expr: Arc<Expr>, else_expr: Arc<Expr>) -> Self {
        ExprKind::If { test_expr, then_expr, else_expr }.into()
    }

    pub fn unary_app(op: UnaryOp, arg: Expr) -> Self {
        ExprKind::UnaryApp { op, arg: arg.into() }.into()
    }

    pub fn binary_app(op: BinaryOp, arg1: Expr, arg2: Expr) -> Self {
        ExprKind::BinaryApp { op, arg1: arg1.into(), arg2: arg2.into() }.into()
    }

    pub fn get_tag(expr: Expr, tag: Expr) -> Self {
        Expr::binary_app(BinaryOp::GetTag, expr, tag)
    }

    pub fn has_tag(expr: Expr, tag: Expr) -> Self {
        Expr::binary_app(BinaryOp::HasTag, expr, tag)
    }

    pub fn call_extension_fn(fn_name: Name, args: Vec<Expr>) -> Self {
        ExprKind::ExtensionFunctionApp { fn_name, args: args.into() }.into()
    }

    pub fn get_attr(expr: Expr, attr: SmolStr) -> Self {
        ExprKind::GetAttr { expr: expr.into(), attr }.into()
    }

    pub fn has_attr(expr: Expr, attr: SmolStr) -> Self {
        ExprKind::HasAttr { expr: expr.into(), attr }.into()
    }

    pub fn extended_has_attr(expr: Expr, attrs: NonEmpty<SmolStr>) -> Self {
        ExprKind::ExtHasAttr { expr: expr.into(), attrs }.into()
    }

    pub fn like(expr: Expr, pattern: Pattern) -> Self {
        ExprKind::Like { expr: expr.into(), pattern }.into()
    }

    pub fn is_entity_type(expr: Expr, entity_type: EntityType) -> Self {
        ExprKind::Is { expr: expr.into(), entity_type }.into()
    }

    pub fn set(items: impl IntoIterator<Item = Expr>) -> Self {
        ExprKind::Set(Arc::new(items.into_iter().collect())).into()
    }

    pub fn record(items: impl IntoIterator<Item = (SmolStr, Expr)>) -> std::result::Result<Self, Infallible> {
        Ok(ExprKind::Record(Arc::new(items.into_iter().collect())).into())
    }

    pub fn record_arc(items: Arc<BTreeMap<SmolStr, Expr>>) -> Self {
        ExprKind::Record(items).into()
    }
}

/// The builder that the text names; its methods are those of the trait of the same name.
pub struct ExprBuilder<T>(#[allow(dead_code)] T);

impl<T> crate::expr_builder::ExprBuilder for ExprBuilder<T> {
    type Data = T;
    fn with_data(data: T) -> Self {
        ExprBuilder(data)
    }
}

/// An expression of values only; the text has an evaluator for it that no sheet reaches.
#[derive(Clone, Copy, Debug)]
pub struct BorrowedRestrictedExpr<'a>(&'a Expr);

impl<'a> BorrowedRestrictedExpr<'a> {
    pub fn new_unchecked(expr: &'a Expr) -> Self {
        BorrowedRestrictedExpr(expr)
    }

    pub fn source_loc(&self) -> Option<&Loc> {
        None
    }
}

impl AsRef<Expr> for BorrowedRestrictedExpr<'_> {
    fn as_ref(&self) -> &Expr {
        self.0
    }
}

#[derive(Clone, Debug, PartialEq, Eq)]
pub struct Unknown {
    pub name: String,
    pub type_annotation: Option<Type>,
}

impl Unknown {
    pub fn new_untyped(name: &str) -> Self {
        Unknown { name: name.to_string(), type_annotation: None }
    }
}

// Requests and policies --------------------------------------------------------------------------------------------------

#[derive(Clone, Debug)]
pub enum EntityUIDEntry {
    Known { euid: Arc<EntityUID>, loc: Option<Loc> },
    Unknown,
}

impl EntityUIDEntry {
    pub fn evaluate(&self, _: Var) -> PartialValue {
        match self {
            EntityUIDEntry::Known { euid, .. } => PartialValue::Value(Value::from(euid.as_ref().clone())),
            EntityUIDEntry::Unknown => PartialValue::unknown(Unknown::new_untyped("")),
        }
    }
}

#[derive(Clone, Debug)]
pub struct Context(pub Arc<BTreeMap<SmolStr, Value>>);

impl From<Context> for Value {
    fn from(context: Context) -> Self {
        Value::record_arc(context.0, None)
    }
}

#[derive(Clone, Debug)]
pub struct Request {
    pub principal: EntityUIDEntry,
    pub action: EntityUIDEntry,
    pub resource: EntityUIDEntry,
    pub context: Option<Context>,
}

#[derive(Clone, Copy, Debug, PartialEq, Eq, Hash)]
pub struct SlotId;

pub type SlotEnv = HashMap<SlotId, EntityUID>;

#[derive(Clone, Copy, Debug, PartialEq, Eq, Hash)]
pub enum Effect {
    Permit,
    Forbid,
}

/// A policy's id, by the number of its text.
#[derive(Clone, Debug, PartialEq, Eq, Hash)]
pub struct PolicyID(pub u32);

/// A policy: its id, its effect and its tree.
#[derive(Clone, Debug)]
pub struct Policy {
    id: PolicyID,
    effect: Effect,
    condition: Expr,
    env: SlotEnv,
}

impl Policy {
    pub fn of(id: PolicyID, effect: Effect, condition: Expr) -> Self {
        Policy { id, effect, condition, env: SlotEnv::new() }
    }

    pub fn id(&self) -> &PolicyID {
        &self.id
    }

    pub fn effect(&self) -> Effect {
        self.effect
    }

    pub fn condition(&self) -> Expr {
        self.condition.clone()
    }

    pub fn env(&self) -> &SlotEnv {
        &self.env
    }
}
