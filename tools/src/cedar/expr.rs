//! Conditions of policies in Cedar's JSON form.

use super::error::{Error, Place};
use super::json::{At, Fields};
use super::values;
use openrules::sheet::builder::{has_room, Value};
use openrules::sheet::{Binary, Slot, Unary, Variable};

/// An expression, and where it stands.
#[derive(Clone, Debug)]
pub struct Expr {
    /// Where it stands.
    pub place: Place,
    /// What it is.
    pub kind: Kind,
}

/// What an expression is.
#[derive(Clone, Debug)]
pub enum Kind {
    /// A value.
    Lit(Value),
    /// It yields an error.
    Err,
    /// A part of the request.
    Var(Variable),
    /// A slot of a template.
    Slot(Slot),
    /// One operand.
    Unary(Unary, Box<Expr>),
    /// Two operands.
    Binary(Binary, Box<Expr>, Box<Expr>),
    /// The test and the two branches.
    If(Box<Expr>, Box<Expr>, Box<Expr>),
    /// Whether an entity is of a type, and perhaps in another.
    Is(Box<Expr>, String, Option<Box<Expr>>),
    /// A pattern of texts and of `*` as None.
    Like(Box<Expr>, Vec<Option<String>>),
    /// An attribute.
    Get(Box<Expr>, String),
    /// Whether there is an attribute.
    Has(Box<Expr>, String),
    /// Whether there is an attribute at the end of a path.
    HasPath(Box<Expr>, Vec<String>),
    /// A set.
    Set(Vec<Expr>),
    /// A record.
    Record(Vec<(String, Expr)>),
}

impl Expr {
    /// An expression at a place.
    pub fn new(place: &Place, kind: Kind) -> Expr {
        Expr { place: place.clone(), kind }
    }

    /// An operation on two others.
    pub fn binary(place: &Place, word: Binary, left: Expr, right: Expr) -> Expr {
        Expr::new(place, Kind::Binary(word, Box::new(left), Box::new(right)))
    }

    /// The opposite.
    pub fn negated(self) -> Expr {
        Expr::new(&self.place.clone(), Kind::Unary(Unary::Not, Box::new(self)))
    }

    /// The expressions in it, left to right.
    pub fn children(&self) -> Vec<&Expr> {
        match &self.kind {
            Kind::Lit(_) | Kind::Err | Kind::Var(_) | Kind::Slot(_) => vec![],
            Kind::Unary(_, child)
            | Kind::Like(child, _)
            | Kind::Get(child, _)
            | Kind::Has(child, _)
            | Kind::HasPath(child, _)
            | Kind::Is(child, _, None) => vec![child],
            Kind::Binary(_, left, right) | Kind::Is(left, _, Some(right)) => vec![left, right],
            Kind::If(test, yes, no) => vec![test, yes, no],
            Kind::Set(children) => children.iter().collect(),
            Kind::Record(fields) => fields.iter().map(|(_, field)| field).collect(),
        }
    }

    /// Whether it is a value made here, whose type is best taken from where it stands.
    pub fn is_made(&self) -> bool {
        match &self.kind {
            Kind::Lit(_) | Kind::Err | Kind::Set(_) | Kind::Record(_) => true,
            Kind::If(_, yes, no) => yes.is_made() && no.is_made(),
            Kind::Get(child, _) => child.is_made(),
            _ => false,
        }
    }

    /// Whether a slot stands in it.
    pub fn has_slot(&self, slot: Slot) -> bool {
        matches!(self.kind, Kind::Slot(one) if one == slot) || self.children().into_iter().any(|child| child.has_slot(slot))
    }

    /// The first expression in it, itself included, with a text of its own that a sheet has no room for.
    pub fn without_room(&self) -> Option<&Expr> {
        let wrong = |text: &String| has_room(text).is_err();
        let own = match &self.kind {
            Kind::Lit(value) => has_wrong(value),
            Kind::Like(_, pattern) => pattern.iter().flatten().any(wrong),
            Kind::Get(_, name) | Kind::Has(_, name) | Kind::Is(_, name, _) => wrong(name),
            Kind::HasPath(_, path) => path.iter().any(wrong),
            Kind::Record(fields) => fields.iter().any(|(name, _)| wrong(name)),
            _ => false,
        };
        match own {
            true => Some(self),
            false => self.children().into_iter().find_map(Expr::without_room),
        }
    }
}

/// Whether a value has a text that a sheet has no room for.
fn has_wrong(value: &Value) -> bool {
    let wrong = |text: &String| has_room(text).is_err();
    match value {
        Value::Bool(_) | Value::Long(_) => false,
        Value::Text(text) => wrong(text),
        Value::Entity(uid) => wrong(&uid.kind) || wrong(&uid.id),
        Value::Set(elements) => elements.iter().any(has_wrong),
        Value::Record(fields) => fields.iter().any(|(name, field)| wrong(name) || has_wrong(field)),
    }
}

/// The operations on `left` and `right`, and whether the opposite is meant.
const BINARY: [(&str, Binary, bool); 17] = [
    ("==", Binary::Eq, false),
    ("!=", Binary::Eq, true),
    ("<", Binary::Lt, false),
    ("<=", Binary::Le, false),
    (">", Binary::Le, true),
    (">=", Binary::Lt, true),
    ("&&", Binary::And, false),
    ("||", Binary::Or, false),
    ("+", Binary::Add, false),
    ("-", Binary::Sub, false),
    ("*", Binary::Mul, false),
    ("in", Binary::In, false),
    ("contains", Binary::Contains, false),
    ("containsAll", Binary::All, false),
    ("containsAny", Binary::Any, false),
    ("getTag", Binary::GetTag, false),
    ("hasTag", Binary::HasTag, false),
];

/// The operations on `arg`.
const UNARY: [(&str, Unary); 3] = [("!", Unary::Not), ("neg", Unary::Neg), ("isEmpty", Unary::Empty)];

/// Reads an expression.
pub fn read(at: &At) -> Result<Expr, Error> {
    let wanted = || at.wanted("an expression, an object with one field,");
    let mut fields = at.object().map_err(|_| wanted())?.all();
    let (Some((word, body)), true) = (fields.pop(), fields.is_empty()) else {
        return Err(wanted());
    };
    if let Some((_, operation, opposite)) = BINARY.iter().find(|(name, ..)| *name == word) {
        let mut parts = body.object()?;
        let both = Expr::binary(&at.place, *operation, operand(&mut parts, "left")?, operand(&mut parts, "right")?);
        parts.end()?;
        return Ok(if *opposite { both.negated() } else { both });
    }
    if let Some((_, operation)) = UNARY.iter().find(|(name, _)| *name == word) {
        let mut parts = body.object()?;
        let child = operand(&mut parts, "arg")?;
        parts.end()?;
        return Ok(Expr::new(&at.place, Kind::Unary(*operation, Box::new(child))));
    }
    Ok(Expr::new(&at.place, other(word, &body)?))
}

fn operand(parts: &mut Fields, name: &str) -> Result<Expr, Error> {
    read(&parts.need(name)?)
}

/// The expressions that are no operation on one or two others.
fn other(word: &str, body: &At) -> Result<Kind, Error> {
    match word {
        "Value" => Ok(Kind::Lit(values::explicit(body)?)),
        "Var" => variable(body).map(Kind::Var),
        "Slot" => slot(body).map(Kind::Slot),
        "Set" => Ok(Kind::Set(body.list()?.iter().map(read).collect::<Result<_, _>>()?)),
        "Record" => {
            let field = |(name, field): (&str, At)| Ok((name.to_string(), read(&field)?));
            Ok(Kind::Record(body.object()?.all().into_iter().map(field).collect::<Result<_, Error>>()?))
        }
        "." | "has" | "like" | "is" | "if-then-else" => {
            let mut parts = body.object()?;
            let kind = named(word, &mut parts)?;
            parts.end()?;
            Ok(kind)
        }
        // What Cedar turns an error residual into.
        "error" if body.list().is_ok_and(|arguments| arguments.is_empty()) => Ok(Kind::Err),
        "Unknown" | "unknown" => Err(Error::Type {
            at: body.place.clone(),
            what: "unknowns stand in the request and the entities, not in a policy".into(),
        }),
        _ => Err(Error::Extension { at: body.place.clone(), name: word.into() }),
    }
}

/// The expressions whose fields have their own names.
fn named(word: &str, parts: &mut Fields) -> Result<Kind, Error> {
    if word == "if-then-else" {
        let (test, yes, no) = (operand(parts, "if")?, operand(parts, "then")?, operand(parts, "else")?);
        return Ok(Kind::If(Box::new(test), Box::new(yes), Box::new(no)));
    }
    let left = Box::new(operand(parts, "left")?);
    match word {
        "." => Ok(Kind::Get(left, parts.need("attr")?.text()?.into())),
        "has" => has(left, &parts.need("attr")?),
        "like" => Ok(Kind::Like(left, pattern(&parts.need("pattern")?)?)),
        _ => {
            let kind = parts.need("entity_type")?.text()?.into();
            let within = parts.take("in").map(|within| read(&within)).transpose()?;
            Ok(Kind::Is(left, kind, within.map(Box::new)))
        }
    }
}

/// One attribute, or a list of attributes, each of the one before.
fn has(left: Box<Expr>, at: &At) -> Result<Kind, Error> {
    let Ok(items) = at.list() else { return Ok(Kind::Has(left, at.text()?.into())) };
    match items.is_empty() {
        true => Err(at.wanted("an attribute")),
        false => Ok(Kind::HasPath(left, items.iter().map(|item| Ok(item.text()?.into())).collect::<Result<_, Error>>()?)),
    }
}

/// A list of `"Wildcard"` and `{"Literal": text}`; literals side by side are one.
fn pattern(at: &At) -> Result<Vec<Option<String>>, Error> {
    let mut pattern: Vec<Option<String>> = vec![];
    for item in at.list()? {
        if let Ok("Wildcard") = item.text() {
            pattern.push(None);
            continue;
        }
        let mut fields = item.object().map_err(|_| item.wanted("\"Wildcard\" or {\"Literal\": text}"))?;
        let text = fields.need("Literal")?.text()?;
        fields.end()?;
        match pattern.last_mut() {
            Some(Some(before)) => before.push_str(text),
            _ => pattern.push(Some(text.into())),
        }
    }
    Ok(pattern)
}

fn variable(at: &At) -> Result<Variable, Error> {
    match at.text()? {
        "principal" => Ok(Variable::Principal),
        "action" => Ok(Variable::Action),
        "resource" => Ok(Variable::Resource),
        "context" => Ok(Variable::Context),
        _ => Err(at.wanted("principal, action, resource or context")),
    }
}

/// `?principal` or `?resource`.
pub fn slot(at: &At) -> Result<Slot, Error> {
    match at.text()? {
        "?principal" => Ok(Slot::Principal),
        "?resource" => Ok(Slot::Resource),
        _ => Err(at.wanted("?principal or ?resource")),
    }
}
