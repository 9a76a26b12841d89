//! Sheets and answers in Cedar's JSON forms, the way back: a sheet as schema, policy set, entities and request, and what is left of its policies as a policy set.
//!
//! Read again, the files give a sheet with the same decision, and the same class and residual for each policy.
//!
//! ```
//! use openrules::sheet::Sheet;
//! use openrules_tools::cedar::print;
//!
//! let sheet = Sheet::read(include_bytes!("../../../../examples/bands-overlap.sheet")).unwrap();
//! let files = print::sheet(&sheet).unwrap();
//! let request = r#"{"principal":{"type":"Broker"},"action":{"type":"Action","id":"quote"},"resource":{"type":"Load","id":"load 17"}}"#;
//! assert_eq!(files.request.to_string(), request);
//!
//! let answer = openrules::Evaluator::new().answer(sheet.to_string().as_bytes()).unwrap();
//! let left = print::residuals(&sheet, &answer).unwrap().to_string();
//! assert!(left.contains(r#""body":{".":{"left":{"Var":"context"},"attr":"insured"}}"#));
//! ```

mod policies;
mod schema;

use super::json::Json;
use openrules::cedar::is_name;
use openrules::sheet::{Entity, Kind, Node, Party, Sheet, Value};
use openrules::Answer;
use std::cell::Cell;
use std::fmt;

pub use policies::{policies, residuals};

/// The files of a sheet. [`sheet`] makes them.
#[derive(Clone, Debug, PartialEq)]
pub struct Files {
    /// The schema: its kinds, its actions, and what the request's action applies to.
    pub schema: Json,
    /// The policies on term.
    pub policies: Json,
    /// The entities, but for actions.
    pub entities: Json,
    /// The request.
    pub request: Json,
}

/// What a sheet has, and Cedar's JSON has not.
///
/// ```
/// let error = openrules_tools::cedar::print::Error::Name { kind: "my kind".into() };
/// assert_eq!(error.to_string(), "\"my kind\" cannot be the name of an entity type or of a type of actions");
/// ```
#[derive(Clone, Debug, PartialEq, Eq)]
#[non_exhaustive]
pub enum Error {
    /// A kind whose name Cedar does not take, or takes for another one's.
    Name {
        /// The kind.
        kind: String,
    },
    /// A type of several kinds.
    Group,
    /// Kinds above a kind that do not follow from those of the schema: Cedar takes all kinds above those above it, and for actions the kinds of their groups.
    Above {
        /// The kind.
        kind: String,
    },
    /// A kind of actions without an action: a schema has types of actions through its actions alone.
    Empty {
        /// The kind.
        kind: String,
    },
    /// An action of which something is unknown or unlisted, that has a parent which is no action, or that is in itself, where a policy asks of actions.
    Action {
        /// The action.
        action: String,
    },
    /// A record with an attribute that marks something else in JSON.
    Mark {
        /// The attribute.
        name: String,
    },
    /// Types or values of many parts, as come of sharing.
    Large,
    /// Types of expressions, which JSON does not hold, that change the answer. Only `openrules-sheet --json` finds it, as it reads what it writes.
    Types,
    /// A number that refers to nothing: no reader gives such rows.
    Reference,
}

impl fmt::Display for Error {
    fn fmt(&self, f: &mut fmt::Formatter<'_>) -> fmt::Result {
        match self {
            Error::Name { kind } => write!(f, "{kind:?} cannot be the name of an entity type or of a type of actions"),
            Error::Group => write!(f, "a type lists several kinds"),
            Error::Above { kind } => write!(f, "the kinds above {kind:?} are not those that Cedar finds"),
            Error::Empty { kind } => write!(f, "no action is of the kind {kind:?}"),
            Error::Action { action } => {
                write!(f, "not all is known of the action {action}, or its groups are not actions above it")
            }
            Error::Mark { name } => write!(f, "a record has the attribute {name:?}, which marks something else in JSON"),
            Error::Large => write!(f, "types and values have over {PARTS} parts"),
            Error::Types => write!(f, "read without the types of its expressions it has another answer"),
            Error::Reference => write!(f, "a number refers to nothing"),
        }
    }
}

impl std::error::Error for Error {}

/// The parts of types and values that are printed at most.
const PARTS: usize = 65_536;

/// The attributes that are no attributes in JSON.
const MARKS: [&str; 3] = ["__entity", "__extn", "__expr"];

/// A sheet, with the values and nodes of it or of its answer.
struct Printer<'a> {
    sheet: &'a Sheet,
    values: Vec<Value>,
    nodes: &'a [Node],
    /// The parts that may still be printed.
    left: Cell<usize>,
}

impl<'a> Printer<'a> {
    fn of_sheet(sheet: &'a Sheet) -> Printer<'a> {
        Printer { sheet, values: sheet.values.clone(), nodes: &sheet.nodes, left: Cell::new(PARTS) }
    }

    fn of_answer(sheet: &'a Sheet, answer: &'a Answer) -> Printer<'a> {
        let values = [&sheet.values[..], &answer.values[..]].concat();
        Printer { values, nodes: &answer.nodes, ..Printer::of_sheet(sheet) }
    }

    /// Counts a part of a type or a value.
    fn part(&self) -> Result<(), Error> {
        self.left.set(self.left.get().checked_sub(1).ok_or(Error::Large)?);
        Ok(())
    }

    fn text(&self, number: usize) -> Result<&'a str, Error> {
        self.sheet.texts.get(number).map(String::as_str).ok_or(Error::Reference)
    }

    fn kind_row(&self, number: usize) -> Result<Kind, Error> {
        self.sheet.kinds.get(number).copied().ok_or(Error::Reference)
    }

    /// The name of a kind.
    fn kind(&self, number: usize) -> Result<&'a str, Error> {
        let name = self.text(self.kind_row(number)?.name)?;
        match is_name(name) {
            true => Ok(name),
            false => Err(Error::Name { kind: name.into() }),
        }
    }

    fn uid(&self, kind: usize, text: usize) -> Result<Json, Error> {
        Ok(Json::object([("type", self.kind(kind)?.into()), ("id", self.text(text)?.into())]))
    }

    /// The kind and the text of an entity value.
    fn entity(&self, number: usize) -> Result<(usize, usize), Error> {
        match self.values.get(number) {
            Some(Value::Entity { kind, text }) => Ok((*kind, *text)),
            _ => Err(Error::Reference),
        }
    }

    /// The entities of a set value.
    fn entities(&self, number: usize) -> Result<Vec<(usize, usize)>, Error> {
        match self.values.get(number) {
            Some(Value::Set(elements)) => elements.iter().map(|element| self.entity(*element)).collect(),
            _ => Err(Error::Reference),
        }
    }

    /// A value, with a mark on entities.
    fn value(&self, number: usize) -> Result<Json, Error> {
        self.part()?;
        Ok(match self.values.get(number).ok_or(Error::Reference)? {
            Value::Bool(truth) => Json::Bool(*truth),
            Value::Long(number) => Json::Long(*number),
            Value::Text(text) => self.text(*text)?.into(),
            Value::Entity { kind, text } => Json::object([("__entity", self.uid(*kind, *text)?)]),
            Value::Set(elements) => Json::List(elements.iter().map(|element| self.value(*element)).collect::<Result<_, _>>()?),
            Value::Record(fields) => Json::Object(fields.iter().map(|field| self.field(*field)).collect::<Result<_, _>>()?),
        })
    }

    fn field(&self, (name, value): (usize, usize)) -> Result<(String, Json), Error> {
        let name = self.text(name)?;
        match MARKS.contains(&name) {
            true => Err(Error::Mark { name: name.into() }),
            false => Ok((name.into(), self.value(value)?)),
        }
    }

    /// An entity, with its parts that are known.
    fn entity_line(&self, row: &Entity) -> Result<Json, Error> {
        let (kind, text) = self.entity(row.entity)?;
        let mut fields = vec![("uid".to_string(), self.uid(kind, text)?)];
        for (name, part) in [("attrs", row.attributes), ("tags", row.tags)] {
            if let Some(part) = part {
                fields.push((name.into(), self.value(part)?));
            }
        }
        if let Some(parents) = row.parents {
            let parent = |(kind, text): (usize, usize)| self.uid(kind, text);
            let parents = self.entities(parents)?.into_iter().map(parent).collect::<Result<_, _>>()?;
            fields.push(("parents".into(), Json::List(parents)));
        }
        Ok(Json::Object(fields))
    }

    fn party(&self, party: Party) -> Result<Json, Error> {
        match party.text {
            Some(text) => self.uid(party.kind, text),
            None => Ok(Json::object([("type", self.kind(party.kind)?.into())])),
        }
    }

    fn request(&self) -> Result<Json, Error> {
        let mut fields = vec![
            ("principal".to_string(), self.party(self.sheet.principal)?),
            ("action".to_string(), self.party(self.sheet.action)?),
            ("resource".to_string(), self.party(self.sheet.resource)?),
        ];
        if let Some(context) = self.sheet.context.value {
            fields.push(("context".into(), self.value(context)?));
        }
        Ok(Json::Object(fields))
    }
}

/// The files of a sheet, or what of it they cannot hold. The day and the mode stand in none of them: `openrules-sheet` takes them as options.
///
/// ```
/// use openrules::sheet::Sheet;
/// use openrules_tools::cedar::print;
///
/// let sheet = Sheet::read(include_bytes!("../../../../examples/person-or-firm.sheet")).unwrap();
/// assert_eq!(print::sheet(&sheet), Err(print::Error::Group));
///
/// let sheet = Sheet::read(include_bytes!("../../../../examples/bands-overlap.sheet")).unwrap();
/// let entities = print::sheet(&sheet).unwrap().entities.to_string();
/// assert!(entities.starts_with(r#"[{"uid":{"type":"Load","id":"load 17"},"attrs":{"weight":"#), "{entities}");
/// ```
pub fn sheet(sheet: &Sheet) -> Result<Files, Error> {
    let printer = Printer::of_sheet(sheet);
    let is_action = |row: &Entity| Ok(printer.kind_row(printer.entity(row.entity)?.0)?.action);
    let mut entities = vec![];
    for row in &sheet.entities {
        if !is_action(row)? {
            entities.push(printer.entity_line(row)?);
        }
    }
    Ok(Files {
        schema: printer.schema()?,
        policies: policies(sheet)?,
        entities: Json::List(entities),
        request: printer.request()?,
    })
}
