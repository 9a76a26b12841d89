//! What may be wrong with Cedar's JSON, or may not stand on a sheet, and where.

use super::print;
use openrules::sheet::builder::Fault;
use std::fmt;
use std::rc::Rc;

/// A place in a file: the policy that it belongs to, and the way to it through the JSON.
///
/// ```
/// use openrules_tools::cedar::error::Place;
///
/// let place = Place::file("policies.json").policy("low band").field("conditions").item(0).field("body");
/// assert_eq!(place.to_string(), "policies.json, policy \"low band\", conditions[0].body");
/// ```
#[derive(Clone, Debug)]
pub struct Place {
    file: Rc<str>,
    policy: Option<Rc<str>>,
    last: Option<Rc<Step>>,
}

#[derive(Debug)]
struct Step {
    before: Option<Rc<Step>>,
    name: Name,
}

#[derive(Debug)]
enum Name {
    Field(String),
    Item(usize),
}

impl Place {
    /// A file as a whole.
    pub fn file(file: &str) -> Place {
        Place { file: file.into(), policy: None, last: None }
    }

    /// A policy, template or link; what follows is counted from it.
    pub fn policy(&self, id: &str) -> Place {
        Place { file: self.file.clone(), policy: Some(id.into()), last: None }
    }

    /// A field of the object at this place.
    pub fn field(&self, name: &str) -> Place {
        self.then(Name::Field(name.into()))
    }

    /// An item of the list at this place, from 0.
    pub fn item(&self, number: usize) -> Place {
        self.then(Name::Item(number))
    }

    fn then(&self, name: Name) -> Place {
        Place { last: Some(Rc::new(Step { before: self.last.clone(), name })), ..self.clone() }
    }
}

impl fmt::Display for Place {
    fn fmt(&self, f: &mut fmt::Formatter<'_>) -> fmt::Result {
        write!(f, "{}", self.file)?;
        if let Some(policy) = &self.policy {
            write!(f, ", policy {policy:?}")?;
        }
        let mut names = vec![];
        let mut step = self.last.as_ref();
        while let Some(one) = step {
            names.push(&one.name);
            step = one.before.as_ref();
        }
        for (count, name) in names.into_iter().rev().enumerate() {
            match name {
                Name::Field(name) => write!(f, "{}{name}", if count == 0 { ", " } else { "." })?,
                Name::Item(number) => write!(f, "{}[{number}]", if count == 0 { ", " } else { "" })?,
            }
        }
        Ok(())
    }
}

/// Why there is no sheet, or no JSON of one.
///
/// ```
/// use openrules::sheet::{Day, Mode};
/// use openrules_tools::cedar::{error::Error, sheet, File, Files, Options};
///
/// let file = |name| File { name, bytes: b"{" };
/// let files = Files { schema: file("s"), policies: file("p"), entities: file("e"), request: file("r") };
/// let day = Day { year: 2026, month: 6, day: 30 };
/// let error = sheet(&files, &Options { mode: Mode::Partial, day, short: false, after: None }).unwrap_err();
/// assert!(matches!(error, Error::Json { .. }));
/// assert_eq!(error.to_string(), "s: EOF while parsing an object at line 1 column 1");
/// ```
#[derive(Debug)]
pub enum Error {
    /// A file cannot be read or written.
    File {
        /// The file.
        file: String,
        /// What the system says.
        cause: std::io::Error,
    },
    /// A file is no JSON, or an object has a key twice.
    Json {
        /// The file.
        file: String,
        /// What the reader says, with line and column.
        cause: serde_json::Error,
    },
    /// Something else stands where this is wanted.
    Wanted {
        /// Where.
        at: Place,
        /// What should stand there.
        wanted: String,
    },
    /// An object has a field that the format has not.
    Field {
        /// The object.
        at: Place,
        /// The field.
        name: String,
    },
    /// An object lacks a field.
    Lacking {
        /// The object.
        at: Place,
        /// The field.
        name: String,
    },
    /// Extension types and functions do not stand on a sheet.
    Extension {
        /// Where.
        at: Place,
        /// Its name.
        name: String,
    },
    /// The schema does not declare it.
    Undeclared {
        /// Where it is named.
        at: Place,
        /// What it is.
        what: String,
    },
    /// Types do not fit.
    Type {
        /// Where.
        at: Place,
        /// In which way.
        what: String,
    },
    /// Common types or groups of actions that contain themselves.
    Circle {
        /// Where.
        at: Place,
        /// What contains itself.
        what: String,
    },
    /// Something unknown on a complete sheet.
    Unknown {
        /// What is unknown.
        at: Place,
    },
    /// A slot and a link that do not fit.
    Slot {
        /// Where.
        at: Place,
        /// In which way.
        what: String,
    },
    /// More than a sheet has room for.
    Room {
        /// What has no room.
        at: Place,
        /// In which way.
        fault: Fault,
    },
    /// A file is no sheet.
    Sheet {
        /// The file.
        file: String,
        /// What is wrong.
        fault: openrules::sheet::Fault,
    },
    /// The library gives the sheet no answer.
    Unanswered {
        /// What it says.
        error: openrules::Error,
    },
    /// Cedar's JSON cannot hold the sheet.
    Unwritten {
        /// The file of the sheet.
        file: String,
        /// What it cannot hold.
        error: print::Error,
    },
}

impl fmt::Display for Error {
    fn fmt(&self, f: &mut fmt::Formatter<'_>) -> fmt::Result {
        match self {
            Error::File { file, cause } => write!(f, "{file}: {cause}"),
            Error::Json { file, cause } => write!(f, "{file}: {cause}"),
            Error::Wanted { at, wanted } => write!(f, "{at}: {wanted} should stand here"),
            Error::Field { at, name } => write!(f, "{at}: the field {name:?} is not known here"),
            Error::Lacking { at, name } => write!(f, "{at}: the field {name:?} is lacking"),
            Error::Extension { at, name } => write!(f, "{at}: {name:?} is an extension, which a sheet cannot hold"),
            Error::Undeclared { at, what } => write!(f, "{at}: the schema does not declare {what}"),
            Error::Type { at, what } | Error::Slot { at, what } => write!(f, "{at}: {what}"),
            Error::Circle { at, what } => write!(f, "{at}: {what} contains itself"),
            Error::Unknown { at } => write!(f, "{at}: this is unknown, which a partial sheet alone may hold (--partial)"),
            Error::Room { at, fault } => write!(f, "{at}: {fault}"),
            Error::Sheet { file, fault } => write!(f, "{file}: {fault}"),
            Error::Unanswered { error } => write!(f, "the library gives the sheet no answer: {error}"),
            Error::Unwritten { file, error } => write!(f, "{file}: Cedar's JSON cannot hold the sheet: {error}"),
        }
    }
}

impl std::error::Error for Error {}

/// Says where a sheet has no room.
pub(crate) trait Room<T> {
    /// The same, with the place.
    fn room(self, at: &Place) -> Result<T, Error>;
}

impl<T> Room<T> for Result<T, Fault> {
    fn room(self, at: &Place) -> Result<T, Error> {
        self.map_err(|fault| Error::Room { at: at.clone(), fault })
    }
}
