//! What may go wrong where an answer is asked for as data.

use std::fmt;

use crate::sheet::Fault;
use crate::Refusal;

/// Why there is no [`Answer`](crate::Answer).
///
/// ```
/// use openrules::{Error, Evaluator};
///
/// let error = Evaluator::new().answer(b"sheet=partial\ntext=Broker\ntext=Broker\n").unwrap_err();
/// assert!(matches!(error, Error::Refused(refusal) if refusal.number == 5 && refusal.line == 3));
/// ```
#[derive(Clone, Copy, Debug, PartialEq, Eq)]
#[non_exhaustive]
pub enum Error {
    /// The library refused what it was given.
    Refused(Refusal),
    /// A text is no sheet or no answer. It is not met where the library accepted the sheet that is read here.
    Unread(Fault),
}

/// A result whose error is mostly an [`Error`].
///
/// ```
/// fn decision(sheet: &[u8]) -> openrules::Result<openrules::Decision> {
///     Ok(openrules::Evaluator::new().answer(sheet)?.decision)
/// }
/// assert!(decision(b"").is_err());
/// ```
pub type Result<T, E = Error> = std::result::Result<T, E>;

impl fmt::Display for Error {
    fn fmt(&self, f: &mut fmt::Formatter<'_>) -> fmt::Result {
        match self {
            Error::Refused(refusal) => write!(f, "{refusal}: {}", refusal.meaning()),
            Error::Unread(fault) => write!(f, "{fault}"),
        }
    }
}

impl std::error::Error for Error {}

impl From<Refusal> for Error {
    fn from(refusal: Refusal) -> Error {
        Error::Refused(refusal)
    }
}

impl From<Fault> for Error {
    fn from(fault: Fault) -> Error {
        Error::Unread(fault)
    }
}
