//! The original text of Cedar's type-aware partial evaluator, and of its evaluator, compiled unchanged.
//!
//! The modules `tpe` and `evaluator` hold that text; `build.rs` says which items. Every other module is a stand-in for
//! something that the text only calls, and answers as document 01 says. A stand-in is kept small: what no run of a sheet
//! can reach is there only so that the text compiles.

/// Whether the original text was there when this was built.
pub const PRESENT: bool = cfg!(original);

/// The folder in which the build looked for it.
pub const SOURCE: &str = env!("OPENRULES_SOURCE_TRIED");

#[cfg(original)]
mod here {
    // The text names these crates; each is this crate under another name.
    pub use crate::parts::{Either, Itertools, NonEmpty, SmolStr};
}
#[cfg(original)]
pub use here::*;
#[cfg(original)]
extern crate self as itertools;
#[cfg(original)]
extern crate self as nonempty;
#[cfg(original)]
extern crate self as smol_str;
#[cfg(original)]
extern crate self as stacker;

/// The stand-in for the crate `stacker`: the remaining stack is not known, and the text then goes on. No tree of a sheet
/// is deeper than 64, so the question does not arise.
#[cfg(original)]
pub fn remaining_stack() -> Option<usize> {
    None
}

#[cfg(original)]
pub mod ast;
#[cfg(original)]
pub mod entities;
#[cfg(original)]
pub mod errors;
#[cfg(original)]
pub mod expr_builder;
#[cfg(original)]
pub mod extensions;
#[cfg(original)]
pub mod parts;
#[cfg(original)]
pub mod rows;
#[cfg(original)]
pub mod tpe;
#[cfg(original)]
pub mod validator;

/// The stand-in for the parser's places: here the place of a value is its row number.
#[cfg(original)]
pub mod parser {
    #[derive(Clone, Debug, PartialEq, Eq, PartialOrd, Ord, Hash)]
    pub struct Loc(pub u32);
}

/// The stand-in for the authorizer's decision.
#[cfg(original)]
pub mod authorizer {
    #[derive(Clone, Copy, Debug, PartialEq, Eq)]
    pub enum Decision {
        Allow,
        Deny,
    }
}

#[cfg(original)]
include!(concat!(env!("OUT_DIR"), "/evaluator_module.rs"));
