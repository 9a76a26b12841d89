//! The stand-in for extension functions: there are none. Looking one up fails, so a call of one is an error; the original
//! turns an error residual into such a call.

use std::marker::PhantomData;

use crate::ast::{Name, PartialValue, Value};
use crate::errors::{EvaluationError, Result};

#[derive(Debug, Default)]
pub struct Extensions<'a>(PhantomData<&'a ()>);

/// No value of this type exists.
pub enum ExtensionFunction {}

impl ExtensionFunction {
    pub fn call(&self, _: &[Value]) -> Result<PartialValue> {
        match *self {}
    }
}

impl Extensions<'_> {
    pub fn func(&self, _: &Name) -> Result<&ExtensionFunction> {
        Err(EvaluationError::Other)
    }

    pub fn types_with_operator_overloading(&self) -> impl Iterator<Item = &Name> {
        std::iter::empty()
    }
}
