//! The stand-in for the errors of an evaluation. A sheet's answer says of an error only that it is one.

use std::sync::Arc;

use crate::ast::{EntityUID, Expr, Type, Value};
use crate::parser::Loc;
use crate::{NonEmpty, SmolStr};

pub type Result<T> = std::result::Result<T, EvaluationError>;

#[derive(Clone, Debug)]
pub enum EvaluationError {
    TypeError(evaluation_errors::TypeError),
    Overflow,
    Other,
}

pub mod evaluation_errors {
    use crate::ast::{BinaryOp, UnaryOp, Value};
    use crate::parser::Loc;

    #[derive(Clone, Debug)]
    pub struct TypeError {
        pub advice: Option<String>,
    }

    #[derive(Clone, Debug)]
    pub enum IntegerOverflowError {
        UnaryOp(UnaryOpOverflowError),
        BinaryOp(BinaryOpOverflowError),
    }

    #[derive(Clone, Debug)]
    pub struct UnaryOpOverflowError {
        pub op: UnaryOp,
        pub arg: Value,
        pub source_loc: Option<Loc>,
    }

    #[derive(Clone, Debug)]
    pub struct BinaryOpOverflowError {
        pub op: BinaryOp,
        pub arg1: Value,
        pub arg2: Value,
        pub source_loc: Option<Loc>,
    }
}

impl From<evaluation_errors::IntegerOverflowError> for EvaluationError {
    fn from(_: evaluation_errors::IntegerOverflowError) -> Self {
        EvaluationError::Overflow
    }
}

impl EvaluationError {
    fn wrong_type() -> Self {
        EvaluationError::TypeError(evaluation_errors::TypeError { advice: None })
    }

    pub fn type_error_single(_: Type, _: &Value) -> Self {
        Self::wrong_type()
    }

    pub fn type_error(_: NonEmpty<Type>, _: &Value) -> Self {
        Self::wrong_type()
    }

    pub fn type_error_with_advice(_: NonEmpty<Type>, _: &Value, _: String) -> Self {
        Self::wrong_type()
    }

    pub fn non_value(_: Expr) -> Self {
        EvaluationError::Other
    }

    pub fn recursion_limit(_: Option<Loc>) -> Self {
        EvaluationError::Other
    }

    pub fn unlinked_slot(_: crate::ast::SlotId, _: Option<Loc>) -> Self {
        EvaluationError::Other
    }

    pub fn entity_does_not_exist(_: Arc<EntityUID>, _: Option<Loc>) -> Self {
        EvaluationError::Other
    }

    pub fn entity_tag_does_not_exist<'a>(
        _: Arc<EntityUID>,
        _: SmolStr,
        _: impl Iterator<Item = &'a SmolStr>,
        _: bool,
        _: usize,
        _: Option<Loc>,
    ) -> Self {
        EvaluationError::Other
    }

    pub fn entity_attr_does_not_exist<'a>(
        _: Arc<EntityUID>,
        _: SmolStr,
        _: impl Iterator<Item = &'a SmolStr>,
        _: bool,
        _: usize,
        _: Option<Loc>,
    ) -> Self {
        EvaluationError::Other
    }

    pub fn record_attr_does_not_exist<'a>(_: SmolStr, _: impl Iterator<Item = &'a SmolStr>, _: usize, _: Option<Loc>) -> Self {
        EvaluationError::Other
    }

    pub fn source_loc(&self) -> Option<&Loc> {
        None
    }

    pub fn with_maybe_source_loc(self, _: Option<Loc>) -> Self {
        self
    }
}
