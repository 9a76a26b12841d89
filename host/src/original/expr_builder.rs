//! The stand-in for the trait by which the text builds expressions.

use std::convert::Infallible;

use crate::ast::{BinaryOp, EntityType, Expr, Name, Pattern, UnaryOp, Var};
use crate::{NonEmpty, SmolStr};

pub trait ExprBuilder: Sized {
    type Data;
    fn with_data(data: Self::Data) -> Self;

    fn var(self, v: Var) -> Expr {
        Expr::var(v)
    }
    fn and(self, left: Expr, right: Expr) -> Expr {
        Expr::and(left, right)
    }
    fn or(self, left: Expr, right: Expr) -> Expr {
        Expr::or(left, right)
    }
    fn ite(self, test: Expr, then: Expr, other: Expr) -> Expr {
        Expr::ite_arc(test.into(), then.into(), other.into())
    }
    fn unary_app(self, op: UnaryOp, arg: Expr) -> Expr {
        Expr::unary_app(op, arg)
    }
    fn binary_app(self, op: BinaryOp, arg1: Expr, arg2: Expr) -> Expr {
        Expr::binary_app(op, arg1, arg2)
    }
    fn call_extension_fn(self, name: Name, args: impl Iterator<Item = Expr>) -> Result<Expr, Infallible> {
        Ok(Expr::call_extension_fn(name, args.collect()))
    }
    fn get_attr(self, expr: Expr, attr: SmolStr) -> Expr {
        Expr::get_attr(expr, attr)
    }
    fn has_attr(self, expr: Expr, attr: SmolStr) -> Expr {
        Expr::has_attr(expr, attr)
    }
    fn extended_has_attr(self, expr: Expr, attrs: NonEmpty<SmolStr>) -> Expr {
        Expr::extended_has_attr(expr, attrs)
    }
    fn is_entity_type(self, expr: Expr, entity_type: EntityType) -> Expr {
        Expr::is_entity_type(expr, entity_type)
    }
    fn like(self, expr: Expr, pattern: Pattern) -> Expr {
        Expr::like(expr, pattern)
    }
    fn set(self, items: impl Iterator<Item = Expr>) -> Expr {
        Expr::set(items)
    }
    fn record(self, items: impl Iterator<Item = (SmolStr, Expr)>) -> Result<Expr, Infallible> {
        Expr::record(items)
    }
}
