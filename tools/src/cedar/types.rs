//! Types as expressions come to them: the one type of several, and the type of what has none of its own.

use super::error::{Error, Place};
use openrules::sheet::builder::{Field, Type};
use std::collections::BTreeMap;

/// An error: types do not fit.
pub fn mistyped(at: &Place, what: String) -> Error {
    Error::Type { at: at.clone(), what }
}

/// An error: something else stands where a set is wanted.
pub fn wants_set(at: &Place, ty: &Type) -> Error {
    mistyped(at, format!("a set is wanted here, and this is {ty}"))
}

/// An entity of one kind.
pub fn entity(kind: &str) -> Type {
    Type::Entity(vec![kind.into()])
}

/// A set of elements of a type.
pub fn set_of(element: Type) -> Type {
    Type::Set(Box::new(element))
}

/// The type of what has none of its own: an error, and the elements of an empty set. It goes with every type, and no node has it.
pub fn any() -> Type {
    Type::Entity(vec![])
}

/// The type with a type of a sheet wherever any would do.
pub fn settled(ty: &Type) -> Type {
    match ty {
        Type::Entity(kinds) if kinds.is_empty() => Type::Bool,
        Type::Set(element) => set_of(settled(element)),
        Type::Record(fields) => {
            let field = |(name, field): (&String, &Field)| (name.clone(), Field { ty: settled(&field.ty), ..*field });
            Type::Record(fields.iter().map(field).collect())
        }
        ty => ty.clone(),
    }
}

/// An attribute that a record may lack.
pub fn optional(ty: Type) -> Field {
    Field { required: false, ty }
}

/// The type of a record made here that is asked for an attribute of a type: it may lack it.
pub fn with_attribute(mut fields: BTreeMap<String, Field>, name: &str, wanted: &Type) -> Option<Type> {
    let own = fields.remove(name).unwrap_or(optional(any()));
    let Type::Record(mut fields) = settled(&Type::Record(fields)) else { return None };
    fields.insert(name.into(), Field { ty: join(own.ty, wanted.clone())?, ..own });
    Some(Type::Record(fields))
}

/// The kinds of an entity, or of the entities of a set.
pub fn kinds_in(ty: &Type) -> Option<&[String]> {
    match ty {
        Type::Entity(kinds) => Some(kinds),
        Type::Set(element) => match &**element {
            Type::Entity(kinds) => Some(kinds),
            _ => None,
        },
        _ => None,
    }
}

/// The one type of two: the same, a group of entity types, or a record whose attributes are required where both have them so; none if nothing has both.
pub fn join(one: Type, two: Type) -> Option<Type> {
    match (one, two) {
        (one, two) if one == two || two == any() => Some(one),
        (one, two) if one == any() => Some(two),
        (Type::Entity(mut kinds), Type::Entity(more)) => {
            kinds.extend(more);
            kinds.sort();
            kinds.dedup();
            Some(Type::Entity(kinds))
        }
        (Type::Set(one), Type::Set(two)) => Some(set_of(join(*one, *two)?)),
        (Type::Record(one), Type::Record(two)) => join_records(one, two),
        _ => None,
    }
}

fn join_records(mut one: BTreeMap<String, Field>, two: BTreeMap<String, Field>) -> Option<Type> {
    for (name, field) in &mut one {
        field.required &= two.get(name).is_some_and(|other| other.required);
    }
    for (name, field) in two {
        let joined = match one.remove(&name) {
            Some(own) => Field { required: own.required, ty: join(own.ty, field.ty)? },
            None => optional(field.ty),
        };
        one.insert(name, joined);
    }
    Some(Type::Record(one))
}

/// The one type of the elements of a set.
pub fn common(types: Vec<Type>, at: &Place) -> Result<Type, Error> {
    types.into_iter().try_fold(any(), |one, ty| {
        let what = || format!("elements of the types {one} and {ty} in one set");
        join(one.clone(), ty.clone()).ok_or_else(|| mistyped(at, what()))
    })
}
