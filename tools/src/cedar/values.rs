//! Entities' names and values in JSON.

use super::error::Error;
use super::json::{At, Json};
use super::schema::Schema;
use openrules::sheet::builder::{Type, Uid, Value};
use std::collections::BTreeMap;

/// An entity's name: `{"type": .., "id": ..}`, or the same under `__entity`.
pub fn uid(at: &At) -> Result<Uid, Error> {
    let mut fields = at.object()?;
    if let Some(inner) = fields.take("__entity") {
        fields.end()?;
        return uid_fields(&inner);
    }
    uid_fields(at)
}

fn uid_fields(at: &At) -> Result<Uid, Error> {
    let mut fields = at.object()?;
    let (kind, id) = (fields.need("type")?.text()?, fields.need("id")?.text()?);
    fields.end()?;
    Ok(Uid::new(kind, id))
}

/// An entity's name as Cedar's command line has it, `Type::"id"`, too.
pub fn uid_or_text(at: &At) -> Result<Uid, Error> {
    match at.json {
        Json::Text(text) => uid_text(text).ok_or_else(|| at.wanted("an entity, as {\"type\": .., \"id\": ..} or Type::\"id\",")),
        _ => uid(at),
    }
}

/// Reads `Type::"id"`.
fn uid_text(text: &str) -> Option<Uid> {
    let (kind, rest) = text.split_once('"')?;
    let (kind, rest) = (kind.strip_suffix("::")?, rest.strip_suffix('"')?);
    let named =
        kind.split("::").all(|part| !part.is_empty() && part.bytes().all(|byte| byte.is_ascii_alphanumeric() || byte == b'_'));
    if !named {
        return None;
    }
    let (mut id, mut rest) = (String::new(), rest.chars());
    while let Some(one) = rest.next() {
        match one {
            '"' => return None,
            '\\' => id.push(escaped(rest.next()?)?),
            _ => id.push(one),
        }
    }
    Some(Uid::new(kind, &id))
}

/// The escapes whose characters a sheet may hold.
fn escaped(one: char) -> Option<char> {
    matches!(one, '\\' | '"' | '\'').then_some(one)
}

/// A value as policies have it, where `__entity` marks an entity.
pub fn explicit(at: &At) -> Result<Value, Error> {
    match at.json {
        Json::Bool(truth) => Ok(Value::Bool(*truth)),
        Json::Long(number) => Ok(Value::Long(*number)),
        Json::Text(text) => Ok(Value::Text(text.clone())),
        Json::List(_) => Ok(Value::Set(at.list()?.iter().map(explicit).collect::<Result<_, _>>()?)),
        Json::Object(_) if at.has("__entity") => Ok(Value::Entity(uid(at)?)),
        Json::Object(_) => {
            no_extension(at)?;
            let field = |(name, field): (&str, At)| Ok((name.to_string(), explicit(&field)?));
            Ok(Value::Record(at.object()?.all().into_iter().map(field).collect::<Result<_, Error>>()?))
        }
        Json::Null | Json::Number => Err(at.wanted("a value: true, false, a 64-bit whole number, a text, a list or an object")),
    }
}

/// A value of a declared type, where an entity needs no mark.
pub fn of_type(at: &At, ty: &Type, schema: &Schema) -> Result<Value, Error> {
    no_extension(at)?;
    match (ty, at.json) {
        (Type::Bool, Json::Bool(truth)) => Ok(Value::Bool(*truth)),
        (Type::Long, Json::Long(number)) => Ok(Value::Long(*number)),
        (Type::String, Json::Text(text)) => Ok(Value::Text(text.clone())),
        (Type::Entity(kinds), Json::Object(_)) => {
            let uid = uid(at)?;
            schema.declares(&uid, &at.place)?;
            match kinds.contains(&uid.kind) {
                true => Ok(Value::Entity(uid)),
                false => Err(at.wanted(format!("an entity of type {ty}"))),
            }
        }
        (Type::Set(element), Json::List(_)) => {
            Ok(Value::Set(at.list()?.iter().map(|item| of_type(item, element, schema)).collect::<Result<_, _>>()?))
        }
        (Type::Record(_), Json::Object(_)) => Ok(Value::Record(record(at, ty, schema)?)),
        _ => Err(at.wanted(format!("a value of type {ty}"))),
    }
}

/// A record of a declared type.
pub fn record(at: &At, ty: &Type, schema: &Schema) -> Result<BTreeMap<String, Value>, Error> {
    let Type::Record(declared) = ty else {
        return Err(at.wanted(format!("a value of type {ty}")));
    };
    let mut fields = at.object()?;
    let mut record = BTreeMap::new();
    for (name, field) in declared {
        match fields.take(name) {
            Some(value) => {
                record.insert(name.clone(), of_type(&value, &field.ty, schema)?);
            }
            None if field.required => return Err(Error::Lacking { at: at.place.clone(), name: name.clone() }),
            None => (),
        }
    }
    fields.end()?;
    Ok(record)
}

/// Values of extension types stand under `__extn`.
fn no_extension(at: &At) -> Result<(), Error> {
    match at.has("__extn") {
        true => Err(Error::Extension { at: at.place.clone(), name: "__extn".into() }),
        false => Ok(()),
    }
}
