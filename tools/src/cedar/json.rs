//! JSON as it stands: objects in the file's order, without repeated keys, and the way to each part.

use super::error::{Error, Place};
use serde::de::{DeserializeSeed, Deserializer, Error as _, MapAccess, SeqAccess, Visitor};
use serde::ser::{Error as _, Serialize, Serializer};
use std::collections::HashSet;
use std::fmt;
use std::marker::PhantomData;

/// A JSON value. Its `Display` is JSON without spaces.
///
/// ```
/// use openrules_tools::cedar::Json;
///
/// let uid = Json::object([("type", "Broker".into()), ("id", "b\"7\"".into())]);
/// assert_eq!(uid.to_string(), r#"{"type":"Broker","id":"b\"7\""}"#);
/// ```
#[derive(Clone, Debug, PartialEq)]
pub enum Json {
    /// `null`.
    Null,
    /// A truth value.
    Bool(bool),
    /// A whole number of 64 bits with a sign.
    Long(i64),
    /// Any other number.
    Number,
    /// A text.
    Text(String),
    /// A list.
    List(Vec<Json>),
    /// An object, in the file's order.
    Object(Vec<(String, Json)>),
}

impl Json {
    /// An object of these fields.
    ///
    /// ```
    /// use openrules_tools::cedar::Json;
    ///
    /// assert_eq!(Json::object([("mfa", Json::Bool(true))]).to_string(), r#"{"mfa":true}"#);
    /// ```
    pub fn object<const N: usize>(fields: [(&str, Json); N]) -> Json {
        Json::Object(fields.into_iter().map(|(name, json)| (name.to_string(), json)).collect())
    }
}

impl From<&str> for Json {
    fn from(text: &str) -> Json {
        Json::Text(text.into())
    }
}

impl Serialize for Json {
    fn serialize<S: Serializer>(&self, serializer: S) -> Result<S::Ok, S::Error> {
        match self {
            Json::Null => serializer.serialize_unit(),
            Json::Bool(truth) => serializer.serialize_bool(*truth),
            Json::Long(number) => serializer.serialize_i64(*number),
            Json::Number => Err(S::Error::custom("a number that is no whole number of 64 bits was not kept")),
            Json::Text(text) => serializer.serialize_str(text),
            Json::List(items) => serializer.collect_seq(items),
            Json::Object(fields) => serializer.collect_map(fields.iter().map(|(name, json)| (name, json))),
        }
    }
}

impl fmt::Display for Json {
    fn fmt(&self, f: &mut fmt::Formatter<'_>) -> fmt::Result {
        f.write_str(&serde_json::to_string(self).map_err(|_| fmt::Error)?)
    }
}

/// The depth that is read: a tree of 64 operations, each two levels of JSON deep, with a value of 64 levels in it, has room.
const DEPTH: usize = 256;

/// Reads any JSON of at most this depth.
#[derive(Clone, Copy)]
struct Any(usize);

impl Any {
    /// What reads the parts of a list or object.
    fn inner<E: serde::de::Error>(self) -> Result<Any, E> {
        match self.0 {
            0 => Err(E::custom(format!("nested deeper than {DEPTH}"))),
            depth => Ok(Any(depth - 1)),
        }
    }
}

impl<'de> DeserializeSeed<'de> for Any {
    type Value = Json;

    fn deserialize<D: Deserializer<'de>>(self, deserializer: D) -> Result<Json, D::Error> {
        deserializer.deserialize_any(self)
    }
}

impl<'de> Visitor<'de> for Any {
    type Value = Json;

    fn expecting(&self, f: &mut fmt::Formatter<'_>) -> fmt::Result {
        f.write_str("JSON")
    }

    fn visit_unit<E>(self) -> Result<Json, E> {
        Ok(Json::Null)
    }

    fn visit_bool<E>(self, truth: bool) -> Result<Json, E> {
        Ok(Json::Bool(truth))
    }

    fn visit_i64<E>(self, number: i64) -> Result<Json, E> {
        Ok(Json::Long(number))
    }

    fn visit_u64<E>(self, number: u64) -> Result<Json, E> {
        Ok(i64::try_from(number).map_or(Json::Number, Json::Long))
    }

    fn visit_f64<E>(self, _: f64) -> Result<Json, E> {
        Ok(Json::Number)
    }

    fn visit_str<E>(self, text: &str) -> Result<Json, E> {
        Ok(Json::Text(text.into()))
    }

    fn visit_seq<A: SeqAccess<'de>>(self, mut items: A) -> Result<Json, A::Error> {
        let (inner, mut list) = (self.inner()?, vec![]);
        while let Some(item) = items.next_element_seed(inner)? {
            list.push(item);
        }
        Ok(Json::List(list))
    }

    fn visit_map<A: MapAccess<'de>>(self, mut fields: A) -> Result<Json, A::Error> {
        let inner = self.inner()?;
        let (mut object, mut seen) = (vec![], HashSet::new());
        while let Some((name, field)) = fields.next_entry_seed(PhantomData::<String>, inner)? {
            if !seen.insert(name.clone()) {
                return Err(A::Error::custom(format!("the key {name:?} is there twice")));
            }
            object.push((name, field));
        }
        Ok(Json::Object(object))
    }
}

/// Reads the bytes of a file.
pub fn read(file: &str, bytes: &[u8]) -> Result<Json, Error> {
    let mut deserializer = serde_json::Deserializer::from_slice(bytes);
    deserializer.disable_recursion_limit();
    let read = Any(DEPTH).deserialize(&mut deserializer).and_then(|json| deserializer.end().map(|()| json));
    read.map_err(|cause| Error::Json { file: file.into(), cause })
}

/// A part of a file, and where it stands.
#[derive(Clone, Debug)]
pub struct At<'a> {
    /// The part.
    pub json: &'a Json,
    /// Its place.
    pub place: Place,
}

impl<'a> At<'a> {
    /// An error: something else is wanted here.
    pub fn wanted(&self, wanted: impl Into<String>) -> Error {
        Error::Wanted { at: self.place.clone(), wanted: wanted.into() }
    }

    /// The text that stands here.
    pub fn text(&self) -> Result<&'a str, Error> {
        match self.json {
            Json::Text(text) => Ok(text),
            _ => Err(self.wanted("a text")),
        }
    }

    /// The truth value that stands here.
    pub fn truth(&self) -> Result<bool, Error> {
        match self.json {
            Json::Bool(truth) => Ok(*truth),
            _ => Err(self.wanted("true or false")),
        }
    }

    /// The items of the list that stands here.
    pub fn list(&self) -> Result<Vec<At<'a>>, Error> {
        match self.json {
            Json::List(items) => {
                Ok(items.iter().enumerate().map(|(number, json)| At { json, place: self.place.item(number) }).collect())
            }
            _ => Err(self.wanted("a list")),
        }
    }

    /// The object that stands here, to take its fields.
    pub fn object(&self) -> Result<Fields<'a>, Error> {
        match self.json {
            Json::Object(fields) => {
                Ok(Fields { place: self.place.clone(), rest: fields.iter().map(|(name, json)| (name.as_str(), json)).collect() })
            }
            _ => Err(self.wanted("an object")),
        }
    }

    /// Whether the object that stands here has this field.
    pub fn has(&self, name: &str) -> bool {
        matches!(self.json, Json::Object(fields) if fields.iter().any(|(field, _)| field == name))
    }

    /// Whether `null` stands here.
    pub fn is_null(&self) -> bool {
        *self.json == Json::Null
    }
}

/// The fields of an object that were not taken yet.
#[derive(Debug)]
pub struct Fields<'a> {
    /// Where the object stands.
    pub place: Place,
    rest: Vec<(&'a str, &'a Json)>,
}

impl<'a> Fields<'a> {
    /// Takes a field that may be there.
    pub fn take(&mut self, name: &str) -> Option<At<'a>> {
        let place = self.rest.iter().position(|(field, _)| *field == name)?;
        let (_, json) = self.rest.remove(place);
        Some(At { json, place: self.place.field(name) })
    }

    /// Takes a field that may be there; `null` is as if it were not.
    pub fn known(&mut self, name: &str) -> Option<At<'a>> {
        self.take(name).filter(|field| !field.is_null())
    }

    /// Takes a field that must be there.
    pub fn need(&mut self, name: &str) -> Result<At<'a>, Error> {
        self.take(name).ok_or_else(|| Error::Lacking { at: self.place.clone(), name: name.into() })
    }

    /// Takes all fields, by name.
    pub fn all(self) -> Vec<(&'a str, At<'a>)> {
        let place = self.place;
        self.rest.into_iter().map(|(name, json)| (name, At { json, place: place.field(name) })).collect()
    }

    /// No field may be left.
    pub fn end(self) -> Result<(), Error> {
        match self.rest.first() {
            Some((name, _)) => Err(Error::Field { at: self.place, name: (*name).into() }),
            None => Ok(()),
        }
    }
}
