//! A request in JSON: `principal`, `action`, `resource` and `context`, or with `principal_type` and `principal_eid`, `resource_type` and `resource_eid`
//! as Cedar's partial requests have them.
//!
//! On a partial sheet, an id that is not there or `null` is unknown, and so is the context.

use super::error::Error;
use super::json::{At, Fields, Json};
use super::schema::Schema;
use super::values;
use openrules::sheet::builder::{Type, Uid, Value};
use openrules::sheet::Mode;

/// A principal or resource: its type, and its id if it is known.
#[derive(Debug)]
pub struct Party {
    /// Its type.
    pub kind: String,
    /// Its id.
    pub id: Option<String>,
}

/// A request.
#[derive(Debug)]
pub struct Request {
    /// Who asks.
    pub principal: Party,
    /// What for.
    pub action: Uid,
    /// On what.
    pub resource: Party,
    /// The context, if it is known.
    pub context: Option<Value>,
}

impl Request {
    /// The context's type.
    pub fn context_type<'a>(&self, schema: &'a Schema) -> &'a Type {
        &schema.actions[&self.action].context
    }
}

/// Reads a request.
pub fn read(at: &At, schema: &Schema, mode: Mode) -> Result<Request, Error> {
    let mut fields = at.object()?;
    let name = fields.need("action")?;
    let action = values::uid_or_text(&name)?;
    let Some(declared) = schema.actions.get(&action) else {
        return Err(Error::Undeclared { at: name.place, what: format!("the action {action}") });
    };
    let principal = party(&mut fields, "principal", &declared.principals, &action, schema, mode)?;
    let resource = party(&mut fields, "resource", &declared.resources, &action, schema, mode)?;
    let context = match (fields.known("context"), mode) {
        (Some(context), _) => Some(Value::Record(values::record(&context, &declared.context, schema)?)),
        (None, Mode::Partial) => None,
        (None, Mode::Complete) => {
            let none = At { json: &Json::Object(vec![]), place: at.place.field("context") };
            Some(Value::Record(values::record(&none, &declared.context, schema)?))
        }
    };
    fields.end()?;
    Ok(Request { principal, action, resource, context })
}

fn party(fields: &mut Fields, name: &str, may: &[String], action: &Uid, schema: &Schema, mode: Mode) -> Result<Party, Error> {
    let at = fields.place.field(name);
    let party = match fields.take(name) {
        Some(party) => whole(&party)?,
        None => {
            let kind = fields.take(&format!("{name}_type"));
            let kind = kind.ok_or_else(|| Error::Lacking { at: fields.place.clone(), name: name.into() })?.text()?.to_string();
            let id = fields.known(&format!("{name}_eid")).map(|id| Ok(id.text()?.to_string())).transpose()?;
            Party { kind, id }
        }
    };
    if !may.contains(&party.kind) {
        let what = format!("by the schema {action} is not for a {name} of type {:?}", party.kind);
        return Err(Error::Type { at, what });
    }
    match &party.id {
        Some(id) => schema.declares(&Uid::new(&party.kind, id), &at)?,
        None if mode == Mode::Complete => return Err(Error::Unknown { at }),
        None => (),
    }
    Ok(party)
}

/// `{"type": .., "id": ..}`, where the id may be unknown, or `Type::"id"`.
fn whole(at: &At) -> Result<Party, Error> {
    if at.has("type") {
        let mut fields = at.object()?;
        let kind = fields.need("type")?.text()?.to_string();
        let id = fields.known("id").map(|id| Ok(id.text()?.to_string())).transpose()?;
        fields.end()?;
        return Ok(Party { kind, id });
    }
    let uid = values::uid_or_text(at)?;
    Ok(Party { kind: uid.kind, id: Some(uid.id) })
}
