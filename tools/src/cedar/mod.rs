//! Sheets from Cedar's JSON formats: schema, policy set, entities and request.
//!
//! [`sheet`] makes a sheet, and [`mod@print`] is the way back.
//!
//! The sheet has what the policies and the request come to: the entity types that some expression can reach, with their attributes, and the entities of
//! these types. Scope constraints are the first parts of a policy's condition. Nothing here decides: the library runs the sheet.

mod entities;
pub mod error;
mod expr;
mod json;
mod policies;
pub mod print;
mod request;
mod schema;
mod types;
mod typing;
mod values;

pub use json::Json;

use entities::Entity;
use error::{Error, Place, Room};
use json::At;
use openrules::sheet::builder::Builder;
use openrules::sheet::{Day, Mode, Sheet};
use policies::Policies;
use request::Request;
use schema::Schema;
use std::cell::Cell;
use typing::Typing;

/// A file: its name, for errors, and its bytes.
///
/// ```
/// let file = openrules_tools::cedar::File { name: "entities.json", bytes: b"[]" };
/// assert_eq!(file.name, "entities.json");
/// ```
#[derive(Clone, Copy, Debug)]
pub struct File<'a> {
    /// Its name.
    pub name: &'a str,
    /// Its bytes.
    pub bytes: &'a [u8],
}

/// The four files. [`sheet`] has an example.
#[derive(Clone, Copy, Debug)]
pub struct Files<'a> {
    /// The schema.
    pub schema: File<'a>,
    /// The policy set.
    pub policies: File<'a>,
    /// The entities.
    pub entities: File<'a>,
    /// The request.
    pub request: File<'a>,
}

/// What is asked for beside the files. [`sheet`] has an example.
#[derive(Clone, Copy, Debug)]
pub struct Options<'a> {
    /// Whether parts may be unknown.
    pub mode: Mode,
    /// The day of the request.
    pub day: Day,
    /// Whether parts of conditions that never run for the request's types are left away even where they have a type.
    pub short: bool,
    /// A sheet whose numbers this one goes on from: so a complete sheet agrees with the partial one before it.
    pub after: Option<&'a Sheet>,
}

/// Makes a sheet.
///
/// ```
/// use openrules::sheet::{Day, Mode};
/// use openrules_tools::cedar::{sheet, File, Files, Options};
///
/// let file = |name, text: &'static str| File { name, bytes: text.as_bytes() };
/// let files = Files {
///     schema: file("schema.json", r#"{"": {
///         "entityTypes": {"Broker": {}, "Tariff": {}},
///         "actions": {"quote": {"appliesTo": {"principalTypes": ["Broker"], "resourceTypes": ["Tariff"]}}}}}"#),
///     policies: file("policies.json", r#"{"staticPolicies": {"low": {"effect": "permit",
///         "principal": {"op": "==", "entity": {"type": "Broker", "id": "b7"}}, "action": {"op": "All"}, "resource": {"op": "All"}}}}"#),
///     entities: file("entities.json", "[]"),
///     request: file("request.json", r#"{"principal": {"type": "Broker"}, "action": "Action::\"quote\"", "resource": "Tariff::\"T1\""}"#),
/// };
/// let day = Day { year: 2026, month: 6, day: 30 };
/// let sheet = sheet(&files, &Options { mode: Mode::Partial, day, short: false, after: None }).unwrap();
/// let answer = openrules::Evaluator::new().answer(sheet.to_string().as_bytes()).unwrap();
/// assert_eq!(answer.policies[0].to_string(), "low: permit, open\n    principal == Broker::\"b7\"");
/// ```
pub fn sheet(files: &Files, options: &Options) -> Result<Sheet, Error> {
    read(files, options.mode)?.write(files, options)
}

/// What the four files have.
struct Parts {
    schema: Schema,
    request: Request,
    policies: Policies,
    entities: Vec<Entity>,
}

fn read(files: &Files, mode: Mode) -> Result<Parts, Error> {
    let json = |file: File| json::read(file.name, file.bytes);
    let at = |json, file: File| At { json, place: Place::file(file.name) };
    let (schema, policies) = (json(files.schema)?, json(files.policies)?);
    let (entities, request) = (json(files.entities)?, json(files.request)?);
    let schema = schema::read(&at(&schema, files.schema))?;
    Ok(Parts {
        request: request::read(&at(&request, files.request), &schema, mode)?,
        policies: policies::read(&at(&policies, files.policies))?,
        entities: entities::read(&at(&entities, files.entities), &schema, mode)?,
        schema,
    })
}

impl Parts {
    fn write(self, files: &Files, options: &Options) -> Result<Sheet, Error> {
        let (place, schema_place) = (Place::file(files.request.name), Place::file(files.schema.name));
        let mut builder = match options.after {
            Some(before) => Builder::after(options.mode, before).room(&place)?,
            None => Builder::new(options.mode),
        };
        // What does not hang on the known parts comes first: so the sheets of one question have the same kinds, types and nodes.
        self.conditions(&place, options.short, &mut builder)?;
        declare(&self.schema, &schema_place, &mut builder)?;
        let Request { principal, action, resource, context } = &self.request;
        let (who, what) = ((&*principal.kind, principal.id.as_deref()), (&*resource.kind, resource.id.as_deref()));
        builder.request(who, (&action.kind, &action.id), what).room(&place)?;
        builder.context(self.request.context_type(&self.schema), context.as_ref()).room(&place)?;
        builder.day(options.day);
        entities::write(self.entities, &mut builder)?;
        entities::write_actions(&self.schema, action, &schema_place, &mut builder)?;
        builder.finish().room(&Place::file("the sheet"))
    }

    /// Writes the policies, after the kinds and the type that the request brings.
    fn conditions(&self, place: &Place, short: bool, builder: &mut Builder) -> Result<(), Error> {
        let Request { principal, action, resource, .. } = &self.request;
        let context = self.request.context_type(&self.schema);
        for kind in [&principal.kind, &action.kind, &resource.kind] {
            builder.kind(kind).room(place)?;
        }
        builder.ty(context).room(place)?;
        let typing = |slots| Typing {
            schema: &self.schema,
            principal: &principal.kind,
            action,
            resource: &resource.kind,
            context,
            slots,
            short,
            steps: Cell::new(0),
        };
        self.policies.write(&typing, builder)
    }
}

/// Declares the kinds that are used so far, and those that they bring with them.
fn declare(schema: &Schema, file: &Place, builder: &mut Builder) -> Result<(), Error> {
    while let Some(kind) = builder.undeclared().map(str::to_string) {
        let at = file.field("entityTypes").field(&kind);
        let above: Vec<String> = schema.above(&kind).into_iter().collect();
        match schema.types.get(&kind) {
            Some(declared) => builder.entity_kind(&kind, &declared.attributes, declared.tags.as_ref(), &above).room(&at)?,
            None if schema.is_action_type(&kind) => builder.action_kind(&kind, &above).room(&at)?,
            None => return Err(Error::Undeclared { at, what: format!("the entity type {kind:?}") }),
        }
    }
    Ok(())
}
