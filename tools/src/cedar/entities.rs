//! Entities in Cedar's JSON form. On a partial sheet, attributes, tags and parents that are not there or `null` are unknown.

use super::error::{Error, Place, Room};
use super::json::{At, Fields};
use super::schema::{EntityType, Schema};
use super::values;
use openrules::sheet::builder::{Builder, Uid, Value};
use openrules::sheet::Mode;
use std::collections::{BTreeMap, BTreeSet};

/// What is known of an entity.
#[derive(Debug)]
pub struct Entity {
    place: Place,
    uid: Uid,
    attributes: Option<BTreeMap<String, Value>>,
    tags: Option<BTreeMap<String, Value>>,
    parents: Option<Vec<Uid>>,
}

/// Reads a list of entities.
pub fn read(at: &At, schema: &Schema, mode: Mode) -> Result<Vec<Entity>, Error> {
    let mut seen = BTreeSet::new();
    let mut entities = vec![];
    for one in at.list()? {
        let entity = read_entity(&one, schema, mode)?;
        if !seen.insert(entity.uid.clone()) {
            return Err(Error::Type { at: entity.place, what: format!("the entity {} is there twice", entity.uid) });
        }
        entities.push(entity);
    }
    Ok(entities)
}

fn read_entity(at: &At, schema: &Schema, mode: Mode) -> Result<Entity, Error> {
    let mut fields = at.object()?;
    let name = fields.need("uid")?;
    let uid = values::uid_or_text(&name)?;
    schema.declares(&uid, &name.place)?;
    let Some(declared) = schema.types.get(&uid.kind) else {
        let what = format!("{uid} is an action: actions and their groups stand in the schema alone");
        return Err(Error::Type { at: name.place, what });
    };
    let attributes =
        part(&mut fields, "attrs", mode)?.map(|attrs| values::record(&attrs, &declared.attributes, schema)).transpose()?;
    let parents =
        part(&mut fields, "parents", mode)?.map(|parents| read_parents(&parents, &uid, declared, schema)).transpose()?;
    let tags = match (fields.known("tags"), mode) {
        (Some(tags), _) => Some(read_tags(&tags, &uid, declared, schema)?),
        (None, Mode::Complete) => Some(BTreeMap::new()),
        (None, Mode::Partial) => None,
    };
    fields.end()?;
    Ok(Entity { place: at.place.clone(), uid, attributes, tags, parents })
}

/// A part that a complete sheet must have.
fn part<'a>(fields: &mut Fields<'a>, name: &str, mode: Mode) -> Result<Option<At<'a>>, Error> {
    match (fields.take(name).filter(|part| !part.is_null()), mode) {
        (None, Mode::Complete) => Err(Error::Unknown { at: fields.place.field(name) }),
        (part, _) => Ok(part),
    }
}

fn read_parents(at: &At, uid: &Uid, declared: &EntityType, schema: &Schema) -> Result<Vec<Uid>, Error> {
    let mut parents = vec![];
    for one in at.list()? {
        let parent = values::uid_or_text(&one)?;
        schema.declares(&parent, &one.place)?;
        if !declared.above.contains(&parent.kind) {
            let what = format!("by the schema {} has no parents of type {}", uid.kind, parent.kind);
            return Err(Error::Type { at: one.place, what });
        }
        parents.push(parent);
    }
    Ok(parents)
}

fn read_tags(at: &At, uid: &Uid, declared: &EntityType, schema: &Schema) -> Result<BTreeMap<String, Value>, Error> {
    let mut tags = BTreeMap::new();
    for (name, tag) in at.object()?.all() {
        let Some(ty) = &declared.tags else {
            return Err(Error::Undeclared { at: tag.place, what: format!("tags of {}", uid.kind) });
        };
        tags.insert(name.to_string(), values::of_type(&tag, ty, schema)?);
    }
    Ok(tags)
}

/// Writes the entities of the kinds that the sheet has: no policy can come to those of another kind.
pub fn write(entities: Vec<Entity>, builder: &mut Builder) -> Result<(), Error> {
    for entity in entities {
        if builder.has_kind(&entity.uid.kind) {
            builder.entity(&entity.uid, entity.attributes, entity.tags, entity.parents).room(&entity.place)?;
        }
    }
    Ok(())
}

/// Writes the actions that the sheet mentions, with the groups that the schema gives them.
pub fn write_actions(schema: &Schema, request: &Uid, file: &Place, builder: &mut Builder) -> Result<(), Error> {
    let mut left = vec![request.clone()];
    left.extend(builder.mentioned());
    while let Some(uid) = left.pop() {
        let Some(action) = schema.actions.get(&uid) else { continue };
        let at = file.field("actions").field(&uid.id);
        if !builder.lists(&uid).room(&at)? {
            builder.entity(&uid, Some(BTreeMap::new()), Some(BTreeMap::new()), Some(action.parents.clone())).room(&at)?;
            left.extend(action.parents.iter().cloned());
        }
    }
    Ok(())
}
