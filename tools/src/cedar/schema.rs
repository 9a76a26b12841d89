//! Cedar's JSON schema: what each entity type has, and what each action applies to.

use super::error::{Error, Place};
use super::json::{At, Fields};
use openrules::sheet::builder::{Fault, Field, Type, Uid};
use std::collections::{BTreeMap, BTreeSet};

/// The types that a schema may come to when its common types are put in place.
const TYPES: usize = 16384;

/// What the entities of a type have.
#[derive(Debug)]
pub struct EntityType {
    /// Their attributes, a record type.
    pub attributes: Type,
    /// The type of their tags.
    pub tags: Option<Type>,
    /// The types that their ancestors may have, through any number of steps.
    pub above: BTreeSet<String>,
    /// The ids that there are, of an enumerated type.
    ids: Option<Vec<String>>,
}

/// An action.
#[derive(Debug)]
pub struct Action {
    /// The types that a principal may have.
    pub principals: Vec<String>,
    /// The types that a resource may have.
    pub resources: Vec<String>,
    /// The context's record type.
    pub context: Type,
    /// The groups that it is a member of.
    pub parents: Vec<Uid>,
}

/// A schema.
#[derive(Debug, Default)]
pub struct Schema {
    /// The entity types by name.
    pub types: BTreeMap<String, EntityType>,
    /// The actions.
    pub actions: BTreeMap<Uid, Action>,
}

impl Schema {
    /// Whether this is a type of actions.
    pub fn is_action_type(&self, kind: &str) -> bool {
        self.actions.keys().any(|action| action.kind == kind)
    }

    /// The types above a type: what its ancestors may be.
    pub fn above(&self, kind: &str) -> BTreeSet<String> {
        match self.types.get(kind) {
            Some(declared) => declared.above.clone(),
            None => {
                let own = self.actions.keys().filter(|uid| uid.kind == kind);
                own.flat_map(|uid| self.groups_of(uid)).map(|group| group.kind.clone()).collect()
            }
        }
    }

    /// Whether the schema has such an entity.
    pub fn declares(&self, uid: &Uid, at: &Place) -> Result<(), Error> {
        let there = match self.types.get(&uid.kind) {
            Some(declared) => declared.ids.as_ref().is_none_or(|ids| ids.contains(&uid.id)),
            None => self.actions.contains_key(uid),
        };
        match there {
            true => Ok(()),
            false => Err(Error::Undeclared { at: at.clone(), what: format!("the entity {uid}") }),
        }
    }

    /// The groups that an action is in, through any number of steps.
    fn groups_of<'a>(&'a self, action: &Uid) -> BTreeSet<&'a Uid> {
        let parents = |uid: &Uid| self.actions.get(uid).into_iter().flat_map(|action| &action.parents);
        let (mut reached, mut left) = (BTreeSet::new(), parents(action).collect::<Vec<_>>());
        while let Some(one) = left.pop() {
            if reached.insert(one) {
                left.extend(parents(one));
            }
        }
        reached
    }

    /// Whether an action is in a group, or is it.
    pub fn action_in(&self, action: &Uid, group: &Uid) -> bool {
        action == group || self.groups_of(action).contains(group)
    }
}

/// A name as it is written in a namespace.
fn qualified(namespace: &str, name: &str) -> String {
    match namespace.is_empty() || name.contains("::") {
        true => name.into(),
        false => format!("{namespace}::{name}"),
    }
}

/// What is declared, by full names, before the types are put in place.
struct Reader<'a> {
    common: BTreeMap<String, (&'a str, At<'a>)>,
    entities: BTreeMap<String, (&'a str, At<'a>)>,
    actions: Vec<(Uid, &'a str, At<'a>)>,
    action_types: BTreeSet<String>,
    made: usize,
    open: Vec<String>,
    file: Place,
}

/// Reads a schema.
pub fn read(at: &At) -> Result<Schema, Error> {
    let mut reader = Reader {
        common: BTreeMap::new(),
        entities: BTreeMap::new(),
        actions: vec![],
        action_types: BTreeSet::new(),
        made: 0,
        open: vec![],
        file: at.place.clone(),
    };
    for (namespace, part) in at.object()?.all() {
        let mut fields = part.object()?;
        for (name, common) in members(&mut fields, "commonTypes")? {
            reader.common.insert(qualified(namespace, name), (namespace, common));
        }
        for (name, entity) in members(&mut fields, "entityTypes")? {
            reader.entities.insert(qualified(namespace, name), (namespace, entity));
        }
        for (name, action) in members(&mut fields, "actions")? {
            let kind = qualified(namespace, "Action");
            reader.actions.push((Uid::new(&kind, name), namespace, action));
            reader.action_types.insert(kind);
        }
        fields.take("annotations");
        fields.end()?;
    }
    reader.schema()
}

fn members<'a>(fields: &mut Fields<'a>, name: &str) -> Result<Vec<(&'a str, At<'a>)>, Error> {
    fields.take(name).map_or(Ok(vec![]), |members| Ok(members.object()?.all()))
}

impl<'a> Reader<'a> {
    fn schema(mut self) -> Result<Schema, Error> {
        let mut schema = Schema::default();
        let mut direct = BTreeMap::new();
        for (name, (namespace, entity)) in self.entities.clone() {
            let (declared, parents) = self.entity_type(namespace, &entity)?;
            direct.insert(name.clone(), parents);
            schema.types.insert(name, declared);
        }
        for (name, declared) in &mut schema.types {
            declared.above = closure(name, &direct);
        }
        for (uid, namespace, action) in std::mem::take(&mut self.actions) {
            let declared = self.action(namespace, &action)?;
            schema.actions.insert(uid, declared);
        }
        groups(&schema, &self.file)?;
        Ok(schema)
    }

    fn entity_type(&mut self, namespace: &str, at: &At<'a>) -> Result<(EntityType, Vec<String>), Error> {
        let mut fields = at.object()?;
        let attributes = match fields.take("shape") {
            Some(shape) => self.record_type(namespace, &shape)?,
            None => Type::record(),
        };
        let tags = fields.take("tags").map(|tags| self.ty(namespace, &tags, 0)).transpose()?;
        let parents = self.entity_names(namespace, fields.take("memberOfTypes"))?;
        let ids = fields.take("enum").map(|ids| ids.list()?.iter().map(|id| Ok(id.text()?.into())).collect()).transpose()?;
        fields.take("annotations");
        fields.end()?;
        Ok((EntityType { attributes, tags, above: BTreeSet::new(), ids }, parents))
    }

    fn action(&mut self, namespace: &str, at: &At<'a>) -> Result<Action, Error> {
        let mut action = Action { principals: vec![], resources: vec![], context: Type::record(), parents: vec![] };
        if at.is_null() {
            return Ok(action);
        }
        let mut fields = at.object()?;
        if let Some(groups) = fields.known("memberOf") {
            action.parents = groups.list()?.iter().map(|group| group_name(namespace, group)).collect::<Result<_, _>>()?;
        }
        if let Some(applies) = fields.known("appliesTo") {
            let mut applies = applies.object()?;
            action.principals = self.entity_names(namespace, applies.take("principalTypes"))?;
            action.resources = self.entity_names(namespace, applies.take("resourceTypes"))?;
            if let Some(context) = applies.take("context") {
                action.context = self.record_type(namespace, &context)?;
            }
            applies.end()?;
        }
        if let Some(attributes) = fields.known("attributes") {
            // Actions have no attributes on a sheet; an empty object is as if it were not there.
            attributes.object()?.end()?;
        }
        fields.take("annotations");
        fields.end()?;
        Ok(action)
    }

    fn entity_names(&self, namespace: &str, list: Option<At<'a>>) -> Result<Vec<String>, Error> {
        let Some(list) = list else { return Ok(vec![]) };
        list.list()?.iter().map(|name| self.entity_name(namespace, name.text()?, &name.place)).collect()
    }

    /// The full name of an entity type: of the namespace, else of the one without a name.
    fn entity_name(&self, namespace: &str, name: &str, at: &Place) -> Result<String, Error> {
        self.name_among(namespace, name, at, |name| self.entities.contains_key(name))
    }

    /// The type of an entity, which may be an action.
    fn entity_reference(&self, namespace: &str, name: &str, at: &Place) -> Result<Type, Error> {
        let there = |name: &str| self.entities.contains_key(name) || self.action_types.contains(name);
        Ok(Type::Entity(vec![self.name_among(namespace, name, at, there)?]))
    }

    fn name_among(&self, namespace: &str, name: &str, at: &Place, there: impl Fn(&str) -> bool) -> Result<String, Error> {
        let full = qualified(namespace, name);
        let found = [full.as_str(), name].into_iter().find(|name| there(name)).map(str::to_string);
        found.ok_or_else(|| Error::Undeclared { at: at.clone(), what: format!("the entity type {full:?}") })
    }

    fn record_type(&mut self, namespace: &str, at: &At<'a>) -> Result<Type, Error> {
        match self.ty(namespace, at, 0)? {
            record @ Type::Record(_) => Ok(record),
            _ => Err(at.wanted("a record type")),
        }
    }

    fn ty(&mut self, namespace: &str, at: &At<'a>, steps: usize) -> Result<Type, Error> {
        self.ty_of(namespace, at.object()?, steps)
    }

    /// A type, with common types put in place; `steps` counts the types around it.
    fn ty_of(&mut self, namespace: &str, mut fields: Fields<'a>, steps: usize) -> Result<Type, Error> {
        self.made += 1;
        let at = fields.place.clone();
        let room = |fault| Error::Room { at: at.clone(), fault };
        if steps > 256 {
            return Err(room(Fault::Deep));
        }
        if self.made > TYPES {
            return Err(room(Fault::Many { what: "types", most: 128 }));
        }
        fields.take("annotations");
        let word = fields.need("type")?;
        let ty = match word.text()? {
            "Bool" | "Boolean" | "__cedar::Bool" | "__cedar::Boolean" => Type::Bool,
            "Long" | "__cedar::Long" => Type::Long,
            "String" | "__cedar::String" => Type::String,
            "Set" => Type::Set(Box::new(self.ty(namespace, &fields.need("element")?, steps + 1)?)),
            "Record" => self.attributes(namespace, &mut fields, steps)?,
            "Entity" => {
                let name = fields.need("name")?;
                self.entity_reference(namespace, name.text()?, &name.place)?
            }
            "Extension" => return Err(Error::Extension { at, name: fields.need("name")?.text()?.into() }),
            "EntityOrCommon" => self.named(namespace, &fields.need("name")?, steps)?,
            _ => self.named(namespace, &word, steps)?,
        };
        fields.end()?;
        Ok(ty)
    }

    fn attributes(&mut self, namespace: &str, fields: &mut Fields<'a>, steps: usize) -> Result<Type, Error> {
        if let Some(more) = fields.take("additionalAttributes") {
            if more.truth()? {
                return Err(more.wanted("false: a sheet has records with declared attributes alone, so false"));
            }
        }
        let mut record = BTreeMap::new();
        for (name, attribute) in members(fields, "attributes")? {
            let mut fields = attribute.object()?;
            let required = fields.take("required").map_or(Ok(true), |required| required.truth())?;
            let ty = self.ty_of(namespace, fields, steps + 1)?;
            record.insert(name.to_string(), Field { required, ty });
        }
        Ok(Type::Record(record))
    }

    /// A common type, or an entity type, or a primitive one, by name.
    fn named(&mut self, namespace: &str, at: &At<'a>, steps: usize) -> Result<Type, Error> {
        let name = at.text()?;
        let full = qualified(namespace, name);
        if let Some(found) = [&full, name].into_iter().find(|name| self.common.contains_key(*name)) {
            if self.open.iter().any(|open| open == found) {
                return Err(Error::Circle { at: at.place.clone(), what: format!("the common type {found:?}") });
            }
            let (namespace, common) = self.common[found].clone();
            self.open.push(found.into());
            let ty = self.ty(namespace, &common, steps + 1)?;
            self.open.pop();
            return Ok(ty);
        }
        match name {
            "Bool" | "Boolean" | "__cedar::Bool" => Ok(Type::Bool),
            "Long" | "__cedar::Long" => Ok(Type::Long),
            "String" | "__cedar::String" => Ok(Type::String),
            "ipaddr" | "decimal" | "datetime" | "duration" => Err(Error::Extension { at: at.place.clone(), name: name.into() }),
            _ if name.starts_with("__cedar::") => Err(Error::Extension { at: at.place.clone(), name: name.into() }),
            _ => self
                .entity_reference(namespace, name, &at.place)
                .map_err(|_| Error::Undeclared { at: at.place.clone(), what: format!("the type {name:?}") }),
        }
    }
}

/// The name of an action's group.
fn group_name(namespace: &str, at: &At) -> Result<Uid, Error> {
    let mut fields = at.object()?;
    let id = fields.need("id")?.text()?;
    let kind = match fields.known("type") {
        Some(kind) => qualified(namespace, kind.text()?),
        None => qualified(namespace, "Action"),
    };
    fields.end()?;
    Ok(Uid::new(&kind, id))
}

/// All names that are reached from one through the names above.
fn closure(name: &str, direct: &BTreeMap<String, Vec<String>>) -> BTreeSet<String> {
    let (mut reached, mut left) = (BTreeSet::new(), vec![name.to_string()]);
    while let Some(one) = left.pop() {
        for above in direct.get(&one).into_iter().flatten() {
            if reached.insert(above.clone()) {
                left.push(above.clone());
            }
        }
    }
    reached
}

/// The groups of actions are declared, and none contains itself; an action's type is no entity type.
fn groups(schema: &Schema, file: &Place) -> Result<(), Error> {
    for (uid, action) in &schema.actions {
        let at = file.field("actions").field(&uid.id);
        if schema.types.contains_key(&uid.kind) {
            return Err(Error::Type { at, what: format!("{:?} is the type of an action and an entity type", uid.kind) });
        }
        for parent in &action.parents {
            if !schema.actions.contains_key(parent) {
                return Err(Error::Undeclared { at, what: format!("the action {parent}") });
            }
            if schema.action_in(parent, uid) {
                return Err(Error::Circle { at, what: format!("the group {uid}") });
            }
        }
    }
    Ok(())
}
