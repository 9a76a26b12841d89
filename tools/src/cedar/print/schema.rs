//! The kinds and actions of a sheet as a schema.

use super::{Error, Printer};
use crate::cedar::json::Json;
use openrules::sheet::{Attribute, Binary, Entity, Mode, Operation, Type, Value};
use std::collections::{BTreeMap, BTreeSet};

/// An entity: the numbers of its kind and of its text.
type Named = (usize, usize);

/// The namespace and the rest of a name.
fn split(name: &str) -> (&str, &str) {
    name.rsplit_once("::").unwrap_or(("", name))
}

/// The members of a namespace while they are gathered.
#[derive(Default)]
struct Namespace {
    entity_types: Vec<(String, Json)>,
    actions: Vec<(String, Json)>,
}

impl Printer<'_> {
    /// The schema.
    pub(super) fn schema(&self) -> Result<Json, Error> {
        self.names()?;
        let mut spaces: BTreeMap<&str, Namespace> = BTreeMap::new();
        for (number, kind) in self.sheet.kinds.iter().enumerate().filter(|(_, kind)| !kind.action) {
            let (space, name) = split(self.text(kind.name)?);
            spaces.entry(space).or_default().entity_types.push((name.into(), self.entity_type(number)?));
        }
        for (action, groups) in self.actions()? {
            let (space, _) = split(self.kind(action.0)?);
            spaces.entry(space).or_default().actions.push((self.text(action.1)?.into(), self.action(action, &groups)?));
        }
        let space = |(name, space): (&str, Namespace)| {
            let parts = [("entityTypes", Json::Object(space.entity_types)), ("actions", Json::Object(space.actions))];
            (name.to_string(), Json::object(parts))
        };
        Ok(Json::Object(spaces.into_iter().map(space).collect()))
    }

    /// Names are Cedar's, those of actions end in `Action`, and none in a namespace hides one without.
    fn names(&self) -> Result<(), Error> {
        let names = (0..self.sheet.kinds.len()).map(|kind| self.kind(kind)).collect::<Result<Vec<_>, _>>()?;
        for (name, kind) in names.iter().zip(&self.sheet.kinds) {
            let (space, own) = split(name);
            if (own == "Action") != kind.action || !space.is_empty() && names.contains(&own) {
                return Err(Error::Name { kind: name.to_string() });
            }
        }
        Ok(())
    }

    fn entity_type(&self, kind: usize) -> Result<Json, Error> {
        let shape = self.sheet.shapes.get(kind).ok_or(Error::Reference)?;
        let unlike = || Error::Above { kind: self.kind(kind).unwrap_or_default().into() };
        for above in &shape.above {
            let further = self.sheet.shapes.get(*above).ok_or(Error::Reference)?;
            let known = further.above.iter().all(|one| shape.above.contains(one));
            if self.kind_row(*above)?.action || !known {
                return Err(unlike());
            }
        }
        let above = shape.above.iter().map(|above| Ok(self.kind(*above)?.into())).collect::<Result<_, Error>>()?;
        let mut fields = vec![("memberOfTypes".into(), Json::List(above)), ("shape".into(), self.ty(shape.attributes)?)];
        if let Some(tags) = shape.tags {
            fields.push(("tags".into(), self.ty(tags)?));
        }
        Ok(Json::Object(fields))
    }

    /// A type, by parts.
    fn ty(&self, number: usize) -> Result<Json, Error> {
        Ok(Json::Object(self.ty_fields(number)?))
    }

    fn ty_fields(&self, number: usize) -> Result<Vec<(String, Json)>, Error> {
        self.part()?;
        let (word, more) = match self.sheet.types.get(number).ok_or(Error::Reference)? {
            Type::Bool => ("Boolean", None),
            Type::Long => ("Long", None),
            Type::String => ("String", None),
            Type::Entity(kinds) => match kinds[..] {
                [kind] => ("Entity", Some(("name", self.kind(kind)?.into()))),
                _ => return Err(Error::Group),
            },
            Type::Set(element) => ("Set", Some(("element", self.ty(*element)?))),
            Type::Record(attributes) => {
                let attributes = attributes.iter().map(|one| self.attribute(one)).collect::<Result<_, _>>()?;
                ("Record", Some(("attributes", Json::Object(attributes))))
            }
        };
        let mut fields = vec![("type".to_string(), word.into())];
        fields.extend(more.map(|(name, part): (&str, Json)| (name.to_string(), part)));
        Ok(fields)
    }

    fn attribute(&self, attribute: &Attribute) -> Result<(String, Json), Error> {
        let mut fields = self.ty_fields(attribute.ty)?;
        if !attribute.required {
            fields.push(("required".into(), Json::Bool(false)));
        }
        Ok((self.text(attribute.text)?.into(), Json::Object(fields)))
    }

    /// Whether a type is that of an action.
    fn is_action_type(&self, ty: usize) -> bool {
        let action = |kind: &usize| self.sheet.kinds.get(*kind).is_some_and(|kind| kind.action);
        matches!(self.sheet.types.get(ty), Some(Type::Entity(kinds)) if kinds.iter().any(action))
    }

    /// Whether a policy asks an action for more than what it is called.
    fn asks_of_actions(&self) -> bool {
        let parts = |ty: &Type| match ty {
            Type::Record(attributes) => attributes.iter().any(|one| self.is_action_type(one.ty)),
            _ => false,
        };
        let hidden = self.sheet.types.iter().any(parts);
        let of_action = |node: &usize| self.nodes.get(*node).is_some_and(|node| self.is_action_type(node.ty));
        self.nodes.iter().any(|node| match &node.operation {
            Operation::Binary(Binary::In | Binary::GetTag | Binary::HasTag, child, _) => of_action(child),
            Operation::Get(child, _) | Operation::Has(child, _) => of_action(child),
            Operation::HasPath(child, path) => of_action(child) || hidden && path.len() > 1,
            _ => false,
        })
    }

    /// Every action that the sheet mentions, with its groups; where no policy asks for them, without.
    fn actions(&self) -> Result<BTreeMap<Named, Vec<Named>>, Error> {
        let mut all = BTreeSet::new();
        all.insert((self.sheet.action.kind, self.sheet.action.text.ok_or(Error::Reference)?));
        for value in &self.sheet.values {
            if let Value::Entity { kind, text } = value {
                if self.kind_row(*kind)?.action {
                    all.insert((*kind, *text));
                }
            }
        }
        let asked = self.asks_of_actions();
        let groups = |action| if asked { self.groups(action) } else { Ok(vec![]) };
        let groups: BTreeMap<Named, Vec<Named>> =
            all.into_iter().map(|action| Ok((action, groups(action)?))).collect::<Result<_, Error>>()?;
        self.hierarchy(&groups, asked)?;
        Ok(groups)
    }

    /// The groups of an action, which are actions; on a partial sheet all of it must be known.
    fn groups(&self, action: Named) -> Result<Vec<Named>, Error> {
        let strange = || Error::Action { action: self.display(action) };
        let own = |row: &&Entity| self.entity(row.entity) == Ok(action);
        let parents = match self.sheet.entities.iter().find(own) {
            Some(Entity { attributes: Some(_), tags: Some(_), parents: Some(parents), .. }) => self.entities(*parents)?,
            None if self.sheet.mode == Mode::Complete => vec![],
            _ => return Err(strange()),
        };
        let (space, _) = split(self.kind(action.0)?);
        for (kind, _) in &parents {
            // A schema names groups without a namespace from there alone.
            let hidden = !space.is_empty() && split(self.kind(*kind)?).0.is_empty();
            if hidden || !self.kind_row(*kind)?.action {
                return Err(strange());
            }
        }
        Ok(parents)
    }

    /// No action is in itself, and a kind of actions has one at least; the kinds above it are those of the groups of its actions.
    fn hierarchy(&self, groups: &BTreeMap<Named, Vec<Named>>, asked: bool) -> Result<(), Error> {
        let mut above = vec![BTreeSet::new(); self.sheet.kinds.len()];
        for action in groups.keys() {
            let reached = reached(*action, groups);
            if reached.contains(action) {
                return Err(Error::Action { action: self.display(*action) });
            }
            above[action.0].extend(reached.into_iter().map(|(kind, _)| kind));
        }
        for (kind, row) in self.sheet.kinds.iter().enumerate().filter(|(_, row)| row.action) {
            if !groups.keys().any(|action| action.0 == kind) {
                return Err(Error::Empty { kind: self.text(row.name)?.into() });
            }
            let declared = &self.sheet.shapes.get(kind).ok_or(Error::Reference)?.above;
            if asked && !above[kind].iter().eq(declared) {
                return Err(Error::Above { kind: self.text(row.name)?.into() });
            }
        }
        Ok(())
    }

    fn action(&self, action: Named, groups: &[Named]) -> Result<Json, Error> {
        let groups = groups.iter().map(|(kind, text)| self.uid(*kind, *text)).collect::<Result<_, _>>()?;
        let mut fields = vec![("memberOf".to_string(), Json::List(groups))];
        if (action.0, Some(action.1)) == (self.sheet.action.kind, self.sheet.action.text) {
            let kind = |kind: usize| Ok::<_, Error>(Json::List(vec![self.kind(kind)?.into()]));
            let applies = [
                ("principalTypes", kind(self.sheet.principal.kind)?),
                ("resourceTypes", kind(self.sheet.resource.kind)?),
                ("context", self.ty(self.sheet.context.ty)?),
            ];
            fields.push(("appliesTo".into(), Json::object(applies)));
        }
        Ok(Json::Object(fields))
    }

    fn display(&self, (kind, text): Named) -> String {
        format!("{}::{:?}", self.kind(kind).unwrap_or_default(), self.text(text).unwrap_or_default())
    }
}

/// All that an action is in, through any number of steps.
fn reached(action: Named, groups: &BTreeMap<Named, Vec<Named>>) -> BTreeSet<Named> {
    let parents = |one: Named| groups.get(&one).into_iter().flatten().copied();
    let (mut reached, mut left) = (BTreeSet::new(), parents(action).collect::<Vec<_>>());
    while let Some(one) = left.pop() {
        if reached.insert(one) {
            left.extend(parents(one));
        }
    }
    reached
}
