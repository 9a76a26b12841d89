//! Policy sets in Cedar's JSON form: policies, templates and their links.

use super::error::{Error, Place, Room};
use super::expr::{self, Expr, Kind};
use super::json::{At, Fields};
use super::typing::Typing;
use super::values;
use openrules::sheet::builder::{Builder, Fault, Tree, Uid, Value, DEPTH};
use openrules::sheet::{Binary, Effect, Slot, Variable};
use std::collections::hash_map::Entry;
use std::collections::{BTreeMap, HashMap};

/// A policy or template.
#[derive(Debug)]
pub struct Policy {
    place: Place,
    effect: Effect,
    condition: Expr,
}

/// A template with entities in its slots.
#[derive(Debug)]
struct Link {
    place: Place,
    template: String,
    id: String,
    principal: Option<Uid>,
    resource: Option<Uid>,
}

/// A policy set.
#[derive(Debug)]
pub struct Policies {
    policies: Vec<(String, Policy)>,
    templates: BTreeMap<String, Policy>,
    links: Vec<Link>,
}

/// Reads a policy set.
pub fn read(at: &At) -> Result<Policies, Error> {
    let mut fields = at.object()?;
    let mut set = Policies { policies: vec![], templates: BTreeMap::new(), links: vec![] };
    if let Some(policies) = fields.take("staticPolicies") {
        for (id, policy) in policies.object()?.all() {
            set.policies.push((id.into(), read_policy(&policy, &at.place.policy(id))?));
        }
    }
    if let Some(templates) = fields.take("templates") {
        for (id, template) in templates.object()?.all() {
            set.templates.insert(id.into(), read_policy(&template, &at.place.policy(id))?);
        }
    }
    if let Some(links) = fields.take("templateLinks") {
        set.links = links.list()?.iter().map(|link| read_link(link, &at.place)).collect::<Result<_, _>>()?;
    }
    fields.end()?;
    Ok(set)
}

fn read_policy(at: &At, place: &Place) -> Result<Policy, Error> {
    let at = At { json: at.json, place: place.clone() };
    let mut fields = at.object()?;
    let effect = fields.need("effect")?;
    let effect = match effect.text()? {
        "permit" => Effect::Permit,
        "forbid" => Effect::Forbid,
        _ => return Err(effect.wanted("permit or forbid")),
    };
    let mut parts = vec![
        party(&fields.need("principal")?, Variable::Principal)?,
        action(&fields.need("action")?)?,
        party(&fields.need("resource")?, Variable::Resource)?,
    ];
    if let Some(conditions) = fields.take("conditions") {
        let conditions = conditions.list()?;
        if conditions.len() > DEPTH {
            return Err(Fault::Deep).room(place);
        }
        for one in conditions {
            parts.push(Some(condition(&one)?));
        }
    }
    if let Some(annotations) = fields.take("annotations") {
        annotations.object()?;
    }
    fields.end()?;
    let all = parts.into_iter().flatten().reduce(|left, right| Expr::binary(place, Binary::And, left, right));
    let condition = all.unwrap_or_else(|| Expr::new(place, Kind::Lit(Value::Bool(true))));
    Ok(Policy { place: place.clone(), effect, condition })
}

/// `when` and `unless`.
fn condition(at: &At) -> Result<Expr, Error> {
    let mut fields = at.object()?;
    let (kind, body) = (fields.need("kind")?, expr::read(&fields.need("body")?)?);
    fields.end()?;
    match kind.text()? {
        "when" => Ok(body),
        "unless" => Ok(body.negated()),
        _ => Err(kind.wanted("when or unless")),
    }
}

/// What the scope asks of the principal or the resource; none if it asks nothing.
fn party(at: &At, variable: Variable) -> Result<Option<Expr>, Error> {
    let mut fields = at.object()?;
    let op = fields.need("op")?;
    let own = Expr::new(&at.place, Kind::Var(variable));
    let asked = match op.text()? {
        "All" => None,
        "==" => Some(Expr::binary(&at.place, Binary::Eq, own, entity_or_slot(&mut fields)?)),
        "in" => Some(Expr::binary(&at.place, Binary::In, own, entity_or_slot(&mut fields)?)),
        "is" => {
            let kind = fields.need("entity_type")?.text()?.to_string();
            let within = match fields.take("in") {
                Some(within) => {
                    let mut fields = within.object()?;
                    let entity = entity_or_slot(&mut fields)?;
                    fields.end()?;
                    Some(Box::new(entity))
                }
                None => None,
            };
            Some(Expr::new(&at.place, Kind::Is(Box::new(own), kind, within)))
        }
        _ => return Err(op.wanted("All, ==, in or is")),
    };
    fields.end()?;
    Ok(asked)
}

fn entity_or_slot(fields: &mut Fields) -> Result<Expr, Error> {
    if let Some(slot) = fields.take("slot") {
        return Ok(Expr::new(&slot.place, Kind::Slot(expr::slot(&slot)?)));
    }
    let entity = fields.need("entity")?;
    Ok(Expr::new(&entity.place, Kind::Lit(Value::Entity(values::uid(&entity)?))))
}

/// What the scope asks of the action. It stays a part of the condition, though the action is known: the answer shows it.
fn action(at: &At) -> Result<Option<Expr>, Error> {
    let mut fields = at.object()?;
    let op = fields.need("op")?;
    let own = Expr::new(&at.place, Kind::Var(Variable::Action));
    let asked = match (op.text()?, fields.take("entities")) {
        ("All", None) => None,
        ("==", None) => Some(Expr::binary(&at.place, Binary::Eq, own, entity_or_slot(&mut fields)?)),
        ("in", None) => Some(Expr::binary(&at.place, Binary::In, own, entity_or_slot(&mut fields)?)),
        ("in", Some(entities)) => {
            let group = |entity: &At| Ok(Value::Entity(values::uid(entity)?));
            let groups = entities.list()?.iter().map(group).collect::<Result<_, Error>>()?;
            Some(Expr::binary(&at.place, Binary::In, own, Expr::new(&entities.place, Kind::Lit(Value::Set(groups)))))
        }
        _ => return Err(op.wanted("All, == or in")),
    };
    fields.end()?;
    Ok(asked)
}

fn read_link(at: &At, file: &Place) -> Result<Link, Error> {
    let mut fields = at.object()?;
    let template = fields.need("templateId")?.text()?.to_string();
    let id = fields.need("newId")?.text()?.to_string();
    let mut slots = fields.need("values")?.object()?;
    let mut value = |name| slots.take(name).map(|value| values::uid(&value)).transpose();
    let (principal, resource) = (value("?principal")?, value("?resource")?);
    slots.end()?;
    fields.end()?;
    Ok(Link { place: file.policy(&id), template, id, principal, resource })
}

impl Policy {
    /// Writes a tree of the policy, or of a link to it, and gives its root. A text without room is named by its own place.
    fn root(&self, tree: &Tree, at: &Place, builder: &mut Builder) -> Result<usize, Error> {
        builder.tree(tree).map_err(|fault| {
            let of_text = matches!(fault, Fault::LongText { .. } | Fault::Byte { .. });
            let text = self.condition.without_room().filter(|_| of_text);
            Error::Room { at: text.map_or(at, |expr| &expr.place).clone(), fault }
        })
    }
}

impl Policies {
    /// Writes the policies, in the file's order, and then the links.
    pub fn write<'a>(&'a self, typing: &dyn Fn([Option<&'a str>; 2]) -> Typing<'a>, builder: &mut Builder) -> Result<(), Error> {
        for (id, policy) in &self.policies {
            let tree = typing([None; 2]).condition(&policy.condition)?.tree;
            let root = policy.root(&tree, &policy.place, builder)?;
            builder.policy(id, policy.effect, root).room(&policy.place)?;
        }
        // A template is written once for each pair of types in its slots.
        let mut written = HashMap::new();
        for link in &self.links {
            let template = self.template(link)?;
            let slots = [&link.principal, &link.resource].map(|uid| uid.as_ref().map(|uid| uid.kind.as_str()));
            let typing = typing(slots);
            slots_fit(link, template, &typing)?;
            let (root, principal, resource) = match written.entry((link.template.as_str(), slots)) {
                Entry::Occupied(there) => *there.get(),
                Entry::Vacant(new) => {
                    let tree = typing.condition(&template.condition)?.tree;
                    let root = template.root(&tree, &link.place, builder)?;
                    *new.insert((root, tree.has_slot(Slot::Principal), tree.has_slot(Slot::Resource)))
                }
            };
            let number = builder.policy(&link.id, template.effect, root).room(&link.place)?;
            if principal || resource {
                // A slot that was left away with its part of the condition has no value on the sheet.
                let principal = link.principal.as_ref().filter(|_| principal);
                let resource = link.resource.as_ref().filter(|_| resource);
                builder.link(number, principal, resource).room(&link.place)?;
            }
        }
        Ok(())
    }

    fn template(&self, link: &Link) -> Result<&Policy, Error> {
        let lacking = || Error::Slot { at: link.place.clone(), what: format!("there is no template {:?}", link.template) };
        self.templates.get(&link.template).ok_or_else(lacking)
    }
}

/// A link fills the slots that its template has, with entities that the schema declares.
fn slots_fit(link: &Link, template: &Policy, typing: &Typing) -> Result<(), Error> {
    for (slot, name, uid) in [(Slot::Principal, "?principal", &link.principal), (Slot::Resource, "?resource", &link.resource)] {
        let there = template.condition.has_slot(slot);
        if there != uid.is_some() {
            let what = if there { "nothing is linked to the slot" } else { "the template has no slot" };
            return Err(Error::Slot { at: link.place.clone(), what: format!("{what} {name}") });
        }
        if let Some(uid) = uid {
            typing.schema.declares(uid, &link.place)?;
        }
    }
    Ok(())
}
