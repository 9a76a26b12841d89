//! The stand-in for the entities of a complete run: "an unlisted entity has no attributes, tags or ancestors".

use std::collections::HashMap;

use crate::ast::{Entity, EntityUID, Expr};

#[derive(Debug, Default)]
pub struct Entities {
    entities: HashMap<EntityUID, Entity>,
}

#[derive(Debug)]
pub enum Dereference<'a, T> {
    NoSuchEntity,
    Residual(Expr),
    Data(&'a T),
}

impl Entities {
    pub fn of(entities: impl Iterator<Item = Entity>) -> Self {
        Entities { entities: entities.map(|entity| (entity.uid().clone(), entity)).collect() }
    }

    pub fn entity(&self, uid: &EntityUID) -> Dereference<'_, Entity> {
        match self.entities.get(uid) {
            Some(entity) => Dereference::Data(entity),
            None => Dereference::NoSuchEntity,
        }
    }
}

/// What the text of `tpe/entities.rs` names of errors.
pub mod err {
    use crate::ast::EntityUID;

    #[derive(Debug)]
    pub struct Duplicate {
        pub euid: EntityUID,
    }
}
