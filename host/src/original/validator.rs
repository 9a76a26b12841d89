//! The stand-in for the schema and its types, which answers as document 01 says ("Type rules come first ..").

use std::sync::Arc;

use crate::ast::EntityType;

/// What a sheet says of a kind: its letter, its attributes, whether it has tags, and the kinds above it.
#[derive(Debug)]
pub struct KindRow {
    pub is_action: bool,
    pub attributes: Attributes,
    pub has_tags: bool,
    pub above: Vec<u32>,
}

/// The names of a record's attributes, sorted by bytes.
#[derive(Clone, Debug, PartialEq, Eq)]
pub struct Attributes(Arc<Vec<Arc<str>>>);

impl Attributes {
    pub fn of(names: impl Iterator<Item = Arc<str>>) -> Self {
        let mut names: Vec<_> = names.collect();
        names.sort();
        Attributes(Arc::new(names))
    }

    fn declares(&self, name: &str) -> bool {
        self.0.binary_search_by(|other| (**other).cmp(name)).is_ok()
    }
}

#[derive(Debug)]
pub struct ValidatorSchema {
    pub kinds: Vec<KindRow>,
}

impl ValidatorSchema {
    fn kind(&self, kind: &EntityType) -> &KindRow {
        &self.kinds[kind.0 as usize]
    }

    /// "in is false if neither the kinds are equal nor the right is above the left"
    pub fn any_descendent_of(&self, left: &types::Lub, right: &types::Lub) -> bool {
        left.0 == right.0 || self.kind(&left.0).above.contains(&right.0 .0)
    }
}

pub mod types {
    use super::{Attributes, EntityType, ValidatorSchema};
    use std::sync::Arc;

    /// The kinds of an entity type: here always one.
    #[derive(Clone, Debug, PartialEq, Eq)]
    pub struct Lub(pub EntityType);

    impl Lub {
        pub fn contains_entity_type(&self, kind: &EntityType) -> bool {
            self.0 == *kind
        }

        pub fn get_single_entity(&self) -> Option<&EntityType> {
            Some(&self.0)
        }
    }

    /// A type of the sheet. Set and record types keep their row number; the others are found by what they are.
    #[derive(Clone, Debug, PartialEq, Eq)]
    pub enum Type {
        Bool,
        Long,
        String,
        Entity(Lub),
        Set { row: u32, element: Arc<Type> },
        Record { row: u32, attributes: Attributes },
    }

    impl Type {
        pub fn named_entity_reference(kind: EntityType) -> Self {
            Type::Entity(Lub(kind))
        }

        pub fn as_entity_lub(&self) -> Option<&Lub> {
            match self {
                Type::Entity(lub) => Some(lub),
                _ => None,
            }
        }

        /// "in takes an entity and an entity or set of entities"
        pub fn as_set_or_entity_lub(&self) -> Option<&Lub> {
            match self {
                Type::Set { element, .. } => element.as_entity_lub(),
                _ => self.as_entity_lub(),
            }
        }

        /// "eq of two different kinds is false"
        pub fn are_types_disjoint(left: &Type, right: &Type) -> bool {
            match (left, right) {
                (Type::Entity(left), Type::Entity(right)) => left != right,
                _ => false,
            }
        }

        /// Type rules of has and hastag hold for records and `e` kinds, not for action kinds.
        pub fn has_declared_entity_types(schema: &ValidatorSchema, ty: &Type) -> bool {
            match ty {
                Type::Entity(lub) => !schema.kind(&lub.0).is_action,
                _ => true,
            }
        }

        /// "hastag is false for an `e` kind with `-`"
        pub fn may_have_tags(schema: &ValidatorSchema, ty: &Type) -> bool {
            match ty {
                Type::Entity(lub) => schema.kind(&lub.0).has_tags,
                _ => false,
            }
        }

        /// "has .. false if the attribute is undeclared in a record or an `e` kind"
        pub fn may_have_attr(schema: &ValidatorSchema, ty: &Type, name: &str) -> bool {
            match ty {
                Type::Record { attributes, .. } => attributes.declares(name),
                Type::Entity(lub) => schema.kind(&lub.0).attributes.declares(name),
                _ => false,
            }
        }
    }
}
