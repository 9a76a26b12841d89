//! The partial evaluator. `evaluator` is the original file itself, in place; of the other files the items that `build.rs`
//! names, unchanged. What stands in this file and beside the `include!` lines below is not the original's: constructors
//! without the validation that is left out, and one call.

include!(concat!(env!("OUT_DIR"), "/tpe_modules.rs"));

/// The original's tree and error analysis.
#[allow(warnings)]
pub mod residual {
    use crate::ast::{
        self, BinaryOp, EntityType, Expr, Literal, Name, Pattern, UnaryOp, UnwrapInfallible, Value, ValueKind, Var,
    };
    use crate::expr_builder::ExprBuilder;
    use crate::validator::types::Type;
    use crate::{NonEmpty, SmolStr};
    use std::collections::BTreeMap;
    use std::sync::{Arc, LazyLock};

    include!(concat!(env!("OUT_DIR"), "/residual.rs"));
}

/// The original's request.
#[allow(warnings)]
pub mod request {
    use crate::ast::{Eid, EntityType, EntityUID, Value};
    use crate::SmolStr;
    use std::collections::BTreeMap;
    use std::sync::Arc;

    include!(concat!(env!("OUT_DIR"), "/request.rs"));

    impl PartialRequest {
        /// A request that the reader of the sheet has checked already.
        pub fn given(
            principal: PartialEntityUID,
            action: EntityUID,
            resource: PartialEntityUID,
            context: Option<Arc<BTreeMap<SmolStr, Value>>>,
        ) -> Self {
            Self { principal, action, resource, context }
        }
    }
}

/// The original's entities.
#[allow(warnings)]
pub mod entities {
    use crate::ast::{EntityUID, Value};
    use crate::entities::err::Duplicate;
    use crate::tpe::err::EntitiesError;
    use crate::SmolStr;
    use std::collections::hash_map::Entry;
    use std::collections::{BTreeMap, HashMap, HashSet};

    include!(concat!(env!("OUT_DIR"), "/entities.rs"));

    impl PartialEntities {
        /// Adds an entity line that the reader of the sheet has checked already, with the ancestors that it reaches.
        pub fn add(
            &mut self,
            uid: EntityUID,
            attrs: Option<BTreeMap<SmolStr, Value>>,
            ancestors: Option<HashSet<EntityUID>>,
            tags: Option<BTreeMap<SmolStr, Value>>,
        ) {
            let entity = PartialEntity { uid: uid.clone(), attrs, ancestors, tags };
            self.add_entity_trusted(uid, entity).expect("entity lines are distinct");
        }
    }
}

/// The original's response.
#[allow(warnings)]
pub mod response {
    use crate::ast::{Effect, Policy, PolicyID};
    use crate::authorizer::Decision;
    use crate::tpe::{entities::PartialEntities, request::PartialRequest, residual::Residual};
    use crate::validator::ValidatorSchema;
    use std::collections::{HashMap, HashSet};
    use std::sync::Arc;

    include!(concat!(env!("OUT_DIR"), "/response.rs"));

    /// The decision by the original's second way, for a check that both agree.
    pub fn second_decision(residuals: &[ResidualPolicy]) -> Option<Decision> {
        decision_from_residuals(residuals)
    }
}

/// What the text of `entities.rs` names of errors.
pub mod err {
    #[derive(Debug)]
    pub struct EntitiesError(pub crate::entities::err::Duplicate);

    impl From<crate::entities::err::Duplicate> for EntitiesError {
        fn from(duplicate: crate::entities::err::Duplicate) -> Self {
            EntitiesError(duplicate)
        }
    }
}

/// Interprets a tree by the original's `Evaluator::interpret`. With `plain` set it is the same text without the walk
/// that looks for extension values.
pub fn interpret(
    request: &request::PartialRequest,
    entities: &entities::PartialEntities,
    schema: &crate::validator::ValidatorSchema,
    plain: bool,
    tree: &residual::Residual,
) -> residual::Residual {
    let extensions = &crate::extensions::Extensions::default();
    if plain {
        plain::Evaluator { request, entities, schema, extensions }.interpret(tree)
    } else {
        evaluator::Evaluator { request, entities, schema, extensions }.interpret(tree)
    }
}
