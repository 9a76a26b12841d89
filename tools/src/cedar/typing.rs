//! The types of expressions, for one request: each node of a sheet has its type, which JSON does not hold.
//!
//! The rules are the sheet's. Where a part of a condition never runs for the request's types, it need not fit them, as in Cedar: the right side of an `&&` whose
//! left is false by its types alone, of an `||` whose left is true, and the branch that such a test rules out are left away if they have no type.

use super::error::{Error, Place, Room};
use super::expr::{Expr, Kind};
use super::schema::Schema;
use super::types::{any, common, entity, join, kinds_in, mistyped, optional, set_of, settled, wants_set, with_attribute};
use openrules::sheet::builder::{Fault, Field, Operation, Tree, Type, Uid, Value, NODES};
use openrules::sheet::{Binary, Slot, Unary, Variable};
use std::cell::Cell;
use std::collections::BTreeMap;

/// The types of the request's parts, and of the entities in the slots.
pub struct Typing<'a> {
    /// The schema.
    pub schema: &'a Schema,
    /// The principal's type.
    pub principal: &'a str,
    /// The action.
    pub action: &'a Uid,
    /// The resource's type.
    pub resource: &'a str,
    /// The context's type.
    pub context: &'a Type,
    /// The types of what stands in `?principal` and `?resource`.
    pub slots: [Option<&'a str>; 2],
    /// Whether all that never runs is left away.
    pub short: bool,
    /// The steps taken for this policy.
    pub steps: Cell<usize>,
}

/// The steps that the types of a policy may take; a condition that a sheet has room for takes far fewer.
const STEPS: usize = 100_000;

/// A tree, and the truth value that its types alone give it.
#[derive(Clone, Debug)]
pub struct Typed {
    /// The tree.
    pub tree: Tree,
    /// True or false whatever is filled in, unless it errs.
    pub truth: Option<bool>,
}

impl Typed {
    fn of(ty: Type, operation: Operation) -> Typed {
        Typed { tree: Tree { ty, operation }, truth: None }
    }

    fn truth(truth: Option<bool>, operation: Operation) -> Typed {
        Typed { tree: Tree { ty: Type::Bool, operation }, truth }
    }
}

impl Typing<'_> {
    /// A condition.
    pub fn condition(&self, expr: &Expr) -> Result<Typed, Error> {
        self.check(expr, &Type::Bool)
    }

    /// Counts a step, so that conditions which ask for their parts again and again come to an end.
    fn step(&self, at: &Place) -> Result<(), Error> {
        self.steps.set(self.steps.get() + 1);
        match self.steps.get() > STEPS {
            true => Err(Fault::Many { what: "nodes", most: NODES }).room(at),
            false => Ok(()),
        }
    }

    /// The tree of an expression, with the type that it has by itself.
    fn infer(&self, expr: &Expr) -> Result<Typed, Error> {
        let at = &expr.place;
        self.step(at)?;
        match &expr.kind {
            Kind::Lit(value) => {
                Ok(Typed { tree: Tree::lit(self.type_of(value, at)?, value.clone()), truth: literal_truth(value) })
            }
            Kind::Err => Ok(Typed::of(any(), Operation::Err)),
            Kind::Var(variable) => Ok(Typed::of(self.variable(*variable), Operation::Var(*variable))),
            Kind::Slot(slot) => self.slot(*slot, at),
            Kind::Unary(word, child) => self.unary(*word, child),
            Kind::Binary(Binary::And, left, right) => self.both(Binary::And, left, right),
            Kind::Binary(Binary::Or, left, right) => self.both(Binary::Or, left, right),
            Kind::Binary(word, left, right) => self.binary(*word, left, right, at),
            Kind::If(test, yes, no) => self.choice([test, yes, no], None, at),
            Kind::Is(child, kind, within) => self.is(child, kind, within.as_deref(), at),
            Kind::Like(child, pattern) => {
                let child = self.check(child, &Type::String)?;
                Ok(Typed::truth(None, Operation::Like(Box::new(child.tree), pattern.clone())))
            }
            Kind::Get(child, name) => self.get(child, name, &any(), at),
            Kind::Has(child, name) => {
                let (child, truth) = self.has(child, std::slice::from_ref(name), at)?;
                Ok(Typed::truth(truth, Operation::Has(Box::new(child), name.clone())))
            }
            Kind::HasPath(child, path) => {
                let (child, truth) = self.has(child, path, at)?;
                Ok(Typed::truth(truth, Operation::HasPath(Box::new(child), path.clone())))
            }
            Kind::Set(children) => {
                let trees = children.iter().map(|child| Ok(self.infer(child)?.tree)).collect::<Result<Vec<_>, Error>>()?;
                let element = common(trees.iter().map(|tree| tree.ty.clone()).collect(), at)?;
                match trees.iter().all(|tree| tree.ty == element) {
                    true => Ok(Typed::of(set_of(element), Operation::Set(trees))),
                    false => self.check(expr, &set_of(element)),
                }
            }
            Kind::Record(fields) => self.record(fields),
        }
    }

    /// A record whose attributes have the types that they have by themselves.
    fn record(&self, fields: &[(String, Expr)]) -> Result<Typed, Error> {
        let (mut types, mut trees) = (BTreeMap::new(), BTreeMap::new());
        for (name, field) in fields {
            let tree = self.infer(field)?.tree;
            types.insert(name.clone(), Field { required: true, ty: tree.ty.clone() });
            trees.insert(name.clone(), tree);
        }
        Ok(Typed::of(Type::Record(types), Operation::Record(trees)))
    }

    /// The tree of an entity or a record. An error stands for an entity of the principal's kind.
    fn holder(&self, expr: &Expr) -> Result<Tree, Error> {
        let typed = self.infer(expr)?;
        self.held(expr, typed)
    }

    fn held(&self, expr: &Expr, typed: Typed) -> Result<Tree, Error> {
        let other = |ty: &Type| if *ty == any() { entity(self.principal) } else { settled(ty) };
        Ok(self.retyped(expr, typed, other)?.tree)
    }

    /// A tree, or the one that the expression has with another type.
    fn retyped(&self, expr: &Expr, typed: Typed, other: impl Fn(&Type) -> Type) -> Result<Typed, Error> {
        let wanted = other(&typed.tree.ty);
        match typed.tree.ty == wanted {
            true => Ok(typed),
            false => self.check(expr, &wanted),
        }
    }

    /// The tree of an entity, and its kinds.
    fn entity_operand(&self, expr: &Expr) -> Result<(Tree, Vec<String>), Error> {
        let tree = self.holder(expr)?;
        match tree.ty.clone() {
            Type::Entity(kinds) => Ok((tree, kinds)),
            ty => Err(mistyped(&expr.place, format!("an entity is wanted here, and this is {ty}"))),
        }
    }

    /// The tree of an expression that must have this type.
    fn check(&self, expr: &Expr, wanted: &Type) -> Result<Typed, Error> {
        let at = &expr.place;
        self.step(at)?;
        match (&expr.kind, wanted) {
            (Kind::Lit(value), _) => {
                let truth = literal_truth(value);
                match self.fits(value, wanted, at)? {
                    true => Ok(Typed { tree: Tree::lit(wanted.clone(), value.clone()), truth }),
                    false => Err(mistyped(at, format!("a value of type {wanted} is wanted here"))),
                }
            }
            (Kind::Err, _) => Ok(Typed::of(wanted.clone(), Operation::Err)),
            (Kind::Set(children), Type::Set(element)) => {
                let children = children.iter().map(|child| Ok(self.check(child, element)?.tree)).collect::<Result<_, Error>>()?;
                Ok(Typed::of(wanted.clone(), Operation::Set(children)))
            }
            (Kind::Record(fields), Type::Record(declared)) => self.check_record(fields, declared, wanted, at),
            (Kind::Get(child, name), _) if child.is_made() => self.get(child, name, wanted, at),
            (Kind::If(test, yes, no), _) => self.choice([test, yes, no], Some(wanted), at),
            _ => {
                let typed = self.infer(expr)?;
                match typed.tree.ty == *wanted {
                    true => Ok(typed),
                    false => Err(mistyped(at, format!("{wanted} is wanted here, and this is {}", typed.tree.ty))),
                }
            }
        }
    }

    fn check_record(
        &self,
        fields: &[(String, Expr)],
        declared: &BTreeMap<String, Field>,
        wanted: &Type,
        at: &Place,
    ) -> Result<Typed, Error> {
        let mut trees = BTreeMap::new();
        for (name, field) in fields {
            let Some(attribute) = declared.get(name) else {
                return Err(mistyped(&field.place, format!("{wanted} has no attribute {name:?}")));
            };
            trees.insert(name.clone(), self.check(field, &attribute.ty)?.tree);
        }
        match declared.iter().find(|(name, attribute)| attribute.required && !trees.contains_key(*name)) {
            Some((name, _)) => Err(mistyped(at, format!("the attribute {name:?} of {wanted} is lacking"))),
            None => Ok(Typed::of(wanted.clone(), Operation::Record(trees))),
        }
    }

    /// The type that a value has by itself.
    fn type_of(&self, value: &Value, at: &Place) -> Result<Type, Error> {
        Ok(match value {
            Value::Bool(_) => Type::Bool,
            Value::Long(_) => Type::Long,
            Value::Text(_) => Type::String,
            Value::Entity(uid) => {
                self.schema.declares(uid, at)?;
                entity(&uid.kind)
            }
            Value::Set(elements) => {
                set_of(common(elements.iter().map(|one| self.type_of(one, at)).collect::<Result<_, _>>()?, at)?)
            }
            Value::Record(fields) => {
                let field =
                    |(name, field): (&String, &Value)| Ok((name.clone(), Field { required: true, ty: self.type_of(field, at)? }));
                Type::Record(fields.iter().map(field).collect::<Result<_, Error>>()?)
            }
        })
    }

    /// Whether a value is of a type.
    fn fits(&self, value: &Value, ty: &Type, at: &Place) -> Result<bool, Error> {
        match (value, ty) {
            (Value::Bool(_), Type::Bool) | (Value::Long(_), Type::Long) | (Value::Text(_), Type::String) => Ok(true),
            (Value::Entity(uid), Type::Entity(kinds)) => {
                self.schema.declares(uid, at)?;
                Ok(kinds.contains(&uid.kind))
            }
            (Value::Set(elements), Type::Set(element)) => {
                elements.iter().try_fold(true, |all, one| Ok(self.fits(one, element, at)? && all))
            }
            (Value::Record(fields), Type::Record(declared)) => {
                let there = declared.iter().all(|(name, attribute)| !attribute.required || fields.contains_key(name));
                fields.iter().try_fold(there, |all, (name, field)| match declared.get(name) {
                    Some(attribute) => Ok(self.fits(field, &attribute.ty, at)? && all),
                    None => Ok(false),
                })
            }
            _ => Ok(false),
        }
    }

    fn variable(&self, variable: Variable) -> Type {
        match variable {
            Variable::Principal => entity(self.principal),
            Variable::Action => entity(&self.action.kind),
            Variable::Resource => entity(self.resource),
            Variable::Context => self.context.clone(),
        }
    }

    fn slot(&self, slot: Slot, at: &Place) -> Result<Typed, Error> {
        let (place, name) = match slot {
            Slot::Principal => (0, "?principal"),
            Slot::Resource => (1, "?resource"),
        };
        match self.slots[place] {
            Some(kind) => Ok(Typed::of(entity(kind), Operation::Slot(slot))),
            None => Err(Error::Slot { at: at.clone(), what: format!("nothing is linked to the slot {name}") }),
        }
    }

    fn unary(&self, word: Unary, child: &Expr) -> Result<Typed, Error> {
        let (child, ty) = match word {
            Unary::Not => (self.check(child, &Type::Bool)?, Type::Bool),
            Unary::Neg => (self.check(child, &Type::Long)?, Type::Long),
            Unary::Empty => (self.set_operand(child)?, Type::Bool),
        };
        let truth = if word == Unary::Not { child.truth.map(|truth| !truth) } else { None };
        Ok(Typed { tree: Tree::unary(word, ty, child.tree), truth })
    }

    fn set_operand(&self, expr: &Expr) -> Result<Typed, Error> {
        let typed = self.infer(expr)?;
        let ty = join(typed.tree.ty.clone(), set_of(any())).ok_or_else(|| wants_set(&expr.place, &typed.tree.ty))?;
        self.retyped(expr, typed, |_| settled(&ty))
    }

    /// `&&` or `||`: where the left side settles it by its types, a right side without a type is left away.
    fn both(&self, word: Binary, left: &Expr, right: &Expr) -> Result<Typed, Error> {
        let settles = Some(word == Binary::Or);
        let left = self.check(left, &Type::Bool)?;
        let never = left.truth == settles;
        if never && self.short {
            return Ok(left);
        }
        let right = match self.check(right, &Type::Bool) {
            Err(_) if never => return Ok(left),
            right => right?,
        };
        let truth = match (left.truth, right.truth) {
            (one, other) if one == settles || other == settles => settles,
            (Some(_), Some(_)) => left.truth,
            _ => None,
        };
        Ok(Typed { tree: Tree::binary(word, Type::Bool, left.tree, right.tree), truth })
    }

    /// `if`: both branches have one type. A branch that the test's types rule out, and that has no type, stands for the other.
    fn choice(&self, parts: [&Expr; 3], wanted: Option<&Type>, at: &Place) -> Result<Typed, Error> {
        let [test, yes, no] = parts;
        let test = self.check(test, &Type::Bool)?;
        let Some(truth) = test.truth else { return self.branches(test, yes, no, wanted, at) };
        let both = if self.short { None } else { self.branches(test.clone(), yes, no, wanted, at).ok() };
        if let Some(both) = both {
            return Ok(both);
        }
        let branch = if truth { yes } else { no };
        let taken = wanted.map_or_else(|| self.infer(branch), |wanted| self.check(branch, wanted))?;
        let parts = [test.tree, taken.tree.clone(), copied(&taken.tree, at)?];
        Ok(Typed { tree: Tree { ty: taken.tree.ty, operation: Operation::If(Box::new(parts)) }, truth: taken.truth })
    }

    fn branches(&self, test: Typed, yes: &Expr, no: &Expr, wanted: Option<&Type>, at: &Place) -> Result<Typed, Error> {
        let (ty, [yes, no]) = match wanted {
            Some(wanted) => (wanted.clone(), [self.check(yes, wanted)?, self.check(no, wanted)?]),
            None => self.alike([yes, no], Some, |one, two| mistyped(at, format!("branches of the types {one} and {two}")))?,
        };
        let truth = match test.truth {
            Some(truth) => [no.truth, yes.truth][usize::from(truth)],
            None => yes.truth.filter(|_| yes.truth == no.truth),
        };
        let parts = [test.tree, yes.tree, no.tree];
        Ok(Typed { tree: Tree { ty, operation: Operation::If(Box::new(parts)) }, truth })
    }

    /// Two expressions with the one type of both, as `of` takes it; `unlike` says that there is none.
    fn alike(
        &self,
        both: [&Expr; 2],
        of: impl Fn(Type) -> Option<Type>,
        unlike: impl Fn(&Type, &Type) -> Error,
    ) -> Result<(Type, [Typed; 2]), Error> {
        let [left, right] = both;
        let (first, second) = (self.infer(left)?, self.infer(right)?);
        let joined = join(first.tree.ty.clone(), second.tree.ty.clone()).and_then(of);
        let ty = joined.ok_or_else(|| unlike(&first.tree.ty, &second.tree.ty))?;
        let first = self.retyped(left, first, |_| ty.clone())?;
        Ok((ty.clone(), [first, self.retyped(right, second, |_| ty.clone())?]))
    }

    fn binary(&self, word: Binary, left: &Expr, right: &Expr, at: &Place) -> Result<Typed, Error> {
        let longs = || Ok::<_, Error>([self.check(left, &Type::Long)?, self.check(right, &Type::Long)?]);
        let ([left, right], ty) = match word {
            Binary::Lt | Binary::Le => (longs()?, Type::Bool),
            Binary::Add | Binary::Sub | Binary::Mul => (longs()?, Type::Long),
            Binary::All | Binary::Any => (self.sets(left, right)?, Type::Bool),
            Binary::Contains => (self.contains(left, right)?, Type::Bool),
            Binary::In => return self.within(left, right),
            Binary::GetTag | Binary::HasTag => return self.tag(word, left, right),
            Binary::Eq | Binary::And | Binary::Or => return self.equal(left, right, at),
        };
        Ok(Typed { tree: Tree::binary(word, ty, left.tree, right.tree), truth: None })
    }

    /// Two sets of one type.
    fn sets(&self, left: &Expr, right: &Expr) -> Result<[Typed; 2], Error> {
        let set = |ty| join(ty, set_of(any())).map(|ty| settled(&ty));
        let unlike = |one: &Type, two: &Type| match join(one.clone(), set_of(any())) {
            Some(one) => mistyped(&right.place, format!("{one} is wanted here, and this is {two}")),
            None => wants_set(&left.place, one),
        };
        Ok(self.alike([left, right], set, unlike)?.1)
    }

    /// A set, and what may be an element of it.
    fn contains(&self, set: &Expr, element: &Expr) -> Result<[Typed; 2], Error> {
        let (first, second) = (self.infer(set)?, self.infer(element)?);
        if join(first.tree.ty.clone(), set_of(any())).is_none() {
            return Err(wants_set(&set.place, &first.tree.ty));
        }
        let Some(Type::Set(inner)) = join(first.tree.ty.clone(), set_of(second.tree.ty.clone())) else {
            let what = format!("{} holds no {}", first.tree.ty, second.tree.ty);
            return Err(mistyped(&element.place, what));
        };
        let inner = settled(&inner);
        Ok([self.retyped(set, first, |_| set_of(inner.clone()))?, self.retyped(element, second, |_| inner.clone())?])
    }

    /// `==`: two entities, or one type twice.
    fn equal(&self, left: &Expr, right: &Expr, at: &Place) -> Result<Typed, Error> {
        let (first, second) = (self.infer(left)?, self.infer(right)?);
        let (one, two) = (first.tree.ty.clone(), second.tree.ty.clone());
        let apart = match (&one, &two) {
            (Type::Entity(one), Type::Entity(two)) if !one.is_empty() && !two.is_empty() => {
                Some(!one.iter().any(|kind| two.contains(kind)))
            }
            _ => None,
        };
        let [first, second] = match apart {
            Some(_) => [first, second],
            None => {
                let unlike = || mistyped(at, format!("{one} is compared with {two}"));
                let ty = settled(&join(one.clone(), two.clone()).ok_or_else(unlike)?);
                [self.retyped(left, first, |_| ty.clone())?, self.retyped(right, second, |_| ty.clone())?]
            }
        };
        let truth = match (self.known(left), self.known(right)) {
            (Some(one), Some(two)) => Some(one == two),
            _ => (apart == Some(true)).then_some(false),
        };
        Ok(Typed { tree: Tree::binary(Binary::Eq, Type::Bool, first.tree, second.tree), truth })
    }

    /// What is known when the sheet is written: literals that are no sets or records, and the action.
    fn known(&self, expr: &Expr) -> Option<Value> {
        match &expr.kind {
            Kind::Lit(Value::Set(_) | Value::Record(_)) => None,
            Kind::Lit(value) => Some(value.clone()),
            Kind::Var(Variable::Action) => Some(Value::Entity(self.action.clone())),
            _ => None,
        }
    }

    /// `in`: an entity, and an entity or a set of entities.
    fn within(&self, left: &Expr, right: &Expr) -> Result<Typed, Error> {
        let (first, kinds) = self.entity_operand(left)?;
        let second = self.infer(right)?;
        let second = self.retyped(right, second, |ty| match kinds_in(ty) {
            Some([]) if *ty == any() => first.ty.clone(),
            Some([]) => set_of(first.ty.clone()),
            _ => ty.clone(),
        })?;
        let Some(groups) = kinds_in(&second.tree.ty) else {
            let what = format!("an entity or a set of entities is wanted here, and this is {}", second.tree.ty);
            return Err(mistyped(&right.place, what));
        };
        let may = |kind: &String| groups.contains(kind) || self.schema.above(kind).iter().any(|above| groups.contains(above));
        let truth = match (kinds.iter().any(may), self.known(left), self.named(right)) {
            (false, ..) => Some(false),
            (true, Some(Value::Entity(uid)), Some(groups)) if self.schema.actions.contains_key(&uid) => {
                Some(groups.iter().any(|group| self.schema.action_in(&uid, group)))
            }
            _ => None,
        };
        Ok(Typed { tree: Tree::binary(Binary::In, Type::Bool, first, second.tree), truth })
    }

    /// The entities that an expression names, if it names all of them.
    fn named(&self, expr: &Expr) -> Option<Vec<Uid>> {
        let uid = |value: Value| match value {
            Value::Entity(uid) => Some(uid),
            _ => None,
        };
        match &expr.kind {
            Kind::Lit(Value::Set(elements)) => elements.iter().cloned().map(uid).collect(),
            Kind::Set(elements) => elements.iter().map(|element| self.known(element).and_then(uid)).collect(),
            _ => Some(vec![self.known(expr).and_then(uid)?]),
        }
    }

    fn tag(&self, word: Binary, left: &Expr, right: &Expr) -> Result<Typed, Error> {
        let (first, kinds) = self.entity_operand(left)?;
        let tags = kinds.iter().find_map(|kind| self.schema.types.get(kind)?.tags.clone());
        let none = tags.is_none() && kinds.iter().all(|kind| self.schema.types.contains_key(kind));
        let second = self.check(right, &Type::String)?.tree;
        let (ty, truth) = match (word, tags) {
            (Binary::HasTag, _) => (Type::Bool, none.then_some(false)),
            (_, Some(ty)) => (ty, None),
            _ => return Err(Error::Undeclared { at: left.place.clone(), what: format!("tags of {}", first.ty) }),
        };
        Ok(Typed { tree: Tree::binary(word, ty, first, second), truth })
    }

    fn is(&self, child: &Expr, kind: &str, within: Option<&Expr>, at: &Place) -> Result<Typed, Error> {
        let (tree, kinds) = self.entity_operand(child)?;
        if !self.schema.types.contains_key(kind) && !self.schema.is_action_type(kind) {
            return Err(Error::Undeclared { at: at.clone(), what: format!("the entity type {kind:?}") });
        }
        let truth = match kinds.iter().any(|one| one == kind) {
            true => (kinds.len() == 1).then_some(true),
            false => Some(false),
        };
        let first = Typed::truth(truth, Operation::Is(Box::new(copied(&tree, at)?), kind.into()));
        let never = truth == Some(false);
        let Some(within) = within.filter(|_| !(never && self.short)) else { return Ok(first) };
        let second = match self.within(child, within) {
            Err(_) if never => return Ok(first),
            second => second?,
        };
        let truth = (never || second.truth == Some(false)).then_some(false);
        Ok(Typed { tree: Tree::binary(Binary::And, Type::Bool, first.tree, second.tree), truth })
    }

    /// What is declared of an attribute: none if it is not; in all kinds of an entity alike.
    fn attribute(&self, ty: &Type, name: &str, at: &Place) -> Result<Option<Field>, Error> {
        match ty {
            Type::Record(fields) => Ok(fields.get(name).cloned()),
            Type::Entity(kinds) => {
                let declared = |kind: &String| match &self.schema.types.get(kind)?.attributes {
                    Type::Record(fields) => fields.get(name).cloned(),
                    _ => None,
                };
                let mut all = kinds.iter().map(declared);
                let first = all.next().flatten();
                Ok(first.filter(|first| all.all(|other| other.is_some_and(|other| other.ty == first.ty))))
            }
            _ => Err(mistyped(at, format!("an entity or a record is wanted here, and this is {ty}"))),
        }
    }

    /// An attribute.
    fn get(&self, child: &Expr, name: &str, wanted: &Type, at: &Place) -> Result<Typed, Error> {
        let typed = self.infer(child)?;
        let holder = match &typed.tree.ty {
            Type::Record(fields) if child.is_made() => {
                let ty = with_attribute(fields.clone(), name, wanted)
                    .ok_or_else(|| mistyped(at, format!("{wanted} is wanted here")))?;
                self.retyped(child, typed, |_| ty.clone())?.tree
            }
            ty if *ty == any() => self.check(child, &Type::Record([(name.into(), optional(wanted.clone()))].into()))?.tree,
            _ => self.held(child, typed)?,
        };
        let undeclared = || Error::Undeclared { at: at.clone(), what: format!("the attribute {name:?} of {}", holder.ty) };
        let field = self.attribute(&holder.ty, name, at)?.ok_or_else(undeclared)?;
        Ok(Typed::of(field.ty, Operation::Get(Box::new(holder), name.into())))
    }

    /// `has` of a path: its operand, and what the types say, which goes by the first attribute that is not declared.
    fn has(&self, child: &Expr, path: &[String], at: &Place) -> Result<(Tree, Option<bool>), Error> {
        let child = self.holder(child)?;
        let mut ty = child.ty.clone();
        let mut truth = Some(true);
        for name in path {
            let field = self.attribute(&ty, name, at)?;
            truth = match (&ty, &field) {
                (Type::Entity(kinds), None) if kinds.len() == 1 && self.schema.types.contains_key(&kinds[0]) => Some(false),
                (Type::Record(_), None) => Some(false),
                (Type::Record(_), Some(field)) if field.required => truth,
                _ => None,
            };
            match field {
                Some(field) => ty = field.ty,
                None => break,
            }
        }
        Ok((child, truth))
    }
}

fn literal_truth(value: &Value) -> Option<bool> {
    match value {
        Value::Bool(truth) => Some(*truth),
        _ => None,
    }
}

/// A copy of a tree, unless it has more nodes than a sheet has room for.
fn copied(tree: &Tree, at: &Place) -> Result<Tree, Error> {
    match tree.size() > NODES {
        true => Err(Fault::Many { what: "nodes", most: NODES }).room(at),
        false => Ok(tree.clone()),
    }
}
