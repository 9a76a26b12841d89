//! Runs a sheet through the original text and prints the answer.

use std::collections::{BTreeMap, HashMap, HashSet};
use std::sync::Arc;

use original::ast::{
    BinaryOp, Context, Effect, Eid, Entity, EntityType, EntityUID, EntityUIDEntry, Expr, Pattern, Policy, PolicyID, Request,
    SlotEnv, UnaryOp, Value, ValueKind, Var,
};
use original::authorizer::Decision;
use original::entities::Entities;
use original::evaluator::Evaluator;
use original::extensions::Extensions;
use original::rows;
use original::tpe::entities::PartialEntities;
use original::tpe::request::{PartialEntityUID, PartialRequest};
use original::tpe::residual::{Residual, ResidualKind};
use original::tpe::response::{second_decision, ResidualPolicy, Response};
use original::validator::types::{Lub, Type};
use original::validator::{Attributes, KindRow, ValidatorSchema};
use original::{NonEmpty, SmolStr};

use crate::sheet::{
    self, EntityRow, LinkRow, Mode, One, Operation, Refusal, Rule, Sheet, Two, TypeRow, ValueRow, Variable, ANSWER_BYTES,
    WORK_WORDS,
};

/// A value whose leaves are more than this, counted along every path, is not walked by the original's search for
/// extension values: the walk would not end in any useful time.
const GREATEST_WALK: u64 = 100_000;

/// A sheet in the original's types. The values stand in `original::rows`.
pub struct Ground {
    texts: Vec<SmolStr>,
    types: Vec<Type>,
    type_numbers: Vec<(Type, u32)>,
    schema: ValidatorSchema,
    values: usize,
    heavy: bool,
}

/// The answer of a call that is lent long enough slices and buffers, or its refusal. None where the sheet is accepted and has
/// groups of kinds: "Equality with the Rust keeps to sheets without groups", and the original is not asked.
pub fn answer(mode: Mode, bytes: &[u8]) -> Result<Option<Vec<u8>>, Refusal> {
    let sheet = sheet::read(mode, bytes)?;
    if sheet.has_groups() {
        return Ok(None);
    }
    let ground = Ground::of(&sheet);
    let text = match mode {
        Mode::Partial => partial_answer(&sheet, &ground),
        Mode::Complete => complete_answer(&sheet, &ground),
    };
    assert!(rows::count() <= rows::GREATEST_VALUES, "1,024 given and 1,024 made always fit");
    assert!(text.len() <= ANSWER_BYTES, "no answer is longer");
    Ok(Some(text.into_bytes()))
}

/// An answer without policies, in the place of one that the original is not asked for.
const NO_POLICIES: &[u8] = b"decision=deny\ncounts=0,0,0,0,0,0,0,0\nwhy=none\n";

/// A whole call, as document 01 says of what is lent: returns number, line and length. Where the original is not asked, the answer
/// is one without policies.
pub fn call(mode: Mode, bytes: &[u8], work_a: &mut [u32], work_b: &mut [u32], out: &mut [u8]) -> [u32; 3] {
    left(|| Ok(answer(mode, bytes)?.unwrap_or(NO_POLICIES.to_vec())), work_a, work_b, out)
}

/// What a call with an answer or refusal leaves in what it is lent, and what it returns.
pub fn left(
    answer: impl FnOnce() -> Result<Vec<u8>, Refusal>,
    work_a: &mut [u32],
    work_b: &mut [u32],
    out: &mut [u8],
) -> [u32; 3] {
    if work_a.len() < WORK_WORDS || work_b.len() < WORK_WORDS {
        return [1, 0, 0];
    }
    work_a[..WORK_WORDS].fill(0);
    work_b[..WORK_WORDS].fill(0);
    match answer() {
        Err(refusal) => [refusal.number, refusal.line, refusal.length],
        Ok(text) if text.len() > out.len() => [10, 0, text.len() as u32],
        Ok(text) => {
            out[..text.len()].copy_from_slice(&text);
            [0, 0, text.len() as u32]
        }
    }
}

// Into the original's types ----------------------------------------------------------------------------------------------

impl Ground {
    /// Clears the rows of values and fills them with the sheet's.
    pub fn of(sheet: &Sheet) -> Ground {
        rows::clear();
        let text = |bytes: &&[u8]| std::str::from_utf8(bytes).expect("texts are ASCII").to_string();
        let texts: Vec<SmolStr> =
            sheet.texts.iter().enumerate().map(|(n, bytes)| SmolStr::of_row(n as u32, &text(bytes))).collect();
        let names =
            |fields: &[(u32, bool, u32)]| Attributes::of(fields.iter().map(|(t, _, _)| texts[*t as usize].bytes().clone()));
        let mut types: Vec<Type> = Vec::new();
        for (row, ty) in sheet.types.iter().enumerate() {
            let row = row as u32;
            types.push(match ty {
                TypeRow::Bool => Type::Bool,
                TypeRow::Long => Type::Long,
                TypeRow::String => Type::String,
                TypeRow::Entity(kinds) => match kinds[..] {
                    [kind] => Type::Entity(Lub(EntityType(kind))),
                    _ => unreachable!("a sheet with groups is not handed to the original"),
                },
                TypeRow::Set(element) => Type::Set { row, element: Arc::new(types[*element as usize].clone()) },
                TypeRow::Record(fields) => Type::Record { row, attributes: names(fields) },
            });
        }
        let kinds = sheet.kinds.iter().zip(&sheet.shapes).map(|((_, is_action), shape)| KindRow {
            is_action: *is_action,
            attributes: match &types[shape.attributes as usize] {
                Type::Record { attributes, .. } => attributes.clone(),
                _ => unreachable!("a shape's attributes are a record"),
            },
            has_tags: shape.tags.is_some(),
            above: shape.above.clone(),
        });
        let schema = ValidatorSchema { kinds: kinds.collect() };
        let simple = |ty: &&(Type, u32)| !matches!(ty.0, Type::Set { .. } | Type::Record { .. });
        let numbered: Vec<(Type, u32)> = types.iter().cloned().zip(0..).collect();
        let type_numbers = numbered.iter().filter(simple).cloned().collect();
        let mut ground = Ground { texts, types, type_numbers, schema, values: sheet.values.len(), heavy: false };
        let mut sizes: Vec<u64> = Vec::new();
        for row in &sheet.values {
            let size = match row {
                ValueRow::Set(items) => items.iter().fold(1u64, |sum, v| sum.saturating_add(sizes[*v as usize])),
                ValueRow::Record(fields) => fields.iter().fold(1u64, |sum, (_, v)| sum.saturating_add(sizes[*v as usize])),
                _ => 1,
            };
            ground.heavy |= size > GREATEST_WALK;
            sizes.push(size);
            ground.value(row, |n| n);
        }
        ground
    }

    /// A row as a value; `place` says where the rows that it names stand.
    fn value(&self, row: &ValueRow, place: impl Fn(u32) -> u32) -> Value {
        match row {
            ValueRow::Bool(b) => (*b).into(),
            ValueRow::Long(n) => (*n).into(),
            ValueRow::Text(t) => Value::text(&self.texts[*t as usize]),
            ValueRow::Entity(kind, t) => self.uid(*kind, *t).into(),
            ValueRow::Set(items) => Value::set(items.iter().map(|v| rows::value(place(*v))), None),
            ValueRow::Record(fields) => {
                let field = |(t, v): &(u32, u32)| (self.texts[*t as usize].clone(), rows::value(place(*v)));
                Value::record(fields.iter().map(field), None)
            }
        }
    }

    fn uid(&self, kind: u32, text: u32) -> EntityUID {
        EntityUID::from_components(EntityType(kind), Eid(self.texts[text as usize].clone()), None)
    }

    fn uid_of(&self, value: u32) -> EntityUID {
        match rows::value(value).value {
            ValueKind::Lit(original::ast::Literal::EntityUID(uid)) => uid.as_ref().clone(),
            _ => unreachable!("typing wants an entity"),
        }
    }

    fn record_of(&self, value: u32) -> Arc<BTreeMap<SmolStr, Value>> {
        match rows::value(value).value {
            ValueKind::Record(fields) => fields,
            _ => unreachable!("typing wants a record"),
        }
    }

    fn uids_of(&self, values: &[u32]) -> HashSet<EntityUID> {
        values.iter().map(|v| self.uid_of(*v)).collect()
    }

    pub fn type_number(&self, ty: &Type) -> u32 {
        match ty {
            Type::Set { row, .. } | Type::Record { row, .. } => *row,
            _ => self.type_numbers.iter().find(|(other, _)| other == ty).expect("a type of the sheet").1,
        }
    }

    /// The tree of a policy of the sheet: "Linking replaces each slot by a `lit` of its type", so the original sees none.
    fn linked(&self, sheet: &Sheet, rule: Rule) -> Residual {
        self.tree(&sheet.nodes, rule.row.node, rule.link, &|n| n)
    }

    /// The tree of a node under a link, from rows whose `lit` numbers `place` reads.
    fn tree(&self, nodes: &[sheet::NodeRow], root: u32, link: Option<&LinkRow>, place: &dyn Fn(u32) -> u32) -> Residual {
        let node = &nodes[root as usize];
        let ty = self.types[node.ty as usize].clone();
        let child = |n: &u32| Arc::new(self.tree(nodes, *n, link, place));
        let text = |t: &u32| self.texts[*t as usize].clone();
        let kind = match &node.operation {
            Operation::Lit(v) => return Residual::Concrete { value: rows::value(place(*v)), ty },
            Operation::Err => return Residual::Error(ty),
            Operation::Slot(slot) => {
                let value = link.and_then(|link| link.value(*slot)).expect("every slot has a value");
                return Residual::Concrete { value: rows::value(place(value)), ty };
            }
            Operation::Var(variable) => ResidualKind::Var(match variable {
                Variable::Principal => Var::Principal,
                Variable::Action => Var::Action,
                Variable::Resource => Var::Resource,
                Variable::Context => Var::Context,
            }),
            Operation::Two(Two::And, a, b) => ResidualKind::And { left: child(a), right: child(b) },
            Operation::Two(Two::Or, a, b) => ResidualKind::Or { left: child(a), right: child(b) },
            Operation::Two(two, a, b) => ResidualKind::BinaryApp { op: binary_op(*two), arg1: child(a), arg2: child(b) },
            Operation::One(one, a) => {
                let op = match one {
                    One::Not => UnaryOp::Not,
                    One::Neg => UnaryOp::Neg,
                    One::Empty => UnaryOp::IsEmpty,
                };
                ResidualKind::UnaryApp { op, arg: child(a) }
            }
            Operation::If(a, b, c) => ResidualKind::If { test_expr: child(a), then_expr: child(b), else_expr: child(c) },
            Operation::Is(a, kind) => ResidualKind::Is { expr: child(a), entity_type: EntityType(*kind) },
            Operation::Like(a, items) => {
                let pattern = Pattern::of(items.iter().map(|item| item.as_ref().map(text)).collect());
                ResidualKind::Like { expr: child(a), pattern }
            }
            Operation::Get(a, t) => ResidualKind::GetAttr { expr: child(a), attr: text(t) },
            Operation::Has(a, t) => ResidualKind::HasAttr { expr: child(a), attr: text(t) },
            Operation::HasPath(a, path) => {
                let attrs = NonEmpty { head: text(&path[0]), tail: path[1..].iter().map(text).collect() };
                ResidualKind::ExtHasAttr { expr: child(a), attrs }
            }
            Operation::Set(items) => {
                ResidualKind::Set(Arc::new(items.iter().map(|n| self.tree(nodes, *n, link, place)).collect()))
            }
            Operation::Record(fields) => {
                let field = |(t, n): &(u32, u32)| (text(t), self.tree(nodes, *n, link, place));
                ResidualKind::Record(Arc::new(fields.iter().map(field).collect()))
            }
        };
        Residual::Partial { kind, ty }
    }
}

fn binary_op(two: Two) -> BinaryOp {
    match two {
        Two::Eq => BinaryOp::Eq,
        Two::Lt => BinaryOp::Less,
        Two::Le => BinaryOp::LessEq,
        Two::Add => BinaryOp::Add,
        Two::Sub => BinaryOp::Sub,
        Two::Mul => BinaryOp::Mul,
        Two::In => BinaryOp::In,
        Two::GetTag => BinaryOp::GetTag,
        Two::HasTag => BinaryOp::HasTag,
        Two::Contains => BinaryOp::Contains,
        Two::All => BinaryOp::ContainsAll,
        Two::Any => BinaryOp::ContainsAny,
        Two::And | Two::Or => unreachable!("and, or are not binary operators"),
    }
}

fn binary_word(op: BinaryOp) -> &'static str {
    match op {
        BinaryOp::Eq => "eq",
        BinaryOp::Less => "lt",
        BinaryOp::LessEq => "le",
        BinaryOp::Add => "add",
        BinaryOp::Sub => "sub",
        BinaryOp::Mul => "mul",
        BinaryOp::In => "in",
        BinaryOp::GetTag => "gettag",
        BinaryOp::HasTag => "hastag",
        BinaryOp::Contains => "contains",
        BinaryOp::ContainsAll => "all",
        BinaryOp::ContainsAny => "any",
    }
}

// The partial run --------------------------------------------------------------------------------------------------------

fn policy_of(row: &sheet::PolicyRow, condition: Expr) -> Policy {
    Policy::of(PolicyID(row.id), if row.permit { Effect::Permit } else { Effect::Forbid }, condition)
}

fn partial_request(sheet: &Sheet, ground: &Ground) -> PartialRequest {
    let partial = |(kind, text): (u32, Option<u32>)| PartialEntityUID {
        ty: EntityType(kind),
        eid: text.map(|t| Eid(ground.texts[t as usize].clone())),
    };
    PartialRequest::given(
        partial(sheet.principal),
        ground.uid(sheet.action.0, sheet.action.1),
        partial(sheet.resource),
        sheet.context.1.map(|v| ground.record_of(v)),
    )
}

fn partial_entities(sheet: &Sheet, ground: &Ground) -> PartialEntities {
    let mut entities = PartialEntities::new();
    let parents = sheet.parents();
    for row in &sheet.entities {
        entities.add(
            ground.uid_of(row.entity),
            row.attributes.map(|v| ground.record_of(v).as_ref().clone()),
            parents.known(row.entity).map(|above| ground.uids_of(&above)),
            row.tags.map(|v| ground.record_of(v).as_ref().clone()),
        );
    }
    entities
}

/// The residuals of the policies on term, linked, by the original's `interpret`, which never sees the others.
fn residuals(sheet: &Sheet, ground: &Ground, request: &PartialRequest, entities: &PartialEntities) -> Vec<ResidualPolicy> {
    let one = |rule: Rule| {
        let tree = ground.linked(sheet, rule);
        let residual = original::tpe::interpret(request, entities, &ground.schema, ground.heavy, &tree);
        ResidualPolicy::new(Arc::new(residual), Arc::new(policy_of(rule.row, Expr::val(true))))
    };
    sheet.on_term().into_iter().map(one).collect()
}

/// What the original's response says of policies and what is left of them: decision, counts and name, and the class of each policy. The
/// name is "the first such policy in the sheet's order" of those that the original gives as reasons.
fn responded(sheet: &Sheet, response: &Response<'_>) -> (String, HashMap<u32, &'static str>) {
    let sets: [Vec<&ResidualPolicy>; 8] = [
        response.true_permits().collect(),
        response.false_permits().collect(),
        response.error_permits().collect(),
        response.residual_permits().collect(),
        response.true_forbids().collect(),
        response.false_forbids().collect(),
        response.error_forbids().collect(),
        response.residual_forbids().collect(),
    ];
    let mut classes: HashMap<u32, &str> = HashMap::new();
    for (place, set) in sets.iter().enumerate() {
        for policy in set {
            classes.insert(policy.get_policy_id().0, ["true", "false", "error", "open"][place % 4]);
        }
    }
    let mut text = format!("decision={}\n", decision_word(response.decision()));
    push_counts(&mut text, &sets.map(|set| set.len()));
    let reasons: HashSet<u32> = response.reason().into_iter().flatten().map(|id| id.0).collect();
    let first = sheet.on_term().into_iter().map(|rule| rule.row.id).find(|id| reasons.contains(id));
    text.push_str(&format!("why={}\n", first.map_or("none".into(), |id| id.to_string())));
    (text, classes)
}

fn partial_answer(sheet: &Sheet, ground: &Ground) -> String {
    let request = partial_request(sheet, ground);
    let entities = partial_entities(sheet, ground);
    let residuals = residuals(sheet, ground, &request, &entities);
    let response = Response::new(residuals.iter().cloned(), &request, &entities, &ground.schema);
    assert_eq!(response.decision(), second_decision(&residuals), "both decisions of the original agree on typed sheets");
    let (mut text, classes) = responded(sheet, &response);
    for n in ground.values..rows::count() {
        push_value(&mut text, &rows::row(n as u32));
    }
    let mut nodes = 0;
    let mut policies = String::new();
    for (Rule { row, .. }, residual) in sheet.on_term().into_iter().zip(&residuals) {
        let root = push_tree(&mut text, ground, residual.as_residual(), &mut nodes);
        policies.push_str(&format!("policy={},{},{},{root}\n", row.id, effect_word(row.permit), classes[&row.id]));
    }
    text + &policies
}

fn decision_word(decision: Option<Decision>) -> &'static str {
    match decision {
        Some(Decision::Allow) => "allow",
        Some(Decision::Deny) => "deny",
        None => "open",
    }
}

fn effect_word(permit: bool) -> &'static str {
    if permit {
        "permit"
    } else {
        "forbid"
    }
}

// The complete run -------------------------------------------------------------------------------------------------------

/// The request and entities of a complete sheet, for the original's `evaluator.rs`.
pub struct Complete {
    request: Request,
    entities: Entities,
}

impl Complete {
    pub fn of(sheet: &Sheet, ground: &Ground) -> Complete {
        let known = |kind: u32, text: u32| EntityUIDEntry::Known { euid: Arc::new(ground.uid(kind, text)), loc: None };
        let given = "a complete sheet has no unknown parts";
        let request = Request {
            principal: known(sheet.principal.0, sheet.principal.1.expect(given)),
            action: known(sheet.action.0, sheet.action.1),
            resource: known(sheet.resource.0, sheet.resource.1.expect(given)),
            context: Some(Context(ground.record_of(sheet.context.1.expect(given)))),
        };
        let parents = sheet.parents();
        let entities = Entities::of(sheet.entities.iter().map(|row| {
            Entity::of(
                ground.uid_of(row.entity),
                &ground.record_of(row.attributes.expect(given)),
                ground.uids_of(&parents.reached(row.entity).entities),
                &ground.record_of(row.tags.expect(given)),
            )
        }));
        Complete { request, entities }
    }

    /// What a tree yields: the number of its value, or None for an error. The tree becomes an expression by the
    /// original's `From<Residual> for Expr` and is evaluated by its `Evaluator::interpret`.
    pub fn yields(&self, tree: Residual) -> Option<u32> {
        let extensions = Extensions::default();
        let evaluator = Evaluator::new(self.request.clone(), &self.entities, &extensions);
        evaluator.interpret(&Expr::from(tree), &SlotEnv::new()).ok().map(|value| rows::number(&value))
    }
}

fn class_of(yielded: Option<u32>) -> &'static str {
    match yielded.map(rows::row) {
        None => "error",
        Some(rows::Row::Bool(true)) => "true",
        Some(_) => "false",
    }
}

/// What the policies on term, linked, yield, as residuals with nothing left open.
fn results(sheet: &Sheet, ground: &Ground) -> Vec<ResidualPolicy> {
    let complete = Complete::of(sheet, ground);
    let one = |rule: Rule| {
        let tree = ground.linked(sheet, rule);
        let ty = tree.ty().clone();
        let result = match complete.yields(tree) {
            Some(n) => Residual::Concrete { value: rows::value(n), ty },
            None => Residual::Error(ty),
        };
        ResidualPolicy::new(Arc::new(result), Arc::new(policy_of(rule.row, Expr::val(true))))
    };
    sheet.on_term().into_iter().map(one).collect()
}

fn complete_answer(sheet: &Sheet, ground: &Ground) -> String {
    let (request, entities) = (partial_request(sheet, ground), PartialEntities::new());
    let response = Response::new(results(sheet, ground).into_iter(), &request, &entities, &ground.schema);
    let (mut text, classes) = responded(sheet, &response);
    for Rule { row, .. } in sheet.on_term() {
        text.push_str(&format!("policy={},{},{}\n", row.id, effect_word(row.permit), classes[&row.id]));
    }
    text
}

// Printing ---------------------------------------------------------------------------------------------------------------

fn push_counts(text: &mut String, counts: &[usize; 8]) {
    let words: Vec<String> = counts.iter().map(usize::to_string).collect();
    text.push_str(&format!("counts={}\n", words.join(",")));
}

fn push_numbers(text: &mut String, numbers: impl Iterator<Item = u32>) {
    for n in numbers {
        text.push(',');
        text.push_str(&n.to_string());
    }
    text.push('\n');
}

fn push_value(text: &mut String, row: &rows::Row) {
    match row {
        rows::Row::Bool(b) => text.push_str(&format!("value=bool,{}\n", u8::from(*b))),
        rows::Row::Long(n) => text.push_str(&format!("value=long,{n}\n")),
        rows::Row::Text(t) => text.push_str(&format!("value=text,{t}\n")),
        rows::Row::Entity(kind, t) => text.push_str(&format!("value=entity,{kind},{t}\n")),
        rows::Row::Set(items) => {
            text.push_str("value=set");
            push_numbers(text, items.iter().copied());
        }
        rows::Row::Record(fields) => {
            text.push_str("value=record");
            push_numbers(text, fields.iter().flat_map(|(t, v)| [*t, *v]));
        }
    }
}

/// Adds the lines of a tree, children before parents, and gives the number of its root.
fn push_tree(text: &mut String, ground: &Ground, tree: &Residual, nodes: &mut u32) -> u32 {
    let (word, numbers): (String, Vec<u32>) = match tree {
        Residual::Concrete { value, .. } => ("lit".into(), vec![rows::number(value)]),
        Residual::Error(_) => ("err".into(), Vec::new()),
        Residual::Partial { kind, .. } => {
            let mut child = |tree: &Residual| push_tree(text, ground, tree, nodes);
            match kind {
                ResidualKind::Var(Var::Principal) => ("var,p".into(), Vec::new()),
                ResidualKind::Var(Var::Action) => ("var,a".into(), Vec::new()),
                ResidualKind::Var(Var::Resource) => ("var,r".into(), Vec::new()),
                ResidualKind::Var(Var::Context) => ("var,c".into(), Vec::new()),
                ResidualKind::And { left, right } => ("and".into(), vec![child(left), child(right)]),
                ResidualKind::Or { left, right } => ("or".into(), vec![child(left), child(right)]),
                ResidualKind::If { test_expr, then_expr, else_expr } => {
                    ("if".into(), vec![child(test_expr), child(then_expr), child(else_expr)])
                }
                ResidualKind::UnaryApp { op, arg } => {
                    let word = match op {
                        UnaryOp::Not => "not",
                        UnaryOp::Neg => "neg",
                        UnaryOp::IsEmpty => "empty",
                    };
                    (word.into(), vec![child(arg)])
                }
                ResidualKind::BinaryApp { op, arg1, arg2 } => (binary_word(*op).into(), vec![child(arg1), child(arg2)]),
                ResidualKind::GetAttr { expr, attr } => ("get".into(), vec![child(expr), attr.number()]),
                ResidualKind::HasAttr { expr, attr } => ("has".into(), vec![child(expr), attr.number()]),
                ResidualKind::ExtHasAttr { expr, attrs } => {
                    let first = child(expr);
                    ("haspath".into(), std::iter::once(first).chain(attrs.iter().map(SmolStr::number)).collect())
                }
                ResidualKind::Is { expr, entity_type } => ("is".into(), vec![child(expr), entity_type.0]),
                ResidualKind::Like { expr, pattern } => {
                    let first = child(expr);
                    let items = pattern.items().iter().map(|item| match item {
                        Some(t) => t.number().to_string(),
                        None => "*".to_string(),
                    });
                    let words: Vec<String> = ["like".to_string(), first.to_string()].into_iter().chain(items).collect();
                    (words.join(","), Vec::new())
                }
                ResidualKind::Set(items) => ("set".into(), items.iter().map(child).collect()),
                ResidualKind::Record(fields) => {
                    ("record".into(), fields.iter().flat_map(|(t, tree)| [t.number(), child(tree)]).collect())
                }
                ResidualKind::ExtensionFunctionApp { .. } => unreachable!("extension functions are left out"),
            }
        }
    };
    text.push_str(&format!("node={},{word}", ground.type_number(tree.ty())));
    push_numbers(text, numbers.into_iter());
    *nodes += 1;
    *nodes - 1
}

// Demand 3 ---------------------------------------------------------------------------------------------------------------

/// What an answer says.
struct Said {
    decision: String,
    counts: Vec<usize>,
    why: Option<u32>,
    made: Vec<ValueRow>,
    nodes: Vec<sheet::NodeRow>,
    /// Id, effect, class and, in a partial answer, the root.
    policies: Vec<(u32, String, String, Option<u32>)>,
}

/// Reads an answer back.
fn said(mode: Mode, answer: &[u8]) -> Option<Said> {
    let text = std::str::from_utf8(answer).ok()?;
    let mut lines = text.strip_suffix('\n')?.split('\n').peekable();
    let decision = lines.next()?.strip_prefix("decision=")?.to_string();
    let counts = lines.next()?.strip_prefix("counts=")?.split(',').map(|n| n.parse().ok()).collect::<Option<Vec<usize>>>()?;
    let why = match lines.next()?.strip_prefix("why=")? {
        "none" => None,
        id => Some(id.parse().ok()?),
    };
    let mut said = Said { decision, counts, why, made: Vec::new(), nodes: Vec::new(), policies: Vec::new() };
    let items = |line: &'static str, text: &str| {
        text.strip_prefix(line).map(|rest| rest.split(',').map(str::to_string).collect::<Vec<_>>())
    };
    for line in lines {
        if let Some(items) = items("value=", line) {
            let items: Vec<&[u8]> = items.iter().map(|item| item.as_bytes()).collect();
            said.made.push(sheet::form_value_line(&items)?);
        } else if let Some(items) = items("node=", line) {
            let items: Vec<&[u8]> = items.iter().map(|item| item.as_bytes()).collect();
            let ty = std::str::from_utf8(items[0]).ok()?.parse().ok()?;
            let operation = sheet::form_operation(items[1], &items[2..])?;
            if matches!(operation, Operation::Slot(_)) {
                return None;
            }
            said.nodes.push(sheet::NodeRow { ty, operation });
        } else {
            let items = items("policy=", line)?;
            let root = items.get(3).map(|root| root.parse().ok()).unwrap_or(None);
            if items.len() != if mode == Mode::Partial { 4 } else { 3 } || (mode == Mode::Partial && root.is_none()) {
                return None;
            }
            said.policies.push((items[0].parse().ok()?, items[1].clone(), items[2].clone(), root));
        }
    }
    Some(said)
}

impl Said {
    /// The ids of the policies that gave the decision, by the answer's own lines: "a true forbid for a deny, a true permit for an allow".
    fn reasons(&self) -> Vec<u32> {
        let effect = match self.decision.as_str() {
            "allow" => "permit",
            "deny" => "forbid",
            _ => return Vec::new(),
        };
        self.policies.iter().filter(|line| line.1 == effect && line.2 == "true").map(|line| line.0).collect()
    }
}

/// How many of an answer's own lines gave its decision, where its name is that of the first of them; else what is wrong with it.
pub fn explained(mode: Mode, answer: &[u8]) -> Result<usize, String> {
    let said = said(mode, answer).ok_or("an answer does not read back")?;
    let reasons = said.reasons();
    if said.why != reasons.first().copied() {
        return Err(format!("an answer names {:?}, its lines that gave the decision are {reasons:?}", said.why));
    }
    Ok(reasons.len())
}

/// Whether the line of an entity agrees with the partial sheet's: "every known .. entity part is the same". "Two sheets agree on
/// parents", so these are compared as they stand, not what is reached through them.
fn agrees(partial: &EntityRow, complete: &EntityRow) -> bool {
    let same = |known: Option<u32>, other: Option<u32>| known.is_none() || known == other;
    partial.entity == complete.entity
        && same(partial.attributes, complete.attributes)
        && same(partial.tags, complete.tags)
        && same(partial.parents, complete.parents)
}

/// Demand 3 by running, from the bytes of three sheets and their three answers: all that is settled is the same, and
/// every residual yields what its policy yields. A partial sheet does not settle the name, but each answer's own lines explain it. Gives
/// the first thing that is not so.
pub fn demand3(sheets: [&[u8]; 3], answers: [&[u8]; 3]) -> Result<(), String> {
    for (mode, answer) in [Mode::Partial, Mode::Complete, Mode::Complete].into_iter().zip(answers) {
        explained(mode, answer)?;
    }
    let partial = said(Mode::Partial, answers[0]).ok_or("the partial answer does not read back")?;
    let sum: usize = partial.counts.iter().sum();
    if partial.counts.len() != 8 || sum != partial.policies.len() {
        return Err("the partial counts do not sum to the policies on term".into());
    }
    let first = sheet::read(Mode::Partial, sheets[0]).map_err(|_| "the partial sheet is refused")?;
    let given = first.values.len();
    for which in [1, 2] {
        let complete = said(Mode::Complete, answers[which]).ok_or("a complete answer does not read back")?;
        let sheet = sheet::read(Mode::Complete, sheets[which]).map_err(|_| "a complete sheet is refused")?;
        if ["allow", "deny"].contains(&partial.decision.as_str()) && partial.decision != complete.decision {
            return Err(format!("decision {} became {}", partial.decision, complete.decision));
        }
        if (first.day, &first.links, &first.terms) != (sheet.day, &sheet.links, &sheet.terms) {
            return Err("the sheets do not agree: another day, link or term".into());
        }
        if !first.entities.iter().all(|row| sheet.entities.iter().any(|other| agrees(row, other))) {
            return Err("the sheets do not agree: an entity is not listed, or a known part of it is another".into());
        }
        let policies = sheet.on_term();
        if partial.policies.len() != complete.policies.len() || partial.policies.len() != policies.len() {
            return Err("the policies are not as many".into());
        }
        let ground = Ground::of(&sheet);
        let run = Complete::of(&sheet, &ground);
        // Made values are carried over by content.
        let mut places: Vec<u32> = (0..given as u32).collect();
        for row in &partial.made {
            let value = ground.value(row, |n| places[n as usize]);
            places.push(rows::number(&value));
        }
        for (n, rule) in policies.into_iter().enumerate() {
            let (old, new) = (&partial.policies[n], &complete.policies[n]);
            if (old.0, &old.1) != (new.0, &new.1) || old.0 != rule.row.id {
                return Err(format!("policy line {n} names another policy"));
            }
            if old.2 != "open" && old.2 != new.2 {
                return Err(format!("policy {} was {} and became {}", old.0, old.2, new.2));
            }
            let yielded = run.yields(ground.linked(&sheet, rule));
            if class_of(yielded) != new.2 {
                return Err(format!("policy {} is called {} and yields {}", old.0, new.2, class_of(yielded)));
            }
            let residual = ground.tree(&partial.nodes, old.3.expect("a root"), None, &|n| places[n as usize]);
            if run.yields(residual) != yielded {
                return Err(format!("the residual of policy {} does not yield what the policy yields", old.0));
            }
        }
    }
    Ok(())
}

#[cfg(test)]
mod tests {
    use super::*;

    /// Decision and name of a partial sheet whose policies have an open, a true and a false node to choose from.
    fn named(policies: &str) -> (String, String) {
        let head = "sheet=partial/text=Broker/text=Action/text=quote/text=a/text=b/text=c/text=d/kind=0,e/kind=1,a/type=bool/type=record/\
                    type=entity,0/shape=1,-/shape=1,-/value=bool,1/value=bool,0/value=entity,0,2/principal=0,?/action=1,2/resource=0,2/\
                    context=1,?/day=2024-02-29/node=2,var,p/node=2,lit,2/node=0,eq,0,1/node=0,lit,0/node=0,lit,1/";
        let roots = policies.replace("open", "2").replace("true", "3").replace("false", "4");
        // Every root is used: the first policies, off term, have them all.
        let idle = "policy=0,permit,2/policy=1,permit,3/policy=2,forbid,3/policy=6,permit,4/";
        let terms: String = (0..4).map(|n| format!("term={n},2024-03-01,2024-03-01/")).collect();
        let sheet = format!("{head}{idle}{roots}{terms}").replace('/', "\n");
        let answer = answer(Mode::Partial, sheet.as_bytes()).expect("the sheet is accepted").expect("it has no groups");
        let text = String::from_utf8(answer).expect("answers are ASCII");
        let mut items = text.lines().map(|line| line.split_once('=').expect("a line has an `=`").1.to_string());
        (items.next().expect("a decision"), items.nth(1).expect("a name"))
    }

    #[test]
    fn the_first_in_order_is_named() {
        for (policies, decision, name) in [
            ("", "deny", "none"),
            ("policy=3,permit,false/", "deny", "none"),
            ("policy=3,forbid,open/", "deny", "none"),
            ("policy=3,permit,open/", "open", "none"),
            ("policy=3,permit,true/policy=4,forbid,open/", "open", "none"),
            ("policy=3,permit,open/policy=4,permit,true/", "allow", "4"),
            // not the lowest id, and none off term
            ("policy=5,permit,true/policy=4,permit,false/policy=3,permit,true/", "allow", "5"),
            ("policy=5,permit,true/policy=4,forbid,true/policy=3,forbid,true/", "deny", "4"),
        ] {
            assert_eq!(named(policies), (decision.to_string(), name.to_string()), "{policies}");
        }
    }

    #[test]
    fn names_that_lines_explain() {
        let explains =
            |head: &str, lines: &str| explained(Mode::Complete, format!("{head}{lines}").replace('/', "\n").as_bytes()).ok();
        let lines = "policy=3,permit,true/policy=4,forbid,true/policy=5,forbid,false/policy=2,forbid,true/";
        for (name, reasons) in [("4", Some(2)), ("2", None), ("3", None), ("5", None), ("7", None), ("none", None)] {
            assert_eq!(explains(&format!("decision=deny/counts=1,0,0,0,2,1,0,0/why={name}/"), lines), reasons, "{name}");
        }
        assert_eq!(explains("decision=deny/counts=0,0,0,0,0,0,0,0/why=none/", ""), Some(0));
        assert_eq!(explains("decision=deny/counts=0,0,0,0,0,0,0,0/", ""), None);
    }
}
