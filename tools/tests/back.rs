//! The way back: random sheets of the host's generator, written as Cedar's JSON and read again, have the same decision and the same policy lines; and what is
//! left of their policies, written as JSON, is read as the same trees.
//!
//! Kinds get Cedar's names first. Cedar's JSON does not hold every sheet: where it has no place for something, that is changed, see `tame`; a sheet with groups of
//! kinds is passed over. JSON has no types of expressions: where a node was read with another type than it had, a difference is counted and not held against the tool.
//!
//! It is a program of its own, so that the tests in the host's files stay there. OPENRULES_SHEETS has the number of sheets, and OPENRULES_SEED the seed.

#[allow(dead_code, unused_imports, clippy::all)]
#[path = "../../host/src/draft.rs"]
mod draft;
#[allow(dead_code, unused_imports, clippy::all)]
#[path = "../../host/src/generate.rs"]
mod generate;
#[allow(dead_code, unused_imports, clippy::all)]
#[path = "../../host/src/parents.rs"]
mod parents;
#[allow(dead_code, unused_imports, clippy::all)]
#[path = "../../host/src/random.rs"]
mod random;
#[allow(dead_code, unused_imports, clippy::all)]
#[path = "../../host/src/sheet.rs"]
mod sheet;

use openrules::cedar::{Expr, Literal, Text};
use openrules::sheet::{Entity, Mode, Node, Sheet, Type, Value};
use openrules::{Answer, Evaluator};
use openrules_tools::cedar::error::Error;
use openrules_tools::cedar::{print, File, Files, Options};
use std::collections::BTreeMap;

// What Cedar's JSON has no place for ------------------------------------------------------------------------------------

/// The number of a value, which is added if it is new.
fn value(sheet: &mut Sheet, row: Value) -> usize {
    let place = sheet.values.iter().position(|value| *value == row);
    place.unwrap_or_else(|| {
        sheet.values.push(row);
        sheet.values.len() - 1
    })
}

fn entity(sheet: &Sheet, number: usize) -> (usize, usize) {
    match sheet.values[number] {
        Value::Entity { kind, text } => (kind, text),
        _ => panic!("a parent is an entity"),
    }
}

fn is_action(sheet: &Sheet, number: usize) -> bool {
    sheet.kinds[entity(sheet, number).0].action
}

fn parents(sheet: &Sheet, row: &Entity) -> Vec<usize> {
    match row.parents.map(|parents| &sheet.values[parents]) {
        Some(Value::Set(parents)) => parents.clone(),
        _ => vec![],
    }
}

/// Gives kinds Cedar's names.
fn name(sheet: &mut Sheet) {
    for (number, kind) in sheet.kinds.iter().enumerate() {
        let name = if kind.action { format!("N{number}::Action") } else { format!("Kind{number}") };
        sheet.texts[kind.name] = name;
    }
}

/// Makes a sheet one that Cedar's JSON holds: the kinds above are closed and those of actions follow from the actions, all is known of actions, and actions are in
/// later actions alone, other entities in none.
fn tame(sheet: &mut Sheet) {
    known_actions(sheet);
    for place in 0..sheet.entities.len() {
        let row = sheet.entities[place];
        if row.parents.is_some() {
            let action = is_action(sheet, row.entity);
            let may = |parent: &usize| is_action(sheet, *parent) == action && (!action || *parent > row.entity);
            let kept = parents(sheet, &row).into_iter().filter(may).collect();
            sheet.entities[place].parents = Some(value(sheet, Value::Set(kept)));
        }
    }
    close(sheet);
}

/// Lists all actions with all that is to be known of them, at least one of each kind.
fn known_actions(sheet: &mut Sheet) {
    let (record, set) = (value(sheet, Value::Record(vec![])), value(sheet, Value::Set(vec![])));
    for kind in (0..sheet.kinds.len()).filter(|kind| sheet.kinds[*kind].action).collect::<Vec<_>>() {
        value(sheet, Value::Entity { kind, text: sheet.action.text.unwrap() });
    }
    for number in 0..sheet.values.len() {
        if !matches!(sheet.values[number], Value::Entity { .. }) || !is_action(sheet, number) {
            continue;
        }
        if !sheet.entities.iter().any(|row| row.entity == number) {
            sheet.entities.push(Entity { entity: number, attributes: None, tags: None, parents: None });
        }
        let row = sheet.entities.iter_mut().find(|row| row.entity == number).unwrap();
        row.attributes = Some(record);
        row.tags = Some(record);
        row.parents = row.parents.or(Some(set));
    }
    sheet.entities.sort_by_key(|row| row.entity);
}

/// The kinds above each kind: those above these too, and for actions those that actions are in.
fn close(sheet: &mut Sheet) {
    let mut above: Vec<Vec<usize>> = sheet.shapes.iter().map(|shape| shape.above.clone()).collect();
    for (kind, row) in sheet.kinds.iter().enumerate() {
        above[kind].retain(|one| !row.action && !sheet.kinds[*one].action);
    }
    for row in sheet.entities.iter().filter(|row| is_action(sheet, row.entity)) {
        let kinds = parents(sheet, row).into_iter().map(|parent| entity(sheet, parent).0);
        above[entity(sheet, row.entity).0].extend(kinds);
    }
    // For actions by the actions themselves: those of the groups of their groups.
    let mut reached: BTreeMap<usize, Vec<usize>> = BTreeMap::new();
    for row in sheet.entities.iter().rev().filter(|row| is_action(sheet, row.entity)) {
        let direct = parents(sheet, row);
        let further = direct.iter().flat_map(|parent| reached.get(parent).cloned().unwrap_or_default());
        let all: Vec<usize> = direct.iter().copied().chain(further).collect();
        above[entity(sheet, row.entity).0].extend(all.iter().map(|one| entity(sheet, *one).0));
        reached.insert(row.entity, all);
    }
    for _ in 0..sheet.kinds.len() {
        for kind in (0..above.len()).filter(|kind| !sheet.kinds[*kind].action) {
            let more: Vec<usize> = above[kind].iter().flat_map(|one| above[*one].clone()).collect();
            above[kind].extend(more);
        }
        above.iter_mut().for_each(|kinds| {
            kinds.sort_unstable();
            kinds.dedup();
        });
    }
    sheet.shapes.iter_mut().zip(above).for_each(|(shape, above)| shape.above = above);
}

// What is compared ------------------------------------------------------------------------------------------------------

/// A literal with its sets and records in one order: the numbers of texts and values are others after the way.
fn ordered_literal(literal: &Literal) -> Literal {
    match literal {
        Literal::Set(elements) => {
            let mut elements: Vec<Literal> = elements.iter().map(ordered_literal).collect();
            elements.sort();
            Literal::Set(elements.into())
        }
        Literal::Record(fields) => {
            let mut fields: Vec<(Text, Literal)> =
                fields.iter().map(|(name, one)| (name.clone(), ordered_literal(one))).collect();
            fields.sort();
            Literal::Record(fields.into())
        }
        literal => literal.clone(),
    }
}

/// A tree in one order, with texts that stand side by side in a pattern as one: Cedar's patterns have characters.
fn ordered(tree: &Expr) -> Expr {
    let of = |tree: &Expr| Box::new(ordered(tree));
    match tree {
        Expr::Lit(literal) => Expr::Lit(ordered_literal(literal)),
        Expr::Err | Expr::Var(_) | Expr::Slot(_) => tree.clone(),
        Expr::Unary(word, a) => Expr::Unary(*word, of(a)),
        Expr::Binary(word, a, b) => Expr::Binary(*word, of(a), of(b)),
        Expr::If(a, b, c) => Expr::If(of(a), of(b), of(c)),
        Expr::Is(a, kind) => Expr::Is(of(a), kind.clone()),
        Expr::Like(a, pattern) => Expr::Like(of(a), joined(pattern)),
        Expr::Get(a, name) => Expr::Get(of(a), name.clone()),
        Expr::Has(a, name) => Expr::Has(of(a), name.clone()),
        Expr::HasPath(a, path) => Expr::HasPath(of(a), path.clone()),
        Expr::Set(elements) => Expr::Set(elements.iter().map(ordered).collect()),
        Expr::Record(fields) => {
            let mut fields: Vec<(Text, Expr)> = fields.iter().map(|(name, one)| (name.clone(), ordered(one))).collect();
            fields.sort_by(|one, two| one.0.cmp(&two.0));
            Expr::Record(fields)
        }
    }
}

fn joined(pattern: &[Option<Text>]) -> Vec<Option<Text>> {
    let mut all: Vec<Option<Text>> = vec![];
    for item in pattern {
        match (all.last_mut(), item) {
            (Some(Some(before)), Some(text)) => *before = format!("{before}{text}").into(),
            _ => all.push(item.clone()),
        }
    }
    all
}

/// The id, effect, class and residual of each policy, by id.
fn lines(answer: &Answer) -> BTreeMap<String, (String, Option<Expr>)> {
    let line = |policy: &openrules::Verdict| {
        (policy.id.to_string(), (format!("{} {}", policy.effect, policy.class), policy.residual.as_ref().map(ordered)))
    };
    answer.policies.iter().map(line).collect()
}

/// A type by names.
fn type_text(sheet: &Sheet, number: usize) -> String {
    match &sheet.types[number] {
        Type::Entity(kinds) => {
            kinds.iter().map(|kind| sheet.texts[sheet.kinds[*kind].name].clone()).collect::<Vec<_>>().join("|")
        }
        Type::Set(element) => format!("Set<{}>", type_text(sheet, *element)),
        Type::Record(attributes) => {
            let field = |one: &openrules::sheet::Attribute| {
                format!("{:?}{}: {}", sheet.texts[one.text], if one.required { "" } else { "?" }, type_text(sheet, one.ty))
            };
            let mut fields: Vec<String> = attributes.iter().map(field).collect();
            fields.sort();
            format!("{{{}}}", fields.join(", "))
        }
        ty => ty.to_string(),
    }
}

/// The types of all nodes under a root; those of a record in the order of the names.
fn types_under(sheet: &Sheet, root: usize, all: &mut Vec<String>) {
    let Node { ty, operation } = &sheet.nodes[root];
    all.push(type_text(sheet, *ty));
    let mut children = operation.children();
    if let openrules::sheet::Operation::Record(fields) = operation {
        let mut fields: Vec<(&String, usize)> = fields.iter().map(|(text, child)| (&sheet.texts[*text], *child)).collect();
        fields.sort();
        children = fields.into_iter().map(|(_, child)| child).collect();
    }
    children.into_iter().for_each(|child| types_under(sheet, child, all));
}

/// The types of the nodes of each policy, by id, of those in the answer.
fn types(sheet: &Sheet, answer: &Answer) -> BTreeMap<String, Vec<String>> {
    let mut all = BTreeMap::new();
    for policy in &sheet.policies {
        let id = &sheet.texts[policy.id];
        if answer.policies.iter().any(|line| *line.id == **id) {
            types_under(sheet, policy.root, all.entry(id.clone()).or_default());
        }
    }
    all
}

// The way ----------------------------------------------------------------------------------------------------------------

fn file<'a>(name: &'a str, text: &'a str) -> File<'a> {
    File { name, bytes: text.as_bytes() }
}

fn read(files: &print::Files, policies: &str, sheet: &Sheet) -> Result<Sheet, Error> {
    let [schema, entities, request] = [&files.schema, &files.entities, &files.request].map(|file| file.to_string());
    let files = Files {
        schema: file("schema.json", &schema),
        policies: file("policies.json", policies),
        entities: file("entities.json", &entities),
        request: file("request.json", &request),
    };
    openrules_tools::cedar::sheet(&files, &Options { mode: sheet.mode, day: sheet.day, short: false, after: None })
}

/// How often what was met.
#[derive(Default)]
struct Counts(BTreeMap<String, usize>);

impl Counts {
    fn add(&mut self, what: impl Into<String>) {
        *self.0.entry(what.into()).or_default() += 1;
    }

    fn of(&self, what: &str) -> usize {
        self.0.get(what).copied().unwrap_or(0)
    }
}

/// The words of an error without places and names.
fn reason(error: &Error) -> &'static str {
    match error {
        Error::Room { .. } => "no room",
        Error::Undeclared { .. } | Error::Type { .. } => "not read: a value or an error has a type that JSON does not hold",
        _ => panic!("{error}"),
    }
}

/// A sheet to JSON and back.
fn there_and_back(sheet: &Sheet, evaluator: &mut Evaluator, counts: &mut Counts) {
    let text = sheet.to_string();
    let first = match evaluator.answer(text.as_bytes()) {
        Ok(first) => first,
        Err(error) => return counts.add(format!("past a limit when tamed: {error}")),
    };
    let files = match print::sheet(sheet) {
        Ok(files) => files,
        Err(error) => return counts.add(format!("not written: {error}")),
    };
    let policies = files.policies.to_string();
    match read(&files, &policies, sheet) {
        Err(error) => counts.add(reason(&error)),
        Ok(again) => {
            let second =
                evaluator.answer(again.to_string().as_bytes()).unwrap_or_else(|error| panic!("{error}\n{text}\n{policies}"));
            let same = (first.decision, lines(&first)) == (second.decision, lines(&second));
            // Links come last in JSON, so that another of several policies may be the first that gave the decision.
            let moved = sheet.links.iter().any(|link| link.principal.is_some() || link.resource.is_some());
            let same = same && (moved || first.why == second.why);
            let typed = types(sheet, &first) == types(&again, &second);
            match (same, typed) {
                (true, _) => counts.add("the same"),
                (false, false) => counts.add("other types"),
                (false, true) => panic!("{text}\n{first}\n{policies}\n{again}\n{second}"),
            }
        }
    }
    if sheet.mode == Mode::Partial {
        residuals(sheet, &first, &files, evaluator, counts);
    }
}

/// What is left of the policies, as JSON, is read as the same trees.
fn residuals(sheet: &Sheet, answer: &Answer, files: &print::Files, evaluator: &mut Evaluator, counts: &mut Counts) {
    let printed = match print::residuals(sheet, answer) {
        Ok(printed) => printed.to_string(),
        Err(error) => return counts.add(format!("residuals not written: {error}")),
    };
    let again = match read(files, &printed, sheet) {
        Ok(again) => again,
        Err(error) => return counts.add(format!("residuals {}", reason(&error))),
    };
    assert!(evaluator.partial(again.to_string().as_bytes()).result().is_ok(), "{again}");
    let trees: BTreeMap<String, Expr> =
        again.rules().unwrap().iter().map(|rule| (rule.id.to_string(), ordered(&rule.condition))).collect();
    for policy in &answer.policies {
        let left = ordered(policy.residual.as_ref().unwrap());
        assert_eq!(trees[&*policy.id], left, "{sheet}\n{printed}");
        counts.add("residual trees the same");
    }
}

fn main() {
    let number = |name: &str, else_: u64| std::env::var(name).ok().and_then(|text| text.parse().ok()).unwrap_or(else_);
    let (sheets, seed) = (number("OPENRULES_SHEETS", 300), number("OPENRULES_SEED", 1));
    let mut evaluator = Evaluator::new();
    let mut counts = Counts::default();
    for n in 0..sheets {
        let bytes = generate::sheet(seed, n).bytes;
        if evaluator.answer(&bytes).is_err() {
            counts.add("refused by the library as they are");
            continue;
        }
        let mut sheet = Sheet::read(&bytes).unwrap();
        if sheet.types.iter().any(|ty| matches!(ty, Type::Entity(kinds) if kinds.len() > 1)) {
            counts.add("with groups of kinds");
            continue;
        }
        name(&mut sheet);
        if print::sheet(&sheet).is_err() {
            counts.add("tamed");
            tame(&mut sheet);
        }
        there_and_back(&sheet, &mut evaluator, &mut counts);
    }
    println!("the way to JSON and back: {sheets} sheets of seed {seed}");
    counts.0.iter().for_each(|(what, count)| println!("{count:8} {what}"));
    assert!(counts.of("the same") > 0 && counts.of("residual trees the same") > 0);
}
