//! Policies and residuals as policy sets.

use super::{Error, Printer};
use crate::cedar::json::Json;
use openrules::sheet::{Binary, Effect, Link, Operation, Sheet, Slot, Unary, Variable};
use openrules::Answer;

fn binary(word: Binary) -> &'static str {
    match word {
        Binary::And => "&&",
        Binary::Or => "||",
        Binary::Eq => "==",
        Binary::Lt => "<",
        Binary::Le => "<=",
        Binary::Add => "+",
        Binary::Sub => "-",
        Binary::Mul => "*",
        Binary::In => "in",
        Binary::GetTag => "getTag",
        Binary::HasTag => "hasTag",
        Binary::Contains => "contains",
        Binary::All => "containsAll",
        Binary::Any => "containsAny",
    }
}

fn unary(word: Unary) -> &'static str {
    match word {
        Unary::Not => "!",
        Unary::Neg => "neg",
        Unary::Empty => "isEmpty",
    }
}

fn variable(variable: Variable) -> &'static str {
    match variable {
        Variable::Principal => "principal",
        Variable::Action => "action",
        Variable::Resource => "resource",
        Variable::Context => "context",
    }
}

fn slot(slot: Slot) -> &'static str {
    match slot {
        Slot::Principal => "?principal",
        Slot::Resource => "?resource",
    }
}

impl Printer<'_> {
    /// The expression with this root.
    fn expression(&self, root: usize) -> Result<Json, Error> {
        self.part()?;
        let operation = &self.nodes.get(root).ok_or(Error::Reference)?.operation;
        if operation.children().iter().any(|child| *child >= root) {
            return Err(Error::Reference);
        }
        let (word, body) = match operation {
            Operation::Lit(value) => ("Value", self.value(*value)?),
            Operation::Err => ("error", Json::List(vec![])),
            Operation::Var(one) => ("Var", variable(*one).into()),
            Operation::Slot(one) => ("Slot", slot(*one).into()),
            Operation::Unary(word, child) => (unary(*word), Json::object([("arg", self.expression(*child)?)])),
            Operation::Binary(word, left, right) => {
                (binary(*word), Json::object([("left", self.expression(*left)?), ("right", self.expression(*right)?)]))
            }
            Operation::If(test, yes, no) => {
                let [test, yes, no] = [test, yes, no].map(|part| self.expression(*part));
                ("if-then-else", Json::object([("if", test?), ("then", yes?), ("else", no?)]))
            }
            Operation::Is(child, kind) => ("is", self.asked(*child, "entity_type", self.kind(*kind)?.into())?),
            Operation::Like(child, pattern) => ("like", self.asked(*child, "pattern", self.pattern(pattern)?)?),
            Operation::Get(child, name) => (".", self.asked(*child, "attr", self.text(*name)?.into())?),
            Operation::Has(child, name) => ("has", self.asked(*child, "attr", self.text(*name)?.into())?),
            Operation::HasPath(child, path) => {
                let path = path.iter().map(|name| Ok(self.text(*name)?.into())).collect::<Result<_, Error>>()?;
                ("has", self.asked(*child, "attr", Json::List(path))?)
            }
            Operation::Set(children) => {
                ("Set", Json::List(children.iter().map(|child| self.expression(*child)).collect::<Result<_, _>>()?))
            }
            Operation::Record(fields) => {
                let field = |(name, child): &(usize, usize)| Ok((self.text(*name)?.into(), self.expression(*child)?));
                ("Record", Json::Object(fields.iter().map(field).collect::<Result<_, Error>>()?))
            }
        };
        Ok(Json::object([(word, body)]))
    }

    /// An operand, and what is asked of it.
    fn asked(&self, child: usize, name: &str, what: Json) -> Result<Json, Error> {
        Ok(Json::object([("left", self.expression(child)?), (name, what)]))
    }

    fn pattern(&self, pattern: &[Option<usize>]) -> Result<Json, Error> {
        let item = |item: &Option<usize>| match item {
            Some(text) => Ok(Json::object([("Literal", self.text(*text)?.into())])),
            None => Ok("Wildcard".into()),
        };
        Ok(Json::List(pattern.iter().map(item).collect::<Result<_, Error>>()?))
    }

    /// A policy with the whole tree as its condition.
    fn policy(&self, effect: Effect, root: usize) -> Result<Json, Error> {
        let all = || Json::object([("op", "All".into())]);
        let condition = Json::object([("kind", "when".into()), ("body", self.expression(root)?)]);
        Ok(Json::object([
            ("effect", effect.to_string().as_str().into()),
            ("principal", all()),
            ("action", all()),
            ("resource", all()),
            ("conditions", Json::List(vec![condition])),
        ]))
    }

    /// The values of a link's slots.
    fn slots(&self, link: &Link) -> Result<Json, Error> {
        let mut values = vec![];
        for (place, value) in [(Slot::Principal, link.principal), (Slot::Resource, link.resource)] {
            if let Some(value) = value {
                let (kind, text) = self.entity(value)?;
                values.push((slot(place).to_string(), self.uid(kind, text)?));
            }
        }
        Ok(Json::Object(values))
    }
}

/// The policies of a sheet that are on term, each with its tree as its one condition. Those whose slots a link fills are links of a template, one for each root
/// and effect; they come last.
///
/// ```
/// use openrules::sheet::Sheet;
/// use openrules_tools::cedar::print;
///
/// let sheet = Sheet::read(include_bytes!("../../../../examples/one-rule-three-brokers.sheet")).unwrap();
/// let policies = print::policies(&sheet).unwrap().to_string();
/// assert!(policies.contains(r#"{"templateId":"permit 7","newId":"tariff of b1","values":{"?principal":{"type":"Broker","id":"b1"}}}"#));
/// ```
pub fn policies(sheet: &Sheet) -> Result<Json, Error> {
    let printer = Printer::of_sheet(sheet);
    let (mut fixed, mut templates, mut links) = (vec![], vec![], vec![]);
    for (number, policy) in sheet.policies.iter().enumerate().filter(|(number, _)| on_term(sheet, *number)) {
        let id = printer.text(policy.id)?;
        let filled = |link: &&Link| link.policy == number && (link.principal.is_some() || link.resource.is_some());
        let Some(link) = sheet.links.iter().find(filled) else {
            fixed.push((id.into(), printer.policy(policy.effect, policy.root)?));
            continue;
        };
        let template = format!("{} {}", policy.effect, policy.root);
        if !templates.iter().any(|(name, _)| *name == template) {
            templates.push((template.clone(), printer.policy(policy.effect, policy.root)?));
        }
        let values = printer.slots(link)?;
        links.push(Json::object([("templateId", template.as_str().into()), ("newId", id.into()), ("values", values)]));
    }
    let [fixed, templates] = [fixed, templates].map(Json::Object);
    Ok(Json::object([("staticPolicies", fixed), ("templates", templates), ("templateLinks", Json::List(links))]))
}

/// Whether a policy runs on the sheet's day.
fn on_term(sheet: &Sheet, policy: usize) -> bool {
    sheet.terms.iter().all(|term| term.policy != policy || (term.first..=term.last).contains(&sheet.day))
}

/// What an answer leaves of each policy, as a policy set. The answer to a complete sheet leaves none.
///
/// ```
/// use openrules::sheet::Sheet;
/// use openrules_tools::cedar::print;
///
/// let sheet = Sheet::read(include_bytes!("../../../../examples/open-forbid-alone.sheet")).unwrap();
/// let answer = openrules::Evaluator::new().answer(sheet.to_string().as_bytes()).unwrap();
/// let left = print::residuals(&sheet, &answer).unwrap().to_string();
/// assert!(left.starts_with(r#"{"staticPolicies":{"not insured":{"effect":"forbid","#));
/// ```
pub fn residuals(sheet: &Sheet, answer: &Answer) -> Result<Json, Error> {
    let printer = Printer::of_answer(sheet, answer);
    let mut left = vec![];
    for policy in &answer.policies {
        if let Some(root) = policy.root {
            left.push((policy.id.to_string(), printer.policy(policy.effect, root)?));
        }
    }
    Ok(Json::object([("staticPolicies", Json::Object(left))]))
}
