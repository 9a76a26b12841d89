//! Reads sheets, plainly: the form of each line, the order of keys, that numbers refer to something earlier, depths and single uses.
//!
//! Typing, repeats, the greatest number of lines and unused nodes are left to the library, which alone judges a sheet.

use std::error::Error;
use std::fmt;
use std::str::FromStr;

use super::{
    Attribute, Binary, Context, Day, Effect, Entity, Kind, Link, Mode, Node, Operation, Party, Policy, Shape, Sheet, Slot, Term,
    Type, Unary, Value, Variable,
};

/// A tree of a sheet is never deeper.
const GREATEST_DEPTH: usize = 64;

/// Where an answer is read, or rows that were made by hand: a tree is never deeper, so that no walk over it goes too deep.
pub(crate) const GREATEST_ANSWER_DEPTH: usize = 128;

/// The bytes that a text may have.
const GREATEST_TEXT: usize = 128;

/// Why a text is no sheet or no answer, or why rows make no tree.
///
/// It is not a refusal: those come from the library alone.
///
/// ```
/// use openrules::sheet::Sheet;
///
/// let fault = "sheet=partial\ntext=Broker\nkind=1,e\n".parse::<Sheet>().unwrap_err();
/// assert_eq!(fault.line, 3);
/// assert_eq!(fault.to_string(), "line 3: a number refers to nothing earlier");
/// ```
#[derive(Clone, Copy, Debug, PartialEq, Eq)]
pub struct Fault {
    /// The line, counted from 1; the one after the last where a line is missing; 0 where rows were not read from a text.
    pub line: usize,
    /// What is wrong there.
    pub reason: &'static str,
}

impl Fault {
    pub(crate) const FORM: &'static str = "the form of the line is wrong";
    pub(crate) const ORDER: &'static str = "the line does not stand in the order of keys, or is a second one";
    pub(crate) const REFERENCE: &'static str = "a number refers to nothing earlier";
    pub(crate) const DEPTH: &'static str = "a tree is too deep";
    pub(crate) const TWICE: &'static str = "a node is used twice";
    pub(crate) const MISSING: &'static str = "a line is missing";
    pub(crate) const UNENDED: &'static str = "the line is not ended";
    const DAY: &'static str = "a day is written as 2026-06-30, and is one from 1900-01-01 to 2199-12-31";

    pub(crate) fn new(line: usize, reason: &'static str) -> Fault {
        Fault { line, reason }
    }
}

impl fmt::Display for Fault {
    fn fmt(&self, f: &mut fmt::Formatter<'_>) -> fmt::Result {
        match self.line {
            0 => f.write_str(self.reason),
            line => write!(f, "line {line}: {}", self.reason),
        }
    }
}

impl Error for Fault {}

/// The lines of a text with their numbers from 1, each taken apart at its first `=`; bytes 32 to 126 alone stand in a line.
pub(crate) fn lines(text: &[u8]) -> Result<Vec<(usize, &str, &str)>, Fault> {
    let mut taken = Vec::new();
    let mut rest = text;
    while !rest.is_empty() {
        let number = taken.len() + 1;
        let end = rest.iter().position(|byte| *byte == b'\n').ok_or(Fault::new(number, Fault::UNENDED))?;
        let (line, after) = (&rest[..end], &rest[end + 1..]);
        let parts = if line.iter().all(|byte| (32..=126).contains(byte)) {
            std::str::from_utf8(line).ok().and_then(|line| line.split_once('='))
        } else {
            None
        };
        let (key, value) = parts.ok_or(Fault::new(number, Fault::FORM))?;
        taken.push((number, key, value));
        rest = after;
    }
    Ok(taken)
}

// The items of a line ----------------------------------------------------------------------------------------------------

/// A number of at most four digits, as it is printed.
pub(crate) fn form_index(item: &str) -> Option<usize> {
    let number: usize = item.parse().ok()?;
    (item.len() <= 4 && number.to_string() == item).then_some(number)
}

fn indices(items: &[&str]) -> Option<Vec<usize>> {
    items.iter().map(|item| form_index(item)).collect()
}

/// A number, or the mark as None.
fn index_or(item: &str, mark: &str) -> Option<Option<usize>> {
    if item == mark {
        return Some(None);
    }
    form_index(item).map(Some)
}

fn long(item: &str) -> Option<i64> {
    let number: i64 = item.parse().ok()?;
    (number.to_string() == item).then_some(number)
}

fn pairs(items: &[&str]) -> Option<Vec<(usize, usize)>> {
    let pairs = items.chunks_exact(2);
    if !pairs.remainder().is_empty() {
        return None;
    }
    pairs.map(|pair| Some((form_index(pair[0])?, form_index(pair[1])?))).collect()
}

fn days_in(year: u16, month: u8) -> u8 {
    let leap = match (year % 4, year % 100, year % 400) {
        (_, _, 0) => true,
        (_, 0, _) => false,
        (rest, _, _) => rest == 0,
    };
    match month {
        2 if leap => 29,
        2 => 28,
        4 | 6 | 9 | 11 => 30,
        1..=12 => 31,
        _ => 0,
    }
}

/// Reads a day as it is written on a sheet.
///
/// ```
/// use openrules::sheet::Day;
///
/// assert_eq!("2026-06-30".parse(), Ok(Day { year: 2026, month: 6, day: 30 }));
/// assert!("2100-02-29".parse::<Day>().is_err() && "2026-6-30".parse::<Day>().is_err());
/// ```
impl FromStr for Day {
    type Err = Fault;

    fn from_str(text: &str) -> Result<Day, Fault> {
        form_day(text).ok_or(Fault::new(0, Fault::DAY))
    }
}

fn form_day(item: &str) -> Option<Day> {
    let mut parts = item.splitn(3, '-');
    let (year, month, day) = (parts.next()?, parts.next()?, parts.next()?);
    let day = Day { year: year.parse().ok()?, month: month.parse().ok()?, day: day.parse().ok()? };
    let there = (1900..=2199).contains(&day.year) && (1..=days_in(day.year, day.month)).contains(&day.day);
    (there && day.to_string() == item).then_some(day)
}

fn form_kind(items: &[&str]) -> Option<Kind> {
    let [name, sort] = items else { return None };
    let action = match *sort {
        "e" => false,
        "a" => true,
        _ => return None,
    };
    Some(Kind { name: form_index(name)?, action })
}

fn form_attribute(items: &[&str]) -> Option<Attribute> {
    let [text, need, ty] = items else { return None };
    let required = match *need {
        "r" => true,
        "o" => false,
        _ => return None,
    };
    Some(Attribute { text: form_index(text)?, required, ty: form_index(ty)? })
}

fn form_type(items: &[&str]) -> Option<Type> {
    let (word, rest) = items.split_first()?;
    match (*word, rest.len()) {
        ("bool", 0) => Some(Type::Bool),
        ("long", 0) => Some(Type::Long),
        ("string", 0) => Some(Type::String),
        ("entity", 1..) => indices(rest).map(Type::Entity),
        ("set", 1) => form_index(rest[0]).map(Type::Set),
        ("record", _) => rest.chunks(3).map(form_attribute).collect::<Option<_>>().map(Type::Record),
        _ => None,
    }
}

fn form_shape(items: &[&str]) -> Option<Shape> {
    let [attributes, tags, above @ ..] = items else { return None };
    Some(Shape { attributes: form_index(attributes)?, tags: index_or(tags, "-")?, above: indices(above)? })
}

pub(crate) fn form_value(value: &str) -> Option<Value> {
    let items: Vec<&str> = value.split(',').collect();
    let (word, rest) = items.split_first()?;
    match (*word, rest) {
        ("bool", ["0"]) => Some(Value::Bool(false)),
        ("bool", ["1"]) => Some(Value::Bool(true)),
        ("long", [number]) => long(number).map(Value::Long),
        ("text", [text]) => form_index(text).map(Value::Text),
        ("entity", [kind, text]) => Some(Value::Entity { kind: form_index(kind)?, text: form_index(text)? }),
        ("set", elements) => indices(elements).map(Value::Set),
        ("record", fields) => pairs(fields).map(Value::Record),
        _ => None,
    }
}

/// An entity line; `?` stands on a partial sheet only.
fn form_entity(items: &[&str], mode: Mode) -> Option<Entity> {
    let [entity, attributes, tags, parents] = items else { return None };
    Some(Entity {
        entity: form_index(entity)?,
        attributes: known_or_not(attributes, mode)?,
        tags: known_or_not(tags, mode)?,
        parents: known_or_not(parents, mode)?,
    })
}

fn known_or_not(item: &str, mode: Mode) -> Option<Option<usize>> {
    match mode {
        Mode::Partial => index_or(item, "?"),
        Mode::Complete => form_index(item).map(Some),
    }
}

fn form_party(items: &[&str], mode: Mode) -> Option<Party> {
    let [kind, text] = items else { return None };
    Some(Party { kind: form_index(kind)?, text: known_or_not(text, mode)? })
}

fn form_context(items: &[&str], mode: Mode) -> Option<Context> {
    let [ty, value] = items else { return None };
    Some(Context { ty: form_index(ty)?, value: known_or_not(value, mode)? })
}

fn form_operation(word: &str, rest: &[&str]) -> Option<Operation> {
    if let [left, right] = rest {
        if let Some(two) = Binary::ALL.into_iter().find(|two| two.word() == word) {
            return Some(Operation::Binary(two, form_index(left)?, form_index(right)?));
        }
    }
    if let [child] = rest {
        if let Some(one) = Unary::ALL.into_iter().find(|one| one.word() == word) {
            return Some(Operation::Unary(one, form_index(child)?));
        }
    }
    match (word, rest) {
        ("lit", [value]) => form_index(value).map(Operation::Lit),
        ("err", []) => Some(Operation::Err),
        ("var", ["p"]) => Some(Operation::Var(Variable::Principal)),
        ("var", ["a"]) => Some(Operation::Var(Variable::Action)),
        ("var", ["r"]) => Some(Operation::Var(Variable::Resource)),
        ("var", ["c"]) => Some(Operation::Var(Variable::Context)),
        ("slot", ["p"]) => Some(Operation::Slot(Slot::Principal)),
        ("slot", ["r"]) => Some(Operation::Slot(Slot::Resource)),
        ("if", [test, yes, no]) => Some(Operation::If(form_index(test)?, form_index(yes)?, form_index(no)?)),
        ("is", [child, kind]) => Some(Operation::Is(form_index(child)?, form_index(kind)?)),
        ("like", [child, pattern @ ..]) => {
            let pattern = pattern.iter().map(|item| index_or(item, "*")).collect::<Option<_>>()?;
            Some(Operation::Like(form_index(child)?, pattern))
        }
        ("get", [child, text]) => Some(Operation::Get(form_index(child)?, form_index(text)?)),
        ("has", [child, text]) => Some(Operation::Has(form_index(child)?, form_index(text)?)),
        ("haspath", [child, path @ ..]) if !path.is_empty() => Some(Operation::HasPath(form_index(child)?, indices(path)?)),
        ("set", children) => indices(children).map(Operation::Set),
        ("record", fields) => pairs(fields).map(Operation::Record),
        _ => None,
    }
}

pub(crate) fn form_node(value: &str) -> Option<Node> {
    let items: Vec<&str> = value.split(',').collect();
    let [ty, word, rest @ ..] = &items[..] else { return None };
    Some(Node { ty: form_index(ty)?, operation: form_operation(word, rest)? })
}

fn form_policy(items: &[&str]) -> Option<Policy> {
    let [id, effect, root] = items else { return None };
    Some(Policy { id: form_index(id)?, effect: Effect::from_word(effect)?, root: form_index(root)? })
}

fn form_link(items: &[&str]) -> Option<Link> {
    let [policy, principal, resource] = items else { return None };
    Some(Link { policy: form_index(policy)?, principal: index_or(principal, "-")?, resource: index_or(resource, "-")? })
}

fn form_term(items: &[&str]) -> Option<Term> {
    let [policy, first, last] = items else { return None };
    Some(Term { policy: form_index(policy)?, first: form_day(first)?, last: form_day(last)? })
}

impl Effect {
    /// The effect that a word of a sheet or an answer names.
    pub(crate) fn from_word(word: &str) -> Option<Effect> {
        match word {
            "permit" => Some(Effect::Permit),
            "forbid" => Some(Effect::Forbid),
            _ => None,
        }
    }
}

// What numbers may refer to ----------------------------------------------------------------------------------------------

/// How many rows there are that a value or a node may refer to, and how deep those of values and nodes are.
pub(crate) struct Scope {
    pub(crate) texts: usize,
    pub(crate) kinds: usize,
    pub(crate) types: usize,
    greatest_depth: usize,
    value_depths: Vec<usize>,
    node_depths: Vec<usize>,
    used: Vec<bool>,
}

impl Scope {
    /// The scope of an answer: what its values and nodes may refer to at the first of its lines.
    pub(crate) fn of_answer(sheet: &Sheet) -> Result<Scope, Fault> {
        let mut scope = Scope::new(GREATEST_ANSWER_DEPTH);
        (scope.texts, scope.kinds, scope.types) = (sheet.texts.len(), sheet.kinds.len(), sheet.types.len());
        for value in &sheet.values {
            scope.value(value).map_err(|reason| Fault::new(0, reason))?;
        }
        Ok(scope)
    }

    fn new(greatest_depth: usize) -> Scope {
        Scope {
            texts: 0,
            kinds: 0,
            types: 0,
            greatest_depth,
            value_depths: Vec::new(),
            node_depths: Vec::new(),
            used: Vec::new(),
        }
    }

    fn text(&self, number: usize) -> bool {
        number < self.texts
    }

    fn has_value(&self, number: usize) -> bool {
        number < self.value_depths.len()
    }

    pub(crate) fn has_node(&self, number: usize) -> bool {
        number < self.node_depths.len()
    }

    /// Takes a value as the next one, or says why it may not stand there.
    pub(crate) fn value(&mut self, value: &Value) -> Result<(), &'static str> {
        let parts: Vec<usize> = match value {
            Value::Set(elements) => elements.clone(),
            Value::Record(fields) => fields.iter().map(|(_, part)| *part).collect(),
            _ => Vec::new(),
        };
        let named = match value {
            Value::Text(text) => self.text(*text),
            Value::Entity { kind, text } => *kind < self.kinds && self.text(*text),
            Value::Record(fields) => fields.iter().all(|(text, _)| self.text(*text)),
            _ => true,
        };
        let depth = depth_over(&self.value_depths, &parts).filter(|_| named).ok_or(Fault::REFERENCE)?;
        if depth > self.greatest_depth {
            return Err(Fault::DEPTH);
        }
        self.value_depths.push(depth);
        Ok(())
    }

    /// Takes a node as the next one, or says why it may not stand there.
    pub(crate) fn node(&mut self, node: &Node) -> Result<(), &'static str> {
        let children = node.operation.children();
        let named = match &node.operation {
            Operation::Lit(value) => self.has_value(*value),
            Operation::Is(_, kind) => *kind < self.kinds,
            Operation::Like(_, pattern) => pattern.iter().flatten().all(|text| self.text(*text)),
            Operation::Get(_, text) | Operation::Has(_, text) => self.text(*text),
            Operation::HasPath(_, path) => path.iter().all(|text| self.text(*text)),
            Operation::Record(fields) => fields.iter().all(|(text, _)| self.text(*text)),
            _ => true,
        };
        let named = named && node.ty < self.types;
        let depth = depth_over(&self.node_depths, &children).filter(|_| named).ok_or(Fault::REFERENCE)?;
        if depth > self.greatest_depth {
            return Err(Fault::DEPTH);
        }
        for child in children {
            self.uses(child)?;
        }
        self.node_depths.push(depth);
        self.used.push(false);
        Ok(())
    }

    /// A node is used by another one, or by a line of an answer.
    pub(crate) fn uses(&mut self, node: usize) -> Result<(), &'static str> {
        match self.used.get_mut(node) {
            None => Err(Fault::REFERENCE),
            Some(true) => Err(Fault::TWICE),
            Some(used) => {
                *used = true;
                Ok(())
            }
        }
    }
}

/// The depth of a row over rows of these depths; none where one of them is not there.
fn depth_over(depths: &[usize], parts: &[usize]) -> Option<usize> {
    parts.iter().try_fold(1, |deepest, part| Some(deepest.max(1 + *depths.get(*part)?)))
}

// Sheets -----------------------------------------------------------------------------------------------------------------

/// The keys in their order.
const KEYS: [&str; 16] = [
    "sheet",
    "text",
    "kind",
    "type",
    "shape",
    "value",
    "entity",
    "principal",
    "action",
    "resource",
    "context",
    "day",
    "node",
    "policy",
    "link",
    "term",
];

/// The keys that stand on one line each.
const ONCE: [&str; 6] = ["sheet", "principal", "action", "resource", "context", "day"];

/// A sheet while it is read.
struct Reader {
    sheet: Sheet,
    scope: Scope,
    type_depths: Vec<usize>,
    /// The nodes that are roots of policies; several policies may have one root.
    roots: Vec<bool>,
    /// The place of the last key among [`KEYS`], and how many of [`ONCE`] were read.
    last: usize,
    once: usize,
}

impl Sheet {
    /// Reads a sheet.
    ///
    /// What the library accepts is read. The reader knows the form of lines, the order of keys, what numbers may refer to, and how deep trees
    /// are; it knows nothing of typing, of repeats and of the greatest number of lines, and takes sheets that the library refuses.
    ///
    /// ```
    /// use openrules::sheet::{Mode, Sheet};
    ///
    /// let sheet = Sheet::read(include_bytes!("../../../examples/bands-overlap.sheet")).unwrap();
    /// assert_eq!(sheet.mode, Mode::Partial);
    /// assert_eq!(sheet.principal.text, None);
    /// assert_eq!(Sheet::read(b"").unwrap_err().line, 1);
    /// ```
    pub fn read(text: &[u8]) -> Result<Sheet, Fault> {
        let lines = lines(text)?;
        let after = lines.len() + 1;
        let mut lines = lines.into_iter();
        let mode = match lines.next() {
            Some((_, "sheet", "partial")) => Mode::Partial,
            Some((_, "sheet", "complete")) => Mode::Complete,
            Some(_) => return Err(Fault::new(1, Fault::FORM)),
            None => return Err(Fault::new(1, Fault::MISSING)),
        };
        let mut reader = Reader::new(mode);
        for (number, key, value) in lines {
            reader.line(key, value).map_err(|reason| Fault::new(number, reason))?;
        }
        if reader.once < ONCE.len() || reader.sheet.shapes.len() < reader.sheet.kinds.len() {
            return Err(Fault::new(after, Fault::MISSING));
        }
        Ok(reader.sheet)
    }
}

impl FromStr for Sheet {
    type Err = Fault;

    fn from_str(text: &str) -> Result<Sheet, Fault> {
        Sheet::read(text.as_bytes())
    }
}

impl Reader {
    fn new(mode: Mode) -> Reader {
        let party = Party { kind: 0, text: None };
        let sheet = Sheet {
            mode,
            texts: Vec::new(),
            kinds: Vec::new(),
            types: Vec::new(),
            shapes: Vec::new(),
            values: Vec::new(),
            entities: Vec::new(),
            principal: party,
            action: party,
            resource: party,
            context: Context { ty: 0, value: None },
            day: Day { year: 1900, month: 1, day: 1 },
            nodes: Vec::new(),
            policies: Vec::new(),
            links: Vec::new(),
            terms: Vec::new(),
        };
        let scope = Scope::new(GREATEST_DEPTH);
        Reader { sheet, scope, type_depths: Vec::new(), roots: Vec::new(), last: 0, once: 1 }
    }

    /// Takes a line after the first, or says what is wrong with it.
    fn line(&mut self, key: &str, value: &str) -> Result<(), &'static str> {
        let place = KEYS.iter().position(|one| *one == key).ok_or(Fault::FORM)?;
        // Every key of one line that stands before this one was read, and this one was not.
        let once =
            ONCE.iter().take_while(|one| **one != key && KEYS.iter().position(|other| other == *one) < Some(place)).count();
        if place < self.last || self.once != once {
            return Err(Fault::ORDER);
        }
        if ONCE.contains(&key) {
            self.once += 1;
        }
        self.last = place;
        self.row(key, value)
    }

    fn row(&mut self, key: &str, value: &str) -> Result<(), &'static str> {
        let items: Vec<&str> = value.split(',').collect();
        let mode = self.sheet.mode;
        match key {
            "text" => self.text(value),
            "kind" => self.kind(form_kind(&items).ok_or(Fault::FORM)?),
            "type" => self.ty(form_type(&items).ok_or(Fault::FORM)?),
            "shape" => self.shape(form_shape(&items).ok_or(Fault::FORM)?),
            "value" => self.value(form_value(value).ok_or(Fault::FORM)?),
            "entity" => self.entity(form_entity(&items, mode).ok_or(Fault::FORM)?),
            "principal" | "action" | "resource" => self.party(key, &items),
            "context" => self.context(form_context(&items, mode).ok_or(Fault::FORM)?),
            "day" => self.day(form_day(value).ok_or(Fault::FORM)?),
            "node" => self.node(form_node(value).ok_or(Fault::FORM)?),
            "policy" => self.policy(form_policy(&items).ok_or(Fault::FORM)?),
            "link" => self.link(form_link(&items).ok_or(Fault::FORM)?),
            "term" => self.term(form_term(&items).ok_or(Fault::FORM)?),
            _ => Err(Fault::FORM),
        }
    }

    fn text(&mut self, text: &str) -> Result<(), &'static str> {
        if text.len() > GREATEST_TEXT {
            return Err(Fault::FORM);
        }
        self.sheet.texts.push(text.to_string());
        self.scope.texts += 1;
        Ok(())
    }

    fn value(&mut self, row: Value) -> Result<(), &'static str> {
        self.scope.value(&row)?;
        self.sheet.values.push(row);
        Ok(())
    }

    fn day(&mut self, day: Day) -> Result<(), &'static str> {
        self.sheet.day = day;
        Ok(())
    }

    fn node(&mut self, row: Node) -> Result<(), &'static str> {
        self.scope.node(&row)?;
        self.roots.push(false);
        self.sheet.nodes.push(row);
        Ok(())
    }

    fn kind(&mut self, row: Kind) -> Result<(), &'static str> {
        refers(self.scope.text(row.name))?;
        self.sheet.kinds.push(row);
        self.scope.kinds += 1;
        Ok(())
    }

    fn ty(&mut self, row: Type) -> Result<(), &'static str> {
        let parts: Vec<usize> = match &row {
            Type::Set(element) => vec![*element],
            Type::Record(attributes) => attributes.iter().map(|one| one.ty).collect(),
            _ => Vec::new(),
        };
        refers(match &row {
            Type::Entity(kinds) => kinds.iter().all(|kind| *kind < self.scope.kinds),
            Type::Record(attributes) => attributes.iter().all(|one| self.scope.text(one.text)),
            _ => true,
        })?;
        let depth = depth_over(&self.type_depths, &parts).ok_or(Fault::REFERENCE)?;
        if depth > GREATEST_DEPTH {
            return Err(Fault::DEPTH);
        }
        self.type_depths.push(depth);
        self.sheet.types.push(row);
        self.scope.types += 1;
        Ok(())
    }

    fn shape(&mut self, row: Shape) -> Result<(), &'static str> {
        let ty = |number: usize| number < self.scope.types;
        refers(ty(row.attributes) && row.tags.is_none_or(ty) && row.above.iter().all(|kind| *kind < self.scope.kinds))?;
        if self.sheet.shapes.len() == self.sheet.kinds.len() {
            return Err(Fault::ORDER);
        }
        self.sheet.shapes.push(row);
        Ok(())
    }

    fn entity(&mut self, row: Entity) -> Result<(), &'static str> {
        let known = [Some(row.entity), row.attributes, row.tags, row.parents];
        refers(known.into_iter().flatten().all(|value| self.scope.has_value(value)))?;
        self.sheet.entities.push(row);
        Ok(())
    }

    /// A part of the request; an action is always known.
    fn party(&mut self, key: &str, items: &[&str]) -> Result<(), &'static str> {
        let mode = if key == "action" { Mode::Complete } else { self.sheet.mode };
        let row = form_party(items, mode).ok_or(Fault::FORM)?;
        refers(row.kind < self.scope.kinds && row.text.is_none_or(|text| self.scope.text(text)))?;
        match key {
            "principal" => self.sheet.principal = row,
            "action" => self.sheet.action = row,
            _ => self.sheet.resource = row,
        }
        Ok(())
    }

    fn context(&mut self, row: Context) -> Result<(), &'static str> {
        refers(row.ty < self.scope.types && row.value.is_none_or(|value| self.scope.has_value(value)))?;
        self.sheet.context = row;
        Ok(())
    }

    fn policy(&mut self, row: Policy) -> Result<(), &'static str> {
        refers(self.scope.text(row.id) && self.scope.has_node(row.root))?;
        if !self.roots[row.root] {
            self.scope.uses(row.root)?;
            self.roots[row.root] = true;
        }
        self.sheet.policies.push(row);
        Ok(())
    }

    fn link(&mut self, row: Link) -> Result<(), &'static str> {
        let values = [row.principal, row.resource];
        let there = values.into_iter().flatten().all(|value| self.scope.has_value(value));
        refers(row.policy < self.sheet.policies.len() && there)?;
        self.sheet.links.push(row);
        Ok(())
    }

    fn term(&mut self, row: Term) -> Result<(), &'static str> {
        refers(row.policy < self.sheet.policies.len())?;
        self.sheet.terms.push(row);
        Ok(())
    }
}

fn refers(there: bool) -> Result<(), &'static str> {
    if there {
        Ok(())
    } else {
        Err(Fault::REFERENCE)
    }
}
