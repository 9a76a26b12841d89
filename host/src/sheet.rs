//! The sheet, read from its bytes, with refusals 2 to 8. Written from documents 01 and 02, apart from the proved code.
//!
//! Each line goes through the checks in the order of their numbers: form (3), too many (4), references (5), depth (6),
//! typing (7), uses (8). The first faulty line ends the reading. Where the entity lines end, before what follows is looked at, the
//! kinds of all that entities reach are checked (7).

use std::collections::{BTreeSet, HashMap, HashSet};

use crate::parents::Parents;

pub const SHEET_BYTES: usize = 16384;
pub const WORK_WORDS: usize = 16384;
/// No answer is longer.
pub const ANSWER_BYTES: usize = 64 * SHEET_BYTES;
const TEXT_BYTES: usize = 128;
const GREATEST_USES: u32 = 1024;
const GREATEST_DEPTH: u32 = 64;

/// Which of the two entries a sheet is for.
#[derive(Clone, Copy, Debug, PartialEq, Eq)]
pub enum Mode {
    Partial,
    Complete,
}

impl Mode {
    pub fn word(self) -> &'static str {
        match self {
            Mode::Partial => "partial",
            Mode::Complete => "complete",
        }
    }
}

/// What a refused call returns: number, line, length.
#[derive(Clone, Copy, Debug, PartialEq, Eq)]
pub struct Refusal {
    pub number: u32,
    pub line: u32,
    pub length: u32,
}

#[derive(Clone, Copy, Debug, PartialEq, Eq, PartialOrd, Ord, Hash)]
pub enum Key {
    Sheet,
    Text,
    Kind,
    Type,
    Shape,
    Value,
    Entity,
    Principal,
    Action,
    Resource,
    Context,
    Day,
    Node,
    Policy,
    Link,
    Term,
}

const KEYS: [(&[u8], Key); 16] = [
    (b"sheet", Key::Sheet),
    (b"text", Key::Text),
    (b"kind", Key::Kind),
    (b"type", Key::Type),
    (b"shape", Key::Shape),
    (b"value", Key::Value),
    (b"entity", Key::Entity),
    (b"principal", Key::Principal),
    (b"action", Key::Action),
    (b"resource", Key::Resource),
    (b"context", Key::Context),
    (b"day", Key::Day),
    (b"node", Key::Node),
    (b"policy", Key::Policy),
    (b"link", Key::Link),
    (b"term", Key::Term),
];

#[derive(Clone, Debug, PartialEq, Eq, Hash)]
pub enum TypeRow {
    Bool,
    Long,
    String,
    /// The kinds of a group, ascending; mostly one.
    Entity(Vec<u32>),
    Set(u32),
    /// Attributes: text, whether required, type.
    Record(Vec<(u32, bool, u32)>),
}

#[derive(Clone, Debug)]
pub struct ShapeRow {
    pub attributes: u32,
    pub tags: Option<u32>,
    pub above: Vec<u32>,
}

#[derive(Clone, Debug, PartialEq, Eq, Hash)]
pub enum ValueRow {
    Bool(bool),
    Long(i64),
    Text(u32),
    Entity(u32, u32),
    Set(Vec<u32>),
    Record(Vec<(u32, u32)>),
}

/// An entity line; None is `?`.
#[derive(Clone, Debug, PartialEq, Eq)]
pub struct EntityRow {
    pub entity: u32,
    pub attributes: Option<u32>,
    pub tags: Option<u32>,
    pub parents: Option<u32>,
}

#[derive(Clone, Copy, Debug, PartialEq, Eq)]
pub enum Variable {
    Principal,
    Action,
    Resource,
    Context,
}

/// What a slot stands for, `p` or `r`.
#[derive(Clone, Copy, Debug, PartialEq, Eq)]
pub enum Slot {
    Principal,
    Resource,
}

pub const SLOTS: [(&str, Slot); 2] = [("p", Slot::Principal), ("r", Slot::Resource)];

#[derive(Clone, Copy, Debug, PartialEq, Eq)]
pub enum One {
    Not,
    Neg,
    Empty,
}

#[derive(Clone, Copy, Debug, PartialEq, Eq)]
pub enum Two {
    And,
    Or,
    Eq,
    Lt,
    Le,
    Add,
    Sub,
    Mul,
    In,
    GetTag,
    HasTag,
    Contains,
    All,
    Any,
}

pub const TWO: [(&str, Two); 14] = [
    ("and", Two::And),
    ("or", Two::Or),
    ("eq", Two::Eq),
    ("lt", Two::Lt),
    ("le", Two::Le),
    ("add", Two::Add),
    ("sub", Two::Sub),
    ("mul", Two::Mul),
    ("in", Two::In),
    ("gettag", Two::GetTag),
    ("hastag", Two::HasTag),
    ("contains", Two::Contains),
    ("all", Two::All),
    ("any", Two::Any),
];

/// What a node does. The children of a record stand beside their texts.
#[derive(Clone, Debug, PartialEq, Eq)]
pub enum Operation {
    Lit(u32),
    Err,
    Var(Variable),
    Two(Two, u32, u32),
    One(One, u32),
    If(u32, u32, u32),
    Is(u32, u32),
    /// Texts, and `*` as None.
    Like(u32, Vec<Option<u32>>),
    Get(u32, u32),
    Has(u32, u32),
    HasPath(u32, Vec<u32>),
    Set(Vec<u32>),
    Record(Vec<(u32, u32)>),
    Slot(Slot),
}

impl Operation {
    pub fn children(&self) -> Vec<u32> {
        match self {
            Operation::Lit(_) | Operation::Err | Operation::Var(_) | Operation::Slot(_) => Vec::new(),
            Operation::Two(_, a, b) => vec![*a, *b],
            Operation::If(a, b, c) => vec![*a, *b, *c],
            Operation::One(_, a)
            | Operation::Is(a, _)
            | Operation::Like(a, _)
            | Operation::Get(a, _)
            | Operation::Has(a, _)
            | Operation::HasPath(a, _) => vec![*a],
            Operation::Set(items) => items.clone(),
            Operation::Record(fields) => fields.iter().map(|(_, n)| *n).collect(),
        }
    }
}

#[derive(Clone, Debug, PartialEq, Eq)]
pub struct NodeRow {
    pub ty: u32,
    pub operation: Operation,
}

#[derive(Clone, Debug, PartialEq, Eq)]
pub struct PolicyRow {
    pub id: u32,
    pub permit: bool,
    pub node: u32,
}

/// A link line; None is `-`.
#[derive(Clone, Debug, PartialEq, Eq)]
pub struct LinkRow {
    pub policy: u32,
    pub principal: Option<u32>,
    pub resource: Option<u32>,
}

impl LinkRow {
    pub fn value(&self, slot: Slot) -> Option<u32> {
        match slot {
            Slot::Principal => self.principal,
            Slot::Resource => self.resource,
        }
    }
}

/// Year, month and day; later days are greater.
pub type Day = (u32, u32, u32);

#[derive(Clone, Debug, PartialEq, Eq)]
pub struct TermRow {
    pub policy: u32,
    pub first: Day,
    pub last: Day,
}

/// A line that has a right form.
enum Row<'a> {
    Sheet,
    Text(&'a [u8]),
    Kind(u32, bool),
    Type(TypeRow),
    Shape(ShapeRow),
    Value(ValueRow),
    Entity(EntityRow),
    /// Principal, action and resource.
    Request(u32, Option<u32>),
    Context(u32, Option<u32>),
    Day(Day),
    Node(NodeRow),
    Policy(PolicyRow),
    Link(LinkRow),
    Term(TermRow),
}

/// The rows of a sheet by key.
#[derive(Default)]
pub struct Sheet<'a> {
    pub texts: Vec<&'a [u8]>,
    /// Name and whether it is an action kind.
    pub kinds: Vec<(u32, bool)>,
    pub types: Vec<TypeRow>,
    pub shapes: Vec<ShapeRow>,
    pub values: Vec<ValueRow>,
    pub entities: Vec<EntityRow>,
    pub principal: (u32, Option<u32>),
    pub action: (u32, u32),
    pub resource: (u32, Option<u32>),
    pub context: (u32, Option<u32>),
    pub day: Day,
    pub nodes: Vec<NodeRow>,
    pub policies: Vec<PolicyRow>,
    pub links: Vec<LinkRow>,
    pub terms: Vec<TermRow>,
}

/// A policy that runs, and the line that links it, if there is one.
#[derive(Clone, Copy)]
pub struct Rule<'s> {
    pub row: &'s PolicyRow,
    pub link: Option<&'s LinkRow>,
}

/// What uses a node so far.
#[derive(Clone, Copy, PartialEq, Eq)]
enum Use {
    Nothing,
    Node,
    Policies,
}

/// A sheet while it is read.
struct Reader<'a> {
    mode: Mode,
    sheet: Sheet<'a>,
    /// Which of the one-line keys were read, and the last key read.
    seen: HashSet<Key>,
    last: Key,
    text_places: HashSet<&'a [u8]>,
    type_places: HashSet<TypeRow>,
    value_places: HashSet<ValueRow>,
    type_depths: Vec<u32>,
    value_depths: Vec<u32>,
    node_depths: Vec<u32>,
    entity_lines: Vec<u32>,
    node_lines: Vec<u32>,
    policy_lines: Vec<u32>,
    /// The nodes of the tree under each node, its own one counted, and of those under the policies read so far.
    sizes: Vec<u32>,
    total: u32,
    used: Vec<Use>,
    /// Pairs of value and type that were asked already, with the answer. Without it a sheet of shared rows would take 2^62 steps.
    fits: HashMap<(u32, u32), bool>,
}

/// Reads a sheet, or says which refusal it gets.
pub fn read(mode: Mode, bytes: &[u8]) -> Result<Sheet<'_>, Refusal> {
    let refuse = |number, line| Err(Refusal { number, line, length: 0 });
    if bytes.len() > SHEET_BYTES {
        return refuse(2, 0);
    }
    let mut reader = Reader {
        mode,
        sheet: Sheet::default(),
        seen: HashSet::new(),
        last: Key::Sheet,
        text_places: HashSet::new(),
        type_places: HashSet::new(),
        value_places: HashSet::new(),
        type_depths: Vec::new(),
        value_depths: Vec::new(),
        node_depths: Vec::new(),
        entity_lines: Vec::new(),
        node_lines: Vec::new(),
        policy_lines: Vec::new(),
        sizes: Vec::new(),
        total: 0,
        used: Vec::new(),
        fits: HashMap::new(),
    };
    let mut rest = bytes;
    let mut line = 0;
    loop {
        if let Some(unfit) = reader.unfit_before(rest) {
            return refuse(7, unfit);
        }
        if rest.is_empty() {
            break;
        }
        line += 1;
        let Some(end) = rest.iter().position(|b| *b == b'\n') else {
            return refuse(3, line);
        };
        let number = reader.line(&rest[..end], line);
        if number != 0 {
            return refuse(number, line);
        }
        rest = &rest[end + 1..];
    }
    if !reader.seen.contains(&Key::Day) {
        return refuse(3, line + 1);
    }
    if let Some(unlinked) = reader.sheet.first_unlinked() {
        return refuse(5, reader.policy_lines[unlinked]);
    }
    if let Some(unused) = reader.used.iter().position(|used| *used == Use::Nothing) {
        return refuse(8, reader.node_lines[unused]);
    }
    Ok(reader.sheet)
}

// Items of a line --------------------------------------------------------------------------------------------------------

fn is_decimal(item: &[u8]) -> bool {
    !item.is_empty() && item.iter().all(u8::is_ascii_digit) && (item == b"0" || item[0] != b'0')
}

/// "Indices have at most four digits."
fn index(item: &[u8]) -> Option<u32> {
    if !is_decimal(item) || item.len() > 4 {
        return None;
    }
    Some(item.iter().fold(0, |n, digit| 10 * n + u32::from(digit - b'0')))
}

fn indices(items: &[&[u8]]) -> Option<Vec<u32>> {
    items.iter().map(|item| index(item)).collect()
}

/// A 64-bit signed number, "without leading zeros or `-0`".
fn long(item: &[u8]) -> Option<i64> {
    let digits = item.strip_prefix(b"-").unwrap_or(item);
    if !is_decimal(digits) || item == b"-0" || digits.len() > 19 {
        return None;
    }
    let size = digits.iter().fold(0i128, |n, digit| 10 * n + i128::from(digit - b'0'));
    i64::try_from(if item.len() > digits.len() { -size } else { size }).ok()
}

/// An index, or the mark as None.
fn index_or(item: &[u8], mark: &[u8]) -> Option<Option<u32>> {
    if item == mark {
        return Some(None);
    }
    index(item).map(Some)
}

/// The days of a month, none where there is no such month.
pub fn days_in(year: u32, month: u32) -> u32 {
    match month {
        2 if year % 4 == 0 && (year % 100 != 0 || year % 400 == 0) => 29,
        2 => 28,
        4 | 6 | 9 | 11 => 30,
        1..=12 => 31,
        _ => 0,
    }
}

/// `yyyy-mm-dd`, "Gregorian, 1900-01-01 to 2199-12-31".
pub fn day(item: &[u8]) -> Option<Day> {
    let number = |digits: &[u8]| {
        let all = digits.iter().all(u8::is_ascii_digit);
        all.then(|| digits.iter().fold(0, |n, digit| 10 * n + u32::from(digit - b'0')))
    };
    let [y0, y1, y2, y3, b'-', m0, m1, b'-', d0, d1] = *item else {
        return None;
    };
    let (year, month, day) = (number(&[y0, y1, y2, y3])?, number(&[m0, m1])?, number(&[d0, d1])?);
    ((1900..=2199).contains(&year) && (1..=days_in(year, month)).contains(&day)).then_some((year, month, day))
}

fn pairs(items: &[&[u8]]) -> Option<Vec<(u32, u32)>> {
    if items.len() % 2 != 0 {
        return None;
    }
    items.chunks(2).map(|pair| Some((index(pair[0])?, index(pair[1])?))).collect()
}

fn ascending(numbers: impl Iterator<Item = u32>) -> bool {
    let numbers: Vec<u32> = numbers.collect();
    numbers.windows(2).all(|pair| pair[0] < pair[1])
}

fn below(count: usize, n: u32) -> bool {
    (n as usize) < count
}

fn form_type(items: &[&[u8]]) -> Option<TypeRow> {
    let rest = &items[1..];
    match (items[0], rest.len()) {
        (b"bool", 0) => Some(TypeRow::Bool),
        (b"long", 0) => Some(TypeRow::Long),
        (b"string", 0) => Some(TypeRow::String),
        (b"entity", n) if n >= 1 => indices(rest).map(TypeRow::Entity),
        (b"set", 1) => index(rest[0]).map(TypeRow::Set),
        (b"record", n) if n % 3 == 0 => {
            let field = |group: &[&[u8]]| {
                let required = match group[1] {
                    b"r" => true,
                    b"o" => false,
                    _ => return None,
                };
                Some((index(group[0])?, required, index(group[2])?))
            };
            rest.chunks(3).map(field).collect::<Option<Vec<_>>>().map(TypeRow::Record)
        }
        _ => None,
    }
}

pub fn form_value_line(items: &[&[u8]]) -> Option<ValueRow> {
    let rest = &items[1..];
    match (items[0], rest.len()) {
        (b"bool", 1) => match rest[0] {
            b"0" => Some(ValueRow::Bool(false)),
            b"1" => Some(ValueRow::Bool(true)),
            _ => None,
        },
        (b"long", 1) => long(rest[0]).map(ValueRow::Long),
        (b"text", 1) => index(rest[0]).map(ValueRow::Text),
        (b"entity", 2) => Some(ValueRow::Entity(index(rest[0])?, index(rest[1])?)),
        (b"set", _) => indices(rest).map(ValueRow::Set),
        (b"record", _) => pairs(rest).map(ValueRow::Record),
        _ => None,
    }
}

pub fn form_operation(word: &[u8], rest: &[&[u8]]) -> Option<Operation> {
    if let Some((_, two)) = TWO.iter().find(|(name, _)| name.as_bytes() == word) {
        return if rest.len() == 2 { Some(Operation::Two(*two, index(rest[0])?, index(rest[1])?)) } else { None };
    }
    match (word, rest.len()) {
        (b"lit", 1) => index(rest[0]).map(Operation::Lit),
        (b"err", 0) => Some(Operation::Err),
        (b"var", 1) => match rest[0] {
            b"p" => Some(Operation::Var(Variable::Principal)),
            b"a" => Some(Operation::Var(Variable::Action)),
            b"r" => Some(Operation::Var(Variable::Resource)),
            b"c" => Some(Operation::Var(Variable::Context)),
            _ => None,
        },
        (b"slot", 1) => {
            let (_, slot) = SLOTS.iter().find(|(letter, _)| letter.as_bytes() == rest[0])?;
            Some(Operation::Slot(*slot))
        }
        (b"not", 1) => index(rest[0]).map(|n| Operation::One(One::Not, n)),
        (b"neg", 1) => index(rest[0]).map(|n| Operation::One(One::Neg, n)),
        (b"empty", 1) => index(rest[0]).map(|n| Operation::One(One::Empty, n)),
        (b"if", 3) => Some(Operation::If(index(rest[0])?, index(rest[1])?, index(rest[2])?)),
        (b"is", 2) => Some(Operation::Is(index(rest[0])?, index(rest[1])?)),
        (b"get", 2) => Some(Operation::Get(index(rest[0])?, index(rest[1])?)),
        (b"has", 2) => Some(Operation::Has(index(rest[0])?, index(rest[1])?)),
        (b"like", n) if n >= 1 => {
            let pattern = rest[1..].iter().map(|item| index_or(item, b"*")).collect::<Option<Vec<_>>>()?;
            Some(Operation::Like(index(rest[0])?, pattern))
        }
        (b"haspath", n) if n >= 2 => Some(Operation::HasPath(index(rest[0])?, indices(&rest[1..])?)),
        (b"set", _) => indices(rest).map(Operation::Set),
        (b"record", _) => pairs(rest).map(Operation::Record),
        _ => None,
    }
}

impl<'a> Reader<'a> {
    /// The number of the first fault of a line, or 0, and then its row is kept.
    fn line(&mut self, line: &'a [u8], number: u32) -> u32 {
        let Some((key, row)) = self.form(line) else {
            return 3;
        };
        if !self.in_order(key) {
            return 3;
        }
        if self.too_many(key, &row) {
            return 4;
        }
        if !self.refers(key, &row) {
            return 5;
        }
        let depth = self.depth(&row);
        if depth > GREATEST_DEPTH {
            return 6;
        }
        if !self.typed(key, &row) {
            return 7;
        }
        let (uses, by) = match &row {
            Row::Node(node) => (node.operation.children(), Use::Node),
            Row::Policy(policy) => (vec![policy.node], Use::Policies),
            _ => (Vec::new(), Use::Nothing),
        };
        for n in uses {
            // "A policy root may now serve several policies; other nodes keep their single use."
            if self.used[n as usize] == Use::Node {
                return 8;
            }
            self.used[n as usize] = by;
        }
        self.keep(key, row, depth, number);
        0
    }

    // Form (3) -----------------------------------------------------------------------------------------------------------

    fn form(&self, line: &'a [u8]) -> Option<(Key, Row<'a>)> {
        if !line.iter().all(|b| (32..=126).contains(b)) {
            return None;
        }
        let equals = line.iter().position(|b| *b == b'=')?;
        let (name, value) = (&line[..equals], &line[equals + 1..]);
        let (_, key) = KEYS.iter().find(|(word, _)| *word == name)?;
        if *key == Key::Text {
            return (value.len() <= TEXT_BYTES).then_some((*key, Row::Text(value)));
        }
        let items: Vec<&[u8]> = value.split(|b| *b == b',').collect();
        self.form_items(*key, &items).map(|row| (*key, row))
    }

    /// An index, or `?` on a partial sheet as None.
    fn known_or_not(&self, item: &[u8]) -> Option<Option<u32>> {
        match self.mode {
            Mode::Partial => index_or(item, b"?"),
            Mode::Complete => index(item).map(Some),
        }
    }

    fn form_items(&self, key: Key, items: &[&[u8]]) -> Option<Row<'a>> {
        match (key, items.len()) {
            (Key::Sheet, 1) => (items[0] == self.mode.word().as_bytes()).then_some(Row::Sheet),
            (Key::Kind, 2) => match items[1] {
                b"e" => Some(Row::Kind(index(items[0])?, false)),
                b"a" => Some(Row::Kind(index(items[0])?, true)),
                _ => None,
            },
            (Key::Type, _) => form_type(items).map(Row::Type),
            (Key::Shape, n) if n >= 2 => Some(Row::Shape(ShapeRow {
                attributes: index(items[0])?,
                tags: index_or(items[1], b"-")?,
                above: indices(&items[2..])?,
            })),
            (Key::Value, _) => form_value_line(items).map(Row::Value),
            (Key::Entity, 4) => Some(Row::Entity(EntityRow {
                entity: index(items[0])?,
                attributes: self.known_or_not(items[1])?,
                tags: self.known_or_not(items[2])?,
                parents: self.known_or_not(items[3])?,
            })),
            (Key::Principal | Key::Resource, 2) => Some(Row::Request(index(items[0])?, self.known_or_not(items[1])?)),
            (Key::Action, 2) => Some(Row::Request(index(items[0])?, Some(index(items[1])?))),
            (Key::Context, 2) => Some(Row::Context(index(items[0])?, self.known_or_not(items[1])?)),
            (Key::Day, 1) => day(items[0]).map(Row::Day),
            (Key::Node, n) if n >= 2 => {
                let operation = form_operation(items[1], &items[2..])?;
                Some(Row::Node(NodeRow { ty: index(items[0])?, operation }))
            }
            (Key::Policy, 3) => {
                let permit = match items[1] {
                    b"permit" => true,
                    b"forbid" => false,
                    _ => return None,
                };
                Some(Row::Policy(PolicyRow { id: index(items[0])?, permit, node: index(items[2])? }))
            }
            (Key::Link, 3) => Some(Row::Link(LinkRow {
                policy: index(items[0])?,
                principal: index_or(items[1], b"-")?,
                resource: index_or(items[2], b"-")?,
            })),
            (Key::Term, 3) => Some(Row::Term(TermRow { policy: index(items[0])?, first: day(items[1])?, last: day(items[2])? })),
            _ => None,
        }
    }

    /// No later key was read, and no line that must stand before is missing.
    fn in_order(&self, key: Key) -> bool {
        let needed = [Key::Sheet, Key::Principal, Key::Action, Key::Resource, Key::Context, Key::Day];
        key >= self.last
            && needed.iter().all(|one| *one >= key || self.seen.contains(one))
            && (key <= Key::Shape || self.sheet.shapes.len() == self.sheet.kinds.len())
    }

    // Too many (4) -------------------------------------------------------------------------------------------------------

    fn too_many(&self, key: Key, row: &Row) -> bool {
        let sheet = &self.sheet;
        let (count, greatest) = match key {
            Key::Text => (sheet.texts.len(), 512),
            Key::Kind => (sheet.kinds.len(), 32),
            Key::Type => (sheet.types.len(), 128),
            Key::Shape => (sheet.shapes.len(), sheet.kinds.len()),
            Key::Value => (sheet.values.len(), 1024),
            Key::Entity => (sheet.entities.len(), 128),
            Key::Node => (sheet.nodes.len(), 1024),
            Key::Policy => (sheet.policies.len(), 64),
            Key::Link => (sheet.links.len(), 64),
            Key::Term => (sheet.terms.len(), 64),
            one => (self.seen.contains(&one) as usize, 1),
        };
        count >= greatest || self.total + self.more_uses(row) > GREATEST_USES
    }

    /// The node uses that a line adds: those of a policy whose root is there.
    fn more_uses(&self, row: &Row) -> u32 {
        match row {
            Row::Policy(policy) => self.sizes.get(policy.node as usize).copied().unwrap_or(0),
            _ => 0,
        }
    }

    // References, repeats and order (5) ----------------------------------------------------------------------------------

    fn refers(&self, key: Key, row: &Row<'a>) -> bool {
        let sheet = &self.sheet;
        let text = |n: u32| below(sheet.texts.len(), n);
        let kind = |n: u32| below(sheet.kinds.len(), n);
        let ty = |n: u32| below(sheet.types.len(), n);
        let value = |n: u32| below(sheet.values.len(), n);
        let node = |n: u32| below(sheet.nodes.len(), n);
        match row {
            Row::Sheet | Row::Day(_) => true,
            Row::Text(bytes) => !self.text_places.contains(bytes),
            Row::Kind(name, _) => text(*name) && sheet.kinds.iter().all(|(other, _)| other != name),
            Row::Type(row) => {
                let there = match row {
                    TypeRow::Entity(kinds) => {
                        // "Each kind so grouped needs a type line alone, earlier"
                        let alone = |n: &u32| self.type_places.contains(&TypeRow::Entity(vec![*n]));
                        kinds.iter().all(|n| kind(*n))
                            && ascending(kinds.iter().copied())
                            && (kinds.len() == 1 || kinds.iter().all(alone))
                    }
                    TypeRow::Set(n) => ty(*n),
                    TypeRow::Record(fields) => {
                        fields.iter().all(|(t, _, n)| text(*t) && ty(*n)) && ascending(fields.iter().map(|field| field.0))
                    }
                    _ => true,
                };
                there && !self.type_places.contains(row)
            }
            Row::Shape(row) => {
                ty(row.attributes)
                    && row.tags.is_none_or(ty)
                    && row.above.iter().all(|n| kind(*n))
                    && ascending(row.above.iter().copied())
            }
            Row::Value(row) => {
                let there = match row {
                    ValueRow::Text(n) => text(*n),
                    ValueRow::Entity(k, n) => kind(*k) && text(*n),
                    ValueRow::Set(items) => items.iter().all(|n| value(*n)) && ascending(items.iter().copied()),
                    ValueRow::Record(fields) => {
                        fields.iter().all(|(t, n)| text(*t) && value(*n)) && ascending(fields.iter().map(|field| field.0))
                    }
                    _ => true,
                };
                there && !self.value_places.contains(row)
            }
            Row::Entity(row) => {
                value(row.entity)
                    && row.attributes.is_none_or(value)
                    && row.tags.is_none_or(value)
                    && row.parents.is_none_or(value)
                    && sheet.entities.last().is_none_or(|before| before.entity < row.entity)
            }
            Row::Request(k, n) => {
                debug_assert!(matches!(key, Key::Principal | Key::Action | Key::Resource));
                kind(*k) && n.is_none_or(text)
            }
            Row::Context(n, v) => ty(*n) && v.is_none_or(value),
            Row::Node(row) => {
                ty(row.ty)
                    && row.operation.children().into_iter().all(node)
                    && match &row.operation {
                        Operation::Lit(n) => value(*n),
                        Operation::Is(_, n) => kind(*n),
                        Operation::Get(_, n) | Operation::Has(_, n) => text(*n),
                        Operation::Like(_, items) => items.iter().flatten().all(|n| text(*n)),
                        Operation::HasPath(_, path) => path.iter().all(|n| text(*n)),
                        Operation::Record(fields) => {
                            fields.iter().all(|(t, _)| text(*t)) && ascending(fields.iter().map(|field| field.0))
                        }
                        _ => true,
                    }
            }
            Row::Policy(row) => text(row.id) && node(row.node) && sheet.policies.iter().all(|other| other.id != row.id),
            Row::Link(row) => {
                below(sheet.policies.len(), row.policy)
                    && sheet.links.last().is_none_or(|before| before.policy < row.policy)
                    && row.principal.is_none_or(value)
                    && row.resource.is_none_or(value)
                    && {
                        let there = sheet.slots(sheet.policies[row.policy as usize].node);
                        let given = |slot: Slot| row.value(slot).is_some() == there.iter().any(|(other, _)| *other == slot);
                        given(Slot::Principal) && given(Slot::Resource)
                    }
            }
            Row::Term(row) => {
                below(sheet.policies.len(), row.policy)
                    && sheet.terms.last().is_none_or(|before| before.policy < row.policy)
                    && row.first <= row.last
            }
        }
    }

    // Depth (6) ----------------------------------------------------------------------------------------------------------

    /// The depth of a type, value or node; "a leaf has depth 1".
    fn depth(&self, row: &Row) -> u32 {
        let over = |depths: &Vec<u32>, below: Vec<u32>| 1 + below.iter().map(|n| depths[*n as usize]).max().unwrap_or(0);
        match row {
            Row::Type(TypeRow::Set(n)) => over(&self.type_depths, vec![*n]),
            Row::Type(TypeRow::Record(fields)) => over(&self.type_depths, fields.iter().map(|field| field.2).collect()),
            Row::Value(ValueRow::Set(items)) => over(&self.value_depths, items.clone()),
            Row::Value(ValueRow::Record(fields)) => over(&self.value_depths, fields.iter().map(|field| field.1).collect()),
            Row::Node(node) => over(&self.node_depths, node.operation.children()),
            _ => 1,
        }
    }

    // Typing (7) ---------------------------------------------------------------------------------------------------------

    fn fits(&mut self, value: u32, ty: u32) -> bool {
        if let Some(known) = self.fits.get(&(value, ty)) {
            return *known;
        }
        let row = self.sheet.values[value as usize].clone();
        let answer = match (row, self.sheet.types[ty as usize].clone()) {
            (ValueRow::Bool(_), TypeRow::Bool) => true,
            (ValueRow::Long(_), TypeRow::Long) => true,
            (ValueRow::Text(_), TypeRow::String) => true,
            (ValueRow::Entity(kind, _), TypeRow::Entity(kinds)) => kinds.contains(&kind),
            (ValueRow::Set(items), TypeRow::Set(element)) => items.iter().all(|v| self.fits(*v, element)),
            (ValueRow::Record(fields), TypeRow::Record(declared)) => {
                required_there(&declared, &fields)
                    && fields.iter().all(|(t, v)| declaration(&declared, *t).is_some_and(|n| self.fits(*v, n)))
            }
            _ => false,
        };
        self.fits.insert((value, ty), answer);
        answer
    }

    fn typed(&mut self, key: Key, row: &Row) -> bool {
        match row {
            Row::Shape(shape) => {
                let TypeRow::Record(fields) = &self.sheet.types[shape.attributes as usize] else {
                    return false;
                };
                let (_, is_action) = self.sheet.kinds[self.sheet.shapes.len()];
                !is_action || (fields.is_empty() && shape.tags.is_none())
            }
            Row::Entity(row) => self.typed_entity(row),
            Row::Request(kind, _) => self.sheet.kinds[*kind as usize].1 == (key == Key::Action),
            Row::Context(ty, value) => {
                matches!(self.sheet.types[*ty as usize], TypeRow::Record(_)) && value.is_none_or(|v| self.fits(v, *ty))
            }
            Row::Node(node) => self.typed_node(node),
            Row::Policy(policy) => {
                let ty = self.sheet.nodes[policy.node as usize].ty;
                self.sheet.types[ty as usize] == TypeRow::Bool
            }
            Row::Link(link) => {
                let there = self.sheet.slots(self.sheet.policies[link.policy as usize].node);
                there.iter().all(|(slot, ty)| link.value(*slot).is_some_and(|v| self.fits(v, *ty)))
            }
            _ => true,
        }
    }

    fn typed_entity(&mut self, row: &EntityRow) -> bool {
        let ValueRow::Entity(kind, _) = self.sheet.values[row.entity as usize] else {
            return false;
        };
        let shape = self.sheet.shapes[kind as usize].clone();
        row.attributes.is_none_or(|v| self.fits(v, shape.attributes))
            && row.tags.is_none_or(|v| self.tags_fit(v, shape.tags))
            && row.parents.is_none_or(|v| self.parents_fit(v, &shape.above))
    }

    /// "no tags where it says `-`, else tags of the tag type"
    fn tags_fit(&mut self, tags: u32, ty: Option<u32>) -> bool {
        let ValueRow::Record(fields) = self.sheet.values[tags as usize].clone() else {
            return false;
        };
        match ty {
            None => fields.is_empty(),
            Some(ty) => fields.iter().all(|(_, v)| self.fits(*v, ty)),
        }
    }

    /// "Each ancestor's kind must be among those above .. checked for its parents when it is read"
    fn parents_fit(&self, parents: u32, above: &[u32]) -> bool {
        let ValueRow::Set(items) = &self.sheet.values[parents as usize] else {
            return false;
        };
        items.iter().all(|v| match self.sheet.values[*v as usize] {
            ValueRow::Entity(kind, _) => above.contains(&kind),
            _ => false,
        })
    }

    /// ".. and for all reached when a line that does not begin with `entity=`, or the sheet's end, follows, before that line's own
    /// checks, the lowest such entity line first": its number, where the last line read is an entity line and `rest` follows.
    fn unfit_before(&self, rest: &[u8]) -> Option<u32> {
        if self.last != Key::Entity || rest.starts_with(b"entity=") {
            return None;
        }
        let unfit = self.sheet.parents().first_unfit(&self.sheet.entities, &self.sheet.shapes);
        unfit.map(|place| self.entity_lines[place])
    }

    fn typed_node(&mut self, node: &NodeRow) -> bool {
        if let Operation::Lit(v) = node.operation {
            return self.fits(v, node.ty);
        }
        let sheet = &self.sheet;
        let own = &sheet.types[node.ty as usize];
        let number = |n: u32| sheet.nodes[n as usize].ty;
        let of = |n: u32| &sheet.types[number(n) as usize];
        let is_bool = *own == TypeRow::Bool;
        match &node.operation {
            Operation::Lit(_) | Operation::Err => true,
            Operation::Slot(_) => kinds_of(own).is_some(),
            Operation::Var(variable) => match variable {
                Variable::Principal => *own == TypeRow::Entity(vec![sheet.principal.0]),
                Variable::Action => *own == TypeRow::Entity(vec![sheet.action.0]),
                Variable::Resource => *own == TypeRow::Entity(vec![sheet.resource.0]),
                Variable::Context => node.ty == sheet.context.0,
            },
            Operation::Two(two, a, b) => {
                let (left, right) = (of(*a), of(*b));
                let longs = *left == TypeRow::Long && *right == TypeRow::Long;
                let string = *right == TypeRow::String;
                match two {
                    Two::And | Two::Or => is_bool && *left == TypeRow::Bool && *right == TypeRow::Bool,
                    Two::Eq => is_bool && (left == right || (kinds_of(left).is_some() && kinds_of(right).is_some())),
                    Two::Lt | Two::Le => is_bool && longs,
                    Two::Add | Two::Sub | Two::Mul => *own == TypeRow::Long && longs,
                    Two::In => is_bool && kinds_of(left).is_some() && sheet.entities_kinds(right).is_some(),
                    // "`get` and `gettag` need the same declared type in every kind."
                    Two::GetTag => {
                        let same = |kind: &u32| sheet.shapes[*kind as usize].tags == Some(node.ty);
                        string && kinds_of(left).is_some_and(|kinds| kinds.iter().all(same))
                    }
                    Two::HasTag => is_bool && string && kinds_of(left).is_some(),
                    Two::Contains => is_bool && *left == TypeRow::Set(number(*b)),
                    Two::All | Two::Any => is_bool && matches!(left, TypeRow::Set(_)) && left == right,
                }
            }
            Operation::One(One::Not, a) => is_bool && *of(*a) == TypeRow::Bool,
            Operation::One(One::Neg, a) => *own == TypeRow::Long && *of(*a) == TypeRow::Long,
            Operation::One(One::Empty, a) => is_bool && matches!(of(*a), TypeRow::Set(_)),
            Operation::If(test, then, other) => {
                *of(*test) == TypeRow::Bool && number(*then) == node.ty && number(*other) == node.ty
            }
            Operation::Is(a, _) => is_bool && kinds_of(of(*a)).is_some(),
            Operation::Like(a, _) => is_bool && *of(*a) == TypeRow::String,
            Operation::Get(a, t) => {
                let same = |fields: &&[(u32, bool, u32)]| declaration(fields, *t) == Some(node.ty);
                sheet.holders(of(*a)).is_some_and(|holders| holders.iter().all(same))
            }
            Operation::Has(a, _) => is_bool && sheet.holders(of(*a)).is_some(),
            Operation::HasPath(a, path) => is_bool && sheet.path_typed(number(*a), path),
            Operation::Set(items) => match own {
                TypeRow::Set(element) => items.iter().all(|n| number(*n) == *element),
                _ => false,
            },
            Operation::Record(fields) => match own {
                TypeRow::Record(declared) => {
                    required_there(declared, fields) && fields.iter().all(|(t, n)| declaration(declared, *t) == Some(number(*n)))
                }
                _ => false,
            },
        }
    }

    fn keep(&mut self, key: Key, row: Row<'a>, depth: u32, line: u32) {
        self.last = key;
        self.seen.insert(key);
        let sheet = &mut self.sheet;
        match row {
            Row::Sheet => (),
            Row::Text(bytes) => {
                self.text_places.insert(bytes);
                sheet.texts.push(bytes);
            }
            Row::Kind(name, is_action) => sheet.kinds.push((name, is_action)),
            Row::Type(row) => {
                self.type_places.insert(row.clone());
                self.type_depths.push(depth);
                sheet.types.push(row);
            }
            Row::Shape(row) => sheet.shapes.push(row),
            Row::Value(row) => {
                self.value_places.insert(row.clone());
                self.value_depths.push(depth);
                sheet.values.push(row);
            }
            Row::Entity(row) => {
                self.entity_lines.push(line);
                sheet.entities.push(row);
            }
            Row::Request(kind, text) => match key {
                Key::Principal => sheet.principal = (kind, text),
                Key::Action => sheet.action = (kind, text.expect("an action is known")),
                _ => sheet.resource = (kind, text),
            },
            Row::Context(ty, value) => sheet.context = (ty, value),
            Row::Day(day) => sheet.day = day,
            Row::Node(row) => {
                self.node_depths.push(depth);
                self.node_lines.push(line);
                let below: u32 = row.operation.children().iter().map(|n| self.sizes[*n as usize]).sum();
                self.sizes.push(1 + below);
                self.used.push(Use::Nothing);
                sheet.nodes.push(row);
            }
            Row::Policy(row) => {
                self.policy_lines.push(line);
                self.total += self.sizes[row.node as usize];
                sheet.policies.push(row);
            }
            Row::Link(row) => sheet.links.push(row),
            Row::Term(row) => sheet.terms.push(row),
        }
    }
}

fn kinds_of(row: &TypeRow) -> Option<&[u32]> {
    match row {
        TypeRow::Entity(kinds) => Some(kinds),
        _ => None,
    }
}

/// The declared type of an attribute.
pub fn declaration(fields: &[(u32, bool, u32)], text: u32) -> Option<u32> {
    fields.iter().find(|(t, _, _)| *t == text).map(|(_, _, ty)| *ty)
}

fn required_there(declared: &[(u32, bool, u32)], fields: &[(u32, u32)]) -> bool {
    declared.iter().all(|(t, required, _)| !required || fields.iter().any(|(present, _)| present == t))
}

impl Sheet<'_> {
    pub fn parents(&self) -> Parents<'_> {
        Parents::of(&self.values, &self.entities)
    }

    /// The policies that run on the sheet's day: "Both edge days belong to the term", "Without a term it always runs."
    pub fn on_term(&self) -> Vec<Rule<'_>> {
        let runs = |n: u32| {
            let term = self.terms.iter().find(|term| term.policy == n);
            term.is_none_or(|term| (term.first..=term.last).contains(&self.day))
        };
        (0..).zip(&self.policies).filter(|(n, _)| runs(*n)).map(|(n, row)| Rule { row, link: self.link_of(n) }).collect()
    }

    fn link_of(&self, policy: u32) -> Option<&LinkRow> {
        self.links.iter().find(|link| link.policy == policy)
    }

    /// The slots of the tree under a node, each with its type.
    fn slots(&self, root: u32) -> Vec<(Slot, u32)> {
        let node = &self.nodes[root as usize];
        match node.operation {
            Operation::Slot(slot) => vec![(slot, node.ty)],
            _ => node.operation.children().into_iter().flat_map(|n| self.slots(n)).collect(),
        }
    }

    /// The lowest policy with a slot and without a link line.
    fn first_unlinked(&self) -> Option<usize> {
        let unlinked = |(n, row): (u32, &PolicyRow)| self.link_of(n).is_none() && !self.slots(row.node).is_empty();
        (0..).zip(&self.policies).position(unlinked)
    }

    /// Whether a type line lists two kinds or more.
    pub fn has_groups(&self) -> bool {
        self.types.iter().any(|row| kinds_of(row).is_some_and(|kinds| kinds.len() > 1))
    }

    /// The declared attributes of a record type, or of each kind of an entity type.
    fn holders<'s>(&'s self, row: &'s TypeRow) -> Option<Vec<&'s [(u32, bool, u32)]>> {
        let fields = |row: &'s TypeRow| match row {
            TypeRow::Record(fields) => Some(&fields[..]),
            _ => None,
        };
        let of_kind = |kind: &u32| fields(&self.types[self.shapes[*kind as usize].attributes as usize]);
        match row {
            TypeRow::Entity(kinds) => kinds.iter().map(of_kind).collect(),
            _ => fields(row).map(|fields| vec![fields]),
        }
    }

    /// The kinds of an entity type or of a set of entities.
    fn entities_kinds<'s>(&'s self, row: &'s TypeRow) -> Option<&'s [u32]> {
        match row {
            TypeRow::Set(element) => kinds_of(&self.types[*element as usize]),
            _ => kinds_of(row),
        }
    }

    /// "A `haspath` step before the last must be an entity or record in each kind or record reached that declares it." What is
    /// reached is a set of types, so that no way is followed twice.
    fn path_typed(&self, start: u32, path: &[u32]) -> bool {
        let mut reached = BTreeSet::from([start]);
        for text in &path[..path.len() - 1] {
            let mut next = BTreeSet::new();
            for ty in reached {
                let Some(holders) = self.holders(&self.types[ty as usize]) else {
                    return false;
                };
                next.extend(holders.into_iter().filter_map(|fields| declaration(fields, *text)));
            }
            reached = next;
        }
        reached.into_iter().all(|ty| self.holders(&self.types[ty as usize]).is_some())
    }
}

#[cfg(test)]
mod tests {
    use super::*;

    /// The first lines of a sheet, `/` is a line end. Kinds and types 0 and 2 are the principal's and the resource's, type 4 is bool.
    const TYPES: &str = "sheet=partial/text=Broker/text=Action/text=Tariff/text=q/kind=0,e/kind=1,a/kind=2,e/type=entity,0/\
                         type=entity,1/type=entity,2/type=record/type=bool/";

    /// Values 0 and 1 are a principal and a resource, 2 is true.
    const REQUEST: &str = "value=entity,0,3/value=entity,2,3/value=bool,1/principal=0,?/action=1,3/resource=2,?/context=3,?/\
                           day=2000-01-01/";

    /// What a sheet with these lines after its first gets; lines are counted from there.
    fn refused_after(head: &str, lines: &str) -> (u32, u32) {
        let bytes = format!("{head}{lines}").replace('/', "\n").into_bytes();
        let before = head.matches('/').count() as u32;
        read(Mode::Partial, &bytes).map_or_else(|refusal| (refusal.number, refusal.line - before), |_| (0, 0))
    }

    /// The same of some nodes and the lines after them.
    fn refused(lines: &str) -> (u32, u32) {
        refused_after(&format!("{TYPES}shape=3,-/shape=3,-/shape=3,-/{REQUEST}"), lines)
    }

    #[test]
    fn groups() {
        let rest = format!("shape=3,-/shape=3,-/shape=3,-/{REQUEST}");
        for (types, wanted) in [
            ("type=entity,0,2/", (0, 0)),
            ("type=entity,0,1,2/", (0, 0)),
            ("type=entity/", (3, 1)),
            ("type=entity,/", (3, 1)),
            ("type=entity,0,,2/", (3, 1)),
            ("type=entity,0,2,/", (3, 1)),
            ("type=entity,0,?/", (3, 1)),
            ("type=entity,2,0/", (5, 1)),
            ("type=entity,0,0/", (5, 1)),
            ("type=entity,0,2,2/", (5, 1)),
            ("type=entity,0,3/", (5, 1)),
            ("type=entity,0,2/type=entity,0,1/type=entity,0,2/", (5, 3)),
            ("type=entity,0/", (5, 1)),
        ] {
            assert_eq!(refused_after(TYPES, &format!("{types}{rest}")), wanted, "{types}");
        }
        // The line alone of a kind comes after the group, or not at all.
        let head = TYPES.replace("type=entity,2/", "");
        assert_eq!(refused_after(&head, "type=entity,0,2/type=entity,2/"), (5, 1));
        assert_eq!(refused_after(&head, "type=entity,2/type=entity,0,2/shape=0,-/"), (7, 3));
    }

    #[test]
    fn typing_over_groups() {
        // Types 5 and 6 are a principal or resource and a resource or action; 7 to 9 are records of text 0: bool, the principal or
        // resource, the resource. A principal declares it as 8 and has tags of type 5, a resource as 9 and none; an action as nothing.
        let types =
            "type=entity,0,2/type=entity,1,2/type=record,0,r,4/type=record,0,r,5/type=record,0,r,2/type=string/type=set,5/";
        let with = |first: &str, second: &str| format!("{TYPES}{types}shape={first}/shape=3,-/shape={second}/{REQUEST}");
        let head = with("8,5", "9,-");
        for (lines, wanted) in [
            ("node=5,lit,0/node=5,lit,1/node=4,eq,0,1/policy=0,permit,2/", (0, 0)),
            ("node=5,lit,2/", (7, 1)),
            ("node=6,lit,0/", (7, 1)),
            ("node=6,lit,1/node=2,lit,1/node=4,eq,0,1/policy=0,permit,2/", (0, 0)),
            ("node=5,var,p/", (7, 1)),
            ("node=5,slot,p/node=0,slot,p/node=4,eq,0,1/policy=0,permit,2/link=0,0,-/", (0, 0)),
            ("node=5,slot,p/node=0,slot,p/node=4,eq,0,1/policy=0,permit,2/link=0,1,-/", (7, 5)),
            ("node=4,err/node=5,lit,0/node=0,lit,0/node=5,if,0,1,2/", (7, 4)),
            ("node=5,lit,0/node=0,lit,0/node=11,set,0,1/", (7, 3)),
            ("node=5,lit,0/node=11,err/node=4,in,0,1/policy=0,permit,2/", (0, 0)),
            ("node=11,err/node=0,lit,0/node=4,contains,0,1/", (7, 3)),
            ("node=5,lit,0/node=4,is,0,1/policy=0,permit,1/", (0, 0)),
            ("node=5,lit,0/node=4,has,0,3/policy=0,permit,1/", (0, 0)),
            ("node=5,lit,0/node=5,get,0,0/", (7, 2)),
            ("node=0,lit,0/node=5,get,0,0/node=4,is,1,0/policy=0,permit,2/", (0, 0)),
            ("node=5,lit,0/node=10,err/node=4,hastag,0,1/policy=0,permit,2/", (0, 0)),
            ("node=5,lit,0/node=10,err/node=5,gettag,0,1/", (7, 3)),
            ("node=0,lit,0/node=10,err/node=5,gettag,0,1/node=4,is,2,0/policy=0,permit,3/", (0, 0)),
            ("node=5,lit,0/node=4,haspath,0,0,0,0,3,0/policy=0,permit,1/", (0, 0)),
            ("node=4,err/node=4,haspath,0,0/", (7, 2)),
        ] {
            assert_eq!(refused_after(&head, lines), wanted, "{lines}");
        }
        // Where a resource declares text 0 as a bool, no step goes on from there.
        let head = with("8,5", "7,-");
        for (lines, wanted) in [
            ("node=5,lit,0/node=4,haspath,0,0/policy=0,permit,1/", (0, 0)),
            ("node=5,lit,0/node=4,haspath,0,0,0/", (7, 2)),
            ("node=0,lit,0/node=4,haspath,0,0,0/policy=0,permit,1/", (0, 0)),
            ("node=0,lit,0/node=4,haspath,0,0,0,0/", (7, 2)),
            ("node=6,lit,1/node=4,haspath,0,3,0,0/policy=0,permit,1/", (0, 0)),
        ] {
            assert_eq!(refused_after(&head, lines), wanted, "{lines}");
        }
        // The same declared type in every kind, in one required and in the other not, and the same tags.
        let types = "type=entity,0,2/type=record,0,r,5/type=record,0,o,5/type=string/";
        let head = format!("{TYPES}{types}shape=6,5/shape=3,-/shape=7,5/{REQUEST}");
        for lines in [
            "node=5,lit,0/node=5,get,0,0/node=4,is,1,0/policy=0,permit,2/",
            "node=5,lit,0/node=8,err/node=5,gettag,0,1/node=4,is,2,0/policy=0,permit,3/",
        ] {
            assert_eq!(refused_after(&head, lines), (0, 0), "{lines}");
        }
    }

    #[test]
    fn parents() {
        // A tariff is above a broker, and a broker above a tariff. Values 0 and 1 are brokers, 2 and 3 tariffs; 4 to 7 are the sets of
        // each of them, 8 the empty set, 9 a record.
        let values = "value=entity,0,3/value=entity,0,2/value=entity,2,3/value=entity,2,2/value=set,0/value=set,1/value=set,2/value=set,3/\
                      value=set/value=record/";
        let head = format!("{TYPES}shape=3,-,2/shape=3,-/shape=3,-,0/{values}");
        let rest = REQUEST.split_once("principal").map(|(_, rest)| format!("principal{rest}")).expect("a principal");
        for (lines, wanted) in [
            ("entity=0,?,?,6/entity=2,?,?,8/", (0, 0)),
            ("entity=0,?,?,6/entity=2,?,?,?/", (0, 0)),
            ("entity=0,?,?,6/entity=1,?,?,7/entity=3,?,?,8/", (0, 0)),
            // At its own line: parents that are no set, or of a kind that is not above.
            ("entity=0,?,?,9/", (7, 1)),
            ("entity=0,?,?,5/", (7, 1)),
            ("entity=0,?,?,10/", (5, 1)),
            // A broker reached through a tariff, of another line or of its own.
            ("entity=0,?,?,6/entity=2,?,?,5/", (7, 1)),
            ("entity=0,?,?,?/entity=1,?,?,6/entity=2,?,?,5/", (7, 2)),
            ("entity=0,?,?,6/entity=2,?,?,4/", (7, 1)),
        ] {
            assert_eq!(refused_after(&head, &format!("{lines}{rest}")), wanted, "{lines}");
        }
        // What follows the entity lines, where the first of them reaches a kind that is not above it.
        let lines = "entity=0,?,?,6/entity=2,?,?,5/";
        for (rest, wanted) in [
            ("", (7, 1)),
            ("/", (7, 1)),
            ("x/", (7, 1)),
            ("\x7f/", (7, 1)),
            ("entity/", (7, 1)),
            ("entity", (7, 1)),
            ("principal=x/", (7, 1)),
            ("principal=0,?", (7, 1)),
            ("entity=3,?,?,?", (3, 3)),
            ("entity=3,?,?/", (3, 3)),
            ("entity=/", (3, 3)),
            ("entity=1,?,?,?/", (5, 3)),
            ("entity=3,?,?,6/", (7, 3)),
            ("entity=3,?,?,?/", (7, 1)),
        ] {
            assert_eq!(refused_after(&head, &format!("{lines}{rest}")), wanted, "{rest}");
        }
    }

    #[test]
    fn links() {
        let both = "node=0,slot,p/node=2,slot,r/node=4,eq,0,1/policy=0,permit,2/";
        for (lines, wanted) in [
            ("link=0,0,1/", (0, 0)),
            ("link=0,0,1/term=0,2000-01-01,2000-01-01/", (0, 0)),
            ("link=0,0/", (3, 5)),
            ("link=0,0,?/", (3, 5)),
            ("term=0,2000-01-01,2000-01-01/link=0,0,1/", (3, 6)),
            ("link=1,0,1/", (5, 5)),
            ("link=0,0,1/link=0,0,1/", (5, 6)),
            ("link=0,0,3/", (5, 5)),
            ("link=0,0,-/", (5, 5)),
            ("link=0,-,1/", (5, 5)),
            ("link=0,1,0/", (7, 5)),
            ("link=0,0,2/", (7, 5)),
            ("", (5, 4)),
            ("policy=1,forbid,2/link=0,0,1/", (5, 5)),
            ("policy=1,forbid,2/link=0,0,1/link=1,0,1/", (0, 0)),
            ("term=1,2000-01-01,2000-01-01/", (5, 5)),
        ] {
            assert_eq!(refused(&format!("{both}{lines}")), wanted, "{lines}");
        }
        for (lines, wanted) in [
            ("node=4,slot,p/", (7, 1)),
            ("node=0,slot,a/", (3, 1)),
            ("node=0,slot,p/node=0,slot,p/node=4,eq,0,1/policy=0,permit,2/link=0,0,-/", (0, 0)),
            ("node=0,slot,p/node=2,slot,p/node=4,eq,0,1/policy=0,permit,2/link=0,0,-/", (7, 5)),
            ("node=0,slot,p/node=4,lit,2/policy=0,permit,1/", (8, 1)),
            ("node=4,lit,2/policy=0,permit,0/policy=1,permit,0/link=0,-,-/", (0, 0)),
            ("node=4,lit,2/policy=0,permit,0/link=0,0,-/", (5, 3)),
            ("node=4,lit,2/node=4,not,0/policy=0,permit,1/policy=1,permit,0/", (8, 4)),
            ("node=4,lit,2/node=4,not,0/node=4,not,0/", (8, 3)),
        ] {
            assert_eq!(refused(lines), wanted, "{lines}");
        }
    }

    #[test]
    fn days() {
        let text = |(year, month, day): Day| format!("{year:04}-{month:02}-{day:02}").into_bytes();
        let every = || (0..2300).flat_map(|year| (0..14).flat_map(move |month| (0..33).map(move |day| (year, month, day))));
        let days: Vec<Day> = every().filter_map(|given| day(&text(given)).inspect(|found| assert_eq!(*found, given))).collect();
        // 300 years, 73 of them with a leap day.
        assert_eq!(days.len(), 300 * 365 + 73);
        assert_eq!((days[0], days[days.len() - 1]), ((1900, 1, 1), (2199, 12, 31)));
        assert!(day(b"2000-02-29").is_some() && day(b"2100-02-29").is_none() && day(b"1900-02-29").is_none());
        for wrong in [&b""[..], b"?", b"2000-1-01", b"2000-01-1", b"2000-01-011", b"2000/01/01", b"+200-01-01", b"2000-01- 1"] {
            assert_eq!(day(wrong), None);
        }
    }
}
