//! A sheet that is being made: its rows by key, and their printing.

use std::collections::HashMap;
use std::fmt::Write;

use crate::sheet::{
    declaration, Day, EntityRow, LinkRow, Mode, NodeRow, One, Operation, PolicyRow, ShapeRow, TermRow, TypeRow, ValueRow,
    Variable, SLOTS, TWO,
};

#[derive(Clone)]
pub struct Draft {
    pub mode: Mode,
    pub texts: Vec<Vec<u8>>,
    pub kinds: Vec<(u32, bool)>,
    pub types: Vec<TypeRow>,
    pub shapes: Vec<ShapeRow>,
    pub values: Vec<ValueRow>,
    pub entities: Vec<EntityRow>,
    pub principal: (u32, Option<u32>),
    pub action: (u32, u32),
    pub resource: (u32, Option<u32>),
    pub context: (u32, Option<u32>),
    pub day: Day,
    pub nodes: Vec<NodeRow>,
    pub policies: Vec<PolicyRow>,
    pub links: Vec<LinkRow>,
    pub terms: Vec<TermRow>,
    /// While the tree of a template is made: the kinds that a value for its slots so far may have, `p` and `r`.
    pub slots: Option<[Option<Vec<u32>>; 2]>,
    places: HashMap<ValueRow, u32>,
}

impl Draft {
    pub fn new() -> Draft {
        Draft {
            mode: Mode::Partial,
            texts: Vec::new(),
            kinds: Vec::new(),
            types: Vec::new(),
            shapes: Vec::new(),
            values: Vec::new(),
            entities: Vec::new(),
            principal: (0, None),
            action: (0, 0),
            resource: (0, None),
            context: (0, None),
            day: (2000, 1, 1),
            nodes: Vec::new(),
            policies: Vec::new(),
            links: Vec::new(),
            terms: Vec::new(),
            slots: None,
            places: HashMap::new(),
        }
    }

    /// The number of a text, which is added if absent.
    pub fn text(&mut self, bytes: &[u8]) -> u32 {
        match self.texts.iter().position(|text| text == bytes) {
            Some(n) => n as u32,
            None => {
                self.texts.push(bytes.to_vec());
                self.texts.len() as u32 - 1
            }
        }
    }

    /// The number of a type, which is added if absent.
    pub fn ty(&mut self, row: TypeRow) -> u32 {
        match self.types.iter().position(|other| *other == row) {
            Some(n) => n as u32,
            None => {
                self.types.push(row);
                self.types.len() as u32 - 1
            }
        }
    }

    /// The number of the type of a kind alone, which is added if absent.
    pub fn alone(&mut self, kind: u32) -> u32 {
        self.ty(TypeRow::Entity(vec![kind]))
    }

    /// The kinds of an entity type; nothing for other types.
    pub fn kinds_of(&self, ty: u32) -> &[u32] {
        match &self.types[ty as usize] {
            TypeRow::Entity(kinds) => kinds,
            _ => &[],
        }
    }

    /// The type lines with two kinds or more.
    pub fn groups(&self) -> Vec<u32> {
        (0..self.types.len() as u32).filter(|ty| self.kinds_of(*ty).len() > 1).collect()
    }

    /// The number of a value, which is added if absent.
    pub fn value(&mut self, row: ValueRow) -> u32 {
        if let Some(n) = self.places.get(&row) {
            return *n;
        }
        let n = self.values.len() as u32;
        self.places.insert(row.clone(), n);
        self.values.push(row);
        n
    }

    pub fn node(&mut self, ty: u32, operation: Operation) -> u32 {
        self.nodes.push(NodeRow { ty, operation });
        self.nodes.len() as u32 - 1
    }

    pub fn policy(&mut self, id: u32, permit: bool, node: u32) {
        self.policies.push(PolicyRow { id, permit, node });
    }

    /// The number of nodes of the tree under a node, its own one counted.
    pub fn size(&self, root: u32) -> usize {
        1 + self.nodes[root as usize].operation.children().into_iter().map(|n| self.size(n)).sum::<usize>()
    }

    /// The node uses of all policies.
    pub fn uses(&self) -> usize {
        self.policies.iter().map(|row| self.size(row.node)).sum()
    }

    /// The declared attributes of a record type, or of each kind of an entity type; nothing for other types.
    pub fn holders(&self, ty: u32) -> Vec<&[(u32, bool, u32)]> {
        let fields = |ty: u32| match &self.types[ty as usize] {
            TypeRow::Record(fields) => Some(&fields[..]),
            _ => None,
        };
        match &self.types[ty as usize] {
            TypeRow::Entity(kinds) => kinds.iter().filter_map(|kind| fields(self.shapes[*kind as usize].attributes)).collect(),
            _ => fields(ty).into_iter().collect(),
        }
    }

    /// The attributes that have the same declared type wherever the type declares any: text and type.
    pub fn attributes(&self, ty: u32) -> Vec<(u32, u32)> {
        let holders = self.holders(ty);
        let first = holders.first().copied().unwrap_or_default();
        let same = |t: u32, ty: u32| holders.iter().all(|fields| declaration(fields, t) == Some(ty));
        first.iter().filter(|(t, _, ty)| same(*t, *ty)).map(|(t, _, ty)| (*t, *ty)).collect()
    }

    pub fn fits(&self, value: u32, ty: u32) -> bool {
        match (&self.values[value as usize], &self.types[ty as usize]) {
            (ValueRow::Bool(_), TypeRow::Bool) | (ValueRow::Long(_), TypeRow::Long) | (ValueRow::Text(_), TypeRow::String) => {
                true
            }
            (ValueRow::Entity(kind, _), TypeRow::Entity(kinds)) => kinds.contains(kind),
            (ValueRow::Set(items), TypeRow::Set(element)) => items.iter().all(|v| self.fits(*v, *element)),
            (ValueRow::Record(fields), TypeRow::Record(declared)) => {
                fields.iter().all(|(t, v)| declaration(declared, *t).is_some_and(|ty| self.fits(*v, ty)))
                    && declared.iter().all(|(t, required, _)| !required || fields.iter().any(|(there, _)| there == t))
            }
            _ => false,
        }
    }

    /// The lines of the sheet, each without its end.
    pub fn lines(&self) -> Vec<Vec<u8>> {
        let mut lines: Vec<Vec<u8>> = vec![format!("sheet={}", self.mode.word()).into_bytes()];
        lines.extend(self.texts.iter().map(|text| [b"text=", &text[..]].concat()));
        let mut line = |text: String| lines.push(text.into_bytes());
        for (name, is_action) in &self.kinds {
            line(format!("kind={name},{}", if *is_action { "a" } else { "e" }));
        }
        for row in &self.types {
            line(type_line(row));
        }
        for row in &self.shapes {
            let tags = row.tags.map_or("-".to_string(), |ty| ty.to_string());
            line(format!("shape={},{tags}{}", row.attributes, joined(&row.above)));
        }
        for row in &self.values {
            line(value_line(row));
        }
        let part = |n: Option<u32>| n.map_or("?".to_string(), |n| n.to_string());
        for row in &self.entities {
            line(format!("entity={},{},{},{}", row.entity, part(row.attributes), part(row.tags), part(row.parents)));
        }
        line(format!("principal={},{}", self.principal.0, part(self.principal.1)));
        line(format!("action={},{}", self.action.0, self.action.1));
        line(format!("resource={},{}", self.resource.0, part(self.resource.1)));
        line(format!("context={},{}", self.context.0, part(self.context.1)));
        line(format!("day={}", day_text(self.day)));
        for row in &self.nodes {
            line(node_line(row));
        }
        for row in &self.policies {
            line(format!("policy={},{},{}", row.id, if row.permit { "permit" } else { "forbid" }, row.node));
        }
        let given = |n: Option<u32>| n.map_or("-".to_string(), |n| n.to_string());
        for row in &self.links {
            line(format!("link={},{},{}", row.policy, given(row.principal), given(row.resource)));
        }
        for row in &self.terms {
            line(format!("term={},{},{}", row.policy, day_text(row.first), day_text(row.last)));
        }
        lines
    }

    pub fn bytes(&self) -> Vec<u8> {
        bytes_of(&self.lines())
    }
}

/// Lines, each ended.
pub fn bytes_of(lines: &[Vec<u8>]) -> Vec<u8> {
    let mut bytes = Vec::new();
    for line in lines {
        bytes.extend_from_slice(line);
        bytes.push(b'\n');
    }
    bytes
}

pub fn day_text((year, month, day): Day) -> String {
    format!("{year:04}-{month:02}-{day:02}")
}

/// Each number after a comma.
fn joined(numbers: &[u32]) -> String {
    numbers.iter().fold(String::new(), |mut text, n| {
        let _ = write!(text, ",{n}");
        text
    })
}

fn joined_pairs(pairs: &[(u32, u32)]) -> String {
    joined(&pairs.iter().flat_map(|(t, n)| [*t, *n]).collect::<Vec<_>>())
}

fn type_line(row: &TypeRow) -> String {
    match row {
        TypeRow::Bool => "type=bool".into(),
        TypeRow::Long => "type=long".into(),
        TypeRow::String => "type=string".into(),
        TypeRow::Entity(kinds) => format!("type=entity{}", joined(kinds)),
        TypeRow::Set(element) => format!("type=set,{element}"),
        TypeRow::Record(fields) => fields.iter().fold("type=record".into(), |mut text, (t, required, ty)| {
            let _ = write!(text, ",{t},{},{ty}", if *required { "r" } else { "o" });
            text
        }),
    }
}

fn value_line(row: &ValueRow) -> String {
    match row {
        ValueRow::Bool(b) => format!("value=bool,{}", u8::from(*b)),
        ValueRow::Long(n) => format!("value=long,{n}"),
        ValueRow::Text(t) => format!("value=text,{t}"),
        ValueRow::Entity(kind, t) => format!("value=entity,{kind},{t}"),
        ValueRow::Set(items) => format!("value=set{}", joined(items)),
        ValueRow::Record(fields) => format!("value=record{}", joined_pairs(fields)),
    }
}

fn node_line(row: &NodeRow) -> String {
    let ty = row.ty;
    match &row.operation {
        Operation::Lit(v) => format!("node={ty},lit,{v}"),
        Operation::Err => format!("node={ty},err"),
        Operation::Slot(slot) => {
            let letter = SLOTS.iter().find(|(_, other)| other == slot).expect("a letter").0;
            format!("node={ty},slot,{letter}")
        }
        Operation::Var(variable) => {
            let letter = match variable {
                Variable::Principal => "p",
                Variable::Action => "a",
                Variable::Resource => "r",
                Variable::Context => "c",
            };
            format!("node={ty},var,{letter}")
        }
        Operation::Two(two, a, b) => {
            let word = TWO.iter().find(|(_, other)| other == two).expect("a word").0;
            format!("node={ty},{word},{a},{b}")
        }
        Operation::One(one, a) => {
            let word = match one {
                One::Not => "not",
                One::Neg => "neg",
                One::Empty => "empty",
            };
            format!("node={ty},{word},{a}")
        }
        Operation::If(a, b, c) => format!("node={ty},if,{a},{b},{c}"),
        Operation::Is(a, kind) => format!("node={ty},is,{a},{kind}"),
        Operation::Like(a, items) => items.iter().fold(format!("node={ty},like,{a}"), |mut text, item| {
            let _ = match item {
                Some(t) => write!(text, ",{t}"),
                None => write!(text, ",*"),
            };
            text
        }),
        Operation::Get(a, t) => format!("node={ty},get,{a},{t}"),
        Operation::Has(a, t) => format!("node={ty},has,{a},{t}"),
        Operation::HasPath(a, path) => format!("node={ty},haspath,{a}{}", joined(path)),
        Operation::Set(items) => format!("node={ty},set{}", joined(items)),
        Operation::Record(fields) => format!("node={ty},record{}", joined_pairs(fields)),
    }
}
