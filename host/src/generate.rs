//! Random sheets: valid ones with every operation, complete ones that agree with a partial one, and damaged ones.

use crate::draft::{bytes_of, day_text, Draft};
use crate::parents::Parents;
use crate::random::Random;
use crate::sheet::{
    days_in, declaration, Day, EntityRow, LinkRow, Mode, One, Operation, ShapeRow, TermRow, Two, TypeRow, ValueRow, Variable,
    SLOTS,
};

/// A sheet and the entry that it is handed to.
pub struct Case {
    pub mode: Mode,
    pub bytes: Vec<u8>,
}

/// The sheet of place `n` under a seed: valid or damaged.
pub fn sheet(seed: u64, n: u64) -> Case {
    let random = &mut Random::of(seed, n);
    let grouped = random.chance(20);
    let draft = valid(random, grouped);
    match random.below(100) {
        0 => Case { mode: Mode::Partial, bytes: garbage(random) },
        1..=39 => case(&draft),
        40..=54 => case(&completion(&draft, random)),
        55..=79 => {
            let draft = if random.chance(70) { draft } else { completion(&draft, random) };
            let mut lines = draft.lines();
            damage(&mut lines, random);
            if random.chance(15) {
                damage(&mut lines, random);
            }
            let mode = if random.chance(2) { other(draft.mode) } else { draft.mode };
            let mut bytes = bytes_of(&lines);
            damage_bytes(&mut bytes, random);
            Case { mode, bytes }
        }
        80..=89 => damaged_draft(draft, random),
        _ => at_limit(random),
    }
}

/// A partial sheet and two complete ones that agree with it, without groups.
pub fn triple(seed: u64, n: u64) -> [Vec<u8>; 3] {
    let random = &mut Random::of(seed, n);
    let partial = valid(random, false);
    let second = completion(&partial, random);
    let third = completion(&partial, random);
    [partial.bytes(), second.bytes(), third.bytes()]
}

fn case(draft: &Draft) -> Case {
    Case { mode: draft.mode, bytes: draft.bytes() }
}

fn other(mode: Mode) -> Mode {
    match mode {
        Mode::Partial => Mode::Complete,
        Mode::Complete => Mode::Partial,
    }
}

// Valid sheets -----------------------------------------------------------------------------------------------------------

const WORDS: [&[u8]; 24] = [
    b"", b"a", b"b", b"ab", b"ba", b"aab", b"abab", b"*", b"a*b", b",", b"=", b"?", b"-", b"a,b", b"0", b"text=a", b"~", b" ",
    b"Broker", b"Tariff", b"quote", b"T1", b"region", b"low",
];

const LONGS: [i64; 14] = [0, 1, -1, 2, 3, 7, -5, 10, 64, i64::MAX, i64::MIN, i64::MAX - 1, i64::MIN + 1, 3037000500];

fn random_text(random: &mut Random) -> Vec<u8> {
    if random.chance(60) {
        return random.pick(&WORDS).to_vec();
    }
    let length = if random.chance(3) { random.from(100, 128) } else { random.from(1, 8) };
    let letters: &[u8] = if random.chance(50) { b"ab*" } else { b"abcdefgh ,=?*-" };
    (0..length).map(|_| random.pick(letters)).collect()
}

/// Some distinct numbers below `count`, ascending.
fn some(random: &mut Random, count: usize, most: usize) -> Vec<u32> {
    let mut numbers: Vec<u32> = (0..random.from(0, most.min(count))).map(|_| random.below(count) as u32).collect();
    numbers.sort();
    numbers.dedup();
    numbers
}

/// A partial sheet without fault, perhaps with groups of kinds.
pub fn valid(random: &mut Random, grouped: bool) -> Draft {
    let mut draft = Draft::new();
    let texts = random.from(5, 14);
    while draft.texts.len() < texts {
        let text = random_text(random);
        draft.text(&text);
    }
    random_schema(&mut draft, random, grouped);
    for _ in 0..random.from(0, 6) {
        let ty = random.below(draft.types.len()) as u32;
        value_for(&mut draft, random, ty);
    }
    if random.chance(20) {
        let items =
            some(random, draft.values.len().max(1), 3).into_iter().filter(|v| (*v as usize) < draft.values.len()).collect();
        draft.value(ValueRow::Set(items));
    }
    random_request(&mut draft, random);
    let size = [20, 60, 150][random.below(3)];
    random_policies(&mut draft, random, size);
    let (listed, known) = (random.pick(&[60, 95]), random.pick(&[65, 95]));
    list_entities(&mut draft, random, listed);
    fill_entities(&mut draft, random, known);
    random_terms(&mut draft, random);
    draft
}

fn random_schema(draft: &mut Draft, random: &mut Random, grouped: bool) {
    let mut letters = vec![false; if grouped { random.from(2, 4) } else { random.from(1, 3) }];
    letters.extend(vec![true; random.from(1, 2)]);
    random.shuffle(&mut letters);
    let mut names: Vec<u32> = (0..draft.texts.len() as u32).collect();
    random.shuffle(&mut names);
    draft.kinds = names.into_iter().zip(letters).collect();
    let mut types = vec![TypeRow::Bool, TypeRow::Long, TypeRow::String, TypeRow::Record(Vec::new())];
    types.extend((0..draft.kinds.len() as u32).map(|kind| TypeRow::Entity(vec![kind])));
    random.shuffle(&mut types);
    draft.types = types;
    if grouped {
        random_groups(draft, random);
    }
    for _ in 0..random.from(2, 8) {
        let any = |random: &mut Random, draft: &Draft| random.below(draft.types.len()) as u32;
        let row = match random.below(5) {
            0 => TypeRow::Set(any(random, draft)),
            1 => TypeRow::Set(random.pick(&types_where(draft, |row| matches!(row, TypeRow::Entity(_))))),
            _ => {
                let texts = some(random, draft.texts.len(), 5);
                TypeRow::Record(texts.into_iter().map(|t| (t, random.chance(60), any(random, draft))).collect())
            }
        };
        draft.ty(row);
    }
    if random.chance(70) {
        // A record with an attribute of each simple type, as a context has.
        let mut texts: Vec<u32> = (0..draft.texts.len() as u32).collect();
        random.shuffle(&mut texts);
        let mut simple = types_where(draft, |row| !matches!(row, TypeRow::Record(_)));
        random.shuffle(&mut simple);
        let mut fields: Vec<(u32, bool, u32)> =
            texts.into_iter().zip(simple).take(6).map(|(t, ty)| (t, random.chance(60), ty)).collect();
        fields.sort();
        draft.ty(TypeRow::Record(fields));
    }
    let records = types_where(draft, |row| matches!(row, TypeRow::Record(_)));
    let empty = draft.ty(TypeRow::Record(Vec::new()));
    // Kinds of a group that declare the same.
    let shared = (random.pick(&records), random.below(draft.types.len()) as u32);
    for kind in 0..draft.kinds.len() {
        let above = some(random, draft.kinds.len(), 3);
        let shape = if draft.kinds[kind].1 {
            ShapeRow { attributes: empty, tags: None, above }
        } else {
            let as_others = grouped && random.chance(60);
            let tag = if as_others { shared.1 } else { random.below(draft.types.len()) as u32 };
            let tags = if random.chance(if as_others { 75 } else { 55 }) { Some(tag) } else { None };
            ShapeRow { attributes: if as_others { shared.0 } else { random.pick(&records) }, tags, above }
        };
        draft.shapes.push(shape);
    }
    if random.chance(60) {
        close_above(draft);
    }
}

/// Kinds above those above a kind are above it too, so that rows and circles of parents stay among them.
fn close_above(draft: &mut Draft) {
    loop {
        let mut grown = false;
        for kind in 0..draft.shapes.len() {
            let mut above = draft.shapes[kind].above.clone();
            above.extend(draft.shapes[kind].above.iter().flat_map(|k| &draft.shapes[*k as usize].above));
            above.sort();
            above.dedup();
            grown |= above.len() > draft.shapes[kind].above.len();
            draft.shapes[kind].above = above;
        }
        if !grown {
            return;
        }
    }
}

/// Types of two kinds or more, each of which has its type alone already; mostly without action kinds.
fn random_groups(draft: &mut Draft, random: &mut Random) {
    for _ in 0..random.from(1, 3) {
        let mut kinds: Vec<u32> = (0..draft.kinds.len() as u32).collect();
        if random.chance(65) {
            kinds = kinds_of(draft, false);
        }
        random.shuffle(&mut kinds);
        kinds.truncate(random.from(2, kinds.len()));
        kinds.sort();
        draft.ty(TypeRow::Entity(kinds));
    }
}

/// The number of an entity of one of some kinds: one that is there, or a new one.
fn entity_of(draft: &mut Draft, random: &mut Random, kinds: &[u32]) -> u32 {
    let there: Vec<u32> = (0..draft.values.len() as u32)
        .filter(|v| matches!(draft.values[*v as usize], ValueRow::Entity(kind, _) if kinds.contains(&kind)))
        .collect();
    if !there.is_empty() && random.chance(50) {
        return random.pick(&there);
    }
    let kind = random.pick(kinds);
    draft.value(ValueRow::Entity(kind, random.below(draft.texts.len()) as u32))
}

/// The number of a value that fits a type: one that is there, or a new one.
fn value_for(draft: &mut Draft, random: &mut Random, ty: u32) -> u32 {
    if random.chance(50) {
        let fitting: Vec<u32> = (0..draft.values.len() as u32).filter(|v| draft.fits(*v, ty)).collect();
        if !fitting.is_empty() {
            return random.pick(&fitting);
        }
    }
    let row = match draft.types[ty as usize].clone() {
        TypeRow::Bool => ValueRow::Bool(random.chance(50)),
        TypeRow::Long => ValueRow::Long(if random.chance(5) { random.next() as i64 } else { random.pick(&LONGS) }),
        TypeRow::String => ValueRow::Text(random.below(draft.texts.len()) as u32),
        TypeRow::Entity(kinds) => ValueRow::Entity(random.pick(&kinds), random.below(draft.texts.len()) as u32),
        TypeRow::Set(element) => {
            let mut items: Vec<u32> = (0..random.from(0, 3)).map(|_| value_for(draft, random, element)).collect();
            items.sort();
            items.dedup();
            ValueRow::Set(items)
        }
        TypeRow::Record(fields) => {
            let mut row = Vec::new();
            for (t, required, ty) in fields {
                if required || random.chance(60) {
                    row.push((t, value_for(draft, random, ty)));
                }
            }
            ValueRow::Record(row)
        }
    };
    draft.value(row)
}

fn kinds_of(draft: &Draft, is_action: bool) -> Vec<u32> {
    (0..draft.kinds.len() as u32).filter(|kind| draft.kinds[*kind as usize].1 == is_action).collect()
}

fn random_request(draft: &mut Draft, random: &mut Random) {
    let ordinary = kinds_of(draft, false);
    let actions = kinds_of(draft, true);
    let text = |random: &mut Random, draft: &Draft| random.below(draft.texts.len()) as u32;
    draft.principal = (random.pick(&ordinary), if random.chance(50) { None } else { Some(text(random, draft)) });
    draft.action = (random.pick(&actions), text(random, draft));
    draft.resource = (random.pick(&ordinary), if random.chance(40) { None } else { Some(text(random, draft)) });
    let records = types_where(draft, |row| matches!(row, TypeRow::Record(_)));
    let ty = if random.chance(50) { records[records.len() - 1] } else { random.pick(&records) };
    draft.context = (ty, if random.chance(60) { None } else { Some(value_for(draft, random, ty)) });
}

/// Lists entities: some of the entity values that are there, nothing known of them.
fn list_entities(draft: &mut Draft, random: &mut Random, listed: usize) {
    for v in 0..draft.values.len() as u32 {
        let there = draft.entities.iter().any(|row| row.entity == v) || draft.entities.len() >= 40;
        if matches!(draft.values[v as usize], ValueRow::Entity(..)) && !there && random.chance(listed) {
            draft.entities.push(EntityRow { entity: v, attributes: None, tags: None, parents: None });
        }
    }
    draft.entities.sort_by_key(|row| row.entity);
}

/// Makes unknown parts of the entity lines known, each in so many of a hundred cases, and lists some of the entities that this adds.
fn fill_entities(draft: &mut Draft, random: &mut Random, known: usize) {
    for place in 0..draft.entities.len() {
        fill_entity(draft, random, place, known);
    }
    let before: Vec<u32> = draft.entities.iter().map(|row| row.entity).collect();
    list_entities(draft, random, 15);
    for place in 0..draft.entities.len() {
        if !before.contains(&draft.entities[place].entity) {
            fill_entity(draft, random, place, known);
        }
    }
}

fn fill_entity(draft: &mut Draft, random: &mut Random, place: usize, known: usize) {
    let mut row = draft.entities[place].clone();
    let shape = draft.shapes[kind_of(draft, row.entity) as usize].clone();
    if row.attributes.is_none() && random.chance(known) {
        row.attributes = Some(value_for(draft, random, shape.attributes));
    }
    if row.tags.is_none() && random.chance(known) {
        let mut fields = Vec::new();
        if let Some(ty) = shape.tags {
            for t in some(random, draft.texts.len(), 4) {
                fields.push((t, value_for(draft, random, ty)));
            }
        }
        row.tags = Some(draft.value(ValueRow::Record(fields)));
    }
    if row.parents.is_none() && random.chance(known) {
        // Of those wanted as many as keep what every line reaches among the kinds above it.
        let mut wanted = random_parents(draft, random, &shape.above);
        while !fit_with(draft, place, &wanted) {
            wanted.pop();
        }
        row.parents = Some(draft.value(ValueRow::Set(wanted)));
    }
    draft.entities[place] = row;
}

fn kind_of(draft: &Draft, entity: u32) -> u32 {
    match draft.values[entity as usize] {
        ValueRow::Entity(kind, _) => kind,
        _ => unreachable!("an entity is listed"),
    }
}

/// Up to three entities of some kinds, more often listed ones, which make rows and circles.
fn random_parents(draft: &mut Draft, random: &mut Random, above: &[u32]) -> Vec<u32> {
    let listed: Vec<u32> = draft.entities.iter().map(|row| row.entity).filter(|v| above.contains(&kind_of(draft, *v))).collect();
    let count = if above.is_empty() { 0 } else { random.from(0, 3) };
    let mut parents: Vec<u32> = (0..count)
        .map(|_| match listed.is_empty() || random.chance(30) {
            true => entity_of(draft, random, above),
            false => random.pick(&listed),
        })
        .collect();
    parents.sort();
    parents.dedup();
    parents
}

/// Whether all that entities reach fits where a line has these parents.
fn fit_with(draft: &Draft, place: usize, parents: &[u32]) -> bool {
    let (mut values, mut entities) = (draft.values.clone(), draft.entities.clone());
    entities[place].parents = Some(values.len() as u32);
    values.push(ValueRow::Set(parents.to_vec()));
    Parents::of(&values, &entities).first_unfit(&entities, &draft.shapes).is_none()
}

fn random_policies(draft: &mut Draft, random: &mut Random, size: usize) {
    let mut ids: Vec<u32> = (0..draft.texts.len() as u32).collect();
    random.shuffle(&mut ids);
    let count = random.from(0, 7.min(ids.len()));
    let bool_type = draft.ty(TypeRow::Bool);
    let (templates, shared) = ([0, 30, 80][random.below(3)], [0, 25, 60][random.below(3)]);
    // The roots so far, each with the kinds that a value for its slots may have.
    let mut roots: Vec<(u32, [Option<Vec<u32>>; 2])> = Vec::new();
    for id in ids.into_iter().take(count) {
        let again = if roots.is_empty() || !random.chance(shared) { None } else { Some(random.pick(&roots)) };
        let (node, slots) = match again {
            Some((root, slots)) if draft.uses() + draft.size(root) <= 1024 => (root, slots),
            _ => {
                let depth = random.from(1, 6);
                let left = size.saturating_sub(draft.nodes.len());
                draft.slots = if random.chance(templates) { Some([None, None]) } else { None };
                let node = tree(draft, random, bool_type, if left == 0 { 0 } else { depth });
                roots.push((node, draft.slots.take().unwrap_or([None, None])));
                roots[roots.len() - 1].clone()
            }
        };
        if slots.iter().any(Option::is_some) || random.chance(10) {
            let [principal, resource] = slots.map(|kinds| kinds.map(|kinds| entity_of(draft, random, &kinds)));
            draft.links.push(LinkRow { policy: draft.policies.len() as u32, principal, resource });
        }
        draft.policy(id, random.chance(60), node);
    }
}

/// A slot of an entity type, where a template's tree is made and some value fits it beside the slots of its letter so far.
fn slot(draft: &mut Draft, random: &mut Random, ty: u32) -> Option<u32> {
    draft.slots.as_ref()?;
    let which = random.below(2);
    let mut kinds = draft.kinds_of(ty).to_vec();
    let slots = draft.slots.as_mut()?;
    if let Some(others) = &slots[which] {
        kinds.retain(|kind| others.contains(kind));
    }
    if kinds.is_empty() {
        return None;
    }
    slots[which] = Some(kinds);
    Some(draft.node(ty, Operation::Slot(SLOTS[which].1)))
}

const FIRST_DAY: Day = (1900, 1, 1);
const LAST_DAY: Day = (2199, 12, 31);

/// Days at the ends of months and years, around leap days, and the first and last of all.
const DAYS: [Day; 20] = [
    FIRST_DAY,
    (1900, 1, 2),
    (1900, 2, 28),
    (1900, 3, 1),
    (1999, 12, 31),
    (2000, 1, 1),
    (2000, 2, 28),
    (2000, 2, 29),
    (2000, 3, 1),
    (2023, 2, 28),
    (2024, 2, 29),
    (2024, 4, 30),
    (2024, 5, 1),
    (2024, 12, 31),
    (2025, 1, 1),
    (2100, 2, 28),
    (2100, 3, 1),
    (2100, 12, 31),
    (2199, 12, 30),
    LAST_DAY,
];

fn random_day(random: &mut Random) -> Day {
    if random.chance(60) {
        return random.pick(&DAYS);
    }
    let (year, month) = (random.from(1900, 2199) as u32, random.from(1, 12) as u32);
    (year, month, random.from(1, days_in(year, month) as usize) as u32)
}

/// The day after; the last of all stays.
fn day_after(day: Day) -> Day {
    match day {
        LAST_DAY => LAST_DAY,
        (year, month, day) if day < days_in(year, month) => (year, month, day + 1),
        (year, 12, _) => (year + 1, 1, 1),
        (year, month, _) => (year, month + 1, 1),
    }
}

/// The day before; the first of all stays.
fn day_before(day: Day) -> Day {
    match day {
        FIRST_DAY => FIRST_DAY,
        (year, 1, 1) => (year - 1, 12, 31),
        (year, month, 1) => (year, month - 1, days_in(year, month - 1)),
        (year, month, day) => (year, month, day - 1),
    }
}

/// A term near a day: it begins or ends on that day or beside it, holds it, or is anywhere.
fn random_term(random: &mut Random, day: Day) -> (Day, Day) {
    let other = random_day(random);
    match random.below(9) {
        0 => (day, day.max(other)),
        1 => (day.min(other), day),
        2 => (day_after(day), day_after(day).max(other)),
        3 => (day_before(day).min(other), day_before(day)),
        4 => (day, day),
        5 => (day_before(day), day_after(day)),
        6 => (FIRST_DAY, LAST_DAY),
        _ => {
            let another = random_day(random);
            (other.min(another), other.max(another))
        }
    }
}

/// The day, and terms for some of the policies.
fn random_terms(draft: &mut Draft, random: &mut Random) {
    draft.day = random_day(random);
    let chosen = [0, 30, 60, 100][random.below(4)];
    for policy in 0..draft.policies.len() as u32 {
        if random.chance(chosen) {
            let (first, last) = random_term(random, draft.day);
            draft.terms.push(TermRow { policy, first, last });
        }
    }
}

/// A tree of a type, at most so deep below its root; gives the number of its root.
fn tree(draft: &mut Draft, random: &mut Random, ty: u32, depth: usize) -> u32 {
    if depth == 0 || draft.nodes.len() > 250 || random.chance(8) {
        return leaf(draft, random, ty);
    }
    let row = draft.types[ty as usize].clone();
    match random.below(20) {
        0 => return leaf(draft, random, ty),
        1 | 2 => {
            let test = draft.ty(TypeRow::Bool);
            let [a, b, c] = trees(draft, random, [test, ty, ty], depth - 1);
            return draft.node(ty, Operation::If(a, b, c));
        }
        3..=8 => {
            if let Some(node) = part(draft, random, ty, depth) {
                return node;
            }
        }
        _ => (),
    }
    match row {
        TypeRow::Bool => bool_tree(draft, random, ty, depth),
        TypeRow::Long => {
            if random.chance(25) {
                let a = tree(draft, random, ty, depth - 1);
                return draft.node(ty, Operation::One(One::Neg, a));
            }
            let two = random.pick(&[Two::Add, Two::Sub, Two::Mul]);
            let [a, b] = trees(draft, random, [ty, ty], depth - 1);
            draft.node(ty, Operation::Two(two, a, b))
        }
        TypeRow::Set(element) => {
            let items = (0..random.from(0, 4)).map(|_| tree(draft, random, element, depth - 1)).collect();
            draft.node(ty, Operation::Set(items))
        }
        TypeRow::Record(fields) => {
            let mut there: Vec<(u32, u32)> = Vec::new();
            for (t, required, ty) in fields {
                if required || random.chance(60) {
                    there.push((t, ty));
                }
            }
            let mut order: Vec<usize> = (0..there.len()).collect();
            if random.chance(50) {
                random.shuffle(&mut order);
            }
            for place in order {
                there[place].1 = tree(draft, random, there[place].1, depth - 1);
            }
            draft.node(ty, Operation::Record(there))
        }
        _ => leaf(draft, random, ty),
    }
}

/// Trees of some types; which comes first in the sheet is left to chance.
fn trees<const N: usize>(draft: &mut Draft, random: &mut Random, types: [u32; N], depth: usize) -> [u32; N] {
    let mut order: Vec<usize> = (0..N).collect();
    if random.chance(30) {
        random.shuffle(&mut order);
    }
    let mut roots = [0; N];
    for place in order {
        let depth = if random.chance(30) { depth.saturating_sub(1) } else { depth };
        roots[place] = tree(draft, random, types[place], depth);
    }
    roots
}

fn leaf(draft: &mut Draft, random: &mut Random, ty: u32) -> u32 {
    if random.chance(3) {
        return draft.node(ty, Operation::Err);
    }
    if random.chance(60) {
        if let Some(node) = slot(draft, random, ty) {
            return node;
        }
    }
    let context = draft.context.0;
    if random.chance(45) {
        if let Some((t, _)) = draft.attributes(context).into_iter().find(|field| field.1 == ty) {
            let var = draft.node(context, Operation::Var(Variable::Context));
            return draft.node(ty, Operation::Get(var, t));
        }
    }
    let mut variables = Vec::new();
    if ty == draft.context.0 {
        variables.push(Variable::Context);
    }
    for (variable, kind) in
        [(Variable::Principal, draft.principal.0), (Variable::Action, draft.action.0), (Variable::Resource, draft.resource.0)]
    {
        if draft.kinds_of(ty) == [kind] {
            variables.push(variable);
        }
    }
    if !variables.is_empty() && random.chance(75) {
        let variable = random.pick(&variables);
        return draft.node(ty, Operation::Var(variable));
    }
    let value = value_for(draft, random, ty);
    draft.node(ty, Operation::Lit(value))
}

/// A get or gettag that gives the type, if some type has such a part.
fn part(draft: &mut Draft, random: &mut Random, ty: u32, depth: usize) -> Option<u32> {
    let mut places: Vec<(u32, Option<u32>)> = Vec::new();
    for holder in 0..draft.types.len() as u32 {
        places.extend(draft.attributes(holder).into_iter().filter(|field| field.1 == ty).map(|field| (holder, Some(field.0))));
        let kinds = draft.kinds_of(holder);
        if !kinds.is_empty() && kinds.iter().all(|kind| draft.shapes[*kind as usize].tags == Some(ty)) {
            places.push((holder, None));
        }
    }
    if places.is_empty() {
        return None;
    }
    let context = draft.context.0;
    let near: Vec<_> = places.iter().filter(|(holder, _)| *holder == context).cloned().collect();
    let (holder, text) = if !near.is_empty() && random.chance(40) { random.pick(&near) } else { random.pick(&places) };
    Some(match text {
        Some(t) => {
            let a = tree(draft, random, holder, depth - 1);
            draft.node(ty, Operation::Get(a, t))
        }
        None => {
            let string = draft.ty(TypeRow::String);
            let [a, b] = trees(draft, random, [holder, string], depth - 1);
            draft.node(ty, Operation::Two(Two::GetTag, a, b))
        }
    })
}

fn types_where(draft: &Draft, wanted: impl Fn(&TypeRow) -> bool) -> Vec<u32> {
    (0..draft.types.len() as u32).filter(|ty| wanted(&draft.types[*ty as usize])).collect()
}

/// A type that stands in the request, or any of the given ones.
fn near_type(draft: &Draft, random: &mut Random, types: &[u32]) -> u32 {
    let request = [draft.principal.0, draft.action.0, draft.resource.0];
    let near: Vec<u32> = types
        .iter()
        .copied()
        .filter(|ty| *ty == draft.context.0 || draft.kinds_of(*ty).iter().any(|kind| request.contains(kind)))
        .collect();
    if !near.is_empty() && random.chance(70) {
        random.pick(&near)
    } else {
        random.pick(types)
    }
}

/// A text, more often one that one of the types declares.
fn near_text(draft: &Draft, random: &mut Random, types: &[u32]) -> u32 {
    let fields: Vec<&(u32, bool, u32)> = types.iter().flat_map(|ty| draft.holders(*ty)).flatten().collect();
    if !fields.is_empty() && random.chance(75) {
        return random.pick(&fields).0;
    }
    random.below(draft.texts.len()) as u32
}

fn bool_tree(draft: &mut Draft, random: &mut Random, ty: u32, depth: usize) -> u32 {
    let entities = types_where(draft, |row| matches!(row, TypeRow::Entity(_)));
    let long = draft.ty(TypeRow::Long);
    let string = draft.ty(TypeRow::String);
    let below = depth - 1;
    let operation = match random.below(32) {
        0..=4 => {
            let [a, b] = trees(draft, random, [ty, ty], below);
            Operation::Two(Two::And, a, b)
        }
        5..=9 => {
            let [a, b] = trees(draft, random, [ty, ty], below);
            Operation::Two(Two::Or, a, b)
        }
        10 => Operation::One(One::Not, tree(draft, random, ty, below)),
        11..=13 => {
            let (left, right) = if random.chance(60) {
                (near_type(draft, random, &entities), near_type(draft, random, &entities))
            } else {
                let any = random.below(draft.types.len()) as u32;
                (any, any)
            };
            let [a, b] = trees(draft, random, [left, right], below);
            Operation::Two(Two::Eq, a, b)
        }
        14 | 15 => {
            let [a, b] = trees(draft, random, [long, long], below);
            Operation::Two(random.pick(&[Two::Lt, Two::Le]), a, b)
        }
        16..=18 => {
            let left = near_type(draft, random, &entities);
            let right = types_where(draft, |row| match row {
                TypeRow::Entity(_) => true,
                TypeRow::Set(element) => matches!(draft.types[*element as usize], TypeRow::Entity(_)),
                _ => false,
            });
            let right = random.pick(&right);
            let [a, b] = trees(draft, random, [left, right], below);
            Operation::Two(Two::In, a, b)
        }
        19 => {
            let left = near_type(draft, random, &entities);
            let a = tree(draft, random, left, below);
            Operation::Is(a, random.below(draft.kinds.len()) as u32)
        }
        20 | 21 => {
            let a = tree(draft, random, string, below);
            let item = |random: &mut Random, draft: &Draft| {
                if random.chance(45) {
                    None
                } else {
                    Some(random.below(draft.texts.len()) as u32)
                }
            };
            Operation::Like(a, (0..random.from(0, 4)).map(|_| item(random, draft)).collect())
        }
        22..=25 => {
            let holders = types_where(draft, |row| matches!(row, TypeRow::Entity(_) | TypeRow::Record(_)));
            let holder = near_type(draft, random, &holders);
            let a = tree(draft, random, holder, below);
            if random.chance(40) {
                Operation::Has(a, near_text(draft, random, &[holder]))
            } else {
                Operation::HasPath(a, random_path(draft, random, holder))
            }
        }
        26 | 27 => {
            let left = near_type(draft, random, &entities);
            let [a, b] = trees(draft, random, [left, string], below);
            Operation::Two(Two::HasTag, a, b)
        }
        _ => {
            let sets = types_where(draft, |row| matches!(row, TypeRow::Set(_)));
            if sets.is_empty() {
                return leaf(draft, random, ty);
            }
            let set = random.pick(&sets);
            let TypeRow::Set(element) = draft.types[set as usize] else { unreachable!() };
            match random.below(4) {
                0 => Operation::One(One::Empty, tree(draft, random, set, below)),
                1 => {
                    let [a, b] = trees(draft, random, [set, element], below);
                    Operation::Two(Two::Contains, a, b)
                }
                _ => {
                    let [a, b] = trees(draft, random, [set, set], below);
                    Operation::Two(random.pick(&[Two::All, Two::Any]), a, b)
                }
            }
        }
    };
    draft.node(ty, operation)
}

/// A path whose steps but the last are typed, along all types reached at once.
fn random_path(draft: &Draft, random: &mut Random, start: u32) -> Vec<u32> {
    let mut path = Vec::new();
    let mut reached = vec![start];
    loop {
        let text = near_text(draft, random, &reached);
        path.push(text);
        if path.len() == 5 || random.chance(30) {
            return path;
        }
        let fields = reached.iter().flat_map(|ty| draft.holders(*ty));
        let mut next: Vec<u32> = fields.filter_map(|fields| declaration(fields, text)).collect();
        if next.iter().any(|ty| draft.holders(*ty).is_empty()) {
            return path;
        }
        next.sort();
        next.dedup();
        reached = next;
    }
}

/// A complete sheet that agrees with a partial one.
pub fn completion(partial: &Draft, random: &mut Random) -> Draft {
    let mut draft = partial.clone();
    draft.mode = Mode::Complete;
    for _ in 0..random.below(3) {
        let text = random_text(random);
        draft.text(&text);
    }
    for _ in 0..random.below(3) {
        let ty = random.below(draft.types.len()) as u32;
        value_for(&mut draft, random, ty);
    }
    let entity_text = |draft: &Draft, random: &mut Random, kind: u32| {
        let there: Vec<u32> = draft
            .values
            .iter()
            .filter_map(|row| match row {
                ValueRow::Entity(other, t) if *other == kind => Some(*t),
                _ => None,
            })
            .collect();
        if !there.is_empty() && random.chance(70) {
            random.pick(&there)
        } else {
            random.below(draft.texts.len()) as u32
        }
    };
    if draft.principal.1.is_none() {
        draft.principal.1 = Some(entity_text(&draft, random, draft.principal.0));
    }
    if draft.resource.1.is_none() {
        draft.resource.1 = Some(entity_text(&draft, random, draft.resource.0));
    }
    if draft.context.1.is_none() {
        let ty = draft.context.0;
        draft.context.1 = Some(value_for(&mut draft, random, ty));
    }
    if random.chance(60) {
        for (kind, text) in [(draft.principal.0, draft.principal.1), (draft.resource.0, draft.resource.1)] {
            draft.value(ValueRow::Entity(kind, text.expect("it is known now")));
        }
    }
    let listed = [0, 30, 80][random.below(3)];
    list_entities(&mut draft, random, listed);
    fill_entities(&mut draft, random, 100);
    draft
}

/// Bytes of no form, or lines of a right form in no order.
fn garbage(random: &mut Random) -> Vec<u8> {
    if random.chance(30) {
        let length = if random.chance(5) { random.from(16000, 70000) } else { random.below(300) };
        return (0..length).map(|_| random.next() as u8).collect();
    }
    let lines: [&[u8]; 18] = [
        b"sheet=partial",
        b"text=a",
        b"text=b",
        b"kind=0,e",
        b"kind=1,a",
        b"type=bool",
        b"type=record",
        b"type=entity,0",
        b"type=entity,1",
        b"type=entity,0,1",
        b"shape=1,-",
        b"value=bool,0",
        b"principal=0,?",
        b"action=1,0",
        b"resource=0,?",
        b"context=1,?",
        b"day=2000-01-01",
        b"node=0,err",
    ];
    let mut picked: Vec<Vec<u8>> = lines.iter().filter(|_| random.chance(80)).map(|line| line.to_vec()).collect();
    for _ in 0..random.below(3) {
        if picked.len() > 1 {
            let at = 1 + random.below(picked.len() - 1);
            picked.swap(at, at - 1);
        }
    }
    bytes_of(&picked)
}

// Damage -----------------------------------------------------------------------------------------------------------------

const ITEMS: [&[u8]; 28] = [
    b"",
    b"?",
    b"-",
    b"*",
    b"0",
    b"1",
    b"2",
    b"3",
    b"00",
    b"01",
    b"0000",
    b"9999",
    b"10000",
    b"-1",
    b"-0",
    b"+1",
    b"e",
    b"a",
    b"r",
    b"o",
    b"bool",
    b"set",
    b"record",
    b"9223372036854775808",
    b"-9223372036854775809",
    b"err",
    b"lit",
    b"forbid",
];

/// Items that are no days of a term.
const NO_DAYS: [&[u8]; 25] = [
    b"2100-02-29",
    b"1900-02-29",
    b"2023-02-29",
    b"2000-02-30",
    b"1899-12-31",
    b"2200-01-01",
    b"0000-00-00",
    b"9999-12-31",
    b"2000-00-01",
    b"2000-13-01",
    b"2000-01-00",
    b"2000-01-32",
    b"2000-04-31",
    b"2000-1-01",
    b"2000-01-1",
    b"2000-001-1",
    b"02000-01-01",
    b"2000-01-01 ",
    b"2000-01-0a",
    b"2000/01/01",
    b"2000-01_01",
    b"+200-01-01",
    b"20000101",
    b"?",
    b"",
];

/// Damages one line, or their order.
fn damage(lines: &mut Vec<Vec<u8>>, random: &mut Random) {
    if lines.is_empty() {
        return;
    }
    let at = random.below(lines.len());
    match random.below(30) {
        0 => {
            lines.remove(at);
        }
        1 | 2 => {
            let line = lines[at].clone();
            lines.insert(at, line);
        }
        3 => {
            let to = random.below(lines.len());
            lines.swap(at, to);
        }
        4 if at > 0 => lines.swap(at, at - 1),
        5 => {
            let line = random.pick(&[
                &b""[..],
                b"text",
                b"text=",
                b"Text=a",
                b"=",
                b"node=0,err",
                b"value=bool,0",
                b"type=long",
                b"type=entity",
                b"type=entity,0,1",
                b"type=entity,1,0",
                b"principal=0,0",
                b"day=2000-01-01",
                b"node=0,slot,p",
                b"node=0,slot,a",
                b"link=0,-,-",
                b"link=0,0,-",
                b"term=0,2000-01-01,2000-01-01",
            ]);
            lines.insert(at, line.to_vec());
        }
        6 => {
            // An index over all lines of its key that is as large as can be.
            let new = if random.chance(50) { b"9999" } else { b"1234" };
            replace_item(&mut lines[at], random, |_, _| new.to_vec());
        }
        7..=10 => replace_item(&mut lines[at], random, |random, _| random.pick(&ITEMS).to_vec()),
        11..=15 => replace_item(&mut lines[at], random, |random, item| {
            // A number near the old one.
            match std::str::from_utf8(item).ok().and_then(|text| text.parse::<i64>().ok()) {
                Some(n) => (n.wrapping_add(random.from(0, 6) as i64 - 3)).to_string().into_bytes(),
                None => random.pick(&ITEMS).to_vec(),
            }
        }),
        16 => {
            // Two items change places.
            let mut items: Vec<Vec<u8>> = lines[at].split(|b| *b == b',').map(<[u8]>::to_vec).collect();
            let (a, b) = (random.below(items.len()), random.below(items.len()));
            items.swap(a, b);
            lines[at] = items.join(&b',');
        }
        17 => {
            let mut items: Vec<Vec<u8>> = lines[at].split(|b| *b == b',').map(<[u8]>::to_vec).collect();
            let place = random.below(items.len());
            if random.chance(50) && items.len() > 1 {
                items.remove(place);
            } else {
                let item = items[place].clone();
                items.insert(place, item);
            }
            lines[at] = items.join(&b',');
        }
        18 => {
            let line = &mut lines[at];
            if !line.is_empty() {
                let place = random.below(line.len());
                line[place] = random.below(256) as u8;
            }
        }
        19..=21 => {
            // Another item on the line of the day or of a term: a day that is none, mostly.
            let dated: Vec<usize> =
                (0..lines.len()).filter(|at| lines[*at].starts_with(b"day=") || lines[*at].starts_with(b"term=")).collect();
            if !dated.is_empty() {
                replace_item(&mut lines[random.pick(&dated)], random, |random, _| match random.below(4) {
                    0 => day_text(random_day(random)).into_bytes(),
                    _ => random.pick(&NO_DAYS).to_vec(),
                });
            }
        }
        22..=24 => {
            // Another item on the line of a link or of a slot.
            let linked: Vec<usize> = (0..lines.len())
                .filter(|at| lines[*at].starts_with(b"link=") || lines[*at].windows(6).any(|part| part == b",slot,"))
                .collect();
            if !linked.is_empty() {
                replace_item(&mut lines[random.pick(&linked)], random, |random, _| match random.below(3) {
                    0 => random.pick(&[&b"-"[..], b"?", b"p", b"r", b"slot"]).to_vec(),
                    1 => random.below(12).to_string().into_bytes(),
                    _ => random.pick(&ITEMS).to_vec(),
                });
            }
        }
        25..=28 => {
            // Another kind on the line of an entity type, one more or one fewer.
            let entities: Vec<usize> = (0..lines.len()).filter(|at| lines[*at].starts_with(b"type=entity")).collect();
            if !entities.is_empty() {
                let line = &mut lines[random.pick(&entities)];
                match random.below(5) {
                    0 => replace_item(line, random, |random, _| random.pick(&ITEMS).to_vec()),
                    1 => {
                        let end = line.iter().rposition(|byte| *byte == b',').unwrap_or(line.len());
                        line.truncate(end);
                    }
                    2 => line.extend_from_slice(b","),
                    _ => line.extend_from_slice(format!(",{}", random.below(6)).as_bytes()),
                }
            }
        }
        _ => {
            // The last lines are missing.
            let keep = random.below(lines.len() + 1);
            lines.truncate(keep);
        }
    }
}

/// Replaces a random item after the key.
fn replace_item(line: &mut Vec<u8>, random: &mut Random, new: impl Fn(&mut Random, &[u8]) -> Vec<u8>) {
    let Some(equals) = line.iter().position(|b| *b == b'=') else {
        return;
    };
    let mut items: Vec<Vec<u8>> = line[equals + 1..].split(|b| *b == b',').map(<[u8]>::to_vec).collect();
    let place = random.below(items.len());
    items[place] = new(random, &items[place].clone());
    *line = [&line[..equals + 1], &items.join(&b',')].concat();
}

fn damage_bytes(bytes: &mut Vec<u8>, random: &mut Random) {
    match random.below(40) {
        0 => {
            bytes.pop();
        }
        1 => {
            let keep = random.below(bytes.len() + 1);
            bytes.truncate(keep);
        }
        2 => bytes.push(b'\n'),
        4 => {
            // Too long by some bytes.
            let length = 16385 + random.below(40);
            bytes.resize(length.max(bytes.len()), b'x');
        }
        3 if !bytes.is_empty() => {
            let place = random.below(bytes.len());
            bytes[place] = random.below(256) as u8;
        }
        _ => (),
    }
}

/// Damage that is made in the rows: wrong types, uses, order.
fn damaged_draft(mut draft: Draft, random: &mut Random) -> Case {
    if random.chance(30) {
        draft = completion(&draft, random);
    }
    match random.below(30) {
        0 | 1 if !draft.nodes.is_empty() => {
            let n = random.below(draft.nodes.len());
            draft.nodes[n].ty = random.below(draft.types.len()) as u32;
        }
        2 if !draft.nodes.is_empty() => {
            // A node that nothing uses.
            let ty = random.below(draft.types.len()) as u32;
            draft.node(ty, Operation::Err);
        }
        3 if draft.policies.len() > 1 => {
            let n = draft.policies[0].node;
            draft.policies.last_mut().expect("a policy").node = n;
        }
        4 if !draft.policies.is_empty() => {
            draft.policies.pop();
        }
        5 if !draft.entities.is_empty() => {
            let n = random.below(draft.entities.len());
            let v = random.below(draft.values.len()) as u32;
            let row = &mut draft.entities[n];
            *match random.below(3) {
                0 => &mut row.attributes,
                1 => &mut row.tags,
                _ => &mut row.parents,
            } = Some(v);
        }
        6 => draft.context.0 = random.below(draft.types.len()) as u32,
        7 => {
            let kind = random.below(draft.kinds.len());
            match random.below(4) {
                0 => draft.shapes[kind].attributes = random.below(draft.types.len()) as u32,
                1 => draft.shapes[kind].tags = Some(random.below(draft.types.len()) as u32),
                2 => draft.kinds[kind].1 = !draft.kinds[kind].1,
                _ => draft.principal.0 = kind as u32,
            }
        }
        8 | 9 if !draft.policies.is_empty() => damage_terms(&mut draft, random),
        10..=15 if !draft.policies.is_empty() => damage_links(&mut draft, random),
        16..=20 if !draft.groups().is_empty() => damage_groups(&mut draft, random),
        21..=28 if !draft.entities.is_empty() => return damage_parents(draft, random),
        _ => {
            // A node whose second child is another one.
            for row in &mut draft.nodes {
                if let Operation::Two(_, a, b) = &mut row.operation {
                    *b = if random.chance(50) { *a } else { random.below(*b as usize + 1) as u32 };
                    if random.chance(60) {
                        break;
                    }
                }
            }
        }
    }
    case(&draft)
}

/// Terms with a last day before the first, a repeat, another order, or a policy that is not there.
fn damage_terms(draft: &mut Draft, random: &mut Random) {
    let policies = draft.policies.len() as u32;
    if draft.terms.is_empty() {
        let (first, last) = random_term(random, draft.day);
        draft.terms.push(TermRow { policy: random.below(policies as usize) as u32, first, last });
    }
    let at = random.below(draft.terms.len());
    match random.below(5) {
        0 => draft.terms[at].last = day_before(draft.terms[at].first),
        1 => {
            let again = TermRow { first: FIRST_DAY, ..draft.terms[at].clone() };
            draft.terms.insert(at, again);
        }
        2 => draft.terms.reverse(),
        3 => draft.terms.push(TermRow { policy: policies, first: FIRST_DAY, last: LAST_DAY }),
        _ => draft.terms[at].policy = random.below(policies as usize + 2) as u32,
    }
}

/// Links that lack a value or have one too many, an unfit value, a repeat, another order, a policy that is not there; a
/// policy without its link, slots of one letter with two types, a root that a node uses.
fn damage_links(draft: &mut Draft, random: &mut Random) {
    let policies = draft.policies.len() as u32;
    if draft.links.is_empty() {
        let policy = random.below(policies as usize) as u32;
        draft.links.push(LinkRow { policy, principal: None, resource: None });
    }
    // More often a link that fills a slot.
    let filling: Vec<usize> =
        (0..draft.links.len()).filter(|at| draft.links[*at].principal.is_some() || draft.links[*at].resource.is_some()).collect();
    let at = if filling.is_empty() || random.chance(20) { random.below(draft.links.len()) } else { random.pick(&filling) };
    let value = Some(random.below(draft.values.len() + 1) as u32);
    let link = &mut draft.links[at];
    match random.below(12) {
        0 => std::mem::swap(&mut link.principal, &mut link.resource),
        1 => link.principal = None,
        2 => link.resource = None,
        3 => (link.principal, link.resource) = (link.principal.and(value), link.resource.and(value)),
        4 => (link.principal, link.resource) = (value, value),
        5 => {
            let again = draft.links[at].clone();
            draft.links.insert(at, again);
        }
        6 => draft.links.reverse(),
        7 => draft.links.push(LinkRow { policy: policies, principal: None, resource: None }),
        8 | 9 => {
            draft.links.remove(at);
        }
        10 => {
            let entities = types_where(draft, |row| matches!(row, TypeRow::Entity(_)));
            for row in &mut draft.nodes {
                if matches!(row.operation, Operation::Slot(_)) && random.chance(40) {
                    row.ty = random.pick(&entities);
                    break;
                }
            }
        }
        _ => {
            let below = draft.nodes[draft.policies[0].node as usize].operation.children();
            if !below.is_empty() {
                draft.policies.last_mut().expect("a policy").node = random.pick(&below);
            }
        }
    }
}

/// A group in another order, with a repeat, with a kind that is absent or has its line alone later, a group twice; a group of
/// other kinds, or a node of another entity type.
fn damage_groups(draft: &mut Draft, random: &mut Random) {
    let at = random.pick(&draft.groups()) as usize;
    let mut kinds = draft.kinds_of(at as u32).to_vec();
    let which = random.below(kinds.len());
    match random.below(10) {
        0 => kinds.reverse(),
        1 => kinds.insert(which, kinds[which]),
        2 => kinds.push(draft.kinds.len() as u32),
        3 => {
            let alone = draft.alone(kinds[which]) as usize;
            draft.types.swap(alone, at);
            return;
        }
        4 => {
            draft.types.push(TypeRow::Entity(kinds));
            return;
        }
        5 => {
            kinds.remove(which);
        }
        6 => kinds[which] = random.below(draft.kinds.len()) as u32,
        _ => {
            let entities = types_where(draft, |row| matches!(row, TypeRow::Entity(_)));
            let nodes: Vec<usize> =
                (0..draft.nodes.len()).filter(|node| !draft.kinds_of(draft.nodes[*node].ty).is_empty()).collect();
            if !nodes.is_empty() {
                draft.nodes[random.pick(&nodes)].ty = random.pick(&entities);
            }
            return;
        }
    }
    draft.types[at] = TypeRow::Entity(kinds);
}

/// Unended bytes after the entity lines.
const UNENDED: [&[u8]; 6] = [b"entity", b"entity=", b"entity=9999,?,?,?", b"principal=0,?", b"\x7f", b"e"];

/// Lines after the entity lines that do not belong there; the first ones do not begin with `entity=`.
const STRANGE: [&[u8]; 13] = [
    b"",
    b"entity",
    b"Entity=0,?,?,?",
    b" entity=0,?,?,?",
    b"\x7f",
    b"text=a",
    b"policy=0,permit,0",
    b"entity=",
    b"entity=0,?,?",
    b"entity=0,?,?,?",
    b"entity=?,?,?,?",
    b"entity=9999,?,?,?",
    b"entity=99999,1,1,1",
];

/// Entities that reach a kind which is not above: other kinds above, and parents that each line may have by itself. Then what
/// follows the entity lines: as it was, a strange line, nothing more, or an unended rest.
fn damage_parents(mut draft: Draft, random: &mut Random) -> Case {
    if random.chance(80) {
        for kind in 0..draft.kinds.len() {
            draft.shapes[kind].above = some(random, draft.kinds.len(), 3);
        }
        for place in 0..draft.entities.len() {
            let above = draft.shapes[kind_of(&draft, draft.entities[place].entity) as usize].above.clone();
            let parents = random_parents(&mut draft, random, &above);
            let known = draft.mode == Mode::Complete || random.chance(80);
            draft.entities[place].parents = known.then(|| draft.value(ValueRow::Set(parents)));
        }
    } else {
        let above = &mut draft.shapes[random.below(draft.kinds.len())].above;
        above.truncate(above.len().saturating_sub(1));
    }
    let mut lines = draft.lines();
    let end = lines.iter().rposition(|line| line.starts_with(b"entity=")).expect("an entity line") + 1;
    let mut rest: &[u8] = b"";
    match random.below(10) {
        0 => lines.truncate(end),
        1 | 2 => {
            lines.truncate(end);
            rest = random.pick(&UNENDED);
        }
        3..=5 => lines.insert(end, random.pick(&STRANGE).to_vec()),
        _ => (),
    }
    Case { mode: draft.mode, bytes: [&bytes_of(&lines), rest].concat() }
}

// Limits -----------------------------------------------------------------------------------------------------------------

/// A small sheet without policies; types 0 to 3 are bool, the empty record, entity and long.
pub fn small() -> Draft {
    let mut draft = Draft::new();
    for text in [&b"Broker"[..], b"Action", b"Tariff", b"quote"] {
        draft.text(text);
    }
    draft.kinds = vec![(0, false), (1, true), (2, false)];
    draft.types = vec![TypeRow::Bool, TypeRow::Record(Vec::new()), TypeRow::Entity(vec![0]), TypeRow::Long];
    draft.shapes = vec![ShapeRow { attributes: 1, tags: None, above: vec![0] }; 3];
    draft.principal = (0, None);
    draft.action = (1, 3);
    draft.resource = (2, None);
    draft.context = (1, None);
    draft
}

/// A root over so many slots, `p` and `r` in turn, each compared with the principal.
fn template(draft: &mut Draft, slots: usize) -> u32 {
    let mut root = None;
    for n in 0..slots {
        let var = draft.node(2, Operation::Var(Variable::Principal));
        let slot = draft.node(2, Operation::Slot(SLOTS[n % 2].1));
        let equal = draft.node(0, Operation::Two(Two::Eq, var, slot));
        root = Some(root.map_or(equal, |before| draft.node(0, Operation::Two(Two::Or, before, equal))));
    }
    root.expect("a slot")
}

/// A tree of so many nodes: an error, open comparisons of the principal joined to it, and `not` for what is left over.
fn chain(draft: &mut Draft, nodes: usize) -> u32 {
    let first = draft.nodes.len();
    let mut root = draft.node(0, Operation::Err);
    while draft.nodes.len() + 4 - first <= nodes {
        let [x, y] = [(); 2].map(|_| draft.node(2, Operation::Var(Variable::Principal)));
        let equal = draft.node(0, Operation::Two(Two::Eq, x, y));
        root = draft.node(0, Operation::Two(Two::And, equal, root));
    }
    while draft.nodes.len() - first < nodes {
        root = draft.node(0, Operation::One(One::Not, root));
    }
    root
}

/// The type of a principal or resource, whose kinds declare text 3 with these types.
fn people(draft: &mut Draft, types: [u32; 2]) -> u32 {
    draft.alone(2);
    for (kind, ty) in [0, 2].into_iter().zip(types) {
        draft.shapes[kind].attributes = draft.ty(TypeRow::Record(vec![(3, true, ty)]));
    }
    draft.ty(TypeRow::Entity(vec![0, 2]))
}

/// Listed entities of these kinds in a row, each the parent of the one before; the last has none, or the first where they are a circle.
fn kin(draft: &mut Draft, kinds: &[u32], circle: bool) -> Vec<u32> {
    let mut entity = |(n, kind): (usize, &u32)| {
        let text = draft.text(format!("e{n}").as_bytes());
        draft.value(ValueRow::Entity(*kind, text))
    };
    let row: Vec<u32> = kinds.iter().enumerate().map(&mut entity).collect();
    for (n, entity) in row.iter().enumerate() {
        let parents = match n + 1 < row.len() {
            true => vec![row[n + 1]],
            false if circle => vec![row[0]],
            false => Vec::new(),
        };
        let parents = Some(draft.value(ValueRow::Set(parents)));
        draft.entities.push(EntityRow { entity: *entity, attributes: None, tags: None, parents });
    }
    row
}

/// A policy that asks whether one entity of kind 0 is in another.
fn within(draft: &mut Draft, low: u32, high: u32) {
    let [low, high] = [low, high].map(|v| draft.node(2, Operation::Lit(v)));
    let root = draft.node(0, Operation::Two(Two::In, low, high));
    draft.policy(3, true, root);
}

/// Sheets at the limits of the table and one step over them.
pub fn at_limit(random: &mut Random) -> Case {
    let over = random.below(2);
    limit(random.below(LIMITS), over, random)
}

pub const LIMITS: usize = 38;

/// The limit of a number, met (`over` 0) or exceeded by one.
pub fn limit(which: usize, over: usize, random: &mut Random) -> Case {
    let mut draft = small();
    match which {
        0 => {
            while draft.texts.len() < 512 + over {
                let n = draft.texts.len();
                draft.text(format!("t{n}").as_bytes());
            }
        }
        1 => {
            while draft.kinds.len() < 32 + over {
                let name = draft.text(format!("k{}", draft.kinds.len()).as_bytes());
                draft.kinds.push((name, false));
                draft.shapes.push(ShapeRow { attributes: 1, tags: None, above: Vec::new() });
            }
        }
        2 => {
            let mut n = 0;
            while draft.types.len() < 128 + over {
                draft.ty(TypeRow::Record(vec![(n % 4, n % 8 < 4, n / 8)]));
                n += 1;
            }
        }
        3 => {
            // More shapes than kinds, or fewer.
            let shape = draft.shapes[0].clone();
            if over == 1 {
                draft.shapes.push(shape);
            } else {
                draft.shapes.pop();
            }
        }
        4 => {
            for n in 0..(1024 + over) as i64 {
                draft.value(ValueRow::Long(n));
            }
        }
        5 => {
            for n in 0..128 + over {
                let t = draft.text(format!("t{n}").as_bytes());
                let entity = draft.value(ValueRow::Entity(0, t));
                draft.entities.push(EntityRow { entity, attributes: None, tags: None, parents: None });
            }
        }
        6 => {
            // A tree of 1,024 nodes, and perhaps one more.
            let mut roots: Vec<u32> = (0..512).map(|_| draft.node(0, Operation::Err)).collect();
            while roots.len() > 1 {
                roots = roots
                    .chunks(2)
                    .map(|pair| match pair {
                        [a, b] => draft.node(0, Operation::Two(Two::And, *a, *b)),
                        _ => pair[0],
                    })
                    .collect();
            }
            for _ in 0..1 + over {
                let one = draft.node(0, Operation::One(One::Not, roots[0]));
                roots[0] = one;
            }
            draft.policy(3, true, roots[0]);
        }
        7 => {
            for n in 0..64 + over {
                let id = draft.text(format!("p{n}").as_bytes());
                let node = draft.node(0, Operation::Err);
                draft.policy(id, n % 2 == 0, node);
            }
        }
        8 => {
            // Types nested 64 or 65 deep, as sets or records.
            let mut ty = 0;
            let record = random.chance(50);
            for _ in 0..63 + over {
                ty = draft.ty(if record { TypeRow::Record(vec![(0, true, ty)]) } else { TypeRow::Set(ty) });
            }
        }
        9 => {
            let mut v = draft.value(ValueRow::Bool(true));
            let record = random.chance(50);
            for _ in 0..63 + over {
                v = draft.value(if record { ValueRow::Record(vec![(0, v)]) } else { ValueRow::Set(vec![v]) });
            }
        }
        10 => {
            // A chain of nodes 64 or 65 deep over an open or a settled leaf.
            let v = draft.value(ValueRow::Bool(random.chance(50)));
            let mut node = if random.chance(50) {
                let var = draft.node(2, Operation::Var(Variable::Principal));
                let is = draft.node(2, Operation::Var(Variable::Principal));
                draft.node(0, Operation::Two(Two::Eq, var, is))
            } else {
                let lit = draft.node(0, Operation::Lit(v));
                draft.node(0, Operation::One(One::Not, lit))
            };
            for _ in 2..64 + over {
                node = match random.below(3) {
                    0 => draft.node(0, Operation::One(One::Not, node)),
                    1 => {
                        let lit = draft.node(0, Operation::Lit(v));
                        draft.node(0, Operation::Two(Two::And, lit, node))
                    }
                    _ => {
                        let lit = draft.node(0, Operation::Err);
                        draft.node(0, Operation::Two(Two::Or, node, lit))
                    }
                };
            }
            draft.policy(3, random.chance(50), node);
        }
        11 => {
            // A sheet of 16,384 bytes or one more.
            let wanted = 16384 + over;
            let mut n = 0;
            while draft.bytes().len() + 134 < wanted {
                draft.text(format!("{n:0>128}").as_bytes());
                n += 1;
            }
            while draft.bytes().len() + 6 <= wanted {
                let left = wanted - draft.bytes().len() - 6;
                let text: Vec<u8> =
                    if left > 128 || (left < 12 && left > 0) { vec![b'x'; left.min(60)] } else { vec![b'y'; left] };
                draft.texts.push(text);
            }
        }
        12 => {
            let length = 128 + over;
            draft.text(&vec![b'z'; length]);
        }
        13 => {
            // The greatest and least longs, or one past them.
            let mut lines = draft.lines();
            let longs = [["9223372036854775807", "-9223372036854775808"], ["9223372036854775808", "-9223372036854775809"]];
            let at = lines.iter().position(|line| line.starts_with(b"principal")).expect("a principal");
            lines.insert(at, format!("value=long,{}", longs[over][random.below(2)]).into_bytes());
            return Case { mode: Mode::Partial, bytes: bytes_of(&lines) };
        }
        14 => {
            // A second line of a one-line key.
            let mut lines = draft.lines();
            if over == 1 {
                let key = random.pick(&[&b"sheet="[..], b"principal=", b"action=", b"resource=", b"context=", b"day="]);
                let at = lines.iter().position(|line| line.starts_with(key)).expect("the line");
                let line = lines[at].clone();
                lines.insert(at, line);
            }
            return Case { mode: Mode::Partial, bytes: bytes_of(&lines) };
        }
        15 => {
            // Rows shared at every level: 2^30 leaves for whoever walks paths.
            let a = draft.text(b"a");
            let b = draft.text(b"b");
            let (mut ty, mut v) = (0, draft.value(ValueRow::Bool(true)));
            for _ in 0..30 {
                ty = draft.ty(TypeRow::Record(vec![(a, true, ty), (b, over == 0, ty)]));
                v = draft.value(ValueRow::Record(vec![(a, v), (b, v)]));
            }
            draft.context = (ty, Some(v));
            let [x, y] = [0, 1].map(|_| draft.node(ty, Operation::Var(Variable::Context)));
            let node = draft.node(0, Operation::Two(Two::Eq, x, y));
            draft.policy(3, true, node);
        }
        16 => {
            // 64 policies with as many terms around the day, and perhaps a term more, which repeats one.
            for n in 0..64 {
                let id = draft.text(format!("p{n}").as_bytes());
                let node = draft.node(0, Operation::Err);
                draft.policy(id, n % 2 == 0, node);
                let (first, last) = random_term(random, draft.day);
                draft.terms.push(TermRow { policy: n, first, last });
            }
            let last = draft.terms[63].clone();
            draft.terms.extend(vec![last; over]);
        }
        17 => draft.day = [FIRST_DAY, (1899, 12, 31)][over],
        18 => draft.day = [LAST_DAY, (2200, 1, 1)][over],
        19 => draft.day = [(2000, 2, 29), (2100, 2, 29)][over],
        20 => {
            // A term of one day, or one that ends the day before it begins.
            let node = draft.node(0, Operation::Err);
            draft.policy(3, true, node);
            let last = if over == 0 { draft.day } else { day_before(draft.day) };
            draft.terms.push(TermRow { policy: 0, first: draft.day, last });
        }
        21 => {
            // 64 policies over one root with both slots and as many links, and perhaps a link more, which repeats one.
            let values: Vec<u32> = (0..4).map(|n| draft.value(ValueRow::Entity(0, n))).collect();
            let root = template(&mut draft, 2);
            for n in 0..64 {
                let id = draft.text(format!("p{n}").as_bytes());
                draft.policy(id, n % 2 == 0, root);
                let [principal, resource] = [(); 2].map(|_| Some(random.pick(&values)));
                draft.links.push(LinkRow { policy: n, principal, resource });
            }
            let last = draft.links[63].clone();
            draft.links.extend(vec![last; over]);
        }
        22 => {
            // 64 policies over one root of 16 nodes, or of 17, which the 61st uses too often.
            let root = chain(&mut draft, 16 + over);
            for n in 0..64 {
                let id = draft.text(format!("p{n}").as_bytes());
                draft.policy(id, n % 2 == 0, root);
            }
        }
        23 => {
            // 1,024 or 1,025 uses: a root of some nodes as often as it goes, and one policy for the rest.
            let size = random.from(17, 40);
            let (root, count) = (chain(&mut draft, size), 1023 / size);
            let rest = chain(&mut draft, 1024 + over - count * size);
            let roots = [vec![root; count - count / 2], vec![rest], vec![root; count / 2]].concat();
            for (n, root) in roots.into_iter().enumerate() {
                let id = draft.text(format!("p{n}").as_bytes());
                draft.policy(id, n % 2 == 0, root);
            }
        }
        24 => {
            // Two slots of one letter, of one type or of two.
            let v = draft.value(ValueRow::Entity(0, 3));
            let root = template(&mut draft, 2);
            for row in draft.nodes.iter_mut().filter(|row| matches!(row.operation, Operation::Slot(_))) {
                row.operation = Operation::Slot(SLOTS[0].1);
            }
            if over == 1 {
                let tariff = draft.alone(2);
                draft.nodes[1].ty = tariff;
            }
            draft.policy(3, true, root);
            draft.links.push(LinkRow { policy: 0, principal: Some(v), resource: None });
        }
        25 => {
            // A long answer: some policies over one root with a long pattern, or all 64.
            let a = draft.text(b"a");
            let string = draft.ty(TypeRow::String);
            let record = draft.ty(TypeRow::Record(vec![(a, true, string)]));
            draft.context = (record, None);
            let var = draft.node(record, Operation::Var(Variable::Context));
            let get = draft.node(string, Operation::Get(var, a));
            let root = draft.node(0, Operation::Like(get, vec![None; 1200 + random.below(200)]));
            for n in 0..[24, 64][over] {
                let id = draft.text(format!("p{n}").as_bytes());
                draft.policy(id, n % 2 == 0, root);
            }
        }
        26 => {
            // A group of all 32 kinds, or one of whose kinds has no line alone.
            while draft.kinds.len() < 32 {
                let name = draft.text(format!("k{}", draft.kinds.len()).as_bytes());
                draft.kinds.push((name, false));
                draft.shapes.push(ShapeRow { attributes: 1, tags: None, above: Vec::new() });
            }
            let lacking = if over == 1 { Some(random.from(1, 31) as u32) } else { None };
            for kind in (0..32).filter(|kind| Some(*kind) != lacking) {
                draft.alone(kind);
            }
            draft.ty(TypeRow::Entity((0..32).collect()));
        }
        27 => {
            // A group in its order, or with a kind twice.
            draft.alone(2);
            draft.types.push(TypeRow::Entity(if over == 0 { vec![0, 2] } else { vec![0, 2, 2] }));
        }
        28 => {
            // One group, or the same once more.
            draft.alone(2);
            draft.types.extend(vec![TypeRow::Entity(vec![0, 2]); 1 + over]);
        }
        29 => {
            // A literal of a group: of one of its kinds, or of another.
            let group = people(&mut draft, [0, 0]);
            let kind = if over == 0 { random.pick(&[0, 2]) } else { 1 };
            let v = draft.value(ValueRow::Entity(kind, 3));
            let lit = draft.node(group, Operation::Lit(v));
            let root = draft.node(0, Operation::Is(lit, 0));
            draft.policy(3, true, root);
        }
        30 => {
            // An attribute that each kind of a group declares with one type, or with two.
            let group = people(&mut draft, [0, 3 * over as u32]);
            let v = draft.value(ValueRow::Entity(0, 3));
            let lit = draft.node(group, Operation::Lit(v));
            let root = draft.node(0, Operation::Get(lit, 3));
            draft.policy(3, true, root);
        }
        31 => {
            // Steps through a group, or where one of its kinds declares the first step as a bool.
            let group = people(&mut draft, [2, if over == 0 { 1 } else { 0 }]);
            let v = draft.value(ValueRow::Entity(2, 3));
            let lit = draft.node(group, Operation::Lit(v));
            let root = draft.node(0, Operation::HasPath(lit, vec![3, 3]));
            draft.policy(3, true, root);
        }
        32 => {
            // A parent's parent of a kind that is above, or that is not.
            draft.shapes[0].above = if over == 0 { vec![0, 2] } else { vec![2] };
            kin(&mut draft, &[0, 2, 0], false);
        }
        33 => {
            // A circle of two entities, whose own kinds are above themselves too, or are not.
            draft.shapes[0].above = if over == 0 { vec![0, 2] } else { vec![2] };
            draft.shapes[2].above = if over == 0 { vec![0, 2] } else { vec![0] };
            kin(&mut draft, &[0, 2], true);
        }
        34 => {
            // A row of 128 entities, the last two of other kinds, of which the last is above all, or not above the first ones.
            draft.shapes[0].above = if over == 0 { vec![0, 1, 2] } else { vec![0, 2] };
            draft.shapes[2].above = vec![1];
            let row = kin(&mut draft, &[vec![0; 126], vec![2, 1]].concat(), false);
            within(&mut draft, row[0], row[125]);
        }
        35 => {
            // A circle of 128 entities, or a row whose last one has unknown parents: what the first reaches is known, or is not.
            let row = kin(&mut draft, &[0; 128], true);
            if over == 1 {
                draft.entities[127].parents = None;
            }
            within(&mut draft, row[0], row[64]);
        }
        36 => {
            // A kind reached that is not above, at the sheet's end or before an entity line that is not ended.
            draft.shapes[0].above = vec![2];
            kin(&mut draft, &[0, 2, 0], false);
            let lines = draft.lines();
            let end = lines.iter().rposition(|line| line.starts_with(b"entity=")).expect("an entity line") + 1;
            let rest: &[u8] = [&b""[..], b"entity=0,?,?,?"][over];
            return Case { mode: Mode::Partial, bytes: [&bytes_of(&lines[..end]), rest].concat() };
        }
        _ => {
            // A pattern with many stars on a text that almost matches.
            let t = draft.text(&[&vec![b'a'; 127 - over][..], b"b"].concat());
            let a = draft.text(b"a");
            let c = draft.text(if over == 0 { b"b" } else { b"c" });
            let string = draft.ty(TypeRow::String);
            let v = draft.value(ValueRow::Text(t));
            let lit = draft.node(string, Operation::Lit(v));
            let mut items: Vec<Option<u32>> = (0..60).map(|n| if n % 2 == 0 { None } else { Some(a) }).collect();
            items.extend([None, Some(c)]);
            let node = draft.node(0, Operation::Like(lit, items));
            draft.policy(3, true, node);
        }
    }
    case(&draft)
}

#[cfg(test)]
mod tests {
    use super::*;
    use crate::parents::Shown;

    /// The number that the limit `which` gets, met or exceeded.
    fn limited(which: usize, over: usize, seed: u64) -> u32 {
        let Case { mode, bytes } = limit(which, over, &mut Random::of(seed, 0));
        crate::sheet::read(mode, &bytes).map_or_else(|refusal| refusal.number, |_| 0)
    }

    #[test]
    fn links_and_uses_at_their_limits() {
        for seed in 0..50 {
            for (which, exceeded) in [(21, 4), (22, 4), (23, 4), (24, 7), (25, 0)] {
                assert_eq!((limited(which, 0, seed), limited(which, 1, seed)), (0, exceeded), "limit {which}, seed {seed}");
            }
        }
    }

    #[test]
    fn groups_at_their_limits() {
        for seed in 0..50 {
            for (which, exceeded) in [(26, 5), (27, 5), (28, 5), (29, 7), (30, 7), (31, 7)] {
                assert_eq!((limited(which, 0, seed), limited(which, 1, seed)), (0, exceeded), "limit {which}, seed {seed}");
            }
        }
    }

    #[test]
    fn parents_at_their_limits() {
        for seed in 0..5 {
            for (which, met, exceeded) in [(32, 0, 7), (33, 0, 7), (34, 0, 7), (35, 0, 0), (36, 7, 3)] {
                assert_eq!((limited(which, 0, seed), limited(which, 1, seed)), (met, exceeded), "limit {which}, seed {seed}");
            }
        }
    }

    #[test]
    fn valid_sheets_with_parents() {
        let mut shown = Shown::default();
        for n in 0..2000 {
            let random = &mut Random::of(6, n);
            let draft = valid(random, false);
            for draft in [completion(&draft, random), draft] {
                let bytes = draft.bytes();
                assert!(crate::sheet::read(draft.mode, &bytes).is_ok(), "sheet {n}");
                shown.see(draft.mode, &bytes);
            }
        }
        assert!(shown.circles > 200 && shown.rows > 400 && shown.unknown > 400, "{shown:?}");
    }

    #[test]
    fn sheets_that_reach_what_is_not_above() {
        let mut shown = Shown::default();
        for n in 0..5000 {
            let Case { mode, bytes } = sheet(6, n);
            shown.see(mode, &bytes);
        }
        assert!(shown.refused > 20, "{shown:?}");
    }

    #[test]
    fn valid_sheets_with_groups() {
        for n in 0..2000 {
            let random = &mut Random::of(3, n);
            let draft = valid(random, true);
            assert!(!draft.groups().is_empty());
            for draft in [completion(&draft, random), draft] {
                let bytes = draft.bytes();
                let grouped = crate::sheet::read(draft.mode, &bytes).map(|sheet| sheet.has_groups());
                assert_eq!(grouped, Ok(true), "sheet {n}");
            }
        }
    }

    #[test]
    fn days_in_a_row() {
        let mut days = vec![FIRST_DAY];
        while day_after(days[days.len() - 1]) != days[days.len() - 1] {
            days.push(day_after(days[days.len() - 1]));
        }
        assert_eq!((days.len(), days[days.len() - 1]), (300 * 365 + 73, LAST_DAY));
        assert!(days.windows(2).all(|pair| pair[0] < pair[1] && day_before(pair[1]) == pair[0]));
    }
}
