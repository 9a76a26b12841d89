//! Sheets for the benchmark: ordinary ones of a wanted size, and accepted ones that are as costly as one can make them.

use crate::draft::Draft;
use crate::generate::{small, valid};
use crate::random::Random;
use crate::sheet::{EntityRow, LinkRow, Mode, One, Operation, ShapeRow, Slot, Two, TypeRow, ValueRow, Variable, SHEET_BYTES};

/// Heavy sheets stay this much below the greatest size, so that a complete form of them fits too.
const SPARE: usize = 150;

/// An ordinary partial sheet of about so many bytes, never more: rules on context, principal and resource, as a carrier
/// writes them, with lines in the same proportions at every size; texts fill what is left.
pub fn ordinary(bytes: usize) -> Vec<u8> {
    let count = (0..=64).take_while(|count| rules(*count).bytes().len() <= bytes).last().expect("a small sheet fits");
    filled(rules(count).bytes(), bytes)
}

/// An ordinary partial sheet and a complete one that agrees with it, the longer one of about so many bytes.
fn ordinary_pair(bytes: usize) -> [Vec<u8>; 2] {
    let count = (0..=64).take_while(|count| known_rules(*count).bytes().len() <= bytes).last().expect("a small sheet fits");
    [rules(count), known_rules(count)].map(|draft| draft.bytes())
}

/// Texts more, up to so many bytes.
fn filled(sheet: Vec<u8>, bytes: usize) -> Vec<u8> {
    let at = sheet.windows(6).position(|part| part == b"\nkind=").expect("kinds") + 1;
    let mut texts: Vec<u8> = Vec::new();
    let mut n = 0;
    while sheet.len() + texts.len() + 33 <= bytes && n < 250 {
        texts.extend_from_slice(format!("text=filler {n:0>20}\n").as_bytes());
        n += 1;
    }
    [&sheet[..at], &texts, &sheet[at..]].concat()
}

/// The ordinary rules with a known context.
fn known_rules(count: usize) -> Draft {
    let mut draft = rules(count);
    let score = draft.value(ValueRow::Long(40));
    let mail = draft.text(b"a@b");
    let mail = draft.value(ValueRow::Text(mail));
    draft.context.1 = Some(draft.value(ValueRow::Record(vec![(8, score), (12, score), (14, mail)])));
    completed(draft)
}

fn rules(count: usize) -> Draft {
    let mut draft = Draft::new();
    let names = [
        "Broker", "Action", "Tariff", "Region", "quote", "T1", "b7", "north", "score", "region", "tags", "name", "limit", "vip",
        "mail",
    ];
    let t: Vec<u32> = names.iter().map(|name| draft.text(name.as_bytes())).collect();
    draft.kinds = vec![(t[0], false), (t[1], true), (t[2], false), (t[3], false)];
    let boolean = draft.ty(TypeRow::Bool);
    let long = draft.ty(TypeRow::Long);
    let string = draft.ty(TypeRow::String);
    let empty = draft.ty(TypeRow::Record(Vec::new()));
    let broker = draft.alone(0);
    draft.alone(1);
    let tariff = draft.alone(2);
    let region = draft.alone(3);
    let regions = draft.ty(TypeRow::Set(region));
    let longs = draft.ty(TypeRow::Set(long));
    let person = draft.ty(TypeRow::Record(vec![(t[8], true, long), (t[9], false, region), (t[11], true, string)]));
    let context =
        draft.ty(TypeRow::Record(vec![(t[8], true, long), (t[12], true, long), (t[13], false, boolean), (t[14], true, string)]));
    draft.shapes = vec![
        ShapeRow { attributes: person, tags: Some(string), above: vec![3] },
        ShapeRow { attributes: empty, tags: None, above: Vec::new() },
        ShapeRow { attributes: person, tags: None, above: vec![3] },
        ShapeRow { attributes: empty, tags: None, above: vec![3] },
    ];
    draft.principal = (0, Some(t[6]));
    draft.action = (1, t[4]);
    draft.resource = (2, Some(t[5]));
    draft.context = (context, None);
    let places: Vec<u32> = (0..1 + count / 2)
        .map(|n| {
            let text = draft.text(format!("place{n}").as_bytes());
            draft.value(ValueRow::Entity(3, text))
        })
        .collect();
    let none = draft.value(ValueRow::Record(Vec::new()));
    let lone = draft.value(ValueRow::Set(Vec::new()));
    let name = draft.value(ValueRow::Text(t[6]));
    for (kind, text) in [(0, t[6]), (2, t[5])] {
        let entity = draft.value(ValueRow::Entity(kind, text));
        let score = draft.value(ValueRow::Long(30 + i64::from(kind)));
        let attributes = draft.value(ValueRow::Record(vec![(t[8], score), (t[9], places[0]), (t[11], name)]));
        let above = draft.value(ValueRow::Set(places.iter().copied().step_by(2).collect()));
        draft.entities.push(EntityRow { entity, attributes: Some(attributes), tags: Some(none), parents: Some(above) });
    }
    for place in &places {
        draft.entities.push(EntityRow { entity: *place, attributes: Some(none), tags: None, parents: Some(lone) });
    }
    draft.entities.sort_by_key(|row| row.entity);
    for n in 0..count {
        let id = draft.text(format!("rule{n}").as_bytes());
        let pattern = draft.text(format!("{}@", (b'a' + (n % 26) as u8) as char).as_bytes());
        let bound = draft.value(ValueRow::Long(25 + n as i64 * 3));
        let some = draft.value(ValueRow::Set(vec![places[n / 2]]));
        let small = draft.value(ValueRow::Long(n as i64 % 7));
        let of = |draft: &mut Draft, ty: u32, from: u32, variable: Variable, text: u32| {
            let var = draft.node(from, Operation::Var(variable));
            draft.node(ty, Operation::Get(var, text))
        };
        let lit = |draft: &mut Draft, ty: u32, v: u32| draft.node(ty, Operation::Lit(v));
        // principal.score + n < bound && principal in {place}
        let score = of(&mut draft, long, broker, Variable::Principal, t[8]);
        let more = lit(&mut draft, long, small);
        let sum = draft.node(long, Operation::Two(Two::Add, score, more));
        let limit = lit(&mut draft, long, bound);
        let less = draft.node(boolean, Operation::Two(Two::Le, sum, limit));
        let who = draft.node(broker, Operation::Var(Variable::Principal));
        let where_ = lit(&mut draft, regions, some);
        let inside = draft.node(boolean, Operation::Two(Two::In, who, where_));
        let first = draft.node(boolean, Operation::Two(Two::And, less, inside));
        // context.mail like "x@*" || resource.region == place
        let mail = of(&mut draft, string, context, Variable::Context, t[14]);
        let like = draft.node(boolean, Operation::Like(mail, vec![Some(pattern), None]));
        let whence = of(&mut draft, region, tariff, Variable::Resource, t[9]);
        let place = lit(&mut draft, region, places[n / 2]);
        let equal = draft.node(boolean, Operation::Two(Two::Eq, whence, place));
        let second = draft.node(boolean, Operation::Two(Two::Or, like, equal));
        let root = draft.node(boolean, Operation::Two(Two::And, first, second));
        let root = if n % 3 == 0 {
            let items = [bound, small].map(|v| lit(&mut draft, long, v));
            let set = draft.node(longs, Operation::Set(items.to_vec()));
            let one = lit(&mut draft, long, bound);
            let has = draft.node(boolean, Operation::Two(Two::Contains, set, one));
            draft.node(boolean, Operation::Two(Two::And, has, root))
        } else {
            root
        };
        draft.policy(id, n % 4 != 0, root);
    }
    draft
}

/// Random valid sheets, as in the comparison.
pub fn mixed(seed: u64, n: u64) -> Vec<u8> {
    valid(&mut Random::of(seed, n), false).bytes()
}

/// The heavy sheets, each with its name.
pub fn all() -> Vec<(&'static str, Mode, Vec<u8>)> {
    let mut list = Vec::new();
    let mut add = |name, draft: Draft| list.push((name, draft.mode, draft.bytes()));
    add("shared rows, 62 levels", shared(62));
    add("1,024 values", many_values());
    add("512 texts with a long common start", many_texts());
    add("types and shapes, all limits", many_types());
    add("patterns with many stars", stars());
    add("one pattern, almost matching often", almost());
    add("one pattern of a star and many empty texts", long_pattern(b"", false));
    add("patterns with 56 texts of one byte in a row", short_texts(56));
    add("chains 64 deep that may err", chains());
    add("chains of if, 64 deep", ifs());
    add("many made values", made());
    add("one made set of many members", long_set());
    add("many made sets", made_sets());
    add("any on long sets without a common member", long_sets(Two::Any));
    add("all on long sets", long_sets(Two::All));
    add("in long sets, long ancestors", ancestors());
    add("in, through a row of 128 entities", many_in(|draft| row_of(draft, false), 1));
    add("in, through a circle of 128 entities", many_in(|draft| row_of(draft, true), 1));
    add("in, 128 entities that are all each other's parents", many_in(|draft| all_of(draft, 128), 1));
    add("in long sets, 128 entities that are all each other's parents", many_in(|draft| all_of(draft, 128), 120));
    add("128 entities, each with a long set of parents of its own", greatest(own_sets));
    add("128 entities, many look-ups", look_ups());
    add("get in a long record", long_records());
    add("haspath over many steps", paths());
    add("haspath over many steps, the last of 128 entities", entity_steps(b"last", false));
    add("haspath over many steps, the last of 128 entities with text 0", entity_steps(b"Broker", false));
    add("haspath over many steps, the last of 500 attributes", attribute_steps(500));
    add("128 entities that share all their parents, 31 kinds above", shared_parents());
    add("literals of long sets", literals());
    add("64 policies, all open", open());
    add("many sets with a common start", common_starts());
    add("literals of many types", many_fits());
    add("64 policies over one root with long patterns", shared_root(Long::Patterns, false));
    add("64 policies over one root with long paths", shared_root(Long::Paths, false));
    add("64 policies over one root of 16 nodes, both slots linked", linked());
    add("64 policies over one root, a star and many empty texts", long_pattern(b"", true));
    add("64 policies over one root, haspath over many steps, the last of 128 entities", entity_steps(b"last", true));
    add("64 policies over one root, five paths through a ring of 128 entities", shared_ring(&[b"a"]));
    add("64 policies over one root, five paths of two texts through a ring of 128 entities", shared_ring(&[b"a", b"b"]));
    add("64 policies over one root, five paths of three texts through a ring of 128 entities", shared_ring(&[b"a", b"b", b"c"]));
    add(
        "64 policies over one root, five paths of eight texts through a ring of 128 entities",
        shared_ring(&[b"a", b"b", b"c", b"d", b"e", b"f", b"g", b"h"]),
    );
    add(
        "64 policies over one root, five paths of two texts from a record through a ring of 128 entities",
        held_ring(&[b"a", b"b"]),
    );
    add("64 policies over one root, a path of six texts to and fro among six entities", shared_net());
    add("64 policies over one template, five paths through a ring of 128 entities", linked_ring(&[b"a"]));
    add("64 policies over one template, five paths of two texts through a ring of 128 entities", linked_ring(&[b"a", b"b"]));
    add("16 policies over one template of 20 in, 72 entities with long sets of parents", linked_in(72));
    add("64 policies over one root, made values among many", shared_made(1));
    add("64 policies over one root, any on long sets", shared_sets());
    add("64 policies over one root, get in a long record", shared_gets());
    add("16 policies over one root of 20 in, through a row of 128 entities", shared_in(|draft| row_of(draft, false), 1));
    add(
        "16 policies over one root of 20 in, through a row of 128 entities from the last to the first",
        shared_in(|draft| earlier_of(draft, 1), 1),
    );
    add(
        "16 policies over one root of 20 in, 128 entities that are all each other's parents",
        shared_in(|draft| all_of(draft, 128), 1),
    );
    add("16 policies over one root of 20 in, 72 entities with long sets of parents", shared_own_sets(72, 1));
    add("16 policies over one root of 20 in long sets, 72 entities with long sets of parents", shared_own_sets(72, 100));
    add("16 policies over one root of 20 in, 128 entities with long sets of parents", shared_own_sets(128, 1));
    add(
        "16 policies over one root of 20 in, 128 entities with earlier ones as their parents",
        greatest(|parents| shared_in(|draft| earlier_of(draft, parents), 1)),
    );
    add("haspath of 2,000 steps, 32 kinds that declare the group of all", steps_in_one_group());
    add("haspath over many steps, each kind declares a group of its own", steps_in_groups());
    add("in of two groups, no pair allowed", pairs_of_kinds());
    add("get in a group of 31 kinds with a long record", get_in_group());
    add("has in a group of 31 kinds with a long record", has_in_group());
    add("64 policies over one root, has in a group of 31 kinds with a long record", shared_has_in_group());
    add("haspath to and fro between two sets of 31 types", steps_between_sets());
    add("haspath over sets of types that hardly repeat", steps_over_new_sets(2));
    add("haspath over sets of types that hardly repeat, two texts that share a place", steps_over_new_sets(8));
    add("haspath to and fro between two groups, ten records of 95 attributes", steps_between_groups());
    add("16 policies over one root of 20 in a long set of entities of 26 kinds", shared_in_kinds());
    add("512 texts with a long common end", common_text_ends());
    add("many sets with a common end", sets_of_common_end());
    add("64 policies over one root, made values among many sets with a common end", shared_common_ends());
    add("64 policies over one root, made longs among many with the same low word", shared_made(1 << 32));
    add("literals of long records, each of many record types", record_fits());
    add("16 policies over one root of 20 all on long sets", shared_all());
    add("complete: 64 policies over one root with long patterns", completed(shared_root(Long::Patterns, true)));
    add("complete: 64 policies over one root with long paths", completed(shared_root(Long::Paths, true)));
    add("complete: 64 policies over one root of 16 nodes, both slots linked", completed(linked()));
    add("complete: 64 policies over one root, made values among many", completed(shared_made(1)));
    add("complete: 64 policies over one root, any on long sets", completed(shared_sets()));
    add("complete: 64 policies over one root, get in a long record", completed(shared_gets()));
    add("complete: shared rows", completed(shared(62)));
    add("complete: one pattern, almost matching often", completed(almost()));
    add("complete: one pattern of a star and many empty texts", completed(long_pattern(b"", false)));
    add("complete: haspath over many steps, the last of 128 entities", completed(entity_steps(b"last", false)));
    add("complete: all on long sets", completed(long_sets(Two::All)));
    add("complete: in long sets, long ancestors", completed(ancestors()));
    add("complete: 128 entities, many look-ups", completed(look_ups()));
    add("complete: in, 128 entities with one set of 300 parents", completed(many_in(|draft| all_of(draft, 300), 1)));
    add("complete: 16 policies over one root of 20 in, 72 entities with long sets of parents", completed(shared_own_sets(72, 1)));
    add(
        "complete: 16 policies over one root of 20 in long sets, 72 entities with long sets of parents",
        completed(shared_own_sets(72, 100)),
    );
    add("complete: many made sets", completed(made_sets()));
    list
}

/// Pairs of a partial sheet and a complete one that agrees with it, each with its name.
pub fn pairs() -> Vec<(String, [Vec<u8>; 2])> {
    let mut list: Vec<(String, [Vec<u8>; 2])> =
        [1024, 4096, 16384].map(|size| (format!("ordinary, {size} bytes"), ordinary_pair(size))).to_vec();
    let mut add = |name: &str, draft: Draft| list.push((name.to_string(), [draft.bytes(), completed(draft).bytes()]));
    add("64 policies over one root of 16 nodes, both slots linked", linked());
    add("64 policies over one root with long patterns", shared_root(Long::Patterns, true));
    add("64 policies over one root, made values among many", shared_made(1));
    add("64 policies over one root, any on long sets", shared_sets());
    add("64 policies over one root, get in a long record", shared_gets());
    add("one pattern, almost matching often", almost());
    add("many made sets", made_sets());
    add("shared rows, 62 levels", shared(62));
    add("all on long sets", long_sets(Two::All));
    add("in long sets, long ancestors", ancestors());
    add("128 entities, many look-ups", look_ups());
    list
}

/// The complete sheet that knows the rest.
fn completed(mut draft: Draft) -> Draft {
    draft.mode = Mode::Complete;
    let none = draft.value(ValueRow::Record(Vec::new()));
    let lone = draft.value(ValueRow::Set(Vec::new()));
    draft.principal.1 = draft.principal.1.or(Some(3));
    draft.resource.1 = draft.resource.1.or(Some(3));
    draft.context.1 = draft.context.1.or(Some(none));
    for row in &mut draft.entities {
        row.attributes = row.attributes.or(Some(none));
        row.tags = row.tags.or(Some(none));
        row.parents = row.parents.or(Some(lone));
    }
    draft
}

fn common_starts() -> Draft {
    let mut draft = small();
    for n in 0..200 {
        draft.value(ValueRow::Long(n));
    }
    fill(draft, 1024, |draft, n| {
        let mut items: Vec<u32> = (0..12).collect();
        items.push(20 + n as u32 % 180);
        if n >= 180 {
            items[11] = 12 + (n as u32 / 180);
        }
        draft.value(ValueRow::Set(items));
    })
}

/// A small sheet of longs, and the last of them.
fn longs_of_sets() -> (Draft, u32) {
    let mut draft = small();
    let last = (0..44).map(|n| draft.value(ValueRow::Long(n))).last().expect("a value");
    (draft, last)
}

/// As many sets as fit, each of the last long and two before it.
fn common_ends(draft: Draft, last: u32) -> Draft {
    let pairs: Vec<[u32; 2]> = (0..last).flat_map(|low| (low + 1..last).map(move |high| [low, high])).collect();
    fill(draft, pairs.len(), |draft, n| {
        let [low, high] = pairs[n];
        draft.value(ValueRow::Set(vec![low, high, last]));
    })
}

fn sets_of_common_end() -> Draft {
    let (draft, last) = longs_of_sets();
    common_ends(draft, last)
}

fn many_fits() -> Draft {
    let mut draft = small();
    let members: Vec<u32> = (0..300)
        .map(|n| {
            let v = draft.value(ValueRow::Long(n));
            draft.value(ValueRow::Record(vec![(0, v)]))
        })
        .collect();
    let all = draft.value(ValueRow::Set(members));
    let sets: Vec<u32> = (0..60)
        .map(|n| {
            let t = draft.text(format!("{n}").as_bytes());
            let record = draft.ty(TypeRow::Record(vec![(0, true, 3), (t, false, 3)]));
            draft.ty(TypeRow::Set(record))
        })
        .collect();
    repeated(draft, Two::Or, |draft, n| {
        let lit = draft.node(sets[n % sets.len()], Operation::Lit(all));
        draft.node(0, Operation::One(One::Empty, lit))
    })
}

/// A set of 14 records of 98 attributes, as a literal of each of 11 types, of which each leaves another attribute optional.
fn record_fits() -> Draft {
    let mut draft = small();
    let count = 98;
    for n in 4..count {
        draft.text(format!("{n}").as_bytes());
    }
    let [yes, no] = [true, false].map(|b| draft.value(ValueRow::Bool(b)));
    let records: Vec<u32> = (0..14)
        .map(|own| draft.value(ValueRow::Record((0..count).map(|t| (t, if t == own { no } else { yes })).collect())))
        .collect();
    let all = draft.value(ValueRow::Set(records));
    let leaves = (0..11)
        .map(|own| {
            let record = draft.ty(TypeRow::Record((0..count).map(|t| (t, t != own, 0)).collect()));
            let set = draft.ty(TypeRow::Set(record));
            let lit = draft.node(set, Operation::Lit(all));
            draft.node(0, Operation::One(One::Empty, lit))
        })
        .collect();
    join(&mut draft, leaves, Two::Or);
    draft
}

/// Fills a sheet with what `more` adds, as long as it stays accepted by size.
fn fill(mut draft: Draft, most: usize, mut more: impl FnMut(&mut Draft, usize)) -> Draft {
    for n in 0..most {
        let mut next = draft.clone();
        more(&mut next, n);
        if next.bytes().len() > SHEET_BYTES - SPARE
            || next.nodes.len() > 1024
            || next.values.len() > 1024
            || next.policies.len() > 64
        {
            return draft;
        }
        draft = next;
    }
    draft
}

/// Joins nodes of type bool by `and` or `or` into one policy, in a tree as flat as can be.
fn join(draft: &mut Draft, mut roots: Vec<u32>, two: Two) {
    while roots.len() > 1 {
        roots = roots
            .chunks(2)
            .map(|pair| match pair {
                [a, b] => draft.node(0, Operation::Two(two, *a, *b)),
                _ => pair[0],
            })
            .collect();
    }
    if let Some(root) = roots.first() {
        draft.policy(3, true, *root);
    }
}

/// As many nodes of type bool as fit, joined by `two`: `one` makes each.
fn repeated(draft: Draft, two: Two, mut one: impl FnMut(&mut Draft, usize) -> u32) -> Draft {
    let mut count = 1024;
    loop {
        let mut next = draft.clone();
        let roots: Vec<u32> = (0..count).map(|n| one(&mut next, n)).collect();
        join(&mut next, roots, two);
        if next.nodes.len() <= 1024 && next.values.len() <= 1022 && next.bytes().len() <= SHEET_BYTES - SPARE {
            return next;
        }
        count -= 1 + count / 50;
    }
}

fn shared(levels: usize) -> Draft {
    let mut draft = small();
    let (a, b) = (draft.text(b"a"), draft.text(b"b"));
    let (mut ty, mut v) = (0, draft.value(ValueRow::Bool(true)));
    for _ in 0..levels {
        ty = draft.ty(TypeRow::Record(vec![(a, true, ty), (b, true, ty)]));
        v = draft.value(ValueRow::Record(vec![(a, v), (b, v)]));
    }
    draft.context = (ty, Some(v));
    repeated(draft, Two::And, |draft, _| {
        let x = draft.node(ty, Operation::Var(Variable::Context));
        let y = draft.node(ty, Operation::Lit(v));
        draft.node(0, Operation::Two(Two::Eq, x, y))
    })
}

fn many_values() -> Draft {
    fill(small(), 1024, |draft, n| {
        draft.value(ValueRow::Long(n as i64));
    })
}

fn many_texts() -> Draft {
    fill(small(), 508, |draft, n| {
        draft.text(format!("the same start {n:0>9}").as_bytes());
    })
}

fn common_text_ends() -> Draft {
    fill(small(), 508, |draft, n| {
        draft.text(format!("{n:0>3} and then the same end").as_bytes());
    })
}

fn many_types() -> Draft {
    let mut draft = small();
    for n in 4..32 {
        let name = draft.text(format!("k{n}").as_bytes());
        draft.kinds.push((name, false));
        draft.shapes.push(ShapeRow { attributes: 1, tags: None, above: (0..n as u32).collect() });
    }
    fill(draft, 124, |draft, n| {
        let n = n as u32;
        draft.ty(TypeRow::Record((0..8).map(|t| (t, t % 2 == 0, (n + t) % (n + 3))).collect()));
    })
}

fn stars() -> Draft {
    let mut draft = small();
    let string = draft.ty(TypeRow::String);
    let text = draft.text(&[b'a'; 128]);
    let (a, b) = (draft.text(b"aa"), draft.text(b"ab"));
    let v = draft.value(ValueRow::Text(text));
    repeated(draft, Two::Or, |draft, _| {
        let lit = draft.node(string, Operation::Lit(v));
        let mut items: Vec<Option<u32>> = (0..56).map(|n| if n % 2 == 0 { None } else { Some(a) }).collect();
        items.extend([None, Some(b)]);
        draft.node(0, Operation::Like(lit, items))
    })
}

fn almost() -> Draft {
    let mut draft = small();
    let string = draft.ty(TypeRow::String);
    let text = draft.text(&[b'a'; 128]);
    let end = draft.text(&[&[b'a'; 63][..], b"b"].concat());
    let v = draft.value(ValueRow::Text(text));
    repeated(draft, Two::Or, |draft, _| {
        let lit = draft.node(string, Operation::Lit(v));
        draft.node(0, Operation::Like(lit, vec![None, Some(end)]))
    })
}

/// One pattern that does not match: a star, a piece as often as fits, and a text that does not end the value. Under one policy, or under 64.
fn long_pattern(piece: &[u8], shared: bool) -> Draft {
    let mut draft = small();
    let string = draft.ty(TypeRow::String);
    let text = draft.text(&[b'a'; 128]);
    let (piece, end) = (draft.text(piece), draft.text(b"b"));
    let v = draft.value(ValueRow::Text(text));
    greatest(|count| {
        let mut next = draft.clone();
        let lit = next.node(string, Operation::Lit(v));
        let items = [vec![None], vec![Some(piece); count], vec![Some(end)]].concat();
        let like = next.node(0, Operation::Like(lit, items));
        under(&mut next, like, shared);
        next
    })
}

/// One policy of this root, or 64 over it.
fn under(draft: &mut Draft, root: u32, shared: bool) {
    match shared {
        true => sixteen(draft, Two::And, vec![root]),
        false => draft.policy(3, true, root),
    }
}

fn short_texts(count: usize) -> Draft {
    let mut draft = small();
    let string = draft.ty(TypeRow::String);
    let text = draft.text(&[b'a'; 128]);
    let (a, b) = (draft.text(b"a"), draft.text(b"b"));
    let v = draft.value(ValueRow::Text(text));
    repeated(draft, Two::Or, |draft, _| {
        let lit = draft.node(string, Operation::Lit(v));
        draft.node(0, Operation::Like(lit, [vec![None], vec![Some(a); count], vec![Some(b)]].concat()))
    })
}

fn chains() -> Draft {
    // and of what may err on the left, at every level, so that each level asks its whole left side.
    let mut draft = small();
    let a = draft.text(b"a");
    let record = draft.ty(TypeRow::Record(vec![(a, true, 0)]));
    draft.context = (record, None);
    let no = draft.value(ValueRow::Bool(false));
    for policy in 0..16 {
        let mut next = draft.clone();
        let id = next.text(format!("p{policy}").as_bytes());
        let var = next.node(2, Operation::Var(Variable::Principal));
        let other = next.node(2, Operation::Var(Variable::Principal));
        let mut node = next.node(0, Operation::Two(Two::Eq, var, other));
        for level in 0..60 {
            if level % 2 == 0 {
                node = next.node(0, Operation::One(One::Not, node));
            } else {
                let var = next.node(0, Operation::Lit(no));
                node = next.node(0, Operation::Two(if level % 4 == 1 { Two::Or } else { Two::Eq }, node, var));
            }
        }
        next.policy(id, true, node);
        if next.bytes().len() > SHEET_BYTES || next.nodes.len() > 1024 {
            break;
        }
        draft = next;
    }
    draft
}

fn ifs() -> Draft {
    let mut draft = small();
    let a = draft.text(b"a");
    let record = draft.ty(TypeRow::Record(vec![(a, true, 0)]));
    draft.context = (record, None);
    let yes = draft.value(ValueRow::Bool(true));
    for policy in 0..16 {
        let mut next = draft.clone();
        let id = next.text(format!("p{policy}").as_bytes());
        let var = next.node(record, Operation::Var(Variable::Context));
        let mut node = next.node(0, Operation::Get(var, a));
        for level in 0..61 {
            let [x, y] = [yes, yes].map(|v| next.node(0, Operation::Lit(v)));
            node = match level % 3 {
                0 => next.node(0, Operation::If(node, x, y)),
                1 => next.node(0, Operation::If(x, node, y)),
                _ => next.node(0, Operation::If(x, node, y)),
            };
        }
        next.policy(id, true, node);
        if next.bytes().len() > SHEET_BYTES || next.nodes.len() > 1024 {
            break;
        }
        draft = next;
    }
    draft
}

fn made() -> Draft {
    let mut draft = small();
    for n in 0..200 {
        draft.value(ValueRow::Long(n));
    }
    repeated(draft, Two::And, |draft, n| {
        let x = draft.node(3, Operation::Lit(10 + n as u32 % 180));
        let neg = draft.node(3, Operation::One(One::Neg, x));
        let y = draft.node(3, Operation::Lit(199 - n as u32 % 180));
        let sum = draft.node(3, Operation::Two(Two::Mul, neg, y));
        let z = draft.node(3, Operation::Lit(0));
        draft.node(0, Operation::Two(Two::Le, sum, z))
    })
}

fn long_set() -> Draft {
    let mut draft = small();
    let longs = draft.ty(TypeRow::Set(3));
    let build = |count: usize| {
        let mut next = draft.clone();
        for n in 0..count {
            next.value(ValueRow::Long(n as i64));
        }
        let items: Vec<u32> = (0..count).map(|n| next.node(3, Operation::Lit((count - 1 - n) as u32))).collect();
        let set = next.node(longs, Operation::Set(items));
        let root = next.node(0, Operation::One(One::Empty, set));
        next.policy(3, true, root);
        next
    };
    let mut count = 700;
    while build(count).bytes().len() > SHEET_BYTES {
        count -= 1;
    }
    build(count)
}

fn made_sets() -> Draft {
    let mut draft = small();
    let longs = draft.ty(TypeRow::Set(3));
    for n in 0..40 {
        draft.value(ValueRow::Long(n));
    }
    repeated(draft, Two::Or, |draft, n| {
        let items: Vec<u32> = (0..8).map(|i| draft.node(3, Operation::Lit(((n * 7 + i * (1 + n % 5)) % 40) as u32))).collect();
        let set = draft.node(longs, Operation::Set(items));
        draft.node(0, Operation::One(One::Empty, set))
    })
}

fn long_sets(two: Two) -> Draft {
    let mut draft = small();
    let longs = draft.ty(TypeRow::Set(3));
    let count = 400u32;
    for n in 0..count {
        draft.value(ValueRow::Long(n as i64));
    }
    let (left, right) = match two {
        Two::Any => ((0..count).filter(|n| n % 2 == 0).collect(), (0..count).filter(|n| n % 2 == 1).collect()),
        _ => ((0..count).collect(), (0..count - 1).collect()),
    };
    let (left, right) = (draft.value(ValueRow::Set(left)), draft.value(ValueRow::Set(right)));
    repeated(draft, Two::And, |draft, _| {
        let x = draft.node(longs, Operation::Lit(left));
        let y = draft.node(longs, Operation::Lit(right));
        let test = draft.node(0, Operation::Two(two, x, y));
        if two == Two::Any {
            return draft.node(0, Operation::One(One::Not, test));
        }
        test
    })
}

fn ancestors() -> Draft {
    let mut draft = kinless();
    let set = draft.ty(TypeRow::Set(2));
    let entities = brokers(&mut draft, 220);
    let [even, odd] = [0, 1].map(|rest| entities.iter().copied().filter(|v| v % 2 == rest).collect::<Vec<u32>>());
    kin(&mut draft, &even, |_| Vec::new());
    let t = draft.text(b"low");
    let low = draft.value(ValueRow::Entity(0, t));
    kin(&mut draft, &[low], |_| even.clone());
    let odd = draft.value(ValueRow::Set(odd));
    repeated(draft, Two::Or, |draft, _| is_in(draft, low, set, odd))
}

/// A small sheet whose value 0 is the empty record, so that entity lines with known parts are short.
fn kinless() -> Draft {
    let mut draft = small();
    draft.value(ValueRow::Record(Vec::new()));
    draft
}

/// So many entities of kind 0.
fn brokers(draft: &mut Draft, count: usize) -> Vec<u32> {
    (0..count)
        .map(|n| {
            let t = draft.text(format!("{n}").as_bytes());
            draft.value(ValueRow::Entity(0, t))
        })
        .collect()
}

/// Lists the entities of a row, with the parents that `parents` gives for the place of each, and gives the first.
fn kin(draft: &mut Draft, row: &[u32], parents: impl Fn(usize) -> Vec<u32>) -> u32 {
    let none = Some(draft.value(ValueRow::Record(Vec::new())));
    for (n, entity) in row.iter().enumerate() {
        let mut set = parents(n);
        set.sort();
        let parents = Some(draft.value(ValueRow::Set(set)));
        draft.entities.push(EntityRow { entity: *entity, attributes: none, tags: none, parents });
    }
    row[0]
}

/// 128 entities, each the parent of the one before; the first one. The last has no parents, or the first where they are a circle.
fn row_of(draft: &mut Draft, circle: bool) -> u32 {
    let row = brokers(draft, 128);
    kin(draft, &row, |n| match n + 1 < row.len() {
        true => vec![row[n + 1]],
        false => row[..usize::from(circle)].to_vec(),
    })
}

/// 128 entities which have these and more, so many together, as parents.
fn all_of(draft: &mut Draft, parents: usize) -> u32 {
    let row = brokers(draft, parents);
    kin(draft, &row[..128], |_| row.clone())
}

/// So many entities, of which each has as its parents so many that follow it in a circle, a set that no other has; the first one.
fn own_sets_of(draft: &mut Draft, lines: usize, parents: usize) -> u32 {
    let row = brokers(draft, lines);
    kin(draft, &row, |n| (1..=parents).map(|step| row[(n + step) % lines]).collect())
}

/// 128 entities, of which each has as its parents the so many before it; the last one, which reaches all others.
fn earlier_of(draft: &mut Draft, parents: usize) -> u32 {
    let row = brokers(draft, 128);
    kin(draft, &row, |n| row[n.saturating_sub(parents)..n].to_vec());
    row[127]
}

fn own_sets(parents: usize) -> Draft {
    let mut draft = kinless();
    own_sets_of(&mut draft, 128, parents);
    draft
}

/// What nothing reaches: an entity, or a set of so many, with its type.
fn unreached(draft: &mut Draft, count: usize) -> (u32, u32) {
    let others: Vec<u32> = (0..count as u32)
        .map(|n| {
            let t = draft.text(format!("x{n}").as_bytes());
            draft.value(ValueRow::Entity(0, t))
        })
        .collect();
    match others[..] {
        [one] => (2, one),
        _ => (draft.ty(TypeRow::Set(2)), draft.value(ValueRow::Set(others))),
    }
}

/// Asks as often as fits whether an entity is in what it does not reach.
fn many_in(low: impl Fn(&mut Draft) -> u32, targets: usize) -> Draft {
    let mut draft = kinless();
    let low = low(&mut draft);
    let (ty, high) = unreached(&mut draft, targets);
    repeated(draft, Two::Or, |draft, _| is_in(draft, low, ty, high))
}

fn is_in(draft: &mut Draft, low: u32, ty: u32, high: u32) -> u32 {
    reaches(draft, Operation::Lit(low), ty, high)
}

/// Whether the entity that this operation gives is in a value of a type.
fn reaches(draft: &mut Draft, low: Operation, ty: u32, high: u32) -> u32 {
    let x = draft.node(2, low);
    let y = draft.node(ty, Operation::Lit(high));
    draft.node(0, Operation::Two(Two::In, x, y))
}

/// 16 policies over one root that asks twenty times and makes a set of the answers: 320 times together, in 992 uses.
fn twenty(draft: &mut Draft, ask: impl Fn(&mut Draft) -> u32) {
    let answers = draft.ty(TypeRow::Set(0));
    let leaves = (0..20).map(|_| ask(draft)).collect();
    let set = draft.node(answers, Operation::Set(leaves));
    let root = draft.node(0, Operation::One(One::Empty, set));
    for n in 0..16 {
        let id = draft.text(format!("{n}").as_bytes());
        draft.policy(id, true, root);
    }
}

fn shared_in(low: impl Fn(&mut Draft) -> u32, targets: usize) -> Draft {
    let mut draft = kinless();
    let low = low(&mut draft);
    let (ty, high) = unreached(&mut draft, targets);
    twenty(&mut draft, |draft| is_in(draft, low, ty, high));
    draft
}

/// The same over as many parents as fit: fewer entities leave more room for them.
fn shared_own_sets(lines: usize, targets: usize) -> Draft {
    greatest(|parents| shared_in(|draft| own_sets_of(draft, lines, parents), targets))
}

/// The same of a slot, which each policy's link fills with another of so many entities, with as many parents as fit.
fn linked_in(lines: usize) -> Draft {
    greatest(|parents| {
        let mut draft = kinless();
        own_sets_of(&mut draft, lines, parents);
        let entities: Vec<u32> = draft.entities.iter().map(|row| row.entity).collect();
        let (ty, high) = unreached(&mut draft, 1);
        twenty(&mut draft, |draft| reaches(draft, Operation::Slot(Slot::Principal), ty, high));
        link_each(&mut draft, &entities);
        draft
    })
}

/// An entity without parents, asked for in a set of others that all have the same few texts.
fn shared_in_kinds() -> Draft {
    let mut draft = many_kinds();
    let kinds: Vec<u32> = ordinary_kinds().take(26).collect();
    let text = draft.texts.len() as u32 - 1;
    let low = draft.value(ValueRow::Entity(0, text));
    kin(&mut draft, &[low], |_| Vec::new());
    let others = kinds.iter().flat_map(|kind| (0..22).map(move |t| ValueRow::Entity(*kind, t)));
    let others: Vec<u32> = others.map(|row| draft.value(row)).collect();
    let others = draft.value(ValueRow::Set(others));
    let group = draft.ty(TypeRow::Entity(kinds));
    let set = draft.ty(TypeRow::Set(group));
    twenty(&mut draft, |draft| is_in(draft, low, set, others));
    draft
}

/// Whether a set of as many longs as fit has all of its own members.
fn shared_all() -> Draft {
    greatest(|count| {
        let mut draft = small();
        let longs = draft.ty(TypeRow::Set(3));
        let members = (0..count).map(|n| draft.value(ValueRow::Long(n as i64))).collect();
        let set = draft.value(ValueRow::Set(members));
        twenty(&mut draft, |draft| {
            let [x, y] = [(); 2].map(|_| draft.node(longs, Operation::Lit(set)));
            draft.node(0, Operation::Two(Two::All, x, y))
        });
        draft
    })
}

fn look_ups() -> Draft {
    let mut draft = small();
    let a = draft.text(b"a");
    let record = draft.ty(TypeRow::Record(vec![(a, true, 0)]));
    draft.shapes[0].attributes = record;
    let yes = draft.value(ValueRow::Bool(true));
    let attributes = draft.value(ValueRow::Record(vec![(a, yes)]));
    let tags = draft.value(ValueRow::Record(Vec::new()));
    let parents = draft.value(ValueRow::Set(Vec::new()));
    let mut last = 0;
    for n in 0..128 {
        let t = draft.text(format!("{n}").as_bytes());
        last = draft.value(ValueRow::Entity(0, t));
        draft.entities.push(EntityRow { entity: last, attributes: Some(attributes), tags: Some(tags), parents: Some(parents) });
    }
    repeated(draft, Two::And, |draft, _| {
        let lit = draft.node(2, Operation::Lit(last));
        draft.node(0, Operation::Get(lit, a))
    })
}

fn long_records() -> Draft {
    let mut draft = small();
    let count = 380;
    let texts: Vec<u32> = (0..count).map(|n| draft.text(format!("{n}").as_bytes())).collect();
    let record = draft.ty(TypeRow::Record(texts.iter().map(|t| (*t, true, 0)).collect()));
    let yes = draft.value(ValueRow::Bool(true));
    let v = draft.value(ValueRow::Record(texts.iter().map(|t| (*t, yes)).collect()));
    draft.context = (record, Some(v));
    let last = *texts.last().expect("texts");
    repeated(draft, Two::And, |draft, _| {
        let var = draft.node(record, Operation::Var(Variable::Context));
        draft.node(0, Operation::Get(var, last))
    })
}

fn paths() -> Draft {
    let mut draft = small();
    let a = draft.text(b"a");
    let (mut ty, mut v) = (0, draft.value(ValueRow::Bool(true)));
    for _ in 0..60 {
        ty = draft.ty(TypeRow::Record(vec![(a, true, ty)]));
        v = draft.value(ValueRow::Record(vec![(a, v)]));
    }
    draft.context = (ty, Some(v));
    repeated(draft, Two::And, |draft, _| {
        let var = draft.node(ty, Operation::Var(Variable::Context));
        draft.node(0, Operation::HasPath(var, vec![a; 60]))
    })
}

/// A path of as many steps as fit from the last of 128 entities, each step to that entity itself; this is its text.
fn entity_steps(text: &[u8], shared: bool) -> Draft {
    let mut draft = small();
    let (a, text) = (draft.text(b"a"), draft.text(text));
    draft.shapes[0].attributes = draft.ty(TypeRow::Record(vec![(a, false, 2)]));
    let mut row = brokers(&mut draft, 127);
    let last = draft.value(ValueRow::Entity(0, text));
    row.push(last);
    let [none, own] = [Vec::new(), vec![(a, last)]].map(|fields| Some(draft.value(ValueRow::Record(fields))));
    let parents = Some(draft.value(ValueRow::Set(Vec::new())));
    for entity in row {
        draft.entities.push(EntityRow { entity, attributes: if entity == last { own } else { none }, tags: none, parents });
    }
    draft.principal = (0, Some(text));
    greatest(|steps| {
        let mut next = draft.clone();
        let var = next.node(2, Operation::Var(Variable::Principal));
        let path = next.node(0, Operation::HasPath(var, vec![a; steps]));
        under(&mut next, path, shared);
        next
    })
}

/// 128 entities, each of which has the next one as each of these attributes, and the last one the first.
fn ring_of(draft: &mut Draft, attributes: &[u32]) {
    let row = brokers(draft, 128);
    let none = Some(draft.value(ValueRow::Record(Vec::new())));
    let parents = Some(draft.value(ValueRow::Set(Vec::new())));
    for (n, entity) in row.iter().enumerate() {
        let next = row[(n + 1) % row.len()];
        let fields = attributes.iter().map(|attribute| (*attribute, next)).collect();
        let attributes = Some(draft.value(ValueRow::Record(fields)));
        draft.entities.push(EntityRow { entity: *entity, attributes, tags: none, parents });
    }
}

/// Five paths of as many steps as fit from the last of 128 entities, each step to the next entity of the ring by these attributes
/// in turn. No two paths are equally long.
fn shared_ring(names: &[&[u8]]) -> Draft {
    let (mut draft, attributes) = ring(names);
    draft.principal = (0, Some(draft.text(b"127")));
    ring_paths(&draft, &attributes, 2, Variable::Principal)
}

/// The same paths from a slot, which each policy's link fills with another entity of the ring.
fn linked_ring(names: &[&[u8]]) -> Draft {
    let (draft, attributes) = ring(names);
    let entities: Vec<u32> = draft.entities.iter().map(|row| row.entity).collect();
    paths_from(&draft, &attributes, 2, Operation::Slot(Slot::Principal), |next| link_each(next, &entities))
}

/// A link for each policy, to these entities in turn.
fn link_each(draft: &mut Draft, entities: &[u32]) {
    for (policy, entity) in (0..draft.policies.len()).zip(entities.iter().cycle()) {
        draft.links.push(LinkRow { policy: policy as u32, principal: Some(*entity), resource: None });
    }
}

/// The same from the context, a record that has this entity as the first of these attributes.
fn held_ring(names: &[&[u8]]) -> Draft {
    let (mut draft, attributes) = ring(names);
    let last = draft.text(b"127");
    let last = draft.value(ValueRow::Entity(0, last));
    let record = draft.ty(TypeRow::Record(vec![(attributes[0], false, 2)]));
    let held = draft.value(ValueRow::Record(vec![(attributes[0], last)]));
    draft.context = (record, Some(held));
    ring_paths(&draft, &attributes, record, Variable::Context)
}

/// The ring, and the texts of its attributes.
fn ring(names: &[&[u8]]) -> (Draft, Vec<u32>) {
    let mut draft = small();
    let attributes: Vec<u32> = names.iter().map(|name| draft.text(name)).collect();
    draft.shapes[0].attributes = draft.ty(TypeRow::Record(attributes.iter().map(|attribute| (*attribute, false, 2)).collect()));
    ring_of(&mut draft, &attributes);
    (draft, attributes)
}

/// Five paths of as many steps as fit by these attributes in turn, from this variable on.
fn ring_paths(draft: &Draft, attributes: &[u32], ty: u32, variable: Variable) -> Draft {
    paths_from(draft, attributes, ty, Operation::Var(variable), |_| ())
}

/// The same from this operation on; at last the sheet is finished.
fn paths_from(draft: &Draft, attributes: &[u32], ty: u32, from: Operation, finish: impl Fn(&mut Draft)) -> Draft {
    greatest(|steps| {
        let mut next = draft.clone();
        let leaves = (0..5)
            .map(|more| {
                let first = next.node(ty, from.clone());
                let path = attributes.iter().copied().cycle().take(steps + more).collect();
                next.node(0, Operation::HasPath(first, path))
            })
            .collect();
        sixteen(&mut next, Two::And, leaves);
        finish(&mut next);
        next
    })
}

/// A path of as many steps as fit among six entities that have one record: each of its six attributes leads to another of them, and
/// which one is asked for next hardly repeats.
fn shared_net() -> Draft {
    let mut draft = small();
    let attributes: Vec<u32> = [b"a", b"b", b"c", b"d", b"e", b"f"].iter().map(|name| draft.text(*name)).collect();
    draft.shapes[0].attributes = draft.ty(TypeRow::Record(attributes.iter().map(|attribute| (*attribute, false, 2)).collect()));
    let row = brokers(&mut draft, 6);
    let none = Some(draft.value(ValueRow::Record(Vec::new())));
    let parents = Some(draft.value(ValueRow::Set(Vec::new())));
    let fields = attributes.iter().copied().zip(row.iter().copied()).collect();
    let own = Some(draft.value(ValueRow::Record(fields)));
    for entity in row {
        draft.entities.push(EntityRow { entity, attributes: own, tags: none, parents });
    }
    draft.principal = (0, Some(draft.text(b"0")));
    greatest(|steps| {
        let mut next = draft.clone();
        let var = next.node(2, Operation::Var(Variable::Principal));
        let path = (0..steps).map(|n| attributes[(n * n + n / 7) % 6]).collect();
        let path = next.node(0, Operation::HasPath(var, path));
        sixteen(&mut next, Two::And, vec![path]);
        next
    })
}

/// A path of as many steps as fit through the last of so many declared attributes.
fn attribute_steps(count: usize) -> Draft {
    let mut draft = small();
    let texts: Vec<u32> = (0..count).map(|n| draft.text(format!("{n}").as_bytes())).collect();
    let last = *texts.last().expect("texts");
    let fields = texts.iter().map(|t| (*t, false, if *t == last { 2 } else { 0 })).collect();
    draft.shapes[0].attributes = draft.ty(TypeRow::Record(fields));
    greatest(|steps| {
        let mut next = draft.clone();
        let var = next.node(2, Operation::Var(Variable::Principal));
        let path = next.node(0, Operation::HasPath(var, vec![last; steps]));
        under(&mut next, path, false);
        next
    })
}

/// 128 entities with one set of parents, as many as fit, of a kind that is the last of 31 above theirs.
fn shared_parents() -> Draft {
    let mut draft = small();
    for n in 3..32 {
        let name = draft.text(format!("k{n}").as_bytes());
        draft.kinds.push((name, false));
        draft.shapes.push(ShapeRow { attributes: 1, tags: None, above: Vec::new() });
    }
    draft.shapes[0].above = (0..32).filter(|kind| *kind != 1).collect();
    let row = brokers(&mut draft, 128);
    greatest(|count| {
        let mut next = draft.clone();
        let parents: Vec<u32> = (0..count)
            .map(|n| {
                let t = next.text(format!("{n}").as_bytes());
                next.value(ValueRow::Entity(31, t))
            })
            .collect();
        let parents = Some(next.value(ValueRow::Set(parents)));
        for entity in &row {
            next.entities.push(EntityRow { entity: *entity, attributes: None, tags: None, parents });
        }
        next
    })
}

fn literals() -> Draft {
    let mut draft = small();
    let longs = draft.ty(TypeRow::Set(3));
    let count = 500u32;
    for n in 0..count {
        draft.value(ValueRow::Long(n as i64));
    }
    let all = draft.value(ValueRow::Set((0..count).collect()));
    repeated(draft, Two::Or, |draft, _| {
        let lit = draft.node(longs, Operation::Lit(all));
        draft.node(0, Operation::One(One::Empty, lit))
    })
}

fn open() -> Draft {
    let mut draft = small();
    let a = draft.text(b"a");
    let record = draft.ty(TypeRow::Record(vec![(a, true, 0)]));
    draft.context = (record, None);
    fill(draft, 64, |draft, n| {
        let id = draft.text(format!("p{n}").as_bytes());
        let mut roots: Vec<u32> = (0..4)
            .map(|_| {
                let var = draft.node(record, Operation::Var(Variable::Context));
                draft.node(0, Operation::Get(var, a))
            })
            .collect();
        while roots.len() > 1 {
            roots = roots.chunks(2).map(|pair| draft.node(0, Operation::Two(Two::And, pair[0], pair[1]))).collect();
        }
        draft.policy(id, true, roots[0]);
    })
}

/// What makes the nodes of a shared root long.
#[derive(Clone, Copy)]
enum Long {
    Patterns,
    Paths,
}

/// 64 policies over one root of 16 nodes, 1,024 uses. With an unknown context all are open: the answer has that root's lines 64
/// times, some 900,000 bytes.
fn shared_root(long: Long, known: bool) -> Draft {
    let mut draft = small();
    let a = draft.text(b"a");
    let string = draft.ty(TypeRow::String);
    let inner = draft.ty(TypeRow::Record(vec![(a, true, string)]));
    let record = draft.ty(TypeRow::Record(vec![(a, true, inner)]));
    draft.context = (record, None);
    if known {
        let t = draft.text(&[b'a'; 128]);
        let text = draft.value(ValueRow::Text(t));
        let held = draft.value(ValueRow::Record(vec![(a, text)]));
        draft.context.1 = Some(draft.value(ValueRow::Record(vec![(a, held)])));
    }
    greatest(|steps| {
        let mut next = draft.clone();
        let leaves: Vec<u32> = match long {
            // context.a.a like .., three times.
            Long::Patterns => (0..3)
                .map(|_| {
                    let var = next.node(record, Operation::Var(Variable::Context));
                    let outer = next.node(inner, Operation::Get(var, a));
                    let get = next.node(string, Operation::Get(outer, a));
                    next.node(0, Operation::Like(get, (0..steps).map(|n| if n % 2 == 0 { None } else { Some(a) }).collect()))
                })
                .collect(),
            // context has a.Broker.a.., five times: every step after the first is undeclared and free.
            Long::Paths => (0..5)
                .map(|_| {
                    let var = next.node(record, Operation::Var(Variable::Context));
                    let path = [vec![a, 0], vec![a; steps]].concat();
                    next.node(0, Operation::HasPath(var, path))
                })
                .collect(),
        };
        sixteen(&mut next, Two::And, leaves);
        next
    })
}

/// The greatest sheet of those that `build` makes, which are longer and longer.
fn greatest(build: impl Fn(usize) -> Draft) -> Draft {
    let fits =
        |draft: &Draft| draft.bytes().len() <= SHEET_BYTES - SPARE && draft.values.len() <= 1022 && draft.texts.len() <= 512;
    (1..).map(build).take_while(fits).last().expect("the first fits")
}

/// 64 policies over one root: leaves joined by `two`, and `not` up to 16 nodes.
fn sixteen(draft: &mut Draft, two: Two, leaves: Vec<u32>) {
    let mut leaves = leaves.into_iter();
    let first = leaves.next().expect("a leaf");
    let mut root = leaves.fold(first, |left, right| draft.node(0, Operation::Two(two, left, right)));
    while draft.nodes.len() < 16 {
        root = draft.node(0, Operation::One(One::Not, root));
    }
    for n in 0..64 {
        let id = draft.text(format!("{n}").as_bytes());
        draft.policy(id, true, root);
    }
}

/// Twelve values made or found again for each of 64 policies: a long, negated again and again.
fn negated(draft: &mut Draft, long: u32) {
    let mut node = draft.node(3, Operation::Lit(long));
    for _ in 0..12 {
        node = draft.node(3, Operation::One(One::Neg, node));
    }
    let other = draft.node(3, Operation::Lit(long));
    let less = draft.node(0, Operation::Two(Two::Le, node, other));
    sixteen(draft, Two::And, vec![less]);
}

/// Each of the made values is looked for among as many longs as fit, which are so far apart.
fn shared_made(step: i64) -> Draft {
    greatest(|count| {
        let mut draft = small();
        let last = (0..count).map(|n| draft.value(ValueRow::Long(n as i64 * step))).last().expect("a value");
        negated(&mut draft, last);
        draft
    })
}

fn shared_common_ends() -> Draft {
    let (mut draft, last) = longs_of_sets();
    negated(&mut draft, last);
    common_ends(draft, last)
}

fn shared_sets() -> Draft {
    greatest(|count| {
        let mut draft = small();
        let longs = draft.ty(TypeRow::Set(3));
        let count = 2 * count as u32;
        for n in 0..count {
            draft.value(ValueRow::Long(n as i64));
        }
        let [even, odd] = [0, 1].map(|rest| draft.value(ValueRow::Set((0..count).filter(|n| n % 2 == rest).collect())));
        let leaves = (0..3)
            .map(|_| {
                let [x, y] = [even, odd].map(|v| draft.node(longs, Operation::Lit(v)));
                let any = draft.node(0, Operation::Two(Two::Any, x, y));
                draft.node(0, Operation::One(One::Not, any))
            })
            .collect();
        sixteen(&mut draft, Two::And, leaves);
        draft
    })
}

fn shared_gets() -> Draft {
    greatest(|count| {
        let mut draft = small();
        let texts: Vec<u32> = (0..count).map(|n| draft.text(format!("{n}").as_bytes())).collect();
        let record = draft.ty(TypeRow::Record(texts.iter().map(|t| (*t, true, 0)).collect()));
        let yes = draft.value(ValueRow::Bool(true));
        let v = draft.value(ValueRow::Record(texts.iter().map(|t| (*t, yes)).collect()));
        draft.context = (record, Some(v));
        let last = *texts.last().expect("texts");
        let leaves = (0..5)
            .map(|_| {
                let var = draft.node(record, Operation::Var(Variable::Context));
                draft.node(0, Operation::Get(var, last))
            })
            .collect();
        sixteen(&mut draft, Two::And, leaves);
        draft
    })
}

/// 64 policies over one root of 16 nodes with slots of both letters, each policy with a link of its own.
fn linked() -> Draft {
    let mut draft = small();
    let tariff = draft.alone(2);
    let mut equal = |ty: u32, variable: Variable, slot: Slot| {
        let var = draft.node(ty, Operation::Var(variable));
        let slot = draft.node(ty, Operation::Slot(slot));
        draft.node(0, Operation::Two(Two::Eq, var, slot))
    };
    let mut leaves = vec![equal(2, Variable::Principal, Slot::Principal), equal(tariff, Variable::Resource, Slot::Resource)];
    leaves.extend([equal(2, Variable::Principal, Slot::Principal), equal(tariff, Variable::Resource, Slot::Resource)]);
    let [a, b, c, d] = leaves[..] else { unreachable!() };
    let left = draft.node(0, Operation::Two(Two::And, a, b));
    let right = draft.node(0, Operation::Two(Two::And, c, d));
    let both = draft.node(0, Operation::Two(Two::Or, left, right));
    let root = draft.node(0, Operation::One(One::Not, both));
    for n in 0..64 {
        let id = draft.text(format!("{n}").as_bytes());
        draft.policy(id, true, root);
        let principal = Some(draft.value(ValueRow::Entity(0, id)));
        let resource = Some(draft.value(ValueRow::Entity(2, id)));
        draft.links.push(LinkRow { policy: n, principal, resource });
    }
    draft
}

/// 32 kinds, each with its type alone, all but the action's ordinary.
fn many_kinds() -> Draft {
    let mut draft = small();
    for n in 3..32 {
        let name = draft.text(format!("k{n}").as_bytes());
        draft.kinds.push((name, false));
        draft.shapes.push(ShapeRow { attributes: 1, tags: None, above: Vec::new() });
    }
    for kind in 0..32 {
        draft.alone(kind);
        draft.shapes[kind as usize].above.clear();
    }
    draft
}

/// The kinds that may declare attributes.
fn ordinary_kinds() -> impl Iterator<Item = u32> {
    (0..32).filter(|kind| *kind != 1)
}

/// One haspath over an entity of a type.
fn steps(draft: &mut Draft, ty: u32, path: Vec<u32>) {
    let v = draft.value(ValueRow::Entity(0, 3));
    let lit = draft.node(ty, Operation::Lit(v));
    let root = draft.node(0, Operation::HasPath(lit, path));
    draft.policy(3, true, root);
}

fn steps_in_one_group() -> Draft {
    let mut draft = many_kinds();
    let all = draft.ty(TypeRow::Entity((0..32).collect()));
    let record = draft.ty(TypeRow::Record(vec![(3, false, all)]));
    for kind in ordinary_kinds() {
        draft.shapes[kind as usize].attributes = record;
    }
    steps(&mut draft, all, vec![3; 2000]);
    draft
}

/// Each kind declares the group of all kinds but its own, so that 31 groups of 31 kinds are reached at each step.
fn steps_in_groups() -> Draft {
    let mut draft = many_kinds();
    let mut last = 0;
    for kind in ordinary_kinds() {
        last = draft.ty(TypeRow::Entity((0..32).filter(|other| *other != kind).collect()));
        draft.shapes[kind as usize].attributes = draft.ty(TypeRow::Record(vec![(3, false, last)]));
    }
    longest(draft, last, &[3])
}

/// A path that takes these steps over and over, as often as fits.
fn longest(draft: Draft, ty: u32, path: &[u32]) -> Draft {
    greatest(|count| {
        let mut next = draft.clone();
        steps(&mut next, ty, path.repeat(40 * count));
        next
    })
}

/// Each kind declares itself alone, and the group of itself and the next one: a path goes from all the kinds alone to all those
/// groups and back.
fn steps_between_sets() -> Draft {
    let mut draft = many_kinds();
    let kinds: Vec<u32> = ordinary_kinds().collect();
    for (n, kind) in kinds.iter().enumerate() {
        let mut two = [*kind, kinds[(n + 1) % kinds.len()]];
        two.sort();
        let (alone, two) = (draft.alone(*kind), draft.ty(TypeRow::Entity(two.to_vec())));
        draft.shapes[*kind as usize].attributes = draft.ty(TypeRow::Record(vec![(0, false, alone), (2, false, two)]));
    }
    let all = draft.ty(TypeRow::Entity(kinds));
    longest(draft, all, &[2, 0])
}

/// Each kind declares the next one as text 0, and the next one but for an exchange of the first two as another: a path of both
/// texts in random order permutes the kinds, and nearly every step goes from 24 of them to a set not reached before.
fn steps_over_new_sets(other: u32) -> Draft {
    let mut draft = many_kinds();
    let kinds: Vec<u32> = ordinary_kinds().collect();
    let alone: Vec<u32> = kinds.iter().map(|kind| draft.alone(*kind)).collect();
    for (n, kind) in kinds.iter().enumerate() {
        let next = (n + 1) % alone.len();
        let swapped = if next < 2 { 1 - next } else { next };
        draft.shapes[*kind as usize].attributes =
            draft.ty(TypeRow::Record(vec![(0, false, alone[next]), (other, false, alone[swapped])]));
    }
    let group = draft.ty(TypeRow::Entity(kinds[..24].to_vec()));
    let mut random = Random::of(1, 0);
    let path: Vec<u32> = (0..SHEET_BYTES / 2).map(|_| random.pick(&[0, other])).collect();
    greatest(|count| {
        let mut next = draft.clone();
        steps(&mut next, group, path[..40 * count].to_vec());
        next
    })
}

/// Each of eleven kinds declares the group of all of them and that of the first ten as the last two of 95 attributes. The
/// records of the first ten differ, and the last kind has that of the one before.
fn steps_between_groups() -> Draft {
    let mut draft = small();
    let (to_all, to_ten) = (93, 94);
    for n in 4..=to_ten {
        draft.text(format!("{n}").as_bytes());
    }
    for name in 4..13 {
        draft.kinds.push((name, false));
        draft.shapes.push(ShapeRow { attributes: 1, tags: None, above: Vec::new() });
    }
    let kinds: Vec<u32> = ordinary_kinds().take(11).collect();
    for kind in &kinds {
        draft.alone(*kind);
    }
    let [all, ten] = [11, 10].map(|count| draft.ty(TypeRow::Entity(kinds[..count].to_vec())));
    for (n, kind) in (0..).zip(&kinds) {
        let fields = (0..to_all).map(|t| (t, t == n.min(9), 0)).chain([(to_all, false, all), (to_ten, false, ten)]);
        draft.shapes[*kind as usize].attributes = draft.ty(TypeRow::Record(fields.collect()));
    }
    longest(draft, all, &[to_ten, to_all])
}

/// The kinds of the left group stand above each other, and none of the right group above any of them.
fn pairs_of_kinds() -> Draft {
    let mut draft = many_kinds();
    let (left, right): (Vec<u32>, Vec<u32>) = (0..32).partition(|kind| *kind < 21);
    for kind in &left {
        draft.shapes[*kind as usize].above = left.clone();
    }
    let [low, high] = [left[0], right[0]].map(|kind| draft.value(ValueRow::Entity(kind, 3)));
    let [left, right] = [left, right].map(|kinds| draft.ty(TypeRow::Entity(kinds)));
    repeated(draft, Two::Or, |draft, _| {
        let x = draft.node(left, Operation::Lit(low));
        let y = draft.node(right, Operation::Lit(high));
        draft.node(0, Operation::Two(Two::In, x, y))
    })
}

/// A group of 31 kinds that declare one record of so many attributes: its type, and an entity of it.
fn long_group(count: usize) -> (Draft, u32, u32) {
    let mut draft = many_kinds();
    let texts: Vec<u32> = (0..count).map(|n| draft.text(format!("{n}").as_bytes())).collect();
    let record = draft.ty(TypeRow::Record(texts.iter().map(|t| (*t, false, 0)).collect()));
    for kind in ordinary_kinds() {
        draft.shapes[kind as usize].attributes = record;
    }
    let group = draft.ty(TypeRow::Entity(ordinary_kinds().collect()));
    let v = draft.value(ValueRow::Entity(0, 3));
    (draft, group, v)
}

fn get_in_group() -> Draft {
    let (draft, group, v) = long_group(350);
    let last = draft.texts.len() as u32 - 1;
    repeated(draft, Two::And, |draft, _| {
        let lit = draft.node(group, Operation::Lit(v));
        draft.node(0, Operation::Get(lit, last))
    })
}

/// Whether an entity of a group has what no kind of it declares.
fn has_none(draft: &mut Draft, group: u32, v: u32) -> u32 {
    let lit = draft.node(group, Operation::Lit(v));
    draft.node(0, Operation::Has(lit, 3))
}

fn has_in_group() -> Draft {
    let (draft, group, v) = long_group(400);
    repeated(draft, Two::Or, |draft, _| has_none(draft, group, v))
}

fn shared_has_in_group() -> Draft {
    let (mut draft, group, v) = long_group(475);
    let leaves = (0..5).map(|_| has_none(&mut draft, group, v)).collect();
    sixteen(&mut draft, Two::Or, leaves);
    draft
}

#[cfg(test)]
mod tests {
    use super::*;
    use crate::run;

    #[test]
    fn an_answer_far_longer_than_its_sheet() {
        let made = [shared_made(1), shared_made(1 << 32), shared_common_ends()];
        for draft in [linked(), shared_sets(), shared_gets(), shared_has_in_group()].into_iter().chain(made) {
            assert_eq!((draft.policies.len(), draft.uses()), (64, 1024));
        }
        for long in [Long::Patterns, Long::Paths] {
            let draft = shared_root(long, false);
            assert_eq!((draft.policies.len(), draft.uses()), (64, 1024));
            let answer = run::answer(draft.mode, &draft.bytes()).expect("the sheet is accepted");
            assert!(answer.is_some_and(|answer| answer.len() > 900_000));
        }
    }

    #[test]
    fn as_many_in_as_can_be() {
        for draft in [shared_own_sets(72, 1), shared_own_sets(72, 100)] {
            assert_eq!((draft.policies.len(), draft.uses(), draft.entities.len()), (16, 992, 72));
        }
        for draft in [shared_in_kinds(), shared_all()] {
            assert_eq!((draft.policies.len(), draft.uses()), (16, 992));
        }
    }

    #[test]
    fn all_are_accepted() {
        for (name, mode, sheet) in all() {
            assert!(run::answer(mode, &sheet).is_ok(), "{name}");
        }
    }
}
