//! The builder keeps to the form of a sheet.

use openrules::sheet::builder::{Builder, Fault, Field, Operation, Tree, Type, Uid, Value, DEPTH};
use openrules::sheet::{self, Binary, Day, Effect, Mode, Sheet, Slot, Unary, Variable};
use openrules::Evaluator;
use std::collections::BTreeMap;

const DAY: Day = Day { year: 2026, month: 6, day: 30 };

fn entity(kind: &str) -> Type {
    Type::Entity(vec![kind.into()])
}

fn truth(truth: bool) -> Tree {
    Tree::lit(Type::Bool, Value::Bool(truth))
}

/// Declares what is used, and adds a request.
fn finish(mut builder: Builder) -> Result<Sheet, Fault> {
    builder.request(("User", Some("ann")), ("Action", "read"), ("Doc", Some("d1")))?;
    builder.context(&Type::record(), Some(&Value::Record(BTreeMap::new())))?;
    builder.day(DAY);
    builder.action_kind("Action", &[])?;
    while let Some(kind) = builder.undeclared().map(str::to_string) {
        builder.entity_kind(&kind, &Type::record(), None, &[])?;
    }
    builder.finish()
}

fn decision(sheet: &Sheet) -> String {
    let text = sheet.to_string();
    let answer = Evaluator::new().complete(text.as_bytes()).result().map(str::to_string);
    answer.unwrap_or_else(|refusal| panic!("{refusal}\n{text}")).lines().next().unwrap_or("").into()
}

#[test]
fn rows_are_distinct_and_ascending() {
    let mut builder = Builder::new(Mode::Complete);
    let number = |value: i64| Value::Long(value);
    let set = builder.value(&Value::Set(vec![number(2), number(1), number(2)])).unwrap();
    assert_eq!(builder.value(&Value::Set(vec![number(1), number(2)])), Ok(set));
    let fields = ["b", "a"].map(|name| (name.to_string(), Field { required: true, ty: Type::Long }));
    let record = builder.ty(&Type::Record(fields.into_iter().collect())).unwrap();
    let group = builder.ty(&Type::Entity(vec!["User".into(), "Doc".into(), "User".into()])).unwrap();
    let sheet = finish(builder).unwrap();
    assert_eq!(sheet.values[set], sheet::Value::Set(vec![0, 1]));
    assert_eq!(sheet.types[record].to_string(), "record,0,r,0,1,r,0");
    assert_eq!(sheet.types[group], sheet::Type::Entity(vec![0, 1]));
    // A group needs the lines of its kinds alone.
    assert_eq!(sheet.types[group - 2..group], [sheet::Type::Entity(vec![0]), sheet::Type::Entity(vec![1])]);
    assert_eq!(decision(&sheet), "decision=deny");
    assert_eq!(Sheet::read(sheet.to_string().as_bytes()), Ok(sheet));
}

#[test]
fn one_root_for_several_links() {
    let mut builder = Builder::new(Mode::Complete);
    let slot = Tree { ty: entity("User"), operation: Operation::Slot(Slot::Principal) };
    let tree = Tree::binary(Binary::Eq, Type::Bool, Tree::var(entity("User"), Variable::Principal), slot);
    let root = builder.tree(&tree).unwrap();
    for who in ["ann", "bob"] {
        let policy = builder.policy(who, Effect::Permit, root).unwrap();
        builder.link(policy, Some(&Uid::new("User", who)), None).unwrap();
    }
    assert_eq!(builder.policy("ann", Effect::Permit, root), Err(Fault::Repeat { what: "the policy \"ann\"".into() }));
    assert!(builder.link(0, None, None).is_err());
    assert_eq!(builder.policy("none", Effect::Permit, 9), Err(Fault::Lacking { what: "such root" }));
}

#[test]
fn room() {
    let mut builder = Builder::new(Mode::Complete);
    assert_eq!(builder.text("\n"), Err(Fault::Byte { text: "\n".into() }));
    assert_eq!((0..600).find_map(|n| builder.text(&n.to_string()).err()), Some(Fault::Many { what: "texts", most: 512 }));
    let mut builder = Builder::new(Mode::Complete);
    assert_eq!((0..40).map(|n| builder.kind(&n.to_string()).is_ok()).filter(|ok| *ok).count(), 32);
    assert_eq!((0..2000).map(|n| builder.value(&Value::Long(n)).is_ok()).filter(|ok| *ok).count(), 1024);
    let root = builder.tree(&truth(true)).unwrap_err();
    assert_eq!(root, Fault::Many { what: "values", most: 1024 });

    let mut builder = Builder::new(Mode::Complete);
    let wide = Tree { ty: Type::Set(Box::new(Type::Bool)), operation: Operation::Set(vec![truth(true); 15]) };
    let root = builder.tree(&Tree::unary(Unary::Empty, Type::Bool, wide)).unwrap();
    let policies = (0..65).map(|n| builder.policy(&n.to_string(), Effect::Permit, root)).collect::<Vec<_>>();
    // 17 nodes, 60 times, are 1,020 uses.
    assert_eq!(policies.iter().filter(|policy| policy.is_ok()).count(), 60);
    assert!(matches!(policies[60], Err(Fault::Many { most: 1024, .. })));
    let mut builder = Builder::new(Mode::Complete);
    let root = builder.tree(&truth(true)).unwrap();
    let policies = (0..65).map(|n| builder.policy(&n.to_string(), Effect::Permit, root)).collect::<Vec<_>>();
    assert_eq!(policies[64], Err(Fault::Many { what: "policies", most: 64 }));
    assert_eq!(decision(&finish(builder).unwrap()), "decision=allow");
}

#[test]
fn depth() {
    let nots = |count: usize| (1..count).fold(truth(true), |tree, _| Tree::unary(Unary::Not, Type::Bool, tree));
    let mut builder = Builder::new(Mode::Complete);
    let root = builder.tree(&nots(DEPTH)).unwrap();
    builder.policy("p", Effect::Permit, root).unwrap();
    assert_eq!(decision(&finish(builder).unwrap()), "decision=deny");
    assert_eq!(Builder::new(Mode::Complete).tree(&nots(DEPTH + 1)), Err(Fault::Deep));
    let sets = |count: usize| (1..count).fold(Type::Bool, |ty, _| Type::Set(Box::new(ty)));
    assert!(Builder::new(Mode::Complete).ty(&sets(DEPTH)).is_ok());
    assert_eq!(Builder::new(Mode::Complete).ty(&sets(DEPTH + 1)), Err(Fault::Deep));
    let values = |count: usize| (1..count).fold(Value::Bool(true), |value, _| Value::Set(vec![value]));
    assert_eq!(Builder::new(Mode::Complete).value(&values(DEPTH + 1)), Err(Fault::Deep));
}

#[test]
fn what_is_lacking() {
    assert_eq!(Builder::new(Mode::Partial).finish(), Err(Fault::Lacking { what: "request" }));
    let mut builder = Builder::new(Mode::Partial);
    builder.kind("User").unwrap();
    assert_eq!(builder.finish(), Err(Fault::NoKind { name: "User".into() }));
    let mut builder = Builder::new(Mode::Complete);
    (0..200).for_each(|n| {
        builder.text(&format!("{n:0>120}")).unwrap();
    });
    assert!(matches!(finish(builder), Err(Fault::Long { bytes }) if bytes > 16384));
    let mut builder = Builder::new(Mode::Complete);
    builder.entity(&Uid::new("User", "ann"), None, None, None).unwrap();
    assert!(matches!(builder.entity(&Uid::new("User", "ann"), None, None, None), Err(Fault::Repeat { .. })));
}
