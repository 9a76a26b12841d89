//! Cedar text, by cases made by hand: brackets for each pair of operations, escapes, names, and what has no Cedar text.

use openrules::cedar::{Expr, Literal, Rule};
use openrules::sheet::{Binary, Effect, Slot, Unary, Variable};

const P: Expr = Expr::Var(Variable::Principal);
const R: Expr = Expr::Var(Variable::Resource);
const C: Expr = Expr::Var(Variable::Context);

fn two(word: Binary, left: Expr, right: Expr) -> Expr {
    Expr::Binary(word, left.into(), right.into())
}

fn not(operand: Expr) -> Expr {
    Expr::Unary(Unary::Not, operand.into())
}

fn neg(operand: Expr) -> Expr {
    Expr::Unary(Unary::Neg, operand.into())
}

fn long(number: i64) -> Expr {
    Expr::Lit(Literal::Long(number))
}

fn string(text: &str) -> Expr {
    Expr::Lit(Literal::String(text.into()))
}

fn when(test: Expr, yes: Expr, no: Expr) -> Expr {
    Expr::If(test.into(), yes.into(), no.into())
}

fn has_path(operand: Expr, path: &[&str]) -> Expr {
    Expr::HasPath(operand.into(), path.iter().map(|text| (*text).into()).collect())
}

fn like(operand: Expr, pattern: &[Option<&str>]) -> Expr {
    Expr::Like(operand.into(), pattern.iter().map(|item| item.map(Into::into)).collect())
}

/// Every operation, as an operand: a name, the tree, and its text alone.
fn inner() -> Vec<(&'static str, Expr, &'static str)> {
    vec![
        ("if", when(P, R, C), "if principal then resource else context"),
        ("or", two(Binary::Or, P, R), "principal || resource"),
        ("and", two(Binary::And, P, R), "principal && resource"),
        ("eq", two(Binary::Eq, P, R), "principal == resource"),
        ("lt", two(Binary::Lt, P, R), "principal < resource"),
        ("le", two(Binary::Le, P, R), "principal <= resource"),
        ("in", two(Binary::In, P, R), "principal in resource"),
        ("ne", not(two(Binary::Eq, P, R)), "principal != resource"),
        ("ge", not(two(Binary::Lt, P, R)), "principal >= resource"),
        ("gt", not(two(Binary::Le, P, R)), "principal > resource"),
        ("is", Expr::Is(P.into(), "Broker".into()), "principal is Broker"),
        ("like", like(P, &[Some("a"), None]), "principal like \"a*\""),
        ("has", Expr::Has(P.into(), "a".into()), "principal has a"),
        ("haspath", has_path(P, &["a", "b"]), "principal has a.b"),
        ("add", two(Binary::Add, P, R), "principal + resource"),
        ("sub", two(Binary::Sub, P, R), "principal - resource"),
        ("mul", two(Binary::Mul, P, R), "principal * resource"),
        ("not", not(P), "!principal"),
        ("neg", neg(P), "-principal"),
        ("minus", long(-1), "-1"),
        ("get", Expr::Get(P.into(), "a".into()), "principal.a"),
        ("index", Expr::Get(P.into(), "a b".into()), "principal[\"a b\"]"),
        ("gettag", two(Binary::GetTag, P, R), "principal.getTag(resource)"),
        ("hastag", two(Binary::HasTag, P, R), "principal.hasTag(resource)"),
        ("contains", two(Binary::Contains, P, R), "principal.contains(resource)"),
        ("all", two(Binary::All, P, R), "principal.containsAll(resource)"),
        ("any", two(Binary::Any, P, R), "principal.containsAny(resource)"),
        ("empty", Expr::Unary(Unary::Empty, P.into()), "principal.isEmpty()"),
        ("set", Expr::Set(vec![P, R]), "[principal, resource]"),
        ("record", Expr::Record(vec![("a".into(), P)]), "{\"a\": principal}"),
        ("long", long(1), "1"),
        ("string", string("s"), "\"s\""),
        ("bool", Expr::Lit(Literal::Bool(true)), "true"),
        ("entity", Expr::Lit(Literal::Entity { kind: "K".into(), id: "i".into() }), "K::\"i\""),
        ("var", C, "context"),
        ("slot", Expr::Slot(Slot::Principal), "?principal"),
        ("err", Expr::Err, "error()"),
    ]
}

type Outer = fn(Expr) -> Expr;

/// Where an operand stands: the text around it, and the operations that need brackets there.
fn places() -> Vec<(&'static str, Outer, &'static str)> {
    let mut places: Vec<(&'static str, Outer, &'static str)> = vec![
        ("_ || context", |e| two(Binary::Or, e, C), "if"),
        ("context || _", |e| two(Binary::Or, C, e), "if or"),
        ("_ && context", |e| two(Binary::And, e, C), "if or"),
        ("context && _", |e| two(Binary::And, C, e), "if or and"),
    ];
    let relation = "if or and eq lt le in ne ge gt is like has haspath";
    places.extend([
        ("_ == context", (|e| two(Binary::Eq, e, C)) as Outer, relation),
        ("context == _", |e| two(Binary::Eq, C, e), relation),
        ("_ < context", |e| two(Binary::Lt, e, C), relation),
        ("context < _", |e| two(Binary::Lt, C, e), relation),
        ("_ <= context", |e| two(Binary::Le, e, C), relation),
        ("context <= _", |e| two(Binary::Le, C, e), relation),
        ("_ in context", |e| two(Binary::In, e, C), relation),
        ("context in _", |e| two(Binary::In, C, e), relation),
        ("_ != context", |e| not(two(Binary::Eq, e, C)), relation),
        ("context != _", |e| not(two(Binary::Eq, C, e)), relation),
        ("_ >= context", |e| not(two(Binary::Lt, e, C)), relation),
        ("context >= _", |e| not(two(Binary::Lt, C, e)), relation),
        ("_ > context", |e| not(two(Binary::Le, e, C)), relation),
        ("context > _", |e| not(two(Binary::Le, C, e)), relation),
        ("_ is K", |e| Expr::Is(e.into(), "K".into()), relation),
        ("_ like \"*\"", |e| like(e, &[None]), relation),
        ("_ has a", |e| Expr::Has(e.into(), "a".into()), relation),
        ("_ has \"a b\"", |e| Expr::Has(e.into(), "a b".into()), relation),
        ("_ has a.b", |e| has_path(e, &["a", "b"]), relation),
    ]);
    places.extend([
        ("_ + context", (|e| two(Binary::Add, e, C)) as Outer, relation),
        ("context + _", |e| two(Binary::Add, C, e), "if or and eq lt le in ne ge gt is like has haspath add sub"),
        ("_ - context", |e| two(Binary::Sub, e, C), relation),
        ("context - _", |e| two(Binary::Sub, C, e), "if or and eq lt le in ne ge gt is like has haspath add sub"),
        ("_ * context", |e| two(Binary::Mul, e, C), "if or and eq lt le in ne ge gt is like has haspath add sub"),
        ("context * _", |e| two(Binary::Mul, C, e), "if or and eq lt le in ne ge gt is like has haspath add sub mul"),
        ("-_", neg, "if or and eq lt le in ne ge gt is like has haspath add sub mul not neg minus long"),
    ]);
    let member = "if or and eq lt le in ne ge gt is like has haspath add sub mul not neg minus";
    places.extend([
        ("_.a", (|e| Expr::Get(e.into(), "a".into())) as Outer, member),
        ("_[\"a b\"]", |e| Expr::Get(e.into(), "a b".into()), member),
        ("_.getTag(context)", |e| two(Binary::GetTag, e, C), member),
        ("_.hasTag(context)", |e| two(Binary::HasTag, e, C), member),
        ("_.contains(context)", |e| two(Binary::Contains, e, C), member),
        ("_.containsAll(context)", |e| two(Binary::All, e, C), member),
        ("_.containsAny(context)", |e| two(Binary::Any, e, C), member),
        ("_.isEmpty()", |e| Expr::Unary(Unary::Empty, e.into()), member),
        ("context.getTag(_)", |e| two(Binary::GetTag, C, e), ""),
        ("context.hasTag(_)", |e| two(Binary::HasTag, C, e), ""),
        ("context.contains(_)", |e| two(Binary::Contains, C, e), ""),
        ("context.containsAll(_)", |e| two(Binary::All, C, e), ""),
        ("context.containsAny(_)", |e| two(Binary::Any, C, e), ""),
        ("if _ then context else context", |e| when(e, C, C), ""),
        ("if context then _ else context", |e| when(C, e, C), ""),
        ("if context then context else _", |e| when(C, C, e), ""),
        ("[_, context]", |e| Expr::Set(vec![e, C]), ""),
        ("[context, _]", |e| Expr::Set(vec![C, e]), ""),
        ("{\"b\": _}", |e| Expr::Record(vec![("b".into(), e)]), ""),
    ]);
    places
}

#[test]
fn brackets_of_each_pair() {
    for (name, tree, alone) in inner() {
        assert_eq!(tree.to_string(), alone);
        for (around, outer, bracketed) in places() {
            let needed = bracketed.split(' ').any(|one| one == name);
            let operand = if needed { format!("({alone})") } else { alone.to_string() };
            assert_eq!(outer(tree.clone()).to_string(), around.replace('_', &operand), "{name} in {around}");
        }
    }
}

/// `!` of a relation is its opposite where Cedar has one.
#[test]
fn negations() {
    let bracketed = "if or and in ne ge gt is like has haspath add sub mul not neg minus";
    let opposites = [("eq", "principal != resource"), ("lt", "principal >= resource"), ("le", "principal > resource")];
    for (name, tree, alone) in inner() {
        let wanted = match opposites.iter().find(|(one, _)| *one == name) {
            Some((_, text)) => text.to_string(),
            None if bracketed.split(' ').any(|one| one == name) => format!("!({alone})"),
            None => format!("!{alone}"),
        };
        assert_eq!(not(tree).to_string(), wanted, "{name}");
    }
    assert_eq!(not(not(not(two(Binary::Eq, P, R)))).to_string(), "!(!(principal != resource))");
}

#[test]
fn longer_trees() {
    let (a, b, c, d) = (|| P, || R, || C, || Expr::Var(Variable::Action));
    let or = |x, y| two(Binary::Or, x, y);
    let and = |x, y| two(Binary::And, x, y);
    let sub = |x, y| two(Binary::Sub, x, y);
    for (tree, text) in [
        (or(or(a(), b()), c()), "principal || resource || context"),
        (or(a(), or(b(), c())), "principal || (resource || context)"),
        (or(and(a(), b()), and(c(), d())), "principal && resource || context && action"),
        (and(or(a(), b()), or(c(), d())), "(principal || resource) && (context || action)"),
        (and(and(a(), b()), and(c(), d())), "principal && resource && (context && action)"),
        (sub(sub(a(), b()), sub(c(), d())), "principal - resource - (context - action)"),
        (sub(a(), long(-5)), "principal - -5"),
        (neg(long(5)), "-(5)"),
        (neg(long(i64::MIN)), "-(-9223372036854775808)"),
        (neg(neg(a())), "-(-principal)"),
        (two(Binary::Mul, long(-2), neg(a())), "-2 * -principal"),
        (two(Binary::Le, two(Binary::Add, a(), long(1)), two(Binary::Mul, b(), long(2))), "principal + 1 <= resource * 2"),
        (and(not(Expr::Has(a().into(), "b".into())), not(or(b(), c()))), "!(principal has b) && !(resource || context)"),
        (
            when(when(a(), b(), c()), a(), when(b(), c(), d())),
            "if if principal then resource else context then principal else if resource then context else action",
        ),
        (
            Expr::Get(Expr::Get(when(a(), b(), c()).into(), "x".into()).into(), "y z".into()),
            "(if principal then resource else context).x[\"y z\"]",
        ),
        (
            two(Binary::Contains, Expr::Set(vec![string("a"), string("b")]), Expr::Get(c().into(), "goods".into())),
            "[\"a\", \"b\"].contains(context.goods)",
        ),
    ] {
        assert_eq!(tree.to_string(), text);
    }
}

#[test]
fn escapes() {
    for (text, quoted) in [
        ("", r#""""#),
        ("plain text", r#""plain text""#),
        ("say \"so\"", r#""say \"so\"""#),
        ("back\\slash", r#""back\\slash""#),
        ("it's", r#""it\'s""#),
        ("a*b", r#""a*b""#),
        ("\\*", r#""\\*""#),
        ("// no comment", r#""// no comment""#),
        ("{?principal};", r#""{?principal};""#),
        ("\n\t\r\0", r#""\n\t\r\0""#),
        ("\u{7f}", r#""\u{7f}""#),
    ] {
        assert_eq!(string(text).to_string(), quoted);
        assert_eq!(Expr::Lit(Literal::Entity { kind: "K".into(), id: text.into() }).to_string(), format!("K::{quoted}"));
        assert_eq!(Expr::Record(vec![(text.into(), long(1))]).to_string(), format!("{{{quoted}: 1}}"));
        let record = Literal::Record([(text.into(), Literal::Bool(false))].into());
        assert_eq!(record.to_string(), format!("{{{quoted}: false}}"));
        let rule = Rule { id: text.into(), effect: Effect::Forbid, condition: C };
        assert_eq!(rule.to_string(), format!("@id({quoted})\nforbid(principal, action, resource) when {{ context }};"));
    }
}

#[test]
fn patterns() {
    for (pattern, text) in [
        (&[][..], r#""""#),
        (&[None], r#""*""#),
        (&[None, None], r#""**""#),
        (&[Some("a"), None, Some("b")], r#""a*b""#),
        (&[Some("*")], r#""\*""#),
        (&[Some("a*b"), None], r#""a\*b*""#),
        (&[Some("\\*"), None], r#""\\\**""#),
        (&[Some("\"q\"")], r#""\"q\"""#),
        (&[Some("a"), Some("b")], r#""ab""#),
        (&[Some("")], r#""""#),
    ] {
        assert_eq!(like(P, pattern).to_string(), format!("principal like {text}"));
    }
}

#[test]
fn names() {
    for (name, get, has) in [
        ("insured", "context.insured", "context has insured"),
        ("_a1", "context._a1", "context has _a1"),
        ("principal", "context.principal", "context has principal"),
        ("Error", "context.Error", "context has Error"),
        ("low band", "context[\"low band\"]", "context has \"low band\""),
        ("", "context[\"\"]", "context has \"\""),
        ("1st", "context[\"1st\"]", "context has \"1st\""),
        ("a-b", "context[\"a-b\"]", "context has \"a-b\""),
        ("a.b", "context[\"a.b\"]", "context has \"a.b\""),
        ("\"", "context[\"\\\"\"]", "context has \"\\\"\""),
        ("if", "context[\"if\"]", "context has \"if\""),
        ("then", "context[\"then\"]", "context has \"then\""),
        ("else", "context[\"else\"]", "context has \"else\""),
        ("true", "context[\"true\"]", "context has \"true\""),
        ("false", "context[\"false\"]", "context has \"false\""),
        ("in", "context[\"in\"]", "context has \"in\""),
        ("is", "context[\"is\"]", "context has \"is\""),
        ("has", "context[\"has\"]", "context has \"has\""),
        ("like", "context[\"like\"]", "context has \"like\""),
        ("__cedar", "context[\"__cedar\"]", "context has \"__cedar\""),
    ] {
        assert_eq!(Expr::Get(C.into(), name.into()).to_string(), get);
        assert_eq!(Expr::Has(C.into(), name.into()).to_string(), has);
        assert_eq!(has_path(C, &[name]).to_string(), has);
    }
    for (kind, is, literal) in [
        ("Broker", "context is Broker", "Broker::\"b\""),
        ("Carrier::Broker", "context is Carrier::Broker", "Carrier::Broker::\"b\""),
        ("my kind", "context is kind(\"my kind\")", "entity(\"my kind\", \"b\")"),
        ("", "context is kind(\"\")", "entity(\"\", \"b\")"),
        ("A::", "context is kind(\"A::\")", "entity(\"A::\", \"b\")"),
        ("A::in", "context is kind(\"A::in\")", "entity(\"A::in\", \"b\")"),
        ("A || B", "context is kind(\"A || B\")", "entity(\"A || B\", \"b\")"),
    ] {
        assert_eq!(Expr::Is(C.into(), kind.into()).to_string(), is);
        assert_eq!(Literal::Entity { kind: kind.into(), id: "b".into() }.to_string(), literal);
    }
    for (path, text) in [
        (&["a", "b", "c"][..], "context has a.b.c"),
        (&["a", "b c", "d"], "context has a[\"b c\"].d"),
        (&["a b", "c"], "context has \"a b\".c"),
    ] {
        assert_eq!(has_path(C, path).to_string(), text);
    }
}

#[test]
fn slots_and_errors() {
    let rule = Rule {
        id: "of ?principal".into(),
        effect: Effect::Permit,
        condition: two(
            Binary::And,
            two(Binary::Eq, P, Expr::Slot(Slot::Principal)),
            two(Binary::In, R, Expr::Slot(Slot::Resource)),
        ),
    };
    assert_eq!(
        rule.to_string(),
        "@id(\"of ?principal\")\npermit(principal, action, resource) when { principal == ?principal && resource in ?resource };"
    );
    let left = two(Binary::And, Expr::Get(C.into(), "a".into()), two(Binary::Lt, Expr::Err, long(1)));
    assert_eq!(left.to_string(), "context.a && error() < 1");
}

/// Values that share parts: what would have 2^60 parts is left out, and no time is lost on it.
#[test]
fn vast_literals() {
    let double = |one: &Literal| Literal::Record([("a".into(), one.clone()), ("b".into(), one.clone())].into());
    let mut literal = Literal::Long(1);
    for _ in 0..60 {
        literal = double(&literal);
    }
    assert_eq!(literal.to_string(), "elided()");
    assert_eq!(two(Binary::Eq, C, Expr::Lit(literal)).to_string(), "context == elided()");
    let most = Literal::Set(vec![Literal::Long(7); 1023].into());
    assert_eq!(most.to_string(), format!("[{}]", ["7"; 1023].join(", ")));
    assert_eq!(Literal::Set(vec![Literal::Long(7); 1024].into()).to_string(), "elided()");
}
