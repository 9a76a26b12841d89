//! Sheets and answers as data: nothing of their texts is lost, what the library accepts is read, and no text makes the readers panic.

use std::fmt::Write;
use std::path::{Path, PathBuf};

use openrules::cedar::Expr;
use openrules::sheet::{Effect, Mode, Sheet};
use openrules::{Answer, Class, Decision, Error, Evaluator, Outcome};

fn examples() -> PathBuf {
    Path::new(env!("CARGO_MANIFEST_DIR")).join("../examples")
}

/// The files of a folder with this ending, by name.
fn files(folder: &Path, ending: &str) -> Vec<PathBuf> {
    let entries = std::fs::read_dir(folder).expect("the folder is there").map(|entry| entry.expect("an entry").path());
    let mut found: Vec<PathBuf> = entries.filter(|path| path.extension().is_some_and(|one| one == ending)).collect();
    found.sort();
    found
}

/// The text of an answer, from its data.
fn text_of(sheet: &Sheet, answer: &Answer) -> String {
    let number = |text: &str| sheet.texts.iter().position(|one| one == text).expect("a text of the sheet");
    let mut text = format!("decision={}\ncounts=", answer.decision);
    let counts = [Effect::Permit, Effect::Forbid].into_iter().flat_map(|effect| {
        [Class::True, Class::False, Class::Error, Class::Open].map(|class| answer.counts.of(effect, class).to_string())
    });
    text.push_str(&counts.collect::<Vec<_>>().join(","));
    let why = answer.why.as_ref().map_or("none".to_string(), |why| number(why).to_string());
    writeln!(text, "\nwhy={why}").unwrap();
    answer.values.iter().for_each(|row| writeln!(text, "value={row}").unwrap());
    answer.nodes.iter().for_each(|row| writeln!(text, "node={row}").unwrap());
    for policy in &answer.policies {
        write!(text, "policy={},{},{}", number(&policy.id), policy.effect, policy.class).unwrap();
        policy.root.iter().for_each(|root| write!(text, ",{root}").unwrap());
        text.push('\n');
    }
    text
}

/// The nodes of a tree.
fn size(tree: &Expr) -> usize {
    1 + match tree {
        Expr::Lit(_) | Expr::Err | Expr::Var(_) | Expr::Slot(_) => 0,
        Expr::Unary(_, a) | Expr::Is(a, _) | Expr::Like(a, _) | Expr::Get(a, _) | Expr::Has(a, _) | Expr::HasPath(a, _) => {
            size(a)
        }
        Expr::Binary(_, a, b) => size(a) + size(b),
        Expr::If(a, b, c) => size(a) + size(b) + size(c),
        Expr::Set(all) => all.iter().map(size).sum(),
        Expr::Record(all) => all.iter().map(|(_, one)| size(one)).sum(),
    }
}

/// What the library accepts is read and loses nothing. Whether it was accepted.
fn reads(evaluator: &mut Evaluator, bytes: &[u8]) -> bool {
    let complete = bytes.starts_with(b"sheet=complete\n");
    let outcome = if complete { evaluator.complete(bytes) } else { evaluator.partial(bytes) };
    let Outcome::Answer(written) = outcome else {
        // Whatever the readers make of it, they do not panic.
        if let Ok(sheet) = Sheet::read(bytes) {
            sheet.rules().expect("a sheet that was read has its rules").iter().for_each(|rule| drop(rule.to_string()));
        }
        return false;
    };
    let sheet = Sheet::read(bytes).expect("an accepted sheet is read");
    assert_eq!(sheet.mode == Mode::Complete, complete);
    assert_eq!(sheet.to_string().as_bytes(), bytes);
    let answer = Answer::read(&sheet, written.as_bytes()).expect("an answer is read");
    assert_eq!(text_of(&sheet, &answer), written);
    // Every node stands in one residual, and every residual is printed.
    let trees = answer.policies.iter().filter_map(|policy| policy.residual.as_ref());
    assert_eq!(trees.map(size).sum::<usize>(), answer.nodes.len());
    let rules = sheet.rules().expect("the rules of a sheet that was read");
    assert_eq!(rules.len(), sheet.policies.len());
    let printed = format!("{answer}{}", rules.iter().map(|rule| rule.to_string()).collect::<String>());
    assert!(!printed.contains("?principal") && !printed.contains("?resource"), "{printed}");
    true
}

#[test]
fn the_examples() {
    let mut evaluator = Evaluator::new();
    let sheets = files(&examples(), "sheet");
    assert!(sheets.len() >= 15);
    for path in sheets {
        let bytes = std::fs::read(&path).expect("the sheet is there");
        assert!(reads(&mut evaluator, &bytes), "{}", path.display());
        let sheet = Sheet::read(&bytes).expect("the sheet is read");
        // The answer beside it says the same as the library does now.
        let beside = std::fs::read(path.with_extension("answer")).expect("the answer is there");
        assert_eq!(Answer::read(&sheet, &beside).map_err(Error::from), evaluator.answer(&bytes));
    }
}

#[test]
fn finished_and_previewed() {
    let mut evaluator = Evaluator::new();
    let shown = std::fs::read(examples().join("excluded-goods.sheet")).expect("the sheet is there");
    for (name, decision, why) in [("timber", Decision::Allow, "low band"), ("fireworks", Decision::Deny, "excluded goods")] {
        let filled = std::fs::read(examples().join(format!("excluded-goods-{name}.sheet"))).expect("the sheet is there");
        let sheet = Sheet::read(&filled).expect("the sheet is read");
        let answer = evaluator.finish(&shown, &filled).answer(&sheet).expect("the sheets agree");
        assert_eq!((answer.decision, answer.why.as_deref()), (decision, Some(why)));
        assert_eq!(Ok(answer), evaluator.answer(&filled));
    }
    let form = std::fs::read(examples().join("one-rule-three-brokers.sheet")).expect("the sheet is there");
    let sheet = Sheet::read(&form).expect("the sheet is read");
    let answer = evaluator.preview(&form, 38, b"principal=0,11").answer(&sheet).expect("the line may be tried");
    assert_eq!((answer.decision, answer.why.as_deref()), (Decision::Allow, Some("tariff of b2")));
    // Refusals are those of the library; a page is no answer.
    let refused = evaluator.preview(&form, 38, b"principal=2,11").answer(&sheet).unwrap_err();
    assert_eq!(
        refused.to_string(),
        "refused=12,38,0: the sheet lacks the line, or the replacement breaks a rule or fills nothing"
    );
    assert!(matches!(evaluator.page(&form).answer(&sheet), Err(Error::Unread(_))));
}

/// A few numbers that look random, the same on every run.
struct Random(u64);

impl Random {
    fn below(&mut self, choices: usize) -> usize {
        self.0 = self.0.wrapping_mul(6364136223846793005).wrapping_add(1442695040888963407);
        ((self.0 >> 33) % choices as u64) as usize
    }
}

/// Changes a text in a few places: a byte, an item, a line.
fn spoiled(random: &mut Random, bytes: &[u8]) -> Vec<u8> {
    let mut bytes = bytes.to_vec();
    for _ in 0..=random.below(3) {
        let place = random.below(bytes.len());
        match random.below(6) {
            0 => bytes[place] = b"0123456789,=?-*\n"[random.below(16)],
            1 => bytes[place] = random.below(256) as u8,
            2 => drop(bytes.remove(place)),
            3 => bytes.insert(place, b"0123456789,=?-*\n"[random.below(16)]),
            4 => bytes.truncate(place.max(1)),
            _ => {
                let mut lines: Vec<&[u8]> = bytes.split_inclusive(|byte| *byte == b'\n').collect();
                let (a, b) = (random.below(lines.len()), random.below(lines.len()));
                match random.below(3) {
                    0 => lines.swap(a, b),
                    1 => lines.insert(a, lines[b]),
                    _ => drop(lines.remove(a)),
                }
                bytes = lines.concat();
                if bytes.is_empty() {
                    return bytes;
                }
            }
        }
        if bytes.is_empty() {
            return bytes;
        }
    }
    bytes
}

/// As many spoiled texts as OPENRULES_SPOILED says, else 20,000, half of them sheets and half answers.
#[test]
fn spoiled_texts() {
    let count: usize = std::env::var("OPENRULES_SPOILED").ok().and_then(|count| count.parse().ok()).unwrap_or(20_000);
    let mut evaluator = Evaluator::new();
    let mut random = Random(32);
    let texts: Vec<(Vec<u8>, Sheet, Vec<u8>)> = files(&examples(), "sheet")
        .into_iter()
        .map(|path| {
            let bytes = std::fs::read(&path).expect("the sheet is there");
            let sheet = Sheet::read(&bytes).expect("the sheet is read");
            (bytes, sheet, std::fs::read(path.with_extension("answer")).expect("the answer is there"))
        })
        .collect();
    let mut accepted = 0;
    for _ in 0..count / 2 {
        let (bytes, sheet, written) = &texts[random.below(texts.len())];
        accepted += usize::from(reads(&mut evaluator, &spoiled(&mut random, bytes)));
        let written = spoiled(&mut random, written);
        if let Ok(answer) = Answer::read(sheet, &written) {
            assert_eq!(text_of(sheet, &answer).as_bytes(), written);
            drop(answer.to_string());
        }
    }
    assert!(accepted > count / 100, "{accepted} of {count}");
}

/// The sheets of the folder that OPENRULES_SHEETS names, if it does.
#[test]
fn sheets_of_a_folder() {
    let Some(folder) = std::env::var_os("OPENRULES_SHEETS") else { return };
    let mut evaluator = Evaluator::new();
    let sheets = files(Path::new(&folder), "sheet");
    let accepted = sheets.iter().filter(|path| reads(&mut evaluator, &std::fs::read(path).expect("the sheet is there"))).count();
    println!("{accepted} of {} sheets accepted and read", sheets.len());
    assert!(accepted > 0);
}

/// The line that an edit of a text is at fault for, counted from the first of the new lines, and the reason's last word.
fn fault<T>(text: &str, old: &str, new: &str, read: impl Fn(&[u8]) -> Result<T, openrules::sheet::Fault>) -> (usize, String) {
    let place = text.find(old).unwrap_or_else(|| panic!("{old}"));
    let before = text[..place].matches('\n').count();
    match read(text.replacen(old, new, 1).as_bytes()) {
        Ok(_) => panic!("{new} was read"),
        Err(fault) => (fault.line - before, fault.reason.rsplit(' ').next().unwrap_or_default().to_string()),
    }
}

#[test]
fn faulty_sheets() {
    let text = include_str!("../../examples/one-rule-three-brokers.sheet");
    for (old, new, line, reason) in [
        ("sheet=partial", "sheet=open", 1, "wrong"),
        ("sheet=partial\n", "", 1, "wrong"),
        ("text=Broker", "Broker", 1, "wrong"),
        ("text=Broker", "text=Br\u{7f}oker", 1, "wrong"),
        ("text=Broker", &format!("text={}", "x".repeat(129)), 1, "wrong"),
        ("kind=0,e", "kind=0,x", 1, "wrong"),
        ("kind=0,e", "kind=00,e", 1, "wrong"),
        ("kind=0,e", "kind=+0,e", 1, "wrong"),
        ("kind=0,e", "kind=13,e", 1, "earlier"),
        ("kind=0,e", "kind=0,e\ntext=late", 2, "one"),
        ("type=bool", "type=bool,1", 1, "wrong"),
        ("type=bool", "type=entity", 1, "wrong"),
        ("type=bool", "type=set,0", 1, "earlier"),
        ("type=record,8,r,1", "type=record,8,x,1", 1, "wrong"),
        ("type=record,8,r,1", "type=record,8,r", 1, "wrong"),
        ("shape=3,-", "shape=3,-\nshape=3,-", 2, "one"),
        ("value=long,80", "value=long,-0", 1, "wrong"),
        ("value=long,80", "value=long,9223372036854775808", 1, "wrong"),
        ("value=long,80", "value=bool,2", 1, "wrong"),
        ("value=long,80", "value=set,1", 1, "earlier"),
        ("value=record,8,1", "value=record,8", 1, "wrong"),
        ("entity=0,2,4,3", "entity=0,2,4", 1, "wrong"),
        ("entity=0,2,4,3", "entity=0,2,4,9", 1, "earlier"),
        ("principal=0,?", "principal=0,?\nprincipal=0,?", 2, "one"),
        ("principal=0,?\n", "", 1, "one"),
        ("action=1,3", "action=1,?", 1, "wrong"),
        ("context=4,?", "context=7,?", 1, "earlier"),
        ("day=2026-06-30", "day=2026-06-31", 1, "wrong"),
        ("day=2026-06-30", "day=2100-02-29", 1, "wrong"),
        ("day=2026-06-30", "day=2026-6-30", 1, "wrong"),
        ("node=5,var,r", "node=5,var,x", 1, "wrong"),
        ("node=1,get,0,8", "node=1,get,1,8", 1, "earlier"),
        ("node=1,get,0,8", "node=1,grab,0,8", 1, "wrong"),
        ("node=1,lit,5", "node=1,lit,9", 1, "earlier"),
        ("node=0,le,1,2", "node=0,le,1,1", 1, "twice"),
        ("node=6,slot,p", "node=6,slot,a", 1, "wrong"),
        ("policy=5,permit,7", "policy=5,permit,8", 1, "earlier"),
        ("policy=5,permit,7", "policy=5,permit,6", 1, "twice"),
        ("policy=5,permit,7", "policy=5,perhaps,7", 1, "wrong"),
        ("link=2,8,-\n", "link=3,8,-\n", 1, "earlier"),
        ("link=2,8,-\n", "link=2,8\n", 1, "wrong"),
        ("link=2,8,-\n", "link=2,8,-\nterm=0,2026-01-01,2026-01-32\n", 2, "wrong"),
        ("link=2,8,-\n", "link=2,8,-", 1, "ended"),
    ] {
        assert_eq!(fault(text, old, new, Sheet::read), (line, reason.to_string()), "{new}");
    }
    // `?` stands on a partial sheet only, and what is missing is said with the line after the last
    let complete = text.replace("sheet=partial", "sheet=complete");
    assert_eq!(fault(&complete, "principal=0,?", "principal=0,?", Sheet::read), (1, "wrong".into()));
    assert_eq!(Sheet::read(text.split("day=").next().unwrap().as_bytes()).unwrap_err().to_string(), "line 42: a line is missing");
    // depth 64 is read, 65 is not
    let head = text.split("node=").next().unwrap();
    let deep = |depth: usize| {
        let nots: String = (0..depth - 1).map(|n| format!("node=0,not,{n}\n")).collect();
        format!("{head}node=0,err\n{nots}policy=5,permit,{}\n", depth - 1)
    };
    assert_eq!(Sheet::read(deep(64).as_bytes()).map(|sheet| sheet.nodes.len()), Ok(64));
    assert_eq!(Sheet::read(deep(65).as_bytes()).unwrap_err().reason, "a tree is too deep");
}

#[test]
fn faulty_answers() {
    let sheet = Sheet::read(include_bytes!("../../examples/bands-overlap.sheet")).expect("the sheet is read");
    let text = include_str!("../../examples/bands-overlap.answer");
    for (old, new, line, reason) in [
        ("decision=allow", "decision=maybe", 1, "wrong"),
        ("decision=allow\n", "", 1, "one"),
        ("counts=1,0,0,1,0,0,0,0", "counts=1,0,0,1,0,0,0", 1, "wrong"),
        ("why=5", "why=9", 1, "earlier"),
        ("why=5", "why=nobody", 1, "wrong"),
        ("why=5\n", "", 1, "one"),
        ("why=5\n", "why=5\nwhy=5\n", 2, "one"),
        ("value=bool,1", "value=set,7", 1, "earlier"),
        ("node=0,lit,7", "node=0,lit,8", 1, "earlier"),
        ("node=0,get,1,8", "node=0,get,2,8", 1, "earlier"),
        ("node=0,get,1,8", "node=0,get,0,8", 2, "twice"),
        ("node=0,get,1,8", "node=0,get,1,8\nvalue=bool,0", 2, "one"),
        ("policy=5,permit,true,0", "policy=5,permit,true", 1, "wrong"),
        ("policy=5,permit,true,0", "policy=5,permit,right,0", 1, "wrong"),
        ("policy=5,permit,true,0", "policy=9,permit,true,0", 1, "earlier"),
        ("policy=5,permit,true,0", "policy=5,permit,true,3", 1, "earlier"),
        ("policy=5,permit,true,0", "policy=5,permit,true,1", 1, "twice"),
    ] {
        assert_eq!(fault(text, old, new, |bytes| Answer::read(&sheet, bytes)), (line, reason.to_string()), "{new}");
    }
    assert_eq!(Answer::read(&sheet, b"decision=deny\n").unwrap_err().to_string(), "line 2: a line is missing");
    // the answer to a complete sheet has no roots, nodes and values
    let complete = Sheet::read(include_bytes!("../../examples/bands-overlap-complete.sheet")).expect("the sheet is read");
    assert_eq!(fault(text, "value=bool,1", "value=bool,1", |bytes| Answer::read(&complete, bytes)), (1, "wrong".into()));
}

/// Rows that were made by hand may refer to anything: a fault, and no panic.
#[test]
fn rows_by_hand() {
    use openrules::sheet::{Binary, Node, Operation, Unary, Value};
    let sound =
        Sheet::read(&std::fs::read(examples().join("bands-overlap.sheet")).expect("the sheet is there")).expect("a sheet");
    let with = |change: fn(&mut Sheet)| {
        let mut sheet = sound.clone();
        change(&mut sheet);
        sheet.rules().map(|rules| rules.len())
    };
    assert_eq!(with(|_| {}), Ok(2));
    for change in [
        (|sheet| sheet.policies[0].root = 99) as fn(&mut Sheet),
        |sheet| sheet.policies[0].id = 99,
        |sheet| sheet.nodes[3].operation = Operation::Unary(Unary::Not, 3),
        |sheet| sheet.nodes[0].operation = Operation::Unary(Unary::Not, 3),
        |sheet| sheet.nodes[0].operation = Operation::Lit(99),
        |sheet| sheet.nodes[1].operation = Operation::Is(0, 99),
        |sheet| sheet.values[0] = Value::Set(vec![0]),
        |sheet| sheet.values[0] = Value::Entity { kind: 99, text: 0 },
        |sheet| sheet.links.push(openrules::sheet::Link { policy: 0, principal: Some(99), resource: None }),
        |sheet| sheet.kinds.clear(),
        |sheet| sheet.texts.clear(),
        // Each node twice the one before: more than all memory, if it were a tree.
        |sheet| {
            let twice = |n| Node { ty: 0, operation: Operation::Binary(Binary::And, n, n) };
            sheet.nodes.extend((0..60).map(|n| twice(10 + n)));
            sheet.policies[0].root = 70;
        },
        |sheet| {
            sheet.nodes.extend((0..5000).map(|n| Node { ty: 0, operation: Operation::Unary(Unary::Not, 10 + n) }));
            sheet.policies[0].root = 5010;
        },
        |sheet| {
            sheet.values.extend((0..5000).map(|n| Value::Set(vec![6 + n])));
        },
    ] {
        assert!(with(change).is_err());
    }
}
