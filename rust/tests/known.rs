//! Known sheets through the safe crate: the worked input of the program, every form of refusal that it can meet, and what the
//! calls leave in the slices that they are lent.

use openrules::{
    complete, finish, firm, page, partial, preview, test_load, Decision, Evaluator, Outcome, Refusal, Row, ANSWER as LONGEST,
    PAGE, POLICIES, ROWS, SHEET as GREATEST, WORDS,
};

/// The worked input, one principal unknown, and its answer.
const SHEET: &str = include_str!("../../crates/openrules/stdin");
const ANSWER: &str = include_str!("../../crates/openrules/stdout");

fn refused(number: u32, line: usize, length: usize) -> Outcome<'static> {
    Outcome::Refused(Refusal { number, line, length })
}

/// The same sheet with the broker, the context and the entry made known.
fn known(broker: usize) -> String {
    SHEET
        .replace("sheet=partial", "sheet=complete")
        .replace("value=bool,1\n", "value=bool,1\nvalue=record\n")
        .replace("principal=0,?", &format!("principal=0,{broker}"))
        .replace("context=1,?", "context=1,2")
}

#[test]
fn worked_input() {
    let mut evaluator = Evaluator::new();
    assert_eq!(evaluator.partial(SHEET.as_bytes()), Outcome::Answer(ANSWER));
    // the slices of a call serve the next one
    assert_eq!(evaluator.partial(SHEET.as_bytes()).result(), Ok(ANSWER));
}

#[test]
fn complete_sheets() {
    let mut evaluator = Evaluator::default();
    let low = "decision=allow\ncounts=2,0,0,0,0,0,0,0\nwhy=5\npolicy=5,permit,true\npolicy=6,permit,true\n";
    assert_eq!(evaluator.complete(known(7).as_bytes()), Outcome::Answer(low));
    let other = "decision=allow\ncounts=1,1,0,0,0,0,0,0\nwhy=6\npolicy=5,permit,false\npolicy=6,permit,true\n";
    assert_eq!(evaluator.complete(known(4).as_bytes()), Outcome::Answer(other));
}

/// Decision and name of a sheet of either sort.
fn named(evaluator: &mut Evaluator, sheet: &str) -> (String, String) {
    let outcome = if sheet.starts_with("sheet=complete") {
        evaluator.complete(sheet.as_bytes())
    } else {
        evaluator.partial(sheet.as_bytes())
    };
    let answer = outcome.result().expect("the sheet is accepted");
    let mut items = answer.lines().map(|line| line.split_once('=').expect("a line has an `=`").1.to_string());
    (items.next().expect("a decision"), items.nth(1).expect("a name"))
}

#[test]
fn which_rule_gave_it() {
    let mut evaluator = Evaluator::new();
    let first = |sheet: &str| sheet.replace("policy=5,permit", "policy=5,forbid");
    let second = |sheet: &str| sheet.replace("policy=6,permit", "policy=6,forbid");
    let off = |sheet: &str| format!("{sheet}term=1,2199-12-30,2199-12-31\n");
    let turned = |sheet: &str| sheet.replace("policy=5,permit,2\npolicy=6,permit,3\n", "policy=6,permit,3\npolicy=5,permit,2\n");
    for (sheet, decision, name) in [
        (SHEET.to_string(), "allow", "6"),
        // a true forbid, not the permit
        (second(SHEET), "deny", "6"),
        // a permit is true, but a forbid open
        (first(SHEET), "open", "none"),
        // nothing permits, whatever the open forbid is
        (first(&off(SHEET)), "deny", "none"),
        (off(SHEET), "open", "none"),
        (known(4), "allow", "6"),
        (off(&known(4)), "deny", "none"),
        (first(&known(7)), "deny", "5"),
        // both gave it: the first in the sheet's order, not the lowest id
        (known(7), "allow", "5"),
        (turned(&known(7)), "allow", "6"),
        (first(&second(&known(7))), "deny", "5"),
        (first(&second(&turned(&known(7)))), "deny", "6"),
        // a policy off term gave nothing
        (off(&known(7)), "allow", "5"),
        (off(&turned(&known(7))), "allow", "6"),
    ] {
        assert_eq!(named(&mut evaluator, &sheet), (decision.to_string(), name.to_string()), "{sheet}");
    }
}

#[test]
fn a_partial_sheet_does_not_settle_the_name() {
    let mut evaluator = Evaluator::new();
    // rule 5, which stands first, is open and may still turn true; the decision stays
    for (sheet, name) in [(SHEET.to_string(), "6"), (known(7), "5"), (known(4), "6")] {
        assert_eq!(named(&mut evaluator, &sheet), ("allow".to_string(), name.to_string()));
    }
    // the same with the form of examples/
    for (sheet, name) in [
        (include_str!("../../examples/name-not-settled.sheet"), "5"),
        (include_str!("../../examples/name-not-settled-insured.sheet"), "6"),
        (include_str!("../../examples/name-not-settled-uninsured.sheet"), "5"),
    ] {
        assert_eq!(named(&mut evaluator, sheet), ("allow".to_string(), name.to_string()));
    }
}

#[test]
fn refusals() {
    let mut evaluator = Evaluator::new();
    assert_eq!(evaluator.partial(b""), refused(3, 1, 0));
    assert_eq!(evaluator.complete(SHEET.as_bytes()), refused(3, 1, 0));
    assert_eq!(evaluator.partial(known(7).as_bytes()), refused(3, 1, 0));
    assert_eq!(evaluator.partial(&vec![b'x'; 16385]), refused(2, 0, 0));
    assert_eq!(
        evaluator.partial(SHEET.replace("principal=0,?\n", "principal=0,?\nprincipal=0,?\n").as_bytes()),
        refused(4, 22, 0)
    );
    assert_eq!(evaluator.partial(SHEET.replace("node=0,lit,1", "node=0,lit,2").as_bytes()), refused(5, 29, 0));
    assert_eq!(evaluator.partial(SHEET.replace("node=0,lit,1", "node=0,lit,0").as_bytes()), refused(7, 29, 0));
    assert_eq!(evaluator.partial(SHEET.replace("policy=6,permit,3\n", "").as_bytes()), refused(8, 29, 0));
}

#[test]
fn days_and_terms() {
    let mut evaluator = Evaluator::new();
    let line = SHEET.lines().find(|line| line.starts_with("day=")).expect("every sheet has a day");
    let day = &line[4..];
    let with = |lines: &str| SHEET.replace(line, lines);
    assert_eq!(evaluator.partial(SHEET.replace(&format!("{line}\n"), "").as_bytes()), refused(3, 25, 0));
    assert_eq!(evaluator.partial(with("day=2100-02-29").as_bytes()), refused(3, 25, 0));
    assert_eq!(evaluator.partial(with("day=2000-02-29\nday=2000-02-29").as_bytes()), refused(4, 26, 0));
    // both edge days belong to the term
    let term = |policy: usize, first: &str, last: &str| format!("{SHEET}term={policy},{first},{last}\n");
    for (first, last) in [(day, day), (day, "2199-12-31"), ("1900-01-01", day)] {
        assert_eq!(evaluator.partial(term(1, first, last).as_bytes()), Outcome::Answer(ANSWER));
    }
    // off term, the rule that was true has no part in the answer
    let open =
        "decision=open\ncounts=0,0,0,1,0,0,0,0\nwhy=none\nnode=2,var,p\nnode=2,lit,0\nnode=0,eq,0,1\npolicy=5,permit,open,2\n";
    assert_eq!(evaluator.partial(term(1, "2199-12-30", "2199-12-31").as_bytes()), Outcome::Answer(open));
    assert_eq!(evaluator.partial(term(2, "1900-01-01", "2199-12-31").as_bytes()), refused(5, 32, 0));
    assert_eq!(evaluator.partial(term(1, "2000-02-29", "2000-02-28").as_bytes()), refused(5, 32, 0));
    assert_eq!(evaluator.partial(term(1, "2000-02-30", "2000-02-29").as_bytes()), refused(3, 32, 0));
}

#[test]
fn templates() {
    let mut evaluator = Evaluator::new();
    // the same rule, with a slot where its broker stood
    let template = SHEET.replace("node=2,lit,0", "node=2,slot,p");
    let with = |link: &str| format!("{template}{link}\n");
    assert_eq!(evaluator.partial(with("link=0,0,-").as_bytes()), Outcome::Answer(ANSWER));
    assert_eq!(evaluator.partial(template.as_bytes()), refused(5, 30, 0));
    for (link, number) in
        [("link=0,?,-", 3), ("link=0,-,-", 5), ("link=0,0,0", 5), ("link=1,0,-", 5), ("link=2,0,-", 5), ("link=0,1,-", 7)]
    {
        assert_eq!(evaluator.partial(with(link).as_bytes()), refused(number, 32, 0), "{link}");
    }
    // one root, two policies, each with its own link
    let shared = template.replace("node=0,lit,1\n", "").replace("policy=6,permit,3", "policy=6,permit,2");
    assert_eq!(evaluator.partial(format!("{shared}link=0,0,-\n").as_bytes()), refused(5, 30, 0));
    let both = "decision=open\ncounts=0,0,0,2,0,0,0,0\nwhy=none\nnode=2,var,p\nnode=2,lit,0\nnode=0,eq,0,1\nnode=2,var,p\nnode=2,lit,0\n\
                node=0,eq,3,4\npolicy=5,permit,open,2\npolicy=6,permit,open,5\n";
    assert_eq!(evaluator.partial(format!("{shared}link=0,0,-\nlink=1,0,-\n").as_bytes()), Outcome::Answer(both));
    // a root that a node uses
    let used =
        SHEET.replace("policy=6,permit,3", "policy=6,permit,4").replace("node=0,lit,1\n", "node=0,lit,1\nnode=0,and,2,3\n");
    assert_eq!(evaluator.partial(used.as_bytes()), refused(8, 31, 0));
}

#[test]
fn groups() {
    let mut evaluator = Evaluator::new();
    let with = |lines: &str| SHEET.replace("type=entity,0\n", &format!("type=entity,0\n{lines}"));
    for (line, number) in [
        ("type=entity\n", 3),
        ("type=entity,\n", 3),
        ("type=entity,0\n", 5),
        ("type=entity,0,0\n", 5),
        ("type=entity,0,3\n", 5),
        ("type=entity,0,2\n", 5),
    ] {
        assert_eq!(evaluator.partial(with(line).as_bytes()), refused(number, 16, 0), "{line}");
    }
    // type 4 is a broker or a tariff; each kind has its line alone before
    let grouped = with("type=entity,2\ntype=entity,0,2\n");
    assert_eq!(evaluator.partial(grouped.as_bytes()), Outcome::Answer(ANSWER));
    assert_eq!(evaluator.partial(with("type=entity,2\ntype=entity,2,0\n").as_bytes()), refused(5, 17, 0));
    assert_eq!(evaluator.partial(grouped.replace("node=2,var,p", "node=4,var,p").as_bytes()), refused(7, 28, 0));
    // an entity fits a group that its kind is in, and keeps the group's type; of which kind it is, it says itself
    let other = grouped.replace("node=2,lit,0", "node=4,lit,0");
    let open = ANSWER.replace("node=2,lit,0", "node=4,lit,0");
    assert_eq!(evaluator.partial(other.as_bytes()), Outcome::Answer(&open));
    let head = &grouped[..grouped.find("node=").expect("nodes")];
    let is = |kind: usize| format!("{head}node=4,lit,0\nnode=0,is,0,{kind}\npolicy=5,permit,1\n");
    let yes = "decision=allow\ncounts=1,0,0,0,0,0,0,0\nwhy=5\nnode=0,lit,1\npolicy=5,permit,true,0\n";
    let no = "decision=deny\ncounts=0,1,0,0,0,0,0,0\nwhy=none\nvalue=bool,0\nnode=0,lit,2\npolicy=5,permit,false,0\n";
    for (kind, answer) in [(0, yes), (1, no), (2, no)] {
        assert_eq!(evaluator.partial(is(kind).as_bytes()), Outcome::Answer(answer), "{kind}");
    }
}

#[test]
fn parents() {
    let mut evaluator = Evaluator::new();
    let (head, rest) = SHEET.split_at(SHEET.find("principal=").expect("a principal"));
    let request = &rest[..rest.find("node=").expect("nodes")];
    let values = "value=entity,0,4\nvalue=entity,0,5\nvalue=set,2\nvalue=set,3\nvalue=set,0\nvalue=set\n";
    // brokers 0, 2 and 3, their sets 6, 4 and 5, the empty set 7; a broker may be in a broker; is 0 in 3?
    let with = |entities: &str| {
        let head = head.replacen("shape=1,-\n", "shape=1,-,0\n", 1);
        format!("{head}{values}{entities}{request}node=2,lit,0\nnode=2,lit,3\nnode=0,in,0,1\npolicy=5,permit,2\n")
    };
    let yes = "decision=allow\ncounts=1,0,0,0,0,0,0,0\nwhy=5\nnode=0,lit,1\npolicy=5,permit,true,0\n";
    let no = "decision=deny\ncounts=0,1,0,0,0,0,0,0\nwhy=none\nvalue=bool,0\nnode=0,lit,8\npolicy=5,permit,false,0\n";
    let open =
        "decision=open\ncounts=0,0,0,1,0,0,0,0\nwhy=none\nnode=2,lit,0\nnode=2,lit,3\nnode=0,in,0,1\npolicy=5,permit,open,2\n";
    for (entities, answer) in [
        ("entity=0,?,?,4\nentity=2,?,?,5\nentity=3,?,?,7\n", yes),
        ("entity=0,?,?,4\nentity=2,?,?,5\nentity=3,?,?,6\n", yes),
        ("entity=0,?,?,4\nentity=2,?,?,6\n", no),
        ("entity=0,?,?,7\n", no),
        // what is reached is not listed, or has unknown parents
        ("entity=0,?,?,4\nentity=2,?,?,5\n", open),
        ("entity=0,?,?,4\nentity=2,?,?,?\n", open),
        ("", open),
    ] {
        assert_eq!(evaluator.partial(with(entities).as_bytes()), Outcome::Answer(answer), "{entities}");
    }
    // a tariff may be in a broker, and a broker in a tariff only: broker 2 is reached from broker 0 through tariff 3
    let unfit = |following: &str| {
        let shapes = head.replacen("shape=1,-\nshape=1,-\nshape=1,-\n", "shape=1,-,2\nshape=1,-\nshape=1,-,0\n", 1);
        let values = values.replace("value=entity,0,5", "value=entity,2,5");
        format!("{shapes}{values}entity=0,?,?,5\nentity=3,?,?,4\n{following}")
    };
    let line = unfit("").lines().position(|line| line.starts_with("entity=")).expect("entity lines") + 1;
    for following in [request, "", "x\n", "entity\n"] {
        assert_eq!(evaluator.partial(unfit(following).as_bytes()), refused(7, line, 0), "{following}");
    }
    assert_eq!(evaluator.partial(unfit("entity=3,?,?,7\n").as_bytes()), refused(5, line + 2, 0));
}

/// The complete forms of examples/ that are to finish `excluded-goods`, each with what is printed.
#[test]
fn forms_finished() {
    let mut evaluator = Evaluator::new();
    let read = |file: &str| std::fs::read_to_string(format!("../examples/excluded-goods{file}")).expect("the example is there");
    for form in ["-timber", "-fireworks", "-heavier"] {
        let text = match evaluator.finish(read(".sheet").as_bytes(), read(&format!("{form}.sheet")).as_bytes()) {
            Outcome::Answer(text) => text.to_string(),
            Outcome::Refused(refusal) => format!("{refusal}\n"),
        };
        assert_eq!(text, read(&format!("{form}.finished")));
    }
}

#[test]
fn finished() {
    let mut evaluator = Evaluator::new();
    for broker in [7, 4] {
        let sheet = known(broker);
        let own = evaluator.complete(sheet.as_bytes()).result().expect("the sheet is accepted").to_string();
        assert_eq!(evaluator.finish(SHEET.as_bytes(), sheet.as_bytes()), Outcome::Answer(&own));
    }
    // what was known differs: the day, the resource, a rule; the first such line is named
    let line = |sheet: &str, text: &str| sheet.lines().position(|line| line == text).expect("the line is there") + 1;
    for (old, new) in
        [("day=2026-11-16", "day=2026-11-17"), ("resource=2,4", "resource=2,5"), ("policy=6,permit,3", "policy=6,forbid,3")]
    {
        let sheet = known(7).replace(old, new);
        assert_eq!(evaluator.finish(SHEET.as_bytes(), sheet.as_bytes()), refused(11, line(&sheet, new), 0));
        let both = sheet.replace("text=b7", "text=b8");
        assert_eq!(evaluator.finish(SHEET.as_bytes(), both.as_bytes()), refused(11, line(&both, "text=b8"), 0));
    }
    // a text, a value or a listed entity more breaks nothing, a rule more does
    let more = known(7)
        .replace("kind=0,e", "text=more\nkind=0,e")
        .replace("value=record\n", "value=record\nvalue=entity,0,8\nvalue=set\n");
    let more = more.replace("principal=", "entity=3,2,-,4\nprincipal=");
    let own = evaluator.complete(more.as_bytes()).result().map(str::to_string);
    assert_eq!(evaluator.finish(SHEET.as_bytes(), more.as_bytes()).result().map(str::to_string), own);
    let rule = format!("{}policy=7,permit,3\n", known(7));
    assert_eq!(evaluator.finish(SHEET.as_bytes(), rule.as_bytes()), refused(11, line(&rule, "policy=7,permit,3"), 0));
    // a value that the partial sheet has is lacking: the line after the last
    let with = SHEET.replace("value=bool,1\n", "value=bool,1\nvalue=record\nvalue=bool,0\n");
    assert_eq!(evaluator.finish(with.as_bytes(), known(7).as_bytes()), refused(11, known(7).lines().count() + 1, 0));
    // each sheet passes its own checks, the partial one first
    assert_eq!(evaluator.finish(b"x\n", &[b'x'; 16385]), refused(3, 1, 0));
    assert_eq!(evaluator.finish(SHEET.as_bytes(), &[b'x'; 16385]), refused(2, 0, 0));
    assert_eq!(evaluator.finish(known(7).as_bytes(), SHEET.as_bytes()), refused(3, 1, 0));
    assert_eq!(evaluator.finish(SHEET.as_bytes(), SHEET.as_bytes()), refused(3, 1, 0));
}

#[test]
fn finished_in_what_is_lent() {
    let sheet = known(7);
    let own = Evaluator::new().complete(sheet.as_bytes()).result().expect("the sheet is accepted").to_string();
    let (mut first, mut second, mut out) = (vec![7; WORDS + 2], vec![7; WORDS], vec![7; own.len() + 3]);
    assert_eq!(finish(SHEET.as_bytes(), sheet.as_bytes(), &mut first, &mut second, &mut out), Outcome::Answer(&own));
    assert!(first[..WORDS].iter().chain(&second).all(|word| *word == 0));
    assert_eq!((&first[WORDS..], &out[own.len()..]), (&[7, 7][..], &[7, 7, 7][..]));
    out.fill(9);
    let short = &mut out[..own.len() - 1];
    assert_eq!(finish(SHEET.as_bytes(), sheet.as_bytes(), &mut first, &mut second, short), refused(10, 0, own.len()));
    assert_eq!(
        finish(SHEET.as_bytes(), sheet.replace("day=2026-11-16", "day=2026-11-17").as_bytes(), &mut first, &mut second, short),
        refused(11, 26, 0)
    );
    assert!(out.iter().all(|byte| *byte == 9));
    second.fill(5);
    assert_eq!(finish(b"", b"", &mut first, &mut second[1..], &mut []), refused(1, 0, 0));
    assert!(second.iter().all(|word| *word == 5));
}

#[test]
fn counter_pages() {
    let mut evaluator = Evaluator::new();
    let sheet = include_str!("../../examples/office-region-firm.sheet");
    assert_eq!(evaluator.page(sheet.as_bytes()), Outcome::Answer(include_str!("../../examples/office-region-firm.page")));
    // refused as an answer is
    assert_eq!(evaluator.page(b"x\n"), refused(3, 1, 0));
    assert_eq!(evaluator.page(&[b'x'; 16385]), refused(2, 0, 0));
    assert_eq!(evaluator.page(known(7).as_bytes()), refused(3, 1, 0));
    // 64 policies: the first 58 are shown, and that 6 are left off
    let text = evaluator.page(many(3, 1).as_bytes()).result().expect("the sheet is accepted");
    let lines: Vec<&str> = text.lines().collect();
    assert_eq!(
        (lines.len(), lines[58], lines[59]),
        (60, &*format!("{:40}permit  open    {:>16}", "p57", 3), &*format!("{:72}", "+6"))
    );
    // a page needs 4,380 bytes, and changes no other
    let (mut first, mut second, mut out) = (vec![7; WORDS], vec![7; WORDS], vec![7; PAGE + 1]);
    assert_eq!(page(sheet.as_bytes(), &mut first, &mut second, &mut out[..PAGE - 1]), refused(10, 0, PAGE));
    assert_eq!(out, vec![7; PAGE + 1]);
    assert!(matches!(page(sheet.as_bytes(), &mut first, &mut second, &mut out[..PAGE]), Outcome::Answer(_)));
    assert_eq!((out[PAGE - 1], out[PAGE]), (b'\n', 7));
    assert!(first.iter().chain(&second).all(|word| *word == 0));
    assert_eq!(page(b"", &mut first, &mut second[1..], &mut []), refused(1, 0, 0));
}

/// The line of the unknown broker.
const BROKER: usize = 21;

#[test]
fn previewed() {
    let mut evaluator = Evaluator::new();
    // what a run on the sheet with that line gives, and the sheet stays
    for broker in [7, 4] {
        let line = format!("principal=0,{broker}");
        let edited = SHEET.replace("principal=0,?", &line);
        let expected = Evaluator::new().partial(edited.as_bytes()).result().map(str::to_string);
        let found = evaluator.preview(SHEET.as_bytes(), BROKER, line.as_bytes()).result().map(str::to_string);
        assert!(found.is_ok());
        assert_eq!(found, expected);
    }
    let form = include_bytes!("../../examples/one-rule-three-brokers.sheet");
    let shown = include_str!("../../examples/one-rule-three-brokers.preview");
    assert_eq!(evaluator.preview(form, 38, b"principal=0,11"), Outcome::Answer(shown));
    // a line that the sheet lacks, and what breaks a rule or fills nothing
    for (line, replacement) in [
        (0, "principal=0,7"),
        (32, "principal=0,7"),
        (BROKER, "principal=0,?"),
        (BROKER, "principal=2,7"),
        (BROKER, "resource=0,7"),
        (BROKER, "principal=0,7,7"),
        (BROKER, "principal=0"),
        (BROKER, "principal=0,7\n"),
        (BROKER, "principal0,7"),
        (BROKER, ""),
        (22, "action=1,4"),
        (23, "resource=2,5"),
    ] {
        assert_eq!(evaluator.preview(SHEET.as_bytes(), line, replacement.as_bytes()), refused(12, line, 0), "{replacement}");
    }
    // what is filled in is the run's to judge
    assert_eq!(evaluator.preview(SHEET.as_bytes(), BROKER, b"principal=0,x"), refused(3, BROKER, 0));
    assert_eq!(evaluator.preview(SHEET.as_bytes(), BROKER, b"principal=0,99"), refused(5, BROKER, 0));
    assert_eq!(evaluator.preview(SHEET.as_bytes(), 24, b"context=1,1"), refused(7, 24, 0));
    // 2 for the kept sheet, then 12, then 2 for the copy
    let mut long = b"principal=0,?\n".to_vec();
    long.resize(GREATEST, b'x');
    assert_eq!(evaluator.preview(&long, 1, b"principal=0,7"), refused(3, 1, 0));
    assert_eq!(evaluator.preview(&long, 1, b"principal=0,77"), refused(2, 0, 0));
    assert_eq!(evaluator.preview(&long, 1, b"principal=1,77"), refused(12, 1, 0));
    long.push(b'x');
    assert_eq!(evaluator.preview(&long, 1, b"principal=1,77"), refused(2, 0, 0));
}

#[test]
fn previewed_in_what_is_lent() {
    let (mut first, mut second, mut out) = (vec![7; WORDS + 1], vec![7; WORDS - 1], vec![7; 300]);
    let line = b"principal=0,7";
    assert_eq!(preview(SHEET.as_bytes(), BROKER, line, &mut first, &mut second, &mut out), refused(1, 0, 0));
    assert!(first.iter().chain(&second).all(|word| *word == 7) && out.iter().all(|byte| *byte == 7));
    second.push(7);
    assert_eq!(preview(SHEET.as_bytes(), BROKER, b"", &mut first, &mut second, &mut out), refused(12, BROKER, 0));
    assert!(
        first[..WORDS].iter().chain(&second).all(|word| *word == 0) && first[WORDS] == 7 && out.iter().all(|byte| *byte == 7)
    );
    let length = match preview(SHEET.as_bytes(), BROKER, line, &mut first, &mut second, &mut []) {
        Outcome::Refused(Refusal { number: 10, line: 0, length }) => length,
        other => panic!("{other:?}"),
    };
    match preview(SHEET.as_bytes(), BROKER, line, &mut first, &mut second, &mut out) {
        Outcome::Answer(text) => assert_eq!(text.len(), length),
        other => panic!("{other:?}"),
    }
    assert!(out[length..].iter().all(|byte| *byte == 7));
}

/// 64 policies over one root of so many nodes: a comparison of the broker's name with a pattern of so many `*`, and `not`.
fn many(nodes: usize, stars: usize) -> String {
    let ids: String = (0..64).map(|n| format!("text=p{n}\n")).collect();
    let nots: String = (2..nodes - 1).map(|n| format!("node=0,not,{n}\n")).collect();
    let policies: String = (0..64).map(|n| format!("policy={},permit,{}\n", 8 + n, nodes - 1)).collect();
    let head = SHEET[..SHEET.find("node=").expect("nodes")]
        .replace("kind=0,e", &format!("{ids}kind=0,e"))
        .replace("shape=1,-\nshape=1,-\nshape=1,-", "type=string\ntype=record,7,r,3\nshape=1,-\nshape=1,-\nshape=1,-")
        .replace("context=1,?", "context=4,?");
    format!("{head}node=4,var,c\nnode=3,get,0,7\nnode=0,like,1{}\n{nots}{policies}", ",*".repeat(stars))
}

#[test]
fn uses_and_long_answers() {
    let mut evaluator = Evaluator::new();
    // 1,024 uses, and as long an answer as can be: nothing is refused for its length
    let stars = (GREATEST - many(16, 0).len()) / 2;
    let longest = many(16, stars);
    let Outcome::Answer(answer) = evaluator.partial(longest.as_bytes()) else { panic!("1,024 uses were refused") };
    assert!(answer.len() > 880_000 && answer.len() <= LONGEST);
    let needed = answer.len();
    let (mut first, mut second, mut out) = (vec![7; WORDS], vec![7; WORDS], vec![7; 65536]);
    assert_eq!(partial(longest.as_bytes(), &mut first, &mut second, &mut out), refused(10, 0, needed));
    // the 61st policy has the 1,025th use: 60 * 17 are 1,020
    let line = many(17, 1).lines().position(|line| line.starts_with("policy=")).expect("policies") + 61;
    assert_eq!(evaluator.partial(many(17, 1).as_bytes()), refused(4, line, 0));
}

#[test]
fn what_is_lent() {
    let (mut first, mut second) = (vec![7; WORDS + 2], vec![7; WORDS]);
    let mut out = vec![7; ANSWER.len() + 3];
    assert_eq!(partial(SHEET.as_bytes(), &mut first, &mut second, &mut out), Outcome::Answer(ANSWER));
    assert!(first[..WORDS].iter().chain(&second).all(|word| *word == 0));
    assert_eq!(first[WORDS..], [7, 7]);
    assert_eq!(out[ANSWER.len()..], [7, 7, 7]);
    // a byte too few: nothing is written, and the length says what is needed
    out.fill(9);
    let short = &mut out[..ANSWER.len() - 1];
    assert_eq!(partial(SHEET.as_bytes(), &mut first, &mut second, short), refused(10, 0, ANSWER.len()));
    assert!(out.iter().all(|byte| *byte == 9));
    // a word too few: nothing is touched
    second.fill(5);
    assert_eq!(complete(SHEET.as_bytes(), &mut first, &mut second[1..], &mut []), refused(1, 0, 0));
    assert!(second.iter().all(|word| *word == 5));
}

#[test]
fn refusal_as_text() {
    let Outcome::Refused(refusal) = Evaluator::new().partial(b"sheet=partial") else { panic!("an unended line was accepted") };
    assert_eq!(refusal.to_string(), "refused=3,1,0");
    assert!(refusal.meaning().starts_with("form"));
}

/// Test loads: the numbers at their edges, what is left of the buffer, and that each load is accepted.
#[test]
fn test_loads() {
    let mut buffer = [7; GREATEST];
    for policies in [0, POLICIES + 1, u32::MAX] {
        assert_eq!(test_load(0, policies, &mut buffer[..0]), refused(13, 0, 0));
        assert_eq!(test_load(0, policies, &mut buffer), refused(13, 0, 0));
    }
    assert_eq!(test_load(0, 1, &mut buffer[..340]), refused(10, 0, 341));
    assert!(buffer.iter().all(|&byte| byte == 7));
    assert!(test_load(0, 1, &mut buffer[..341]).result().is_ok());
    assert!(buffer[..341].ends_with(b"\npolicy=5,forbid,2\n") && buffer[341..].iter().all(|&byte| byte == 7));

    let mut evaluator = Evaluator::new();
    for seed in [0, 1, 7046029258681320426, 7046029258681320427, u64::MAX] {
        for policies in 1..=POLICIES {
            let sheet = test_load(seed, policies, &mut buffer).result().expect("the buffer is long enough");
            let answer = evaluator.partial(sheet.as_bytes()).result().expect("a test load is accepted");
            assert!(answer.len() <= GREATEST);
        }
    }
}

/// Only the upper 32 bits of a state decide a draw, so near seeds may name one sheet.
#[test]
fn near_seeds() {
    let load = |seed, policies| {
        let mut buffer = [0; GREATEST];
        test_load(seed, policies, &mut buffer).result().expect("the buffer is long enough").to_string()
    };
    assert_eq!(load(0, 64), load(1, 64));
    assert_eq!(load(0, 64), load(u64::MAX, 64));
    assert_ne!(load(7046029258681320426, 2), load(7046029258681320427, 2));
}

/// One rule for three brokers of a firm: the texts 10, 11 and 12, with the load that the form knows, text 4.
const BROKERS: &str = include_str!("../../examples/one-rule-three-brokers.sheet");

#[test]
fn a_whole_firm() {
    let mut evaluator = Evaluator::new();
    let mut rows = [Row::new(10, 4), Row::new(11, 4), Row::new(12, 4)];
    assert_eq!(evaluator.firm(&mut rows, BROKERS.as_bytes()), Ok(Decision::Allow));
    assert!(rows.iter().all(|row| row.decision == Decision::Allow));
    let mut rows = [Row::new(10, 4), Row::new(3, 4)];
    assert_eq!(evaluator.firm(&mut rows, BROKERS.as_bytes()), Ok(Decision::Deny));
    assert_eq!([rows[0].decision, rows[1].decision], [Decision::Allow, Decision::Deny]);
    assert_eq!(evaluator.firm(&mut [], BROKERS.as_bytes()), Ok(Decision::Allow));
}

#[test]
fn a_firm_refused() {
    let mut evaluator = Evaluator::new();
    let refused = |number, line| Err(Refusal { number, line, length: 0 });
    for (row, place) in [(Row::new(10, 5), 2), (Row::new(13, 4), 2), (Row::new(u32::MAX, 4), 2)] {
        let mut rows = [Row::new(10, 4), Row::new(11, 4), row];
        assert_eq!(evaluator.firm(&mut rows, BROKERS.as_bytes()), refused(15, place));
        assert!(rows.iter().all(|row| row.decision == Decision::Open));
    }
    let mut many = [Row::new(99, 4); ROWS + 1];
    assert_eq!(evaluator.firm(&mut many, b"x\n"), refused(14, 0));
    assert_eq!(evaluator.firm(&mut many[..ROWS], b"x\n"), refused(3, 1));
    assert_eq!(evaluator.firm(&mut many, &[b'x'; GREATEST + 1]), refused(2, 0));
    let (mut first, mut second) = ([7; WORDS], [7; WORDS - 1]);
    assert_eq!(firm(&mut many, b"x\n", &mut first, &mut second), refused(1, 0));
    assert_eq!(first, [7; WORDS]);
    let (mut first, mut second) = ([7; WORDS + 1], [7; WORDS]);
    assert_eq!(firm(&mut many, b"x\n", &mut first, &mut second), refused(14, 0));
    assert_eq!((first[WORDS - 1], first[WORDS], second[0]), (0, 7, 0));
}
