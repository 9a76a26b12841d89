//! What a sheet has and Cedar's JSON has not: an error each, that names it.

use openrules::sheet::{Operation, Sheet, Value};
use openrules_tools::cedar::print;

/// Brokers in offices in regions, and a policy that asks whether the action is `quote`.
const SHEET: &str = "sheet=partial
text=Broker
text=Action
text=quote
text=p
text=Office
text=Region
text=__entity
kind=0,e
kind=1,a
kind=4,e
kind=5,e
type=bool
type=record
type=entity,0
type=entity,1
type=record,6,r,0
shape=1,-,2,3
shape=1,-
shape=1,-,3
shape=1,-
value=entity,1,2
value=bool,1
value=record,6,1
principal=0,?
action=1,2
resource=0,?
context=1,?
day=2026-06-30
node=3,var,a
node=3,lit,0
node=0,eq,0,1
policy=3,permit,2
";

/// The sheet with other lines for some of its own.
fn changed(changes: &[(&str, &str)]) -> Sheet {
    let text = changes.iter().fold(SHEET.to_string(), |text, (line, other)| {
        assert!(text.contains(line), "{line}");
        text.replace(line, other)
    });
    text.parse().unwrap()
}

fn error(changes: &[(&str, &str)]) -> String {
    print::sheet(&changed(changes)).unwrap_err().to_string()
}

#[test]
fn names() {
    assert!(print::sheet(&changed(&[])).is_ok());
    let wrong = |name: &str| format!("{name:?} cannot be the name of an entity type or of a type of actions");
    assert_eq!(error(&[("text=Broker", "text=my broker")]), wrong("my broker"));
    assert_eq!(error(&[("text=Action", "text=Act")]), wrong("Act"));
    assert_eq!(error(&[("text=Region", "text=N::Action")]), wrong("N::Action"));
    assert_eq!(error(&[("text=Region", "text=N::Broker")]), wrong("N::Broker"));
    assert!(print::sheet(&changed(&[("text=Region", "text=N::Region"), ("text=Action", "text=M::Action")])).is_ok());
}

#[test]
fn kinds_above() {
    let unlike = |kind: &str| format!("the kinds above {kind:?} are not those that Cedar finds");
    assert_eq!(error(&[("shape=1,-,2,3", "shape=1,-,2")]), unlike("Broker"));
    assert_eq!(error(&[("shape=1,-,2,3", "shape=1,-,1,2,3")]), unlike("Broker"));
    assert_eq!(
        error(&[
            ("type=entity,0", "type=entity,0,2"),
            ("type=record,6,r,0", "type=record,6,r,2"),
            ("shape=1,-,3", "shape=4,-,3")
        ]),
        "a type lists several kinds"
    );
}

#[test]
fn actions() {
    // Where a policy asks for the groups of an action, they must be known.
    let asks = ("node=0,eq,0,1", "node=0,in,0,1");
    let unknown = "not all is known of the action Action::\"quote\", or its groups are not actions above it";
    assert_eq!(error(&[asks]), unknown);
    let records = ("value=record,6,1", "value=record,6,1\nvalue=record\nvalue=set");
    assert_eq!(error(&[asks, records, ("principal=", "entity=0,3,3,?\nprincipal=")]), unknown);
    assert!(print::sheet(&changed(&[asks, records, ("principal=", "entity=0,3,3,4\nprincipal=")])).is_ok());
    // An action in itself.
    let itself = ("value=record,6,1", "value=record,6,1\nvalue=record\nvalue=set,0");
    assert_eq!(error(&[asks, itself, ("principal=", "entity=0,3,3,4\nprincipal=")]), unknown);
    // A kind of actions above which a kind stands that no group is of.
    let above = ("shape=1,-\nshape=1,-,3", "shape=1,-,1\nshape=1,-,3");
    let unlike = "the kinds above \"Action\" are not those that Cedar finds";
    assert_eq!(error(&[asks, records, above, ("principal=", "entity=0,3,3,4\nprincipal=")]), unlike);
    // A kind of actions without an action.
    let lonely = [
        ("text=Region", "text=N::Action"),
        ("text=Action", "text=M::Action"),
        ("kind=5,e", "kind=5,a"),
        ("shape=1,-,2,3", "shape=1,-,2"),
        ("shape=1,-,3", "shape=1,-"),
    ];
    assert_eq!(error(&lonely), "no action is of the kind \"N::Action\"");
}

#[test]
fn values() {
    let marked = [("node=3,var,a", "node=4,lit,2"), ("node=3,lit,0", "node=4,lit,2")];
    assert_eq!(error(&marked), "a record has the attribute \"__entity\", which marks something else in JSON");
    let mut sheet = changed(&[]);
    for _ in 0..60 {
        let last = sheet.values.len() - 1;
        sheet.values.push(Value::Record(vec![(3, last), (4, last)]));
    }
    sheet.values[2] = Value::Bool(false);
    sheet.nodes[1].operation = Operation::Lit(sheet.values.len() - 1);
    assert_eq!(print::sheet(&sheet), Err(print::Error::Large));
    sheet.nodes[1].operation = Operation::Lit(sheet.values.len());
    assert_eq!(print::sheet(&sheet), Err(print::Error::Reference));
}
