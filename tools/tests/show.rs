//! `openrules-show`, run on the examples.

use std::path::Path;
use std::process::{Command, Stdio};

/// The status, what it printed, and what it said beside.
fn show(words: &[&str], input: &[u8]) -> (Option<i32>, String, String) {
    use std::io::Write;
    let examples = Path::new(env!("CARGO_MANIFEST_DIR")).join("../examples");
    let mut child = Command::new(env!("CARGO_BIN_EXE_openrules-show"))
        .args(words)
        .current_dir(examples)
        .stdin(Stdio::piped())
        .stdout(Stdio::piped())
        .stderr(Stdio::piped())
        .spawn()
        .expect("the program runs");
    // What refuses its words does not read.
    let _ = child.stdin.take().expect("a pipe").write_all(input);
    let output = child.wait_with_output().expect("the program ends");
    let text = |bytes: Vec<u8>| String::from_utf8(bytes).expect("it prints text");
    (output.status.code(), text(output.stdout), text(output.stderr))
}

fn shown(name: &str) -> String {
    let (status, text, beside) = show(&[name], b"");
    assert_eq!((status, &*beside), (Some(0), ""));
    text
}

#[test]
fn bands() {
    assert_eq!(
        shown("bands-overlap.sheet"),
        "decision: allow
why: low band

low band: permit, true
  rule: resource.weight <= 100
  left: true

high band: permit, open
  rule: 50 <= resource.weight && context.insured
  left: context.insured
"
    );
    assert_eq!(
        shown("bands-overlap-complete.sheet"),
        "decision: allow
why: low band

low band: permit, true
  rule: resource.weight <= 100

high band: permit, true
  rule: 50 <= resource.weight && context.insured
"
    );
}

#[test]
fn a_rule_off_term() {
    assert_eq!(
        shown("first-day-of-a-term.sheet"),
        "decision: open
why: none

spring tariff: permit, off term
  rule: resource.weight <= 100

summer tariff: permit, open
  rule: context.insured
  left: context.insured
"
    );
}

#[test]
fn linked_rules() {
    assert_eq!(
        shown("one-rule-three-brokers.sheet"),
        "decision: open
why: none

tariff of b1: permit, open
  rule: resource.weight <= 100 && principal == Broker::\"b1\"
  left: principal == Broker::\"b1\"

tariff of b2: permit, open
  rule: resource.weight <= 100 && principal == Broker::\"b2\"
  left: principal == Broker::\"b2\"

tariff of b3: permit, open
  rule: resource.weight <= 100 && principal == Broker::\"b3\"
  left: principal == Broker::\"b3\"
"
    );
}

#[test]
fn groups_and_names() {
    assert_eq!(
        shown("person-or-firm.sheet"),
        "decision: open
why: none

firms: permit, true
  rule: resource.client is Firm
  left: true

large firms: forbid, open
  rule: resource.client has staff
  left: Firm::\"f1\" has staff

fleets: forbid, false
  rule: resource.client has fleet
  left: false

house north: permit, open
  rule: resource.client.name like \"North*\"
  left: Firm::\"f1\".name like \"North*\"
"
    );
    assert_eq!(
        shown("excluded-goods.sheet").lines().last(),
        Some("  left: [\"fireworks\", \"livestock\"].contains(context.goods)")
    );
}

#[test]
fn policies() {
    let (status, text, _) = show(&["--policies", "open-forbid-beside-permit.sheet"], b"");
    assert_eq!(status, Some(0));
    assert_eq!(
        text,
        "@id(\"low band\")
permit(principal, action, resource) when { resource.weight <= 100 };
@id(\"not insured\")
forbid(principal, action, resource) when { !context.insured };
"
    );
}

#[test]
fn the_standard_input() {
    let sheet = include_bytes!("../../examples/bands-overlap.sheet");
    assert_eq!(show(&["-"], sheet).1, shown("bands-overlap.sheet"));
}

#[test]
fn refused() {
    let said = |words: &[&str], input: &[u8]| {
        let (status, text, beside) = show(words, input);
        assert_eq!(text, "");
        (status, beside)
    };
    assert_eq!(
        said(&["-"], b"sheet=partial\ntext=a\ntext=a\n").1,
        format!("openrules-show: -: refused=5,3,0: {}\n", openrules::Refusal { number: 5, line: 3, length: 0 }.meaning())
    );
    assert_eq!(
        said(&["-"], &[b'x'; 20000]),
        (Some(1), "openrules-show: -: refused=2,0,0: the sheet has over 16,384 bytes\n".into())
    );
    assert_eq!(said(&["--policies", "-"], b"").0, Some(1));
    assert_eq!(said(&["no-such.sheet"], b"").0, Some(2));
    for words in [&[][..], &["a", "b"], &["--wrong", "a"], &["--policies"]] {
        let (status, beside) = said(words, b"");
        assert_eq!(status, Some(2));
        assert!(beside.starts_with("usage: openrules-show"));
    }
}
