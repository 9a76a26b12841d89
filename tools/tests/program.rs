//! The program `openrules-sheet`, as it is called.

mod common;

use common::*;
use serde_json::{json, Value as Json};
use std::fs;
use std::path::PathBuf;
use std::process::{Command, Output};

/// A folder of its own for the files of a test.
struct Folder(PathBuf);

impl Folder {
    fn new(name: &str) -> Folder {
        let folder = std::env::temp_dir().join(format!("openrules-sheet-{}-{name}", std::process::id()));
        fs::create_dir_all(&folder).unwrap();
        Folder(folder)
    }

    fn write(&self, name: &str, text: &str) {
        fs::write(self.0.join(name), text).unwrap();
    }

    fn run(&self, more: &[&str]) -> Output {
        let mut program = Command::new(env!("CARGO_BIN_EXE_openrules-sheet"));
        for option in ["schema", "policies", "entities", "request"] {
            program.arg(format!("--{option}")).arg(format!("{option}.json"));
        }
        program.args(more).current_dir(&self.0).output().unwrap()
    }
}

impl Drop for Folder {
    fn drop(&mut self) {
        let _ = fs::remove_dir_all(&self.0);
    }
}

fn uid(kind: &str, id: &str) -> Json {
    json!({"type": kind, "id": id})
}

fn text(bytes: &[u8]) -> String {
    String::from_utf8(bytes.to_vec()).unwrap()
}

#[test]
fn a_sheet_or_an_error() {
    let folder = Folder::new("whole");
    folder.write("schema.json", &schema().to_string());
    // Policies stand in the file's order.
    let all = "\"principal\": {\"op\": \"All\"}, \"action\": {\"op\": \"All\"}, \"resource\": {\"op\": \"All\"}";
    let mfa = "[{\"kind\": \"when\", \"body\": {\".\": {\"left\": {\"Var\": \"context\"}, \"attr\": \"mfa\"}}}]";
    folder.write(
        "policies.json",
        &format!("{{\"staticPolicies\": {{\"z\": {{\"effect\": \"permit\", {all}, \"conditions\": {mfa}}}, \"a\": {{\"effect\": \"permit\", {all}, \"conditions\": []}}}}}}"),
    );
    folder.write("entities.json", "[]");
    let request = |context: Json| json!({"principal": uid("User", "a"), "action": uid("Action", "view"), "resource": uid("Photo", "p"), "context": context});
    folder.write("request.json", &request(Json::Null).to_string());

    let refused = folder.run(&[]);
    assert_eq!(refused.status.code(), Some(1));
    assert_eq!(text(&refused.stdout), "");
    assert_eq!(text(&refused.stderr), "openrules-sheet: request.json, context: the field \"hour\" is lacking\n");

    let partial = folder.run(&["--partial", "--day", "2026-06-30"]);
    assert_eq!((partial.status.code(), text(&partial.stderr)), (Some(0), String::new()));
    let partial = text(&partial.stdout);
    assert!(partial.starts_with("sheet=partial\n") && partial.contains("\nday=2026-06-30\n"));
    let sheet: openrules::sheet::Sheet = partial.parse().unwrap();
    assert_eq!(answer(&sheet), "allow open true");
    assert_eq!(sheet.texts[sheet.policies[0].id], "z");

    folder.write("partial.sheet", &partial);
    folder.write("request.json", &request(json!({"mfa": true, "hour": 9})).to_string());
    let complete = folder.run(&["--after", "partial.sheet", "--day", "2026-06-30"]);
    assert_eq!((complete.status.code(), text(&complete.stderr)), (Some(0), String::new()));
    let complete = text(&complete.stdout);
    let finished =
        openrules::Evaluator::new().finish(partial.as_bytes(), complete.as_bytes()).result().map(str::to_string).unwrap();
    assert!(finished.starts_with("decision=allow\ncounts=2,0,0,0,0,0,0,0\n"), "{finished}");

    let no_sheet = folder.run(&["--after", "schema.json"]);
    assert_eq!(text(&no_sheet.stderr).lines().next(), Some("openrules-sheet: schema.json: line 1: the line is not ended"));
    fs::remove_file(folder.0.join("entities.json")).unwrap();
    let lacking = folder.run(&["--partial"]);
    assert_eq!(lacking.status.code(), Some(1));
    assert!(text(&lacking.stderr).starts_with("openrules-sheet: entities.json: No such file"));
    assert_eq!(folder.run(&["--day", "2100-02-29"]).status.code(), Some(2));
}

#[test]
fn the_way_back() {
    let folder = Folder::new("back");
    let example = |name: &str| format!("{}/../examples/{name}.sheet", env!("CARGO_MANIFEST_DIR"));
    let mut program = Command::new(env!("CARGO_BIN_EXE_openrules-sheet"));
    let written = program.args(["--json", &example("one-rule-three-brokers"), "."]).current_dir(&folder.0).output().unwrap();
    assert_eq!((written.status.code(), text(&written.stderr), text(&written.stdout)), (Some(0), String::new(), String::new()));
    let again = folder.run(&["--partial", "--day", "2026-06-30"]);
    assert_eq!((again.status.code(), text(&again.stderr)), (Some(0), String::new()));
    let ids = ["tariff of b1", "tariff of b2", "tariff of b3"];
    let sheet: openrules::sheet::Sheet = text(&again.stdout).parse().unwrap();
    assert_eq!(sheet.policies.iter().map(|policy| &sheet.texts[policy.id]).collect::<Vec<_>>(), ids);
    assert_eq!(sheet.links.len(), 3);

    let mut program = Command::new(env!("CARGO_BIN_EXE_openrules-sheet"));
    let grouped = program.args(["--json", &example("person-or-firm"), "."]).current_dir(&folder.0).output().unwrap();
    assert_eq!(grouped.status.code(), Some(1));
    assert!(
        text(&grouped.stderr).ends_with("person-or-firm.sheet: Cedar's JSON cannot hold the sheet: a type lists several kinds\n")
    );
}

/// A record that may have an attribute and lacks it: JSON has no place for its type, by which `has` stays open.
#[test]
fn types_that_are_lost() {
    let folder = Folder::new("types");
    let sheet = "sheet=partial\ntext=Broker\ntext=Action\ntext=quote\ntext=a\ntext=b\ntext=p\nkind=0,e\nkind=1,a\n\
        type=bool\ntype=record\ntype=record,3,r,0,4,o,0\ntype=entity,0\nshape=1,-\nshape=1,-\n\
        principal=0,?\naction=1,2\nresource=0,?\ncontext=1,?\nday=2026-06-30\n\
        node=3,var,p\nnode=3,var,r\nnode=0,eq,0,1\nnode=2,record,3,2\nnode=0,has,3,4\npolicy=5,permit,4\n";
    folder.write("open.sheet", sheet);
    let mut program = Command::new(env!("CARGO_BIN_EXE_openrules-sheet"));
    let lost = program.args(["--json", "open.sheet", "."]).current_dir(&folder.0).output().unwrap();
    assert_eq!(lost.status.code(), Some(1));
    assert_eq!(
        text(&lost.stderr),
        "openrules-sheet: open.sheet: Cedar's JSON cannot hold the sheet: read without the types of its expressions it has another answer\n"
    );
    assert!(!folder.0.join("schema.json").exists());
}
