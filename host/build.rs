//! Finds the original source and cuts from it what the host compiles.
//!
//! Nothing of that text is kept in this repository: every build reads it anew. Where it is absent, the host is built
//! without it and says so when run.

use std::env;
use std::fs;
use std::path::{Path, PathBuf};

fn main() {
    println!("cargo:rerun-if-changed=build.rs");
    println!("cargo:rerun-if-env-changed=OPENRULES_CEDAR_SRC");
    println!("cargo:rerun-if-env-changed=OPENRULES_LIB");
    println!("cargo:rustc-check-cfg=cfg(original)");
    let here = PathBuf::from(env::var("CARGO_MANIFEST_DIR").unwrap());
    let root = match env::var("OPENRULES_CEDAR_SRC") {
        Ok(folder) => PathBuf::from(folder),
        Err(_) => here.join("../../shared/docs/src"),
    };
    let source = root.join("cedar-policy-core/src");
    println!("cargo:rerun-if-changed={}", source.join("tpe/evaluator.rs").display());
    println!("cargo:rustc-env=OPENRULES_SOURCE_TRIED={}", source.display());
    if source.join("tpe/evaluator.rs").is_file() {
        println!("cargo:rustc-cfg=original");
        cut_all(&source, &PathBuf::from(env::var("OUT_DIR").unwrap()));
    } else {
        println!("cargo:warning=The original source is not at {}: the host is built without it.", source.display());
    }
    if env::var("CARGO_FEATURE_LIBRARY").is_ok() {
        link_library();
    }
}

/// Links libopenrules_c.a, from the folder or file that OPENRULES_LIB names, else from the place where `scripts/build.sh library` puts it.
fn link_library() {
    let here = PathBuf::from(env::var("CARGO_MANIFEST_DIR").unwrap());
    let place = env::var("OPENRULES_LIB").map(PathBuf::from).unwrap_or(here.join("../target/staticlib"));
    let folder = if place.is_file() { place.parent().unwrap().to_path_buf() } else { place };
    if !folder.join("libopenrules_c.a").is_file() {
        panic!(
            "The feature `library` needs libopenrules_c.a in {} (set OPENRULES_LIB, or run `scripts/build.sh library`).",
            folder.display()
        );
    }
    println!("cargo:rerun-if-changed={}", folder.join("libopenrules_c.a").display());
    println!("cargo:rustc-link-search=native={}", folder.display());
    println!("cargo:rustc-link-lib=static=openrules_c");
}

fn cut_all(source: &Path, out: &Path) {
    let read = |name: &str| {
        let path = source.join(name);
        println!("cargo:rerun-if-changed={}", path.display());
        fs::read_to_string(&path).unwrap_or_else(|_| panic!("{} is absent", path.display()))
    };
    let write = |name: &str, text: String| fs::write(out.join(name), text).unwrap();

    // tpe/evaluator.rs: whole, in place. A second module has the same text but for one function, the walk that looks for
    // extension values, which would not end on values that share rows.
    let interpreter = read("tpe/evaluator.rs");
    let walk = item(&interpreter, "fn normalize_ext_value_inner(");
    write("plain.rs", interpreter.replace(&walk, "fn normalize_ext_value_inner(_: &Value) -> Option<Value> {\n    None\n}\n"));
    let modules = format!(
        "#[allow(warnings)]\n#[path = {:?}]\npub mod evaluator;\n#[allow(warnings)]\n#[path = {:?}]\npub mod plain;\n",
        fs::canonicalize(source.join("tpe/evaluator.rs")).unwrap(),
        out.join("plain.rs"),
    );
    write("tpe_modules.rs", modules);

    // evaluator.rs: whole but for its last line, the attribute of a test module that was not published. Its `mod err;` is
    // a stand-in.
    let evaluator = read("evaluator.rs");
    let end = evaluator.rfind("\n#[expect(clippy::panic").expect("evaluator.rs ends with the attribute of its test module");
    write("evaluator.rs", evaluator[..end + 1].to_string());
    write("err.rs", "pub use crate::errors::*;\n".to_string());
    write("evaluator_module.rs", format!("#[allow(warnings)]\n#[path = {:?}]\npub mod evaluator;\n", out.join("evaluator.rs")));

    // tpe/residual.rs: the tree, the error analysis, the tests of a residual, and its way back to an expression.
    let residual = read("tpe/residual.rs");
    write(
        "residual.rs",
        [
            item(&residual, "pub(crate) static ERROR_NAME"),
            item(&residual, "pub enum Residual {"),
            methods(&residual, "impl Residual {", &["ty", "can_error_assuming_well_formed"]),
            item(&residual, "impl TryFrom<Residual> for Value {"),
            item(&residual, "pub enum ResidualKind {"),
            methods(&residual, "impl Residual {", &["is_true", "is_false", "is_error", "is_concrete", "is_partial"]),
            item(&residual, "impl From<Residual> for Expr {"),
        ]
        .concat(),
    );

    // tpe/request.rs and tpe/entities.rs: known and unknown parts, and how they are asked for.
    let request = read("tpe/request.rs");
    write(
        "request.rs",
        [
            item(&request, "pub struct PartialEntityUID {"),
            item(&request, "impl TryFrom<PartialEntityUID> for EntityUID {"),
            item(&request, "pub struct PartialRequest {"),
            methods(&request, "impl PartialRequest {", &["principal", "resource", "action", "context_attrs"]),
        ]
        .concat(),
    );
    let entities = read("tpe/entities.rs");
    write(
        "entities.rs",
        [
            item(&entities, "pub struct PartialEntity {"),
            methods(&entities, "impl PartialEntity {", &["attrs", "ancestors", "tags"]),
            item(&entities, "pub struct PartialEntities {"),
            methods(
                &entities,
                "impl PartialEntities {",
                &["new", "get", "get_ancestors", "get_attrs", "get_tags", "add_entity_trusted"],
            ),
        ]
        .concat(),
    );

    // tpe/response.rs: classes, counts, the decision and its reasons.
    let response = read("tpe/response.rs");
    write(
        "response.rs",
        [
            item(&response, "pub struct ResidualPolicy {"),
            methods(&response, "impl ResidualPolicy {", &["new", "get_effect", "get_residual", "as_residual", "get_policy_id"]),
            item(&response, "fn decide("),
            item(&response, "pub(crate) fn decision_from_residuals("),
            item(&response, "pub struct Response<'a> {"),
            methods(
                &response,
                "impl<'a> Response<'a> {",
                &[
                    "new",
                    "true_permits",
                    "true_forbids",
                    "false_permits",
                    "error_permits",
                    "false_forbids",
                    "error_forbids",
                    "residual_permits",
                    "residual_forbids",
                    "decision",
                    "reason",
                ],
            ),
        ]
        .concat(),
    );

    // ast/partial_value.rs: the type of the complete run's results.
    let partial_value = read("ast/partial_value.rs");
    write(
        "partial_value.rs",
        [
            item(&partial_value, "pub enum PartialValue {"),
            item(&partial_value, "impl PartialValue {"),
            item(&partial_value, "impl<V: Into<Value>> From<V> for PartialValue {"),
            item(&partial_value, "impl From<Expr> for PartialValue {"),
            item(&partial_value, "pub fn split<I>("),
        ]
        .concat(),
    );
}

/// The item whose first line begins with `head`, with the comments and attributes before it, unchanged.
fn item(text: &str, head: &str) -> String {
    let lines: Vec<&str> = text.lines().collect();
    let at = lines.iter().position(|line| line.trim_start().starts_with(head));
    let at = at.unwrap_or_else(|| panic!("the original source has no line that begins with `{head}`"));
    cut(&lines, at)
}

/// The block that begins with the line `head` and holds all the methods named, with these alone.
fn methods(text: &str, head: &str, names: &[&str]) -> String {
    let lines: Vec<&str> = text.lines().collect();
    let is_head = |line: &str, name: &str| {
        line.trim_start()
            .strip_prefix("pub(crate) ")
            .or(line.trim_start().strip_prefix("pub "))
            .and_then(|rest| rest.strip_prefix("fn "))
            .and_then(|rest| rest.strip_prefix(name))
            .is_some_and(|rest| rest.starts_with('(') || rest.starts_with('<'))
    };
    for (begin, _) in lines.iter().enumerate().filter(|(_, line)| **line == head) {
        let end = begin + lines[begin..].iter().position(|line| *line == "}").expect("a block ends");
        let block = &lines[begin..=end];
        let found: Vec<_> = names.iter().map(|name| block.iter().position(|line| is_head(line, name))).collect();
        if found.iter().all(Option::is_some) {
            let cuts: Vec<String> = found.into_iter().map(|at| cut(block, at.unwrap())).collect();
            return format!("{head}\n{}}}\n\n", cuts.join("\n"));
        }
    }
    panic!("the original source has no `{head}` with the methods {names:?}");
}

/// The lines of an item: from the comments and attributes before line `at` to the brace that closes it at the same indentation.
fn cut(lines: &[&str], at: usize) -> String {
    let indent = &lines[at][..lines[at].len() - lines[at].trim_start().len()];
    let belongs = |line: &str| line.strip_prefix(indent).is_some_and(|rest| rest.starts_with("//") || rest.starts_with("#["));
    let begin = (0..at).rev().find(|i| !belongs(lines[*i])).map_or(0, |i| i + 1);
    let one_line = lines[at].ends_with(';') || lines[at].ends_with('}');
    let close = format!("{indent}}}");
    let end = if one_line { at } else { at + lines[at..].iter().position(|line| *line == close).expect("an item ends") };
    lines[begin..=end].join("\n") + "\n"
}
