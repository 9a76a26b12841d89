//! A schema for tests, and what runs the tool and the library.
#![allow(dead_code)]

use openrules::sheet::{Day, Mode, Sheet};
use openrules::Evaluator;
use openrules_tools::cedar::error::Error;
use openrules_tools::cedar::{sheet, File, Files, Options};
use serde_json::{json, Value as Json};

pub const DAY: Day = Day { year: 2026, month: 6, day: 30 };

/// Users in teams, photos in folders.
pub fn schema() -> Json {
    let applies = |context: Json| json!({"principalTypes": ["User", "Team"], "resourceTypes": ["Photo"], "context": {"type": "Record", "attributes": context}});
    json!({"": {
        "entityTypes": {
            "User": {"memberOfTypes": ["Team"], "tags": {"type": "String"}, "shape": {"type": "Record", "attributes": {
                "level": {"type": "Long"},
                "email": {"type": "String", "required": false},
                "manager": {"type": "Entity", "name": "User", "required": false},
                "badges": {"type": "Set", "element": {"type": "String"}},
                "address": {"type": "Record", "attributes": {"city": {"type": "String"}, "zip": {"type": "String", "required": false}}},
            }}},
            "Team": {"memberOfTypes": ["Team"], "shape": {"type": "Record", "attributes": {"budget": {"type": "Boolean", "required": false}}}},
            "Folder": {"memberOfTypes": ["Folder"]},
            "Photo": {"memberOfTypes": ["Folder"], "shape": {"type": "Record", "attributes": {
                "owner": {"type": "Entity", "name": "User"},
                "private": {"type": "Boolean"},
                "labels": {"type": "Set", "element": {"type": "String"}},
            }}},
        },
        "actions": {
            "readOnly": {},
            "view": {"memberOf": [{"id": "readOnly"}], "appliesTo": applies(json!({"mfa": {"type": "Boolean"}, "hour": {"type": "Long"}}))},
            "edit": {"appliesTo": applies(json!({"reason": {"type": "String"}}))},
        },
    }})
}

/// A sheet from the text of four files.
pub fn from_text(texts: [&[u8]; 4], mode: Mode, before: Option<&Sheet>) -> Result<Sheet, Error> {
    with_options(texts, Options { mode, day: DAY, short: false, after: before })
}

fn with_options(texts: [&[u8]; 4], options: Options) -> Result<Sheet, Error> {
    let names = ["schema.json", "policies.json", "entities.json", "request.json"];
    let file = |place: usize| File { name: names[place], bytes: texts[place] };
    sheet(&Files { schema: file(0), policies: file(1), entities: file(2), request: file(3) }, &options)
}

fn from_json(parts: [&Json; 4], mode: Mode, before: Option<&Sheet>) -> Result<Sheet, Error> {
    let texts = parts.map(Json::to_string);
    from_text([0, 1, 2, 3].map(|place| texts[place].as_bytes()), mode, before)
}

pub fn complete(schema: &Json, policies: &Json, entities: &Json, request: &Json) -> Result<Sheet, Error> {
    from_json([schema, policies, entities, request], Mode::Complete, None)
}

pub fn complete_after(
    schema: &Json,
    policies: &Json,
    entities: &Json,
    request: &Json,
    before: Option<&Sheet>,
) -> Result<Sheet, Error> {
    from_json([schema, policies, entities, request], Mode::Complete, before)
}

/// A complete sheet without what never runs.
pub fn short(schema: &Json, policies: &Json, entities: &Json, request: &Json) -> Result<Sheet, Error> {
    let texts = [schema, policies, entities, request].map(Json::to_string);
    let options = Options { mode: Mode::Complete, day: DAY, short: true, after: None };
    with_options([0, 1, 2, 3].map(|place| texts[place].as_bytes()), options)
}

pub fn partial(schema: &Json, policies: &Json, entities: &Json, request: &Json) -> Result<Sheet, Error> {
    from_json([schema, policies, entities, request], Mode::Partial, None)
}

/// The decision, and the class of each policy, as the library gives them.
pub fn answer(sheet: &Sheet) -> String {
    let text = sheet.to_string();
    let mut evaluator = Evaluator::new();
    let outcome = match sheet.mode {
        Mode::Partial => evaluator.partial(text.as_bytes()),
        Mode::Complete => evaluator.complete(text.as_bytes()),
    };
    let answer = outcome.result().unwrap_or_else(|refusal| panic!("{refusal}\n{text}"));
    let decision = answer.lines().next().and_then(|line| line.strip_prefix("decision=")).unwrap();
    let classes = answer.lines().filter_map(|line| line.strip_prefix("policy=")?.split(',').nth(2));
    std::iter::once(decision).chain(classes).collect::<Vec<_>>().join(" ")
}
