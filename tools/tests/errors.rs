//! What cannot stand on a sheet, or is no Cedar JSON: a clear error each, with file, policy and place.

mod common;

use common::*;
use openrules::sheet::Mode;
use serde_json::{json, Value as Json};

fn uid(kind: &str, id: &str) -> Json {
    json!({"type": kind, "id": id})
}

fn request() -> Json {
    json!({"principal": uid("User", "a"), "action": uid("Action", "view"), "resource": uid("Photo", "p"), "context": {"mfa": true, "hour": 1}})
}

fn policy(body: Json) -> Json {
    let all = json!({"op": "All"});
    json!({"effect": "permit", "principal": all, "action": all, "resource": all, "conditions": [{"kind": "when", "body": body}]})
}

fn set(body: Json) -> Json {
    json!({"staticPolicies": {"p0": policy(body)}})
}

/// The error of a policy with this condition.
fn of_body(body: Json) -> String {
    complete(&schema(), &set(body), &json!([]), &request()).unwrap_err().to_string()
}

fn of_policies(policies: Json) -> String {
    complete(&schema(), &policies, &json!([]), &request()).unwrap_err().to_string()
}

fn of_entities(entities: Json) -> String {
    complete(&schema(), &json!({}), &entities, &request()).unwrap_err().to_string()
}

fn of_schema(change: impl Fn(&mut Json)) -> String {
    let mut schema = schema();
    change(&mut schema[""]);
    complete(&schema, &json!({}), &json!([]), &request()).unwrap_err().to_string()
}

fn of_request(change: impl Fn(&mut Json), mode: Mode) -> String {
    let mut request = request();
    change(&mut request);
    match mode {
        Mode::Complete => complete(&schema(), &json!({}), &json!([]), &request),
        Mode::Partial => partial(&schema(), &json!({}), &json!([]), &request),
    }
    .unwrap_err()
    .to_string()
}

#[test]
fn no_json() {
    let of_text = |text: &str| from_text([b"{}", text.as_bytes(), b"[]", b"{}"], Mode::Complete, None).unwrap_err().to_string();
    assert_eq!(of_text("{"), "policies.json: EOF while parsing an object at line 1 column 1");
    assert_eq!(of_text("{\"a\": 1, \"a\": 2}"), "policies.json: the key \"a\" is there twice at line 1 column 16");
    assert!(of_text(&"[".repeat(100_000)).contains("nested deeper than 256"));
    assert!(of_text("").starts_with("policies.json: EOF"));
    let bytes = from_text([b"{}", b"\"\xff\"", b"[]", b"{}"], Mode::Complete, None).unwrap_err().to_string();
    assert!(bytes.starts_with("policies.json: invalid unicode"), "{bytes}");
}

#[test]
fn forms_of_policies() {
    assert_eq!(of_policies(json!([])), "policies.json: an object should stand here");
    assert_eq!(of_policies(json!({"policies": {}})), "policies.json: the field \"policies\" is not known here");
    assert_eq!(
        of_policies(json!({"staticPolicies": {"p0": {"effect": "allow"}}})),
        "policies.json, policy \"p0\", effect: permit or forbid should stand here"
    );
    assert_eq!(
        of_policies(json!({"staticPolicies": {"p0": {"effect": "permit"}}})),
        "policies.json, policy \"p0\": the field \"principal\" is lacking"
    );
    assert_eq!(
        of_body(json!({"&&": {"left": {"Value": true}, "right": {"Var": "me"}}})),
        "policies.json, policy \"p0\", conditions[0].body.&&.right.Var: principal, action, resource or context should stand here"
    );
    assert_eq!(
        of_body(json!({"==": {"left": {"Value": 1}, "right": {"Value": 1}, "mid": 1}})),
        "policies.json, policy \"p0\", conditions[0].body.==: the field \"mid\" is not known here"
    );
    assert_eq!(
        of_body(json!({})),
        "policies.json, policy \"p0\", conditions[0].body: an expression, an object with one field, should stand here"
    );
    assert!(of_body(json!({"Value": 1.5})).contains("a 64-bit whole number"));
    assert!(of_body(json!({"Value": 9223372036854775808u64})).contains("a 64-bit whole number"));
}

#[test]
fn extensions() {
    let ip = json!({"ip": [{"Value": "10.0.0.1"}]});
    assert_eq!(
        of_body(json!({"isInRange": [ip, {"ip": [{"Value": "10.0.0.0/8"}]}]})),
        "policies.json, policy \"p0\", conditions[0].body.isInRange: \"isInRange\" is an extension, which a sheet cannot hold"
    );
    assert_eq!(
        of_body(json!({"Value": {"__extn": {"fn": "decimal", "arg": "1.5"}}})),
        "policies.json, policy \"p0\", conditions[0].body.Value: \"__extn\" is an extension, which a sheet cannot hold"
    );
    assert_eq!(
        of_schema(|schema| schema["entityTypes"]["User"]["tags"] = json!({"type": "Extension", "name": "ipaddr"})),
        "schema.json, .entityTypes.User.tags: \"ipaddr\" is an extension, which a sheet cannot hold"
    );
}

#[test]
fn types() {
    let principal = json!({"Var": "principal"});
    assert_eq!(
        of_body(json!({".": {"left": principal, "attr": "size"}})),
        "policies.json, policy \"p0\", conditions[0].body: the schema does not declare the attribute \"size\" of User"
    );
    assert_eq!(
        of_body(json!({"==": {"left": principal, "right": {"Value": 1}}})),
        "policies.json, policy \"p0\", conditions[0].body: User is compared with Long"
    );
    assert_eq!(
        of_body(principal.clone()),
        "policies.json, policy \"p0\", conditions[0].body: Bool is wanted here, and this is User"
    );
    assert_eq!(
        of_body(json!({"isEmpty": {"arg": {"Value": 1}}})),
        "policies.json, policy \"p0\", conditions[0].body.isEmpty.arg: a set is wanted here, and this is Long"
    );
    assert_eq!(
        of_body(json!({"contains": {"left": {"Value": ["a"]}, "right": {"Value": 1}}})),
        "policies.json, policy \"p0\", conditions[0].body.contains.right: Set<String> holds no Long"
    );
    assert_eq!(
        of_body(json!({"containsAny": {"left": {"Value": ["a"]}, "right": {"Value": 1}}})),
        "policies.json, policy \"p0\", conditions[0].body.containsAny.right: Set<String> is wanted here, and this is Long"
    );
    assert_eq!(
        of_body(
            json!({"==": {"left": {"if-then-else": {"if": {"Value": true}, "then": {"Value": 1}, "else": {"Value": "a"}}}, "right": {"Value": "a"}}})
        ),
        "policies.json, policy \"p0\", conditions[0].body: Long is compared with String"
    );
    assert_eq!(
        of_body(json!({"in": {"left": principal, "right": {"Value": {"__entity": uid("Club", "c")}}}})),
        "policies.json, policy \"p0\", conditions[0].body.in.right: the schema does not declare the entity Club::\"c\""
    );
    assert_eq!(
        of_body(json!({"contains": {"left": {"Set": [{"Value": 1}, {"Value": "a"}]}, "right": {"Value": 1}}})),
        "policies.json, policy \"p0\", conditions[0].body.contains.left: elements of the types Long and String in one set"
    );
}

#[test]
fn templates() {
    let all = json!({"op": "All"});
    let template = json!({"effect": "permit", "principal": {"op": "==", "slot": "?principal"}, "action": all, "resource": all, "conditions": []});
    let linked = |values: Json, id: &str| {
        of_policies(json!({"templates": {"t": template}, "templateLinks": [{"templateId": id, "newId": "l", "values": values}]}))
    };
    assert_eq!(linked(json!({}), "t"), "policies.json, policy \"l\": nothing is linked to the slot ?principal");
    assert_eq!(linked(json!({}), "u"), "policies.json, policy \"l\": there is no template \"u\"");
    let both = json!({"?principal": uid("User", "a"), "?resource": uid("Photo", "p")});
    assert_eq!(linked(both, "t"), "policies.json, policy \"l\": the template has no slot ?resource");
    assert_eq!(
        linked(json!({"?principal": uid("Club", "a")}), "t"),
        "policies.json, policy \"l\": the schema does not declare the entity Club::\"a\""
    );
    assert_eq!(
        of_policies(json!({"staticPolicies": {"p0": template}})),
        "policies.json, policy \"p0\", principal.slot: nothing is linked to the slot ?principal"
    );
    let twice = json!({"templateId": "t", "newId": "p0", "values": {"?principal": uid("User", "a")}});
    assert_eq!(
        of_policies(
            json!({"staticPolicies": {"p0": policy(json!({"Value": true}))}, "templates": {"t": template}, "templateLinks": [twice]})
        ),
        "policies.json, policy \"p0\": the policy \"p0\" is there twice"
    );
}

#[test]
fn room() {
    let many = |count: usize| {
        let policies: serde_json::Map<_, _> = (0..count).map(|n| (format!("p{n:02}"), policy(json!({"Value": true})))).collect();
        json!({ "staticPolicies": policies })
    };
    assert!(complete(&schema(), &many(64), &json!([]), &request()).is_ok());
    assert_eq!(of_policies(many(65)), "policies.json, policy \"p64\": more than 64 policies, which is what a sheet has room for");
    let text = |bytes: usize| json!({"==": {"left": {"Value": "x".repeat(bytes)}, "right": {"Value": ""}}});
    assert!(complete(&schema(), &set(text(128)), &json!([]), &request()).is_ok());
    assert_eq!(
        of_body(text(129)),
        "policies.json, policy \"p0\", conditions[0].body.==.left: a text of 129 bytes, where a sheet has room for 128"
    );
    assert_eq!(
        of_body(json!({"==": {"left": {"Value": "\u{e4}"}, "right": {"Value": ""}}})),
        "policies.json, policy \"p0\", conditions[0].body.==.left: the text \"\u{e4}\" has a character that a sheet has not (bytes 32 to 126 alone)"
    );
    let wide = |count: usize| json!({"contains": {"left": {"Set": vec![json!({".": {"left": {"Var": "principal"}, "attr": "level"}}); count]}, "right": {"Value": 1}}});
    assert_eq!(of_body(wide(600)), "policies.json, policy \"p0\": more than 1024 nodes, which is what a sheet has room for");
    let deep = |count: usize| (0..count).fold(json!({"Value": true}), |body, _| json!({"!": {"arg": body}}));
    assert!(complete(&schema(), &set(deep(63)), &json!([]), &request()).is_ok());
    assert_eq!(of_body(deep(64)), "policies.json, policy \"p0\": deeper than 64");
    let level = json!({".": {"left": {"Var": "principal"}, "attr": "manager"}});
    let chain = (0..70).fold(level, |left, _| json!({".": {"left": left, "attr": "manager"}}));
    assert_eq!(of_body(json!({"has": {"left": chain, "attr": "email"}})), "policies.json, policy \"p0\": deeper than 64");
    assert!(of_body(deep(130)).contains("nested deeper than 256"));
    let unless = json!({"kind": "unless", "body": {"Value": false}});
    let all = || json!({"op": "All"});
    let long = |count: usize| {
        let conditions = vec![unless.clone(); count];
        json!({"staticPolicies": {"p0": {"effect": "permit", "principal": all(), "action": all(), "resource": all(), "conditions": conditions}}})
    };
    assert!(complete(&schema(), &long(63), &json!([]), &request()).is_ok());
    assert_eq!(of_policies(long(64)), "policies.json, policy \"p0\": deeper than 64");
    assert_eq!(of_policies(long(10_000)), "policies.json, policy \"p0\": deeper than 64");
    let user = |n: usize| json!({"uid": uid("Team", &format!("t{n}")), "attrs": {}, "parents": []});
    let in_team = set(json!({"in": {"left": {"Var": "principal"}, "right": {"Value": {"__entity": uid("Team", "t1")}}}}));
    let teams = |count: usize| Json::Array((0..count).map(user).collect());
    // The action and its group have lines of their own, which come last.
    assert!(complete(&schema(), &in_team, &teams(126), &request()).is_ok());
    let error = complete(&schema(), &in_team, &teams(127), &request()).unwrap_err().to_string();
    assert_eq!(error, "schema.json, actions.readOnly: more than 128 entities, which is what a sheet has room for");
    let error = complete(&schema(), &in_team, &teams(129), &request()).unwrap_err().to_string();
    assert_eq!(error, "entities.json, [128]: more than 128 entities, which is what a sheet has room for");
    let texts = (0..150).map(|n| json!({"Value": format!("{n:0>120}")}));
    let policies = set(json!({"contains": {"left": {"Set": texts.collect::<Vec<_>>()}, "right": {"Value": ""}}}));
    let error = complete(&schema(), &policies, &json!([]), &request()).unwrap_err().to_string();
    assert!(error.starts_with("the sheet: the sheet has ") && error.ends_with("16384 at most are read"), "{error}");
}

#[test]
fn circles() {
    assert_eq!(
        of_schema(|schema| {
            schema["commonTypes"] = json!({"A": {"type": "Set", "element": {"type": "B"}}, "B": {"type": "A"}});
            schema["entityTypes"]["User"]["tags"] = json!({"type": "A"});
        }),
        "schema.json, .commonTypes.B.type: the common type \"A\" contains itself"
    );
    assert_eq!(
        of_schema(|schema| schema["actions"]["readOnly"] = json!({"memberOf": [{"id": "view"}]})),
        "schema.json, actions.readOnly: the group Action::\"readOnly\" contains itself"
    );
    assert_eq!(
        of_schema(|schema| schema["actions"]["readOnly"] = json!({"memberOf": [{"id": "a", "type": "User"}]})),
        "schema.json, actions.readOnly: the schema does not declare the action User::\"a\""
    );
    // Doubling at each step would come to 2^40 types.
    let twice = |n: usize| json!({"type": "Record", "attributes": {"a": {"type": format!("T{}", n + 1)}, "b": {"type": format!("T{}", n + 1)}}});
    let error = of_schema(|schema| {
        let mut common: serde_json::Map<_, _> = (0..40).map(|n| (format!("T{n}"), twice(n))).collect();
        common.insert("T40".into(), json!({"type": "Long"}));
        schema["commonTypes"] = Json::Object(common);
        schema["entityTypes"]["User"]["tags"] = json!({"type": "T0"});
    });
    assert!(error.ends_with("more than 128 types, which is what a sheet has room for"), "{error}");
    // Entities may be in a circle: the sheet allows it.
    let team = |id: &str, parent: &str| json!({"uid": uid("Team", id), "attrs": {}, "parents": [uid("Team", parent)]});
    let in_team = set(
        json!({"in": {"left": {"Value": {"__entity": uid("Team", "a")}}, "right": {"Value": {"__entity": uid("Team", "b")}}}}),
    );
    let sheet = complete(&schema(), &in_team, &json!([team("a", "b"), team("b", "a")]), &request()).unwrap();
    assert_eq!(answer(&sheet), "allow true");
}

#[test]
fn entities() {
    let user = |attrs: Json, parents: Json| json!([{"uid": uid("User", "a"), "attrs": attrs, "parents": parents}]);
    let attrs = json!({"level": 1, "badges": [], "address": {"city": "Bern"}});
    let change = |name: &str, value: Json| {
        let mut attrs = attrs.clone();
        attrs[name] = value;
        of_entities(user(attrs, json!([])))
    };
    assert_eq!(
        of_entities(json!([{"uid": uid("User", "a"), "attrs": attrs}])),
        "entities.json, [0].parents: this is unknown, which a partial sheet alone may hold (--partial)"
    );
    assert_eq!(change("level", json!("high")), "entities.json, [0].attrs.level: a value of type Long should stand here");
    assert_eq!(change("size", json!(1)), "entities.json, [0].attrs: the field \"size\" is not known here");
    assert_eq!(change("address", json!({})), "entities.json, [0].attrs.address: the field \"city\" is lacking");
    assert_eq!(change("badges", json!([1])), "entities.json, [0].attrs.badges[0]: a value of type String should stand here");
    assert_eq!(change("manager", uid("Team", "t")), "entities.json, [0].attrs.manager: an entity of type User should stand here");
    assert_eq!(
        of_entities(user(attrs.clone(), json!([uid("Folder", "f")]))),
        "entities.json, [0].parents[0]: by the schema User has no parents of type Folder"
    );
    assert_eq!(
        of_entities(json!([{"uid": uid("Action", "view"), "attrs": {}, "parents": []}])),
        "entities.json, [0].uid: Action::\"view\" is an action: actions and their groups stand in the schema alone"
    );
    let twice = json!({"uid": uid("Folder", "f"), "attrs": {}, "parents": []});
    assert_eq!(of_entities(json!([twice, twice])), "entities.json, [1]: the entity Folder::\"f\" is there twice");
    assert_eq!(
        of_entities(json!([{"uid": uid("Folder", "f"), "attrs": {}, "parents": [], "tags": {"a": 1}}])),
        "entities.json, [0].tags.a: the schema does not declare tags of Folder"
    );
}

#[test]
fn requests() {
    assert_eq!(
        of_request(|request| request["action"]["id"] = json!("fly"), Mode::Complete),
        "request.json, action: the schema does not declare the action Action::\"fly\""
    );
    assert_eq!(
        of_request(|request| request["resource"] = uid("User", "a"), Mode::Partial),
        "request.json, resource: by the schema Action::\"view\" is not for a resource of type \"User\""
    );
    assert_eq!(
        of_request(|request| request["principal"] = json!({"type": "User"}), Mode::Complete),
        "request.json, principal: this is unknown, which a partial sheet alone may hold (--partial)"
    );
    assert_eq!(
        of_request(|request| request["context"] = Json::Null, Mode::Complete),
        "request.json, context: the field \"hour\" is lacking"
    );
    assert_eq!(
        of_request(|request| request["time"] = json!(1), Mode::Partial),
        "request.json: the field \"time\" is not known here"
    );
    assert_eq!(
        of_request(|request| request["principal"] = json!("User::a"), Mode::Partial),
        "request.json, principal: an entity, as {\"type\": .., \"id\": ..} or Type::\"id\", should stand here"
    );
}
