//! Policies of the kinds that Cedar's users write, through the tool and the library, with the decisions worked out by hand.

mod common;

use common::*;
use serde_json::{json, Value as Json};

fn uid(kind: &str, id: &str) -> Json {
    json!({"type": kind, "id": id})
}

fn lit(value: Json) -> Json {
    json!({ "Value": value })
}

fn entity(kind: &str, id: &str) -> Json {
    lit(json!({"__entity": uid(kind, id)}))
}

fn var(name: &str) -> Json {
    json!({ "Var": name })
}

fn get(left: Json, attr: &str) -> Json {
    json!({".": {"left": left, "attr": attr}})
}

fn has(left: Json, attr: &str) -> Json {
    json!({"has": {"left": left, "attr": attr}})
}

fn op(word: &str, left: Json, right: Json) -> Json {
    json!({word: {"left": left, "right": right}})
}

fn and(left: Json, right: Json) -> Json {
    op("&&", left, right)
}

fn all() -> Json {
    json!({"op": "All"})
}

fn within(kind: &str, id: &str) -> Json {
    json!({"op": "in", "entity": uid(kind, id)})
}

fn policy(effect: &str, scope: [Json; 3], conditions: Json) -> Json {
    let [principal, action, resource] = scope;
    json!({"effect": effect, "principal": principal, "action": action, "resource": resource, "conditions": conditions})
}

/// A permit for everything under a condition.
fn when(body: Json) -> Json {
    policy("permit", [all(), all(), all()], json!([{"kind": "when", "body": body}]))
}

fn set(policies: Json) -> Json {
    json!({ "staticPolicies": policies })
}

fn user(id: &str, attrs: Json, parents: Json, tags: Json) -> Json {
    json!({"uid": uid("User", id), "attrs": attrs, "parents": parents, "tags": tags})
}

fn entities() -> Json {
    let address = json!({"city": "Bern"});
    json!([
        user("alice", json!({"level": 5, "email": "alice@firm.example", "badges": ["blue", "red"], "address": address}),
            json!([uid("Team", "juniors")]), json!({"dept": "sales"})),
        user("bob", json!({"level": 2, "badges": [], "address": address, "manager": {"__entity": uid("User", "alice")}}), json!([]), json!({})),
        {"uid": uid("Team", "juniors"), "attrs": {}, "parents": [uid("Team", "editors")]},
        {"uid": uid("Team", "editors"), "attrs": {}, "parents": []},
        {"uid": uid("Folder", "public"), "attrs": {}, "parents": []},
        {"uid": uid("Photo", "sea"), "attrs": {"owner": uid("User", "alice"), "private": false, "labels": ["open", "blue"]},
            "parents": [uid("Folder", "public")]},
        {"uid": uid("Photo", "me"), "attrs": {"owner": uid("User", "alice"), "private": true, "labels": []}, "parents": []},
    ])
}

fn view(principal: &str, resource: &str) -> Json {
    json!({"principal": uid("User", principal), "action": uid("Action", "view"), "resource": uid("Photo", resource),
        "context": {"mfa": true, "hour": 9}})
}

/// The decision and the classes of the policies on a complete sheet.
fn decide(policies: &Json, request: &Json) -> String {
    answer(&complete(&schema(), policies, &entities(), request).unwrap())
}

#[test]
fn roles_by_group() {
    let actions = json!({"op": "in", "entities": [uid("Action", "readOnly"), uid("Action", "edit")]});
    let policies = set(json!({
        "editors": policy("permit", [within("Team", "editors"), actions, within("Folder", "public")], json!([])),
        "owner": policy("permit", [all(), all(), all()],
            json!([{"kind": "when", "body": op("==", get(var("resource"), "owner"), var("principal"))}])),
    }));
    // alice is in juniors, which are in editors; view is in readOnly; sea is in the public folder. The photo is hers too.
    assert_eq!(decide(&policies, &view("alice", "sea")), "allow true true");
    assert_eq!(decide(&policies, &view("alice", "me")), "allow false true");
    assert_eq!(decide(&policies, &view("bob", "sea")), "deny false false");
}

#[test]
fn attributes_with_has() {
    let by_mail = and(
        has(var("principal"), "email"),
        json!({"like": {"left": get(var("principal"), "email"), "pattern": ["Wildcard", {"Literal": "@firm"}, {"Literal": ".example"}]}}),
    );
    let unguarded = op("==", get(var("principal"), "email"), lit(json!("x")));
    let above = op(">", op("+", get(var("principal"), "level"), lit(json!(1))), lit(json!(5)));
    let manager = json!({"has": {"left": var("principal"), "attr": ["manager", "email"]}});
    let policies = set(json!({"1": when(by_mail), "2": when(unguarded), "3": when(above), "4": when(manager)}));
    assert_eq!(decide(&policies, &view("alice", "sea")), "allow true false true false");
    // bob has no email: the second one errs. His manager alice has one.
    assert_eq!(decide(&policies, &view("bob", "sea")), "allow false error false true");
}

#[test]
fn tags() {
    let sales = and(
        op("hasTag", var("principal"), lit(json!("dept"))),
        op("==", op("getTag", var("principal"), lit(json!("dept"))), lit(json!("sales"))),
    );
    let unguarded = op("!=", op("getTag", var("principal"), lit(json!("dept"))), lit(json!("sales")));
    let policies = set(json!({"1": when(sales), "2": when(unguarded)}));
    assert_eq!(decide(&policies, &view("alice", "sea")), "allow true false");
    assert_eq!(decide(&policies, &view("bob", "sea")), "deny false error");
}

#[test]
fn sets_and_records() {
    let labels = || get(var("resource"), "labels");
    let policies = set(json!({
        "1": when(op("contains", labels(), lit(json!("open")))),
        "2": when(op("containsAll", labels(), lit(json!(["open", "blue"])))),
        "3": when(op("containsAny", labels(), get(var("principal"), "badges"))),
        "4": when(json!({"isEmpty": {"arg": labels()}})),
        "5": when(op("==", labels(), lit(json!([])))),
        "6": when(op("==", get(var("principal"), "address"), json!({"Record": {"city": lit(json!("Bern"))}}))),
        "7": when(op("contains", json!({"Set": [lit(json!(1)), get(var("principal"), "level")]}), lit(json!(5)))),
        "8": when(op("in", var("principal"), json!({"Set": [entity("Team", "nobody"), entity("User", "bob")]}))),
    }));
    assert_eq!(decide(&policies, &view("alice", "sea")), "allow true true true false false true true false");
    assert_eq!(decide(&policies, &view("bob", "me")), "allow false false false true true true false true");
}

#[test]
fn templates() {
    let slot = |op: &str, slot: &str| json!({"op": op, "slot": slot});
    let view_only = json!({"op": "==", "entity": uid("Action", "view")});
    let link = |id: &str, kind: &str, who: &str, what: &str| json!({"templateId": "grant", "newId": id, "values": {"?principal": uid(kind, who), "?resource": {"__entity": uid("Folder", what)}}});
    let policies = json!({
        "templates": {"grant": policy("permit", [slot("in", "?principal"), view_only, slot("in", "?resource")], json!([])),
            "unused": policy("permit", [slot("==", "?principal"), all(), all()], json!([]))},
        "staticPolicies": {},
        "templateLinks": [link("1", "User", "alice", "public"), link("2", "User", "bob", "public"), link("3", "Team", "editors", "public"),
            link("4", "Folder", "public", "public")],
    });
    // The fourth link has a folder for the principal: a user is in none.
    assert_eq!(decide(&policies, &view("alice", "sea")), "allow true false true false");
    assert_eq!(decide(&policies, &view("bob", "sea")), "allow false true false false");
    assert_eq!(decide(&policies, &view("bob", "me")), "deny false false false false");
    let sheet = complete(&schema(), &policies, &entities(), &view("alice", "sea")).unwrap();
    // The first two links share a root.
    assert_eq!(sheet.policies[0].root, sheet.policies[1].root);
    assert!(sheet.links[3].principal.is_some() && sheet.links[3].resource.is_some());
    // Of the last one's condition `principal in ?principal` never runs further: on a short sheet it is left alone, so the resource's slot is gone.
    let short = short(&schema(), &policies, &entities(), &view("alice", "sea")).unwrap();
    assert!(short.links[2].resource.is_some());
    assert!(short.links[3].principal.is_some() && short.links[3].resource.is_none());
    assert_eq!(answer(&short), "allow true false true false");
}

#[test]
fn a_forbid_overrides() {
    let policies = set(json!({
        "1": policy("permit", [all(), all(), all()], json!([])),
        "2": policy("forbid", [all(), all(), all()], json!([
            {"kind": "when", "body": get(var("resource"), "private")},
            {"kind": "unless", "body": op("==", get(var("resource"), "owner"), var("principal"))}])),
    }));
    assert_eq!(decide(&policies, &view("alice", "me")), "allow true false");
    assert_eq!(decide(&policies, &view("bob", "me")), "deny true true");
    assert_eq!(decide(&policies, &view("bob", "sea")), "allow true false");
}

#[test]
fn what_is_for_other_requests() {
    let edit = json!({"op": "==", "entity": uid("Action", "edit")});
    let reason = op("==", get(var("context"), "reason"), lit(json!("typo")));
    let is_team = json!({"op": "is", "entity_type": "Team"});
    let policies = set(json!({
        "1": policy("permit", [all(), edit.clone(), all()], json!([{"kind": "when", "body": reason}])),
        "2": policy("permit", [is_team, all(), all()], json!([{"kind": "when", "body": get(var("principal"), "budget")}])),
        "3": policy("permit", [json!({"op": "is", "entity_type": "User", "in": {"entity": uid("Team", "juniors")}}), all(), all()], json!([])),
    }));
    // The context of a view has no reason, and a user no budget: what does not run needs no type.
    assert_eq!(decide(&policies, &view("alice", "sea")), "allow false false true");
    let request = json!({"principal": "User::\"bob\"", "action": "Action::\"edit\"", "resource": "Photo::\"sea\"", "context": {"reason": "typo"}});
    assert_eq!(decide(&policies, &request), "allow true false false");
}

#[test]
fn partial_and_then_complete() {
    let policies = set(json!({
        "1": policy("permit", [within("Team", "editors"), all(), all()], json!([{"kind": "when", "body": get(var("context"), "mfa")}])),
        "2": policy("forbid", [all(), all(), all()], json!([{"kind": "when", "body": get(var("resource"), "private")}])),
    }));
    let some = json!([
        {"uid": uid("User", "alice"), "parents": [uid("Team", "juniors")]},
        {"uid": uid("Team", "juniors"), "attrs": {}, "parents": [uid("Team", "editors")], "tags": {}},
        {"uid": uid("Team", "editors"), "attrs": {}, "parents": [], "tags": null},
        {"uid": uid("Photo", "sea"), "attrs": {"owner": uid("User", "alice"), "private": false, "labels": []}},
    ]);
    let question = |eid: Json| json!({"principal_type": "User", "principal_eid": eid, "action": "Action::\"view\"", "resource": uid("Photo", "sea")});
    let unknown = partial(&schema(), &policies, &some, &question(Json::Null)).unwrap();
    assert_eq!(answer(&unknown), "open open false");
    let asked = partial(&schema(), &policies, &some, &question(json!("alice"))).unwrap();
    assert_eq!(answer(&asked), "open open false");

    let whole = json!([
        user("alice", json!({"level": 5, "badges": ["blue"], "address": {"city": "Bern"}}), json!([uid("Team", "juniors")]), json!({})),
        {"uid": uid("Photo", "sea"), "attrs": {"owner": uid("User", "alice"), "private": false, "labels": []}, "parents": [uid("Folder", "public")]},
        {"uid": uid("Team", "juniors"), "attrs": {}, "parents": [uid("Team", "editors")]},
        {"uid": uid("Team", "editors"), "attrs": {}, "parents": []},
    ]);
    for before in [&unknown, &asked] {
        let done = complete_after(&schema(), &policies, &whole, &view("alice", "sea"), Some(before)).unwrap();
        assert_eq!(answer(&done), "allow true false");
        let (before, done) = (before.to_string(), done.to_string());
        let finished = openrules::Evaluator::new().finish(before.as_bytes(), done.as_bytes()).result().map(str::to_string);
        assert!(finished.unwrap().starts_with("decision=allow\n"));
    }
}

#[test]
fn namespaces_and_common_types() {
    let schema = json!({"Shop": {
        "commonTypes": {"Money": {"type": "Long"}, "Order": {"type": "Record", "attributes": {"sum": {"type": "Money"}, "to": {"type": "EntityOrCommon", "name": "Client", "required": false}}}},
        "entityTypes": {"Client": {"memberOfTypes": []}, "Plan": {"enum": ["basic", "full"]}},
        "actions": {"buy": {"appliesTo": {"principalTypes": ["Client"], "resourceTypes": ["Shop::Plan"], "context": {"type": "Order"}}}},
    }});
    let policies = set(json!({
        "1": when(op("<=", get(var("context"), "sum"), lit(json!(100)))),
        "2": when(and(has(var("context"), "to"), op("==", get(var("context"), "to"), entity("Shop::Client", "c1")))),
    }));
    let request = json!({"principal": uid("Shop::Client", "c2"), "action": uid("Shop::Action", "buy"), "resource": uid("Shop::Plan", "full"),
        "context": {"sum": 100, "to": uid("Shop::Client", "c1")}});
    assert_eq!(answer(&complete(&schema, &policies, &json!([]), &request).unwrap()), "allow true true");
    let mut dear = request.clone();
    dear["context"] = json!({"sum": 101});
    assert_eq!(answer(&complete(&schema, &policies, &json!([]), &dear).unwrap()), "deny false false");
    dear["resource"] = uid("Shop::Plan", "half");
    let error = complete(&schema, &policies, &json!([]), &dear).unwrap_err().to_string();
    assert_eq!(error, "request.json, resource: the schema does not declare the entity Shop::Plan::\"half\"");
}

/// What is left of each policy on a partial sheet, as Cedar text.
fn left(policies: &Json, entities: &Json, request: &Json) -> Vec<String> {
    let sheet = partial(&schema(), policies, entities, request).unwrap().to_string();
    let answer = openrules::Evaluator::new().answer(sheet.as_bytes()).unwrap();
    answer.policies.iter().map(|policy| policy.residual.as_ref().unwrap().to_string()).collect()
}

#[test]
fn what_is_left() {
    let owner = op("==", get(var("resource"), "owner"), var("principal"));
    let night =
        op("||", op("<", get(var("context"), "hour"), lit(json!(6))), op(">=", get(var("context"), "hour"), lit(json!(22))));
    let senior = and(
        has(var("principal"), "manager"),
        op(">", get(get(var("principal"), "manager"), "level"), get(var("principal"), "level")),
    );
    let policies = set(json!({
        "1": policy("permit", [within("Team", "editors"), all(), within("Folder", "public")], json!([{"kind": "when", "body": owner}])),
        "2": policy("forbid", [all(), all(), all()], json!([{"kind": "unless", "body": get(var("context"), "mfa")}, {"kind": "when", "body": night}])),
        "3": when(senior),
        "4": when(op("containsAny", get(var("resource"), "labels"), json!({"Set": [lit(json!("open")), lit(json!("shared"))]}))),
    }));
    // Nothing is known of the principal but its type, all of the resource, nothing of the context.
    let question = json!({"principal": {"type": "User"}, "action": uid("Action", "view"), "resource": uid("Photo", "sea")});
    let owned = "principal in Team::\"editors\" && User::\"alice\" == principal";
    let dark = "!context.mfa && (context.hour < 6 || context.hour >= 22)";
    let above = "principal has manager && principal.manager.level > principal.level";
    let some = json!([
        {"uid": uid("Folder", "public"), "attrs": {}, "parents": [], "tags": {}},
        {"uid": uid("Photo", "sea"), "attrs": {"owner": uid("User", "alice"), "private": false, "labels": ["open"]},
            "parents": [uid("Folder", "public")], "tags": {}},
    ]);
    assert_eq!(left(&policies, &some, &question), [owned, dark, above, "true"]);
    // bob is in no team, and his manager alice is above him: her level is known.
    let question = json!({"principal": uid("User", "bob"), "action": uid("Action", "view"), "resource": uid("Photo", "sea")});
    assert_eq!(left(&policies, &entities(), &question), ["false", dark, "true", "true"]);
}

#[test]
fn empty_sets_and_errors() {
    let policies = set(json!({
        "1": when(json!({"isEmpty": {"arg": lit(json!([]))}})),
        "2": when(op("==", lit(json!([])), json!({"Set": []}))),
        "3": when(op("in", var("principal"), lit(json!([])))),
        "4": when(op("contains", get(var("resource"), "labels"), json!({"error": []}))),
        "5": when(op("==", json!({"Record": {"a": lit(json!(1))}}), lit(json!({"a": 1, "b": []})))),
        "6": when(op("||", has(var("principal"), "email"), json!({"error": []}))),
    }));
    assert_eq!(decide(&policies, &view("alice", "sea")), "allow true true false error false true");
    assert_eq!(decide(&policies, &view("bob", "sea")), "allow true true false error false error");
}
