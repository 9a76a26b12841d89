//! Damaged and mixed files: an error or a sheet, never a panic; and the library accepts every sheet that comes out.
//!
//! OPENRULES_FUZZ has the number of tries, and OPENRULES_SEED the seed.

mod common;

use common::*;
use openrules::sheet::{Mode, Sheet};
use openrules::{Evaluator, Outcome};
use openrules_tools::cedar::print;
use serde_json::{json, Value as Json};

/// Numbers that a seed names.
struct Random(u64);

impl Random {
    fn below(&mut self, choices: usize) -> usize {
        self.0 = self.0.wrapping_add(11400714819323198485);
        let mut draw = self.0;
        draw = (draw ^ (draw >> 30)).wrapping_mul(0xbf58476d1ce4e5b9);
        draw = (draw ^ (draw >> 27)).wrapping_mul(0x94d049bb133111eb);
        ((draw ^ (draw >> 31)) >> 16) as usize % choices
    }
}

/// A policy set with every operation.
fn policies() -> Json {
    let all = || json!({"op": "All"});
    let uid = |kind: &str, id: &str| json!({"type": kind, "id": id});
    let var = |name: &str| json!({ "Var": name });
    let get = |left: Json, attr: &str| json!({".": {"left": left, "attr": attr}});
    let op = |word: &str, left: Json, right: Json| json!({word: {"left": left, "right": right}});
    let long = |number: i64| json!({ "Value": number });
    let level = || get(var("principal"), "level");
    let labels = || get(var("resource"), "labels");
    let team = || json!({"Value": {"__entity": uid("Team", "editors")}});
    let bodies = vec![
        op(
            "&&",
            op("<", level(), long(3)),
            op("<=", op("*", level(), long(2)), op("-", long(9), json!({"neg": {"arg": level()}}))),
        ),
        op("||", op(">", op("+", level(), long(1)), long(0)), op(">=", get(var("context"), "hour"), long(7))),
        op("contains", labels(), json!({"Value": "x"})),
        op("containsAll", labels(), json!({"Set": [{"Value": "x"}, get(get(var("principal"), "address"), "city")]})),
        op("containsAny", json!({"Value": ["x", "y"]}), labels()),
        json!({"!": {"arg": {"isEmpty": {"arg": labels()}}}}),
        json!({"if-then-else": {"if": get(var("context"), "mfa"), "then": op("in", var("principal"), team()), "else": {"Value": false}}}),
        op("==", op("getTag", var("principal"), json!({"Value": "dept"})), json!({"Value": "sales"})),
        op("hasTag", var("principal"), json!({"Value": "dept"})),
        json!({"has": {"left": var("principal"), "attr": "email"}}),
        json!({"has": {"left": var("principal"), "attr": ["manager", "address", "zip"]}}),
        json!({"like": {"left": get(get(var("principal"), "address"), "city"), "pattern": ["Wildcard", {"Literal": "er"}, "Wildcard"]}}),
        json!({"is": {"left": var("principal"), "entity_type": "User", "in": team()}}),
        op("!=", get(var("principal"), "address"), json!({"Record": {"city": {"Value": "Bern"}, "zip": {"Value": "3000"}}})),
        op("in", var("action"), json!({"Value": [{"__entity": uid("Action", "readOnly")}]})),
        op("in", get(var("resource"), "owner"), json!({"Set": [team(), {"Value": {"__entity": uid("User", "b")}}]})),
    ];
    let scope = |body: &Json, n: usize| {
        let principal =
            [all(), json!({"op": "in", "entity": uid("Team", "editors")}), json!({"op": "is", "entity_type": "User"})][n % 3]
                .clone();
        let action = [all(), json!({"op": "==", "entity": uid("Action", "view")})][n % 2].clone();
        let kind = ["when", "unless"][n % 2];
        let effect = ["permit", "forbid"][n / 2 % 2];
        json!({"effect": effect, "principal": principal, "action": action, "resource": all(), "conditions": [{"kind": kind, "body": body}]})
    };
    let fixed: serde_json::Map<_, _> = bodies.iter().enumerate().map(|(n, body)| (format!("p{n:02}"), scope(body, n))).collect();
    let template = json!({"effect": "permit", "principal": {"op": "==", "slot": "?principal"}, "action": all(),
        "resource": {"op": "in", "slot": "?resource"}, "conditions": []});
    let link = |id: &str, who: &str| json!({"templateId": "t", "newId": id, "values": {"?principal": uid("User", who), "?resource": uid("Folder", "f")}});
    json!({"staticPolicies": fixed, "templates": {"t": template}, "templateLinks": [link("l1", "a"), link("l2", "b")]})
}

fn entities() -> Json {
    let uid = |kind: &str, id: &str| json!({"type": kind, "id": id});
    json!([
        {"uid": uid("User", "a"), "attrs": {"level": 1, "badges": ["x"], "address": {"city": "Bern"}, "manager": uid("User", "b")},
            "parents": [uid("Team", "editors")], "tags": {"dept": "sales"}},
        {"uid": uid("Team", "editors"), "attrs": {}, "parents": [uid("Team", "editors")], "tags": {}},
        {"uid": uid("Photo", "p"), "attrs": {"owner": uid("User", "a"), "private": false, "labels": ["x"]}, "parents": [uid("Folder", "f")]},
    ])
}

fn request() -> Json {
    json!({"principal": {"type": "User", "id": "a"}, "action": {"type": "Action", "id": "view"}, "resource": {"type": "Photo", "id": "p"},
        "context": {"mfa": true, "hour": 9}})
}

/// Every part of a value, from the whole on.
fn parts<'a>(json: &'a Json, all: &mut Vec<&'a Json>) {
    all.push(json);
    match json {
        Json::Array(items) => items.iter().for_each(|item| parts(item, all)),
        Json::Object(fields) => fields.values().for_each(|field| parts(field, all)),
        _ => (),
    }
}

/// The part with this number, to be changed.
fn part<'a>(json: &'a mut Json, number: &mut usize) -> Option<&'a mut Json> {
    if *number == 0 {
        return Some(json);
    }
    *number -= 1;
    match json {
        Json::Array(items) => items.iter_mut().find_map(|item| part(item, number)),
        Json::Object(fields) => fields.values_mut().find_map(|field| part(field, number)),
        _ => None,
    }
}

/// Puts something else in the place of a part.
fn change(json: &mut Json, donors: &[&Json], random: &mut Random) {
    let mut all = vec![];
    parts(json, &mut all);
    let mut number = random.below(all.len());
    let Some(target) = part(json, &mut number) else { return };
    let odd = [
        json!(null),
        json!(0),
        json!(-1),
        json!(1.5),
        json!(""),
        json!([]),
        json!({}),
        json!(true),
        json!(i64::MIN),
        json!("\u{e4}"),
        json!("x".repeat(129)),
    ];
    match (random.below(5), target) {
        (0, target) => *target = odd[random.below(odd.len())].clone(),
        (1, Json::Object(fields)) if !fields.is_empty() => {
            let name = fields.keys().nth(random.below(fields.len())).cloned().unwrap_or_default();
            let field = fields.remove(&name).unwrap_or_default();
            if random.below(2) == 0 {
                fields.insert(name + "s", field);
            }
        }
        (2, Json::Array(items)) if !items.is_empty() => {
            let copy = items[random.below(items.len())].clone();
            items.push(copy);
        }
        (_, target) => {
            let mut from = vec![];
            parts(donors[random.below(donors.len())], &mut from);
            *target = from[random.below(from.len())].clone();
        }
    }
}

/// Damages some bytes.
fn damage(text: &mut Vec<u8>, random: &mut Random) {
    let place = random.below(text.len());
    match random.below(4) {
        0 => text.truncate(place),
        1 => text[place] = random.below(256) as u8,
        2 => {
            text.remove(place);
        }
        _ => text.insert(place, b"{}[]\",:0-"[random.below(9)]),
    }
}

/// The decision, and the policies' ids and classes in the order of the ids.
fn by_id(sheet: &Sheet) -> (String, Vec<(String, String)>) {
    let said = answer(sheet);
    let mut words = said.split(' ').map(str::to_string);
    let decision = words.next().unwrap_or_default();
    let mut classes: Vec<_> = sheet.policies.iter().map(|policy| sheet.texts[policy.id].clone()).zip(words).collect();
    classes.sort();
    (decision, classes)
}

/// The residuals of a partial sheet as JSON, beside the same other files, are read as the same trees, but for parts that never run and have no type.
fn residuals_again(sheet: &Sheet, texts: &[Vec<u8>; 4], evaluator: &mut Evaluator, counts: &mut [usize; 2]) {
    let answer = evaluator.answer(sheet.to_string().as_bytes()).unwrap();
    let printed = print::residuals(sheet, &answer).unwrap().to_string();
    let again = from_text([&texts[0], printed.as_bytes(), &texts[2], &texts[3]], Mode::Partial, None);
    let again = again.unwrap_or_else(|error| panic!("{error}\n{sheet}\n{printed}"));
    let rules = again.rules().unwrap();
    let second = evaluator.answer(again.to_string().as_bytes()).unwrap();
    assert_eq!(second.decision, answer.decision, "{sheet}\n{printed}");
    for policy in &answer.policies {
        let other = second.policies.iter().find(|other| other.id == policy.id).unwrap();
        assert_eq!((other.effect, other.class), (policy.effect, policy.class), "{sheet}\n{printed}");
        let rule = rules.iter().find(|rule| rule.id == policy.id).unwrap();
        counts[usize::from(Some(&rule.condition) != policy.residual.as_ref())] += 1;
    }
}

/// The policies as JSON again, beside the same other files, give the same answer, and so does what is left of them.
fn again(sheet: &Sheet, texts: &[Vec<u8>; 4], evaluator: &mut Evaluator, counts: &mut [usize; 2]) {
    let printed = print::policies(sheet).unwrap().to_string();
    let again = from_text([&texts[0], printed.as_bytes(), &texts[2], &texts[3]], sheet.mode, None);
    let again = again.unwrap_or_else(|error| panic!("{error}\n{sheet}\n{printed}"));
    assert_eq!(by_id(&again), by_id(sheet), "{sheet}\n{printed}");
    if sheet.links.is_empty() {
        assert_eq!(again, *sheet, "{printed}");
    }
    if sheet.mode == Mode::Partial {
        residuals_again(sheet, texts, evaluator, counts);
    }
}

/// Sheets as they come out of changed files: accepted, and the same again. Of many tries every sixteenth sheet goes the way back.
#[test]
fn never_a_panic() {
    let number = |name: &str, else_: u64| std::env::var(name).ok().and_then(|text| text.parse().ok()).unwrap_or(else_);
    let tries = number("OPENRULES_FUZZ", 200);
    let mut random = Random(number("OPENRULES_SEED", 1));
    let whole = [schema(), policies(), entities(), request()];
    let donors = whole.each_ref();
    let texts = whole.each_ref().map(Json::to_string);
    let base = from_text([0, 1, 2, 3].map(|place| texts[place].as_bytes()), Mode::Complete, None);
    assert!(base.is_ok(), "{}", base.unwrap_err());
    let mut evaluator = Evaluator::new();
    let mut sheets = 0;
    let mut counts = [0; 2];
    for _ in 0..tries {
        let mut files = whole.clone();
        if random.below(2) == 0 {
            files[1] = json!({"staticPolicies": files[1]["staticPolicies"]});
        }
        for _ in 0..random.below(4) {
            let file = [1, 1, 1, 0, 2, 3][random.below(6)];
            change(&mut files[file], &donors, &mut random);
        }
        let mut texts = files.map(|file| file.to_string().into_bytes());
        if random.below(8) == 0 {
            damage(&mut texts[random.below(4)], &mut random);
        }
        let mode = [Mode::Complete, Mode::Partial][random.below(2)];
        match from_text([0, 1, 2, 3].map(|place| texts[place].as_slice()), mode, None) {
            Err(error) => assert!(!error.to_string().is_empty()),
            Ok(sheet) => {
                sheets += 1;
                let text = sheet.to_string();
                let outcome = match mode {
                    Mode::Complete => evaluator.complete(text.as_bytes()),
                    Mode::Partial => evaluator.partial(text.as_bytes()),
                };
                if let Outcome::Refused(refusal) = outcome {
                    let files = texts.map(|text| String::from_utf8_lossy(&text).into_owned()).join("\n");
                    panic!("{refusal}\n{text}\n{files}");
                }
                if tries <= 1000 || random.below(16) == 0 {
                    again(&sheet, &texts, &mut evaluator, &mut counts);
                }
            }
        }
    }
    let [same, other] = counts;
    println!("{tries} tries, {sheets} sheets; residuals: {same} read as the same trees, {other} in another order or with a part left away");
    assert!(sheets > 0);
}
