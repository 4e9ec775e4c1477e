//! Locations as JSON: the rows of `vectors/` that restore a record and store it again, with the results of `gix-url`.

use gix_url_proved::expand_path::ForUser;
use gix_url_proved::{parse, Scheme, Url};
use serde_json::{from_str, to_string, Value};
use std::fs;
use std::path::Path;

/// The rows of all tables that make this call.
fn rows(call: &str) -> Vec<Value> {
    let tables = Path::new(env!("CARGO_MANIFEST_DIR")).join("../../../vectors");
    let files = fs::read_dir(tables).unwrap().map(|it| it.unwrap().path()).filter(|it| it.is_file());
    let lines: Vec<String> = files.map(|it| fs::read_to_string(it).unwrap()).collect();
    let all = lines.iter().flat_map(|it| it.lines()).filter(|line| line.starts_with('{'));
    all.map(|line| from_str::<Value>(line).unwrap()).filter(|row| row["call"] == call).collect()
}

/// A text of a row: a string, or pieces with the number of times that each is repeated.
fn text(value: &Value) -> Option<String> {
    let piece = |it: &Value| match it {
        Value::String(text) => text.clone(),
        other => other[0].as_str().unwrap().repeat(other[1].as_u64().unwrap() as usize),
    };
    match value {
        Value::String(text) => Some(text.clone()),
        other => Some(other.get("joined")?.as_array()?.iter().map(piece).collect()),
    }
}

#[test]
fn records_come_back_as_gix_url_stores_them() {
    let mut count = 0;
    for row in rows("StoredUrl:again") {
        let Some(json) = text(&row["json"]) else { continue };
        let again = from_str::<Url>(&json).map(|url| to_string(&url).unwrap());
        match text(&row["is"]) {
            Some(wanted) => assert_eq!(again.ok(), Some(wanted), "{json}"),
            None => assert!(again.is_err(), "{json}"),
        }
        count += 1;
    }
    assert!(count > 200, "{count}");
}

#[test]
fn paths_are_read_from_texts_too() {
    let json = r#"{"scheme":"File","user":null,"password":null,"host":null,"serialize_alternative_form":true,"port":null,"path":"/a"}"#;
    assert_eq!(from_str::<Url>(json).unwrap(), parse("/a").unwrap());
}

#[test]
fn what_is_read_comes_back() {
    for line in ["ssh://git@h:22/a%20b", "https://u:p@h/a%2Fb?c=d#e", "a::b", "x://h/p", "ext::sh", "h:p", "/p"] {
        let url = parse(line).unwrap();
        assert_eq!(from_str::<Url>(&to_string(&url).unwrap()).unwrap(), url);
    }
}

#[test]
fn schemes_and_users() {
    assert_eq!(to_string(&Scheme::Helper("a".into())).unwrap(), r#"{"Helper":"a"}"#);
    assert_eq!(from_str::<Scheme>(r#""Ssh""#).unwrap(), Scheme::Ssh);
    assert_eq!(to_string(&ForUser::Name("ab".into())).unwrap(), r#"{"Name":[97,98]}"#);
    assert_eq!(from_str::<ForUser>(r#""Current""#).unwrap(), ForUser::Current);
}
