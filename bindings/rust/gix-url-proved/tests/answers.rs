//! Tests the short inputs and the remotes that the binding for C is tested with too. The expected results are those of
//! the program `locations`; `pytest tests/bindings` writes those of the remotes. Also tests which bytes errors keep, the
//! order, and an escaped path that no longer decodes to the path.

use gix_url_proved::parse::{parse, Error, UrlKind};
use gix_url_proved::unambiguous::Condition;
use gix_url_proved::Url;
use std::fs;

/// The bytes of a file of the repository, which `GIX_URL_REPOSITORY` may name.
fn file(name: &str) -> Vec<u8> {
    let here = concat!(env!("CARGO_MANIFEST_DIR"), "/../../..");
    let repository = std::env::var("GIX_URL_REPOSITORY").unwrap_or(here.to_owned());
    let path = format!("{repository}/{name}");
    fs::read(&path).unwrap_or_else(|error| panic!("{path}: {error}: call pytest tests/bindings first"))
}

fn lossy(bytes: &[u8]) -> String {
    String::from_utf8_lossy(bytes).into_owned()
}

/// The error in the words of `locations`: its name, and the flaw of a URL.
fn reported_error(error: &Error) -> String {
    match error {
        Error::MissingPath { .. } => "MissingPath".to_owned(),
        Error::NotUtf8 { .. } => "NotUtf8".to_owned(),
        Error::TooLong { .. } => "TooLong".to_owned(),
        Error::BadUrl { fault, .. } => format!("BadUrl {fault:?}"),
        other => format!("{other:?}"),
    }
}

/// Checks that the refusal of an error has its form and its fault, and that its position is in the line.
fn is_placed(error: &Error, line: &[u8]) {
    let refusal = error.refusal().unwrap();
    let reported = match error {
        Error::MissingPath { kind, .. } | Error::NotUtf8 { kind, .. } => (*kind, None),
        Error::BadUrl { kind, fault, .. } => (*kind, Some(*fault)),
        Error::TooLong { .. } => (UrlKind::Url, None),
        _ => (UrlKind::Local, None),
    };
    assert_eq!((refusal.form, refusal.fault()), reported, "{}", lossy(line));
    assert!(refusal.at + refusal.len <= line.len(), "{}", lossy(line));
}

/// The output of the program `locations` for a line.
fn answer(line: &[u8]) -> Vec<u8> {
    let url = match parse(line) {
        Ok(url) => url,
        Err(error) => {
            is_placed(&error, line);
            return format!("refused\t{}", reported_error(&error)).into_bytes();
        }
    };
    comes_back(&url);
    assert!(url.is_settled() || !url.agrees_with_git());
    assert_eq!(url.agrees_with_git(), url.unmet_condition() != Some(Condition::Git));
    match url.text() {
        Ok(text) if url.is_settled() => [b"settled\t", text.as_slice()].concat(),
        Ok(_) => format!("unsettled\t{}", url.scheme).into_bytes(),
        Err(_) => format!("unwritable\t{}", url.scheme).into_bytes(),
    }
}

/// Checks that a settled location comes back from its text with the same public fields, and from its parts, which have
/// no escaped path, if those are settled.
fn comes_back(url: &Url) {
    if !url.is_settled() {
        return;
    }
    let fields = |url: &Url| {
        let mut all = Url::default();
        all.clone_from(url);
        (all.scheme, all.user, all.password, all.host, all.serialize_alternative_form, all.port, all.path)
    };
    let again = parse(url.to_bstring()).unwrap();
    assert_eq!(fields(&again), fields(url));
    let mut parts = Url::default();
    (parts.scheme, parts.user, parts.password, parts.host, parts.serialize_alternative_form, parts.port, parts.path) =
        fields(url);
    if !parts.is_settled() {
        return;
    }
    let (scheme, user, password, host, flag, port, path) = fields(url);
    let made = Url::from_parts(scheme, user, password, host, port, path, flag).unwrap();
    assert_eq!(fields(&made), fields(url));
}

fn answers_alike(inputs: &str, wanted: &str) {
    let (inputs, wanted) = (file(inputs), file(wanted));
    let lines = inputs.strip_suffix(b"\n").unwrap().split(|byte| *byte == b'\n');
    let mut answers = wanted.strip_suffix(b"\n").unwrap().split(|byte| *byte == b'\n');
    for line in lines {
        assert_eq!(lossy(&answer(line)), lossy(answers.next().unwrap()), "{}", lossy(line));
    }
    assert!(answers.next().is_none());
}

#[test]
fn short_inputs() {
    answers_alike("crates/locations/stdin", "crates/locations/stdout");
}

#[test]
fn remotes() {
    answers_alike("out/bindings/remotes", "out/bindings/remotes.wanted");
}

#[test]
fn errors_keep_what_was_refused() {
    let input = b"http://h:x/".as_slice();
    assert!(matches!(parse(input), Err(Error::BadUrl { input: kept, .. }) if kept == input));
    let long = [b"http://".as_slice(), &[b'a'; 1993]].concat();
    let shown = long[..1031].into();
    assert_eq!(parse(&long), Err(Error::TooLong { shown, total: 2000 }));
    assert_eq!(parse(b"http://user:secret@h:x/").unwrap_err().to_string(), "the URL has an invalid port");
}

#[test]
fn order_is_that_of_the_fields() {
    let urls: Vec<Url> = [
        "/b",
        "file:///b",
        "git://h/a",
        "h:a",
        "ssh://h/a",
        "ssh://u@h/a",
        "http://h/",
        "https://h/",
        "a::b",
        "x://h/",
    ]
    .iter()
    .map(|text| Url::try_from(*text).unwrap())
    .collect();
    let mut sorted = urls.clone();
    sorted.sort();
    let schemes: Vec<&str> = sorted.iter().map(|url| url.scheme.as_str()).collect();
    assert_eq!(schemes, ["file", "file", "git", "ssh", "ssh", "ssh", "http", "https", "a", "x"]);
    assert!(urls[1] < urls[0], "no flag comes first");
    assert_eq!(urls[2], urls[2].clone());
}

#[test]
fn a_spelling_that_became_the_path_lapses() {
    let mut url = parse(b"http://h/a%20b").unwrap();
    url.path = "/a%20b".into();
    assert_eq!(url.original_path(), "/a%20b");
    assert_eq!(url.to_bstring(), "http://h/a%2520b");
}
