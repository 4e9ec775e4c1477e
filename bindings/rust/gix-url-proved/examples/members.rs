//! Prints the results of the library's calls for each line of the standard input, in words separated by a space: bytes
//! as hexadecimal digits after a `.`, and `-` for a missing value.

use gix_url_proved::parse::Error;
use gix_url_proved::{parse, ArgumentSafety, PathComponents, Url};
use std::io::Read;

fn bytes(bytes: &[u8]) -> String {
    bytes.iter().fold(".".to_string(), |reported, byte| reported + &format!("{byte:02x}"))
}

fn member(part: Option<&str>) -> String {
    part.map_or("-".to_string(), |part| bytes(part.as_bytes()))
}

fn port(port: Option<u16>) -> String {
    port.map_or("-".to_string(), |port| port.to_string())
}

fn judged(judged: ArgumentSafety<'_>) -> &'static str {
    match judged {
        ArgumentSafety::Absent => "absent",
        ArgumentSafety::Usable(_) => "usable",
        ArgumentSafety::Dangerous(_) => "dangerous",
    }
}

/// The path, the names and values of the query and the fragment, in one text.
fn components(parts: PathComponents<'_>) -> Vec<u8> {
    let mut reported = parts.path.to_vec();
    if let Some(query) = parts.query {
        reported.extend_from_slice(b" ?");
        for (name, value) in query {
            for (front, part, suffix) in [(" <", name, ">="), ("<", value, ">")] {
                reported.extend_from_slice(front.as_bytes());
                reported.extend_from_slice(&part);
                reported.extend_from_slice(suffix.as_bytes());
            }
        }
    }
    if let Some(fragment) = parts.fragment {
        reported.extend_from_slice(b" #");
        reported.extend_from_slice(fragment);
    }
    reported
}

fn members(url: &Url) -> String {
    let shown = url.text().map(|_| url.to_string());
    let words = [
        bytes(url.scheme.as_str().as_bytes()),
        member(url.user()),
        url.password().map_or("-", |_| "hidden").to_string(),
        member(url.host()),
        port(url.port),
        port(url.port_or_default()),
        bytes(&url.path),
        bytes(url.original_path()),
        judged(url.user_as_argument()).to_string(),
        judged(url.host_as_argument()).to_string(),
        url.path_argument_safe().map_or("withheld", |_| "usable").to_string(),
        if url.is_settled() { "settled" } else { "unsettled" }.to_string(),
        if url.agrees_with_git() { "alike" } else { "unsure" }.to_string(),
        if url.is_unambiguous() { "unambiguous" } else { "doubtful" }.to_string(),
        shown.map_or("-".to_string(), |text| bytes(text.as_bytes())),
        bytes(&components(url.path_query_fragment())),
    ];
    words.iter().fold("read".to_string(), |reported, word| reported + " " + word)
}

/// The names of the error, of its fault and of its kind, the position of the flaw and the name of the reason.
fn refusal(error: &Error) -> String {
    let names = match error {
        Error::EmptyLocal => "EmptyLocal - -".to_string(),
        Error::MissingPath { kind, .. } => format!("MissingPath - {kind:?}"),
        Error::NotUtf8 { kind, .. } => format!("NotUtf8 - {kind:?}"),
        Error::TooLong { .. } => "TooLong - -".to_string(),
        Error::BadUrl { fault, kind, .. } => format!("BadUrl {fault:?} {kind:?}"),
        other => format!("{other:?} - -"),
    };
    let place = error.refusal().map_or("- - -".to_string(), |it| format!("{} {} {}", it.at, it.len, it.reason.name()));
    format!("refused {names} {place}")
}

fn main() {
    let mut all = Vec::new();
    std::io::stdin().read_to_end(&mut all).expect("the standard input can be read");
    for line in all.strip_suffix(b"\n").unwrap_or(&all).split(|byte| *byte == b'\n') {
        println!("{}", parse(line).map_or_else(|error| refusal(&error), |url| members(&url)));
    }
}
