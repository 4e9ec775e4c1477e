//! The reason and the position of parse errors: an example of each reason, as `tools/second_reading/reason_examples.py` of the
//! repository has them, and texts with several flaws.

use gix_url_proved::parse::{Error, UrlFault, UrlKind, WriteFault};
use gix_url_proved::{parse, Reason, Refusal};
use std::collections::BTreeSet;
use UrlFault::{BadCharacter, BadPort, HostRequired, NoScheme};
use UrlKind::{Local, Scp, Url};

/// A text, and its refusal with the fault.
type Row = (&'static [u8], UrlKind, Reason, usize, usize, Option<UrlFault>);

/// An example of each reason whose text is short.
const EXAMPLES: [Row; 26] = [
    (b"", Local, Reason::Empty, 0, 0, None),
    (b"http://h/\xff", Url, Reason::NotUtf8, 9, 1, None),
    (b"http://h/a b", Url, Reason::WhiteSpace, 10, 1, Some(BadCharacter)),
    (b"http://h/%2", Url, Reason::BrokenEscape, 9, 1, Some(BadCharacter)),
    (b"://h/p", Url, Reason::SchemeMissing, 0, 0, Some(NoScheme)),
    (b"1http://h/", Url, Reason::SchemeStart, 0, 1, Some(NoScheme)),
    (b"a_b://h/", Url, Reason::SchemeCharacter, 1, 1, Some(NoScheme)),
    (b"a b:p", Scp, Reason::WhiteSpaceInHost, 1, 1, Some(BadCharacter)),
    (b"http://a\\b/", Url, Reason::Backslash, 8, 1, Some(BadCharacter)),
    (b"a\\b:p", Scp, Reason::BackslashInHost, 1, 1, Some(BadCharacter)),
    (b"ssh://h/%FF", Url, Reason::EscapesNotUtf8, 8, 3, Some(BadCharacter)),
    (b"http://[::1/p", Url, Reason::UnclosedBracket, 7, 1, Some(BadCharacter)),
    (b"http://[::1]x/", Url, Reason::BehindBracket, 12, 1, Some(BadCharacter)),
    (b"http://[h]/", Url, Reason::NotAnAddress, 8, 1, Some(BadCharacter)),
    (b"http://::1/", Url, Reason::AddressWithoutBrackets, 7, 3, Some(BadCharacter)),
    (b"http://a:b:c/", Url, Reason::SecondColon, 10, 1, Some(BadCharacter)),
    (b"http://:22/", Url, Reason::HostBeforePort, 7, 0, Some(BadCharacter)),
    (b"http://h:abc/", Url, Reason::PortNotANumber, 9, 3, Some(BadPort)),
    (b"http://h\"/", Url, Reason::HostCharacter, 8, 1, Some(BadCharacter)),
    (b"http://h:65536/", Url, Reason::PortTooLarge, 9, 5, Some(BadPort)),
    (b"http://h:0/", Url, Reason::PortZero, 9, 1, Some(BadPort)),
    (b"http://u@/p", Url, Reason::HostBehindUser, 9, 0, Some(BadCharacter)),
    (b"http://", Url, Reason::HostMissing, 7, 0, Some(HostRequired)),
    (b"ssh://h", Url, Reason::PathMissing, 7, 0, None),
    (b"file://host", Url, Reason::FilePathMissing, 11, 0, None),
    (b"host:", Scp, Reason::ScpPathMissing, 5, 0, None),
];

/// Texts with several flaws, of which the first in the order of checks is reported.
const SEVERAL: [Row; 7] = [
    (b"1x://h:x/\xff %", Url, Reason::NotUtf8, 9, 1, None),
    (b"1x://u%@h:x/ ", Url, Reason::WhiteSpace, 12, 1, Some(BadCharacter)),
    (b"1x://u%@h:x/", Url, Reason::BrokenEscape, 6, 1, Some(BadCharacter)),
    (b"http://a\\b/%FF", Url, Reason::EscapesNotUtf8, 11, 3, Some(BadCharacter)),
    (b"http://%FF:%FE@h/", Url, Reason::EscapesNotUtf8, 11, 3, Some(BadCharacter)),
    (b"x://h:/%E2%82", Url, Reason::EscapesNotUtf8, 7, 6, Some(BadCharacter)),
    (b"a b\\:", Scp, Reason::ScpPathMissing, 5, 0, None),
];

fn refusal(text: &[u8]) -> Refusal {
    parse(text).unwrap_err().refusal().expect("an error of reading has a refusal")
}

/// The form, the reason, the position and the fault of a refusal.
fn reported(refusal: Refusal) -> (UrlKind, Reason, usize, usize, Option<UrlFault>) {
    (refusal.form, refusal.reason, refusal.at, refusal.len, refusal.fault())
}

#[test]
fn each_reason_has_its_place() {
    for (text, form, reason, at, len, fault) in EXAMPLES.into_iter().chain(SEVERAL) {
        assert_eq!(reported(refusal(text)), (form, reason, at, len, fault), "{}", text.escape_ascii());
    }
}

#[test]
fn a_text_that_is_too_long_has_its_place() {
    let long = |front: &str, count| [front.as_bytes(), &vec![b'a'; count]].concat();
    let scheme = [long("", 1025), b"://h/p".to_vec()].concat();
    assert_eq!(reported(refusal(&scheme)), (Url, Reason::SchemeTooLong, 0, 1025, None));
    let found = refusal(&long("x:///", 1024));
    assert_eq!(reported(found), (Url, Reason::AuthorityTooLong, 4, 1024, None));
    assert_eq!(refusal(&[long("x://", 1025), b"://".to_vec(), long("", 3000)].concat()), found);
    // A program may build the error with another form and the whole text.
    let error = Error::MissingPath { kind: Scp, input: long("x://", 1025).into() };
    assert_eq!(error.refusal(), Some(found));
    let error = Error::TooLong { shown: long("x://", 2000).into(), total: 2004 };
    assert_eq!(error.refusal(), Some(found));
    assert_eq!(Error::TooLong { shown: "x:/".into(), total: 2000 }.refusal(), None);
}

#[test]
fn the_front_of_a_long_text_is_refused_as_the_text_is() {
    let scheme = "s".repeat(1024);
    for front in ["x", "http", &scheme, &"s".repeat(1025), &"s".repeat(3000)] {
        for (piece, count) in
            [("a", 1025), ("/", 1025), ("\\", 1025), (" ", 1025), (" /", 600), ("ö", 600), ("%", 2000)]
        {
            for end in ["", "a", "/", "/p"] {
                let text = format!("{front}://{}{end}", piece.repeat(count)).into_bytes();
                // The library gets the whole text if the error has it.
                let whole = Error::MissingPath { kind: Url, input: text.as_slice().into() };
                if let Err(error @ Error::TooLong { .. }) = parse(&text) {
                    assert_eq!(error.refusal(), whole.refusal(), "{}", text.escape_ascii());
                }
            }
        }
    }
}

#[test]
fn a_front_that_a_program_made_is_read_as_it_is() {
    let error = Error::TooLong { shown: "http://h:x/".into(), total: 2000 };
    assert_eq!(error.refusal().map(reported), Some((Url, Reason::PortNotANumber, 9, 1, Some(BadPort))));
}

#[test]
fn reasons_have_the_names_of_their_variants_and_words() {
    let mut reasons: Vec<Reason> = EXAMPLES.into_iter().map(|(_, _, reason, ..)| reason).collect();
    reasons.extend([Reason::SchemeTooLong, Reason::AuthorityTooLong]);
    for reason in &reasons {
        assert_eq!(reason.name(), format!("{reason:?}"));
        assert_eq!(reason.words(), reason.to_string());
    }
    assert_eq!(reasons.iter().map(|it| it.name()).collect::<BTreeSet<_>>().len(), 28);
    assert_eq!(reasons.iter().map(|it| it.words()).collect::<BTreeSet<_>>().len(), 28);
    assert_eq!(Reason::Empty.words(), "the text is empty");
    assert_eq!(Reason::ScpPathMissing.words(), "the path after the `:` is missing");
}

#[test]
fn other_errors_have_none() {
    for error in [
        Error::Memory,
        Error::HelperName { name: "http://h:x/".into() },
        Error::Unwritable(WriteFault::RelativeSsh),
        Error::Unresolved,
        Error::BadUrl { kind: Url, fault: BadPort, input: "http://h:1/".into() },
    ] {
        assert_eq!(error.refusal(), None, "{error}");
    }
}

#[test]
fn parts_are_refused_for_their_text() {
    let (host, path) = (Some("h".to_owned()), "/p".into());
    let error = gix_url_proved::Url::from_parts(gix_url_proved::Scheme::Http, None, None, host, Some(0), path, false);
    let found = (Url, Reason::PortZero, 9, 1, Some(BadPort));
    assert_eq!(error.unwrap_err().refusal().map(reported), Some(found), "its text is http://h:0/p");
}
