//! No error shows a byte of the refused text, however it is formatted, and no location shows its password.

use gix_url_proved::expand_path::{self, ForUser};
use gix_url_proved::parse::Error;
use gix_url_proved::testing::TestUrlExtension;
use gix_url_proved::{parse, Scheme, Url};
use std::io;

/// Texts that are refused, each for another reason, with a secret in them.
const REFUSED: [&[u8]; 8] = [
    b"ssh://user:secret@h:99999/p",
    b"ssh://user:secret@h",
    b"user-secret@h:",
    b"https://user:secret@h/\xff",
    b"https://user:secret@/p",
    b"https://user:secret@h<x/p",
    b"secret ://h/p",
    b"secret@::p",
];

/// An error, formatted in each way.
fn shown(error: &(dyn std::error::Error + 'static)) -> String {
    let below = error.source().map(shown).unwrap_or_default();
    format!("{error} {error:?} {error:#?} {error:>90} {below}")
}

/// Checks that nothing of a secret is shown, as a text or as numbers.
fn hides(shown: &str) {
    let numbers = format!("{:?}", b"secret");
    assert!(!shown.contains("secret") && !shown.contains(numbers.trim_matches(&['[', ']'][..])), "{shown}");
}

#[test]
fn errors_of_reading_hide_the_text() {
    for text in REFUSED {
        let error = parse(text).unwrap_err();
        hides(&shown(&error));
        hides(&shown(&error.refusal().unwrap()));
    }
    let long = [b"https://secret".as_slice(), &[b'a'; 3000]].concat();
    let error = parse(&long).unwrap_err();
    assert!(matches!(error, Error::TooLong { .. }));
    hides(&shown(&error));
    hides(&shown(&error.refusal().unwrap()));
}

#[test]
fn errors_keep_the_text_in_their_fields() {
    match parse(REFUSED[0]) {
        Err(Error::BadUrl { input, .. }) => assert_eq!(input, REFUSED[0]),
        _ => panic!("its port is too large"),
    }
}

#[test]
fn errors_of_other_calls_hide_the_value() {
    let helper = Scheme::Helper("-secret".into());
    hides(&shown(&Url::from_parts(helper, None, None, None, None, "/secret".into(), true).unwrap_err()));
    let parts = Url::from_parts_unchecked(Scheme::Ssh, Some("secret".into()), None, None, None, "/p".into(), false);
    hides(&shown(&parts.text().unwrap_err()));
    let unwritten: io::Error = parts.write_to(&mut io::sink()).unwrap_err();
    hides(&shown(&unwritten));
    let user = ForUser::Name("secret".into());
    hides(&shown(&expand_path::with(Some(&user), "/secret".into(), |_| None).unwrap_err()));
    let path = parse("/secret/../../secret").unwrap();
    hides(&shown(&path.canonicalized("/".as_ref()).unwrap_err()));
}

#[test]
fn a_location_hides_its_password() {
    let url = parse("https://user:secret@h/p%20q").unwrap();
    hides(&format!("{url} {url:?} {url:#?} {:?} {:?}", url.path_query_fragment(), Some(&url)));
}

#[test]
fn debug_shows_paths_as_texts() {
    let url = Url::try_from(b"/a\nb\xff\"".as_slice()).unwrap();
    assert!(format!("{url:?}").contains(r#"path: "/a\nb\xff\"""#), "{url:?}");
    let url = parse("https://h/a%20b").unwrap();
    assert!(format!("{url:?}").contains(r#"path: "/a b", spelling: Some("/a%20b")"#), "{url:?}");
}
