//! Conversions to locations from each type that has a text or bytes.
// Arguments have each type on purpose.
#![allow(clippy::unnecessary_to_owned)]

use gix_url_proved::bstr::{BStr, BString};
use gix_url_proved::parse::Error;
use gix_url_proved::{parse, Url};
use std::str::FromStr;

const TEXT: &str = "git@host:path";
const BYTES: &[u8; 13] = b"git@host:path";

#[test]
fn of_each_type() -> Result<(), Error> {
    let url = parse(TEXT)?;
    let byte_string: &BStr = TEXT.into();
    for made in [
        Url::try_from(TEXT),
        Url::try_from(TEXT.to_owned()),
        Url::try_from(BYTES),
        Url::try_from(BYTES.as_slice()),
        Url::try_from(BYTES.to_vec()),
        Url::try_from(byte_string),
        Url::try_from(BString::from(TEXT)),
        parse(BYTES),
        parse(BYTES.to_vec()),
        parse(byte_string),
        Url::from_bytes(byte_string),
        Url::from_bytes(BYTES.as_slice().into()),
        TEXT.parse(),
        Url::from_str(TEXT),
    ] {
        assert_eq!(made?, url);
    }
    Ok(())
}

#[test]
fn bytes_need_not_be_utf8() -> Result<(), Error> {
    assert_eq!(Url::try_from(b"/\xff")?.path, b"/\xff".as_slice());
    assert_eq!(Url::try_from(b"/\xff".to_vec())?.to_bstring(), b"/\xff".as_slice());
    Ok(())
}

#[test]
fn a_text_is_refused_with_the_same_error() {
    let error = parse("http://h:x/").unwrap_err();
    assert_eq!("http://h:x/".parse::<Url>(), Err(error.clone()));
    assert_eq!(Url::try_from(b"http://h:x/"), Err(error.clone()));
    assert_eq!(Url::try_from(b"http://h:x/".to_vec()), Err(error));
}

/// Parses a word by `FromStr`, as a library for command lines does.
fn read<T: FromStr>(word: &str) -> Result<T, T::Err> {
    word.parse()
}

#[test]
fn a_word_of_a_command_line_is_read() {
    assert_eq!(read::<Url>("host:repo").unwrap().host(), Some("host"));
    assert!(read::<Url>("").unwrap_err().to_string().contains("empty"));
}
