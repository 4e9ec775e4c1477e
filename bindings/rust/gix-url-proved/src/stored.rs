//! Serializes and deserializes locations and their parts, in the format of `gix-url`. Bytes are a list of numbers, and
//! a text is accepted for them as well.

use crate::bstr::BString;
use crate::{Scheme, Url};
use serde::de::{SeqAccess, Visitor};
use serde::{Deserialize, Deserializer, Serialize, Serializer};
use std::fmt;

/// The serialized form of a location.
#[derive(Serialize)]
#[serde(rename = "Url")]
struct Shown<'a> {
    scheme: &'a Scheme,
    user: Option<&'a str>,
    password: Option<&'a str>,
    host: Option<&'a str>,
    serialize_alternative_form: bool,
    port: Option<u16>,
    path: Bytes<&'a [u8]>,
    path_with_percent_escapes: Option<Bytes<&'a [u8]>>,
}

/// The form that a location is deserialized from. An older record has no escaped path.
#[derive(Deserialize)]
#[serde(rename = "Url")]
struct Read {
    scheme: Scheme,
    user: Option<String>,
    password: Option<String>,
    host: Option<String>,
    serialize_alternative_form: bool,
    port: Option<u16>,
    path: Bytes<Vec<u8>>,
    #[serde(default)]
    path_with_percent_escapes: Option<Bytes<Vec<u8>>>,
}

impl Serialize for Url {
    fn serialize<S: Serializer>(&self, serializer: S) -> Result<S::Ok, S::Error> {
        let shown = Shown {
            scheme: &self.scheme,
            user: self.user(),
            password: self.password(),
            host: self.host(),
            serialize_alternative_form: self.serialize_alternative_form,
            port: self.port,
            path: Bytes(&self.path),
            path_with_percent_escapes: self.spelling.as_deref().map(|spelling| Bytes(spelling.as_slice())),
        };
        shown.serialize(serializer)
    }
}

impl<'de> Deserialize<'de> for Url {
    fn deserialize<D: Deserializer<'de>>(deserializer: D) -> Result<Url, D::Error> {
        let read = Read::deserialize(deserializer)?;
        let (path, spelling) = migrated(read.path.0, read.path_with_percent_escapes.map(|bytes| bytes.0));
        Ok(Url {
            scheme: read.scheme,
            user: read.user,
            password: read.password,
            host: read.host,
            serialize_alternative_form: read.serialize_alternative_form,
            port: read.port,
            path: path.into(),
            spelling: spelling.map(BString::from),
        })
    }
}

/// The path and the escaped path of a record. Older records have the escaped path in both fields, perhaps with bytes
/// that are escaped today.
fn migrated(path: Vec<u8>, spelling: Option<Vec<u8>>) -> (Vec<u8>, Option<Vec<u8>>) {
    if spelling.as_ref() != Some(&path) {
        return (path, spelling);
    }
    let (mut decoded, mut escaped) = (Vec::new(), Vec::new());
    let mut rest = path.as_slice();
    while let [first, suffix @ ..] = rest {
        match escape(rest) {
            Some(byte) => {
                decoded.push(byte);
                escaped.extend_from_slice(&rest[..3]);
                rest = &rest[3..];
            }
            None => {
                decoded.push(*first);
                push_escaped(&mut escaped, *first);
                rest = suffix;
            }
        }
    }
    (decoded, Some(escaped))
}

/// The byte of the escape at the front: `%` and two hexadecimal digits.
fn escape(bytes: &[u8]) -> Option<u8> {
    let digit = |at: usize| char::from(*bytes.get(at)?).to_digit(16);
    let value = 16 * digit(1)? + digit(2)?;
    u8::try_from(value).ok().filter(|_| bytes.first() == Some(&b'%'))
}

/// Appends a byte of the path of a URL, as an escape if the byte may not be there itself.
fn push_escaped(escaped: &mut Vec<u8>, byte: u8) {
    match byte {
        0..=b' ' | b'"' | b'%' | b'<' | b'>' | b'`' | b'{' | b'}' | 127.. => {
            escaped.extend_from_slice(format!("%{byte:02X}").as_bytes());
        }
        _ => escaped.push(byte),
    }
}

/// Serializes a byte string of another type, for the attribute `with`.
pub(crate) fn serialize<S: Serializer>(bytes: &BString, serializer: S) -> Result<S::Ok, S::Error> {
    Bytes(bytes.as_slice()).serialize(serializer)
}

/// Deserializes a byte string of another type, for the attribute `with`.
pub(crate) fn deserialize<'de, D: Deserializer<'de>>(deserializer: D) -> Result<BString, D::Error> {
    Bytes::deserialize(deserializer).map(|bytes| bytes.0.into())
}

/// Bytes of a record.
struct Bytes<T>(T);

impl Serialize for Bytes<&[u8]> {
    fn serialize<S: Serializer>(&self, serializer: S) -> Result<S::Ok, S::Error> {
        serializer.serialize_bytes(self.0)
    }
}

impl<'de> Deserialize<'de> for Bytes<Vec<u8>> {
    fn deserialize<D: Deserializer<'de>>(deserializer: D) -> Result<Bytes<Vec<u8>>, D::Error> {
        deserializer.deserialize_byte_buf(AnyBytes).map(Bytes)
    }
}

/// Accepts bytes in each form that a format has for them.
struct AnyBytes;

impl<'de> Visitor<'de> for AnyBytes {
    type Value = Vec<u8>;

    fn expecting(&self, f: &mut fmt::Formatter<'_>) -> fmt::Result {
        f.write_str("a byte string")
    }

    fn visit_bytes<E>(self, bytes: &[u8]) -> Result<Vec<u8>, E> {
        Ok(bytes.to_vec())
    }

    fn visit_str<E>(self, text: &str) -> Result<Vec<u8>, E> {
        Ok(text.as_bytes().to_vec())
    }

    fn visit_seq<A: SeqAccess<'de>>(self, mut bytes: A) -> Result<Vec<u8>, A::Error> {
        let mut all = Vec::new();
        while let Some(byte) = bytes.next_element()? {
            all.push(byte);
        }
        Ok(all)
    }
}
