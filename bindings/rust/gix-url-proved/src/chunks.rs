//! Splits bytes into texts and the bytes between them that aren't UTF-8.

use std::{iter, str};

/// The texts in the bytes, each with the bytes after it that aren't part of a character.
pub(crate) fn chunks(mut bytes: &[u8]) -> impl Iterator<Item = (&str, &[u8])> {
    iter::from_fn(move || {
        let fault = match str::from_utf8(bytes) {
            Ok("") => return None,
            Ok(text) => {
                bytes = &[];
                return Some((text, bytes));
            }
            Err(fault) => fault,
        };
        let (text, suffix) = bytes.split_at(fault.valid_up_to());
        let (invalid, rest) = suffix.split_at(fault.error_len().unwrap_or(suffix.len()));
        bytes = rest;
        Some((str::from_utf8(text).unwrap_or_default(), invalid))
    })
}
