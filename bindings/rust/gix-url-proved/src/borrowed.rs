//! Borrows components from the path of a location, in which the bytes that the library copied are found again.

use crate::bstr::BStr;
use crate::ffi::{next, Parted};
use crate::{PathComponents, QueryPair};
use std::borrow::Cow;

/// How many separators of empty fields are skipped to find a name that begins with a separator itself. It keeps the
/// time of the search proportional to the length of the query.
const EMPTY_FIELDS: usize = 8;

/// The components in these bytes, borrowed from the path as far as possible.
pub(crate) fn borrowed<'a>(whole: &'a [u8], reported: &Parted, mut bytes: &[u8], lengths: &[usize]) -> PathComponents<'a> {
    // If there is no path before the query and the fragment, the path is `/`, which isn't part of `whole`.
    let path = if whole.starts_with(next(&mut bytes, reported.path)) { &whole[..reported.path] } else { b"/" };
    next(&mut bytes, reported.fragment);
    let (query, fragment) = whole.split_at(whole.len() - reported.fragment);
    let mut query = query.get(reported.path..).unwrap_or(query);
    let mut part = |len| lent_part(&mut query, next(&mut bytes, len));
    let pair = |pair: &[usize]| -> QueryPair<'a> { (part(pair[0]), part(pair[1])) };
    PathComponents {
        path: path.into(),
        query: reported.has_query.then(|| lengths[..2 * reported.pairs].chunks_exact(2).map(pair).collect()),
        fragment: reported.has_fragment.then(|| fragment.into()),
    }
}

/// A name or a value, borrowed from the query if it follows separators there. The query then begins after it.
fn lent_part<'a>(query: &mut &'a [u8], part: &[u8]) -> Cow<'a, BStr> {
    let is_same = |(raw, byte): (&u8, &u8)| raw == byte || (*raw, *byte) == (b'+', b' ');
    let separators = if part.first() == Some(&b'&') { EMPTY_FIELDS } else { query.len() };
    let place = (0..=separators).find_map(|skipped| {
        let place = query.get(skipped..skipped + part.len())?;
        place.iter().zip(part).all(is_same).then_some((skipped, place))
    });
    match place {
        Some((skipped, place)) => {
            *query = &query[skipped + part.len()..];
            if place == part {
                Cow::Borrowed(place.into())
            } else {
                Cow::Owned(part.into())
            }
        }
        None => Cow::Owned(part.into()),
    }
}
