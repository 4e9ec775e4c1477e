//! The calls over a text: its transport, its readings by Git, its dangers and secrets, the command for its location and
//! the URL of a submodule.

use super::buffers::{filled, filled_bytes, Sizes};
use super::configuration::Stop;
use super::{next, Bytes, Given, OK};
use crate::audit::Danger;
use crate::bstr::BString;
use crate::rules::{
    CredentialRequest, Error, GitPlace, NoTransport, Protocol, Resolved, SshCommand, SshRefusal, SshRequest, Unread,
    Unresolved,
};
use crate::Url;

/// How many bytes, in addition to the text that is read, how many words and how many numbers of pieces a buffer holds
/// at first.
const SHORT: usize = 64;
const WORDS: usize = 7;
const PIECES: usize = 16;
/// The number of dangers.
const DANGERS: usize = 10;

/// A request for a command of Secure Shell.
#[repr(C)]
struct GivenRequest<'a> {
    program: Bytes<'a>,
    has_program: bool,
    service: u8,
    variant: u8,
    version: u8,
    family: u8,
}

#[repr(C)]
#[derive(Default)]
struct PlaceNumbers {
    why: u8,
    protocol: u8,
    has_user: bool,
    has_host: bool,
    has_port: bool,
    port: u16,
    user: usize,
    host: usize,
    path: usize,
}

#[repr(C)]
#[derive(Default)]
struct RequestNumbers {
    is_read: bool,
    has_user: bool,
    has_password: bool,
    has_path: bool,
    protocol: usize,
    user: usize,
    password: usize,
    host: usize,
    path: usize,
}

#[repr(C)]
#[derive(Default)]
struct WordNumbers {
    refusal: u8,
    git_protocol: u8,
    words: usize,
    bytes: usize,
}

#[repr(C)]
#[derive(Default)]
struct ResolvedNumbers {
    why: u8,
    is_relative: bool,
    climbs: bool,
    len: usize,
}

#[rustfmt::skip]
extern "C" {
    fn gix_url_c_transport(text: *const u8, len: usize, buffer: *mut u8, buffer_len: usize, needed: &mut usize, why: &mut u8) -> u32;
    fn gix_url_c_git_reading(text: *const u8, len: usize, made: &mut PlaceNumbers, buffer: *mut u8, buffer_len: usize) -> u32;
    fn gix_url_c_credential_reading(text: *const u8, len: usize, made: &mut RequestNumbers, buffer: *mut u8, buffer_len: usize) -> u32;
    fn gix_url_c_ssh_words(given: &Given, request: &GivenRequest, made: &mut WordNumbers, buffer: *mut u8, buffer_len: usize, lengths: *mut usize, lengths_len: usize) -> u32;
    fn gix_url_c_resolve(parent: *const u8, parent_len: usize, url: *const u8, len: usize, made: &mut ResolvedNumbers, buffer: *mut u8, buffer_len: usize) -> u32;
    fn gix_url_c_dangers(text: *const u8, len: usize, given: &Given, buffer: *mut u8, buffer_len: usize, count: &mut usize) -> u32;
    fn gix_url_c_danger_name(danger: u8, buffer: *mut u8, buffer_len: usize, needed: &mut usize) -> u32;
    fn gix_url_c_danger_words(danger: u8, buffer: *mut u8, buffer_len: usize, needed: &mut usize) -> u32;
    fn gix_url_c_secrets(text: *const u8, len: usize, numbers: *mut usize, numbers_len: usize, count: &mut usize) -> u32;
}

/// The name of the transport of a text.
pub(crate) fn transport(text: &[u8]) -> Result<String, NoTransport> {
    let mut why = 0;
    let (code, name) = filled_bytes(SHORT, |buffer| {
        let mut needed = 0;
        let code = call!(
            gix_url_c_transport,
            text.as_ptr(),
            text.len(),
            buffer.as_mut_ptr(),
            buffer.len(),
            &mut needed,
            &mut why
        );
        (code, needed)
    });
    assert!(code == OK, "the transport of each text is found or missing");
    NoTransport::numbered(why).map_or_else(|| Ok(utf8(name)), Err)
}

/// A name from the library, as a text.
fn utf8(name: Vec<u8>) -> String {
    String::from_utf8(name).expect("names and words are UTF-8")
}

/// The place that Git finds in a text.
pub(crate) fn git_reading(text: &[u8]) -> Result<GitPlace, Error> {
    let mut made = PlaceNumbers::default();
    let (code, parts) = filled_bytes(text.len() + SHORT, |buffer| {
        let code =
            call!(gix_url_c_git_reading, text.as_ptr(), text.len(), &mut made, buffer.as_mut_ptr(), buffer.len());
        (code, made.user + made.host + made.path)
    });
    Stop::default().unless(code, || match Unread::numbered(made.why) {
        Some(why) => Err(why.into()),
        None => Ok(place(&made, &parts)),
    })?
}

/// The place with these numbers, whose parts follow each other.
fn place(made: &PlaceNumbers, mut parts: &[u8]) -> GitPlace {
    let mut part = |len| BString::from(next(&mut parts, len));
    let (user, host, path) = (part(made.user), part(made.host), part(made.path));
    GitPlace {
        protocol: match made.protocol {
            1 => Protocol::Ssh,
            2 => Protocol::Git,
            _ => Protocol::File,
        },
        user: made.has_user.then_some(user),
        host: made.has_host.then_some(host),
        port: made.has_port.then_some(made.port),
        path,
    }
}

/// The request that Git's credential code finds in a text, if it finds anything.
pub(crate) fn credential_reading(text: &[u8]) -> Result<Option<CredentialRequest>, Error> {
    let mut made = RequestNumbers::default();
    let (code, parts) = filled_bytes(text.len() + SHORT, |buffer| {
        let code = call!(
            gix_url_c_credential_reading,
            text.as_ptr(),
            text.len(),
            &mut made,
            buffer.as_mut_ptr(),
            buffer.len()
        );
        (code, made.protocol + made.user + made.password + made.host + made.path)
    });
    Stop::default().unless(code, || made.is_read.then(|| request(&made, &parts)))
}

/// The request with these numbers, whose parts follow each other.
fn request(made: &RequestNumbers, mut parts: &[u8]) -> CredentialRequest {
    let mut part = |len| BString::from(next(&mut parts, len));
    let (protocol, user, password) = (part(made.protocol), part(made.user), part(made.password));
    let (host, path) = (part(made.host), part(made.path));
    CredentialRequest {
        protocol,
        user: made.has_user.then_some(user),
        password: made.has_password.then_some(password),
        host,
        path: made.has_path.then_some(path),
    }
}

/// The command with which Git runs Secure Shell for a location.
pub(crate) fn ssh_words(url: &Url, request: &SshRequest<'_>) -> Result<SshCommand, Error> {
    let given = Given::of(url);
    let asked = GivenRequest {
        program: Bytes::of_some(request.program),
        has_program: request.program.is_some(),
        service: request.service as u8,
        variant: request.variant as u8,
        version: request.version as u8,
        family: request.family as u8,
    };
    let mut made = WordNumbers::default();
    let sizes = Sizes { bytes: given.bytes() + asked.program.len + SHORT, numbers: WORDS };
    let (code, words) = filled(sizes, |buffer, lengths| {
        let code = call!(
            gix_url_c_ssh_words,
            &given,
            &asked,
            &mut made,
            buffer.as_mut_ptr(),
            buffer.len(),
            lengths.as_mut_ptr(),
            lengths.len()
        );
        (code, Sizes { bytes: made.bytes, numbers: made.words })
    });
    Stop::default().unless(code, || {
        let mut bytes = words.bytes.as_slice();
        let words = words.numbers.iter().map(|len| next(&mut bytes, *len).into()).collect();
        let command = SshCommand { words, version: (made.git_protocol != 0).then_some(made.git_protocol) };
        SshRefusal::numbered(made.refusal).map_or(Ok(command), |why| Err(why.into()))
    })?
}

/// Resolves the URL of a submodule. The result has at most 2 bytes more than both texts together.
pub(crate) fn resolve(parent: &[u8], url: &[u8]) -> Resolved {
    let mut made = ResolvedNumbers::default();
    let (code, text) = filled_bytes(parent.len() + url.len() + 2, |buffer| {
        let code = call!(
            gix_url_c_resolve,
            parent.as_ptr(),
            parent.len(),
            url.as_ptr(),
            url.len(),
            &mut made,
            buffer.as_mut_ptr(),
            buffer.len()
        );
        (code, made.len)
    });
    assert!(code == OK, "each URL is resolved or not");
    Resolved {
        url: Unresolved::numbered(made.why).map_or_else(|| Ok(text.into()), Err),
        is_relative: made.is_relative,
        climbs: made.climbs,
    }
}

/// The dangers of a text and its location.
pub(crate) fn dangers(text: &[u8], url: &Url) -> Result<Vec<Danger>, Error> {
    let given = Given::of(url);
    let (code, numbers) = filled_bytes(DANGERS, |buffer| {
        let mut count = 0;
        let code =
            call!(gix_url_c_dangers, text.as_ptr(), text.len(), &given, buffer.as_mut_ptr(), buffer.len(), &mut count);
        (code, count)
    });
    Stop::default().unless(code, || numbers.into_iter().filter_map(Danger::numbered).collect())
}

/// The name of the danger with this number.
pub(crate) fn danger_name(danger: u8) -> String {
    said(|buffer, needed| call!(gix_url_c_danger_name, danger, buffer.as_mut_ptr(), buffer.len(), needed))
}

/// The words of the danger with this number.
pub(crate) fn danger_words(danger: u8) -> String {
    said(|buffer, needed| call!(gix_url_c_danger_words, danger, buffer.as_mut_ptr(), buffer.len(), needed))
}

/// The text that a call returns for a danger.
fn said(call: impl Fn(&mut [u8], &mut usize) -> u32) -> String {
    let (code, said) = filled_bytes(SHORT, |buffer| {
        let mut needed = 0;
        (call(buffer, &mut needed), needed)
    });
    assert!(code == OK, "every danger has a name and words");
    utf8(said)
}

/// The pieces of a text: the length of each, and 1 if it may be a secret, else 0.
pub(crate) fn secrets(text: &[u8]) -> Vec<usize> {
    let (code, pieces) = filled(Sizes::of_numbers(2 * PIECES), |_, numbers| {
        let mut count = 0;
        let code = call!(gix_url_c_secrets, text.as_ptr(), text.len(), numbers.as_mut_ptr(), numbers.len(), &mut count);
        (code, Sizes::of_numbers(2 * count))
    });
    assert!(code == OK, "each text is cut");
    pieces.numbers
}
