//! Declares and calls the exports of the static library. All `unsafe` code is here, except that of this crate's own
//! byte strings.
//!
//! Each declaration matches an export of `crates/gix_url_c/src`, and each type one of `crates/c_values/src`. A slice is
//! a pointer that isn't null and a length. Memory for results must not overlap the inputs. Each call passes slices and
//! structs that live until it returns, and the library keeps no pointer. A call returns numbers, and bytes in buffers
//! of this crate, of which no more is read than the library reports as filled. The parser returns the parts of a text
//! as slices of the text and of such a buffer. Buffers are on the stack if that is large enough, so queries allocate
//! nothing. The calls over a configuration, and over texts that Git reads, allocate their buffers, which grow.

use crate::borrowed::borrowed;
use crate::bstr::BString;
use crate::parse::{Error, UrlFault, UrlKind, WriteFault};
use crate::unambiguous::Condition;
use crate::{ArgumentSafety, PathComponents, Reason, Refusal, Scheme, Url};
use std::marker::PhantomData;
use std::mem::MaybeUninit;

const OK: u32 = 0;
const TOO_LONG: u32 = 5;
const BAD_URL: u32 = 6;
const NO_ROOM: u32 = 102;
/// The byte that fills a buffer before a call in a debug build, which checks the buffer after each error. It is rarely
/// written.
const BLANK: u8 = 0xA5;
/// The size of a buffer on the stack, in bytes.
const NEAR: usize = 1024;
/// How many bytes an error keeps of a text whose authority is too long: a scheme, `://` and an authority of the
/// greatest length.
const FRONT: usize = 1024 + 3 + 1024;
/// How many lengths of names and values fit on the stack.
const NEAR_LENGTHS: usize = 32;

/// The fields of a location that are numbers.
#[repr(C)]
#[derive(Clone, Copy, Default)]
struct Front {
    scheme: u8,
    alternative: bool,
    has_user: bool,
    has_password: bool,
    has_host: bool,
    has_port: bool,
    has_spelling: bool,
    port: u16,
}

/// The numbers of a location, and the lengths of its parts.
#[repr(C)]
#[derive(Clone, Copy, Default)]
struct Made {
    front: Front,
    name: usize,
    user: usize,
    password: usize,
    host: usize,
    path: usize,
    spelling: usize,
}

/// The details of an error.
#[repr(C)]
#[derive(Clone, Copy, Default)]
struct Problem {
    kind: u8,
    fault: u8,
    reason: u8,
    shown: usize,
    total: usize,
    at: usize,
    len: usize,
}

/// The numbers of components.
#[repr(C)]
#[derive(Clone, Copy, Default)]
pub(crate) struct Parted {
    pub(crate) has_query: bool,
    pub(crate) has_fragment: bool,
    pub(crate) path: usize,
    pub(crate) fragment: usize,
    pub(crate) pairs: usize,
    bytes: usize,
}

/// A slice, in the form that the library takes.
#[repr(C)]
#[derive(Clone, Copy)]
struct Bytes<'a> {
    at: *const u8,
    len: usize,
    borrowed: PhantomData<&'a [u8]>,
}

impl<'a> Bytes<'a> {
    fn of(bytes: &'a [u8]) -> Bytes<'a> {
        Bytes { at: bytes.as_ptr(), len: bytes.len(), borrowed: PhantomData }
    }

    /// The bytes, or none if they are missing.
    fn of_some(bytes: Option<&'a [u8]>) -> Bytes<'a> {
        Bytes::of(bytes.unwrap_or_default())
    }

    fn get(self) -> &'a [u8] {
        // SAFETY: it was made from such a slice, or the library returned it as part of slices that a call borrowed for
        // so long.
        unsafe { std::slice::from_raw_parts(self.at, self.len) }
    }
}

/// The parts of a location as slices. A missing part is empty.
#[repr(C)]
#[derive(Clone, Copy)]
struct Given<'a> {
    front: Front,
    name: Bytes<'a>,
    user: Bytes<'a>,
    password: Bytes<'a>,
    host: Bytes<'a>,
    path: Bytes<'a>,
    spelling: Bytes<'a>,
}

#[rustfmt::skip]
extern "C" {
    fn gix_url_c_read_in(input: *const u8, len: usize, buffer: *mut u8, buffer_len: usize, borrowed: &mut Given, reported: &mut Problem) -> u32;
    fn gix_url_c_from_parts(given: &Given, made: &mut Made, buffer: *mut u8, buffer_len: usize, reported: &mut Problem) -> u32;
    fn gix_url_c_is_settled(given: &Given, settled: &mut bool) -> u32;
    fn gix_url_c_agrees_with_git(given: &Given, agrees: &mut bool) -> u32;
    fn gix_url_c_unmet_condition(given: &Given, unmet: &mut u8) -> u32;
    fn gix_url_c_write(given: &Given, buffer: *mut u8, buffer_len: usize, len: &mut usize, reported: &mut Problem) -> u32;
    fn gix_url_c_components(given: &Given, reported: &mut Parted, buffer: *mut u8, buffer_len: usize, lengths: *mut usize, lengths_len: usize) -> u32;
    fn gix_url_c_argument(is_there: bool, text: *const u8, len: usize) -> u32;
    fn gix_url_c_path_argument(path: *const u8, len: usize) -> u32;
    fn gix_url_c_path_is_root(path: *const u8, len: usize) -> u32;
    fn gix_url_c_is_spelled(path: *const u8, len: usize, spelling: *const u8, spelling_len: usize) -> u32;
    fn gix_url_c_port_or_default(scheme: u8, has_port: bool, port: u16) -> u32;
    fn gix_url_c_reason_name(reason: u8, buffer: *mut u8, buffer_len: usize, len: &mut usize) -> u32;
    fn gix_url_c_reason_words(reason: u8, buffer: *mut u8, buffer_len: usize, len: &mut usize) -> u32;
}

impl<'a> Given<'a> {
    /// No parts.
    fn none() -> Given<'a> {
        let none = Bytes::of(&[]);
        Given {
            front: Front::default(),
            name: none,
            user: none,
            password: none,
            host: none,
            path: none,
            spelling: none,
        }
    }

    /// The parts in the bytes, which follow each other.
    fn made(made: &Made, mut bytes: &'a [u8]) -> Given<'a> {
        let mut part = |len| Bytes::of(next(&mut bytes, len));
        Given {
            front: made.front,
            name: part(made.name),
            user: part(made.user),
            password: part(made.password),
            host: part(made.host),
            path: part(made.path),
            spelling: part(made.spelling),
        }
    }

    fn of(url: &'a Url) -> Given<'a> {
        let text = |part: &'a Option<String>| Bytes::of(part.as_deref().unwrap_or("").as_bytes());
        let (scheme, name) = number(&url.scheme);
        Given {
            front: Front {
                scheme,
                alternative: url.serialize_alternative_form,
                has_user: url.user.is_some(),
                has_password: url.password.is_some(),
                has_host: url.host.is_some(),
                has_port: url.port.is_some(),
                has_spelling: url.spelling.is_some(),
                port: url.port.unwrap_or(0),
            },
            name: Bytes::of(name),
            user: text(&url.user),
            password: text(&url.password),
            host: text(&url.host),
            path: Bytes::of(&url.path),
            spelling: Bytes::of(url.spelling.as_ref().map_or(&[], |spelling| spelling.as_slice())),
        }
    }

    /// The number of bytes in all parts.
    fn bytes(&self) -> usize {
        [self.name, self.user, self.password, self.host, self.path].iter().map(|part| part.len).sum::<usize>()
            + self.spelling.len
    }

    /// The location with only the fields that determine its components.
    fn path_of(url: &'a Url) -> Given<'a> {
        let given = Given::of(url);
        let (scheme, has_spelling) = (given.front.scheme, given.front.has_spelling);
        let front = Front { scheme, has_spelling, ..Front::default() };
        Given { front, path: given.path, spelling: given.spelling, ..Given::none() }
    }
}

/// Calls an export with these arguments.
macro_rules! call {
    ($export:ident, $($given:expr),*) => {
        // SAFETY: the declaration above matches the export. Pointers and lengths are those of slices that are borrowed
        // for the call. Memory that the call writes is borrowed for the call alone, as `&mut`, and overlaps with
        // nothing.
        unsafe { $export($($given),*) }
    };
}

mod buffers;
mod configuration;
mod remotes;
mod settings;
mod texts;

pub(crate) use configuration::{check, read_file, read_listing, submodules};
pub(crate) use remotes::{permission, remote, rewrite_fetch, rewrite_push};
pub(crate) use settings::{credentials, settings, ssh_program};
pub(crate) use texts::{
    credential_reading, danger_name, danger_words, dangers, git_reading, resolve, secrets, ssh_words, transport,
};

/// The number of a scheme, and the name that it holds. Each has a match of its own, so that the number needs no jump.
fn number(scheme: &Scheme) -> (u8, &[u8]) {
    let number = match scheme {
        Scheme::File => 0,
        Scheme::Git => 1,
        Scheme::Ssh => 2,
        Scheme::Http => 3,
        Scheme::Https => 4,
        Scheme::Ext => 5,
        Scheme::Helper(_) => 6,
        Scheme::HelperUrl(_) => 7,
    };
    match scheme {
        Scheme::Helper(name) | Scheme::HelperUrl(name) => (number, name.as_bytes()),
        _ => (number, b""),
    }
}

/// The scheme with this number, and with this name if it holds one.
fn scheme(number: u8, name: Bytes<'_>) -> Scheme {
    match number {
        0 => Scheme::File,
        1 => Scheme::Git,
        2 => Scheme::Ssh,
        3 => Scheme::Http,
        4 => Scheme::Https,
        5 => Scheme::Ext,
        6 => Scheme::Helper(text(name)),
        _ => Scheme::HelperUrl(text(name)),
    }
}

/// Makes a call that fills the front of the buffer. Returns its number and how many bytes it needs. A debug build tests
/// that an error leaves the buffer as it was, which is proved of each call but `gix_url_c_read_in`.
fn fill(buffer: &mut [MaybeUninit<u8>], call: &mut impl FnMut(*mut u8, usize) -> (u32, usize)) -> (u32, usize) {
    if cfg!(debug_assertions) {
        buffer.fill(MaybeUninit::new(BLANK));
    }
    let (code, needed) = call(buffer.as_mut_ptr().cast(), buffer.len());
    if cfg!(debug_assertions) && code != OK {
        // SAFETY: all of the buffer was filled above.
        let is_blank = buffer.iter().all(|byte| unsafe { byte.assume_init() } == BLANK);
        assert!(is_blank, "error {code} leaves something in the buffer");
    }
    (code, needed)
}

/// Allocates a buffer that a call fills, and makes the call again with as much as it needs if the buffer was too small.
fn filled(ample: usize, mut call: impl FnMut(*mut u8, usize) -> (u32, usize)) -> (u32, Vec<u8>) {
    let mut bytes = Vec::with_capacity(ample);
    let (mut code, mut needed) = fill(bytes.spare_capacity_mut(), &mut call);
    if code == NO_ROOM {
        bytes.reserve_exact(needed);
        (code, needed) = fill(bytes.spare_capacity_mut(), &mut call);
    }
    if code == OK {
        assert!(needed <= bytes.capacity(), "the library fills no more than the buffer");
        // SAFETY: without an error the library has filled as many bytes as it reports.
        unsafe { bytes.set_len(needed) };
    }
    (code, bytes)
}

/// A buffer for the result of a call: on the stack, and allocated if that is too small.
struct Buffer {
    near: [MaybeUninit<u8>; NEAR],
    far: Vec<u8>,
}

impl Buffer {
    fn new() -> Buffer {
        Buffer { near: [MaybeUninit::uninit(); NEAR], far: Vec::new() }
    }

    /// Fills the buffer with the result of a call, for which this many bytes are ample.
    fn filled(&mut self, ample: usize, mut call: impl FnMut(*mut u8, usize) -> (u32, usize)) -> (u32, &[u8]) {
        if ample <= NEAR {
            let (code, needed) = fill(&mut self.near, &mut call);
            if code != NO_ROOM {
                let answer = &self.near[..if code == OK { needed } else { 0 }];
                // SAFETY: without an error the library has filled as many bytes as it reports, and otherwise there are
                // none.
                return (code, unsafe { std::slice::from_raw_parts(answer.as_ptr().cast(), answer.len()) });
            }
        }
        let code;
        (code, self.far) = filled(ample, call);
        (code, &self.far)
    }
}

/// Splits off the front of the bytes, and leaves the rest.
pub(crate) fn next<'a>(bytes: &mut &'a [u8], len: usize) -> &'a [u8] {
    let (front, rest) = bytes.split_at(len);
    *bytes = rest;
    front
}

/// A name, a user, a password or a host from the library, as a text.
fn text(bytes: Bytes<'_>) -> String {
    String::from_utf8(bytes.get().to_vec()).expect("names, users, passwords and hosts are UTF-8")
}

/// The location with copies of these parts.
fn located(parts: &Given<'_>) -> Url {
    let front = parts.front;
    Url {
        scheme: scheme(front.scheme, parts.name),
        user: front.has_user.then(|| text(parts.user)),
        password: front.has_password.then(|| text(parts.password)),
        host: front.has_host.then(|| text(parts.host)),
        serialize_alternative_form: front.alternative,
        port: front.has_port.then_some(front.port),
        path: parts.path.get().into(),
        spelling: front.has_spelling.then(|| parts.spelling.get().into()),
    }
}

/// The number of bytes in all parts.
fn bytes_of(made: &Made) -> usize {
    made.name + made.user + made.password + made.host + made.path + made.spelling
}

fn kind(number: u8) -> UrlKind {
    match number {
        1 => UrlKind::Url,
        2 => UrlKind::Scp,
        _ => UrlKind::Local,
    }
}

fn url_fault(number: u8) -> UrlFault {
    match number {
        1 => UrlFault::NoScheme,
        2 => UrlFault::BadPort,
        3 => UrlFault::BadCharacter,
        _ => UrlFault::HostRequired,
    }
}

fn write_fault(number: u8) -> WriteFault {
    match number {
        1 => WriteFault::HelperName,
        2 => WriteFault::HelperParts,
        3 => WriteFault::RelativeSsh,
        _ => WriteFault::UserWithoutHost,
    }
}

/// The error with this number. `input` is the refused text, and `name` that of a remote helper.
fn error(code: u32, reported: &Problem, input: impl FnOnce() -> BString, name: &[u8]) -> Error {
    match code {
        1 => Error::Memory,
        2 => Error::EmptyLocal,
        3 => Error::MissingPath { kind: kind(reported.kind), input: input() },
        4 => Error::NotUtf8 { kind: kind(reported.kind), input: input() },
        TOO_LONG => {
            let mut shown = input();
            shown.truncate(reported.shown);
            Error::TooLong { shown, total: reported.total }
        }
        BAD_URL => Error::BadUrl { kind: kind(reported.kind), fault: url_fault(reported.fault), input: input() },
        7 => Error::HelperName { name: name.into() },
        8 => Error::Unwritable(write_fault(reported.fault)),
        _ => unreachable!("every value of this crate is a location"),
    }
}

/// Parses the bytes. The library returns the parts as slices of the bytes or of a buffer, and they are copied.
pub(crate) fn read(input: &[u8]) -> Result<Url, Error> {
    let (mut borrowed, mut reported) = (Given::none(), Problem::default());
    let (mut near, mut far) = ([MaybeUninit::<u8>::uninit(); NEAR], Vec::<u8>::new());
    let buffer = if input.len() <= NEAR {
        &mut near[..input.len()]
    } else {
        far.reserve_exact(input.len());
        &mut far.spare_capacity_mut()[..input.len()]
    };
    let (code, _) = fill(buffer, &mut |buffer, len| {
        (call!(gix_url_c_read_in, input.as_ptr(), input.len(), buffer, len, &mut borrowed, &mut reported), 0)
    });
    match code {
        OK => Ok(located(&borrowed)),
        code => Err(error(code, &reported, || input.into(), &[])),
    }
}

/// The reason and the position of the parse error; `None` if the bytes are a location. They are parsed without a
/// buffer, so nothing is allocated.
pub(crate) fn refusal(input: &[u8]) -> Option<Refusal> {
    let (mut borrowed, mut reported) = (Given::none(), Problem::default());
    let code = call!(gix_url_c_read_in, input.as_ptr(), input.len(), [].as_mut_ptr(), 0, &mut borrowed, &mut reported);
    // No form is reported for a text that is too long, since only a URL can be.
    let form = if code == TOO_LONG { UrlKind::Url } else { kind(reported.kind) };
    let fault = (code == BAD_URL).then(|| url_fault(reported.fault));
    Some(Refusal { form, reason: Reason::numbered(reported.reason)?, at: reported.at, len: reported.len, fault })
}

/// The refusal of a text that is too long, of which an error keeps this front. With one more byte an authority is too
/// long again, since no path begins in the front. A scheme that is too long is in the front.
pub(crate) fn refusal_of_front(shown: &[u8]) -> Option<Refusal> {
    let mut longer = [b'a'; FRONT + 1];
    if shown.len() > FRONT {
        return refusal(shown);
    }
    longer[..shown.len()].copy_from_slice(shown);
    refusal(&longer[..=shown.len()])
}

/// The name of the reason with this number.
pub(crate) fn reason_name(reason: u8) -> String {
    said(|buffer, buffer_len, len| call!(gix_url_c_reason_name, reason, buffer, buffer_len, len))
}

/// The words of the reason with this number.
pub(crate) fn reason_words(reason: u8) -> String {
    said(|buffer, buffer_len, len| call!(gix_url_c_reason_words, reason, buffer, buffer_len, len))
}

/// The text that a call returns for a reason.
fn said(call: impl Fn(*mut u8, usize, &mut usize) -> u32) -> String {
    let (code, said) = filled(128, |buffer, buffer_len| {
        let mut len = 0;
        (call(buffer, buffer_len, &mut len), len)
    });
    assert!(code == OK, "every reason has a name and words");
    String::from_utf8(said).expect("names and words are UTF-8")
}

/// Writes these parts as one text, and returns the location that this text spells.
pub(crate) fn from_parts(parts: &Url) -> Result<Url, Error> {
    let given = Given::of(parts);
    let (mut made, mut reported, mut buffer) = (Made::default(), Problem::default(), Buffer::new());
    let (code, bytes) = buffer.filled(NEAR, |buffer, len| {
        let code = call!(gix_url_c_from_parts, &given, &mut made, buffer, len, &mut reported);
        (code, bytes_of(&made))
    });
    match code {
        OK => Ok(located(&Given::made(&made, bytes))),
        _ => Err(error(code, &reported, || write(parts).unwrap_or_default().into(), number(&parts.scheme).1)),
    }
}

/// Whether the location is in the settled class.
pub(crate) fn is_settled(url: &Url) -> bool {
    let mut settled = false;
    is_answered(call!(gix_url_c_is_settled, &Given::of(url), &mut settled)) && settled
}

/// Whether the location is in the class for which Git finds the same place in the text.
pub(crate) fn agrees_with_git(url: &Url) -> bool {
    let mut agrees = false;
    is_answered(call!(gix_url_c_agrees_with_git, &Given::of(url), &mut agrees)) && agrees
}

/// The first condition that the location doesn't meet, of those under which every reader finds the same parts in its
/// text.
pub(crate) fn unmet_condition(url: &Url) -> Option<Condition> {
    let mut unmet = 0;
    if !is_answered(call!(gix_url_c_unmet_condition, &Given::of(url), &mut unmet)) {
        return Some(Condition::Git);
    }
    (unmet != 0).then(|| Condition::numbered(unmet))
}

/// Whether a call succeeded. Its only error is that its argument isn't a location, and every value here is one.
fn is_answered(code: u32) -> bool {
    debug_assert!(code == OK, "every value of this crate is a location");
    code == OK
}

/// The text of the location.
pub(crate) fn write(url: &Url) -> Result<Vec<u8>, Error> {
    let given = Given::of(url);
    let mut reported = Problem::default();
    let (code, bytes) = filled(given.bytes() + 32, |buffer, buffer_len| {
        let mut len = 0;
        let code = call!(gix_url_c_write, &given, buffer, buffer_len, &mut len, &mut reported);
        (code, len)
    });
    match code {
        OK => Ok(bytes),
        _ => Err(error(code, &reported, BString::default, &[])),
    }
}

/// The length of the text of the location, which a call with an empty buffer returns.
pub(crate) fn text_len(url: &Url) -> Result<usize, WriteFault> {
    let (mut len, mut reported) = (0, Problem::default());
    match call!(gix_url_c_write, &Given::of(url), [].as_mut_ptr(), 0, &mut len, &mut reported) {
        OK | NO_ROOM => Ok(len),
        _ => Err(write_fault(reported.fault)),
    }
}

/// Calls a function with the text of the location. Allocates nothing if the text is short.
pub(crate) fn with_text<T>(url: &Url, take: impl FnOnce(&[u8]) -> T) -> Result<T, Error> {
    with_text_of(&Given::of(url), take)
}

/// Calls a function with the text that shows the location: the text that it has with another password, if it has one.
pub(crate) fn display<T>(url: &Url, take: impl FnOnce(&[u8]) -> T) -> Result<T, Error> {
    let mut given = Given::of(url);
    if url.password.is_some() {
        given.password = Bytes::of(b"redacted");
    }
    with_text_of(&given, take)
}

fn with_text_of<T>(given: &Given<'_>, take: impl FnOnce(&[u8]) -> T) -> Result<T, Error> {
    let (mut reported, mut buffer) = (Problem::default(), Buffer::new());
    let (code, bytes) = buffer.filled(given.bytes() + 32, |buffer, buffer_len| {
        let mut len = 0;
        let code = call!(gix_url_c_write, given, buffer, buffer_len, &mut len, &mut reported);
        (code, len)
    });
    match code {
        OK => Ok(take(bytes)),
        _ => Err(error(code, &reported, BString::default, &[])),
    }
}

/// Whether a part is safe as an argument of a command.
pub(crate) fn argument(part: Option<&str>) -> ArgumentSafety<'_> {
    let bytes = part.unwrap_or("").as_bytes();
    match (call!(gix_url_c_argument, part.is_some(), bytes.as_ptr(), bytes.len()), part) {
        (1, Some(text)) => ArgumentSafety::Usable(text),
        (2, Some(text)) => ArgumentSafety::Dangerous(text),
        _ => ArgumentSafety::Absent,
    }
}

/// Whether a path may be passed to a command.
pub(crate) fn is_path_argument(path: &[u8]) -> bool {
    call!(gix_url_c_path_argument, path.as_ptr(), path.len()) == 1
}

/// Whether a path is `/`.
pub(crate) fn is_root(path: &[u8]) -> bool {
    call!(gix_url_c_path_is_root, path.as_ptr(), path.len()) == 1
}

/// Whether the escaped path decodes to the path.
pub(crate) fn is_spelled(path: &[u8], spelling: &[u8]) -> bool {
    let answer = call!(gix_url_c_is_spelled, path.as_ptr(), path.len(), spelling.as_ptr(), spelling.len());
    debug_assert!(answer <= 1, "{answer} is neither yes nor no");
    answer == 1
}

/// The port, or else the default port of the scheme.
pub(crate) fn port_or_default(scheme: &Scheme, port: Option<u16>) -> Option<u16> {
    let reported = call!(gix_url_c_port_or_default, number(scheme).0, port.is_some(), port.unwrap_or(0));
    u16::try_from(reported).ok()
}

/// Splits the path of the location. The components that the library copies into a buffer are found in the path, and
/// borrowed.
pub(crate) fn components(url: &Url) -> Result<PathComponents<'_>, Error> {
    let given = Given::path_of(url);
    let (mut reported, mut buffer) = (Parted::default(), Buffer::new());
    let (mut near, mut far) = ([0; NEAR_LENGTHS], vec![0; 0]);
    let (code, bytes) = buffer.filled(url.path.len() + 1, |buffer, len| {
        far.resize(if reported.pairs > NEAR_LENGTHS / 2 { 2 * reported.pairs } else { 0 }, 0);
        let lengths = if far.is_empty() { &mut near[..] } else { &mut far };
        let code = call!(gix_url_c_components, &given, &mut reported, buffer, len, lengths.as_mut_ptr(), lengths.len());
        (code, reported.bytes)
    });
    match code {
        OK => Ok(borrowed(&url.path, &reported, bytes, if far.is_empty() { &near } else { &far })),
        _ => Err(error(code, &Problem::default(), BString::default, &[])),
    }
}
