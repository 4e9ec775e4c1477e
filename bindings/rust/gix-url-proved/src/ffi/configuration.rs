//! The calls that read a configuration, and those over its entries and submodules.

use super::buffers::{filled, Filled, Sizes};
use super::{next, Bytes, OK};
use crate::rules::{Configuration, Entry, Error, Flaw, Span, Submodule, SubmoduleCheck, SubmoduleRefusal};

const MEMORY: u32 = 1;
const NO_VALUE: u32 = 104;
const NO_BOOLEAN: u32 = 105;
const NO_CONFIGURATION: u32 = 106;
/// How many numbers describe an entry and a submodule.
const OF_ENTRY: usize = 8;
const OF_SUBMODULE: usize = 5;

/// An entry, in the form that the library takes.
#[repr(C)]
#[derive(Clone, Copy)]
pub(super) struct GivenEntry<'a> {
    section: Bytes<'a>,
    subsection: Bytes<'a>,
    name: Bytes<'a>,
    value: Bytes<'a>,
    at: usize,
    line: usize,
    has_subsection: bool,
    has_value: bool,
}

impl<'a> GivenEntry<'a> {
    fn of(entry: &Entry<'a>) -> GivenEntry<'a> {
        GivenEntry {
            section: Bytes::of(entry.section),
            subsection: Bytes::of_some(entry.subsection.map(|it| it.as_ref())),
            name: Bytes::of(entry.name),
            value: Bytes::of_some(entry.value.map(|it| it.as_ref())),
            at: entry.at,
            line: entry.line.unwrap_or(0),
            has_subsection: entry.subsection.is_some(),
            has_value: entry.value.is_some(),
        }
    }

    /// The entries of a configuration.
    pub(super) fn all(configuration: &'a Configuration) -> Vec<GivenEntry<'a>> {
        configuration.entries().map(|entry| GivenEntry::of(&entry)).collect()
    }
}

/// The position at which Git stops, or at which a text isn't a configuration.
#[repr(C)]
#[derive(Default)]
pub(super) struct Stop {
    at: usize,
    line: usize,
    flaw: u8,
}

impl Stop {
    /// The result of a call that returned this number.
    pub(super) fn unless<T>(&self, code: u32, result: impl FnOnce() -> T) -> Result<T, Error> {
        let at = self.at;
        match code {
            OK => Ok(result()),
            MEMORY => Err(Error::Memory),
            NO_VALUE => Err(Error::NoValue { at }),
            NO_BOOLEAN => Err(Error::NoBoolean { at }),
            NO_CONFIGURATION => {
                let flaw = Flaw::numbered(self.flaw).expect("a text that isn't a configuration has a flaw");
                Err(Error::NoConfiguration { flaw, at, line: unless_zero(self.line) })
            }
            _ => unreachable!("the library takes every value of this crate"),
        }
    }
}

/// How many entries or submodules there are, and how many bytes their texts have.
#[repr(C)]
#[derive(Default)]
struct Counted {
    count: usize,
    bytes: usize,
}

/// The reasons why an entry is refused.
#[repr(C)]
#[derive(Default)]
struct CheckNumbers {
    name: u8,
    value: u8,
}

/// The entries that a call takes.
pub(super) type Entries<'a> = *const GivenEntry<'a>;

/// A call that reads a configuration.
type Reads = unsafe extern "C" fn(*const u8, usize, &mut Counted, *mut u8, usize, *mut usize, usize, &mut Stop) -> u32;

#[rustfmt::skip]
extern "C" {
    fn gix_url_c_read_listing(text: *const u8, len: usize, made: &mut Counted, buffer: *mut u8, buffer_len: usize, numbers: *mut usize, numbers_len: usize, stop: &mut Stop) -> u32;
    fn gix_url_c_read_file(text: *const u8, len: usize, made: &mut Counted, buffer: *mut u8, buffer_len: usize, numbers: *mut usize, numbers_len: usize, stop: &mut Stop) -> u32;
    fn gix_url_c_check(entry: &GivenEntry, made: &mut CheckNumbers) -> u32;
    fn gix_url_c_submodules(entries: Entries, count: usize, made: &mut Counted, buffer: *mut u8, buffer_len: usize, numbers: *mut usize, numbers_len: usize) -> u32;
}

/// A number, or `None` for 0.
fn unless_zero(number: usize) -> Option<usize> {
    (number != 0).then_some(number)
}

/// The entry with these numbers, whose parts begin at `start` in their buffer.
fn span(start: usize, numbers: &[usize]) -> Span {
    let part = |len: usize, has: usize| (has != 0).then_some(len);
    Span {
        start,
        section: numbers[0],
        subsection: part(numbers[1], numbers[6]),
        name: numbers[2],
        value: part(numbers[3], numbers[7]),
        at: numbers[4],
        line: unless_zero(numbers[5]),
    }
}

/// The configuration with these parts and numbers.
fn configuration(read: Filled) -> Configuration {
    let mut start = 0;
    let place = |numbers: &[usize]| {
        let span = span(start, numbers);
        start = span.end();
        span
    };
    let spans = read.numbers.chunks_exact(OF_ENTRY).map(place).collect();
    Configuration { bytes: read.bytes, spans }
}

/// Parses a configuration by one of the two calls, with buffers for this many bytes and entries at first.
fn read(reads: Reads, text: &[u8], bytes: usize, entries: usize) -> Result<Configuration, Error> {
    let mut stop = Stop::default();
    let (code, read) = filled(Sizes { bytes, numbers: OF_ENTRY * entries }, |buffer, numbers| {
        let mut made = Counted::default();
        let code = call!(
            reads,
            text.as_ptr(),
            text.len(),
            &mut made,
            buffer.as_mut_ptr(),
            buffer.len(),
            numbers.as_mut_ptr(),
            numbers.len(),
            &mut stop
        );
        (code, Sizes { bytes: made.bytes, numbers: OF_ENTRY * made.count })
    });
    stop.unless(code, || configuration(read))
}

/// The number of times that a byte occurs in a text.
fn count(text: &[u8], byte: u8) -> usize {
    text.iter().filter(|it| **it == byte).count()
}

/// The entries that `git config --list -z` writes, each of which ends with byte 0.
pub(crate) fn read_listing(text: &[u8]) -> Result<Configuration, Error> {
    read(gix_url_c_read_listing, text, text.len(), count(text, 0))
}

/// The entries of a configuration file. Most have a line of their own, and a `=`.
pub(crate) fn read_file(text: &[u8]) -> Result<Configuration, Error> {
    let entries = count(text, b'\n').min(count(text, b'=')) + 1;
    read(gix_url_c_read_file, text, 2 * text.len(), entries)
}

/// The reasons why `git fsck` refuses an entry.
pub(crate) fn check(entry: &Entry<'_>) -> SubmoduleCheck {
    let mut made = CheckNumbers::default();
    let code = call!(gix_url_c_check, &GivenEntry::of(entry), &mut made);
    assert!(code == OK, "every entry is checked");
    SubmoduleCheck { name: SubmoduleRefusal::numbered(made.name), value: SubmoduleRefusal::numbered(made.value) }
}

/// The submodules of a `.gitmodules` file. Each has an entry of its own.
pub(crate) fn submodules(configuration: &Configuration) -> Result<Vec<Submodule<'_>>, Error> {
    let entries = GivenEntry::all(configuration);
    let sizes = Sizes { bytes: configuration.bytes.len(), numbers: OF_SUBMODULE * entries.len() };
    let (code, listed) = filled(sizes, |buffer, numbers| {
        let mut made = Counted::default();
        let code = call!(
            gix_url_c_submodules,
            entries.as_ptr(),
            entries.len(),
            &mut made,
            buffer.as_mut_ptr(),
            buffer.len(),
            numbers.as_mut_ptr(),
            numbers.len()
        );
        (code, Sizes { bytes: made.bytes, numbers: OF_SUBMODULE * made.count })
    });
    Stop::default().unless(code, || {
        let mut names = listed.bytes.as_slice();
        let submodule = |numbers: &[usize]| Submodule {
            name: next(&mut names, numbers[0]).into(),
            path: configuration.entry(numbers[1]),
            url: configuration.entry(numbers[2]),
            update: configuration.entry(numbers[3]),
            branch: configuration.entry(numbers[4]),
        };
        listed.numbers.chunks_exact(OF_SUBMODULE).map(submodule).collect()
    })
}
