//! Byte strings: the items of the crate `bstr` that this crate needs, with the same names and traits, for builds
//! without the feature `bstr`.
//!
//! A byte string is text by convention: bytes that usually are UTF-8 and don't have to be.
//!
//! ```
//! use gix_url_proved::bstr::{BStr, BString, ByteSlice};
//!
//! let path = BString::from("/repo");
//! assert_eq!(path, "/repo");
//! assert_eq!(format!("{path} {path:?}"), "/repo \"/repo\"");
//! let path: &BStr = path.as_ref();
//! assert_eq!(path.to_str(), Ok("/repo"));
//! ```

use crate::chunks::chunks;
use std::borrow::{Borrow, BorrowMut, Cow};
use std::cmp::Ordering;
use std::ffi::OsStr;
use std::fmt::{self, Write};
use std::ops::{Deref, DerefMut};
use std::os::unix::ffi::OsStrExt;
use std::path::Path;
use std::str::Utf8Error;

/// A borrowed byte string.
#[derive(PartialEq, Eq, PartialOrd, Ord, Hash)]
#[repr(transparent)]
pub struct BStr([u8]);

/// A growable byte string.
#[derive(Clone, Default, PartialEq, Eq, PartialOrd, Ord, Hash)]
pub struct BString(Vec<u8>);

impl BStr {
    /// These bytes as a byte string.
    pub fn new<B: AsRef<[u8]> + ?Sized>(bytes: &B) -> &BStr {
        let bytes: *const [u8] = bytes.as_ref();
        // SAFETY: a `BStr` is laid out as the slice that it is made of, and is borrowed for as long.
        unsafe { &*(bytes as *const BStr) }
    }

    fn new_mut(bytes: &mut [u8]) -> &mut BStr {
        let bytes: *mut [u8] = bytes;
        // SAFETY: as in `new`.
        unsafe { &mut *(bytes as *mut BStr) }
    }
}

impl BString {
    /// A byte string of these bytes.
    pub const fn new(bytes: Vec<u8>) -> BString {
        BString(bytes)
    }
}

/// Methods of bytes that are text by convention.
pub trait ByteSlice {
    #[doc(hidden)]
    fn all(&self) -> &[u8];

    /// These bytes as a byte string.
    fn as_bstr(&self) -> &BStr {
        BStr::new(self.all())
    }

    /// The bytes themselves.
    fn as_bytes(&self) -> &[u8] {
        self.all()
    }

    /// The bytes as a text, without a copy.
    ///
    /// # Errors
    ///
    /// Returns an error if the bytes are not UTF-8.
    fn to_str(&self) -> Result<&str, Utf8Error> {
        std::str::from_utf8(self.all())
    }

    /// The text, with U+FFFD in place of bytes that are not UTF-8. It is borrowed if all bytes are UTF-8.
    fn to_str_lossy(&self) -> Cow<'_, str> {
        String::from_utf8_lossy(self.all())
    }

    /// The bytes as a file name of a Unix system, which may be any bytes.
    ///
    /// # Errors
    ///
    /// None on a Unix system.
    fn to_os_str(&self) -> Result<&OsStr, Utf8Error> {
        Ok(OsStr::from_bytes(self.all()))
    }

    /// The bytes as a path of a Unix system, which may be any bytes.
    ///
    /// # Errors
    ///
    /// None on a Unix system.
    fn to_path(&self) -> Result<&Path, Utf8Error> {
        self.to_os_str().map(Path::new)
    }

    /// Whether the bytes begin with `front`.
    fn starts_with_str<B: AsRef<[u8]>>(&self, front: B) -> bool {
        self.all().starts_with(front.as_ref())
    }

    /// Whether the bytes end with `end`.
    fn ends_with_str<B: AsRef<[u8]>>(&self, end: B) -> bool {
        self.all().ends_with(end.as_ref())
    }

    /// The index of the first byte with this value, if there is one.
    fn find_byte(&self, byte: u8) -> Option<usize> {
        self.all().iter().position(|it| *it == byte)
    }
}

impl ByteSlice for [u8] {
    fn all(&self) -> &[u8] {
        self
    }
}

/// Methods of byte strings that grow.
pub trait ByteVec {
    /// Appends bytes.
    fn push_str<B: AsRef<[u8]>>(&mut self, bytes: B);
    /// Appends a byte.
    fn push_byte(&mut self, byte: u8);
    /// Appends a character in UTF-8.
    fn push_char(&mut self, character: char) {
        self.push_str(character.encode_utf8(&mut [0; 4]));
    }
}

impl ByteVec for Vec<u8> {
    fn push_str<B: AsRef<[u8]>>(&mut self, bytes: B) {
        self.extend_from_slice(bytes.as_ref());
    }

    fn push_byte(&mut self, byte: u8) {
        self.push(byte);
    }
}

impl fmt::Display for BStr {
    /// Writes U+FFFD in place of each piece that is not UTF-8, and with an alignment pads to a width.
    fn fmt(&self, f: &mut fmt::Formatter<'_>) -> fmt::Result {
        let text = String::from_utf8_lossy(&self.0);
        let align = match f.align() {
            Some(align) => align,
            None => return f.write_str(&text),
        };
        let missing = f.width().unwrap_or(0).saturating_sub(text.chars().count());
        let before = match align {
            fmt::Alignment::Left => 0,
            fmt::Alignment::Right => missing,
            fmt::Alignment::Center => missing / 2,
        };
        let fill = f.fill();
        (0..before).try_for_each(|_| f.write_char(fill))?;
        f.write_str(&text)?;
        (before..missing).try_for_each(|_| f.write_char(fill))
    }
}

impl fmt::Debug for BStr {
    /// Writes the text in quotes, with an escape for each character that doesn't print and each byte that isn't part of
    /// a character.
    fn fmt(&self, f: &mut fmt::Formatter<'_>) -> fmt::Result {
        f.write_char('"')?;
        for (text, invalid) in chunks(&self.0) {
            for character in text.chars() {
                match character {
                    '\0' => f.write_str("\\0")?,
                    '\t' | '\n' | '\r' => write!(f, "{}", character.escape_debug())?,
                    control if control.is_ascii_control() => write!(f, "\\x{:02x}", u32::from(control))?,
                    other => write!(f, "{}", other.escape_debug())?,
                }
            }
            invalid.iter().try_for_each(|byte| write!(f, "\\x{byte:02X}"))?;
        }
        f.write_char('"')
    }
}

impl fmt::Display for BString {
    fn fmt(&self, f: &mut fmt::Formatter<'_>) -> fmt::Result {
        fmt::Display::fmt(self.as_bstr(), f)
    }
}

impl fmt::Debug for BString {
    fn fmt(&self, f: &mut fmt::Formatter<'_>) -> fmt::Result {
        fmt::Debug::fmt(self.as_bstr(), f)
    }
}

impl Deref for BStr {
    type Target = [u8];

    fn deref(&self) -> &[u8] {
        &self.0
    }
}

impl DerefMut for BStr {
    fn deref_mut(&mut self) -> &mut [u8] {
        &mut self.0
    }
}

impl Deref for BString {
    type Target = Vec<u8>;

    fn deref(&self) -> &Vec<u8> {
        &self.0
    }
}

impl DerefMut for BString {
    fn deref_mut(&mut self) -> &mut Vec<u8> {
        &mut self.0
    }
}

impl ToOwned for BStr {
    type Owned = BString;

    fn to_owned(&self) -> BString {
        BString(self.0.to_vec())
    }
}

impl Borrow<BStr> for BString {
    fn borrow(&self) -> &BStr {
        self.as_bstr()
    }
}

impl BorrowMut<BStr> for BString {
    fn borrow_mut(&mut self) -> &mut BStr {
        BStr::new_mut(&mut self.0)
    }
}

impl AsRef<[u8]> for BStr {
    fn as_ref(&self) -> &[u8] {
        &self.0
    }
}

impl AsRef<BStr> for BStr {
    fn as_ref(&self) -> &BStr {
        self
    }
}

impl AsRef<BStr> for [u8] {
    fn as_ref(&self) -> &BStr {
        BStr::new(self)
    }
}

impl AsRef<BStr> for str {
    fn as_ref(&self) -> &BStr {
        BStr::new(self)
    }
}

impl AsRef<[u8]> for BString {
    fn as_ref(&self) -> &[u8] {
        &self.0
    }
}

impl AsRef<BStr> for BString {
    fn as_ref(&self) -> &BStr {
        self.as_bstr()
    }
}

impl Default for &BStr {
    fn default() -> Self {
        BStr::new("")
    }
}

/// Conversions from types that have bytes: the type, and the expression that copies or takes its bytes.
macro_rules! from {
    ($($given:ty: $bytes:expr),*) => {
        $(impl From<$given> for BString {
            fn from(given: $given) -> BString {
                BString($bytes(given))
            }
        })*
    };
}

from!(Vec<u8>: |it| it, String: String::into_bytes, &[u8]: <[u8]>::to_vec, &str: |it: &str| it.as_bytes().to_vec(),
    &BStr: |it: &BStr| it.0.to_vec(), Cow<'_, BStr>: |it: Cow<'_, BStr>| it.into_owned().0, Box<[u8]>: <[u8]>::into_vec);

impl<const COUNT: usize> From<&[u8; COUNT]> for BString {
    fn from(bytes: &[u8; COUNT]) -> BString {
        BString(bytes.to_vec())
    }
}

impl From<BString> for Vec<u8> {
    fn from(string: BString) -> Vec<u8> {
        string.0
    }
}

impl<'a> From<&'a [u8]> for &'a BStr {
    fn from(bytes: &'a [u8]) -> &'a BStr {
        BStr::new(bytes)
    }
}

impl<'a, const COUNT: usize> From<&'a [u8; COUNT]> for &'a BStr {
    fn from(bytes: &'a [u8; COUNT]) -> &'a BStr {
        BStr::new(bytes)
    }
}

impl<'a> From<&'a str> for &'a BStr {
    fn from(text: &'a str) -> &'a BStr {
        BStr::new(text)
    }
}

impl<'a> From<&'a BStr> for Cow<'a, BStr> {
    fn from(string: &'a BStr) -> Cow<'a, BStr> {
        Cow::Borrowed(string)
    }
}

impl From<BString> for Cow<'_, BStr> {
    fn from(string: BString) -> Self {
        Cow::Owned(string)
    }
}

impl TryFrom<BString> for String {
    type Error = std::string::FromUtf8Error;

    fn try_from(string: BString) -> Result<String, Self::Error> {
        String::from_utf8(string.0)
    }
}

impl FromIterator<u8> for BString {
    fn from_iter<T: IntoIterator<Item = u8>>(bytes: T) -> BString {
        BString(bytes.into_iter().collect())
    }
}

/// Equality and order with other types, by the bytes.
macro_rules! compared {
    ($($one:ty, $other:ty);* $(;)?) => {
        $(
            impl PartialEq<$other> for $one {
                fn eq(&self, other: &$other) -> bool {
                    AsRef::<[u8]>::as_ref(self) == AsRef::<[u8]>::as_ref(other)
                }
            }

            impl PartialEq<$one> for $other {
                fn eq(&self, other: &$one) -> bool {
                    other == self
                }
            }

            impl PartialOrd<$other> for $one {
                fn partial_cmp(&self, other: &$other) -> Option<Ordering> {
                    AsRef::<[u8]>::as_ref(self).partial_cmp(AsRef::<[u8]>::as_ref(other))
                }
            }

            impl PartialOrd<$one> for $other {
                fn partial_cmp(&self, other: &$one) -> Option<Ordering> {
                    other.partial_cmp(self).map(Ordering::reverse)
                }
            }
        )*
    };
}

compared! {
    BStr, [u8]; BStr, &[u8]; BStr, str; BStr, &str; BStr, Vec<u8>; BStr, String;
    BString, [u8]; BString, &[u8]; BString, str; BString, &str; BString, Vec<u8>; BString, String;
    BString, BStr; BString, &BStr;
}

/// Equality with bytes that are borrowed or owned.
macro_rules! compared_with_cows {
    ($($other:ty),*) => {
        $(
            impl PartialEq<$other> for Cow<'_, BStr> {
                fn eq(&self, other: &$other) -> bool {
                    self.0 == other.0
                }
            }

            impl PartialEq<Cow<'_, BStr>> for $other {
                fn eq(&self, other: &Cow<'_, BStr>) -> bool {
                    self.0 == other.0
                }
            }
        )*
    };
}

compared_with_cows!(BStr, &BStr);
