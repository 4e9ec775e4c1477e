//! Finds dangers in a text that a program uses as a remote, and possible secrets in any text.
//!
//! `docs/AUDIT.md` in the repository has programs that audit untrusted remotes and submodules.

use crate::bstr::{BStr, BString, ByteSlice};
use crate::rules::Error;
use crate::words::worded;
use crate::{ffi, Url};
use std::fmt;

/// A danger in a text, or in the location that the text is parsed as. `Display` writes it in a few words, which have no
/// byte of the text.
///
/// ```
/// use gix_url_proved::audit::Danger;
///
/// assert_eq!(Danger::OptionLikeHost.name(), "option_like_host");
/// assert_eq!(Danger::OptionLikeHost.words(), "the host begins with -");
/// ```
#[derive(Clone, Copy, Debug, PartialEq, Eq, PartialOrd, Ord, Hash)]
pub enum Danger {
    /// Git runs the path: the scheme is `ext`.
    Command,
    /// The user begins with `-`.
    OptionLikeUser,
    /// The host begins with `-`.
    OptionLikeHost,
    /// The path begins with `-` or `/-`.
    OptionLikePath,
    /// There is a password.
    Password,
    /// The user, or a word of the path, may be a token.
    Token,
    /// The host has a control character or a space.
    HostCharacter,
    /// A part has a line feed, a carriage return or a byte 0.
    LineEnd,
    /// Git finds another host in the text.
    OtherHost,
    /// Other programs find another host or port in the text.
    MisreadHost,
}

impl Danger {
    /// The dangers in the order of their numbers in the library, which begin at 1.
    pub const ALL: [Danger; 10] = [
        Danger::Command,
        Danger::OptionLikeUser,
        Danger::OptionLikeHost,
        Danger::OptionLikePath,
        Danger::Password,
        Danger::Token,
        Danger::HostCharacter,
        Danger::LineEnd,
        Danger::OtherHost,
        Danger::MisreadHost,
    ];
}

worded!(Danger, ffi::danger_name, ffi::danger_words);

/// The dangers of a text that a program uses as a remote, and of the location that the text is parsed as: each once, in
/// the order of [`Danger::ALL`]. Allocates the result, and memory for the library.
///
/// ```
/// use gix_url_proved::audit::{dangers, Danger};
///
/// let text = "https://user:secret@h/-p";
/// let url = gix_url_proved::parse(text).unwrap();
/// assert_eq!(dangers(text, &url)?, [Danger::OptionLikePath, Danger::Password]);
/// # Ok::<(), gix_url_proved::rules::Error>(())
/// ```
///
/// # Errors
///
/// [`Error::Memory`].
pub fn dangers(text: impl AsRef<[u8]>, url: &Url) -> Result<Vec<Danger>, Error> {
    ffi::dangers(text.as_ref(), url)
}

/// A piece of a text.
#[derive(Clone, Copy, PartialEq, Eq, Hash)]
pub enum Piece<'a> {
    /// The piece isn't known as a secret.
    Shown(&'a BStr),
    /// The piece may be a secret.
    Hidden(&'a BStr),
}

impl<'a> Piece<'a> {
    /// The bytes of the piece.
    pub fn bytes(self) -> &'a BStr {
        match self {
            Piece::Shown(bytes) | Piece::Hidden(bytes) => bytes,
        }
    }
}

impl fmt::Debug for Piece<'_> {
    /// Writes the length of a secret in place of its bytes.
    fn fmt(&self, f: &mut fmt::Formatter<'_>) -> fmt::Result {
        match self {
            Piece::Shown(bytes) => f.debug_tuple("Shown").field(bytes).finish(),
            Piece::Hidden(bytes) => f.debug_tuple("Hidden").field(&crate::debug::Length::of(bytes)).finish(),
        }
    }
}

/// Splits a text into pieces, of which some may be secrets: passwords, and tokens of GitHub, GitLab and Bitbucket.
/// Joined, the pieces are the text. Adjacent pieces may be of one kind. The text may be a location or not, or a key or
/// a value of a configuration. Allocates the lengths of the pieces.
///
/// ```
/// use gix_url_proved::audit::{secrets, Piece};
///
/// let hidden = secrets("https://u:p@h/").filter(|piece| matches!(piece, Piece::Hidden(_)));
/// assert_eq!(hidden.collect::<Vec<_>>(), [Piece::Hidden("p".into())]);
/// ```
pub fn secrets<T: AsRef<[u8]> + ?Sized>(text: &T) -> impl Iterator<Item = Piece<'_>> {
    let mut rest = text.as_ref();
    let mut numbers = ffi::secrets(rest).into_iter();
    std::iter::from_fn(move || {
        let (len, is_hidden) = (numbers.next()?, numbers.next()? != 0);
        let piece = ffi::next(&mut rest, len).as_bstr();
        Some(if is_hidden { Piece::Hidden(piece) } else { Piece::Shown(piece) })
    })
}

/// The text with `redacted` in place of each piece that may be a secret. Allocates the result, and the lengths of the
/// pieces.
///
/// ```
/// use gix_url_proved::audit::redacted;
///
/// assert_eq!(redacted("cannot clone https://u:p@h/"), "cannot clone https://u:redacted@h/");
/// ```
pub fn redacted(text: impl AsRef<[u8]>) -> BString {
    let shown = |piece| match piece {
        Piece::Shown(bytes) => bytes.to_vec(),
        Piece::Hidden(_) => b"redacted".to_vec(),
    };
    secrets(text.as_ref()).flat_map(shown).collect()
}
