//! Finds the URLs that Git fetches from and pushes to, and their transports.

use super::reasons::reasons;
use super::Error;
use crate::audit::redacted;
use crate::bstr::BString;
use crate::ffi;
use std::fmt;

/// A URL after rewriting. `Debug` shows the text without secrets.
#[derive(Clone, PartialEq, Eq, Hash)]
pub struct Rewritten {
    /// The text.
    pub text: BString,
    /// The length of the base, with which the text begins, if a value of `insteadOf` or `pushInsteadOf` matched.
    pub base_len: Option<usize>,
}

impl Rewritten {
    /// Whether a value of `insteadOf` or `pushInsteadOf` matched.
    pub fn is_rewritten(&self) -> bool {
        self.base_len.is_some()
    }
}

impl fmt::Debug for Rewritten {
    fn fmt(&self, f: &mut fmt::Formatter<'_>) -> fmt::Result {
        f.debug_struct("Rewritten").field("text", &redacted(&self.text)).field("base_len", &self.base_len).finish()
    }
}

/// A remote. `Debug` shows texts without secrets.
#[derive(Clone, PartialEq, Eq, Hash)]
pub struct Remote {
    /// The URLs to fetch from. `git fetch` uses the first.
    pub urls: Vec<BString>,
    /// The URLs to push to. `git push` uses all.
    pub push_urls: Vec<BString>,
    /// The last value of `remote.<name>.vcs`.
    pub vcs: Option<BString>,
    /// The last value of `remote.<name>.proxy`.
    pub proxy: Option<BString>,
    /// The first value of `remote.<name>.uploadpack`.
    pub uploadpack: Option<BString>,
    /// The first value of `remote.<name>.receivepack`.
    pub receivepack: Option<BString>,
}

impl fmt::Debug for Remote {
    fn fmt(&self, f: &mut fmt::Formatter<'_>) -> fmt::Result {
        let hidden = |texts: &[BString]| texts.iter().map(redacted).collect::<Vec<_>>();
        f.debug_struct("Remote")
            .field("urls", &hidden(&self.urls))
            .field("push_urls", &hidden(&self.push_urls))
            .field("vcs", &self.vcs)
            .field("proxy", &self.proxy.as_ref().map(redacted))
            .field("uploadpack", &self.uploadpack)
            .field("receivepack", &self.receivepack)
            .finish()
    }
}

reasons! {
    /// Why Git has no transport for a text.
    NoTransport {
        ByteZero = "byte 0 ends the argument of a command",
        OptionLike = "a text that begins with `-` may be taken for an option",
        Rsync = "Git has no transport for `rsync:` any more",
        UnknownScheme = "the text before `://` is neither a transport nor a remote helper",
    }
}

/// The name of the transport that Git uses for a text, determined by the form of the text alone: `ssh`, `git`, `file`,
/// `http`, `https`, `ext`, or the name of another remote helper. Pass the text after rewriting. Allocates the name and
/// a buffer.
///
/// ```
/// use gix_url_proved::rules::{transport_of, Error, NoTransport};
///
/// assert_eq!(transport_of("git@h:a")?, "ssh");
/// assert_eq!(transport_of("hg::https://h/a")?, "hg");
/// assert_eq!(transport_of("rsync:a"), Err(Error::NoTransport(NoTransport::Rsync)));
/// # Ok::<(), gix_url_proved::rules::Error>(())
/// ```
///
/// # Errors
///
/// [`Error::NoTransport`] if Git has none for the text.
pub fn transport_of(text: impl AsRef<[u8]>) -> Result<String, Error> {
    ffi::transport(text.as_ref()).map_err(Error::from)
}

/// Two variables of the environment. An empty one differs from one that isn't set.
#[derive(Clone, Copy, Debug, Default, PartialEq, Eq)]
pub struct Policy<'a> {
    /// `GIT_ALLOW_PROTOCOL`, if it is set.
    pub allow_list: Option<&'a [u8]>,
    /// `GIT_PROTOCOL_FROM_USER`, if it is set.
    pub from_user: Option<&'a [u8]>,
}

/// The setting that decides about a transport.
#[derive(Clone, Copy, Debug, PartialEq, Eq, Hash)]
pub enum Decider {
    /// `GIT_ALLOW_PROTOCOL`.
    AllowList,
    /// The last `protocol.<name>.allow`, or else the last `protocol.allow`.
    Entry {
        /// The position of the entry: [`Entry::at`](super::Entry::at).
        at: usize,
    },
    /// Git's default, if nothing is configured.
    Default,
}

/// Whether Git uses a transport, and which setting decides.
#[derive(Clone, Copy, Debug, PartialEq, Eq, Hash)]
pub enum Permission {
    /// Git uses it.
    Allowed(Decider),
    /// Git refuses it.
    Refused(Decider),
    /// Git stops: the entry that decides has no value that Git knows.
    UnknownAllowance {
        /// The position of the entry: [`Entry::at`](super::Entry::at).
        at: usize,
    },
    /// Git stops: it needs `GIT_PROTOCOL_FROM_USER`, which isn't a boolean value.
    UnknownFromUser,
}

impl Permission {
    /// Whether Git uses the transport.
    pub fn is_allowed(self) -> bool {
        matches!(self, Permission::Allowed(_))
    }
}
