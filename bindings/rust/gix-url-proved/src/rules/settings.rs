//! Settings of `http.*` and `credential.*` for a URL.

use super::reasons::reasons;
use super::Entry;
use crate::bstr::BString;

reasons! {
    /// Why a URL has no normal form. No entry with a URL applies to it then.
    Abnormal {
        NoUrl = "no scheme and `://` begin the text",
        BrokenEscape = "a `%` without two hexadecimal digits",
        NoHost = "no host",
        BadHost = "a byte that no host has",
        BadPort = "no port",
        AboveRoot = "a segment `..` above the root",
    }
}

/// The entries of `http.*` that count for a URL.
#[derive(Clone, Debug, PartialEq, Eq)]
pub struct Settings<'a> {
    /// The entries whose values Git uses.
    pub entries: Vec<Entry<'a>>,
    /// Why the URL has no normal form, if it has none. Only entries without a URL apply then.
    pub abnormal: Option<Abnormal>,
}

/// The settings that Git's credential code uses for a URL.
#[derive(Clone, Debug, PartialEq, Eq)]
pub struct Credentials<'a> {
    /// The entries whose values are the helpers, in the order in which Git asks them.
    pub helpers: Vec<Entry<'a>>,
    /// The user that helpers are asked about, decoded, if there is one.
    pub user: Option<BString>,
    /// Whether Git passes the path of a URL of HTTP to helpers.
    pub use_http_path: bool,
}
