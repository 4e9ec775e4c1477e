//! The schemes of locations.

use crate::ffi;
use std::fmt;

/// The scheme of a location.
///
/// ```
/// use gix_url_proved::Scheme;
///
/// assert_eq!(Scheme::from("ssh+git"), Scheme::Ssh);
/// assert_eq!(Scheme::from("ftp").as_str(), "ftp");
/// ```
#[derive(Clone, Debug, PartialEq, Eq, PartialOrd, Ord, Hash)]
#[cfg_attr(feature = "serde", derive(serde::Serialize, serde::Deserialize))]
pub enum Scheme {
    /// A path of the local file system, or a `file` URL.
    File,
    /// Git's own protocol.
    Git,
    /// Secure Shell.
    Ssh,
    /// HTTP.
    Http,
    /// HTTP, encrypted.
    Https,
    /// The remote helper `ext`, which runs a command.
    Ext,
    /// Another remote helper, by its name, as in `name::address`.
    Helper(String),
    /// The scheme of any other URL, which Git passes to the remote helper of that name.
    HelperUrl(String),
}

impl Scheme {
    /// The text that the scheme is written with.
    pub fn as_str(&self) -> &str {
        match self {
            Scheme::File => "file",
            Scheme::Git => "git",
            Scheme::Ssh => "ssh",
            Scheme::Http => "http",
            Scheme::Https => "https",
            Scheme::Ext => "ext",
            Scheme::Helper(name) | Scheme::HelperUrl(name) => name,
        }
    }

    /// The default port of the scheme: 80 for HTTP, 443 for HTTP with encryption, 22 for Secure Shell, 9418 for Git's
    /// own protocol, and none for any other.
    ///
    /// ```
    /// use gix_url_proved::Scheme;
    ///
    /// assert_eq!(Scheme::Git.default_port(), Some(9418));
    /// assert_eq!(Scheme::File.default_port(), None);
    /// ```
    pub fn default_port(&self) -> Option<u16> {
        ffi::port_or_default(self, None)
    }
}

impl From<&str> for Scheme {
    fn from(text: &str) -> Scheme {
        match text {
            "file" => Scheme::File,
            "git" => Scheme::Git,
            "ssh" | "ssh+git" | "git+ssh" => Scheme::Ssh,
            "http" => Scheme::Http,
            "https" => Scheme::Https,
            "ext" => Scheme::Ext,
            other => Scheme::HelperUrl(other.to_owned()),
        }
    }
}

impl fmt::Display for Scheme {
    fn fmt(&self, f: &mut fmt::Formatter<'_>) -> fmt::Result {
        f.write_str(self.as_str())
    }
}
