//! Submodules: their URLs, and the checks of `git fsck`.

use super::reasons::reasons;
use super::Entry;
use crate::audit::redacted;
use crate::bstr::BString;
use crate::ffi;
use std::fmt;

reasons! {
    /// Why Git doesn't resolve the URL of a submodule.
    Unresolved {
        EmptyParent = "the URL of the remote is empty",
        NothingLeft = "the URL of the remote has too few elements",
    }
}

/// The URL of a submodule after it is resolved. `Debug` shows it without secrets.
#[derive(Clone, PartialEq, Eq, Hash)]
pub struct Resolved {
    /// The URL, or why there is none.
    pub url: Result<BString, Unresolved>,
    /// Whether the URL of the submodule begins with `./` or `../`, so that Git resolves it.
    pub is_relative: bool,
    /// Whether it leaves the path of the URL of the remote.
    pub climbs: bool,
}

impl fmt::Debug for Resolved {
    fn fmt(&self, f: &mut fmt::Formatter<'_>) -> fmt::Result {
        f.debug_struct("Resolved")
            .field("url", &self.url.as_ref().map(redacted))
            .field("is_relative", &self.is_relative)
            .field("climbs", &self.climbs)
            .finish()
    }
}

/// Resolves the URL of a submodule against `parent`, the URL of the remote of the repository around it, as `git
/// submodule init` does. Allocates the result.
///
/// ```
/// use gix_url_proved::rules::resolve_submodule;
///
/// let resolved = resolve_submodule("https://h/a/b", "../c");
/// assert_eq!((resolved.url?, resolved.climbs), ("https://h/a/c".into(), false));
/// assert!(resolve_submodule("https://h/a", "../../evil/b").climbs);
/// # Ok::<(), gix_url_proved::rules::Unresolved>(())
/// ```
pub fn resolve_submodule(parent: impl AsRef<[u8]>, url: impl AsRef<[u8]>) -> Resolved {
    ffi::resolve(parent.as_ref(), url.as_ref())
}

reasons! {
    /// Why `git fsck` refuses an entry of `.gitmodules`. The words are Git's name of the error.
    SubmoduleRefusal {
        Name = "gitmodulesName",
        Url = "gitmodulesUrl",
        Path = "gitmodulesPath",
        Update = "gitmodulesUpdate",
    }
}

/// The reasons why `git fsck` refuses an entry of `.gitmodules`.
#[derive(Clone, Copy, Debug, Default, PartialEq, Eq, Hash)]
pub struct SubmoduleCheck {
    /// [`SubmoduleRefusal::Name`] if the name of the submodule leads out of its folder.
    pub name: Option<SubmoduleRefusal>,
    /// [`SubmoduleRefusal::Url`] for a dangerous URL, [`SubmoduleRefusal::Path`] for a path that looks like an option,
    /// and [`SubmoduleRefusal::Update`] if the submodule is updated by a command.
    pub value: Option<SubmoduleRefusal>,
}

impl SubmoduleCheck {
    /// Whether nothing is refused.
    pub fn is_accepted(self) -> bool {
        self.name.is_none() && self.value.is_none()
    }
}

/// Checks an entry of `.gitmodules` as `git fsck` does. Allocates nothing.
///
/// ```
/// use gix_url_proved::rules::{check_submodule, Configuration, SubmoduleRefusal};
///
/// let file = Configuration::from_file(b"[submodule \"../a\"]\n\turl = -x\n")?;
/// let check = check_submodule(&file.entry(0).unwrap());
/// assert_eq!((check.name, check.value), (Some(SubmoduleRefusal::Name), Some(SubmoduleRefusal::Url)));
/// # Ok::<(), gix_url_proved::rules::Error>(())
/// ```
pub fn check_submodule(entry: &Entry<'_>) -> SubmoduleCheck {
    ffi::check(entry)
}

/// A submodule: its name, and the entries whose values Git uses.
#[derive(Clone, Debug, PartialEq, Eq)]
pub struct Submodule<'a> {
    /// The name.
    pub name: BString,
    /// The entry of its path.
    pub path: Option<Entry<'a>>,
    /// The entry of its URL.
    pub url: Option<Entry<'a>>,
    /// The entry that determines how it is updated.
    pub update: Option<Entry<'a>>,
    /// The entry of its branch.
    pub branch: Option<Entry<'a>>,
}
