//! Expands paths in a home folder, such as `/~user/repo`.

use crate::bstr::{BStr, BString};
use crate::parse::Error;
use std::ffi::OsStr;
use std::fmt;
use std::os::unix::ffi::OsStrExt;
use std::path::{Path, PathBuf};

/// The user whose home folder a path is in.
#[derive(Clone, PartialEq, Eq, PartialOrd, Ord, Hash)]
#[cfg_attr(feature = "serde", derive(serde::Serialize, serde::Deserialize))]
pub enum ForUser {
    /// The current user: `~`.
    Current,
    /// The user with this name: `~name`.
    Name(#[cfg_attr(feature = "serde", serde(with = "crate::stored"))] BString),
}

impl From<ForUser> for Option<BString> {
    fn from(user: ForUser) -> Option<BString> {
        match user {
            ForUser::Current => None,
            ForUser::Name(name) => Some(name),
        }
    }
}

impl fmt::Debug for ForUser {
    fn fmt(&self, f: &mut fmt::Formatter<'_>) -> fmt::Result {
        match self {
            ForUser::Current => f.write_str("Current"),
            ForUser::Name(name) => f.debug_tuple("Name").field(&crate::debug::Text(name)).finish(),
        }
    }
}

/// Returns the user whose home folder the path names, and the path below that folder. A path that doesn't begin with
/// `/~` names no user, and is copied. In a path below a home folder, U+FFFD replaces bytes that are not UTF-8.
///
/// ```
/// use gix_url_proved::expand_path::{self, ForUser};
///
/// assert_eq!(expand_path::parse("/~user/repo".into())?, (Some(ForUser::Name("user".into())), "/repo".into()));
/// assert_eq!(expand_path::parse("/~/repo".into())?, (Some(ForUser::Current), "/repo".into()));
/// # Ok::<(), gix_url_proved::parse::Error>(())
/// ```
///
/// # Errors
///
/// None: the result is always `Ok`, as in `gix-url`.
pub fn parse(path: &BStr) -> Result<(Option<ForUser>, BString), Error> {
    let rest = match path.strip_prefix(b"/~") {
        Some(rest) => rest,
        None => return Ok((None, path.to_owned())),
    };
    let (name, below) = match rest.iter().position(|byte| *byte == b'/') {
        Some(slash) => rest.split_at(slash),
        None => (rest, b"/".as_slice()),
    };
    let user = if name.is_empty() { ForUser::Current } else { ForUser::Name(name.into()) };
    Ok((Some(user), String::from_utf8_lossy(below).into_owned().into()))
}

/// The path as a shell reads it: `~user/repo` for `/~user/repo`. Any other path is returned unchanged.
///
/// ```
/// use gix_url_proved::expand_path;
///
/// assert_eq!(expand_path::for_shell("/~user/repo".into()), "~user/repo");
/// ```
pub fn for_shell(path: BString) -> BString {
    match parse(path.as_slice().into()) {
        Ok((Some(user), below)) => {
            let name = Option::<BString>::from(user).unwrap_or_default();
            [b"~", name.as_slice(), below.as_slice()].concat().into()
        }
        _ => path,
    }
}

/// The path in the home folder that the closure returns for this user. Without a user it is the path itself, and the
/// closure isn't called.
///
/// ```
/// use gix_url_proved::expand_path::{self, ForUser};
///
/// let path = expand_path::with(Some(&ForUser::Current), "/repo".into(), |_| Some("/home/byron".into()))?;
/// assert_eq!(path.to_str(), Some("/home/byron/repo"));
/// # Ok::<(), gix_url_proved::parse::Error>(())
/// ```
///
/// # Errors
///
/// [`Error::NoHome`] if the closure returns `None`.
pub fn with(
    user: Option<&ForUser>,
    path: &BStr,
    home_for_user: impl FnOnce(&ForUser) -> Option<PathBuf>,
) -> Result<PathBuf, Error> {
    let path = Path::new(OsStr::from_bytes(path));
    let user = match user {
        Some(user) => user,
        None => return Ok(path.to_owned()),
    };
    let home = home_for_user(user).ok_or_else(|| Error::NoHome(user.clone()))?;
    Ok(home.join(path.components().skip(1).collect::<PathBuf>()))
}

/// The path in the home folder of this user: [`with`] the current user's home folder from the environment, and for a
/// name the folder of that name beside it.
///
/// # Errors
///
/// [`Error::NoHome`] if the environment has no home folder, or that folder has no parent.
pub fn expand_path(user: Option<&ForUser>, path: &BStr) -> Result<PathBuf, Error> {
    with(user, path, |user| {
        // It was deprecated for its result on Windows.
        #[allow(deprecated)]
        let home = std::env::home_dir()?;
        match user {
            ForUser::Current => Some(home),
            ForUser::Name(name) => Some(home.parent()?.join(String::from_utf8_lossy(name).as_ref())),
        }
    })
}
