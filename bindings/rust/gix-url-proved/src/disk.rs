//! Resolves symbolic links in paths of the local file system.

use std::ffi::OsString;
use std::fs;
use std::os::unix::ffi::OsStrExt;
use std::path::{Path, PathBuf};

/// How many links are followed before a path is taken for a cycle.
const MAX_LINKS: usize = 32;

/// Resolves a path to one without `.`, `..` and symbolic links. A relative path begins at the folder `current_dir`,
/// which is taken as it is. A part that doesn't exist, such as the end of a path may be, is kept. `None` if the path is
/// empty, `..` leads above the root, there are too many links, or a link can't be read.
pub(crate) fn resolved(path: &Path, current_dir: &Path) -> Option<PathBuf> {
    let parts = |path: &Path| path.components().rev().map(|part| part.as_os_str().to_owned()).collect();
    let mut resolved = if path.is_relative() { current_dir.to_owned() } else { PathBuf::new() };
    let mut links = 0;
    let mut pending: Vec<OsString> = parts(path);
    if pending.is_empty() {
        return None;
    }
    while let Some(part) = pending.pop() {
        match part.as_bytes() {
            b"." => continue,
            b".." if resolved.pop() => continue,
            b".." => return None,
            // The root of an absolute path, or of a link's target, replaces the path that was resolved so far.
            _ => resolved.push(part),
        }
        if resolved.is_symlink() {
            links += 1;
            let target = fs::read_link(&resolved).ok().filter(|_| links <= MAX_LINKS)?;
            resolved.pop();
            pending.extend::<Vec<OsString>>(parts(&target));
        }
    }
    Some(resolved)
}
