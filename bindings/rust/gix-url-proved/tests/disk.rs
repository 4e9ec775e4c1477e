//! Resolution of symbolic links, in a temporary folder.

use gix_url_proved::parse::Error;
use gix_url_proved::{parse, Url};
use std::os::unix::fs::symlink;
use std::path::{Path, PathBuf};
use std::{env, fs, process};

/// A folder that is removed with its value. Its own path has no link in it.
struct Folder(PathBuf);

impl Folder {
    fn new(name: &str) -> Folder {
        let path = env::temp_dir().join(format!("gix_url_proved-{}-{name}", process::id()));
        fs::create_dir_all(&path).unwrap();
        Folder(path.canonicalize().unwrap())
    }

    fn path(&self, below: &str) -> String {
        self.0.join(below).to_str().unwrap().to_owned()
    }

    /// The path of the location, resolved from this folder.
    fn resolved(&self, path: &str) -> Result<String, Error> {
        let url = Url::try_from(Path::new(path)).unwrap();
        url.canonicalized(&self.0).map(|url| url.path.to_string())
    }
}

impl Drop for Folder {
    fn drop(&mut self) {
        fs::remove_dir_all(&self.0).unwrap();
    }
}

#[test]
fn links_are_followed() {
    let folder = Folder::new("links");
    fs::create_dir_all(folder.path("real/repo")).unwrap();
    symlink("real", folder.path("link")).unwrap();
    symlink(folder.path("link/repo"), folder.path("absolute")).unwrap();
    symlink("../link/./repo", folder.path("real/up")).unwrap();
    for path in ["link/repo", "./link/../real/repo", "absolute", "real/up", "link/up"] {
        assert_eq!(folder.resolved(path), Ok(folder.path("real/repo")), "{path}");
    }
    let path = folder.path("real/up");
    let wanted = Path::new(&path).canonicalize().unwrap();
    assert_eq!(folder.resolved(&path).map(PathBuf::from), Ok(wanted));
    assert_eq!(folder.resolved("link/none/there"), Ok(folder.path("real/none/there")));
}

#[test]
fn a_circle_is_refused() {
    let folder = Folder::new("circle");
    symlink("two", folder.path("one")).unwrap();
    symlink("one", folder.path("two")).unwrap();
    let mut url = parse(folder.path("one")).unwrap();
    let before = url.clone();
    assert_eq!(url.canonicalize(&folder.0), Err(Error::Unresolved));
    assert_eq!(url, before);
}

#[test]
fn what_is_above_the_root_is_refused() {
    assert_eq!(parse("/..").unwrap().canonicalized(Path::new("/")), Err(Error::Unresolved));
    let url = parse("file://host/a/../b").unwrap();
    assert_eq!(url.canonicalized(Path::new("/")).unwrap().to_bstring(), "file://host/b");
}

#[test]
fn other_locations_stay() {
    for text in ["ssh://h/a/../b", "https://h/../a", "h:a/..", "a::/.."] {
        let url = parse(text).unwrap();
        assert_eq!(url.canonicalized(Path::new("/")), Ok(url));
    }
}
