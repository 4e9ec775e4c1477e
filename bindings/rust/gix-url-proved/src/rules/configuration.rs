//! The entries of a configuration, and the calls over them.

use super::{Credentials, Error, Permission, Policy, Remote, Rewritten, Settings, SshProgram, SshVariables, Submodule};
use crate::audit::redacted;
use crate::bstr::{BStr, ByteSlice};
use crate::ffi;
use std::fmt;

/// An entry of a configuration: `section.subsection.name` and its value. Section and name are compared without letter
/// case.
///
/// `Debug` shows the key without secrets, and the length of the value in place of its bytes.
#[derive(Clone, Copy, PartialEq, Eq, Hash)]
pub struct Entry<'a> {
    /// The section.
    pub section: &'a BStr,
    /// The subsection, if there is one. It may be empty.
    pub subsection: Option<&'a BStr>,
    /// The name.
    pub name: &'a BStr,
    /// The value, if there is one. It may be empty. A key without `=` has none, which Git takes for true if it needs a
    /// boolean value.
    pub value: Option<&'a BStr>,
    /// How many bytes of the text come before the entry. Errors report it. No call uses it as input.
    pub at: usize,
    /// The line of a file on which the name begins, from 1; `None` in a listing.
    pub line: Option<usize>,
}

impl Entry<'_> {
    /// The key: `section.subsection.name`, or `section.name`.
    ///
    /// ```
    /// use gix_url_proved::rules::Configuration;
    ///
    /// let configuration = Configuration::from_file(b"[Remote \"Origin\"] URL = /srv/a")?;
    /// assert_eq!(configuration.entry(0).unwrap().key(), b"remote.Origin.url");
    /// # Ok::<(), gix_url_proved::rules::Error>(())
    /// ```
    pub fn key(&self) -> Vec<u8> {
        let (section, name): (&[u8], &[u8]) = (self.section, self.name);
        match self.subsection {
            Some(subsection) => [section, subsection, name].join(&b'.'),
            None => [section, name].join(&b'.'),
        }
    }
}

impl fmt::Debug for Entry<'_> {
    fn fmt(&self, f: &mut fmt::Formatter<'_>) -> fmt::Result {
        f.debug_struct("Entry")
            .field("key", &redacted(self.key()))
            .field("value", &self.value.map(|value| crate::debug::Length::of(value)))
            .field("at", &self.at)
            .field("line", &self.line)
            .finish()
    }
}

/// The position of an entry in the bytes of a configuration, and the lengths of its parts, which follow each other.
#[derive(Clone, Copy, PartialEq, Eq)]
pub(crate) struct Span {
    pub(crate) start: usize,
    pub(crate) section: usize,
    pub(crate) subsection: Option<usize>,
    pub(crate) name: usize,
    pub(crate) value: Option<usize>,
    pub(crate) at: usize,
    pub(crate) line: Option<usize>,
}

impl Span {
    /// The position after the entry.
    pub(crate) fn end(&self) -> usize {
        self.start + self.section + self.subsection.unwrap_or(0) + self.name + self.value.unwrap_or(0)
    }
}

/// The entries of a configuration, in the order in which Git reads them. It owns their bytes.
///
/// [`Configuration::from_listing`] parses the output of `git config --list -z`, and [`Configuration::from_file`] the
/// text of one file. A program can also build one from entries, with `collect` or `extend`, such as those of several
/// files.
///
/// ```
/// use gix_url_proved::rules::Configuration;
///
/// let system = Configuration::from_file(b"[url \"ssh://git@h/\"]\n\tinsteadOf = h:\n")?;
/// let own = Configuration::from_listing(b"remote.origin.url\nh:repo\0")?;
/// let all: Configuration = system.entries().chain(own.entries()).collect();
/// assert_eq!(all.remote("origin")?.urls, ["ssh://git@h/repo"]);
/// # Ok::<(), gix_url_proved::rules::Error>(())
/// ```
#[derive(Clone, Default, PartialEq, Eq)]
pub struct Configuration {
    pub(crate) bytes: Vec<u8>,
    pub(crate) spans: Vec<Span>,
}

/// Parsing, and access to the entries.
impl Configuration {
    /// Parses the output of `git config --list -z`. Allocates the bytes and the positions of the entries.
    ///
    /// ```
    /// use gix_url_proved::rules::{Configuration, Error, Flaw};
    ///
    /// let configuration = Configuration::from_listing(b"http.proxy\nhttp://p:1\0core.bare\0")?;
    /// let entries: Vec<_> = configuration.entries().map(|entry| (entry.key(), entry.value, entry.at)).collect();
    /// assert_eq!(entries[0], (b"http.proxy".to_vec(), Some("http://p:1".into()), 0));
    /// assert_eq!(entries[1], (b"core.bare".to_vec(), None, 22));
    /// let cut_off = Configuration::from_listing(b"a.b\0c.d");
    /// assert_eq!(cut_off, Err(Error::NoConfiguration { flaw: Flaw::NoEnd, at: 4, line: None }));
    /// # Ok::<(), gix_url_proved::rules::Error>(())
    /// ```
    ///
    /// # Errors
    ///
    /// [`Error::NoConfiguration`] if a line isn't an entry, or the last one has no end; [`Error::Memory`].
    pub fn from_listing(text: impl AsRef<[u8]>) -> Result<Configuration, Error> {
        ffi::read_listing(text.as_ref())
    }

    /// Parses one configuration file or `.gitmodules` file. The entries are those that
    /// `git config --file FILE --list -z` lists. No other file is included. An entry before any header has an empty
    /// section. Allocates the bytes and the positions of the entries.
    ///
    /// ```
    /// use gix_url_proved::rules::Configuration;
    ///
    /// let configuration = Configuration::from_file(b"[Core]\n\tBare\n\tsshCommand = \"ssh \" -4\n")?;
    /// let entry = configuration.entry(1).unwrap();
    /// assert_eq!((entry.key(), entry.value, entry.line), (b"core.sshcommand".to_vec(), Some("ssh  -4".into()), Some(3)));
    /// # Ok::<(), gix_url_proved::rules::Error>(())
    /// ```
    ///
    /// # Errors
    ///
    /// [`Error::NoConfiguration`] if Git can't read the text as a configuration, or it has a byte 0;
    /// [`Error::Memory`].
    pub fn from_file(text: impl AsRef<[u8]>) -> Result<Configuration, Error> {
        ffi::read_file(text.as_ref())
    }

    /// The entries in their order.
    pub fn entries(&self) -> impl DoubleEndedIterator<Item = Entry<'_>> + ExactSizeIterator {
        self.spans.iter().map(|span| self.spanned(span))
    }

    /// The entry at an index, from 0; `None` after the last.
    pub fn entry(&self, index: usize) -> Option<Entry<'_>> {
        self.spans.get(index).map(|span| self.spanned(span))
    }

    /// The number of entries.
    pub fn len(&self) -> usize {
        self.spans.len()
    }

    /// Whether there is no entry.
    pub fn is_empty(&self) -> bool {
        self.spans.is_empty()
    }

    /// The entries at these indices, which are all less than the number of entries.
    pub(crate) fn numbered(&self, indices: &[usize]) -> Vec<Entry<'_>> {
        indices.iter().map(|index| self.spanned(&self.spans[*index])).collect()
    }

    fn spanned(&self, span: &Span) -> Entry<'_> {
        let mut bytes = &self.bytes[span.start..span.end()];
        let mut part = |len| ffi::next(&mut bytes, len).as_bstr();
        Entry {
            section: part(span.section),
            subsection: span.subsection.map(&mut part),
            name: part(span.name),
            value: span.value.map(part),
            at: span.at,
            line: span.line,
        }
    }

    fn push(&mut self, entry: &Entry<'_>) {
        let start = self.bytes.len();
        self.spans.push(Span {
            start,
            section: entry.section.len(),
            subsection: entry.subsection.map(|it| it.len()),
            name: entry.name.len(),
            value: entry.value.map(|it| it.len()),
            at: entry.at,
            line: entry.line,
        });
        let parts = [Some(entry.section), entry.subsection, Some(entry.name), entry.value];
        parts.into_iter().flatten().for_each(|part| self.bytes.extend_from_slice(part));
    }
}

/// Git's rules over the entries. Each call allocates one array of the entries, and its result.
impl Configuration {
    /// Rewrites a URL as Git does before it fetches from it, by `url.<base>.insteadOf`.
    ///
    /// ```
    /// use gix_url_proved::rules::Configuration;
    ///
    /// let configuration = Configuration::from_listing(b"url.https://github.com/.insteadof\ngh:\0")?;
    /// let fetched = configuration.rewrite_fetch("gh:a/b")?;
    /// assert_eq!((fetched.text, fetched.base_len), ("https://github.com/a/b".into(), Some(19)));
    /// # Ok::<(), gix_url_proved::rules::Error>(())
    /// ```
    ///
    /// # Errors
    ///
    /// [`Error::NoValue`] at the first entry of `insteadOf` or `pushInsteadOf` without a value; [`Error::Memory`].
    pub fn rewrite_fetch(&self, url: impl AsRef<[u8]>) -> Result<Rewritten, Error> {
        ffi::rewrite_fetch(self, url.as_ref())
    }

    /// Rewrites a URL as Git does before it pushes to it: by `url.<base>.pushInsteadOf`, or if no value of that matches
    /// by `insteadOf`. The `pushurl` of a remote, for which `has_push_url` is true, is rewritten by `insteadOf` alone.
    ///
    /// ```
    /// use gix_url_proved::rules::Configuration;
    ///
    /// let configuration = Configuration::from_listing(b"url.ssh://git@h/.pushinsteadof\nhttps://h/\0")?;
    /// assert_eq!(configuration.rewrite_push("https://h/a", false)?.text, "ssh://git@h/a");
    /// assert_eq!(configuration.rewrite_push("https://h/a", true)?.text, "https://h/a");
    /// # Ok::<(), gix_url_proved::rules::Error>(())
    /// ```
    ///
    /// # Errors
    ///
    /// Those of [`Configuration::rewrite_fetch`].
    pub fn rewrite_push(&self, url: impl AsRef<[u8]>, has_push_url: bool) -> Result<Rewritten, Error> {
        ffi::rewrite_push(self, url.as_ref(), has_push_url)
    }

    /// The remote with this name: its URLs, rewritten, and four values. If it has no entries of its own, the name is
    /// the only URL. [`Configuration`] has an example.
    ///
    /// # Errors
    ///
    /// [`Error::NoValue`] at the first entry of `insteadOf` or `pushInsteadOf` without a value, or else at the first
    /// entry of any remote that has one of the six names of [`Remote`] and no value; [`Error::Memory`].
    pub fn remote(&self, name: impl AsRef<[u8]>) -> Result<Remote, Error> {
        ffi::remote(self, name.as_ref())
    }

    /// Whether Git allows a transport, whose name [`transport_of`](super::transport_of) returns.
    ///
    /// ```
    /// use gix_url_proved::rules::{Configuration, Decider, Permission, Policy};
    ///
    /// let configuration = Configuration::from_listing(b"protocol.git.allow\nnever\0")?;
    /// let policy = Policy::default();
    /// assert_eq!(configuration.permission("git", &policy)?, Permission::Refused(Decider::Entry { at: 0 }));
    /// assert!(configuration.permission("https", &policy)?.is_allowed());
    /// # Ok::<(), gix_url_proved::rules::Error>(())
    /// ```
    ///
    /// # Errors
    ///
    /// [`Error::Memory`].
    pub fn permission(&self, transport: &str, policy: &Policy<'_>) -> Result<Permission, Error> {
        ffi::permission(self, transport, policy)
    }

    /// The entries of `http.<name>` and `http.<url>.<name>` whose values Git uses for a URL, for instance with the name
    /// `proxy` or `extraHeader`. For most names only the best entry counts. `extraHeader` and `curloptResolve` are
    /// lists: the values of all entries that apply count, in their order, and an empty value removes those before it.
    ///
    /// ```
    /// use gix_url_proved::rules::Configuration;
    ///
    /// let configuration = Configuration::from_listing(b"http.proxy\np\0http.https://h.proxy\nq\0")?;
    /// let proxies = configuration.settings("proxy", "https://h/a")?.entries;
    /// assert_eq!(proxies.iter().filter_map(|entry| entry.value).collect::<Vec<_>>(), ["q"]);
    /// # Ok::<(), gix_url_proved::rules::Error>(())
    /// ```
    ///
    /// # Errors
    ///
    /// [`Error::NoValue`] at an entry of a list that applies and has no value; [`Error::Memory`].
    pub fn settings(&self, name: &str, url: impl AsRef<[u8]>) -> Result<Settings<'_>, Error> {
        ffi::settings(self, name, url.as_ref())
    }

    /// The settings that Git's credential code uses for a URL; `None` if it finds nothing in the URL.
    ///
    /// ```
    /// use gix_url_proved::rules::Configuration;
    ///
    /// let configuration = Configuration::from_listing(b"credential.https://h.helper\nstore\0")?;
    /// let credentials = configuration.credentials("https://me@h/a")?.unwrap();
    /// assert_eq!((credentials.helpers[0].value, credentials.user), (Some("store".into()), Some("me".into())));
    /// assert!(configuration.credentials("h:a")?.is_none());
    /// # Ok::<(), gix_url_proved::rules::Error>(())
    /// ```
    ///
    /// # Errors
    ///
    /// [`Error::NoValue`] at an entry that applies and has no value, and [`Error::NoBoolean`] at one of `useHttpPath`
    /// that applies and has no boolean value; [`Error::Memory`].
    pub fn credentials(&self, url: impl AsRef<[u8]>) -> Result<Option<Credentials<'_>>, Error> {
        ffi::credentials(self, url.as_ref())
    }

    /// The program that Git runs for Secure Shell.
    ///
    /// ```
    /// use gix_url_proved::rules::{Configuration, SshVariables, SshVariant};
    ///
    /// let configuration = Configuration::from_listing(b"core.sshcommand\n/opt/plink -v\0")?;
    /// let program = configuration.ssh_program(&SshVariables::default())?;
    /// assert_eq!((program.text, program.is_command_line), ("/opt/plink -v".into(), true));
    /// assert_eq!(program.variant, Some(SshVariant::Plink));
    /// # Ok::<(), gix_url_proved::rules::Error>(())
    /// ```
    ///
    /// # Errors
    ///
    /// [`Error::NoValue`] at the last `core.sshCommand` or `ssh.variant` if that counts and has no value;
    /// [`Error::Memory`].
    pub fn ssh_program(&self, variables: &SshVariables<'_>) -> Result<SshProgram, Error> {
        ffi::ssh_program(self, variables)
    }

    /// The submodules of a `.gitmodules` file, in the order in which their names first occur.
    ///
    /// ```
    /// use gix_url_proved::rules::Configuration;
    ///
    /// let file = Configuration::from_file(b"[submodule \"lib\"]\n\tpath = lib\n\turl = ../lib\n")?;
    /// let submodules = file.submodules()?;
    /// assert_eq!((submodules[0].name.to_string(), submodules[0].url.unwrap().value), ("lib".into(), Some("../lib".into())));
    /// assert!(submodules[0].branch.is_none());
    /// # Ok::<(), gix_url_proved::rules::Error>(())
    /// ```
    ///
    /// # Errors
    ///
    /// [`Error::Memory`].
    pub fn submodules(&self) -> Result<Vec<Submodule<'_>>, Error> {
        ffi::submodules(self)
    }
}

impl<'a> Extend<Entry<'a>> for Configuration {
    fn extend<T: IntoIterator<Item = Entry<'a>>>(&mut self, entries: T) {
        entries.into_iter().for_each(|entry| self.push(&entry));
    }
}

impl<'a> FromIterator<Entry<'a>> for Configuration {
    fn from_iter<T: IntoIterator<Item = Entry<'a>>>(entries: T) -> Configuration {
        let mut configuration = Configuration::default();
        configuration.extend(entries);
        configuration
    }
}

impl fmt::Debug for Configuration {
    /// Writes the entries, without secrets in keys and without values.
    fn fmt(&self, f: &mut fmt::Formatter<'_>) -> fmt::Result {
        f.debug_list().entries(self.entries()).finish()
    }
}
