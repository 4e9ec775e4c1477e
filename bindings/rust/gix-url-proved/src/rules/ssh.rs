//! The program that Git runs for Secure Shell, and its words.

use super::reasons::reasons;
use super::Error;
use crate::bstr::BString;
use crate::{ffi, Url};
use std::ffi::OsStr;
use std::fmt;
use std::os::unix::ffi::OsStrExt;

/// The service that Git runs on the server.
#[derive(Clone, Copy, Debug, PartialEq, Eq, Hash)]
pub enum Service {
    /// `git fetch`, `git clone`, `git ls-remote`: `git-upload-pack`.
    UploadPack = 0,
    /// `git push`: `git-receive-pack`.
    ReceivePack = 1,
    /// `git archive --remote`: `git-upload-archive`.
    UploadArchive = 2,
}

impl Service {
    /// The name of the program on the server.
    pub fn as_str(self) -> &'static str {
        match self {
            Service::UploadPack => "git-upload-pack",
            Service::ReceivePack => "git-receive-pack",
            Service::UploadArchive => "git-upload-archive",
        }
    }
}

impl fmt::Display for Service {
    fn fmt(&self, f: &mut fmt::Formatter<'_>) -> fmt::Result {
        f.write_str(self.as_str())
    }
}

/// The kind of program that is run for Secure Shell, by its options: `ssh.variant`.
#[derive(Clone, Copy, Debug, PartialEq, Eq, Hash)]
pub enum SshVariant {
    /// OpenSSH.
    Ssh = 0,
    /// A program without options.
    Simple = 1,
    /// `plink`.
    Plink = 2,
    /// `putty`.
    Putty = 3,
    /// `tortoiseplink`.
    TortoisePlink = 4,
}

impl SshVariant {
    /// The variant with this number; `None` for a program that Git has to ask.
    pub(crate) fn numbered(number: u8) -> Option<SshVariant> {
        use SshVariant::{Plink, Putty, Simple, Ssh, TortoisePlink};
        [Ssh, Simple, Plink, Putty, TortoisePlink].get(usize::from(number)).copied()
    }
}

/// The version of Git's protocol: `protocol.version`.
#[derive(Clone, Copy, Debug, PartialEq, Eq, Hash)]
pub enum ProtocolVersion {
    /// The first one.
    V0 = 0,
    /// The first one, with its number before it.
    V1 = 1,
    /// The one that Git asks for if nothing is configured.
    V2 = 2,
}

/// The family of the addresses of a host.
#[derive(Clone, Copy, Debug, PartialEq, Eq, Hash)]
pub enum AddressFamily {
    /// Any.
    Any = 0,
    /// IPv4: `git fetch -4`.
    V4 = 4,
    /// IPv6: `git fetch -6`.
    V6 = 6,
}

/// A request for a command of Secure Shell, except the location. The default is the request of `git fetch` if nothing
/// is configured.
#[derive(Clone, Copy, Debug, PartialEq, Eq)]
pub struct SshRequest<'a> {
    /// The service that Git runs on the server.
    pub service: Service,
    /// The program that the server runs in place of the service, as with `remote.<name>.uploadpack`. A shell on the
    /// server reads it.
    pub program: Option<&'a [u8]>,
    /// The kind of program that is run for Secure Shell.
    pub variant: SshVariant,
    /// The version of Git's protocol.
    pub version: ProtocolVersion,
    /// The family of the addresses.
    pub family: AddressFamily,
}

impl Default for SshRequest<'_> {
    fn default() -> Self {
        SshRequest {
            service: Service::UploadPack,
            program: None,
            variant: SshVariant::Ssh,
            version: ProtocolVersion::V2,
            family: AddressFamily::Any,
        }
    }
}

reasons! {
    /// Why there is no command of Secure Shell. If there are several reasons, it is the first one.
    SshRefusal {
        NotSecureShell = "the location isn't reached by Secure Shell",
        Password = "Secure Shell takes no password",
        EmptyUser = "the user is empty",
        ByteZero = "an argument can't hold byte 0",
        OptionLikeUser = "the user looks like an option",
        NoHost = "the location has no host",
        OptionLikeHost = "the host looks like an option",
        AtSignInHost = "the host holds an `@`",
        UrlLikeDestination = "the user or the host looks like a URL",
        NoPath = "the location has no path",
        OptionLikePath = "the path looks like an option",
        EmptyProgram = "the program is empty",
        ByteZeroInProgram = "the program holds byte 0",
        OptionLikeProgram = "the program looks like an option",
        FamilyOfSimple = "the variant `simple` of Secure Shell has no option for a family of addresses",
        PortOfSimple = "the variant `simple` of Secure Shell has no option for a port",
    }
}

/// A command of Secure Shell.
#[derive(Clone, Debug, PartialEq, Eq, Hash)]
pub struct SshCommand {
    /// The words after the name of the program: options, the destination, and last the command, which a shell on the
    /// server reads.
    pub words: Vec<BString>,
    /// The version to which the variable `GIT_PROTOCOL` is to be set, if it is to be set.
    pub(crate) version: Option<u8>,
}

impl SshCommand {
    /// The words as arguments of [`std::process::Command`], which runs no shell.
    pub fn args(&self) -> impl ExactSizeIterator<Item = &OsStr> {
        self.words.iter().map(|word| OsStr::from_bytes(word))
    }

    /// The value to set the variable `GIT_PROTOCOL` to, `version=1` or `version=2`; `None` if it isn't to be set.
    pub fn git_protocol(&self) -> Option<&'static str> {
        self.version.map(|version| if version == 1 { "version=1" } else { "version=2" })
    }
}

/// The words with which Git runs Secure Shell for a location. Allocates the words, and memory for the library.
///
/// ```
/// use gix_url_proved::rules::{ssh_words, Error, SshRefusal, SshRequest};
///
/// let url = gix_url_proved::parse("ssh://git@h:2222/it's").unwrap();
/// let command = ssh_words(&url, &SshRequest::default())?;
/// assert_eq!(command.words, ["-o", "SendEnv=GIT_PROTOCOL", "-p", "2222", "git@h", r"git-upload-pack '/it'\''s'"]);
/// assert_eq!(command.git_protocol(), Some("version=2"));
///
/// let url = gix_url_proved::parse("-oProxyCommand=id:a").unwrap();
/// assert_eq!(ssh_words(&url, &SshRequest::default()), Err(Error::NoCommand(SshRefusal::OptionLikeHost)));
/// # Ok::<(), Error>(())
/// ```
///
/// # Errors
///
/// [`Error::NoCommand`] if there is no command for the location; [`Error::Memory`].
pub fn ssh_words(url: &Url, request: &SshRequest<'_>) -> Result<SshCommand, Error> {
    ffi::ssh_words(url, request)
}

/// Three variables of the environment. An empty one differs from one that isn't set.
#[derive(Clone, Copy, Debug, Default, PartialEq, Eq)]
pub struct SshVariables<'a> {
    /// `GIT_SSH_COMMAND`, if it is set.
    pub git_ssh_command: Option<&'a [u8]>,
    /// `GIT_SSH`, if it is set.
    pub git_ssh: Option<&'a [u8]>,
    /// `GIT_SSH_VARIANT`, if it is set.
    pub git_ssh_variant: Option<&'a [u8]>,
}

/// The program that Git runs for Secure Shell.
#[derive(Clone, Debug, PartialEq, Eq, Hash)]
pub struct SshProgram {
    /// A path or a name, or a command line.
    pub text: BString,
    /// Whether a shell reads the text.
    pub is_command_line: bool,
    /// The variant; `None` if Git runs the program with `-G` to find it.
    pub variant: Option<SshVariant>,
}
