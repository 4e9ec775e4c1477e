//! Applies Git's configuration as Git does before it connects: rewriting of URLs, remotes, transports and permissions,
//! words of Secure Shell, settings of `http.*`, credentials and submodules. Also reads texts as Git does.
//!
//! The rules are those of Git 2.39.5 on Linux; `docs/RULES.md` in the repository describes them. No call reads a file
//! or the environment, or runs a program: the caller passes texts. The results come from proved code, like those for
//! locations.
//!
//! This program finds the words with which `git fetch origin` runs Secure Shell:
//!
//! ```
//! use gix_url_proved::rules::{ssh_words, transport_of, Configuration, Policy, SshRequest};
//!
//! # fn main() -> Result<(), Box<dyn std::error::Error>> {
//! // The output of git config --list -z.
//! let listing = b"remote.origin.url\ngh:a/b\0url.ssh://git@github.com/.insteadof\ngh:\0";
//! let configuration = Configuration::from_listing(listing)?;
//! let remote = configuration.remote("origin")?;
//! let transport = transport_of(&remote.urls[0])?;
//! assert!(configuration.permission(&transport, &Policy::default())?.is_allowed());
//! let url = gix_url_proved::parse(&remote.urls[0])?;
//! let command = ssh_words(&url, &SshRequest::default())?;
//! assert_eq!(command.words, ["-o", "SendEnv=GIT_PROTOCOL", "git@github.com", "git-upload-pack '/a/b'"]);
//! # Ok(())
//! # }
//! ```

mod configuration;
mod error;
mod readings;
mod reasons;
mod remotes;
mod settings;
mod ssh;
mod submodules;

pub(crate) use configuration::Span;
pub use configuration::{Configuration, Entry};
pub use error::{Error, Flaw};
pub use readings::{credential_reading, git_reading, CredentialRequest, GitPlace, Protocol, Unread};
pub use remotes::{transport_of, Decider, NoTransport, Permission, Policy, Remote, Rewritten};
pub use settings::{Abnormal, Credentials, Settings};
pub use ssh::{
    ssh_words, AddressFamily, ProtocolVersion, Service, SshCommand, SshProgram, SshRefusal, SshRequest, SshVariables,
    SshVariant,
};
pub use submodules::{
    check_submodule, resolve_submodule, Resolved, Submodule, SubmoduleCheck, SubmoduleRefusal, Unresolved,
};
