//! The calls over a configuration that find programs, settings and credentials.

use super::buffers::{filled, filled_bytes, Sizes};
use super::configuration::{Entries, GivenEntry, Stop};
use super::Bytes;
use crate::rules::{Abnormal, Configuration, Credentials, Error, Settings, SshProgram, SshVariables, SshVariant};

/// How many bytes and entries a buffer holds at first, in addition to the text that is read.
const SHORT: usize = 256;
const FEW: usize = 8;

/// Three variables of the environment.
#[repr(C)]
struct GivenVariables<'a> {
    command: Bytes<'a>,
    path: Bytes<'a>,
    variant: Bytes<'a>,
    has_command: bool,
    has_path: bool,
    has_variant: bool,
}

#[repr(C)]
#[derive(Default)]
struct ProgramNumbers {
    is_command_line: bool,
    variant: u8,
    len: usize,
}

#[repr(C)]
#[derive(Default)]
struct SettingNumbers {
    why: u8,
    settings: usize,
}

#[repr(C)]
#[derive(Default)]
struct CredentialNumbers {
    is_read: bool,
    has_user: bool,
    use_http_path: bool,
    helpers: usize,
    user: usize,
}

#[rustfmt::skip]
extern "C" {
    fn gix_url_c_ssh_program(entries: Entries, count: usize, variables: &GivenVariables, made: &mut ProgramNumbers, buffer: *mut u8, buffer_len: usize, stop: &mut Stop) -> u32;
    fn gix_url_c_settings(entries: Entries, count: usize, name: *const u8, name_len: usize, text: *const u8, len: usize, made: &mut SettingNumbers, indices: *mut usize, indices_len: usize, stop: &mut Stop) -> u32;
    fn gix_url_c_credentials(entries: Entries, count: usize, text: *const u8, len: usize, made: &mut CredentialNumbers, buffer: *mut u8, buffer_len: usize, indices: *mut usize, indices_len: usize, stop: &mut Stop) -> u32;
}

/// The program that Git runs for Secure Shell.
pub(crate) fn ssh_program(configuration: &Configuration, variables: &SshVariables<'_>) -> Result<SshProgram, Error> {
    let entries = GivenEntry::all(configuration);
    let variables = GivenVariables {
        command: Bytes::of_some(variables.git_ssh_command),
        path: Bytes::of_some(variables.git_ssh),
        variant: Bytes::of_some(variables.git_ssh_variant),
        has_command: variables.git_ssh_command.is_some(),
        has_path: variables.git_ssh.is_some(),
        has_variant: variables.git_ssh_variant.is_some(),
    };
    let (mut made, mut stop) = (ProgramNumbers::default(), Stop::default());
    let (code, text) = filled_bytes(SHORT, |buffer| {
        let code = call!(
            gix_url_c_ssh_program,
            entries.as_ptr(),
            entries.len(),
            &variables,
            &mut made,
            buffer.as_mut_ptr(),
            buffer.len(),
            &mut stop
        );
        (code, made.len)
    });
    stop.unless(code, || SshProgram {
        text: text.into(),
        is_command_line: made.is_command_line,
        variant: SshVariant::numbered(made.variant),
    })
}

/// The entries of `http.*` with this name that count for a URL.
pub(crate) fn settings<'a>(configuration: &'a Configuration, name: &str, text: &[u8]) -> Result<Settings<'a>, Error> {
    let entries = GivenEntry::all(configuration);
    let (mut made, mut stop) = (SettingNumbers::default(), Stop::default());
    let (code, found) = filled(Sizes::of_numbers(FEW), |_, indices| {
        let code = call!(
            gix_url_c_settings,
            entries.as_ptr(),
            entries.len(),
            name.as_ptr(),
            name.len(),
            text.as_ptr(),
            text.len(),
            &mut made,
            indices.as_mut_ptr(),
            indices.len(),
            &mut stop
        );
        (code, Sizes::of_numbers(made.settings))
    });
    stop.unless(code, || Settings {
        entries: configuration.numbered(&found.numbers),
        abnormal: Abnormal::numbered(made.why),
    })
}

/// The settings that Git's credential code uses for a URL, if it finds anything in it.
pub(crate) fn credentials<'a>(configuration: &'a Configuration, text: &[u8]) -> Result<Option<Credentials<'a>>, Error> {
    let entries = GivenEntry::all(configuration);
    let (mut made, mut stop) = (CredentialNumbers::default(), Stop::default());
    let sizes = Sizes { bytes: text.len() + SHORT, numbers: FEW };
    let (code, found) = filled(sizes, |buffer, indices| {
        let code = call!(
            gix_url_c_credentials,
            entries.as_ptr(),
            entries.len(),
            text.as_ptr(),
            text.len(),
            &mut made,
            buffer.as_mut_ptr(),
            buffer.len(),
            indices.as_mut_ptr(),
            indices.len(),
            &mut stop
        );
        (code, Sizes { bytes: made.user, numbers: made.helpers })
    });
    stop.unless(code, || {
        made.is_read.then(|| Credentials {
            helpers: configuration.numbered(&found.numbers),
            user: made.has_user.then(|| found.bytes.into()),
            use_http_path: made.use_http_path,
        })
    })
}
