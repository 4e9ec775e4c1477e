//! The calls over a configuration that find the URLs that Git fetches from and pushes to, and whether it may.

use super::buffers::{filled, filled_bytes, Filled, Sizes};
use super::configuration::{Entries, GivenEntry, Stop};
use super::{next, Bytes};
use crate::bstr::BString;
use crate::rules::{Configuration, Decider, Error, Permission, Policy, Remote, Rewritten};

/// How many bytes and URLs a buffer holds at first, in addition to the text that is read.
const SHORT: usize = 256;
const FEW: usize = 8;

/// Two variables of the environment.
#[repr(C)]
struct GivenPolicy<'a> {
    allow_list: Bytes<'a>,
    from_user: Bytes<'a>,
    has_allow_list: bool,
    has_from_user: bool,
}

#[repr(C)]
#[derive(Default)]
struct RewriteNumbers {
    is_rewritten: bool,
    base: usize,
    len: usize,
}

#[repr(C)]
#[derive(Clone, Copy, Default)]
struct RemoteNumbers {
    has_vcs: bool,
    has_proxy: bool,
    has_uploadpack: bool,
    has_receivepack: bool,
    urls: usize,
    push_urls: usize,
    vcs: usize,
    proxy: usize,
    uploadpack: usize,
    receivepack: usize,
    bytes: usize,
}

#[repr(C)]
#[derive(Default)]
struct PermissionNumbers {
    decision: u8,
    by: u8,
    at: usize,
}

#[rustfmt::skip]
extern "C" {
    fn gix_url_c_rewrite_fetch(entries: Entries, count: usize, text: *const u8, len: usize, made: &mut RewriteNumbers, buffer: *mut u8, buffer_len: usize, stop: &mut Stop) -> u32;
    fn gix_url_c_rewrite_push(entries: Entries, count: usize, text: *const u8, len: usize, has_push_url: bool, made: &mut RewriteNumbers, buffer: *mut u8, buffer_len: usize, stop: &mut Stop) -> u32;
    fn gix_url_c_remote(entries: Entries, count: usize, name: *const u8, len: usize, made: &mut RemoteNumbers, buffer: *mut u8, buffer_len: usize, lengths: *mut usize, lengths_len: usize, stop: &mut Stop) -> u32;
    fn gix_url_c_permission(entries: Entries, count: usize, policy: &GivenPolicy, name: *const u8, len: usize, made: &mut PermissionNumbers) -> u32;
}

/// The text that a call rewrites, whose length is `len`.
fn rewritten(
    len: usize,
    mut call: impl FnMut(&mut RewriteNumbers, &mut [u8], &mut Stop) -> u32,
) -> Result<Rewritten, Error> {
    let (mut made, mut stop) = (RewriteNumbers::default(), Stop::default());
    let (code, text) = filled_bytes(len + SHORT, |buffer| (call(&mut made, buffer, &mut stop), made.len));
    stop.unless(code, || Rewritten { text: text.into(), base_len: made.is_rewritten.then_some(made.base) })
}

/// The text that Git fetches from.
pub(crate) fn rewrite_fetch(configuration: &Configuration, text: &[u8]) -> Result<Rewritten, Error> {
    let entries = GivenEntry::all(configuration);
    rewritten(text.len(), |made, buffer, stop| {
        call!(
            gix_url_c_rewrite_fetch,
            entries.as_ptr(),
            entries.len(),
            text.as_ptr(),
            text.len(),
            made,
            buffer.as_mut_ptr(),
            buffer.len(),
            stop
        )
    })
}

/// The text that Git pushes to, for a URL or for a push URL of a remote.
pub(crate) fn rewrite_push(configuration: &Configuration, text: &[u8], has_push_url: bool) -> Result<Rewritten, Error> {
    let entries = GivenEntry::all(configuration);
    rewritten(text.len(), |made, buffer, stop| {
        call!(
            gix_url_c_rewrite_push,
            entries.as_ptr(),
            entries.len(),
            text.as_ptr(),
            text.len(),
            has_push_url,
            made,
            buffer.as_mut_ptr(),
            buffer.len(),
            stop
        )
    })
}

/// The remote with this name.
pub(crate) fn remote(configuration: &Configuration, name: &[u8]) -> Result<Remote, Error> {
    let entries = GivenEntry::all(configuration);
    let (mut made, mut stop) = (RemoteNumbers::default(), Stop::default());
    let sizes = Sizes { bytes: name.len() + SHORT, numbers: FEW };
    let (code, found) = filled(sizes, |buffer, lengths| {
        let code = call!(
            gix_url_c_remote,
            entries.as_ptr(),
            entries.len(),
            name.as_ptr(),
            name.len(),
            &mut made,
            buffer.as_mut_ptr(),
            buffer.len(),
            lengths.as_mut_ptr(),
            lengths.len(),
            &mut stop
        );
        (code, Sizes { bytes: made.bytes, numbers: made.urls + made.push_urls })
    });
    stop.unless(code, || remote_of(&made, &found))
}

/// The remote with these numbers, whose texts follow each other.
fn remote_of(made: &RemoteNumbers, found: &Filled) -> Remote {
    let mut bytes = found.bytes.as_slice();
    let mut text = |len| BString::from(next(&mut bytes, len));
    let (urls, push_urls) = found.numbers.split_at(made.urls);
    Remote {
        urls: urls.iter().map(|len| text(*len)).collect(),
        push_urls: push_urls.iter().map(|len| text(*len)).collect(),
        vcs: made.has_vcs.then(|| text(made.vcs)),
        proxy: made.has_proxy.then(|| text(made.proxy)),
        uploadpack: made.has_uploadpack.then(|| text(made.uploadpack)),
        receivepack: made.has_receivepack.then(|| text(made.receivepack)),
    }
}

/// Whether Git allows a transport.
pub(crate) fn permission(configuration: &Configuration, name: &str, policy: &Policy<'_>) -> Result<Permission, Error> {
    let entries = GivenEntry::all(configuration);
    let policy = GivenPolicy {
        allow_list: Bytes::of_some(policy.allow_list),
        from_user: Bytes::of_some(policy.from_user),
        has_allow_list: policy.allow_list.is_some(),
        has_from_user: policy.from_user.is_some(),
    };
    let mut made = PermissionNumbers::default();
    let code =
        call!(gix_url_c_permission, entries.as_ptr(), entries.len(), &policy, name.as_ptr(), name.len(), &mut made);
    Stop::default().unless(code, || permission_of(&made))
}

/// The permission with these numbers.
fn permission_of(made: &PermissionNumbers) -> Permission {
    let at = made.at;
    let by = match made.by {
        1 => Decider::AllowList,
        2 => Decider::Entry { at },
        _ => Decider::Default,
    };
    match made.decision {
        1 => Permission::Allowed(by),
        2 => Permission::Refused(by),
        3 => Permission::UnknownAllowance { at },
        _ => Permission::UnknownFromUser,
    }
}
