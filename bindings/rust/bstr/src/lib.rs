//! Replaces the crate `bstr` in builds inside of this repository, which need no registry, with the byte strings of
//! `gix-url-proved` itself.

#[path = "../../gix-url-proved/src/bytes.rs"]
mod bytes;

#[path = "../../gix-url-proved/src/chunks.rs"]
mod chunks;

pub use bytes::*;
