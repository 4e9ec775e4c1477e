//! Replaces the crate `serde` in builds inside of this repository, which need no registry. The feature `serde` of
//! `gix-url-proved` needs the real crate.

compile_error!("the feature serde needs a registry: call cargo outside of this repository, as docs/FROM_RUST.md says");
