//! The tests of serialized locations, which need `serde` and `serde_json` from a registry. Run
//! `cargo test --manifest-path REPOSITORY/bindings/rust/records/Cargo.toml` in a folder outside of the repository:
//! inside it other crates replace those of a registry.
