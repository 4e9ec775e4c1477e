//! Parses, writes and compares Git locations: remote helpers, URLs, the scp form and local paths.
//!
//! The public items have the names that they have in `gix-url` 0.40.1, so a program changes the line that names its
//! dependency, and little else. `docs/FROM_RUST.md` in the repository lists each line that changes. The results come
//! from the library `gix_url`, whose code is proved and which is linked in as a static library; this crate converts
//! values to pointers with lengths, and back. All `unsafe` code is in the module `ffi`, and in the byte strings that
//! replace those of the crate `bstr` if the feature `bstr` is off. Two modules are new: [`rules`] applies Git's
//! configuration, and [`audit`] finds dangers and secrets.
//!
//! ```
//! let url = gix_url_proved::parse("ssh://git@example.com/gitoxide")?;
//! assert_eq!(url.host(), Some("example.com"));
//! assert_eq!(url.path, "/gitoxide");
//! assert!(url.is_unambiguous());
//! # Ok::<(), gix_url_proved::parse::Error>(())
//! ```
//!
//! # Features
//!
//! - `bstr`, on by default: paths and texts are `BString` and `BStr` of the crate `bstr`. Without it they are types of
//!   this crate's own module [`bstr`](mod@bstr), which have the same names and traits.
//! - `serde`: serializes and deserializes [`Url`], [`Scheme`] and [`expand_path::ForUser`], in the format of `gix-url`.
//! - `compare` and `measure` are for work on this crate. With `compare`, `cargo test` compares with `gix-url` itself if
//!   that is installed. With `measure`, the examples that count instructions and measure times are built.

#![deny(missing_docs, unsafe_op_in_unsafe_fn)]

#[cfg(feature = "bstr")]
pub use ::bstr;
#[cfg(not(feature = "bstr"))]
#[path = "bytes.rs"]
pub mod bstr;

pub mod audit;
mod borrowed;
mod chunks;
mod convert;
mod debug;
mod disk;
pub mod expand_path;
mod ffi;
pub mod ipv6;
pub mod parse;
mod refusal;
pub mod rules;
mod scheme;
#[cfg(feature = "serde")]
mod stored;
pub mod testing;
pub mod unambiguous;
mod url;
mod words;

pub use expand_path::expand_path;
pub use parse::parse;
pub use refusal::{Reason, Refusal};
pub use scheme::Scheme;
pub use url::{ArgumentSafety, PathComponents, QueryPair, Url};
