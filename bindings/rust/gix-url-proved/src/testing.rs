//! A constructor without checks, for tests.

use crate::bstr::BString;
use crate::{Scheme, Url};

/// Builds locations that the parser never returns.
pub trait TestUrlExtension {
    /// Builds a location from these parts as they are. Nothing is checked, and there is no escaped path.
    ///
    /// ```
    /// use gix_url_proved::testing::TestUrlExtension;
    /// use gix_url_proved::{Scheme, Url};
    ///
    /// let url = Url::from_parts_unchecked(Scheme::Https, None, None, Some("H".into()), None, "/p".into(), false);
    /// assert_eq!(url.to_bstring(), "https://H/p");
    /// assert!(!url.is_settled());
    /// ```
    fn from_parts_unchecked(
        scheme: Scheme,
        user: Option<String>,
        password: Option<String>,
        host: Option<String>,
        port: Option<u16>,
        path: BString,
        serialize_alternative_form: bool,
    ) -> Url {
        Url { scheme, user, password, host, serialize_alternative_form, port, path, spelling: None }
    }
}

impl TestUrlExtension for Url {}
