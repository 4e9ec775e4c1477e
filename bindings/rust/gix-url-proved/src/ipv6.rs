//! A test for IPv6 addresses.

use std::net::Ipv6Addr;

/// Whether the text is an IPv6 address, without brackets, port or zone. Allocates nothing.
///
/// ```
/// use gix_url_proved::ipv6::is_ipv6;
///
/// assert!(is_ipv6("fe80::1") && is_ipv6("::1.2.3.4"));
/// assert!(!is_ipv6("[::1]") && !is_ipv6("fe80::1%eth0"));
/// ```
pub fn is_ipv6(text: &str) -> bool {
    text.parse::<Ipv6Addr>().is_ok()
}
