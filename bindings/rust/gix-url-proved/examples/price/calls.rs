//! The calls whose time is measured, with the same code for each crate that has them.

use std::hint::black_box;
use std::io::Read;
use std::time::Instant;

/// The lines of the standard input that aren't empty.
pub fn lines() -> Vec<Vec<u8>> {
    let mut all = Vec::new();
    std::io::stdin().read_to_end(&mut all).expect("the standard input can be read");
    all.split(|byte| *byte == b'\n').filter(|line| !line.is_empty()).map(<[u8]>::to_vec).collect()
}

/// The nanoseconds that a call takes per value: the minimum over all passes.
pub fn price<T, A>(values: &[T], passes: usize, call: impl Fn(&T) -> A) -> f64 {
    let pass = || {
        let start = Instant::now();
        for value in values {
            black_box(call(black_box(value)));
        }
        start.elapsed().as_nanos() as f64 / values.len() as f64
    };
    (0..passes).map(|_| pass()).fold(f64::INFINITY, f64::min)
}

/// A module with the function `prices`, which measures the calls of this crate.
macro_rules! priced_by {
    ($name:ident) => {
        mod $name {
            use crate::calls::price;
            use $name::{parse, Url};

            pub fn prices(lines: &[Vec<u8>], passes: usize) -> Vec<(&'static str, f64)> {
                let urls: Vec<Url> = lines.iter().filter_map(|line| parse(line.as_slice()).ok()).collect();
                macro_rules! of {
                    ($values:expr, $call:expr) => {
                        price($values, passes, $call)
                    };
                }
                vec![
                    ("parse", of!(lines, |line| parse(line.as_slice()).is_ok())),
                    ("to_bstring", of!(&urls, |url| url.to_bstring())),
                    ("to_string", of!(&urls, |url| url.to_string())),
                    ("clone", of!(&urls, |url| url.clone())),
                    ("path_query_fragment", of!(&urls, |url| url.path_query_fragment().query.is_some())),
                    ("user", of!(&urls, |url| url.user().is_some())),
                    ("host", of!(&urls, |url| url.host().is_some())),
                    ("user_argument_safe", of!(&urls, |url| url.user_argument_safe().is_some())),
                    ("host_argument_safe", of!(&urls, |url| url.host_argument_safe().is_some())),
                    ("path_argument_safe", of!(&urls, |url| url.path_argument_safe().is_some())),
                    ("original_path", of!(&urls, |url| url.original_path().len())),
                    ("path_is_root", of!(&urls, |url| url.path_is_root())),
                    ("port_or_default", of!(&urls, |url| url.port_or_default())),
                    ("scheme.as_str", of!(&urls, |url| url.scheme.as_str().len())),
                    ("comes back", of!(&urls, |url| parse(url.to_bstring().as_slice()).is_ok_and(|it| it == *url))),
                ]
            }
        }
    };
}
pub(crate) use priced_by;
