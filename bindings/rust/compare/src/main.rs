//! Makes the same calls of `gix-url` and of `gix-url-proved` with the same texts, and prints each text for which the
//! results differ. `compare COUNT FILE..` uses the lines of the files, and COUNT texts that are made from them by
//! random changes. Its status is 1 if there is a difference, except for the form `user@[address]:path`, which is
//! counted.
//!
//! `compare price PASSES` prints how many nanoseconds each call of both crates takes per line of the standard input.

#[path = "../../gix-url-proved/examples/price/calls.rs"]
mod calls;

use std::{env, fs, process};

/// The times of the same calls in both crates.
mod price {
    crate::calls::priced_by!(gix_url);
    crate::calls::priced_by!(gix_url_proved);

    /// Prints the nanoseconds of each call in both crates, and the ratio.
    pub fn print(passes: usize) {
        let lines = crate::calls::lines();
        let (theirs, ours) = (gix_url::prices(&lines, passes), gix_url_proved::prices(&lines, passes));
        for ((call, theirs), (_, ours)) in theirs.into_iter().zip(ours) {
            println!("{call} | {theirs:.1} | {ours:.1} | {:.2}", ours / theirs);
        }
    }
}

/// The results of one of the two crates for a text: the same code for both, as in any program that changes its
/// dependency.
macro_rules! reported_by {
    ($name:ident) => {
        mod $name {
            use bstr::ByteSlice;
            use $name::{PathComponents, Url};

            /// The results of all calls for a text; `None` if it is refused.
            pub fn reported(text: &[u8]) -> Option<String> {
                let url = Url::from_bytes(text.as_bstr()).ok()?;
                Some([fields(&url), answers(&url), components(&url)].join("\n"))
            }

            fn fields(url: &Url) -> String {
                let flag = url.serialize_alternative_form;
                let (user, password, host) = (url.user(), url.password(), url.host());
                format!("{:?} {user:?} {password:?} {host:?} {flag} {:?} {:?}", url.scheme, url.port, url.path)
            }

            fn answers(url: &Url) -> String {
                let safe = (url.user_argument_safe(), url.host_argument_safe(), url.path_argument_safe());
                let path = (url.original_path(), url.path_is_root());
                let port = (url.port_or_default(), url.scheme.default_port(), url.scheme.as_str());
                format!("{safe:?} {path:?} {port:?} {:?} {url}", url.to_bstring())
            }

            fn components(url: &Url) -> String {
                let PathComponents { path, query, fragment } = url.path_query_fragment();
                format!("{path:?} {query:?} {fragment:?}")
            }
        }
    };
}

reported_by!(gix_url);
reported_by!(gix_url_proved);

/// Pseudo-random numbers, the same in each run.
struct Chance(u64);

impl Chance {
    fn below(&mut self, bound: usize) -> usize {
        self.0 ^= self.0 << 13;
        self.0 ^= self.0 >> 7;
        self.0 ^= self.0 << 17;
        (self.0 % bound as u64) as usize
    }

    /// The text with one to four changes: a byte is removed or replaced, or a piece with a meaning is inserted.
    fn changed(&mut self, text: &[u8]) -> Vec<u8> {
        const PIECES: [&str; 24] = [
            ":", "/", "@", "[", "]", "%", "%2", "%20", "%ff", "?", "#", "&", "=", "+", "::", "://", "~", "-", "\\",
            " ", "ö", "[::1]", ":0", ":65536",
        ];
        let mut text = text.to_vec();
        for _ in 0..=self.below(4) {
            let at = self.below(text.len() + 1);
            match self.below(3) {
                0 if at < text.len() => drop(text.remove(at)),
                1 if at < text.len() => text[at] = self.below(256) as u8,
                _ => drop(text.splice(at..at, PIECES[self.below(PIECES.len())].bytes())),
            }
        }
        text
    }
}

/// Whether the text has the one form that is known to be parsed by `gix-url-proved` alone.
fn is_known(text: &[u8]) -> bool {
    ::gix_url_proved::parse(text).is_ok_and(|url| {
        url.serialize_alternative_form && url.user().is_some() && url.host().is_some_and(|host| host.contains(':'))
    })
}

fn main() {
    let mut words = env::args().skip(1);
    let first = words.next().expect("compare COUNT FILE.. or compare price PASSES");
    if first == "price" {
        return price::print(words.next().map_or(20, |word| word.parse().expect("a number of passes")));
    }
    let count: usize = first.parse().expect("a number of texts");
    let files: Vec<Vec<u8>> =
        words.map(|file| fs::read(&file).unwrap_or_else(|error| panic!("{file}: {error}"))).collect();
    let lines: Vec<&[u8]> = files.iter().flat_map(|file| file.split(|byte| *byte == b'\n')).collect();
    let mut chance = Chance(0x9E37_79B9_7F4A_7C15);
    let changed = (0..count).map(|_| {
        let line = lines[chance.below(lines.len())];
        chance.changed(line)
    });
    let (mut asked, mut known, mut different) = (0, 0, 0);
    for text in lines.iter().map(|line| line.to_vec()).chain(changed) {
        asked += 1;
        let (theirs, ours) = (gix_url::reported(&text), gix_url_proved::reported(&text));
        if theirs == ours {
            continue;
        }
        if theirs.is_none() && is_known(&text) {
            known += 1;
            continue;
        }
        different += 1;
        println!("{}\n  gix-url: {theirs:?}\n  here:    {ours:?}", text.escape_ascii());
    }
    println!("{asked} texts, {different} differences, {known} of the form user@[address]:path");
    process::exit(i32::from(different > 0));
}
