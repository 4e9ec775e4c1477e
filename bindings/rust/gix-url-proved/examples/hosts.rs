//! Prints the destination of each remote on the standard input: its host and port, or why it is refused. A host that
//! may be taken for an option isn't printed, since a reader of the output may pass it to a command; nor is one that Git
//! or another reader may not find in the text of the location.
//!
//! `cargo run --example hosts <../../../examples/remotes`

use gix_url_proved::{parse, ArgumentSafety, Url};
use std::io::{self, BufRead};

fn lead(url: &Url) -> String {
    match (url.host_as_argument(), url.port_or_default()) {
        (ArgumentSafety::Dangerous(_), _) => {
            "refused: the host begins with -, and may be taken for an option".to_owned()
        }
        _ if !url.is_unambiguous() => "no host to rely on".to_owned(),
        (ArgumentSafety::Absent, _) => "this machine".to_owned(),
        (ArgumentSafety::Usable(host), Some(port)) => format!("{host} {port}"),
        (ArgumentSafety::Usable(host), None) => host.to_owned(),
    }
}

fn main() -> io::Result<()> {
    for line in io::stdin().lock().split(b'\n') {
        match parse(line?) {
            Ok(url) => println!("{}", lead(&url)),
            // The words have no byte of the text, which may have a password.
            Err(error) => println!("refused at byte {}: {error}", error.refusal().map_or(0, |it| it.at)),
        }
    }
    Ok(())
}
