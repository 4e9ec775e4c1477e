//! Prints the command of Secure Shell for each remote on the standard input, and refuses parts that may be taken for an
//! option.
//!
//! `cargo run --example ssh_command <../../../examples/remotes`

use gix_url_proved::{parse, ArgumentSafety, Scheme, Url};
use std::io::{self, BufRead};

fn command(url: &Url) -> String {
    let port = match (&url.scheme, url.port_or_default()) {
        (Scheme::Ssh, Some(port)) => port,
        _ => return "not by Secure Shell".to_owned(),
    };
    match (url.user_as_argument(), url.host_argument_safe()) {
        (ArgumentSafety::Dangerous(_), _) | (_, None) => "no host or user that is safe to hand to a command".to_owned(),
        (ArgumentSafety::Usable(user), Some(host)) => format!("ssh -p {port} {user}@{host}"),
        (ArgumentSafety::Absent, Some(host)) => format!("ssh -p {port} {host}"),
    }
}

fn main() -> io::Result<()> {
    for line in io::stdin().lock().split(b'\n') {
        // Git or another reader may find another host in the text of any other location.
        match parse(line?).ok().filter(Url::is_unambiguous) {
            Some(url) => println!("{}", command(&url)),
            None => println!("no location to rely on"),
        }
    }
    Ok(())
}
