//! Prints how Git fetches from each remote of the configuration file on the standard input: the words that it passes to
//! Secure Shell, or the transport and the URL that it uses; or why a program that audits remotes refuses it.
//!
//! `cargo run --example remotes <../../../examples/config`

use gix_url_proved::audit::{dangers, redacted};
use gix_url_proved::bstr::BStr;
use gix_url_proved::parse;
use gix_url_proved::rules::{ssh_words, transport_of, Configuration, Policy, SshRequest};
use std::error::Error;
use std::io::{self, Read};

/// The names of the remotes, in their order.
fn names(configuration: &Configuration) -> Vec<&BStr> {
    let of_remote = |section: &BStr| section.eq_ignore_ascii_case(b"remote");
    let entries = configuration.entries().filter(|entry| of_remote(entry.section));
    let mut names: Vec<&BStr> = entries.filter_map(|entry| entry.subsection).collect();
    names.dedup();
    names
}

/// How Git fetches from a remote.
fn fetched(configuration: &Configuration, name: &BStr) -> Result<String, Box<dyn Error>> {
    let remote = configuration.remote(name)?;
    let text = &remote.urls[0];
    let transport = transport_of(text)?;
    if !configuration.permission(&transport, &Policy::default())?.is_allowed() {
        return Err(format!("Git doesn't use the transport {transport}").into());
    }
    let url = parse(text)?;
    if let Some(danger) = dangers(text, &url)?.first() {
        return Err(format!("{danger}: {}", redacted(text)).into());
    }
    if transport != "ssh" {
        return Ok(format!("{transport}: {text}"));
    }
    let words = ssh_words(&url, &SshRequest::default())?.words;
    Ok(words.iter().fold("ssh".to_owned(), |listed, word| format!("{listed}, {word}")))
}

fn main() -> Result<(), Box<dyn Error>> {
    let mut text = Vec::new();
    io::stdin().read_to_end(&mut text)?;
    let configuration = Configuration::from_file(text)?;
    for name in names(&configuration) {
        let outcome = fetched(&configuration, name).unwrap_or_else(|error| format!("refused: {error}"));
        println!("{name}: {outcome}");
    }
    Ok(())
}
