//! Prints each remote on the standard input without its password.
//!
//! `cargo run --example without_password <../../../examples/remotes`

use gix_url_proved::parse;
use std::io::{self, BufRead};

fn main() -> io::Result<()> {
    for line in io::stdin().lock().split(b'\n') {
        let mut url = match parse(line?) {
            Ok(url) => url,
            Err(error) => {
                println!("refused: {error}");
                continue;
            }
        };
        url.set_password(None);
        match url.text() {
            Ok(text) => println!("{text}"),
            Err(error) => println!("not written: {error}"),
        }
    }
    Ok(())
}
