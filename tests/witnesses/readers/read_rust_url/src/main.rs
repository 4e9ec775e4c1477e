//! The crate `url`: each line of the input is a text, and is answered by a line of JSON.
use std::io::{self, Read, Write};

fn quoted(text: &str) -> String {
    let mut out = String::from("\"");
    for it in text.chars() {
        match it {
            '"' | '\\' | '\0'..='\x1f' | '\x7f' => out.push_str(&format!("\\u{:04x}", it as u32)),
            _ => out.push(it),
        }
    }
    out + "\""
}

fn read(text: &str) -> Vec<(&'static str, String)> {
    let it = match url::Url::parse(text) {
        Ok(it) => it,
        Err(error) => return vec![("refused", error.to_string())],
    };
    let mut found = vec![("scheme", it.scheme().to_string()), ("user", it.username().to_string()), ("path", it.path().to_string())];
    found.extend(it.password().map(|it| ("password", it.to_string())));
    found.extend(it.host_str().map(|it| ("host", it.to_string())));
    found.extend(it.port().map(|it| ("port", it.to_string())));
    found.extend(it.query().map(|it| ("query", it.to_string())));
    found
}

fn main() {
    let mut given = String::new();
    io::stdin().read_to_string(&mut given).expect("the texts are UTF-8");
    let mut out = String::new();
    for text in given.split_terminator('\n') {
        let members: Vec<_> = read(text).iter().map(|(name, value)| format!("{}: {}", quoted(name), quoted(value))).collect();
        out += &format!("{{{}}}\n", members.join(", "));
    }
    io::stdout().write_all(out.as_bytes()).expect("the answers are written");
}
