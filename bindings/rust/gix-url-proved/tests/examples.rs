//! The programs of `examples` print output that was written by hand: three of them print that of the programs in C.

use std::env;
use std::fs::{self, File};
use std::process::Command;

/// A file of the repository's examples.
fn file(name: &str) -> String {
    let here = concat!(env!("CARGO_MANIFEST_DIR"), "/../../..");
    format!("{}/examples/{name}", env::var("GIX_URL_REPOSITORY").unwrap_or(here.to_owned()))
}

/// The output of an example for a file.
fn printed(example: &str, input: &str) -> String {
    let tests = env::current_exe().unwrap();
    let program = tests.parent().unwrap().with_file_name("examples").join(example);
    assert!(program.is_file(), "cargo test without --test builds the examples");
    let ran = Command::new(program).stdin(File::open(file(input)).unwrap()).output().unwrap();
    assert!(ran.status.success());
    String::from_utf8(ran.stdout).unwrap()
}

/// The expected output in a file.
fn wanted(name: &str) -> String {
    fs::read_to_string(file(name)).unwrap()
}

#[test]
fn examples_print_what_those_in_c_do() {
    for example in ["hosts", "ssh_command", "without_password"] {
        assert_eq!(printed(example, "remotes"), wanted(&format!("c/{example}.wanted")), "{example}");
    }
}

#[test]
fn an_example_says_what_git_does_by_a_configuration() {
    assert_eq!(printed("remotes", "config"), wanted("config.wanted"));
}
