//! Makes one call on each line of the standard input, PASSES times: `measure CALL PASSES`, so that valgrind can count
//! the instructions of a call. The calls are `read`, `settled`, `git`, `write` and `look`.

use gix_url_proved::parse;
use std::hint::black_box;
use std::io::Read;

fn main() {
    let words: Vec<String> = std::env::args().collect();
    let passes: usize = words[2].parse().expect("a number of passes");
    let mut all = Vec::new();
    std::io::stdin().read_to_end(&mut all).expect("the standard input can be read");
    for _ in 0..passes {
        for line in all.split(|byte| *byte == b'\n').filter(|line| !line.is_empty()) {
            let Ok(url) = black_box(parse(line)) else { continue };
            match words[1].as_str() {
                "settled" => {
                    black_box(url.is_settled());
                }
                "git" => {
                    black_box(url.agrees_with_git());
                }
                "write" => drop(black_box(url.to_bstring())),
                "look" => {
                    black_box(url.port_or_default());
                }
                _ => {}
            }
        }
    }
}
