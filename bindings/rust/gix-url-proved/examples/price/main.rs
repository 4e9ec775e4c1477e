//! Prints the time of each call per line of the standard input, in nanoseconds: `price PASSES`. The lines are like
//! those of `crates/url_bench/remotes.txt`. `bindings/rust/compare` does the same for `gix-url` too.

mod calls;

fn main() {
    let passes = std::env::args().nth(1).map_or(20, |word| word.parse().expect("a number of passes"));
    let lines = calls::lines();
    for (call, nanoseconds) in gix_url_proved::prices(&lines, passes) {
        println!("{call} | {nanoseconds:.1}");
    }
}

calls::priced_by!(gix_url_proved);
