//! Prints what the second model makes of the cue file, or with --wall of the wall list, on standard input.
//!
//!     rustc --edition 2021 -O model_print.rs -o model_print && ./model_print --wall <../shows/foyer.wall

mod model;
mod wall;

use std::io::Read;

fn main() {
    let mut octets = Vec::new();
    std::io::stdin().read_to_end(&mut octets).expect("reading the list");
    let words: Vec<String> = std::env::args().skip(1).collect();
    let words: Vec<&str> = words.iter().map(String::as_str).collect();
    let text = match words[..] {
        [] => model::print(&octets),
        ["--wall"] => wall::print_wall(&octets),
        _ => panic!("usage: model_print [--wall]"),
    };
    print!("{}", text);
}
