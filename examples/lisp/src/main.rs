//! lisp FILE FILE ..: runs a program on each node of a space, and shows their last values.

use std::{env, fs, process};

const SLOTS: u32 = 1_000_000;

fn main() {
    let texts: Result<Vec<String>, _> = env::args().skip(1).map(fs::read_to_string).collect();
    let texts = texts.unwrap_or_else(|error| {
        eprintln!("lisp: {error}");
        process::exit(2);
    });
    let mut programs: Vec<&str> = texts.iter().map(String::as_str).collect();
    // A space has at least two nodes.
    programs.resize(programs.len().max(2), "");
    let outcome = lisp::run::run(&programs, SLOTS).unwrap_or_else(|fault| {
        eprintln!("lisp: {}", fault.0);
        process::exit(1);
    });
    for (node, value) in outcome.values.iter().enumerate().take(texts.len()) {
        println!("{node}: {value}");
    }
    println!("{} cycles", outcome.cycles);
}
