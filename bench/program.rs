//! What the program does, by the Rust crate: one text from standard input, printed compact or with `--pretty N`.
use std::io::{stdin, stdout, Read, Write};

fn main() {
    let mut source = String::new();
    stdin().read_to_string(&mut source).expect("standard input");
    let words: Vec<String> = std::env::args().skip(1).collect();
    match jzon::parse(&source) {
        Ok(value) => {
            let mut text = match words.as_slice() {
                [option, spaces] if option == "--pretty" => value.pretty(spaces.parse().expect("a number")),
                _ => value.dump(),
            };
            text.push('\n');
            stdout().write_all(text.as_bytes()).expect("standard output");
            // As ours, which doesn't drop the value.
            std::mem::forget(value);
        }
        Err(error) => {
            eprintln!("jzonfmt: {error}");
            std::process::exit(1);
        }
    }
}
