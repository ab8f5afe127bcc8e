//! What the program does, by Rust's `serde_json`: one text from standard input, printed compact or with `--pretty N`.
use serde::Serialize;
use serde_json::ser::{PrettyFormatter, Serializer};
use std::io::{stdin, stdout, Read, Write};

fn main() {
    let mut source = String::new();
    stdin().read_to_string(&mut source).expect("standard input");
    let words: Vec<String> = std::env::args().skip(1).collect();
    let value: serde_json::Value = serde_json::from_str(&source).expect("a JSON text");
    let mut text = match words.as_slice() {
        [option, spaces] if option == "--pretty" => {
            let indent = vec![b' '; spaces.parse().expect("a number")];
            let mut printer = Serializer::with_formatter(Vec::new(), PrettyFormatter::with_indent(&indent));
            value.serialize(&mut printer).expect("a text");
            printer.into_inner()
        }
        _ => serde_json::to_vec(&value).expect("a text"),
    };
    text.push(b'\n');
    stdout().write_all(&text).expect("standard output");
    // As ours, which doesn't drop the value.
    std::mem::forget(value);
}
