//! What write.rt.in does, by the Rust crate: `beside [plain] [--pretty N]`.
use jzon::JsonValue;
use std::io::{self, read_to_string, stdin, stdout, BufWriter, Write};

fn main() -> io::Result<()> {
    let words: Vec<String> = std::env::args().skip(1).collect();
    let text = read_to_string(stdin())?;
    let value = match jzon::parse(&text) {
        Ok(value) => value,
        Err(error) => {
            eprintln!("write: {error}");
            std::process::exit(1);
        }
    };
    let spaces = match words.as_slice() {
        [.., option, spaces] if option == "--pretty" => Some(spaces.parse().expect("a number")),
        _ => None,
    };
    match words.first().is_some_and(|word| word == "plain") {
        true => print(&value, spaces, &mut stdout()),
        false => print(&value, spaces, &mut BufWriter::new(stdout())),
    }
}

fn print(value: &JsonValue, spaces: Option<u16>, out: &mut impl Write) -> io::Result<()> {
    match spaces {
        Some(spaces) => value.write_pretty(out, spaces)?,
        None => value.write(out)?,
    }
    writeln!(out)?;
    out.flush()
}
