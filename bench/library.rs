//! The calls of library.rt.in by the Rust crate: `beside SIDE CALL REPEATS`. There is one side, `jzon`.
use jzon::{object::Object, parse, JsonValue};
use std::io::{self, stdin, BufWriter, Read, Write};

fn strings(value: &JsonValue) -> Vec<String> {
    value.members().filter_map(|item| item.as_str().map(String::from)).collect()
}

fn visited(value: &JsonValue) -> usize {
    let of_items: usize = value
        .members()
        .flat_map(|item| item.entries())
        .map(|(key, inner)| key.len() + inner.len())
        .sum();
    of_items + value.entries().map(|(key, _)| key.len()).sum::<usize>()
}

fn inserted(keys: &[String]) -> Object {
    let mut object = Object::new();
    keys.iter().for_each(|key| object.insert(key, JsonValue::Null));
    object
}

fn of_pairs(keys: &[String]) -> Object {
    let mut object = Object::new();
    keys.iter().for_each(|key| object.insert(key, 7u64.into()));
    object
}

fn half_removed(keys: &[String]) -> usize {
    let mut object = inserted(keys);
    keys.iter().step_by(2).for_each(|key| drop(object.remove(key)));
    object.len()
}

fn pushed(count: usize) -> usize {
    let mut array = JsonValue::new_array();
    (0..count).for_each(|_| array.push(JsonValue::Null).expect("an array"));
    array.len()
}

/// Counts the bytes that it gets.
struct Counter(usize);

impl Write for Counter {
    fn write(&mut self, buf: &[u8]) -> io::Result<usize> {
        self.0 += buf.len();
        Ok(buf.len())
    }

    fn flush(&mut self) -> io::Result<()> {
        Ok(())
    }
}

fn print(value: &JsonValue, call: &str, writer: &mut impl Write) -> io::Result<()> {
    match call.starts_with("write_pretty") {
        true => value.write_pretty(writer, 2),
        false => value.write(writer),
    }
}

fn written(call: &str, repeats: usize, value: &JsonValue) -> io::Result<usize> {
    if call.ends_with("buffered") {
        let mut out = BufWriter::new(Counter(0));
        for _ in 0..repeats {
            print(value, call, &mut out)?;
        }
        out.flush()?;
        return Ok(out.get_ref().0);
    }
    let (mut bytes, mut sum) = (Vec::new(), 0);
    for _ in 0..repeats {
        bytes.clear();
        print(value, call, &mut bytes)?;
        sum += bytes.len();
    }
    Ok(sum)
}

fn work(call: &str, repeats: usize, source: &str) -> usize {
    let read = || parse(source).expect("a valid text");
    if call.starts_with("write") {
        return written(call, repeats, &read()).expect("a writer that works");
    }
    if call == "parse" || call == "strict" {
        return (0..repeats).map(|_| read().len()).sum();
    }
    if call == "keep" {
        let values: Vec<JsonValue> = (0..repeats).map(|_| read()).collect();
        return values.len();
    }
    let (value, other) = (read(), read());
    let keys = strings(&value);
    let object = inserted(&keys);
    let once = || match call {
        "clone" => value.clone().len(),
        "eq" => usize::from(value == other),
        "dump" => value.dump().len(),
        "pretty" => value.pretty(2).len(),
        "entries" => visited(&value),
        "get" => keys.iter().filter(|key| object.get(key.as_str()).is_some()).count(),
        "insert" => inserted(&keys).len(),
        "from_pairs" => of_pairs(&keys).len(),
        "remove" => half_removed(&keys),
        _ => pushed(keys.len()),
    };
    (0..repeats).map(|_| once()).sum()
}

fn main() {
    let words: Vec<String> = std::env::args().collect();
    let mut source = String::new();
    stdin().read_to_string(&mut source).expect("standard input");
    eprintln!("{}", work(&words[2], words[3].parse().expect("a number"), &source));
}
