//! Program `oracle`: answers requests with what the unchanged Rust does. The protocol is in README.md.

use judge::pickle::{to_bytes, Value};
use judge::{answer, hex, serve, table};

fn main() {
    serve::main(answer);
}

fn answer(line: &[u8]) -> String {
    request(line).unwrap_or_else(|message| format!("error {message}"))
}

fn request(line: &[u8]) -> Result<String, &'static str> {
    let fields: Vec<&[u8]> = line.split(|&byte| byte == b' ').collect();
    match fields[..] {
        [b"prefix", data] => read(data, false),
        [b"whole", data] => read(data, true),
        [b"write", words, text] => Ok(format!("bytes {}", hex::of_bytes(&to_bytes(&value(words, text)?)))),
        [b"compare", words, text, other_words, other_text] => {
            let order = value(words, text)?.cmp(&value(other_words, other_text)?);
            Ok(format!("order {}", order as i8))
        }
        _ => Err("not a request"),
    }
}

fn read(data: &[u8], whole: bool) -> Result<String, &'static str> {
    Ok(match answer::read(&hex::to_bytes(data)?, whole) {
        Ok((value, length)) => answer::value(&value, length),
        Err(refusal) => answer::refused(refusal),
    })
}

fn value(words: &[u8], text: &[u8]) -> Result<Value, &'static str> {
    table::to_value(&hex::to_words(words)?, &hex::to_bytes(text)?)
}
