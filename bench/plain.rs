// What a plain Rust program does: read all, cut, index the words in a hash map, answer from it.
// One answer line for each word given. Standard library only.
use std::collections::HashMap;
use std::io::{Read, Write};

type Key = [u64; 4];

fn key_of(word: &[u8]) -> Option<Key> {
    if word.is_empty() || word.len() > 32 {
        return None;
    }
    let mut bytes = [0u8; 32];
    for (place, byte) in word.iter().enumerate() {
        bytes[place] = byte.to_ascii_lowercase();
    }
    let number = |at: usize| u64::from_be_bytes(bytes[at..at + 8].try_into().unwrap());
    Some([number(0), number(8), number(16), number(24)])
}

fn content(line: &[u8]) -> &[u8] {
    match line.strip_suffix(b"\n".as_slice()) {
        Some(line) => line.strip_suffix(b"\r".as_slice()).unwrap_or(line),
        None => line,
    }
}

fn cut(bytes: &[u8]) -> Option<Vec<(usize, usize)>> {
    let mut spans = vec![];
    let mut open = None;
    let mut after_empty = true;
    let mut at = 0;
    for line in bytes.split_inclusive(|byte| *byte == b'\n') {
        let end = at + line.len();
        let text = content(line);
        if after_empty && text.starts_with(b"From ") {
            if let Some(from) = open {
                spans.push((from, at));
            }
            open = Some(end);
        } else if open.is_none() && !text.is_empty() {
            return None;
        }
        after_empty = text.is_empty();
        at = end;
    }
    if let Some(from) = open {
        spans.push((from, bytes.len()));
    }
    Some(spans)
}

fn main() {
    let mut bytes = vec![];
    std::io::stdin().lock().read_to_end(&mut bytes).expect("reading failed");
    let spans = cut(&bytes).expect("input is not an mbox");
    let mut index: HashMap<Key, Vec<u64>> = HashMap::new();
    for (place, (from, to)) in spans.iter().enumerate() {
        let pieces = bytes[*from..*to].split(|byte| !byte.is_ascii_alphanumeric());
        let mut keys: Vec<Key> = pieces.filter_map(key_of).collect();
        keys.sort_unstable();
        keys.dedup();
        for key in keys {
            index.entry(key).or_default().push(place as u64 + 1);
        }
    }
    let mut output = String::new();
    for word in std::env::args().skip(1) {
        let hits = key_of(word.as_bytes()).and_then(|key| index.get(&key));
        let hits = hits.map_or(&[][..], |hits| hits);
        output += &format!("{}:", hits.len());
        for hit in hits {
            output += &format!(" {hit}");
        }
        output.push('\n');
    }
    std::io::stdout().write_all(output.as_bytes()).expect("writing failed");
}
