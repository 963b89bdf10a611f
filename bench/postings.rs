// The plain program beside `bench_index turns`: it makes the same mailbox and the word list of each message, and with the task `map` brings
// the lists into a hash map, as plain.rs does. It prints how many messages there are, how many words of messages, and how many keys the map has.
use std::collections::HashMap;

type Key = [u64; 4];

fn text(number: u64) -> String {
    let mut text = format!("Subject: m{} d{}\n\n", number, number % 10);
    for place in 1..=48 {
        let word = (48 * (number - 1) + place).wrapping_mul(0x9E37_79B9_7F4A_7C15) >> 48;
        let end = if place % 12 == 0 { '\n' } else { ' ' };
        text += &format!("w{word}{end}");
    }
    text
}

fn key_of(word: &[u8]) -> Option<Key> {
    if word.is_empty() || word.len() > 32 {
        return None;
    }
    let mut bytes = [0u8; 32];
    for (place, byte) in word.iter().enumerate() {
        bytes[place] = byte.to_ascii_lowercase();
    }
    let number = |at: usize| u64::from_be_bytes(bytes[at..at + 8].try_into().unwrap());
    Some([number(0), number(8), number(16), number(24)])
}

fn main() {
    let args: Vec<String> = std::env::args().collect();
    let count: u64 = args[2].parse().expect("no number");
    let mut lists: Vec<Vec<Key>> = vec![];
    for number in 1..=count {
        let text = text(number);
        let pieces = text.as_bytes().split(|byte| !byte.is_ascii_alphanumeric());
        let mut keys: Vec<Key> = pieces.filter_map(key_of).collect();
        keys.sort_unstable();
        keys.dedup();
        lists.push(keys);
    }
    let mut index: HashMap<Key, Vec<u64>> = HashMap::new();
    if args[1] == "map" {
        for (place, keys) in lists.iter().enumerate() {
            for key in keys {
                index.entry(*key).or_default().push(place as u64 + 1);
            }
        }
    }
    let words: usize = lists.iter().map(Vec::len).sum();
    println!("{} messages, {} words, {} keys", lists.len(), words, index.len());
}
