// The plain program beside mail_gen: it writes the same mailbox into one `Vec`, and prints how many bytes it has.
use std::io::Write;

fn mailbox(count: u64) -> Vec<u8> {
    let mut bytes = Vec::with_capacity(404 * count as usize);
    for number in 1..=count {
        write!(bytes, "From gen@example.org Thu Jan  1 00:00:00 1970\nSubject: m{} d{}\n\n", number, number % 10).unwrap();
        for place in 1..=48 {
            let word = (48 * (number - 1) + place).wrapping_mul(0x9E37_79B9_7F4A_7C15) >> 48;
            let end = if place % 12 == 0 { '\n' } else { ' ' };
            write!(bytes, "w{word}{end}").unwrap();
        }
        bytes.push(b'\n');
    }
    bytes
}

fn main() {
    let count = std::env::args().nth(1).and_then(|word| word.parse().ok()).unwrap_or(1);
    println!("{} bytes", mailbox(count).len());
}
