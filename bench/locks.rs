// The plain programs beside bench_stm: `mutex` is one mutex round a `Vec`, `words` has a mutex for each word and takes those of an
// attempt in the order of their places. They read and write the same words as bench_stm, and print the same.
use std::sync::{Mutex, MutexGuard};
use std::thread;

const COUNTS: u64 = 32;
const ACCOUNTS: u64 = 1024;
const WORDS: usize = (COUNTS + ACCOUNTS) as usize;

#[derive(Clone, Copy)]
enum Task {
    Counter,
    Transfer,
    Scan,
    Batch,
}

fn account(number: u64) -> usize {
    (COUNTS + number % ACCOUNTS) as usize
}

fn drawn(thread: u64, round: u64) -> u64 {
    (round + (thread << 32)).wrapping_mul(0x9E37_79B9_7F4A_7C15) >> 40
}

fn other(number: u64) -> u64 {
    number + 1 + number / ACCOUNTS % (ACCOUNTS - 1)
}

fn read_at(number: u64, place: u64) -> usize {
    account(number + 37 * place)
}

fn write_at(number: u64, place: u64) -> usize {
    account(number + 41 * place)
}

// What an attempt reads from and writes to.
trait Words {
    fn get(&self, at: usize) -> u64;
    fn set(&mut self, at: usize, value: u64);
}

impl Words for Vec<u64> {
    fn get(&self, at: usize) -> u64 {
        self[at]
    }

    fn set(&mut self, at: usize, value: u64) {
        self[at] = value;
    }
}

// The words that an attempt has locked, with their places in rising order.
struct Locked<'a> {
    places: &'a [usize],
    guards: Vec<MutexGuard<'a, u64>>,
}

impl Words for Locked<'_> {
    fn get(&self, at: usize) -> u64 {
        *self.guards[self.places.binary_search(&at).unwrap()]
    }

    fn set(&mut self, at: usize, value: u64) {
        *self.guards[self.places.binary_search(&at).unwrap()] = value;
    }
}

// One attempt. The answer is the sum of the accounts that were read.
fn attempt(words: &mut impl Words, task: Task, count_at: usize, number: u64) -> u64 {
    if !matches!(task, Task::Scan) {
        let count = words.get(count_at);
        words.set(count_at, count - 1);
    }
    match task {
        Task::Counter => {
            let value = words.get(account(0));
            words.set(account(0), value.wrapping_add(1));
            value
        }
        Task::Transfer => {
            let from = words.get(account(number));
            let to = words.get(account(other(number)));
            words.set(account(number), from.wrapping_sub(1));
            words.set(account(other(number)), to.wrapping_add(1));
            from.wrapping_add(to)
        }
        Task::Scan => (0..64).fold(0, |sum, place| sum.wrapping_add(words.get(read_at(number, place)))),
        Task::Batch => {
            let sum: u64 = (0..39).fold(0, |sum, place| sum.wrapping_add(words.get(read_at(number, place))));
            for place in 0..59 {
                words.set(write_at(number, place), sum.wrapping_add(place));
            }
            sum
        }
    }
}

// The places of all the words that an attempt touches, rising.
fn places(task: Task, count_at: usize, number: u64, places: &mut Vec<usize>) {
    places.clear();
    match task {
        Task::Counter => places.extend([count_at, account(0)]),
        Task::Transfer => places.extend([count_at, account(number), account(other(number))]),
        Task::Scan => places.extend((0..64).map(|place| read_at(number, place))),
        Task::Batch => {
            places.push(count_at);
            places.extend((0..39).map(|place| read_at(number, place)));
            places.extend((0..59).map(|place| write_at(number, place)));
        }
    }
    places.sort_unstable();
    places.dedup();
}

fn run_mutex(words: &Mutex<Vec<u64>>, task: Task, thread: u64, rounds: u64) -> u64 {
    let mut sum = 0u64;
    for round in 0..rounds {
        let mut words = words.lock().unwrap();
        sum = sum.wrapping_add(attempt(&mut *words, task, 8 * thread as usize, drawn(thread, round)));
    }
    sum
}

fn run_words(words: &[Mutex<u64>], task: Task, thread: u64, rounds: u64) -> u64 {
    let mut sum = 0u64;
    let mut list = Vec::with_capacity(128);
    for round in 0..rounds {
        let number = drawn(thread, round);
        places(task, 8 * thread as usize, number, &mut list);
        let guards = list.iter().map(|at| words[*at].lock().unwrap()).collect();
        let mut locked = Locked { places: &list, guards };
        sum = sum.wrapping_add(attempt(&mut locked, task, 8 * thread as usize, number));
    }
    sum
}

// Runs the threads, and adds up what they answer.
fn in_threads(threads: u64, run: impl Fn(u64) -> u64 + Sync) -> u64 {
    thread::scope(|scope| {
        let run = &run;
        let others: Vec<_> = (1..threads).map(|thread| scope.spawn(move || run(thread))).collect();
        let first = run(0);
        others.into_iter().fold(first, |sum, other| sum.wrapping_add(other.join().unwrap()))
    })
}

fn main() {
    let words: Vec<String> = std::env::args().skip(1).collect();
    let [kind, task, threads, rounds] = &words[..] else {
        panic!("locks mutex|words TASK THREADS ROUNDS");
    };
    let task = match task.as_str() {
        "counter" => Task::Counter,
        "transfers" => Task::Transfer,
        "scans" => Task::Scan,
        _ => Task::Batch,
    };
    let (threads, rounds): (u64, u64) = (threads.parse().unwrap(), rounds.parse().unwrap());
    let sum = if kind == "mutex" {
        let words = Mutex::new(vec![rounds; WORDS]);
        in_threads(threads, |thread| run_mutex(&words, task, thread, rounds))
    } else {
        let words: Vec<Mutex<u64>> = (0..WORDS).map(|_| Mutex::new(rounds)).collect();
        in_threads(threads, |thread| run_words(&words, task, thread, rounds))
    };
    println!("{} commits, 0 stops, sum {sum}", threads * rounds);
}
