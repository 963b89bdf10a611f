// The plain twin of ring_words: the same memory on atomic words, sequentially consistent, written straight, with no machine and no
// stages. It carries out the tasks of bench_stm, and prints the same.
use std::sync::atomic::{AtomicU64, Ordering::SeqCst};
use std::thread;

const COUNTS: u64 = 32;
const ACCOUNTS: u64 = 1024;
const WORDS: u64 = COUNTS + ACCOUNTS;
const ENTRIES: u64 = 1024;
const MIX: u64 = 0x9E37_79B9_7F4A_7C15;
const PLACES: usize = 512;
const MAX_WRITES: usize = 256;
const STOPS_AT_ONCE: u64 = 4;

// A set of places, one bit each.
struct Sig {
    words: [u64; 16],
    shift: u32,
}

impl Sig {
    fn empty(sig_words: usize) -> Sig {
        Sig { words: [0; 16], shift: 64 - (64 * sig_words).trailing_zeros() }
    }

    fn add(&mut self, addr: u64) {
        let place = addr.wrapping_mul(MIX) >> self.shift;
        self.words[(place / 64) as usize] |= 1 << (place % 64);
    }
}

// The writes of an attempt, each address once, found by chains of those whose addresses have the same place.
struct Writes {
    items: Vec<(u64, u64)>,
    newest: [u16; PLACES],
    older: [u16; MAX_WRITES],
}

impl Writes {
    fn new() -> Writes {
        Writes { items: Vec::with_capacity(MAX_WRITES), newest: [0; PLACES], older: [0; MAX_WRITES] }
    }

    fn place(addr: u64) -> usize {
        (addr.wrapping_mul(MIX) >> (64 - PLACES.trailing_zeros())) as usize
    }

    fn find(&self, addr: u64) -> Option<usize> {
        if self.items.is_empty() {
            return None;
        }
        let mut number = self.newest[Writes::place(addr)];
        while number > 0 {
            let index = number as usize - 1;
            if self.items[index].0 == addr {
                return Some(index);
            }
            number = self.older[index];
        }
        None
    }

    // Puts a first write to an address in.
    fn push(&mut self, addr: u64, value: u64) {
        let place = Writes::place(addr);
        let index = self.items.len();
        self.older[index] = self.newest[place];
        self.newest[place] = index as u16 + 1;
        self.items.push((addr, value));
    }

    fn clear(&mut self) {
        for (addr, _) in self.items.drain(..) {
            self.newest[Writes::place(addr)] = 0;
        }
    }
}

struct Ring {
    sig_words: usize,
    index: AtomicU64,
    tags: Vec<AtomicU64>,
    sigs: Vec<AtomicU64>,
    heap: Vec<AtomicU64>,
}

struct Attempt {
    start: u64,
    read_sig: Sig,
    writes: Writes,
    write_sig: Sig,
}

struct Stopped;

fn zeros(count: usize) -> Vec<AtomicU64> {
    (0..count).map(|_| AtomicU64::new(0)).collect()
}

// One more stop in a row. The first few are followed by another try at once, and after more other threads get to run first.
fn count_stop(stops: u64) -> u64 {
    if stops >= STOPS_AT_ONCE {
        thread::yield_now();
    }
    stops + 1
}

impl Ring {
    fn new(sig_words: usize, first: u64) -> Ring {
        let heap = (0..WORDS).map(|_| AtomicU64::new(first)).collect();
        Ring { sig_words, index: AtomicU64::new(0), tags: zeros(ENTRIES as usize), sigs: zeros(ENTRIES as usize * sig_words), heap }
    }

    fn attempt(&self) -> Attempt {
        Attempt { start: 0, read_sig: Sig::empty(self.sig_words), writes: Writes::new(), write_sig: Sig::empty(self.sig_words) }
    }

    fn slot(&self, entry: u64) -> &AtomicU64 {
        &self.tags[(entry % ENTRIES) as usize]
    }

    fn tag(&self, entry: u64) -> u64 {
        self.slot(entry).load(SeqCst)
    }

    // The words of an entry's signature.
    fn sig(&self, entry: u64) -> &[AtomicU64] {
        let first = (entry % ENTRIES) as usize * self.sig_words;
        &self.sigs[first..first + self.sig_words]
    }

    fn meets(&self, entry: u64, sig: &Sig) -> bool {
        self.sig(entry).iter().zip(sig.words).fold(0, |common, (word, own)| common | (word.load(SeqCst) & own)) != 0
    }

    // Starts at the newest entry that is complete.
    fn begin(&self, attempt: &mut Attempt) {
        let index = self.index.load(SeqCst);
        let before = index.saturating_sub(ENTRIES);
        attempt.start = index;
        while attempt.start > before && self.tag(attempt.start) < 4 * attempt.start + 3 {
            attempt.start -= 1;
        }
    }

    fn read(&self, attempt: &mut Attempt, addr: u64) -> Result<u64, Stopped> {
        if let Some(index) = attempt.writes.find(addr) {
            return Ok(attempt.writes.items[index].1);
        }
        let value = self.heap[addr as usize].load(SeqCst);
        attempt.read_sig.add(addr);
        let index = self.index.load(SeqCst);
        if index != attempt.start {
            self.check(attempt, index, false)?;
        }
        Ok(value)
    }

    // Looks whether an entry after the start may have written what was read, the newest first. A stamp doesn't pass over one that
    // isn't published, and says so.
    #[cold]
    fn check(&self, attempt: &mut Attempt, index: u64, stamps: bool) -> Result<bool, Stopped> {
        if index - attempt.start > ENTRIES {
            return Err(Stopped);
        }
        let mut start = index;
        for entry in (attempt.start + 1..=index).rev() {
            let tag = self.tag(entry);
            if tag > 4 * entry + 3 {
                return Err(Stopped);
            }
            if tag < 4 * entry + 2 {
                if stamps {
                    return Ok(false);
                }
                start = entry - 1;
                continue;
            }
            let meets = self.meets(entry, &attempt.read_sig);
            let tag = self.tag(entry);
            if tag > 4 * entry + 3 || meets {
                return Err(Stopped);
            }
            if tag == 4 * entry + 2 {
                start = entry - 1;
            }
        }
        attempt.start = start;
        Ok(true)
    }

    fn write(&self, attempt: &mut Attempt, addr: u64, value: u64) {
        match attempt.writes.find(addr) {
            Some(index) => attempt.writes.items[index].1 = value,
            None => {
                attempt.writes.push(addr, value);
                attempt.write_sig.add(addr);
            }
        }
    }

    fn commit(&self, attempt: &mut Attempt) -> Result<u64, Stopped> {
        if attempt.writes.items.is_empty() {
            self.end(attempt);
            return Ok(attempt.start);
        }
        let mut stops = 0;
        let stamp = loop {
            match self.try_stamp(attempt)? {
                Some(stamp) => break stamp,
                None => stops = count_stop(stops),
            }
        };
        self.write_back(attempt, stamp);
        self.end(attempt);
        Ok(stamp)
    }

    fn try_stamp(&self, attempt: &mut Attempt) -> Result<Option<u64>, Stopped> {
        let index = self.index.load(SeqCst);
        if index != attempt.start && !self.check(attempt, index, true)? {
            return Ok(None);
        }
        let stamp = index + 1;
        let tag = self.tag(stamp);
        if stamp > ENTRIES && tag < 4 * (stamp - ENTRIES) + 3 {
            return Ok(None);
        }
        let won = self.index.compare_exchange(index, stamp, SeqCst, SeqCst).is_ok();
        Ok(won.then_some(stamp))
    }

    // Publishes the entry, waits for earlier ones that meet it, stores its words, and completes it after the entry before.
    fn write_back(&self, attempt: &Attempt, stamp: u64) {
        self.slot(stamp).store(4 * stamp + 1, SeqCst);
        for (word, own) in self.sig(stamp).iter().zip(attempt.write_sig.words) {
            word.store(own, SeqCst);
        }
        self.slot(stamp).store(4 * stamp + 2, SeqCst);
        for entry in (attempt.start + 1..stamp).rev() {
            if self.tag(entry) < 4 * entry + 3 && self.meets(entry, &attempt.write_sig) {
                self.wait_for(entry);
            }
        }
        for (addr, value) in &attempt.writes.items {
            self.heap[*addr as usize].store(*value, SeqCst);
        }
        if stamp > 1 {
            self.wait_for(stamp - 1);
        }
        self.slot(stamp).store(4 * stamp + 3, SeqCst);
    }

    // Waits until the entry is complete.
    fn wait_for(&self, entry: u64) {
        let mut stops = 0;
        while self.tag(entry) < 4 * entry + 3 {
            stops = count_stop(stops);
        }
    }

    // The attempt is over.
    fn end(&self, attempt: &mut Attempt) {
        attempt.read_sig.words[..self.sig_words].fill(0);
        if !attempt.writes.items.is_empty() {
            attempt.writes.clear();
            attempt.write_sig.words[..self.sig_words].fill(0);
        }
    }
}

#[derive(Clone, Copy)]
enum Task {
    Counter,
    Transfer,
    Scan,
    Batch,
}

fn account(number: u64) -> u64 {
    COUNTS + number % ACCOUNTS
}

// What an attempt does. The answer is the sum of the accounts that it read.
fn carry_out(ring: &Ring, attempt: &mut Attempt, task: Task, count_at: u64, number: u64) -> Result<u64, Stopped> {
    if !matches!(task, Task::Scan) {
        let count = ring.read(attempt, count_at)?;
        ring.write(attempt, count_at, count - 1);
    }
    match task {
        Task::Counter => {
            let value = ring.read(attempt, account(0))?;
            ring.write(attempt, account(0), value.wrapping_add(1));
            Ok(value)
        }
        Task::Transfer => {
            let other = number + 1 + number / ACCOUNTS % (ACCOUNTS - 1);
            let from = ring.read(attempt, account(number))?;
            let to = ring.read(attempt, account(other))?;
            ring.write(attempt, account(number), from.wrapping_sub(1));
            ring.write(attempt, account(other), to.wrapping_add(1));
            Ok(from.wrapping_add(to))
        }
        Task::Scan => read_accounts(ring, attempt, number, 64),
        Task::Batch => {
            let sum = read_accounts(ring, attempt, number, 39)?;
            for place in 0..59 {
                ring.write(attempt, account(number + 41 * place), sum.wrapping_add(place));
            }
            Ok(sum)
        }
    }
}

fn read_accounts(ring: &Ring, attempt: &mut Attempt, first: u64, count: u64) -> Result<u64, Stopped> {
    let mut sum = 0u64;
    for place in 0..count {
        sum = sum.wrapping_add(ring.read(attempt, account(first + 37 * place))?);
    }
    Ok(sum)
}

// One attempt, committed or stopped.
fn try_once(ring: &Ring, attempt: &mut Attempt, task: Task, count_at: u64, number: u64) -> Result<u64, Stopped> {
    ring.begin(attempt);
    let sum = carry_out(ring, attempt, task, count_at, number)?;
    ring.commit(attempt)?;
    Ok(sum)
}

fn repeat(ring: &Ring, task: Task, thread: u64, rounds: u64) -> [u64; 3] {
    let mut attempt = ring.attempt();
    let mut tally = [0, 0, 0u64];
    for round in 0..rounds {
        let number = (round + (thread << 32)).wrapping_mul(MIX) >> 40;
        let mut stops = 0;
        loop {
            match try_once(ring, &mut attempt, task, 8 * thread, number) {
                Ok(sum) => {
                    tally = [tally[0] + 1, tally[1], tally[2].wrapping_add(sum)];
                    break;
                }
                Err(Stopped) => {
                    ring.end(&mut attempt);
                    tally[1] += 1;
                    stops = count_stop(stops);
                }
            }
        }
    }
    tally
}

fn task_of(word: &str) -> Task {
    match word {
        "counter" => Task::Counter,
        "transfers" => Task::Transfer,
        "scans" => Task::Scan,
        "batches" => Task::Batch,
        _ => panic!("there is no task {word}"),
    }
}

fn main() {
    let words: Vec<String> = std::env::args().skip(1).collect();
    let [bits, task, threads, rounds] = &words[..] else {
        panic!("ring BITS TASK THREADS ROUNDS");
    };
    let (bits, threads, rounds): (usize, u64, u64) = (bits.parse().unwrap(), threads.parse().unwrap(), rounds.parse().unwrap());
    let (ring, task) = (Ring::new(bits / 64, rounds), task_of(task));
    let [commits, stops, sum] = thread::scope(|scope| {
        let ring = &ring;
        let others: Vec<_> = (1..threads).map(|thread| scope.spawn(move || repeat(ring, task, thread, rounds))).collect();
        let first = repeat(ring, task, 0, rounds);
        others.into_iter().fold(first, |all, other| {
            let one = other.join().unwrap();
            [all[0] + one[0], all[1] + one[1], all[2].wrapping_add(one[2])]
        })
    });
    println!("{commits} commits, {stops} stops, sum {sum}");
}
