//! Plain Rust over std alone, for comparison: meters that threads share, each behind a mutex with the rows that it keeps, as an
//! engineer would write it for speed. `fabric SHAPE THREADS TRAVELLERS`: so many packets by each thread, each over 16 of 64
//! meters (`spread`) or over one meter (`one`). Prints how many rows there are.
//! With THREADS 0 one thread lets packets begin, and they visit nothing.

use std::env;
use std::hint::black_box;
use std::process::ExitCode;
use std::sync::Mutex;
use std::thread;

/// The bit-nanoseconds of one token.
const TOKEN: u64 = 8_000_000_000;

/// The open rows that a meter keeps before they are handed over.
const CAPACITY: usize = 1_048_576;

#[derive(Clone, Copy, PartialEq, Eq)]
enum Colour {
    Green,
    Yellow,
    Red,
}

#[derive(Clone, Copy)]
#[allow(dead_code)]
struct Row {
    packet: u64,
    arrival: u64,
    used: u64,
    flow: u32,
    size: u16,
    hop: u8,
    came: Colour,
    left: Colour,
}

struct Bucket {
    level: u64,
    size: u64,
}

impl Bucket {
    fn refill(&mut self, tokens: u64) -> u64 {
        let taken = tokens.min(self.size - self.level);
        self.level += taken;
        tokens - taken
    }

    fn take(&mut self, size: u16) -> bool {
        let enough = u64::from(size) <= self.level;
        if enough {
            self.level -= u64::from(size);
        }
        enough
    }
}

struct SrTcm {
    newest: u64,
    rate: u64,
    begun: u64,
    committed: Bucket,
    excess: Bucket,
}

impl SrTcm {
    fn admit(&mut self, moment: u64, size: u16, came: Colour) -> (u64, Colour) {
        let used = moment.max(self.newest);
        let bits = u128::from(self.rate) * u128::from(used - self.newest) + u128::from(self.begun);
        self.newest = used;
        let (tokens, begun) = match u64::try_from(bits) {
            Ok(bits) => (bits / TOKEN, bits % TOKEN),
            Err(_) => ((bits / u128::from(TOKEN)) as u64, (bits % u128::from(TOKEN)) as u64),
        };
        self.begun = begun;
        let surplus = self.committed.refill(tokens);
        self.excess.refill(surplus);
        let left = if came == Colour::Green && self.committed.take(size) {
            Colour::Green
        } else if came != Colour::Red && self.excess.take(size) {
            Colour::Yellow
        } else {
            Colour::Red
        };
        (used, left)
    }
}

/// A meter, the rows that it keeps, and its accounts; on cache lines of its own.
#[repr(align(128))]
struct Site(Mutex<Book>);

struct Book {
    meter: SrTcm,
    rows: Vec<Row>,
    chapters: Vec<Vec<Row>>,
    packets: [u64; 3],
    bytes: [u64; 3],
}

impl Book {
    fn new() -> Self {
        let meter = SrTcm {
            newest: 0,
            rate: 8_000_000_000,
            begun: 0,
            committed: Bucket { level: 1_000_000, size: 1_000_000 },
            excess: Bucket { level: 1_000_000, size: 1_000_000 },
        };
        Book { meter, rows: Vec::new(), chapters: Vec::new(), packets: [0; 3], bytes: [0; 3] }
    }

    fn note(&mut self, traveller: &Traveller, hop: u8, moment: u64) -> Row {
        let came = traveller.colour;
        let (used, left) = self.meter.admit(moment, traveller.size, came);
        let Traveller { flow, packet, size, .. } = *traveller;
        let row = Row { packet, arrival: moment, used, flow, size, hop, came, left };
        if self.rows.len() == CAPACITY {
            self.chapters.push(std::mem::take(&mut self.rows));
        }
        self.rows.push(row);
        self.packets[left as usize] += 1;
        self.bytes[left as usize] += u64::from(size);
        row
    }

    fn len(&self) -> usize {
        self.rows.len() + self.chapters.iter().map(Vec::len).sum::<usize>()
    }
}

/// A packet on its way.
struct Traveller {
    flow: u32,
    packet: u64,
    size: u16,
    colour: Colour,
    receipts: Vec<Row>,
}

struct Fabric {
    sites: Vec<Site>,
    hops: usize,
}

impl Fabric {
    /// Takes a packet over all meters of its way, and counts its visits.
    fn travel(&self, counts: &mut [u64], flow: usize, packet: u64, visited: usize) {
        let mut traveller = Traveller {
            flow: flow as u32,
            packet,
            size: 100,
            colour: Colour::Green,
            receipts: Vec::with_capacity(self.hops),
        };
        for hop in 0..visited {
            let site = flow * self.hops + hop;
            let row = self.sites[site].0.lock().unwrap().note(&traveller, hop as u8 + 1, packet * 1_000 + hop as u64);
            traveller.colour = row.left;
            traveller.receipts.push(row);
            counts[site] += 1;
        }
        black_box(traveller);
    }
}

fn work(fabric: &Fabric, thread: u64, travellers: u64, visited: usize) -> Vec<u64> {
    let flows = fabric.sites.len() / fabric.hops;
    let mut counts = vec![0; fabric.sites.len()];
    for number in 0..travellers {
        let flow = (number + thread) as usize % flows;
        fabric.travel(&mut counts, flow, thread * travellers + number, visited);
    }
    counts
}

fn main() -> ExitCode {
    let words: Vec<String> = env::args().skip(1).collect();
    let [shape, threads, travellers] = words.as_slice() else {
        return ExitCode::from(2);
    };
    let (Ok(threads), Ok(travellers)) = (threads.parse::<u64>(), travellers.parse::<u64>()) else {
        return ExitCode::from(2);
    };
    let (meters, hops) = if shape == "one" { (1, 1) } else { (64, 16) };
    let sites = (0..meters).map(|_| Site(Mutex::new(Book::new()))).collect();
    let fabric = Fabric { sites, hops };
    let visited = if threads == 0 { 0 } else { hops };
    let counted: u64 = thread::scope(|scope| {
        let workers: Vec<_> =
            (0..threads.max(1)).map(|thread| scope.spawn({ let fabric = &fabric; move || work(fabric, thread, travellers, visited) })).collect();
        workers.into_iter().flat_map(|worker| worker.join().unwrap()).sum()
    });
    let rows: usize = fabric.sites.iter().map(|site| site.0.lock().unwrap().len()).sum();
    if rows as u64 != counted {
        return ExitCode::from(1);
    }
    println!("{rows}");
    ExitCode::SUCCESS
}
