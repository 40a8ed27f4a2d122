//! Plain Rust over std alone, for comparison: the three meters as an engineer would write them for speed, each token law
//! with the part of the next token carried over, in 64 bits where it fits. `meters KIND MODE PASSES`.

use std::env;
use std::process::ExitCode;

/// The bit-nanoseconds of one token.
const TOKEN: u64 = 8_000_000_000;

/// The packets of one pass.
const PACKETS: usize = 1_000_000;

/// The nanoseconds between the begins of two passes.
const SPAN: u64 = 4_000_000_000;

#[derive(Clone, Copy, PartialEq, Eq)]
enum Colour {
    Green,
    Yellow,
    Red,
}

#[derive(Clone, Copy, PartialEq, Eq)]
enum Mode {
    Blind,
    Aware,
}

impl Mode {
    fn seen(self, came: Colour) -> Colour {
        match self {
            Mode::Blind => Colour::Green,
            Mode::Aware => came,
        }
    }
}

#[derive(Clone, Copy)]
struct Packet {
    moment: u64,
    size: u16,
    came: Colour,
}

/// Numbers from 0 to 65,535 without a pattern, the same ones in each run.
struct Numbers {
    state: u32,
}

impl Numbers {
    fn next(&mut self) -> u64 {
        self.state = self.state.wrapping_mul(69_069).wrapping_add(1);
        u64::from(self.state >> 16)
    }
}

fn packets() -> Vec<Packet> {
    let mut numbers = Numbers { state: 20_240_607 };
    let mut moment = 0;
    (0..PACKETS)
        .map(|_| {
            moment += numbers.next() % 8_000;
            Packet {
                moment,
                size: (64 + numbers.next() % 1_437) as u16,
                came: match numbers.next() % 10 {
                    0..=5 => Colour::Green,
                    6..=8 => Colour::Yellow,
                    _ => Colour::Red,
                },
            }
        })
        .collect()
}

/// The tokens of a rate, the begun one carried over.
struct Source {
    rate: u64,
    begun: u64,
}

impl Source {
    fn draw(&mut self, gap: u64) -> u128 {
        let bits = self.rate.checked_mul(gap).and_then(|bits| bits.checked_add(self.begun));
        match bits {
            Some(bits) => {
                self.begun = bits % TOKEN;
                u128::from(bits / TOKEN)
            }
            None => {
                let bits = u128::from(self.rate) * u128::from(gap) + u128::from(self.begun);
                self.begun = (bits % u128::from(TOKEN)) as u64;
                bits / u128::from(TOKEN)
            }
        }
    }
}

struct Bucket {
    level: u32,
    size: u32,
}

impl Bucket {
    fn full(size: u32) -> Self {
        Bucket { level: size, size }
    }

    /// Takes tokens in, and answers those that it has no room for.
    fn refill(&mut self, tokens: u128) -> u128 {
        let room = u128::from(self.size - self.level);
        let taken = tokens.min(room);
        self.level += taken as u32;
        tokens - taken
    }

    fn take(&mut self, size: u16) -> bool {
        let size = u32::from(size);
        let enough = size <= self.level;
        if enough {
            self.level -= size;
        }
        enough
    }
}

trait Meter {
    fn admit(&mut self, moment: u64, size: u16, came: Colour) -> Colour;
}

/// The time since the newest moment, which becomes the later of the two.
fn gap_to(newest: &mut u64, moment: u64) -> u64 {
    let used = moment.max(*newest);
    let gap = used - *newest;
    *newest = used;
    gap
}

fn committed_or_excess(committed: &mut Bucket, excess: &mut Bucket, size: u16, seen: Colour) -> Colour {
    if seen == Colour::Green && committed.take(size) {
        Colour::Green
    } else if seen != Colour::Red && excess.take(size) {
        Colour::Yellow
    } else {
        Colour::Red
    }
}

struct SrTcm {
    mode: Mode,
    newest: u64,
    source: Source,
    committed: Bucket,
    excess: Bucket,
}

impl Meter for SrTcm {
    fn admit(&mut self, moment: u64, size: u16, came: Colour) -> Colour {
        let gap = gap_to(&mut self.newest, moment);
        let surplus = self.committed.refill(self.source.draw(gap));
        self.excess.refill(surplus);
        committed_or_excess(&mut self.committed, &mut self.excess, size, self.mode.seen(came))
    }
}

struct TrTcm {
    mode: Mode,
    newest: u64,
    committed_source: Source,
    committed: Bucket,
    peak_source: Source,
    peak: Bucket,
}

impl Meter for TrTcm {
    fn admit(&mut self, moment: u64, size: u16, came: Colour) -> Colour {
        let gap = gap_to(&mut self.newest, moment);
        self.committed.refill(self.committed_source.draw(gap));
        self.peak.refill(self.peak_source.draw(gap));
        let seen = self.mode.seen(came);
        if seen == Colour::Red || !self.peak.take(size) {
            Colour::Red
        } else if seen == Colour::Yellow || !self.committed.take(size) {
            Colour::Yellow
        } else {
            Colour::Green
        }
    }
}

struct Rfc4115 {
    mode: Mode,
    newest: u64,
    committed_source: Source,
    committed: Bucket,
    excess_source: Source,
    excess: Bucket,
}

impl Meter for Rfc4115 {
    fn admit(&mut self, moment: u64, size: u16, came: Colour) -> Colour {
        let gap = gap_to(&mut self.newest, moment);
        self.committed.refill(self.committed_source.draw(gap));
        self.excess.refill(self.excess_source.draw(gap));
        committed_or_excess(&mut self.committed, &mut self.excess, size, self.mode.seen(came))
    }
}

fn source(rate: u64) -> Source {
    Source { rate, begun: 0 }
}

fn run(mut meter: impl Meter, packets: &[Packet], passes: u16) -> Option<[u64; 3]> {
    let mut counts = [0; 3];
    for pass in 0..passes {
        let begin = u64::from(pass) * SPAN;
        for packet in packets {
            let moment = packet.moment + begin;
            if moment >= 1 << 63 {
                return None;
            }
            let left = meter.admit(moment, packet.size, packet.came);
            counts[left as usize] += 1;
        }
    }
    Some(counts)
}

fn counts_of(words: &[String]) -> Option<[u64; 3]> {
    let [kind, mode, passes] = words else {
        return None;
    };
    let mode = match mode.as_str() {
        "blind" => Mode::Blind,
        "aware" => Mode::Aware,
        _ => return None,
    };
    let passes = passes.parse().ok()?;
    let packets = packets();
    let counts = match kind.as_str() {
        "srtcm" => {
            let meter = SrTcm {
                mode,
                newest: 0,
                source: source(800_000_000),
                committed: Bucket::full(150_000),
                excess: Bucket::full(300_000),
            };
            run(meter, &packets, passes)?
        }
        "trtcm" => {
            let meter = TrTcm {
                mode,
                newest: 0,
                committed_source: source(800_000_000),
                committed: Bucket::full(150_000),
                peak_source: source(1_600_000_000),
                peak: Bucket::full(300_000),
            };
            run(meter, &packets, passes)?
        }
        "rfc4115" => {
            let meter = Rfc4115 {
                mode,
                newest: 0,
                committed_source: source(800_000_000),
                committed: Bucket::full(150_000),
                excess_source: source(800_000_000),
                excess: Bucket::full(150_000),
            };
            run(meter, &packets, passes)?
        }
        _ => return None,
    };
    Some(counts)
}

fn main() -> ExitCode {
    let words: Vec<String> = env::args().skip(1).collect();
    match counts_of(&words) {
        Some([green, yellow, red]) => {
            println!("{green} {yellow} {red}");
            ExitCode::SUCCESS
        }
        None => ExitCode::from(2),
    }
}
