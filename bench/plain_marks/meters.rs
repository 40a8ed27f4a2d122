//! The three meters, each token law with the part of the next token carried over, in 64 bits where it fits.

/// The bit-nanoseconds of one token.
const TOKEN: u64 = 8_000_000_000;

#[derive(Clone, Copy, PartialEq, Eq)]
pub enum Colour {
    Green,
    Yellow,
    Red,
}

#[derive(Clone, Copy, PartialEq, Eq)]
pub enum Kind {
    SrTcm,
    TrTcm,
    Rfc4115,
}

/// A token bucket, full at its meter's origin.
struct Bucket {
    rate: u64,
    begun: u64,
    size: u32,
    level: u32,
}

impl Bucket {
    fn full(rate: u64, size: u32) -> Self {
        Bucket { rate, begun: 0, size, level: size }
    }

    /// The tokens that its rate gives in a gap, the begun one carried over.
    fn draw(&mut self, gap: u64) -> u64 {
        let bits = self.rate.checked_mul(gap).and_then(|bits| bits.checked_add(self.begun));
        if let Some(bits) = bits {
            self.begun = bits % TOKEN;
            bits / TOKEN
        } else {
            let bits = u128::from(self.rate) * u128::from(gap) + u128::from(self.begun);
            self.begun = (bits % u128::from(TOKEN)) as u64;
            u64::try_from(bits / u128::from(TOKEN)).unwrap_or(u64::MAX)
        }
    }

    /// Takes tokens in, and answers those that it has no room for.
    fn refill(&mut self, tokens: u64) -> u64 {
        let taken = tokens.min(u64::from(self.size - self.level));
        self.level += taken as u32;
        tokens - taken
    }

    fn fill(&mut self, gap: u64) -> u64 {
        let tokens = self.draw(gap);
        self.refill(tokens)
    }

    fn take(&mut self, size: u16) -> bool {
        let size = u32::from(size);
        let enough = size <= self.level;
        if enough {
            self.level -= size;
        }
        enough
    }
}

/// A meter at work: a committed bucket, and a peak or an excess one.
pub struct Meter {
    kind: Kind,
    aware: bool,
    newest: u64,
    committed: Bucket,
    other: Bucket,
}

impl Meter {
    /// A meter with rates and sizes of its two buckets; of an `SrTcm` the second rate is not heeded.
    pub fn new(kind: Kind, aware: bool, origin: u64, committed: (u64, u32), other: (u64, u32)) -> Self {
        Meter {
            kind,
            aware,
            newest: origin,
            committed: Bucket::full(committed.0, committed.1),
            other: Bucket::full(other.0, other.1),
        }
    }

    pub fn admit(&mut self, moment: u64, size: u16, came: Colour) -> Colour {
        let used = moment.max(self.newest);
        let gap = used - self.newest;
        self.newest = used;
        let surplus = self.committed.fill(gap);
        if self.kind == Kind::SrTcm {
            self.other.refill(surplus);
        } else {
            self.other.fill(gap);
        }
        let seen = if self.aware { came } else { Colour::Green };
        match self.kind {
            Kind::TrTcm => self.within_peak(size, seen),
            Kind::SrTcm | Kind::Rfc4115 => self.committed_or_excess(size, seen),
        }
    }

    fn within_peak(&mut self, size: u16, seen: Colour) -> Colour {
        if seen == Colour::Red || !self.other.take(size) {
            Colour::Red
        } else if seen == Colour::Yellow || !self.committed.take(size) {
            Colour::Yellow
        } else {
            Colour::Green
        }
    }

    fn committed_or_excess(&mut self, size: u16, seen: Colour) -> Colour {
        if seen == Colour::Green && self.committed.take(size) {
            Colour::Green
        } else if seen != Colour::Red && self.other.take(size) {
            Colour::Yellow
        } else {
            Colour::Red
        }
    }
}
