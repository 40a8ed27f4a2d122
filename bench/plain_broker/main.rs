//! Plain Rust over std alone, for comparison: a broker's book with running sums at each meter, as an engineer would write it
//! for speed. `broker COMMANDS CONTRACTS PASSES`: fills a book of so many contracts, each over 16 of 1,024 meters, and, where
//! COMMANDS is `release`, releases each tenth, and where it is `all`, retires it as well; so many times over. Prints the last
//! book's contracts and serial.
//!
//! It keeps what the proved book keeps: of a contract its name, terms, port, path, class, lifetime and rule; the contract as it
//! was given in the history, beside each release and retirement; three bounds a hop; sums for green packets, for green and
//! yellow ones, and for the yellow ones of contracts with a peak; names and ids. It refuses in the same order, with the numbers
//! of the test that fails. Names stand in place, a path is shared by its copies, and a contract that is held knows the places
//! of its meters.

use std::collections::{HashMap, HashSet};
use std::env;
use std::hash::{Hash, Hasher};
use std::process::ExitCode;
use std::sync::Arc;

/// The bit-nanoseconds of one byte at one bit per second.
const BYTE: u64 = 8_000_000_000;

const METERS: usize = 1_024;
const HOPS: usize = 16;

/// Bytes that a rate adds over a time, rounded up.
fn bytes_over(rate: u64, nanoseconds: u64) -> u128 {
    match rate.checked_mul(nanoseconds) {
        Some(bits) => u128::from(bits.div_ceil(BYTE)),
        None => (u128::from(rate) * u128::from(nanoseconds)).div_ceil(u128::from(BYTE)),
    }
}

/// How long a rate takes for so many bytes, rounded up.
fn nanoseconds_for(rate: u64, bytes: u128) -> u128 {
    match u64::try_from(bytes * u128::from(BYTE)) {
        Ok(bits) => u128::from(bits.div_ceil(rate)),
        Err(_) => (bytes * u128::from(BYTE)).div_ceil(u128::from(rate)),
    }
}

#[derive(Clone, Copy, PartialEq, Eq)]
struct Name {
    characters: [u8; 32],
    count: u8,
}

impl Name {
    fn new(text: &str) -> Self {
        let mut characters = [0; 32];
        characters[..text.len()].copy_from_slice(text.as_bytes());
        Name { characters, count: text.len() as u8 }
    }
}

impl Hash for Name {
    fn hash<H: Hasher>(&self, state: &mut H) {
        self.characters[..usize::from(self.count)].hash(state);
    }
}

#[derive(Clone, Copy)]
struct Profile {
    rate: u64,
    burst: u64,
}

#[derive(Clone, Copy)]
enum Parameters {
    SrTcm { committed: Profile, excess_burst: u64 },
    TrTcm { committed: Profile, peak: Profile },
    Rfc4115 { committed: Profile, excess: Profile },
}

impl Parameters {
    fn green(&self) -> Profile {
        match *self {
            Parameters::SrTcm { committed, .. } | Parameters::TrTcm { committed, .. } | Parameters::Rfc4115 { committed, .. } => {
                committed
            }
        }
    }

    fn all(&self) -> Profile {
        match *self {
            Parameters::SrTcm { committed, excess_burst } => Profile { rate: committed.rate, burst: excess_burst },
            Parameters::TrTcm { peak, .. } => peak,
            Parameters::Rfc4115 { excess, .. } => excess,
        }
    }
}

#[derive(Clone, Copy)]
struct Meter {
    parameters: Parameters,
    skew: u64,
}

#[derive(Clone, Copy)]
struct Link {
    floor: u64,
    jitter: u64,
}

/// Where a name leads: the place of a meter, or that of a port behind all meters.
#[derive(Clone)]
struct Domain {
    places: HashMap<Name, u32>,
    meters: Vec<(Name, Meter)>,
    links: HashMap<(u32, u32), Link>,
}

#[derive(Clone, Copy)]
struct Terms {
    committed: Profile,
    peak: Option<Profile>,
    excess: Option<Profile>,
}

impl Terms {
    fn source(&self) -> [Profile; 3] {
        let all = self.peak.unwrap_or(self.committed);
        [self.committed, all, self.excess.unwrap_or(all)]
    }
}

/// Which packets are a contract's own.
#[derive(Clone, Copy)]
#[allow(dead_code)]
struct Rule {
    source: Option<(u32, u8)>,
    target: Option<(u32, u8)>,
    protocol: Option<u8>,
    source_ports: Option<(u16, u16)>,
    target_ports: Option<(u16, u16)>,
    dscp: Option<u8>,
}

#[derive(Clone)]
#[allow(dead_code)]
struct Contract {
    name: Name,
    terms: Terms,
    port: Name,
    path: Arc<[Name]>,
    class: u8,
    since: u64,
    until: Option<u64>,
    rule: Rule,
}

#[derive(Clone, Copy, Default)]
struct Load {
    rate: u128,
    burst: u128,
}

impl Load {
    fn add(&mut self, other: &Load) {
        self.rate += other.rate;
        self.burst += other.burst;
    }

    fn subtract(&mut self, other: &Load) {
        self.rate -= other.rate;
        self.burst -= other.burst;
    }
}

/// What the contracts over a meter take of it, together.
#[derive(Clone, Copy, Default)]
struct Sums {
    green: Load,
    all: Load,
    peaked: Load,
    peaked_number: u64,
}

impl Sums {
    fn add(&mut self, share: &Sums) {
        self.green.add(&share.green);
        self.all.add(&share.all);
        self.peaked.add(&share.peaked);
        self.peaked_number += share.peaked_number;
    }

    fn subtract(&mut self, share: &Sums) {
        self.green.subtract(&share.green);
        self.all.subtract(&share.all);
        self.peaked.subtract(&share.peaked);
        self.peaked_number -= share.peaked_number;
    }
}

/// A contract's hop: its meter, what delays are up to it, and the bounds there of green packets, of green and yellow ones,
/// and of yellow ones.
#[derive(Clone, Copy)]
struct Hop {
    place: u32,
    delay: u64,
    bound: [u64; 3],
}

#[allow(dead_code)]
struct Entry {
    id: u32,
    released: bool,
    contract: Contract,
    first: [u64; 3],
    hops: Vec<Hop>,
}

#[allow(dead_code)]
enum Command {
    Reserve(Contract),
    Release { id: u32, at: u64 },
    Retire { id: u32, moment: u64 },
}

#[derive(Clone, Copy, Debug)]
#[allow(dead_code)]
enum Refusal {
    Twice,
    Range,
    UnknownName,
    PathLength,
    PathRepeats,
    NoLink,
    TableFull,
    HistoryFull,
    Meter { place: u32, test: u8, needed: u128, available: u128 },
    UnknownId,
    AlreadyReleased,
    NotReleased,
    HoldLeft(u64),
}

struct Book {
    domain: Domain,
    table: usize,
    most: usize,
    entries: Vec<Entry>,
    names: HashSet<Name>,
    sums: Vec<Sums>,
    granted: u32,
    newest: u64,
    history: Vec<Command>,
}

impl Book {
    fn new(domain: Domain, table: usize, most: usize) -> Self {
        let sums = vec![Sums::default(); domain.meters.len()];
        Book { domain, table, most, entries: Vec::new(), names: HashSet::new(), sums, granted: 0, newest: 0, history: Vec::new() }
    }

    /// The contract's hops, with the least bounds; the first bounds are the bursts that it comes in with.
    fn way(&self, contract: &Contract, source: &[Profile; 3]) -> Result<Vec<Hop>, Refusal> {
        let mut from = *self.domain.places.get(&contract.port).ok_or(Refusal::UnknownName)?;
        if contract.path.is_empty() || contract.path.len() > HOPS {
            return Err(Refusal::PathLength);
        }
        let mut hops: Vec<Hop> = Vec::with_capacity(contract.path.len());
        for name in contract.path.iter() {
            let place = *self.domain.places.get(name).ok_or(Refusal::UnknownName)?;
            if hops.iter().any(|hop| hop.place == place) {
                return Err(Refusal::PathRepeats);
            }
            hops.push(Hop { place, delay: 0, bound: [0; 3] });
        }
        let mut bound = source.map(|profile| profile.burst);
        let mut delay = 0;
        for hop in &mut hops {
            let link = self.domain.links.get(&(from, hop.place)).ok_or(Refusal::NoLink)?;
            for (column, profile) in source.iter().enumerate() {
                bound[column] += bytes_over(profile.rate, link.jitter) as u64;
            }
            delay += link.floor + link.jitter;
            hop.delay = delay;
            hop.bound = bound;
            from = hop.place;
        }
        Ok(hops)
    }

    /// How long a released share is held.
    fn hold(&self, entry: &Entry) -> u64 {
        let source = entry.contract.terms.source();
        let mut hold = 0;
        for hop in &entry.hops {
            let skew = self.domain.meters[hop.place as usize].1.skew;
            for (column, profile) in source.iter().enumerate() {
                let burst = u128::from(hop.bound[column]) + bytes_over(profile.rate, skew);
                hold = hold.max(hop.delay + skew + nanoseconds_for(profile.rate, burst) as u64);
            }
        }
        hold
    }

    fn share(&self, terms: &Terms, source: &[Profile; 3], hop: &Hop) -> Sums {
        let skew = self.domain.meters[hop.place as usize].1.skew;
        let load = |column: usize| Load {
            rate: u128::from(source[column].rate),
            burst: u128::from(hop.bound[column]) + bytes_over(source[column].rate, skew),
        };
        let peaked = terms.peak.is_some();
        Sums {
            green: load(0),
            all: load(1),
            peaked: if peaked { load(2) } else { Load::default() },
            peaked_number: u64::from(peaked),
        }
    }

    /// The first test of a meter that fails with a share more.
    fn refusal(&self, place: u32, share: &Sums) -> Option<Refusal> {
        let parameters = &self.domain.meters[place as usize].1.parameters;
        let mut sums = self.sums[place as usize];
        sums.add(share);
        let counted = match parameters {
            Parameters::SrTcm { .. } if sums.peaked_number == 0 => Load::default(),
            Parameters::SrTcm { .. } | Parameters::TrTcm { .. } => sums.all,
            Parameters::Rfc4115 { .. } => sums.peaked,
        };
        let (green, all) = (parameters.green(), parameters.all());
        let tests = [
            (sums.green.rate, green.rate),
            (sums.green.burst, green.burst),
            (counted.rate, all.rate),
            (counted.burst, all.burst),
        ];
        for (test, (needed, available)) in tests.into_iter().enumerate() {
            let available = u128::from(available);
            if needed > available {
                return Some(Refusal::Meter { place, test: test as u8, needed, available });
            }
        }
        None
    }

    fn reserve(&mut self, contract: Contract) -> Result<(u32, usize, u64), Refusal> {
        if self.names.contains(&contract.name) {
            return Err(Refusal::Twice);
        }
        let since = contract.since.max(self.newest);
        if contract.until.is_some_and(|until| until < since) {
            return Err(Refusal::Range);
        }
        let source = contract.terms.source();
        let hops = self.way(&contract, &source)?;
        if self.entries.len() == self.table {
            return Err(Refusal::TableFull);
        }
        if self.history.len() == self.most {
            return Err(Refusal::HistoryFull);
        }
        let mut first = None;
        for hop in &hops {
            if first.is_none_or(|(least, _)| hop.place < least) {
                if let Some(refusal) = self.refusal(hop.place, &self.share(&contract.terms, &source, hop)) {
                    first = Some((hop.place, refusal));
                }
            }
        }
        if let Some((_, refusal)) = first {
            return Err(refusal);
        }
        for hop in &hops {
            let share = self.share(&contract.terms, &source, hop);
            self.sums[hop.place as usize].add(&share);
        }
        self.newest = since;
        self.granted += 1;
        self.names.insert(contract.name);
        let first = source.map(|profile| profile.burst);
        let held = Contract { since, ..contract.clone() };
        self.entries.push(Entry { id: self.granted, released: false, contract: held, first, hops });
        self.history.push(Command::Reserve(contract));
        Ok((self.granted, self.history.len(), since))
    }

    fn find(&self, id: u32) -> Result<usize, Refusal> {
        self.entries.binary_search_by_key(&id, |entry| entry.id).map_err(|_| Refusal::UnknownId)
    }

    fn release(&mut self, id: u32, at: u64) -> Result<usize, Refusal> {
        let place = self.find(id)?;
        let entry = &mut self.entries[place];
        if entry.released {
            return Err(Refusal::AlreadyReleased);
        }
        if self.history.len() == self.most {
            return Err(Refusal::HistoryFull);
        }
        let moment = at.max(self.newest);
        let until = &mut entry.contract.until;
        *until = Some(until.map_or(moment, |until| until.min(moment)));
        entry.released = true;
        self.newest = moment;
        self.history.push(Command::Release { id, at });
        Ok(self.history.len())
    }

    fn retire(&mut self, id: u32, moment: u64) -> Result<usize, Refusal> {
        let place = self.find(id)?;
        let entry = &self.entries[place];
        if !entry.released {
            return Err(Refusal::NotReleased);
        }
        if self.history.len() == self.most {
            return Err(Refusal::HistoryFull);
        }
        let newest = moment.max(self.newest);
        let free = entry.contract.until.unwrap_or(0) + self.hold(entry);
        if newest < free {
            return Err(Refusal::HoldLeft(free - newest));
        }
        let entry = self.entries.remove(place);
        let source = entry.contract.terms.source();
        for hop in &entry.hops {
            let share = self.share(&entry.contract.terms, &source, hop);
            self.sums[hop.place as usize].subtract(&share);
        }
        self.names.remove(&entry.contract.name);
        self.newest = newest;
        self.history.push(Command::Retire { id, moment });
        Ok(self.history.len())
    }
}

/// 1,024 meters, and links along 64 ways of 16 of them.
fn domain() -> Domain {
    let meter = Meter {
        parameters: Parameters::TrTcm {
            committed: Profile { rate: 2_000_000_000, burst: 1_000_000_000 },
            peak: Profile { rate: 4_000_000_000, burst: 2_000_000_000 },
        },
        skew: 1_000,
    };
    let link = Link { floor: 10_000, jitter: 1_000 };
    let mut domain = Domain { places: HashMap::new(), meters: Vec::new(), links: HashMap::new() };
    for index in 0..METERS {
        let name = Name::new(&format!("m{index}"));
        domain.places.insert(name, index as u32);
        domain.meters.push((name, meter));
        let from = if index % HOPS == 0 { METERS } else { index - 1 };
        domain.links.insert((from as u32, index as u32), link);
    }
    domain.places.insert(Name::new("p"), METERS as u32);
    domain
}

fn contract(index: usize) -> Contract {
    let first = index % (METERS / HOPS) * HOPS;
    let source = u32::from_be_bytes([10, (index / 256) as u8, (index % 256) as u8, 0]);
    Contract {
        name: Name::new(&format!("c{index}")),
        terms: Terms {
            committed: Profile { rate: 1_000_000 + (index % 7) as u64, burst: 1_500 + (index % 100) as u64 },
            peak: None,
            excess: None,
        },
        port: Name::new("p"),
        path: (first..first + HOPS).map(|meter| Name::new(&format!("m{meter}"))).collect(),
        class: (index % 4) as u8 + 1,
        since: 0,
        until: None,
        rule: Rule {
            source: Some((source, 24)),
            target: None,
            protocol: None,
            source_ports: None,
            target_ports: None,
            dscp: None,
        },
    }
}

/// Fills a book, and gives a tenth of it back where that is asked for.
fn run(domain: &Domain, contracts: &[Contract], commands: &str) -> Result<(usize, usize), Refusal> {
    let mut book = Book::new(domain.clone(), 4_096, 65_536);
    for contract in contracts {
        book.reserve(contract.clone())?;
    }
    let tenth = (1..=contracts.len() as u32).step_by(10);
    if commands != "reserve" {
        for id in tenth.clone() {
            book.release(id, 1_000_000)?;
        }
    }
    if commands == "all" {
        for id in tenth {
            book.retire(id, 1_000_000_000_000)?;
        }
    }
    Ok((book.entries.len(), book.history.len()))
}

fn main() -> ExitCode {
    let words: Vec<String> = env::args().skip(1).collect();
    let [commands, contracts, passes] = words.as_slice() else {
        return ExitCode::from(2);
    };
    let (Ok(contracts), Ok(passes)) = (contracts.parse::<usize>(), passes.parse::<u32>()) else {
        return ExitCode::from(2);
    };
    let domain = domain();
    let contracts: Vec<Contract> = (0..contracts).map(contract).collect();
    let mut last = (0, 0);
    for _ in 0..passes {
        match run(&domain, &contracts, commands) {
            Ok(told) => last = told,
            Err(refusal) => {
                eprintln!("{refusal:?}");
                return ExitCode::from(1);
            }
        }
    }
    println!("{} {}", last.0, last.1);
    ExitCode::SUCCESS
}
