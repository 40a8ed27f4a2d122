//! Domains, out of texts that are good and have a key on each line.

use crate::meters::{Colour, Kind, Meter};
use crate::packets::Header;
use std::collections::{HashMap, HashSet};
use std::ops::RangeInclusive;

/// An entry of a text: its keys, each with what stands behind it.
type Entry<'a> = HashMap<&'a str, &'a str>;

/// The addresses whose bits under a mask are these.
#[derive(Clone, Copy)]
struct Prefix {
    mask: u32,
    bits: u32,
}

impl Prefix {
    fn holds(self, address: u32) -> bool {
        address & self.mask == self.bits
    }
}

/// What a rule asks beside the source.
struct Rest {
    target: Prefix,
    protocol: Option<u8>,
    source_ports: Option<RangeInclusive<u16>>,
    target_ports: Option<RangeInclusive<u16>>,
    dscp: Option<u8>,
}

fn is_in(range: Option<&RangeInclusive<u16>>, port: Option<u16>) -> bool {
    match range {
        Some(range) => port.is_some_and(|port| range.contains(&port)),
        None => true,
    }
}

impl Rest {
    fn holds(&self, header: &Header) -> bool {
        self.target.holds(header.target)
            && self.protocol.is_none_or(|protocol| protocol == header.protocol)
            && self.dscp.is_none_or(|dscp| dscp == header.dscp)
            && is_in(self.source_ports.as_ref(), header.ports.map(|ports| ports.0))
            && is_in(self.target_ports.as_ref(), header.ports.map(|ports| ports.1))
    }
}

/// A site that packets come to, so long after they were sent.
pub struct Stop {
    pub site: usize,
    pub delay: u64,
}

/// A contract as far as its packets concern it.
pub struct Contract {
    pub class: u8,
    has_peak: bool,
    pub stops: Vec<Stop>,
}

impl Contract {
    /// The colour that a packet with a code point comes in with.
    pub fn came(&self, dscp: u8) -> Colour {
        match dscp.wrapping_sub(8 * self.class) {
            2 => Colour::Green,
            4 if self.has_peak => Colour::Yellow,
            _ => Colour::Red,
        }
    }
}

/// The sites of a domain, meters and then edges, and the contracts of one port.
pub struct Domain {
    pub sites: Vec<Meter>,
    pub contracts: Vec<Contract>,
    pub rules: Rules,
}

/// The rules of the contracts of one port, in their order. Sources stand apart from the rest, since each frame looks at most of
/// them; many rules that ask for few kinds of prefixes stand in tuples in their place.
pub struct Rules {
    sources: Vec<Sources>,
    tuples: Vec<Tuple>,
    rests: Vec<Rest>,
}

/// How many sources are looked at together.
const TOGETHER: usize = 16;

/// The sources of neighbouring contracts.
struct Sources {
    masks: [u32; TOGETHER],
    bits: [u32; TOGETHER],
}

impl Sources {
    /// Of fewer sources than there is room for; what is left holds of no address.
    fn of(prefixes: &[Prefix]) -> Self {
        let mut sources = Sources { masks: [0; TOGETHER], bits: [1; TOGETHER] };
        for (place, prefix) in prefixes.iter().enumerate() {
            sources.masks[place] = prefix.mask;
            sources.bits[place] = prefix.bits;
        }
        sources
    }

    /// A bit for each source that holds of an address.
    fn holding(&self, address: u32) -> u32 {
        let mut holding = 0;
        for place in 0..TOGETHER {
            holding |= u32::from(address & self.masks[place] == self.bits[place]) << place;
        }
        holding
    }
}

/// How many rules there are for each tuple, at least, where rules stand in tuples.
const RULES_TO_A_TUPLE: usize = 128;

/// The rules that ask for the same bits of a source and of a target, sorted by what they ask for and then by their places.
struct Tuple {
    masks: (u32, u32),
    rows: Vec<(u64, usize)>,
}

/// Two addresses under masks as one number.
fn under(source: u32, target: u32, masks: (u32, u32)) -> u64 {
    u64::from(source & masks.0) << 32 | u64::from(target & masks.1)
}

impl Tuple {
    fn of(masks: (u32, u32), sources: &[Prefix], rests: &[Rest]) -> Self {
        let asked = sources.iter().zip(rests).map(|(source, rest)| (*source, rest.target)).enumerate();
        let own = asked.filter(|(_, (source, target))| (source.mask, target.mask) == masks);
        let mut rows: Vec<_> = own.map(|(place, (source, target))| (under(source.bits, target.bits, masks), place)).collect();
        rows.sort_unstable();
        Tuple { masks, rows }
    }

    /// The first rule before a place that holds, or that place.
    fn first_before(&self, header: &Header, rests: &[Rest], most: usize) -> usize {
        let addresses = under(header.source, header.target, self.masks);
        let start = self.rows.partition_point(|row| row.0 < addresses);
        let run = self.rows[start..].iter().take_while(|row| row.0 == addresses && row.1 < most);
        run.map(|row| row.1).find(|place| rests[*place].holds(header)).unwrap_or(most)
    }
}

impl Rules {
    fn new(sources: &[Prefix], rests: Vec<Rest>) -> Self {
        let asked = sources.iter().zip(&rests).map(|(source, rest)| (source.mask, rest.target.mask));
        let kinds: HashSet<_> = asked.collect();
        let tuples = if kinds.len() * RULES_TO_A_TUPLE <= rests.len() {
            kinds.into_iter().map(|masks| Tuple::of(masks, sources, &rests)).collect()
        } else {
            Vec::new()
        };
        Rules { sources: sources.chunks(TOGETHER).map(Sources::of).collect(), tuples, rests }
    }

    /// The first rule that holds of a packet.
    pub fn first_match(&self, header: &Header) -> Option<usize> {
        if self.tuples.is_empty() { self.first_by_sources(header) } else { self.first_by_tuples(header) }
    }

    fn first_by_tuples(&self, header: &Header) -> Option<usize> {
        let count = self.rests.len();
        let first = self.tuples.iter().fold(count, |most, tuple| tuple.first_before(header, &self.rests, most));
        (first < count).then_some(first)
    }

    fn first_by_sources(&self, header: &Header) -> Option<usize> {
        for (group, sources) in self.sources.iter().enumerate() {
            let mut holding = sources.holding(header.source);
            while holding != 0 {
                let flow = group * TOGETHER + holding.trailing_zeros() as usize;
                if self.rests[flow].holds(header) {
                    return Some(flow);
                }
                holding &= holding - 1;
            }
        }
        None
    }
}

/// The entries of each section, in order.
fn sections(text: &str) -> HashMap<&str, Vec<Entry<'_>>> {
    let mut sections: HashMap<&str, Vec<Entry<'_>>> = HashMap::new();
    let mut section = "";
    for line in text.lines().map(str::trim) {
        if let Some(name) = line.strip_prefix("[[").and_then(|rest| rest.strip_suffix("]]")) {
            section = name;
            sections.entry(section).or_default().push(Entry::new());
        } else if let Some((key, value)) = line.split_once(" = ") {
            if let Some(entry) = sections.get_mut(section).and_then(|entries| entries.last_mut()) {
                entry.insert(key, value);
            }
        }
    }
    sections
}

fn number<T: std::str::FromStr>(entry: &Entry, key: &str) -> Option<T> {
    entry.get(key)?.parse().ok()
}

fn name<'a>(entry: &Entry<'a>, key: &str) -> Option<&'a str> {
    Some(entry.get(key)?.trim_matches('"'))
}

fn list(value: &str) -> impl Iterator<Item = &str> {
    value.trim_matches(['[', ']']).split(", ").map(|item| item.trim_matches('"'))
}

/// A meter of an entry, with the mode and the origin that go by these keys.
fn meter(entry: &Entry, origin: &str) -> Option<Meter> {
    let aware = name(entry, "mode") != Some("blind");
    let committed = (number(entry, "cir")?, number(entry, "cbs")?);
    let (kind, other) = match name(entry, "kind")? {
        "srtcm" => (Kind::SrTcm, (0, number(entry, "ebs")?)),
        "trtcm" => (Kind::TrTcm, (number(entry, "pir")?, number(entry, "pbs")?)),
        "rfc4115" => (Kind::Rfc4115, (number(entry, "eir")?, number(entry, "ebs")?)),
        _ => return None,
    };
    Some(Meter::new(kind, aware, number(entry, origin).unwrap_or(0), committed, other))
}

/// A prefix as a rule says it; of a part that is not given, the one that all addresses have.
fn prefix(entry: &Entry, key: &str) -> Option<Prefix> {
    let Some(text) = name(entry, key) else {
        return Some(Prefix { mask: 0, bits: 0 });
    };
    let (address, length) = text.split_once('/')?;
    let address: std::net::Ipv4Addr = address.parse().ok()?;
    let past = 32u32.checked_sub(length.parse().ok()?)?;
    let mask = u32::MAX.checked_shl(past).unwrap_or(0);
    Some(Prefix { mask, bits: u32::from(address) & mask })
}

fn range(entry: &Entry, key: &str) -> Option<RangeInclusive<u16>> {
    let mut ends = list(entry.get(key)?);
    Some(ends.next()?.parse().ok()?..=ends.next()?.parse().ok()?)
}

fn rest(entry: &Entry) -> Option<Rest> {
    Some(Rest {
        target: prefix(entry, "dst")?,
        protocol: number(entry, "protocol"),
        source_ports: range(entry, "sport"),
        target_ports: range(entry, "dport"),
        dscp: number(entry, "dscp"),
    })
}

/// The places of meters by name, and the floors of links by their ends.
struct Ways<'a> {
    meters: HashMap<&'a str, usize>,
    floors: HashMap<(&'a str, &'a str), u64>,
}

impl<'a> Ways<'a> {
    fn new(meters: &[Entry<'a>], links: &[Entry<'a>]) -> Option<Self> {
        let named = |(place, entry)| Some((name(entry, "name")?, place));
        let floor = |entry| Some(((name(entry, "from")?, name(entry, "to")?), number(entry, "floor")?));
        Some(Ways {
            meters: meters.iter().enumerate().map(named).collect::<Option<_>>()?,
            floors: links.iter().map(floor).collect::<Option<_>>()?,
        })
    }

    /// The stops at the meters of a contract's path.
    fn stops(&self, entry: &Entry<'a>) -> Option<Vec<Stop>> {
        let mut from = name(entry, "port")?;
        let mut delay = 0;
        let mut stops = Vec::new();
        for to in list(entry.get("path").copied()?) {
            delay += self.floors.get(&(from, to))?;
            stops.push(Stop { site: *self.meters.get(to)?, delay });
            from = to;
        }
        Some(stops)
    }
}

/// What a domain text says at a port, if the text is good.
pub fn domain(text: &str, port: &str) -> Option<Domain> {
    let sections = sections(text);
    let entries = |section| sections.get(section).map_or(&[][..], Vec::as_slice);
    let ways = Ways::new(entries("meter"), entries("link"))?;
    let mut sites: Vec<Meter> = entries("meter").iter().map(|entry| meter(entry, "origin")).collect::<Option<_>>()?;
    let (mut contracts, mut sources, mut rests) = (Vec::new(), Vec::new(), Vec::new());
    for entry in entries("contract").iter().filter(|entry| name(entry, "port") == Some(port)) {
        let mut stops = ways.stops(entry)?;
        let is_trusted = name(entry, "kind") == Some("trusted");
        if !is_trusted {
            stops.insert(0, Stop { site: sites.len(), delay: 0 });
            sites.push(meter(entry, "since")?);
        }
        let has_peak = !is_trusted || entry.contains_key("pir");
        contracts.push(Contract { class: number(entry, "class")?, has_peak, stops });
        sources.push(prefix(entry, "src")?);
        rests.push(rest(entry)?);
    }
    Some(Domain { sites, contracts, rules: Rules::new(&sources, rests) })
}
