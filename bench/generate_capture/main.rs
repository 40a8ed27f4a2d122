//! Writes a domain, or a capture of so many frames for its port, the same ones each time: `generate_capture domain KIND`,
//! `generate_capture capture KIND COUNT`.
//!
//! A `mixed` domain has 100 contracts over 10 meters. Of ten contracts two are policed, and each passes two meters. To each meter
//! 20 contracts bring at most 160 Mbit/s of green packets in bursts of 120,328 bytes, and 224 Mbit/s of green and yellow ones in
//! bursts of 222,465 bytes; it has that and a little more, so that the least certificate is accepted. The frames bring more than
//! was sold: packets lose their colours at the edges and at the meters.
//!
//! A `single` domain has one contract, whose sources are 10.0.0.0/24, over one meter; a `many` domain has 4,096 contracts over one
//! such meter, each with one source, 10.x.y.1. The frames of a `single` capture have sources of the one contract, but for one in
//! 64; those of a `first`, a `last` or a `stray` one have the source of the first of many contracts, of the last, or of none.

use std::env;
use std::io::{self, BufWriter, Write};
use std::process::ExitCode;

const CONTRACTS: u16 = 100;
const METERS: u16 = 10;

/// How many contracts there are, each with a source of its own.
const MANY: u16 = 4_096;

/// The captured bytes of each frame.
const CAPTURED: usize = 100;

/// When the capture begins: in seconds, and in microseconds of the next one.
const BEGIN: (u64, u64) = (1_700_000_000, 250_000);

/// The heading of a capture: low bytes first, microseconds, 100 bytes of a frame at most, Ethernet.
const HEADING: [u8; 24] = [
    0xd4, 0xc3, 0xb2, 0xa1, 2, 0, 4, 0, 0, 0, 0, 0, 0, 0, 0, 0, 100, 0, 0, 0, 1, 0, 0, 0,
];

/// The front of an IPv6 header: 32 bytes of UDP follow.
const IPV6: [u8; 7] = [0x60, 0, 0, 0, 0, 32, 17];

/// Numbers from 0 to 65,535 without a pattern, the same ones in each run.
struct Numbers {
    state: u32,
}

impl Numbers {
    fn next(&mut self) -> u16 {
        self.state = self.state.wrapping_mul(69_069).wrapping_add(1);
        (self.state >> 16) as u16
    }

    fn below(&mut self, end: u16) -> u16 {
        self.next() % end
    }

    fn one_in(&mut self, count: u16) -> bool {
        self.below(count) == 0
    }
}

fn write_meter(out: &mut impl Write, meter: u16) -> io::Result<()> {
    let terms = match meter % 5 {
        3 => "kind = \"srtcm\"\ncir = 240000000\ncbs = 125000\nebs = 250000",
        4 => "kind = \"rfc4115\"\ncir = 160000000\ncbs = 125000\neir = 240000000\nebs = 250000",
        _ => "kind = \"trtcm\"\ncir = 160000000\ncbs = 125000\npir = 240000000\npbs = 250000",
    };
    writeln!(out, "[[meter]]\nname = \"meter-{meter}\"\n{terms}\nskew = 1000\n")
}

fn write_link(out: &mut impl Write, from: &str, to: u16, floor: u32) -> io::Result<()> {
    writeln!(out, "[[link]]\nfrom = \"{from}\"\nto = \"meter-{to}\"\nfloor = {floor}\njitter = 10000\n")
}

/// From the port to each meter, and from each meter to the three that follow; no two floors of one end are the same.
fn write_links(out: &mut impl Write) -> io::Result<()> {
    for meter in 0..METERS {
        write_link(out, "port", meter, 100_000 + 23_000 * u32::from(meter))?;
    }
    for meter in 0..METERS {
        for step in 1..=3 {
            let floor = 500_000 * u32::from(step) + 70_000 * u32::from(meter);
            write_link(out, &format!("meter-{meter}"), (meter + step) % METERS, floor)?;
        }
    }
    Ok(())
}

/// The terms of a contract: 8 Mbit/s of green packets, and 12 Mbit/s of green and yellow ones or less.
fn terms(contract: u16) -> String {
    let mode = if contract % 2 == 0 { "blind" } else { "aware" };
    let committed = "cir = 8000000\ncbs = 6000";
    if contract / 10 % 5 != 2 {
        return match contract % 4 {
            3 => format!("kind = \"trusted\"\n{committed}"),
            _ => format!("kind = \"trusted\"\n{committed}\npir = 12000000\npbs = 12000"),
        };
    }
    match contract % 3 {
        0 => format!("kind = \"trtcm\"\nmode = \"{mode}\"\n{committed}\npir = 12000000\npbs = 12000"),
        1 => format!("kind = \"srtcm\"\nmode = \"{mode}\"\n{committed}\nebs = 6000"),
        _ => format!("kind = \"rfc4115\"\nmode = \"{mode}\"\n{committed}\neir = 4000000\nebs = 6000"),
    }
}

/// The rule of a contract: its sources, and for some of them more; the last one takes what comes to a target from elsewhere.
fn rule(contract: u16) -> String {
    if contract == CONTRACTS - 1 {
        return "dst = \"10.128.0.0/12\"".to_string();
    }
    let more = match contract % 10 {
        6 => "\nprotocol = 17",
        7 => "\nprotocol = 6\ndport = [80, 443]",
        8 => "\nsport = [1024, 65535]",
        _ => "",
    };
    format!("src = \"10.0.{contract}.0/24\"{more}")
}

fn class(contract: u16) -> u16 {
    1 + contract % 4
}

fn write_contract(out: &mut impl Write, contract: u16) -> io::Result<()> {
    let first = contract % METERS;
    let second = (first + 1 + contract / 10 % 3) % METERS;
    let (terms, rule, class) = (terms(contract), rule(contract), class(contract));
    let way = format!("port = \"port\"\npath = [\"meter-{first}\", \"meter-{second}\"]\nclass = {class}");
    writeln!(out, "[[contract]]\nname = \"contract-{contract}\"\n{way}\n{terms}\n{rule}\n")
}

fn write_domain(out: &mut impl Write) -> io::Result<()> {
    for meter in 0..METERS {
        write_meter(out, meter)?;
    }
    writeln!(out, "[[port]]\nname = \"port\"\nskew = 1000\n")?;
    write_links(out)?;
    for contract in 0..CONTRACTS {
        write_contract(out, contract)?;
    }
    Ok(())
}

/// A meter, a port and a link to it: 820 Mbit/s of green packets.
const ONE_METER: &str = "[[meter]]
name = \"meter-0\"
kind = \"trtcm\"
cir = 820000000
cbs = 10000000
pir = 1230000000
pbs = 15000000
skew = 1000

[[port]]
name = \"port\"
skew = 1000

[[link]]
from = \"port\"
to = \"meter-0\"
floor = 100000
jitter = 10000
";

/// A trusted contract over the one meter, with sources and what it may send.
fn write_trusted(out: &mut impl Write, contract: u16, source: &str, terms: &str) -> io::Result<()> {
    let way = format!("port = \"port\"\npath = [\"meter-0\"]\nclass = {}", class(contract));
    writeln!(out, "\n[[contract]]\nname = \"contract-{contract}\"\n{way}\nkind = \"trusted\"\n{terms}\nsrc = \"{source}\"")
}

fn write_single_domain(out: &mut impl Write) -> io::Result<()> {
    write!(out, "{ONE_METER}")?;
    write_trusted(out, 0, "10.0.0.0/24", "cir = 800000000\ncbs = 9000000\npir = 1200000000\npbs = 14000000")
}

/// The source of one of many contracts.
fn source(contract: u16) -> [u8; 4] {
    let [high, low] = contract.to_be_bytes();
    [10, high, low, 1]
}

fn write_many_domain(out: &mut impl Write) -> io::Result<()> {
    write!(out, "{ONE_METER}")?;
    for contract in 0..MANY {
        let [a, b, c, d] = source(contract);
        write_trusted(out, contract, &format!("{a}.{b}.{c}.{d}/32"), "cir = 200000\ncbs = 2000\npir = 300000\npbs = 3000")?;
    }
    Ok(())
}

/// Whose frames a capture has.
#[derive(Clone, Copy, PartialEq, Eq)]
enum Traffic {
    /// Those of a hundred contracts.
    Mixed,
    /// Those of one contract.
    Single,
    /// Those from the source of the contract of this number, of many.
    From(u16),
}

impl Traffic {
    fn of(kind: &str) -> Option<Self> {
        match kind {
            "mixed" => Some(Traffic::Mixed),
            "single" => Some(Traffic::Single),
            "first" => Some(Traffic::From(0)),
            "last" => Some(Traffic::From(MANY - 1)),
            "stray" => Some(Traffic::From(MANY)),
            _ => None,
        }
    }

    /// The contract of the next frame.
    fn contract(self, numbers: &mut Numbers) -> u16 {
        match self {
            Traffic::Mixed => numbers.below(CONTRACTS),
            Traffic::Single => 0,
            Traffic::From(contract) => contract,
        }
    }

    /// The source and the target of a packet.
    fn addresses(self, numbers: &mut Numbers, contract: u16) -> [[u8; 4]; 2] {
        match self {
            Traffic::Mixed | Traffic::Single => addresses(numbers, contract),
            Traffic::From(contract) => {
                let [c, d] = numbers.next().to_be_bytes();
                [source(contract), [10, 200, c, d]]
            }
        }
    }
}

/// A code point: mostly one of the contract's class, green ones above all, and now and then another.
fn code_point(numbers: &mut Numbers, contract: u16) -> u8 {
    let class = class(contract) as u8;
    match numbers.below(20) {
        0..=13 => 8 * class + 2,
        14..=16 => 8 * class + 4,
        17..=18 => 8 * class + 6,
        _ => 46,
    }
}

/// The protocol and the ports of a packet, such that its contract takes it, but for some of the ports.
fn transport(numbers: &mut Numbers, contract: u16) -> (u8, [u16; 2]) {
    let (source, target) = (numbers.next(), numbers.next());
    match contract % 10 {
        6 => (17, [source, target]),
        7 => (6, [source, 80 + target % 400]),
        8 => (if target % 2 == 0 { 6 } else { 17 }, [1_024 + source % 60_000, target]),
        _ => ([6, 6, 6, 6, 6, 6, 17, 17, 17, 1][usize::from(target % 10)], [source, target]),
    }
}

/// The source and the target of a packet of a contract, or of one that only the last contract may take.
fn addresses(numbers: &mut Numbers, contract: u16) -> [[u8; 4]; 2] {
    let ([a, b], [c, d]) = (numbers.next().to_be_bytes(), numbers.next().to_be_bytes());
    let is_last = contract == CONTRACTS - 1;
    let is_stray = numbers.one_in(64);
    let source = if is_stray || is_last { [192, 168, a, b] } else { [10, 0, contract as u8, b] };
    let target = if is_last && !is_stray { [10, 128, c, d] } else { [10, 200, c, d] };
    [source, target]
}

/// The ones' complement of the ones' complement sum of a header's words.
fn checksum(header: &[u8]) -> u16 {
    let sum: u32 = header.chunks(2).map(|word| u32::from(word[0]) << 8 | u32::from(word[1])).sum();
    let folded = (sum & 0xffff) + (sum >> 16);
    !((folded & 0xffff) + (folded >> 16)) as u16
}

/// Writes an IPv4 header and ports into the front of a packet; the total length is answered.
fn fill_packet(numbers: &mut Numbers, traffic: Traffic, contract: u16, packet: &mut [u8]) -> u16 {
    let length: usize = if numbers.one_in(32) { 24 } else { 20 };
    let total = 86 + numbers.below(1_415);
    let (protocol, ports) = transport(numbers, contract);
    let [source, target] = traffic.addresses(numbers, contract);
    packet[0] = 0x40 + length as u8 / 4;
    packet[1] = 4 * code_point(numbers, contract) + if numbers.one_in(8) { 2 } else { 0 };
    packet[2..4].copy_from_slice(&total.to_be_bytes());
    packet[4..6].copy_from_slice(&numbers.next().to_be_bytes());
    let fragment: u16 = if numbers.one_in(100) { 185 } else { 0x4000 };
    packet[6..8].copy_from_slice(&fragment.to_be_bytes());
    packet[8] = 64;
    packet[9] = protocol;
    packet[10..12].copy_from_slice(&[0, 0]);
    packet[12..16].copy_from_slice(&source);
    packet[16..20].copy_from_slice(&target);
    // four options that do nothing
    packet[20..length].fill(1);
    let wrong = u16::from(numbers.one_in(100));
    let sum = checksum(&packet[..length]) ^ wrong;
    packet[10..12].copy_from_slice(&sum.to_be_bytes());
    packet[length..length + 2].copy_from_slice(&ports[0].to_be_bytes());
    packet[length + 2..length + 4].copy_from_slice(&ports[1].to_be_bytes());
    total
}

/// Writes types into a frame, behind its addresses and with tags now and then; where the packet starts is answered.
fn fill_types(numbers: &mut Numbers, kind: u16, frame: &mut [u8]) -> usize {
    let tags: &[u16] = match numbers.below(32) {
        0 => &[0x88a8, 0x8100],
        1..=8 => &[0x8100],
        _ => &[],
    };
    let mut place = 12;
    for tag in tags {
        frame[place..place + 2].copy_from_slice(&tag.to_be_bytes());
        frame[place + 2..place + 4].copy_from_slice(&[0, 7]);
        place += 4;
    }
    frame[place..place + 2].copy_from_slice(&kind.to_be_bytes());
    place + 2
}

/// Writes a frame; its length on the wire is answered. One in 64 is none of IPv4, and one in 512 has a header length that is too
/// short.
fn fill_frame(numbers: &mut Numbers, traffic: Traffic, frame: &mut [u8; CAPTURED]) -> u32 {
    let contract = traffic.contract(numbers);
    let pick = numbers.below(512);
    let kind = match pick {
        0..=3 => 0x0806,
        4..=7 => 0x86dd,
        _ => 0x0800,
    };
    frame[..12].copy_from_slice(&[2, 0, 0, 0, 0, 1, 2, 0, 0, 0, 0, 2]);
    let start = fill_types(numbers, kind, frame);
    frame[start..].fill(pick as u8);
    if kind == 0x86dd {
        frame[start..start + IPV6.len()].copy_from_slice(&IPV6);
    }
    if kind != 0x0800 {
        return CAPTURED as u32;
    }
    let total = fill_packet(numbers, traffic, contract, &mut frame[start..]);
    if pick == 8 {
        frame[start] = 0x44;
    }
    start as u32 + u32::from(total)
}

/// A record's own bytes: its stamp, so many microseconds behind the begin, and its lengths.
fn record_head(behind: u64, length: u32) -> [u8; 16] {
    let stamp = BEGIN.1 + behind;
    let words = [(BEGIN.0 + stamp / 1_000_000) as u32, (stamp % 1_000_000) as u32, CAPTURED as u32, length];
    let mut head = [0; 16];
    for (place, word) in head.chunks_mut(4).zip(words) {
        place.copy_from_slice(&word.to_le_bytes());
    }
    head
}

/// Frames come 0 to 8 microseconds apart; one in 64 has a stamp up to 50 microseconds before the greatest.
fn write_capture(out: &mut impl Write, traffic: Traffic, count: u64) -> io::Result<()> {
    let mut numbers = Numbers { state: 20_240_607 };
    let mut newest = 100;
    let mut frame = [0; CAPTURED];
    out.write_all(&HEADING)?;
    for _ in 0..count {
        newest += u64::from(numbers.below(9));
        let back = if numbers.one_in(64) { u64::from(numbers.below(51)) } else { 0 };
        let length = fill_frame(&mut numbers, traffic, &mut frame);
        out.write_all(&record_head(newest - back, length))?;
        out.write_all(&frame)?;
    }
    Ok(())
}

fn run(words: &[&str], out: &mut impl Write) -> Option<io::Result<()>> {
    match words {
        ["domain", "mixed"] => Some(write_domain(out)),
        ["domain", "single"] => Some(write_single_domain(out)),
        ["domain", "many"] => Some(write_many_domain(out)),
        ["capture", kind, count] => Some(write_capture(out, Traffic::of(kind)?, count.parse().ok()?)),
        _ => None,
    }
}

fn main() -> ExitCode {
    let words: Vec<String> = env::args().skip(1).collect();
    let words: Vec<&str> = words.iter().map(String::as_str).collect();
    let mut out = BufWriter::with_capacity(1 << 16, io::stdout().lock());
    let Some(written) = run(&words, &mut out) else {
        eprintln!("generate_capture: domain KIND, or capture KIND COUNT");
        return ExitCode::from(2);
    };
    match written.and_then(|()| out.flush()) {
        Ok(()) => ExitCode::SUCCESS,
        Err(fault) => {
            eprintln!("generate_capture: {fault}");
            ExitCode::from(4)
        }
    }
}
