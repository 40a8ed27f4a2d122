//! Packets under way: what was sent, the visits that wait, and the marks that are decided.

use crate::captures::{Heading, Record, TooLong};
use crate::domains::{Contract, Domain};
use crate::meters::{Colour, Meter};
use crate::packets::{self, Header};
use std::io::{self, Write};

const MOST_MOMENT: u64 = (1 << 63) - 1;

/// What is told of a marked capture; packets and bytes by colour.
#[derive(Default)]
pub struct Report {
    pub records: u64,
    pub unmatched: u64,
    pub skipped: u64,
    pub unverified: u64,
    pub dropped: u64,
    packets: [u64; 3],
    bytes: [u64; 3],
}

impl Report {
    /// Counts what was seen of other frames.
    pub fn add(&mut self, other: &Report) {
        self.records += other.records;
        self.unmatched += other.unmatched;
        self.skipped += other.skipped;
        self.unverified += other.unverified;
    }

    pub fn text(&self) -> String {
        let Report { records, unmatched, skipped, unverified, dropped, packets, bytes } = self;
        let marked: u64 = packets.iter().sum();
        format!(
            "records {records}\nmarked {marked}\nunmatched {unmatched}\nskipped {skipped}\nunverified {unverified}\n\
            dropped {dropped}\ngreen {} {}\nyellow {} {}\nred {} {}\n",
            packets[0], bytes[0], packets[1], bytes[1], packets[2], bytes[2],
        )
    }
}

/// A packet of a frame that a contract takes.
pub struct Packet {
    /// Where its record stands among the bytes that are held, and how far behind that its header.
    pub record: usize,
    behind: u8,
    verified: bool,
    decided: bool,
    pub colour: Colour,
    size: u16,
    flow: u16,
}

impl Packet {
    pub fn new(record: usize, behind: usize, header: &Header, contract: &Contract, flow: usize) -> Self {
        Packet {
            record,
            behind: 16 + behind as u8,
            verified: header.verified,
            decided: false,
            colour: contract.came(header.dscp),
            size: header.total,
            flow: flow as u16,
        }
    }

    pub fn flow(&self) -> usize {
        usize::from(self.flow)
    }

    /// Is metered at a site.
    pub fn meet(&mut self, meter: &mut Meter, moment: u64) {
        self.colour = meter.admit(moment, self.size, self.colour);
    }

    /// Is marked among the bytes that are held, once it is decided.
    pub fn mark(&mut self, bytes: &mut [u8], contract: &Contract, report: &mut Report) {
        let colour = self.colour as usize;
        report.packets[colour] += 1;
        report.bytes[colour] += u64::from(self.size);
        self.decided = true;
        let header = &mut bytes[self.record + usize::from(self.behind)..];
        packets::mark(header, 8 * contract.class + 2 * (colour as u8 + 1), self.verified);
    }
}

/// A visit in one number, in the order in which visits are made: by moment, then by the packet's number, then by the hop.
pub type Visit = u128;

/// The visit of a packet that was sent at a moment, so long after that.
pub fn visit(sent: u64, delay: u64, packet: u64, hop: usize) -> Visit {
    u128::from((sent + delay).min(MOST_MOMENT)) << 64 | u128::from(packet << 8) | hop as u128
}

pub fn moment_of(visit: Visit) -> u64 {
    (visit >> 64) as u64
}

/// The visits up to a moment, of some that are in order, and those behind it.
pub fn due_and_later(visits: &[Visit], until: u64) -> (&[Visit], &[Visit]) {
    visits.split_at(visits.partition_point(|visit| moment_of(*visit) <= until))
}

/// A capture on its way through: the bytes that are held, the packets among them, and the visits that are still to be made.
pub struct Traffic {
    domain: Domain,
    heading: Heading,
    drops: bool,
    /// What was read and is not written; records are sent up to `sent`, and written up to `written`.
    bytes: Vec<u8>,
    written: usize,
    sent: usize,
    end: usize,
    newest: u64,
    /// The packets that are not written yet; the first of them has this number.
    packets: Vec<Packet>,
    first: u64,
    /// The visits that wait, in order, and those that joined since.
    waiting: Vec<Visit>,
    joined: Vec<Visit>,
    merged: Vec<Visit>,
    report: Report,
}

impl Traffic {
    pub fn new(domain: Domain, heading: Heading, drops: bool) -> Self {
        Traffic {
            domain,
            heading,
            drops,
            bytes: vec![0; 1 << 18],
            written: 0,
            sent: 0,
            end: 0,
            newest: 0,
            packets: Vec::new(),
            first: 0,
            waiting: Vec::new(),
            joined: Vec::new(),
            merged: Vec::new(),
            report: Report::default(),
        }
    }

    pub fn into_report(self) -> Report {
        self.report
    }

    /// Whether bytes are left that are no whole record.
    pub fn is_cut(&self) -> bool {
        self.sent != self.end
    }

    /// Room for a piece of so many bytes behind those that are held.
    pub fn room(&mut self, size: usize) -> &mut [u8] {
        if self.bytes.len() - self.end < size {
            self.bytes.copy_within(self.written..self.end, 0);
            for packet in &mut self.packets {
                packet.record -= self.written;
            }
            self.sent -= self.written;
            self.end -= self.written;
            self.written = 0;
            let least = self.end + size;
            if self.bytes.len() < 2 * least {
                self.bytes.resize(2 * least, 0);
            }
        }
        &mut self.bytes[self.end..][..size]
    }

    /// Takes a piece that was put into the room: lets its packets begin, makes the visits that are due, and writes
    /// what is decided. Whether its records were good.
    pub fn take(&mut self, size: usize, out: &mut impl Write) -> io::Result<bool> {
        self.end += size;
        let is_good = self.send_all().is_ok();
        self.make_due(self.newest);
        self.write(out)?;
        Ok(is_good)
    }

    /// Makes all visits, and writes all records.
    pub fn finish(&mut self, out: &mut impl Write) -> io::Result<()> {
        self.make_due(u64::MAX);
        self.write(out)
    }

    /// Stamps may fall and time does not: a packet begins at the greatest stamp so far.
    fn send_all(&mut self) -> Result<(), TooLong> {
        while let Some(Record { stamp, frame }) = self.heading.record(&self.bytes[..self.end], self.sent)? {
            self.newest = stamp.max(self.newest);
            let end = frame.end;
            self.send(frame.start, end);
            self.sent = end;
        }
        Ok(())
    }

    /// Lets the packet of a frame begin, if a contract takes it.
    fn send(&mut self, start: usize, end: usize) {
        self.report.records += 1;
        let frame = &self.bytes[start..end];
        let found = packets::packet_start(self.heading.link, frame)
            .and_then(|start| Some((start, packets::header(&frame[start..])?)));
        let Some((behind, header)) = found else {
            self.report.skipped += 1;
            return;
        };
        let Some(flow) = self.domain.rules.first_match(&header) else {
            self.report.unmatched += 1;
            return;
        };
        self.report.unverified += u64::from(!header.verified);
        let contract = &self.domain.contracts[flow];
        let number = self.first + self.packets.len() as u64;
        let newest = self.newest;
        let visits = contract.stops.iter().enumerate();
        self.joined.extend(visits.map(|(hop, stop)| visit(newest, stop.delay, number, hop)));
        self.packets.push(Packet::new(start - 16, behind, &header, contract, flow));
    }

    /// Makes the visits up to a moment, in their order.
    fn make_due(&mut self, until: u64) {
        self.joined.sort_unstable();
        let joined = std::mem::take(&mut self.joined);
        let waiting = std::mem::take(&mut self.waiting);
        let mut merged = std::mem::take(&mut self.merged);
        let (now, later) = due_and_later(&joined, until);
        let (first, last) = due_and_later(&waiting, until);
        merge(first, now, |visit| self.make(visit));
        merge(last, later, |visit| merged.push(visit));
        self.waiting = merged;
        self.joined = joined;
        self.joined.clear();
        self.merged = waiting;
        self.merged.clear();
    }

    /// Meters a packet at its stop, and marks it where that is its last.
    fn make(&mut self, visit: Visit) {
        let number = (visit as u64) >> 8;
        let hop = usize::from(visit as u8);
        let packet = &mut self.packets[(number - self.first) as usize];
        let contract = &self.domain.contracts[packet.flow()];
        packet.meet(&mut self.domain.sites[contract.stops[hop].site], moment_of(visit));
        if hop + 1 == contract.stops.len() {
            packet.mark(&mut self.bytes, contract, &mut self.report);
        }
    }

    /// Writes the records before the first packet that is not decided, without those that are dropped.
    fn write(&mut self, out: &mut impl Write) -> io::Result<()> {
        let decided = self.packets.iter().take_while(|packet| packet.decided).count();
        if self.drops {
            for packet in self.packets[..decided].iter().filter(|packet| packet.colour == Colour::Red) {
                out.write_all(&self.bytes[self.written..packet.record])?;
                self.report.dropped += 1;
                let dropped = self.heading.record(&self.bytes, packet.record);
                self.written = dropped.ok().flatten().map_or(packet.record, |record| record.frame.end);
            }
        }
        let end = self.packets.get(decided).map_or(self.sent, |packet| packet.record);
        out.write_all(&self.bytes[self.written..end])?;
        out.flush()?;
        self.written = end;
        self.packets.drain(..decided);
        self.first += decided as u64;
        Ok(())
    }
}

/// Hands out the visits of two lists that are in order, in order.
pub fn merge(mut left: &[Visit], mut right: &[Visit], mut each: impl FnMut(Visit)) {
    while let (Some((one, more)), Some((other, others))) = (left.split_first(), right.split_first()) {
        if one < other {
            each(*one);
            left = more;
        } else {
            each(*other);
            right = others;
        }
    }
    left.iter().chain(right).for_each(|visit| each(*visit));
}
