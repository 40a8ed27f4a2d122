//! The same by several threads that stay, each with a stage, which hand each other pieces in order: one reads, cuts and writes,
//! some see, and one meters and marks. Of two threads the one reads, cuts and sees, and the other does the rest.

use crate::Fault;
use crate::captures::Heading;
use crate::domains::{Contract, Domain, Rules};
use crate::meters::{Colour, Meter};
use crate::packets;
use crate::traffic::{Packet, Report, Visit, due_and_later, merge, moment_of, visit};
use std::collections::VecDeque;
use std::io::{self, Read, Write};
use std::mem::take;
use std::sync::mpsc::{Receiver, Sender, channel};
use std::thread;

/// How many bytes are read for a piece at most.
const PIECE: usize = 65_536;

/// How many pieces are under way at most until they are metered.
const MOST_PIECES: usize = 32;

/// A piece may have so many packets.
const MOST_PACKETS: u64 = 1 << 24;

/// Whole records on their way, and what is known of them.
#[derive(Default)]
struct Piece {
    number: u64,
    bytes: Vec<u8>,
    /// Where the last whole record ends.
    end: usize,
    /// The greatest stamp before these records, and with them.
    before: u64,
    newest: u64,
    packets: Vec<Packet>,
    visits: Vec<Visit>,
    undecided: usize,
    report: Report,
}

impl Piece {
    fn clear(&mut self) {
        self.packets.clear();
        self.visits.clear();
        self.report = Report::default();
    }
}

/// Reads pieces, and cuts them behind their last whole record.
struct Reader<I> {
    input: I,
    heading: Heading,
    number: u64,
    newest: u64,
    /// What stands behind the last whole record of the last piece.
    rest: Vec<u8>,
    is_good: bool,
}

impl<I: Read> Reader<I> {
    /// Fills a piece; whether there was more to read.
    fn fill(&mut self, piece: &mut Piece) -> io::Result<bool> {
        if !self.is_good {
            return Ok(false);
        }
        piece.clear();
        let held = self.rest.len();
        piece.bytes.resize((held + PIECE).max(piece.bytes.len()), 0);
        piece.bytes[..held].copy_from_slice(&self.rest);
        let size = self.input.read(&mut piece.bytes[held..][..PIECE])?;
        if size == 0 {
            return Ok(false);
        }
        piece.number = self.number;
        self.number += 1;
        piece.before = self.newest;
        piece.end = self.cut(&piece.bytes[..held + size]);
        piece.newest = self.newest;
        self.rest.clear();
        self.rest.extend_from_slice(&piece.bytes[piece.end..held + size]);
        Ok(true)
    }

    /// Where the last whole record ends.
    fn cut(&mut self, bytes: &[u8]) -> usize {
        let mut end = 0;
        loop {
            match self.heading.record(bytes, end) {
                Ok(Some(record)) => {
                    self.newest = self.newest.max(record.stamp);
                    end = record.frame.end;
                }
                Ok(None) => return end,
                Err(_) => {
                    self.is_good = false;
                    return end;
                }
            }
        }
    }

    fn is_whole(&self) -> bool {
        self.is_good && self.rest.is_empty()
    }
}

/// Sees the frames of pieces.
#[derive(Clone, Copy)]
struct Seer<'a> {
    heading: &'a Heading,
    rules: &'a Rules,
    contracts: &'a [Contract],
}

impl Seer<'_> {
    fn see(self, piece: &mut Piece) {
        let bytes = take(&mut piece.bytes);
        let mut newest = piece.before;
        let mut place = 0;
        while let Ok(Some(record)) = self.heading.record(&bytes[..piece.end], place) {
            newest = newest.max(record.stamp);
            place = record.frame.end;
            self.see_frame(piece, record.frame.start, newest, &bytes[record.frame]);
        }
        piece.visits.sort_unstable();
        piece.undecided = piece.packets.len();
        piece.bytes = bytes;
    }

    fn see_frame(self, piece: &mut Piece, start: usize, newest: u64, frame: &[u8]) {
        piece.report.records += 1;
        let found = packets::packet_start(self.heading.link, frame)
            .and_then(|start| Some((start, packets::header(&frame[start..])?)));
        let Some((behind, header)) = found else {
            piece.report.skipped += 1;
            return;
        };
        let Some(flow) = self.rules.first_match(&header) else {
            piece.report.unmatched += 1;
            return;
        };
        piece.report.unverified += u64::from(!header.verified);
        let contract = &self.contracts[flow];
        let number = piece.number * MOST_PACKETS + piece.packets.len() as u64;
        let stops = contract.stops.iter().enumerate();
        piece.visits.extend(stops.map(|(hop, stop)| visit(newest, stop.delay, number, hop)));
        piece.packets.push(Packet::new(start - 16, behind, &header, contract, flow));
    }
}

/// Makes visits in their order, and marks packets.
struct Metering<'a> {
    contracts: &'a [Contract],
    sites: Vec<Meter>,
    /// The pieces that have packets under way, or stand behind such a piece; the first of them has this number.
    pieces: VecDeque<Piece>,
    first: u64,
    waiting: Vec<Visit>,
    merged: Vec<Visit>,
    report: Report,
}

impl Metering<'_> {
    /// Takes the next piece, and makes the visits that no later one can come before.
    fn take(&mut self, mut piece: Piece) {
        let visits = take(&mut piece.visits);
        let newest = piece.newest;
        self.report.add(&piece.report);
        self.pieces.push_back(piece);
        self.make_due(newest, &visits);
        if let Some(piece) = self.pieces.back_mut() {
            piece.visits = visits;
        }
    }

    fn make_due(&mut self, until: u64, joined: &[Visit]) {
        let waiting = take(&mut self.waiting);
        let mut merged = take(&mut self.merged);
        let (now, later) = due_and_later(joined, until);
        let (first, last) = due_and_later(&waiting, until);
        merge(first, now, |visit| self.make(visit));
        merge(last, later, |visit| merged.push(visit));
        self.waiting = merged;
        self.merged = waiting;
        self.merged.clear();
    }

    /// Meters a packet at its stop, and marks it where that is its last.
    fn make(&mut self, visit: Visit) {
        let number = (visit as u64) >> 8;
        let hop = usize::from(visit as u8);
        let piece = &mut self.pieces[(number / MOST_PACKETS - self.first) as usize];
        let packet = &mut piece.packets[(number % MOST_PACKETS) as usize];
        let contract = &self.contracts[packet.flow()];
        packet.meet(&mut self.sites[contract.stops[hop].site], moment_of(visit));
        if hop + 1 == contract.stops.len() {
            packet.mark(&mut piece.bytes, contract, &mut self.report);
            piece.undecided -= 1;
        }
    }

    /// Takes out the first piece, if no packet of it is under way.
    fn decided(&mut self) -> Option<Piece> {
        if self.pieces.front()?.undecided > 0 {
            return None;
        }
        self.first += 1;
        self.pieces.pop_front()
    }
}

/// Writes pieces, and counts the frames that are dropped.
struct Writer<O> {
    out: O,
    heading: Heading,
    drops: bool,
    dropped: u64,
    fault: Option<io::Error>,
}

impl<O: Write> Writer<O> {
    /// Nothing is written any more after a fault.
    fn write(&mut self, piece: &Piece) {
        if self.fault.is_none() {
            self.fault = self.write_records(piece).err();
        }
    }

    fn write_records(&mut self, piece: &Piece) -> io::Result<()> {
        let mut written = 0;
        if self.drops {
            for packet in piece.packets.iter().filter(|packet| packet.colour == Colour::Red) {
                self.out.write_all(&piece.bytes[written..packet.record])?;
                let dropped = self.heading.record(&piece.bytes, packet.record);
                written = dropped.ok().flatten().map_or(packet.record, |record| record.frame.end);
                self.dropped += 1;
            }
        }
        self.out.write_all(&piece.bytes[written..piece.end])
    }
}

/// Meters the pieces that come over lanes in turn, and hands on, for each, those that are decided, and at the end the rest.
fn meter_all(mut metering: Metering, lanes: &[Receiver<Piece>], mut hand: impl FnMut(Vec<Piece>)) -> Report {
    for lane in lanes.iter().cycle() {
        let Ok(piece) = lane.recv() else {
            break;
        };
        metering.take(piece);
        hand(std::iter::from_fn(|| metering.decided()).collect());
    }
    metering.make_due(u64::MAX, &[]);
    hand(std::iter::from_fn(|| metering.decided()).collect());
    metering.report
}

/// What the reading thread does: pieces go out over lanes in turn, and come back once they are metered.
struct Rounds<'a, I> {
    reader: Reader<I>,
    lanes: Vec<Sender<Piece>>,
    back: &'a Receiver<Vec<Piece>>,
    spare: Vec<Piece>,
    under_way: usize,
}

impl<I: Read> Rounds<'_, I> {
    /// Does so until all is read; `each` is told of each piece that came back.
    fn run(&mut self, mut see: impl FnMut(&mut Piece), mut each: impl FnMut(&Piece)) -> io::Result<()> {
        loop {
            while self.under_way >= MOST_PIECES {
                let Ok(pieces) = self.back.recv() else {
                    return Ok(());
                };
                self.came(pieces, &mut each);
            }
            while let Ok(pieces) = self.back.try_recv() {
                self.came(pieces, &mut each);
            }
            let mut piece = self.spare.pop().unwrap_or_default();
            if !self.reader.fill(&mut piece)? {
                return Ok(());
            }
            see(&mut piece);
            let lane = (piece.number % self.lanes.len() as u64) as usize;
            self.under_way += 1;
            let _ = self.lanes[lane].send(piece);
        }
    }

    fn came(&mut self, pieces: Vec<Piece>, each: &mut impl FnMut(&Piece)) {
        self.under_way -= 1;
        pieces.iter().for_each(&mut *each);
        self.spare.extend(pieces);
    }
}

/// Marks a capture with so many threads, two at least: whether it ended with a whole record, and what is told of it.
pub fn mark(domain: Domain, heading: Heading, drops: bool, workers: usize, input: impl Read, out: impl Write + Send)
    -> Result<(bool, Report), Fault> {
    let Domain { sites, contracts, rules } = domain;
    let (contracts, rules) = (&contracts[..], &rules);
    let metering = Metering {
        contracts,
        sites,
        pieces: VecDeque::new(),
        first: 0,
        waiting: Vec::new(),
        merged: Vec::new(),
        report: Report::default(),
    };
    let seer = Seer { heading: &heading, rules, contracts };
    let reader = Reader { input, heading, number: 0, newest: 0, rest: Vec::new(), is_good: true };
    let mut writer = Writer { out, heading, drops, dropped: 0, fault: None };
    let (hand, back) = channel();
    let (is_whole, mut report) = thread::scope(|scope| {
        if workers == 2 {
            let (lane, own) = channel();
            let writer = &mut writer;
            let meter = scope.spawn(move || {
                meter_all(metering, &[own], |pieces| {
                    pieces.iter().for_each(|piece| writer.write(piece));
                    let _ = hand.send(pieces);
                })
            });
            let mut rounds = Rounds { reader, lanes: vec![lane], back: &back, spare: Vec::new(), under_way: 0 };
            let read = rounds.run(|piece| seer.see(piece), |_| {});
            let is_whole = rounds.reader.is_whole();
            drop(rounds);
            let report = meter.join().map_err(|_| Fault::Capture)?;
            read?;
            return Ok((is_whole, report));
        }
        let mut lanes = Vec::new();
        let mut seen = Vec::new();
        for _ in 2..workers {
            let (lane, unseen) = channel::<Piece>();
            let (next, own) = channel();
            scope.spawn(move || {
                for mut piece in unseen {
                    seer.see(&mut piece);
                    if next.send(piece).is_err() {
                        break;
                    }
                }
            });
            lanes.push(lane);
            seen.push(own);
        }
        let meter = scope.spawn(move || {
            meter_all(metering, &seen, |pieces| {
                let _ = hand.send(pieces);
            })
        });
        let mut rounds = Rounds { reader, lanes, back: &back, spare: Vec::new(), under_way: 0 };
        let read = rounds.run(|_| {}, |piece| writer.write(piece));
        let is_whole = rounds.reader.is_whole();
        drop(rounds);
        back.iter().flatten().for_each(|piece| writer.write(&piece));
        let report = meter.join().map_err(|_| Fault::Capture)?;
        read?;
        Ok::<_, Fault>((is_whole, report))
    })?;
    if let Some(fault) = writer.fault {
        return Err(fault.into());
    }
    report.dropped = writer.dropped;
    writer.out.flush()?;
    Ok((is_whole, report))
}
