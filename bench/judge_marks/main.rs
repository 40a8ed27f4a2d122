//! Plain Rust over std alone, as a judge: what `dsedge mark` has to write, tell and refuse for a capture of either
//! format, reckoned by other code, with the whole capture in memory.
//!
//!     judge domain               the domain's text
//!     judge captures FILE..      those of the files that begin as a capture does
//!     judge all FILE FOLDER      tells the format of a capture and the link types of its packets, and writes into FOLDER
//!
//! what `mark` has to write with each rule for red frames (`keep.wanted`, `drop.wanted`), what it has to tell (`.told`),
//! the same frames as they were (`.before`), and for each of them a line (`.numbers`): its place in FILE, and its code point
//! and its family if it is marked; what `arrivals --colours` has to write and tell (`arrivals.wanted`); and copies with
//! harm (`harmed.0` and so on) with what `mark --red drop` has to write and tell of them, one behind the other
//! (`harms.wanted`, `harms.told`).

mod captures;
mod domain;
#[path = "../plain_marks/meters.rs"]
mod meters;
mod packets;

use captures::{Capture, Frame};
use domain::Domain;
use meters::Colour;
use std::collections::BTreeSet;
use std::env;
use std::fs;
use std::io::{self, BufWriter, Read, Write};
use std::process::ExitCode;

/// What becomes of a frame.
#[derive(Clone, Copy)]
enum Fate {
    Skipped,
    Marked { dscp: u8, colour: Colour, total: u16, verified: bool, family: u8 },
}

/// The latest moment at which a packet is sent, in nanoseconds.
const LATEST: u64 = (1 << 63) - (1 << 40) - 1;

/// What becomes of each frame of a capture, and the moment of each.
fn fates_of(bytes: &[u8], capture: &Capture) -> Vec<Fate> {
    let mut domain = Domain::new();
    let mut newest = 0;
    let mut fates = Vec::new();
    for frame in &capture.frames {
        newest = newest.max(frame.stamp.unwrap_or(0));
        fates.push(match packets::header_in(frame.link, &bytes[frame.packet.clone()]) {
            Some((_, header)) => {
                let (colour, dscp) = domain.passes(newest.min(LATEST), &header);
                let family = if header.is_six { 6 } else { 4 };
                Fate::Marked { dscp, colour, total: header.total, verified: header.verified, family }
            }
            None => Fate::Skipped,
        });
    }
    fates
}

/// Whether red frames are left out, and whether the others are marked.
#[derive(Clone, Copy)]
struct Rule {
    drops: bool,
    marks: bool,
}

fn is_dropped(fate: Fate, drops: bool) -> bool {
    drops && matches!(fate, Fate::Marked { colour: Colour::Red, .. })
}

/// A marked frame's record or block: the packet's bytes, and a block's lengths without the hashes among its options.
fn marked(bytes: &[u8], frame: &Frame, dscp: u8) -> Vec<u8> {
    let mut packet = bytes[frame.packet.clone()].to_vec();
    if let Some((start, header)) = packets::header_in(frame.link, &packet) {
        packets::mark(&mut packet[start..], &header, dscp);
    }
    let mut text = bytes[frame.whole.start..frame.packet.start].to_vec();
    text.extend_from_slice(&packet);
    let mut place = frame.packet.end;
    for (code, value) in captures::options_in(bytes, frame.options.clone(), frame.is_big) {
        if code == 3 {
            text.extend_from_slice(&bytes[place..value.start - 4]);
            place = value.start + value.len().div_ceil(4) * 4;
        }
    }
    text.extend_from_slice(&bytes[place..frame.whole.end]);
    if frame.is_block {
        let size = text.len() as u32;
        let word = if frame.is_big { size.to_be_bytes() } else { size.to_le_bytes() };
        let end = text.len();
        text[4..8].copy_from_slice(&word);
        text[end - 4..].copy_from_slice(&word);
    }
    text
}

/// Writes what `mark` writes, or the same frames as they were.
fn write_frames(bytes: &[u8], capture: &Capture, fates: &[Fate], rule: Rule, out: &mut impl Write) -> io::Result<()> {
    let mut place = 0;
    for (frame, fate) in capture.frames.iter().zip(fates) {
        out.write_all(&bytes[place..frame.whole.start])?;
        match fate {
            _ if is_dropped(*fate, rule.drops) => {}
            Fate::Marked { dscp, .. } if rule.marks => out.write_all(&marked(bytes, frame, *dscp))?,
            _ => out.write_all(&bytes[frame.whole.clone()])?,
        }
        place = frame.whole.end;
    }
    out.write_all(&bytes[place..capture.end])
}

/// Tells what `mark` tells.
fn tell_report(capture: &Capture, fates: &[Fate], drops: bool, out: &mut impl Write) -> io::Result<()> {
    let mut sums = [(0_u64, 0_u64); 3];
    let (mut skipped, mut unverified, mut records) = (0, 0, 0);
    for (frame, fate) in capture.frames.iter().zip(fates) {
        if frame.is_event {
            continue;
        }
        records += 1;
        match fate {
            Fate::Skipped => skipped += 1,
            Fate::Marked { colour, total, verified, .. } => {
                unverified += u32::from(!verified);
                let sum = &mut sums[*colour as usize];
                *sum = (sum.0 + 1, sum.1 + u64::from(*total));
            }
        }
    }
    let marked: u64 = sums.iter().map(|sum| sum.0).sum();
    writeln!(out, "records {records}\nmarked {marked}\nunmatched 0\nskipped {skipped}\nunverified {unverified}")?;
    writeln!(out, "dropped {}", if drops { sums[2].0 } else { 0 })?;
    for (name, sum) in ["green", "yellow", "red"].iter().zip(sums) {
        writeln!(out, "{name} {} {}", sum.0, sum.1)?;
    }
    if let Some(fault) = &capture.fault {
        writeln!(out, "dsedge: capture {fault}")?;
    }
    Ok(())
}

fn tell_frames(capture: &Capture, fates: &[Fate], drops: bool, out: &mut impl Write) -> io::Result<()> {
    for (place, (frame, fate)) in capture.frames.iter().zip(fates).enumerate() {
        match fate {
            _ if is_dropped(*fate, drops) => {}
            Fate::Marked { dscp, family, .. } => writeln!(out, "{} {dscp} {family}", place + 1)?,
            Fate::Skipped if frame.is_event => writeln!(out, "{} event", place + 1)?,
            Fate::Skipped => writeln!(out, "{} -", place + 1)?,
        }
    }
    Ok(())
}

fn tell_arrivals(bytes: &[u8], capture: &Capture, out: &mut impl Write) -> io::Result<()> {
    let mut newest = 0;
    for frame in &capture.frames {
        newest = newest.max(frame.stamp.unwrap_or(0));
        if let Some((_, header)) = packets::header_in(frame.link, &bytes[frame.packet.clone()]) {
            writeln!(out, "{newest} {} {}", header.total, domain::shown_anywhere(header.dscp))?;
        }
    }
    if let Some(fault) = &capture.fault {
        writeln!(out, "dsedge: capture {fault}")?;
    }
    Ok(())
}

/// The format, and the link types: those of packets, or the one of a classic capture's heading.
fn tell_format(bytes: &[u8], out: &mut impl Write) -> io::Result<()> {
    let Some(format) = captures::format_of(bytes) else {
        return Ok(());
    };
    let links: BTreeSet<u32> = if format == "pcapng" {
        captures::read(bytes).frames.iter().filter(|frame| !frame.is_event).map(|frame| frame.link).collect()
    } else if bytes.len() >= 24 {
        [captures::long(bytes, 20, format.contains("big")) & 0xffff].into()
    } else {
        BTreeSet::new()
    };
    let links: Vec<String> = links.iter().map(u32::to_string).collect();
    writeln!(out, "{format} {}", if links.is_empty() { "none".to_string() } else { links.join(",") })
}

/// Those of the files that begin as a capture does.
fn tell_captures(files: &[&str], out: &mut impl Write) -> io::Result<()> {
    for file in files {
        let mut magic = Vec::new();
        fs::File::open(file)?.take(4).read_to_end(&mut magic)?;
        if captures::format_of(&magic).is_some() {
            writeln!(out, "{file}")?;
        }
    }
    Ok(())
}

/// How many copies with harm there are of a capture.
const HARMS: usize = 16;

/// A capture with harm: the first is cut off at two thirds of its bytes, another has a changed byte at the front of one of
/// its records or blocks.
fn harmed(number: usize, bytes: &[u8], capture: &Capture) -> Vec<u8> {
    let mut bytes = bytes.to_vec();
    if number == 0 || capture.frames.is_empty() {
        bytes.truncate(bytes.len() * (2 + number) / (3 + number));
    } else {
        let frame = &capture.frames[number * 7919 % capture.frames.len()];
        let front = frame.packet.start - frame.whole.start;
        bytes[frame.whole.start + number * 5 % front.max(1)] ^= if number % 2 == 0 { 0x01 } else { 0xff };
    }
    bytes
}

/// Writes a file, by what writes it.
fn write_file(path: &str, write: impl FnOnce(&mut BufWriter<fs::File>) -> io::Result<()>) -> io::Result<()> {
    let mut out = BufWriter::new(fs::File::create(path)?);
    write(&mut out)?;
    out.flush()
}

/// Writes what has to be written and told of a capture and of its copies with harm.
fn write_all(bytes: &[u8], folder: &str) -> io::Result<()> {
    let capture = captures::read(bytes);
    let fates = fates_of(bytes, &capture);
    for (name, drops) in [("keep", false), ("drop", true)] {
        let file = |ending| format!("{folder}/{name}.{ending}");
        let rule = |marks| Rule { drops, marks };
        write_file(&file("wanted"), |out| write_frames(bytes, &capture, &fates, rule(true), out))?;
        write_file(&file("before"), |out| write_frames(bytes, &capture, &fates, rule(false), out))?;
        write_file(&file("told"), |out| tell_report(&capture, &fates, drops, out))?;
        write_file(&file("numbers"), |out| tell_frames(&capture, &fates, drops, out))?;
    }
    write_file(&format!("{folder}/arrivals.wanted"), |out| tell_arrivals(bytes, &capture, out))?;
    write_harms(bytes, &capture, folder)
}

/// Writes copies with harm, and what has to be written and told of them.
fn write_harms(bytes: &[u8], capture: &Capture, folder: &str) -> io::Result<()> {
    let (mut wanted, mut told) = (Vec::new(), Vec::new());
    for number in 0..HARMS {
        let bytes = harmed(number, bytes, capture);
        fs::write(format!("{folder}/harmed.{number}"), &bytes)?;
        let capture = captures::read(&bytes);
        let fates = fates_of(&bytes, &capture);
        write_frames(&bytes, &capture, &fates, Rule { drops: true, marks: true }, &mut wanted)?;
        tell_report(&capture, &fates, true, &mut told)?;
    }
    fs::write(format!("{folder}/harms.wanted"), wanted)?;
    fs::write(format!("{folder}/harms.told"), told)
}

fn main() -> ExitCode {
    let words: Vec<String> = env::args().skip(1).collect();
    let words: Vec<&str> = words.iter().map(String::as_str).collect();
    let mut out = BufWriter::new(io::stdout());
    let done = match words[..] {
        ["domain"] => out.write_all(domain::TEXT.as_bytes()),
        ["captures", ref files @ ..] => tell_captures(files, &mut out),
        ["all", file, folder] => fs::read(file).and_then(|bytes| {
            tell_format(&bytes, &mut out)?;
            write_all(&bytes, folder)
        }),
        _ => return ExitCode::from(2),
    };
    match done.and_then(|()| out.flush()) {
        Ok(()) => ExitCode::SUCCESS,
        Err(fault) => {
            eprintln!("judge: {fault}");
            ExitCode::from(4)
        }
    }
}
