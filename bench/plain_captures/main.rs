//! A plain reader of captures, to time the proved one by: it reads a capture in memory, over and over, as
//! `plain BYTES RECORDS PASSES`, and prints frames, bytes and a check number.

use std::env;
use std::process::ExitCode;

const PIECE: usize = 65_536;

const HEADING: [u8; 24] = [
    0xd4, 0xc3, 0xb2, 0xa1, 2, 0, 4, 0, 0, 0, 0, 0, 0, 0, 0, 0, 0xff, 0xff, 0, 0, 101, 0, 0, 0,
];

struct Frame {
    #[allow(dead_code)]
    head: [u8; 16],
    moment: u64,
    bytes: Vec<u8>,
}

#[derive(Clone, Copy)]
struct Heading {
    is_big: bool,
    scale: u64,
}

impl Heading {
    fn number(&self, bytes: &[u8]) -> u32 {
        let word = [bytes[0], bytes[1], bytes[2], bytes[3]];
        if self.is_big { u32::from_be_bytes(word) } else { u32::from_le_bytes(word) }
    }
}

fn heading_of(bytes: &[u8]) -> Option<Heading> {
    let (is_big, scale) = match bytes[..4] {
        [0xa1, 0xb2, 0xc3, 0xd4] => (true, 1_000),
        [0xd4, 0xc3, 0xb2, 0xa1] => (false, 1_000),
        [0xa1, 0xb2, 0x3c, 0x4d] => (true, 1),
        [0x4d, 0x3c, 0xb2, 0xa1] => (false, 1),
        _ => return None,
    };
    let heading = Heading { is_big, scale };
    matches!(heading.number(&bytes[20..]) & 0xffff, 1 | 101 | 228).then_some(heading)
}

#[derive(Default)]
struct Capture {
    heading: Option<Heading>,
    rest: Vec<u8>,
}

fn frame_of(heading: &Heading, record: &[u8]) -> Frame {
    Frame {
        head: record[..16].try_into().unwrap(),
        moment: u64::from(heading.number(record)) * 1_000_000_000 + u64::from(heading.number(&record[4..])) * heading.scale,
        bytes: record[16..].to_vec(),
    }
}

impl Capture {
    fn size(heading: &Heading, bytes: &[u8]) -> Option<usize> {
        if bytes.len() < 16 {
            return Some(16);
        }
        let captured = heading.number(&bytes[8..]);
        (captured <= 262_144).then_some(16 + captured as usize)
    }

    fn draw<'a>(&mut self, piece: &'a [u8], size: usize) -> &'a [u8] {
        let missing = size.saturating_sub(self.rest.len()).min(piece.len());
        self.rest.extend_from_slice(&piece[..missing]);
        &piece[missing..]
    }

    fn feed(&mut self, mut piece: &[u8], out: &mut Vec<Frame>) -> Option<()> {
        if self.heading.is_none() {
            piece = self.draw(piece, 24);
            if self.rest.len() < 24 {
                return Some(());
            }
            self.heading = Some(heading_of(&self.rest)?);
            self.rest.clear();
        }
        let heading = self.heading?;
        while !self.rest.is_empty() && !piece.is_empty() {
            let size = Self::size(&heading, &self.rest)?;
            piece = self.draw(piece, size);
            if self.rest.len() == Self::size(&heading, &self.rest)? {
                out.push(frame_of(&heading, &self.rest));
                self.rest.clear();
            }
        }
        loop {
            let size = Self::size(&heading, piece)?;
            if piece.len() < size {
                break;
            }
            let (record, after) = piece.split_at(size);
            out.push(frame_of(&heading, record));
            piece = after;
        }
        self.rest.extend_from_slice(piece);
        Some(())
    }
}

fn capture(bytes: u16, records: u32) -> Vec<u8> {
    let mut out = HEADING.to_vec();
    let packet = vec![0x45u8; usize::from(bytes)];
    for record in 0..records {
        out.extend_from_slice(&record.to_le_bytes());
        out.extend_from_slice(&0u32.to_le_bytes());
        out.extend_from_slice(&u32::from(bytes).to_le_bytes());
        out.extend_from_slice(&u32::from(bytes).to_le_bytes());
        out.extend_from_slice(&packet);
    }
    out
}

fn run(bytes: &[u8], passes: u16) -> Option<[u64; 3]> {
    let mut counts = [0u64; 3];
    let mut frames = Vec::new();
    for _ in 0..passes {
        let mut capture = Capture::default();
        for piece in bytes.chunks(PIECE) {
            capture.feed(piece, &mut frames)?;
            for frame in &frames {
                counts[0] = counts[0].wrapping_add(1);
                counts[1] = counts[1].wrapping_add(frame.bytes.len() as u64);
                counts[2] = counts[2].wrapping_add(frame.moment) ^ frame.bytes.last().map_or(0, |byte| u64::from(*byte));
            }
            frames.clear();
        }
        if !capture.rest.is_empty() {
            return None;
        }
    }
    Some(counts)
}

fn main() -> ExitCode {
    let words: Vec<String> = env::args().skip(1).collect();
    let [bytes, records, passes] = words.as_slice() else {
        return ExitCode::from(2);
    };
    let (Ok(bytes), Ok(records), Ok(passes)) = (bytes.parse(), records.parse(), passes.parse()) else {
        return ExitCode::from(2);
    };
    match run(&capture(bytes, records), passes) {
        Some([frames, bytes, check]) => {
            println!("{frames} {bytes} {check}");
            ExitCode::SUCCESS
        }
        None => ExitCode::from(2),
    }
}
