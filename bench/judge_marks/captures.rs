//! Captures of both formats, whole in memory: their packets, and the first fault.

use std::ops::Range;

/// The most captured bytes of a classic record.
const MOST_CAPTURED: usize = 262_144;

/// The most bytes of a block.
const MOST_BLOCK: usize = 16_777_216;

/// A record, or a block with a packet: what stands of it in the file, and where its packet's bytes stand.
pub struct Frame {
    pub whole: Range<usize>,
    pub packet: Range<usize>,
    /// The stamp in nanoseconds, where there is one.
    pub stamp: Option<u64>,
    pub link: u32,
    /// Where its options stand, of a block that has some.
    pub options: Range<usize>,
    /// Of a block, whether its numbers have their higher bytes first.
    pub is_big: bool,
    pub is_block: bool,
    /// Whether tshark counts it as a frame, though it is no packet.
    pub is_event: bool,
}

/// What stands in a capture: the bytes before its first frame, the frames, where the last that was read ends, and the fault.
pub struct Capture {
    pub frames: Vec<Frame>,
    pub end: usize,
    pub fault: Option<String>,
}

/// The format of a file, by its first four bytes.
pub fn format_of(bytes: &[u8]) -> Option<&'static str> {
    match bytes.get(..4)? {
        [0xa1, 0xb2, 0xc3, 0xd4] => Some("pcap-big-us"),
        [0xd4, 0xc3, 0xb2, 0xa1] => Some("pcap-little-us"),
        [0xa1, 0xb2, 0x3c, 0x4d] => Some("pcap-big-ns"),
        [0x4d, 0x3c, 0xb2, 0xa1] => Some("pcap-little-ns"),
        [0x0a, 0x0d, 0x0d, 0x0a] => Some("pcapng"),
        _ => None,
    }
}

/// A number of four bytes.
pub fn long(bytes: &[u8], place: usize, is_big: bool) -> u32 {
    let word = [bytes[place], bytes[place + 1], bytes[place + 2], bytes[place + 3]];
    if is_big {
        u32::from_be_bytes(word)
    } else {
        u32::from_le_bytes(word)
    }
}

/// A number of two bytes.
pub fn short(bytes: &[u8], place: usize, is_big: bool) -> u16 {
    let word = [bytes[place], bytes[place + 1]];
    if is_big {
        u16::from_be_bytes(word)
    } else {
        u16::from_le_bytes(word)
    }
}

/// The link types that are read.
pub fn is_read(link: u32) -> bool {
    matches!(link, 0 | 1 | 12 | 14 | 101 | 108 | 113 | 228 | 229 | 276)
}

pub fn read(bytes: &[u8]) -> Capture {
    match format_of(bytes) {
        Some("pcapng") => read_blocks(bytes),
        Some(format) => read_records(bytes, format.contains("big"), format.contains("us")),
        None => Capture {
            frames: Vec::new(),
            end: 0,
            fault: Some(if bytes.len() < 4 { "6 Truncated" } else { "1 NotPcap" }.to_string()),
        },
    }
}

fn read_records(bytes: &[u8], is_big: bool, is_micro: bool) -> Capture {
    let mut capture = Capture { frames: Vec::new(), end: 0, fault: None };
    capture.fault = walk_records(bytes, is_big, is_micro, &mut capture).err().map(str::to_string);
    capture
}

fn walk_records(bytes: &[u8], is_big: bool, is_micro: bool, capture: &mut Capture) -> Result<(), &'static str> {
    if bytes.len() < 24 {
        return Err("6 Truncated");
    }
    if (short(bytes, 4, is_big), short(bytes, 6, is_big)) != (2, 4) {
        return Err("3 BadVersion");
    }
    let link = long(bytes, 20, is_big) & 0xffff;
    if !is_read(link) {
        return Err("4 LinkType");
    }
    capture.end = 24;
    while capture.end < bytes.len() {
        let start = capture.end;
        if bytes.len() - start < 16 {
            return Err("6 Truncated");
        }
        let captured = long(bytes, start + 8, is_big) as usize;
        if captured > MOST_CAPTURED {
            return Err("5 RecordTooLong");
        }
        let end = start + 16 + captured;
        if end > bytes.len() {
            return Err("6 Truncated");
        }
        let (seconds, fraction) = (u64::from(long(bytes, start, is_big)), u64::from(long(bytes, start + 4, is_big)));
        capture.frames.push(Frame {
            whole: start..end,
            packet: start + 16..end,
            stamp: Some(seconds * 1_000_000_000 + fraction * if is_micro { 1_000 } else { 1 }),
            link,
            options: end..end,
            is_big,
            is_block: false,
            is_event: false,
        });
        capture.end = end;
    }
    Ok(())
}

/// An interface of a section: its link type, its snap length, the units of a second, and what is added to its seconds.
struct Interface {
    link: u32,
    snap: usize,
    resolution: u8,
    offset: i64,
}

/// A code, and where its value stands.
type Choice = (u16, Range<usize>);

/// The options that stand in these bytes of a file.
pub fn options_in(bytes: &[u8], within: Range<usize>, is_big: bool) -> Vec<Choice> {
    let mut options = Vec::new();
    let mut place = within.start;
    while within.end - place >= 4 {
        let code = short(bytes, place, is_big);
        let size = usize::from(short(bytes, place + 2, is_big));
        let next = place + 4 + size.div_ceil(4) * 4;
        if code == 0 || next > within.end {
            break;
        }
        options.push((code, place + 4..place + 4 + size));
        place = next;
    }
    options
}

fn interface_of(bytes: &[u8], block: &Range<usize>, is_big: bool) -> Interface {
    let mut interface = Interface {
        link: u32::from(short(bytes, block.start + 8, is_big)),
        snap: long(bytes, block.start + 12, is_big) as usize,
        resolution: 6,
        offset: 0,
    };
    let options = options_in(bytes, block.start + 16..block.end - 4, is_big);
    if let Some((_, value)) = options.iter().find(|(code, value)| *code == 9 && value.len() == 1) {
        interface.resolution = bytes[value.start];
    }
    if let Some((_, value)) = options.iter().find(|(code, value)| *code == 14 && value.len() == 8) {
        let word: [u8; 8] = bytes[value.clone()].try_into().unwrap();
        interface.offset = if is_big { i64::from_be_bytes(word) } else { i64::from_le_bytes(word) };
    }
    interface
}

/// A stamp in nanoseconds: rounded down, from 0 to 2^63 - 1.
fn moment_of(interface: &Interface, units: u64) -> u64 {
    let scaled = u128::from(units) * 1_000_000_000;
    let nanoseconds = match interface.resolution {
        binary @ 128.. => scaled >> (binary - 128),
        // 10^38 is the most that fits, and beyond 10^29 nothing is left
        decimal => scaled / 10_u128.pow(u32::from(decimal.min(38))),
    };
    let moment = nanoseconds as i128 + i128::from(interface.offset) * 1_000_000_000;
    moment.clamp(0, i128::from(i64::MAX)) as u64
}

fn read_blocks(bytes: &[u8]) -> Capture {
    let mut capture = Capture { frames: Vec::new(), end: 0, fault: None };
    capture.fault = walk_blocks(bytes, &mut capture).err().map(str::to_string);
    capture
}

const SECTION: u32 = 0x0a0d_0d0a;

fn fewest_bytes(kind: u32) -> usize {
    match kind {
        SECTION => 28,
        1 => 20,
        6 | 2 => 32,
        3 => 16,
        _ => 12,
    }
}

fn walk_blocks(bytes: &[u8], capture: &mut Capture) -> Result<(), &'static str> {
    let mut is_big = false;
    let mut interfaces: Vec<Interface> = Vec::new();
    while capture.end < bytes.len() {
        let start = capture.end;
        if bytes.len() - start < 12 {
            return Err("6 Truncated");
        }
        let is_section = bytes[start..start + 4] == SECTION.to_be_bytes();
        if is_section {
            is_big = match bytes[start + 8..start + 12] {
                [0x1a, 0x2b, 0x3c, 0x4d] => true,
                [0x4d, 0x3c, 0x2b, 0x1a] => false,
                _ => return Err("11 BadMagic"),
            };
        } else if start == 0 {
            return Err("11 BadMagic");
        }
        let kind = long(bytes, start, is_big);
        let size = long(bytes, start + 4, is_big) as usize;
        if size > MOST_BLOCK {
            return Err("13 BlockTooLong");
        }
        if size % 4 != 0 || size < fewest_bytes(kind) {
            return Err("12 BadLength");
        }
        let end = start + size;
        if end > bytes.len() {
            return Err("6 Truncated");
        }
        if long(bytes, end - 4, is_big) as usize != size {
            return Err("14 LengthsDiffer");
        }
        let block = start..end;
        match kind {
            SECTION => {
                if short(bytes, start + 12, is_big) != 1 {
                    return Err("3 BadVersion");
                }
                interfaces.clear();
            }
            1 => interfaces.push(interface_of(bytes, &block, is_big)),
            2 | 3 | 6 => capture.frames.push(packet_of(bytes, block, kind, is_big, &interfaces)?),
            // what tshark counts as frames beside packets: a journal's entries and a system's events
            9 | 0x204 | 0x208 | 0x216 | 0x217 | 0x221 | 0x223 => capture.frames.push(Frame {
                whole: block,
                packet: end..end,
                stamp: None,
                link: u32::MAX,
                options: end..end,
                is_big,
                is_block: true,
                is_event: true,
            }),
            _ => {}
        }
        capture.end = end;
    }
    if bytes.is_empty() {
        Err("6 Truncated")
    } else {
        Ok(())
    }
}

fn packet_of(
    bytes: &[u8],
    block: Range<usize>,
    kind: u32,
    is_big: bool,
    interfaces: &[Interface],
) -> Result<Frame, &'static str> {
    let start = block.start;
    let body = if kind == 3 { start + 12 } else { start + 28 };
    let room = block.end - 4 - body;
    let index = match kind {
        3 => 0,
        2 => usize::from(short(bytes, start + 8, is_big)),
        _ => long(bytes, start + 8, is_big) as usize,
    };
    let captured = match kind {
        3 => {
            let original = long(bytes, start + 8, is_big) as usize;
            let snap = interfaces.first().map_or(0, |interface| interface.snap);
            original.min(if snap == 0 { original } else { snap }).min(room)
        }
        _ => long(bytes, start + 20, is_big) as usize,
    };
    if captured > room {
        return Err("12 BadLength");
    }
    let interface = interfaces.get(index).ok_or("15 UnknownInterface")?;
    let units = u64::from(long(bytes, start + 12, is_big)) << 32
        | u64::from(long(bytes, start + 16 - usize::from(kind == 3) * 4, is_big));
    let behind = (body + captured.div_ceil(4) * 4).min(block.end - 4);
    Ok(Frame {
        packet: body..body + captured,
        stamp: (kind != 3).then(|| moment_of(interface, units)),
        link: interface.link,
        options: if kind == 3 { behind..behind } else { behind..block.end - 4 },
        whole: block,
        is_big,
        is_block: true,
        is_event: false,
    })
}
