//! Packets of both families in frames: where they start, and what their headers say.

/// What a header says.
pub struct Header {
    pub is_six: bool,
    pub total: u16,
    pub dscp: u8,
    pub protocol: u8,
    pub ports: Option<(u16, u16)>,
    pub verified: bool,
    /// The bytes of an IPv4 header.
    pub length: usize,
}

/// What stands before a packet says of its family.
#[derive(Clone, Copy)]
enum Family {
    Four,
    Six,
    ByVersion,
}

fn short(bytes: &[u8], place: usize) -> u16 {
    u16::from_be_bytes([bytes[place], bytes[place + 1]])
}

/// Behind labels of four bytes, at most two.
fn behind_labels(frame: &[u8], place: usize) -> Option<usize> {
    for label in 0..2 {
        if frame.get(place + 4 * label + 2)? & 1 == 1 {
            return (place + 4 * label + 4 <= frame.len()).then_some(place + 4 * label + 4);
        }
    }
    None
}

/// Behind a type at a place of a frame, with what follows it from another place on.
fn behind_type(frame: &[u8], at: usize, then: usize) -> Option<(usize, Family)> {
    let (mut at, mut then) = (at, then);
    for _ in 0..3 {
        if frame.len() < at + 2 || frame.len() < then {
            return None;
        }
        match short(frame, at) {
            0x0800 => return Some((then, Family::Four)),
            0x86dd => return Some((then, Family::Six)),
            0x8864 => {
                if frame.len() < then + 8 {
                    return None;
                }
                return match short(frame, then + 6) {
                    0x0021 => Some((then + 8, Family::Four)),
                    0x0057 => Some((then + 8, Family::Six)),
                    _ => None,
                };
            }
            0x8847 => return behind_labels(frame, then).map(|place| (place, Family::ByVersion)),
            0x8100 | 0x88a8 => {
                at = then + 2;
                then += 4;
            }
            _ => return None,
        }
    }
    None
}

/// Where the packet starts in a frame of a link, and of which family it is.
fn packet_start(link: u32, frame: &[u8]) -> Option<(usize, Family)> {
    match link {
        1 => behind_type(frame, 12, 14),
        113 => behind_type(frame, 14, 16),
        276 => behind_type(frame, 0, 20),
        0 | 108 => match frame.get(..4)? {
            [2, 0, 0, 0] | [0, 0, 0, 2] => Some((4, Family::Four)),
            [number, 0, 0, 0] | [0, 0, 0, number] if matches!(*number, 24 | 28 | 30) => Some((4, Family::Six)),
            _ => None,
        },
        12 | 14 | 101 => Some((0, Family::ByVersion)),
        228 => Some((0, Family::Four)),
        229 => Some((0, Family::Six)),
        _ => None,
    }
}

fn header_of_four(packet: &[u8]) -> Option<Header> {
    if packet.len() < 20 || packet[0] >> 4 != 4 {
        return None;
    }
    let length = 4 * usize::from(packet[0] & 15);
    let total = short(packet, 2);
    if length < 20 || packet.len() < length || usize::from(total) < length {
        return None;
    }
    let mut sum: u32 = packet[..length].chunks_exact(2).map(|word| u32::from(short(word, 0))).sum();
    while sum > 0xffff {
        sum = (sum & 0xffff) + (sum >> 16);
    }
    let has_ports = matches!(packet[9], 6 | 17)
        && short(packet, 6) & 0x1fff == 0
        && length + 4 <= packet.len().min(usize::from(total));
    Some(Header {
        is_six: false,
        total,
        dscp: packet[1] >> 2,
        protocol: packet[9],
        ports: has_ports.then(|| (short(packet, length), short(packet, length + 2))),
        verified: sum == 0xffff,
        length,
    })
}

fn header_of_six(packet: &[u8]) -> Option<Header> {
    if packet.len() < 40 || packet[0] >> 4 != 6 {
        return None;
    }
    let payload = usize::from(short(packet, 4));
    if payload == 0 || payload > 65_495 {
        return None;
    }
    let packet = &packet[..packet.len().min(40 + payload)];
    let (mut number, mut place) = (packet[6], 40);
    let mut is_first = true;
    for _ in 0..8 {
        if !matches!(number, 0 | 43 | 44 | 60) || packet.len() < place + 8 {
            break;
        }
        let size = if number == 44 { 8 } else { 8 + 8 * usize::from(packet[place + 1]) };
        let is_later = number == 44 && short(packet, place + 2) >= 8;
        number = packet[place];
        place += size;
        if is_later {
            is_first = false;
            break;
        }
        if place > packet.len() {
            place = packet.len();
        }
    }
    let has_ports = is_first && matches!(number, 6 | 17) && place + 4 <= packet.len();
    Some(Header {
        is_six: true,
        total: (40 + payload) as u16,
        dscp: packet[0] << 2 & 0x3c | packet[1] >> 6,
        protocol: number,
        ports: has_ports.then(|| (short(packet, place), short(packet, place + 2))),
        verified: true,
        length: 40,
    })
}

/// Where a packet starts in a frame, and its header, if it can be read.
pub fn header_in(link: u32, frame: &[u8]) -> Option<(usize, Header)> {
    let (start, family) = packet_start(link, frame)?;
    let packet = &frame[start..];
    let header = match family {
        Family::Four => header_of_four(packet),
        Family::Six => header_of_six(packet),
        Family::ByVersion => match packet.first()? >> 4 {
            4 => header_of_four(packet),
            6 => header_of_six(packet),
            _ => None,
        },
    };
    header.map(|header| (start, header))
}

/// Puts a code point into a packet, and the checksum anew over all of an IPv4 header, where it was right.
pub fn mark(packet: &mut [u8], header: &Header, dscp: u8) {
    if header.is_six {
        packet[0] = packet[0] & 0xf0 | dscp >> 2;
        packet[1] = packet[1] & 0x3f | dscp << 6;
        return;
    }
    packet[1] = dscp << 2 | packet[1] & 3;
    if header.verified {
        packet[10..12].fill(0);
        let mut sum: u32 = packet[..header.length].chunks_exact(2).map(|word| u32::from(short(word, 0))).sum();
        while sum > 0xffff {
            sum = (sum & 0xffff) + (sum >> 16);
        }
        packet[10..12].copy_from_slice(&(!(sum as u16)).to_be_bytes());
    }
}
