//! IPv4 packets in frames: where they start, what their headers say, and their marks.

#[derive(Clone, Copy)]
pub enum Link {
    Ethernet,
    Raw,
}

/// What a header says.
pub struct Header {
    pub total: u16,
    pub dscp: u8,
    pub protocol: u8,
    pub source: u32,
    pub target: u32,
    pub ports: Option<(u16, u16)>,
    pub verified: bool,
}

fn short(bytes: &[u8], place: usize) -> u16 {
    u16::from_be_bytes([bytes[place], bytes[place + 1]])
}

fn long(bytes: &[u8], place: usize) -> u32 {
    u32::from_be_bytes([bytes[place], bytes[place + 1], bytes[place + 2], bytes[place + 3]])
}

/// Where the packet starts: in an Ethernet frame behind at most two tags.
pub fn packet_start(link: Link, frame: &[u8]) -> Option<usize> {
    if let Link::Raw = link {
        return Some(0);
    }
    for place in [12, 16, 20] {
        match frame.get(place..place + 2)? {
            [0x08, 0x00] => return Some(place + 2),
            [0x81, 0x00] | [0x88, 0xa8] => {}
            _ => return None,
        }
    }
    None
}

/// The ones' complement sum of words, not all of which are 0.
fn folded(sum: u32) -> u16 {
    let once = (sum & 0xffff) + (sum >> 16);
    ((once & 0xffff) + (once >> 16)) as u16
}

fn is_verified(header: &[u8]) -> bool {
    folded(header.chunks_exact(2).map(|word| u32::from(short(word, 0))).sum()) == 0xffff
}

fn ports(packet: &[u8], length: usize, total: u16) -> Option<(u16, u16)> {
    let has_ports = matches!(packet[9], 6 | 17)
        && short(packet, 6) & 0x1fff == 0
        && length + 4 <= packet.len().min(usize::from(total));
    has_ports.then(|| (short(packet, length), short(packet, length + 2)))
}

/// The header of a packet, if it can be read.
pub fn header(packet: &[u8]) -> Option<Header> {
    if packet.len() < 20 || packet[0] >> 4 != 4 {
        return None;
    }
    let length = 4 * usize::from(packet[0] & 15);
    let total = short(packet, 2);
    if length < 20 || packet.len() < length || usize::from(total) < length {
        return None;
    }
    Some(Header {
        total,
        dscp: packet[1] >> 2,
        protocol: packet[9],
        source: long(packet, 12),
        target: long(packet, 16),
        ports: ports(packet, length, total),
        verified: is_verified(&packet[..length]),
    })
}

/// Puts a code point into a header, and brings its checksum up to it where that was right (RFC 1624).
pub fn mark(packet: &mut [u8], dscp: u8, verified: bool) {
    let before = short(packet, 0);
    packet[1] = dscp << 2 | packet[1] & 3;
    if verified {
        let sum = u32::from(!short(packet, 10)) + u32::from(!before) + u32::from(short(packet, 0));
        packet[10..12].copy_from_slice(&(!folded(sum)).to_be_bytes());
    }
}
