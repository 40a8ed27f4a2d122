//! The one domain that captures are marked by: its text, and what becomes of packets in it.

use crate::meters::{Colour, Kind, Meter};
use crate::packets::Header;

/// A port that takes every packet of both families: by the services of names, which are policed colour-blind, as UDP, TCP and the
/// rest are, each by a meter of another kind; ICMP is policed by its colours, and what SCTP sends is trusted.
pub const TEXT: &str = r#"version = 3

[[meter]]
name = "m"
kind = "trtcm"
cir = 1000000000
cbs = 1000000
pir = 2000000000
pbs = 2000000
skew = 0

[[port]]
name = "p"
skew = 0

[[link]]
from = "p"
to = "m"
floor = 0
jitter = 0

[[contract]]
name = "names"
kind = "srtcm"
port = "p"
path = ["m"]
class = 1
mode = "blind"
cir = 8000
cbs = 200
ebs = 200
protocol = 17
dport = [53, 53]

[[contract]]
name = "udp"
kind = "srtcm"
port = "p"
path = ["m"]
class = 2
mode = "blind"
cir = 16000
cbs = 1500
ebs = 3000
protocol = 17

[[contract]]
name = "tcp"
kind = "rfc4115"
port = "p"
path = ["m"]
class = 3
mode = "blind"
cir = 80000
cbs = 1500
eir = 40000
ebs = 3000
protocol = 6

[[contract]]
name = "icmp"
kind = "trtcm"
port = "p"
path = ["m"]
class = 4
mode = "aware"
cir = 8000
cbs = 100
pir = 16000
pbs = 300
protocol = 1

[[contract]]
name = "sctp"
kind = "trusted"
port = "p"
path = ["m"]
class = 2
cir = 8000
cbs = 1000
pir = 16000
pbs = 2000
protocol = 132

[[contract]]
name = "six"
kind = "trtcm"
port = "p"
path = ["m"]
class = 4
mode = "blind"
cir = 8000
cbs = 100
pir = 16000
pbs = 300
src = "::/0"

[[contract]]
name = "rest"
kind = "trtcm"
port = "p"
path = ["m"]
class = 1
mode = "blind"
cir = 8000
cbs = 200
pir = 16000
pbs = 400
"#;

/// The meters of the domain at work.
pub struct Domain {
    shared: Meter,
    edges: [Option<Meter>; 7],
}

/// The contract of a packet: the first whose rule holds.
fn contract_of(header: &Header) -> usize {
    match header.protocol {
        17 if matches!(header.ports, Some((_, 53))) => 0,
        17 => 1,
        6 => 2,
        1 => 3,
        132 => 4,
        _ if header.is_six => 5,
        _ => 6,
    }
}

const CLASSES: [u8; 7] = [1, 2, 3, 4, 2, 4, 1];

/// The colour that a code point shows in a class.
fn shown(class: u8, dscp: u8) -> Colour {
    match dscp.checked_sub(8 * class) {
        Some(2) => Colour::Green,
        Some(4) => Colour::Yellow,
        _ => Colour::Red,
    }
}

/// The code point of a class and a colour.
fn code_point(class: u8, colour: Colour) -> u8 {
    8 * class
        + match colour {
            Colour::Green => 2,
            Colour::Yellow => 4,
            Colour::Red => 6,
        }
}

impl Domain {
    pub fn new() -> Self {
        Domain {
            shared: Meter::new(Kind::TrTcm, true, 0, (1_000_000_000, 1_000_000), (2_000_000_000, 2_000_000)),
            edges: [
                Some(Meter::new(Kind::SrTcm, false, 0, (8_000, 200), (0, 200))),
                Some(Meter::new(Kind::SrTcm, false, 0, (16_000, 1_500), (0, 3_000))),
                Some(Meter::new(Kind::Rfc4115, false, 0, (80_000, 1_500), (40_000, 3_000))),
                Some(Meter::new(Kind::TrTcm, true, 0, (8_000, 100), (16_000, 300))),
                None,
                Some(Meter::new(Kind::TrTcm, false, 0, (8_000, 100), (16_000, 300))),
                Some(Meter::new(Kind::TrTcm, false, 0, (8_000, 200), (16_000, 400))),
            ],
        }
    }

    /// The colour and the code point with which a packet that is sent at a moment leaves.
    pub fn passes(&mut self, moment: u64, header: &Header) -> (Colour, u8) {
        let contract = contract_of(header);
        let class = CLASSES[contract];
        let mut colour = shown(class, header.dscp);
        if let Some(edge) = &mut self.edges[contract] {
            colour = edge.admit(moment, header.total, colour);
        }
        colour = self.shared.admit(moment, header.total, colour);
        (colour, code_point(class, colour))
    }
}

/// The colour of a packet's code point, whatever its class.
pub fn shown_anywhere(dscp: u8) -> char {
    match dscp {
        12 | 20 | 28 | 36 => 'y',
        14 | 22 | 30 | 38 => 'r',
        _ => 'g',
    }
}
