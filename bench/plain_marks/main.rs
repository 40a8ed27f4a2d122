//! Plain Rust over std alone, for comparison: what `dsedge mark` does, with nothing proved. It writes the same marked capture and
//! tells the same report: `plain DOMAIN PORT RED [WORKERS] < in.pcap > out.pcap`, where red frames are `keep` or `drop`, by one
//! thread or by so many.
//!
//! The domain has to be good, with a key on each line; no certificate is read. It reads pieces of 64 KiB, puts the visits of a
//! piece in order together, marks frames where they stand, and writes them once no later record can change them.

mod captures;
mod domains;
mod lanes;
mod meters;
mod packets;
mod traffic;

use captures::Heading;
use std::env;
use std::fs;
use std::fs::File;
use std::io::{self, BufWriter, Read, Write};
use std::os::fd::AsFd;
use std::process::ExitCode;
use traffic::{Report, Traffic};

/// The most bytes that are read at once.
const PIECE: usize = 65_536;

/// Why a run ends early.
enum Fault {
    Usage,
    Domain,
    Capture,
    Device(io::Error),
}

impl Fault {
    fn status(&self) -> u8 {
        match self {
            Fault::Usage => 2,
            Fault::Domain | Fault::Capture => 3,
            Fault::Device(_) => 4,
        }
    }

    fn text(&self) -> String {
        match self {
            Fault::Usage => "plain: DOMAIN PORT keep|drop [WORKERS]".to_string(),
            Fault::Domain => "plain: the domain".to_string(),
            Fault::Capture => "plain: the capture".to_string(),
            Fault::Device(fault) => format!("plain: {fault}"),
        }
    }
}

impl From<io::Error> for Fault {
    fn from(fault: io::Error) -> Self {
        Fault::Device(fault)
    }
}

/// Whether red frames are dropped.
fn drops(word: &str) -> Option<bool> {
    match word {
        "keep" => Some(false),
        "drop" => Some(true),
        _ => None,
    }
}

/// Marks a capture: whether it ended with a whole record, and what is told of it.
fn mark(mut traffic: Traffic, mut input: impl Read, mut out: impl Write) -> Result<(bool, Report), Fault> {
    let mut is_good = true;
    while is_good {
        let size = input.read(traffic.room(PIECE))?;
        if size == 0 {
            break;
        }
        is_good = traffic.take(size, &mut out)?;
    }
    traffic.finish(&mut out)?;
    Ok((is_good && !traffic.is_cut(), traffic.into_report()))
}

fn serve(words: &[String]) -> Result<(), Fault> {
    let (domain, port, red, workers) = match words {
        [domain, port, red] => (domain, port, red, Some(1)),
        [domain, port, red, workers] => (domain, port, red, workers.parse().ok()),
        _ => return Err(Fault::Usage),
    };
    let workers = workers.filter(|workers| (1..=64).contains(workers)).ok_or(Fault::Usage)?;
    let drops = drops(red).ok_or(Fault::Usage)?;
    let text = fs::read_to_string(domain)?;
    let domain = domains::domain(&text, port).ok_or(Fault::Domain)?;
    let mut input = File::from(io::stdin().as_fd().try_clone_to_owned()?);
    let mut out = BufWriter::with_capacity(PIECE, File::from(io::stdout().as_fd().try_clone_to_owned()?));
    let mut head = [0; Heading::SIZE];
    input.read_exact(&mut head).map_err(|_| Fault::Capture)?;
    let heading = Heading::of(&head).ok_or(Fault::Capture)?;
    out.write_all(&head)?;
    let (is_whole, report) = if workers == 1 {
        mark(Traffic::new(domain, heading, drops), input, out)?
    } else {
        lanes::mark(domain, heading, drops, workers, input, out)?
    };
    eprint!("{}", report.text());
    if is_whole { Ok(()) } else { Err(Fault::Capture) }
}

fn main() -> ExitCode {
    let words: Vec<String> = env::args().skip(1).collect();
    match serve(&words) {
        Ok(()) => ExitCode::SUCCESS,
        Err(fault) => {
            eprintln!("{}", fault.text());
            ExitCode::from(fault.status())
        }
    }
}
