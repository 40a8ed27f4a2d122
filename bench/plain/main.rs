//! Plain Rust over std alone, for comparison: what `dsedge meter ..` and `dsedge envelope ..` do, with nothing proved,
//! as fast as I could write it.
//!
//! It reads the same lines, writes the same answers and the same fault lines, and ends with the same statuses. Where
//! no word is given, the first line of the input gives the words. Digits are read eight at a time, a piece is cut
//! behind its last line's end, so that no line is searched for its own, and each kind of meter has a loop of its own.

use std::env;
use std::io::{self, Read, Write};
use std::process::ExitCode;

/// The bit-nanoseconds of one token.
const TOKEN: u64 = 8_000_000_000;

/// The most arrivals that one run answers.
const MOST_ARRIVALS: u64 = 1 << 44;

/// The bytes that are read at once.
const PIECE: usize = 1 << 16;

/// The most bytes of a first line that gives the words.
const MOST_WORDS: usize = 1 << 16;

const MOST_MOMENT: u64 = (1 << 63) - 1;
const MOST_RATE: u64 = 10_000_000_000_000;

#[derive(Clone, Copy, PartialEq, Eq)]
enum Colour {
    Green,
    Yellow,
    Red,
}

impl Colour {
    fn line(self) -> &'static [u8] {
        match self {
            Colour::Green => b"green\n",
            Colour::Yellow => b"yellow\n",
            Colour::Red => b"red\n",
        }
    }
}

/// Why a run ends early.
enum Fault {
    Usage,
    Line(u64),
    Read,
    Write,
    Full,
}

impl Fault {
    fn status(&self) -> u8 {
        match self {
            Fault::Usage => 2,
            Fault::Line(_) => 3,
            Fault::Read | Fault::Write => 4,
            Fault::Full => 5,
        }
    }

    fn text(&self) -> String {
        match self {
            Fault::Usage => "dsedge: usage".to_string(),
            Fault::Line(number) => format!("dsedge: line {number}"),
            Fault::Read => "dsedge: read".to_string(),
            Fault::Write => "dsedge: write".to_string(),
            Fault::Full => "dsedge: full".to_string(),
        }
    }
}

/// A token bucket that is full at its meter's origin.
struct Bucket {
    rate: u64,
    size: u64,
    level: u64,
    /// The part of the next token that was given, in bit-nanoseconds.
    begun: u64,
}

impl Bucket {
    fn full(rate: u64, size: u64) -> Self {
        Bucket {
            rate,
            size,
            level: size,
            begun: 0,
        }
    }

    /// The tokens of a gap: in 64 bits where the bit-nanoseconds fit them.
    #[inline(always)]
    fn draw(&mut self, gap: u64) -> u64 {
        let bits = self.rate.checked_mul(gap).and_then(|bits| bits.checked_add(self.begun));
        if let Some(bits) = bits {
            self.begun = bits % TOKEN;
            bits / TOKEN
        } else {
            let bits = u128::from(self.rate) * u128::from(gap) + u128::from(self.begun);
            self.begun = (bits % u128::from(TOKEN)) as u64;
            u64::try_from(bits / u128::from(TOKEN)).unwrap_or(u64::MAX)
        }
    }

    /// Takes tokens in, and answers those that it has no room for.
    #[inline(always)]
    fn refill(&mut self, tokens: u64) -> u64 {
        let taken = tokens.min(self.size - self.level);
        self.level += taken;
        tokens - taken
    }

    #[inline(always)]
    fn fill(&mut self, gap: u64) {
        let tokens = self.draw(gap);
        self.refill(tokens);
    }

    /// Takes the tokens for so many bytes out, or none.
    #[inline(always)]
    fn take(&mut self, bytes: u64) -> bool {
        let enough = bytes <= self.level;
        if enough {
            self.level -= bytes;
        }
        enough
    }
}

/// What the three kinds of meters have.
struct Parts {
    aware: bool,
    newest: u64,
    committed: Bucket,
    other: Bucket,
}

impl Parts {
    /// The time since the newest moment, which becomes the later of the two.
    #[inline(always)]
    fn gap_to(&mut self, moment: u64) -> u64 {
        let used = self.newest.max(moment);
        let gap = used - self.newest;
        self.newest = used;
        gap
    }

    #[inline(always)]
    fn seen(&self, came: Colour) -> Colour {
        if self.aware {
            came
        } else {
            Colour::Green
        }
    }

    #[inline(always)]
    fn committed_or_excess(&mut self, bytes: u64, seen: Colour) -> Colour {
        if seen == Colour::Green && self.committed.take(bytes) {
            Colour::Green
        } else if seen != Colour::Red && self.other.take(bytes) {
            Colour::Yellow
        } else {
            Colour::Red
        }
    }
}

trait Meter {
    fn admit(&mut self, moment: u64, bytes: u64, came: Colour) -> Colour;
}

/// A single-rate three-colour meter (RFC 2697).
struct SrTcm(Parts);

impl Meter for SrTcm {
    #[inline(always)]
    fn admit(&mut self, moment: u64, bytes: u64, came: Colour) -> Colour {
        let gap = self.0.gap_to(moment);
        let tokens = self.0.committed.draw(gap);
        let surplus = self.0.committed.refill(tokens);
        self.0.other.refill(surplus);
        let seen = self.0.seen(came);
        self.0.committed_or_excess(bytes, seen)
    }
}

/// A two-rate three-colour meter (RFC 2698).
struct TrTcm(Parts);

impl Meter for TrTcm {
    #[inline(always)]
    fn admit(&mut self, moment: u64, bytes: u64, came: Colour) -> Colour {
        let gap = self.0.gap_to(moment);
        self.0.committed.fill(gap);
        self.0.other.fill(gap);
        let seen = self.0.seen(came);
        if seen == Colour::Red || !self.0.other.take(bytes) {
            Colour::Red
        } else if seen == Colour::Yellow || !self.0.committed.take(bytes) {
            Colour::Yellow
        } else {
            Colour::Green
        }
    }
}

/// A two-rate three-colour meter with a committed and an excess rate (RFC 4115).
struct Rfc4115(Parts);

impl Meter for Rfc4115 {
    #[inline(always)]
    fn admit(&mut self, moment: u64, bytes: u64, came: Colour) -> Colour {
        let gap = self.0.gap_to(moment);
        self.0.committed.fill(gap);
        self.0.other.fill(gap);
        let seen = self.0.seen(came);
        self.0.committed_or_excess(bytes, seen)
    }
}

/// The number that 1 to 20 decimal digits say.
fn number(text: &[u8]) -> Option<u64> {
    if text.is_empty() || text.len() > 20 {
        return None;
    }
    text.iter().try_fold(0u64, |value, byte| {
        let digit = byte.is_ascii_digit().then(|| u64::from(byte - b'0'))?;
        value.checked_mul(10)?.checked_add(digit)
    })
}

/// The number that up to eight digits at the front of a text say, and how many they are: eight bytes at a time.
#[inline(always)]
fn up_to_eight(head: [u8; 8]) -> (u64, u32) {
    // a byte that is no digit has its highest bit set in `others`
    let digits = u64::from_le_bytes(head) ^ 0x3030_3030_3030_3030;
    let others = (digits.wrapping_add(0x7676_7676_7676_7676) | digits) & 0x8080_8080_8080_8080;
    let count = others.trailing_zeros() / 8;
    if count == 0 {
        return (0, 0);
    }
    // the first digit stands lowest: zeros go before it, and then pairs, fours and eights are put together
    let digits = digits << (64 - 8 * count);
    let pairs = (digits.wrapping_mul(10).wrapping_add(digits >> 8)) & 0x00FF_00FF_00FF_00FF;
    let fours = (pairs.wrapping_mul(100).wrapping_add(pairs >> 16)) & 0x0000_FFFF_0000_FFFF;
    let eight = (fours.wrapping_mul(10_000).wrapping_add(fours >> 32)) & 0xFFFF_FFFF;
    (eight, count)
}

/// Ten to a power of up to 8.
const TENS: [u64; 9] = [1, 10, 100, 1_000, 10_000, 100_000, 1_000_000, 10_000_000, 100_000_000];

/// The number at the front of a text of lines, of at most `most`, and the text from behind its last digit on.
#[inline(always)]
fn leading(text: &[u8], most: u64) -> Option<(u64, &[u8])> {
    let Some(head) = text.first_chunk() else {
        return leading_slowly(text, most);
    };
    let (value, count) = up_to_eight(*head);
    if count < 8 {
        return (count > 0 && value <= most).then_some((value, &text[count as usize..]));
    }
    let Some(next) = text[8..].first_chunk() else {
        return leading_slowly(text, most);
    };
    let (more, count) = up_to_eight(*next);
    if count == 8 {
        return leading_slowly(text, most);
    }
    let value = value * TENS[count as usize] + more;
    (value <= most).then_some((value, &text[8 + count as usize..]))
}

/// The same, a digit at a time.
fn leading_slowly(text: &[u8], most: u64) -> Option<(u64, &[u8])> {
    let place = text.iter().position(|byte| !byte.is_ascii_digit())?;
    let value = number(&text[..place]).filter(|value| *value <= most)?;
    Some((value, &text[place..]))
}

/// A command that answers lines, each of which ends in LF.
trait Command {
    /// Reads the line at the front of `text`, of this number, answers it, and gives what stands behind it.
    fn line<'a>(&mut self, number: u64, text: &'a [u8], answers: &mut Vec<u8>) -> Result<&'a [u8], Fault>;

    /// Answers the end of the input, with this status.
    fn end(&mut self, answers: &mut Vec<u8>) -> u8;
}

/// Packets and bytes that left with one colour.
#[derive(Clone, Copy, Default)]
struct Account {
    packets: u64,
    bytes: u64,
}

struct MeterRun<M> {
    meter: M,
    accounts: [Account; 3],
}

/// The moment, the size and the colour of an arrival's line, and what stands behind it.
#[inline(always)]
fn arrival(text: &[u8]) -> Option<(u64, u64, Colour, &[u8])> {
    let (moment, text) = leading(text, MOST_MOMENT)?;
    let (bytes, text) = leading(text.strip_prefix(b" ")?, 65_535)?;
    let [b' ', letter, b'\n', rest @ ..] = text else {
        return None;
    };
    let came = match letter {
        b'g' => Colour::Green,
        b'y' => Colour::Yellow,
        b'r' => Colour::Red,
        _ => return None,
    };
    (bytes > 0).then_some((moment, bytes, came, rest))
}

impl<M: Meter> Command for MeterRun<M> {
    #[inline(always)]
    fn line<'a>(&mut self, number: u64, text: &'a [u8], answers: &mut Vec<u8>) -> Result<&'a [u8], Fault> {
        let (moment, bytes, came, rest) = arrival(text).ok_or(Fault::Line(number))?;
        if number > MOST_ARRIVALS {
            return Err(Fault::Full);
        }
        let left = self.meter.admit(moment, bytes, came);
        let account = &mut self.accounts[left as usize];
        account.packets += 1;
        account.bytes += bytes;
        answers.extend_from_slice(left.line());
        Ok(rest)
    }

    fn end(&mut self, answers: &mut Vec<u8>) -> u8 {
        for (name, Account { packets, bytes }) in ["green", "yellow", "red"].into_iter().zip(self.accounts) {
            let _ = writeln!(answers, "{name} {packets} {bytes}");
        }
        0
    }
}

/// A leaky bucket, with its level in bit-nanoseconds, and the first line at which it was over.
struct EnvelopeRun {
    rate: u64,
    limit: u128,
    level: u128,
    newest: u64,
    over: Option<u64>,
}

/// The moment and the size of a sized moment's line, and what stands behind it.
#[inline(always)]
fn sized(text: &[u8]) -> Option<(u64, u64, &[u8])> {
    let (moment, text) = leading(text, MOST_MOMENT)?;
    let (bytes, text) = leading(text.strip_prefix(b" ")?, 65_535)?;
    (bytes > 0).then_some((moment, bytes, text.strip_prefix(b"\n")?))
}

impl Command for EnvelopeRun {
    #[inline(always)]
    fn line<'a>(&mut self, number: u64, text: &'a [u8], _: &mut Vec<u8>) -> Result<&'a [u8], Fault> {
        let (moment, bytes, rest) = sized(text).ok_or(Fault::Line(number))?;
        let gap = moment.checked_sub(self.newest).ok_or(Fault::Line(number))?;
        self.newest = moment;
        if self.over.is_none() {
            let drained = u128::from(self.rate) * u128::from(gap);
            self.level = self.level.saturating_sub(drained) + u128::from(TOKEN) * u128::from(bytes);
            if self.level > self.limit {
                self.over = Some(number);
            }
        }
        Ok(rest)
    }

    fn end(&mut self, answers: &mut Vec<u8>) -> u8 {
        match self.over {
            None => {
                answers.extend_from_slice(b"kept\n");
                0
            }
            Some(number) => {
                let _ = writeln!(answers, "over {number}");
                1
            }
        }
    }
}

fn hand_over(answers: &mut Vec<u8>, output: &mut impl Write) -> Result<(), Fault> {
    let written = output.write_all(answers);
    answers.clear();
    written
        .and_then(|()| output.flush())
        .map_err(|_| Fault::Write)
}

/// Answers the whole input, and writes what is answered before each read.
fn answer(
    mut command: impl Command,
    answers: &mut Vec<u8>,
    input: &mut impl Read,
    output: &mut impl Write,
) -> Result<u8, Fault> {
    let mut buffer = vec![0; PIECE];
    let mut left = 0;
    let mut number = 0;
    loop {
        hand_over(answers, output)?;
        buffer.resize(left + PIECE, 0);
        let mut filled = left + input.read(&mut buffer[left..]).map_err(|_| Fault::Read)?;
        let is_last = filled == left;
        if is_last && left > 0 {
            buffer[left] = b'\n';
            filled += 1;
        }
        let end = buffer[..filled].iter().rposition(|byte| *byte == b'\n').map_or(0, |place| place + 1);
        let mut rest = &buffer[..end];
        while !rest.is_empty() {
            number += 1;
            rest = command.line(number, rest, answers)?;
        }
        if is_last {
            return Ok(command.end(answers));
        }
        buffer.copy_within(end..filled, 0);
        left = filled - end;
    }
}

/// The first line of the input.
fn first_line(input: &mut impl Read) -> Result<String, Fault> {
    let mut line = Vec::new();
    let mut byte = [0];
    while input.read(&mut byte).map_err(|_| Fault::Read)? == 1 && byte[0] != b'\n' {
        if line.len() == MOST_WORDS {
            return Err(Fault::Usage);
        }
        line.push(byte[0]);
    }
    String::from_utf8(line).map_err(|_| Fault::Usage)
}

/// The values of options that may be given once, as `--name VALUE` or `--name=VALUE`.
struct Options(Vec<(String, String)>);

impl Options {
    fn new(words: &[String], known: &[&str]) -> Option<Self> {
        let mut given: Vec<(String, String)> = Vec::new();
        let mut words = words.iter();
        while let Some(word) = words.next() {
            let name = word.strip_prefix("--")?;
            let (name, value) = match name.split_once('=') {
                Some((name, value)) => (name, value.to_string()),
                None => (name, words.next()?.clone()),
            };
            if !known.contains(&name) || given.iter().any(|(other, _)| other == name) {
                return None;
            }
            given.push((name.to_string(), value));
        }
        Some(Options(given))
    }

    fn text(&self, name: &str) -> Option<&str> {
        self.0
            .iter()
            .find(|(other, _)| other == name)
            .map(|(_, value)| value.as_str())
    }

    fn number(&self, name: &str, least: u64, most: u64) -> Option<u64> {
        number(self.text(name)?.as_bytes()).filter(|number| (least..=most).contains(number))
    }

    /// A bucket by the names of its rate and its size.
    fn bucket(&self, rate: &str, size: &str) -> Option<Bucket> {
        let size = self.number(size, 0, u64::from(u32::MAX))?;
        Some(Bucket::full(self.number(rate, 1, MOST_RATE)?, size))
    }

    /// What each meter has beside its other bucket.
    fn parts(&self, other: Bucket) -> Option<Parts> {
        Some(Parts {
            aware: match self.text("mode")? {
                "blind" => false,
                "aware" => true,
                _ => return None,
            },
            newest: match self.text("origin") {
                Some(_) => self.number("origin", 0, MOST_MOMENT)?,
                None => 0,
            },
            committed: self.bucket("cir", "cbs")?,
            other,
        })
    }
}

fn run_of<M>(meter: M) -> MeterRun<M> {
    MeterRun {
        meter,
        accounts: [Account::default(); 3],
    }
}

/// Answers by the meter that words ask for.
fn serve_meter(
    words: &[String],
    answers: &mut Vec<u8>,
    input: &mut impl Read,
    output: &mut impl Write,
) -> Result<u8, Fault> {
    let known = ["kind", "mode", "cir", "cbs", "ebs", "pir", "pbs", "eir", "origin"];
    let options = Options::new(words, &known).ok_or(Fault::Usage)?;
    match options.text("kind").ok_or(Fault::Usage)? {
        "srtcm" => {
            let excess = options.bucket("cir", "ebs").ok_or(Fault::Usage)?;
            let parts = options.parts(excess).ok_or(Fault::Usage)?;
            answer(run_of(SrTcm(parts)), answers, input, output)
        }
        "trtcm" => {
            let peak = options.bucket("pir", "pbs").ok_or(Fault::Usage)?;
            let parts = options.parts(peak).ok_or(Fault::Usage)?;
            answer(run_of(TrTcm(parts)), answers, input, output)
        }
        "rfc4115" => {
            let excess = options.bucket("eir", "ebs").ok_or(Fault::Usage)?;
            let parts = options.parts(excess).ok_or(Fault::Usage)?;
            answer(run_of(Rfc4115(parts)), answers, input, output)
        }
        _ => Err(Fault::Usage),
    }
}

/// Answers by the envelope that words ask for.
fn serve_envelope(
    words: &[String],
    answers: &mut Vec<u8>,
    input: &mut impl Read,
    output: &mut impl Write,
) -> Result<u8, Fault> {
    let options = Options::new(words, &["rate", "burst"]).ok_or(Fault::Usage)?;
    let rate = options.number("rate", 1, MOST_RATE).ok_or(Fault::Usage)?;
    let burst = options.number("burst", 0, u64::MAX).ok_or(Fault::Usage)?;
    let run = EnvelopeRun {
        rate,
        limit: u128::from(TOKEN) * u128::from(burst),
        level: 0,
        newest: 0,
        over: None,
    };
    answer(run, answers, input, output)
}

fn serve(input: &mut impl Read, output: &mut impl Write) -> Result<u8, Fault> {
    let mut words: Vec<String> = env::args().skip(1).collect();
    if words.is_empty() {
        words = first_line(input)?.split(' ').map(str::to_string).collect();
    }
    let (command, options) = words.split_first().ok_or(Fault::Usage)?;
    let mut answers = Vec::new();
    let answered = match command.as_str() {
        "meter" => serve_meter(options, &mut answers, input, output),
        "envelope" => serve_envelope(options, &mut answers, input, output),
        _ => Err(Fault::Usage),
    };
    hand_over(&mut answers, output)?;
    answered
}

fn main() -> ExitCode {
    match serve(&mut io::stdin().lock(), &mut io::stdout().lock()) {
        Ok(status) => ExitCode::from(status),
        Err(fault) => {
            eprintln!("{}", fault.text());
            ExitCode::from(fault.status())
        }
    }
}
