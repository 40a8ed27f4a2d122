//! Plain Rust over std alone, as a judge: whether a broker whose book stands in a damaged file, or on a disk that
//! fails or is full, ever answers with a book that was not sold, or lacks a command that it answered.
//!
//!     judge bytes PROGRAM DOMAIN COMMANDS FOLDER STEP AT_ONCE     each byte of a book's file, and each STEP-th of its log, changed
//!     judge calls PROGRAM DOMAIN COMMANDS FOLDER                  each call of the system on a book's files fails in turn, by strace
//!     judge copying PROGRAM DOMAIN COMMANDS FOLDER                those that copy the log into the file amid the sale do
//!     judge full PROGRAM DOMAIN COMMANDS FOLDER STEP END          tmpfs of 0, STEP, .. END KiB, which FOLDER may mount
//!
//! COMMANDS is a file with one command a line. Ends with status 1 where anything is wrong.

use std::collections::BTreeMap;
use std::fs;
use std::io::{self, BufRead, BufReader, Read, Write};
use std::path::{Path, PathBuf};
use std::process::{Child, Command, ExitCode, ExitStatus, Stdio};
use std::sync::atomic::{AtomicUsize, Ordering};
use std::sync::Mutex;
use std::thread;

type Counts = BTreeMap<String, usize>;

/// What asks for all that a book shows.
const SIGHT: &str = "list\nlook\n";

/// The program, its domain, and the commands that it is given.
struct Trial {
    program: String,
    domain: String,
    commands: Vec<String>,
}

/// How a run ended, with what it wrote and told.
struct Run {
    status: Option<i32>,
    answer: String,
    told: String,
}

/// What stands in the book after so many accepted commands: what it shows, and the rows of its file, by their number.
struct Truth {
    sights: Vec<String>,
    rows: Vec<String>,
}

/// The words of a run, which has a minute.
fn limited(program: &str) -> Command {
    let mut command = Command::new("timeout");
    command.args(["-k", "5", "60", program]);
    command
}

impl Trial {
    fn run(&self, book: Option<&Path>, input: &str) -> io::Result<Run> {
        let mut command = limited(&self.program);
        command.args(["drive", &self.domain, "--commands", "16777216"]);
        if let Some(book) = book {
            command.arg("--book").arg(book);
        }
        let mut child = command.stdin(Stdio::piped()).stdout(Stdio::piped()).stderr(Stdio::piped()).spawn()?;
        // one that is refused at once reads nothing
        let _ = child.stdin.take().unwrap().write_all(input.as_bytes());
        let output = child.wait_with_output()?;
        Ok(Run {
            status: output.status.code(),
            answer: String::from_utf8_lossy(&output.stdout).into_owned(),
            told: String::from_utf8_lossy(&output.stderr).into_owned(),
        })
    }

    /// What a book without a file shows after each accepted command, and the rows of a file after all.
    fn truth(&self, folder: &Path) -> io::Result<Truth> {
        let mut sights = Vec::new();
        let mut prefix = String::new();
        for place in 0..=self.commands.len() {
            let before = self.run(None, &prefix)?.answer.len();
            let sight = self.run(None, &format!("{prefix}{SIGHT}"))?.answer.split_off(before);
            if sights.last() != Some(&sight) {
                sights.push(sight);
            }
            if let Some(command) = self.commands.get(place) {
                prefix += command;
                prefix.push('\n');
            }
        }
        let room = fresh(folder, "truth")?;
        self.run(Some(&room.join("book")), &prefix)?;
        Ok(Truth { sights, rows: rows_of(&room)? })
    }

    /// Starts a broker, under strace where that has words.
    fn broker(&self, book: &Path, strace: &[String]) -> io::Result<Broker> {
        let mut command = if strace.is_empty() { Command::new(&self.program) } else { limited("strace") };
        if !strace.is_empty() {
            command.args(strace).arg(&self.program);
        }
        command.args(["drive", &self.domain, "--commands", "16777216", "--book"]).arg(book);
        let mut child = command.stdin(Stdio::piped()).stdout(Stdio::piped()).stderr(Stdio::piped()).spawn()?;
        let lines = BufReader::new(child.stdout.take().unwrap());
        Ok(Broker { child, lines, accepted: 0 })
    }
}

/// A broker that is given one command after the other.
struct Broker {
    child: Child,
    lines: BufReader<std::process::ChildStdout>,
    accepted: usize,
}

impl Broker {
    /// Gives commands, each once the one before is answered; false where it ended.
    fn sells(&mut self, commands: &[String]) -> bool {
        let mut input = self.child.stdin.take().unwrap();
        for command in commands {
            let mut line = String::new();
            if writeln!(input, "{command}").is_err()
                || self.lines.read_line(&mut line).is_err()
                || !line.ends_with('\n')
            {
                return false;
            }
            if ["granted ", "released ", "retired "].iter().any(|word| line.starts_with(word)) {
                self.accepted += 1;
            }
        }
        self.child.stdin = Some(input);
        true
    }

    fn kills(mut self) -> io::Result<usize> {
        self.child.kill()?;
        self.child.wait()?;
        Ok(self.accepted)
    }

    fn ends(mut self) -> io::Result<(usize, ExitStatus, String)> {
        drop(self.child.stdin.take());
        let mut rest = String::new();
        let _ = self.lines.read_to_string(&mut rest);
        let mut told = String::new();
        let _ = self.child.stderr.take().unwrap().read_to_string(&mut told);
        Ok((self.accepted, self.child.wait()?, told))
    }
}

/// A folder of this name with nothing in it.
fn fresh(folder: &Path, name: &str) -> io::Result<PathBuf> {
    let room = folder.join(name);
    let _ = fs::remove_dir_all(&room);
    fs::create_dir_all(&room)?;
    Ok(room)
}

fn sqlite3(book: &Path, query: &str) -> io::Result<String> {
    let output = Command::new("sqlite3").arg(book).arg(query).stdin(Stdio::null()).output()?;
    Ok(String::from_utf8_lossy(&output.stdout).into_owned() + &String::from_utf8_lossy(&output.stderr))
}

/// A copy of a book and its log in a folder beside, since sqlite3 moves what stands in the log.
fn copied(room: &Path) -> io::Result<PathBuf> {
    let copy = fresh(room, "copy")?;
    for name in ["book", "book-wal"] {
        if room.join(name).exists() {
            fs::copy(room.join(name), copy.join(name))?;
        }
    }
    Ok(copy.join("book"))
}

/// The rows of a book's file, as sqlite3 reads them.
fn rows_of(room: &Path) -> io::Result<Vec<String>> {
    let shown = sqlite3(&copied(room)?, "select * from command order by serial")?;
    Ok(shown.lines().map(str::to_string).collect())
}

/// What a line of standard error says of a book, if it says a fault of one.
fn fault_of(run: &Run) -> Option<String> {
    let fault = run.told.strip_prefix("dsedge: book ")?.trim_end();
    let fits = match fault {
        "Busy" | "Open" | "Write" => run.status == Some(4),
        _ => run.status == Some(3),
    };
    (fits && run.answer.is_empty()).then(|| fault.to_string())
}

/// After how many commands a book shows what it does, and its file has these rows; or what is wrong.
fn place_of(truth: &Truth, run: &Run, room: &Path) -> io::Result<Result<usize, String>> {
    let Some(place) = truth.sights.iter().position(|sight| *sight == run.answer) else {
        return Ok(Err(format!("status {:?}, answered {:?}, told {:?}", run.status, run.answer, run.told)));
    };
    let rows = rows_of(room)?;
    if run.status != Some(0) || !run.told.is_empty() || rows.len() != place || rows != truth.rows[..place] {
        return Ok(Err(format!("status {:?}, told {:?}, rows {rows:?}", run.status, run.told)));
    }
    Ok(Ok(place))
}

/// The two files of a book as one broker left them.
struct Files {
    what: &'static str,
    book: Vec<u8>,
    log: Vec<u8>,
}

/// A book that a broker closed, and one whose broker was killed.
fn books(trial: &Trial, folder: &Path) -> io::Result<[Files; 2]> {
    let take = |what, room: &Path| -> io::Result<Files> {
        Ok(Files { what, book: fs::read(room.join("book"))?, log: fs::read(room.join("book-wal"))? })
    };
    let closed = fresh(folder, "closed")?;
    let mut broker = trial.broker(&closed.join("book"), &[])?;
    broker.sells(&trial.commands);
    broker.ends()?;
    let killed = fresh(folder, "killed")?;
    let mut broker = trial.broker(&killed.join("book"), &[])?;
    broker.sells(&trial.commands);
    broker.kills()?;
    Ok([take("closed", &closed)?, take("killed", &killed)?])
}

/// What comes of one byte that is changed, in words.
fn try_byte(
    trial: &Trial,
    truth: &Truth,
    files: &Files,
    is_log: bool,
    place: usize,
    change: u8,
    room: &Path,
) -> io::Result<String> {
    let (mut book, mut log) = (files.book.clone(), files.log.clone());
    if is_log {
        log[place] ^= change
    } else {
        book[place] ^= change
    }
    fs::write(room.join("book"), book)?;
    fs::write(room.join("book-wal"), log)?;
    let run = trial.run(Some(&room.join("book")), SIGHT)?;
    if let Some(fault) = fault_of(&run) {
        return Ok(format!("told {fault}"));
    }
    let all = truth.sights.len() - 1;
    Ok(match place_of(truth, &run, room)? {
        Ok(shown) if shown == all => "all that was sold".to_string(),
        Ok(shown) if !is_log => format!("WRONG: what was sold by command {shown} of {all}"),
        Ok(shown) => format!("what was sold by command {shown} of {all}"),
        Err(why) => format!("WRONG: {why}"),
    })
}

fn try_bytes(trial: &Trial, folder: &Path, step: usize, at_once: usize) -> io::Result<bool> {
    let truth = trial.truth(folder)?;
    let mut is_good = true;
    for files in books(trial, folder)? {
        for is_log in [false, true] {
            let size = if is_log { files.log.len() } else { files.book.len() };
            let step = if is_log { step } else { 1 };
            let next = AtomicUsize::new(0);
            let counts: Mutex<(Counts, Vec<String>, Vec<(usize, u8)>)> = Mutex::default();
            thread::scope(|scope| {
                for thread in 0..at_once {
                    let (next, counts, truth, files) = (&next, &counts, &truth, &files);
                    scope.spawn(move || -> io::Result<()> {
                        let room = fresh(folder, &format!("room-{thread}"))?;
                        loop {
                            let turn = next.fetch_add(1, Ordering::Relaxed);
                            let (place, change) = (turn / 2 * step, [0x01, 0xff][turn % 2]);
                            if place >= size {
                                return Ok(());
                            }
                            let what = try_byte(trial, truth, files, is_log, place, change, &room)?;
                            let mut counts = counts.lock().unwrap();
                            if what.starts_with("WRONG") {
                                counts.1.push(format!("byte {place} by {change:#x}: {what}"));
                            } else {
                                if what == "all that was sold" && !is_log {
                                    counts.2.push((place, change));
                                }
                                *counts.0.entry(what).or_default() += 1;
                            }
                        }
                    });
                }
            });
            let (counts, wrong, kept) = counts.into_inner().unwrap();
            let name = if is_log { "log" } else { "file" };
            println!(
                "{} {name}, {size} bytes: {} changes, {} wrong",
                files.what,
                counts.values().sum::<usize>() + wrong.len(),
                wrong.len()
            );
            for (what, count) in &counts {
                println!("    {count} {what}");
            }
            let mut kept: Vec<usize> = kept.into_iter().map(|(place, _)| place).collect();
            kept.sort_unstable();
            kept.dedup();
            if !kept.is_empty() {
                println!("    bytes that may change: {}", ranges(&kept));
            }
            for line in &wrong {
                println!("    {line}");
            }
            is_good &= wrong.is_empty();
        }
    }
    Ok(is_good)
}

/// Numbers that rise, as ranges.
fn ranges(numbers: &[usize]) -> String {
    let mut texts: Vec<(usize, usize)> = Vec::new();
    for number in numbers {
        match texts.last_mut() {
            Some((_, end)) if *end + 1 == *number => *end = *number,
            _ => texts.push((*number, *number)),
        }
    }
    let texts: Vec<String> = texts
        .iter()
        .map(|(begin, end)| if begin == end { begin.to_string() } else { format!("{begin} to {end}") })
        .collect();
    texts.join(", ")
}

/// What stands after a broker ended somehow, having answered so many accepted commands of those that it was sent: read back, one more
/// may be there than was answered, and none less.
fn after(
    trial: &Trial,
    truth: &Truth,
    room: &Path,
    answered: usize,
    counts: &mut Counts,
) -> io::Result<Option<String>> {
    let sound = if room.join("book").exists() {
        sqlite3(&copied(room)?, "pragma integrity_check")?
    } else {
        "ok\n".to_string()
    };
    let run = trial.run(Some(&room.join("book")), SIGHT)?;
    if let Some(fault) = fault_of(&run) {
        return Ok(Some(format!("the next broker tells {fault}; sqlite3 says {sound:?}")));
    }
    match place_of(truth, &run, room)? {
        Ok(place) if place != answered && place != answered + 1 => {
            Ok(Some(format!("{answered} were answered, and {place} are there")))
        }
        Ok(_) if sound != "ok\n" && answered > 0 => Ok(Some(format!("sqlite3 says {sound:?}"))),
        Ok(place) => {
            *counts
                .entry(
                    if place == answered {
                        "next broker: what was answered"
                    } else {
                        "next broker: one more, not answered"
                    }
                    .into(),
                )
                .or_default() += 1;
            *counts.entry(format!("sqlite3: {}", sound.lines().next().unwrap_or("nothing"))).or_default() += 1;
            Ok(None)
        }
        Err(why) => Ok(Some(why)),
    }
}

const CALLS: [&str; 8] = ["write", "pwrite64", "fsync", "fdatasync", "ftruncate", "pread64", "fallocate", "openat"];

fn try_calls(trial: &Trial, folder: &Path) -> io::Result<bool> {
    let truth = trial.truth(folder)?;
    let half = trial.commands.len() / 2;
    let mut is_good = true;
    for goes_on in [false, true] {
        for call in CALLS {
            for error in ["EIO", "ENOSPC"] {
                let (mut counts, mut runs, mut wrong) = (Counts::new(), 0, Vec::new());
                for onward in ["", "+"] {
                    for turn in 1.. {
                        let room = fresh(folder, "room")?;
                        let book = room.join("book");
                        let mut sold = 0;
                        let mut first = 0;
                        if goes_on {
                            let mut broker = trial.broker(&book, &[])?;
                            broker.sells(&trial.commands[..half]);
                            sold = broker.kills()?;
                            first = half;
                        }
                        let log = room.join("strace");
                        let mut words = failing(call, error, &format!("{turn}{onward}"), &log);
                        // of these calls no other failure is wanted than on the files
                        if matches!(call, "openat" | "pread64") {
                            for path in [book.display().to_string(), format!("{}-wal", book.display())] {
                                words.extend(["-P".to_string(), path]);
                            }
                        }
                        let mut broker = trial.broker(&book, &words)?;
                        broker.sells(&trial.commands[first..]);
                        let (answered, status, told) = broker.ends()?;
                        if !fs::read_to_string(&log)?.contains("(INJECTED)") {
                            break;
                        }
                        runs += 1;
                        let told = told.lines().last().unwrap_or("nothing").to_string();
                        let fits = match told.as_str() {
                            // where every write fails, so does the one of the fault's line
                            "nothing" => {
                                status.success() || (call == "write" && onward == "+" && status.code() == Some(4))
                            }
                            _ => told.starts_with("dsedge: ") && matches!(status.code(), Some(3 | 4)),
                        };
                        if !fits {
                            wrong.push(format!("{call} {turn}{onward}: told {told}, {status}"));
                        }
                        *counts.entry(format!("told {told}")).or_default() += 1;
                        if let Some(why) = after(trial, &truth, &room, sold + answered, &mut counts)? {
                            wrong.push(format!("{call} {turn}{onward}: told {told}; {why}"));
                        }
                    }
                }
                let what = if goes_on { "a killed broker's" } else { "a new" };
                if runs > 0 {
                    is_good &= tells(&format!("{what} book, {call} {error}: {runs} runs"), &counts, &wrong);
                }
            }
        }
    }
    Ok(is_good)
}

/// The rows of a book in which all commands were sold.
fn rows_sold(trial: &Trial, folder: &Path) -> io::Result<Vec<String>> {
    let room = fresh(folder, "truth")?;
    trial.run(Some(&room.join("book")), &(trial.commands.join("\n") + "\n"))?;
    rows_of(&room)
}

/// How many commands `look` tells.
fn serial_of(run: &Run) -> Option<usize> {
    run.answer.strip_prefix("serial ")?.split(' ').next()?.parse().ok()
}

/// What is wrong with a book after a broker ended that answered so many accepted commands: the next one has just these or one
/// more, with their rows, and sqlite3 finds the file sound.
fn missing(trial: &Trial, sold: &[String], room: &Path, answered: usize) -> io::Result<Option<String>> {
    let sound = sqlite3(&copied(room)?, "pragma integrity_check")?;
    let run = trial.run(Some(&room.join("book")), "look\n")?;
    let rows = rows_of(room)?;
    let is_there = (rows.len() == answered || rows.len() == answered + 1) && sold.get(..rows.len()) == Some(&rows[..]);
    let is_good = is_there && run.status == Some(0) && serial_of(&run) == Some(rows.len()) && sound == "ok\n";
    Ok((!is_good).then(|| {
        format!("{answered} were answered, {} rows, {:?} {:?}, sqlite3 {sound:?}", rows.len(), run.answer, run.told)
    }))
}

/// Tells what came of a kind of runs.
fn tells(what: &str, counts: &Counts, wrong: &[String]) -> bool {
    println!("{what}, {} wrong", wrong.len());
    for (what, count) in counts {
        println!("    {count} {what}");
    }
    for line in wrong {
        println!("    WRONG: {line}");
    }
    wrong.is_empty()
}

const WRITES: [&str; 3] = ["pwrite64", "fdatasync", "ftruncate"];

/// The words that make a call fail.
fn failing(call: &str, error: &str, turn: &str, log: &Path) -> Vec<String> {
    let inject = format!("inject={call}:error={error}:when={turn}");
    ["-f", "-qq", "-o", &log.display().to_string(), "-e", &format!("trace={call}"), "-e", &inject]
        .map(str::to_string)
        .into()
}

/// Each call on the files while the log is copied into the file amid the sale: its name and its number among those of its name.
fn copying(trial: &Trial, folder: &Path) -> io::Result<Vec<(&'static str, usize)>> {
    let room = fresh(folder, "room")?;
    let (book, log) = (room.join("book"), room.join("strace"));
    let words = ["-f", "-qq", "-y", "-o", &log.display().to_string(), "-e", &format!("trace={}", WRITES.join(","))];
    let mut broker = trial.broker(&book, &words.map(str::to_string))?;
    broker.sells(&trial.commands);
    broker.ends()?;
    let text = fs::read_to_string(&log)?;
    let lines: Vec<&str> = text.lines().collect();
    let on_file: Vec<usize> =
        (100..lines.len().saturating_sub(100)).filter(|place| lines[*place].contains("/book>")).collect();
    let (Some(first), Some(last)) = (on_file.first(), on_file.last()) else {
        return Err(io::Error::other("the log is not copied amid the sale"));
    };
    let mut numbers = [0; WRITES.len()];
    let mut calls = Vec::new();
    for (place, line) in lines.iter().enumerate() {
        for (name, number) in WRITES.iter().zip(&mut numbers) {
            if line.contains(&format!("{name}(")) {
                *number += 1;
                if place + 6 >= *first && place <= last + 12 {
                    calls.push((*name, *number));
                }
            }
        }
    }
    Ok(calls)
}

fn try_copying(trial: &Trial, folder: &Path) -> io::Result<bool> {
    let sold = rows_sold(trial, folder)?;
    let (mut counts, mut wrong, mut runs) = (Counts::new(), Vec::new(), 0);
    for (call, number) in copying(trial, folder)? {
        for error in ["EIO", "ENOSPC"] {
            for onward in ["", "+"] {
                let room = fresh(folder, "room")?;
                let words = failing(call, error, &format!("{number}{onward}"), &room.join("strace"));
                let mut broker = trial.broker(&room.join("book"), &words)?;
                broker.sells(&trial.commands);
                let (answered, status, told) = broker.ends()?;
                runs += 1;
                let told = told.trim_end();
                if !matches!((told, status.code()), ("dsedge: book Write", Some(4)) | ("", Some(0))) {
                    wrong.push(format!("{call} {number}{onward}: told {told:?}, {status}"));
                }
                *counts.entry(format!("told {}", if told.is_empty() { "nothing" } else { told })).or_default() += 1;
                if let Some(why) = missing(trial, &sold, &room, answered)? {
                    wrong.push(format!("{call} {number}{onward}: {why}"));
                }
            }
        }
    }
    Ok(tells(&format!("the log is copied amid the sale: {runs} runs"), &counts, &wrong))
}

fn try_full(trial: &Trial, folder: &Path, step: usize, end: usize) -> io::Result<bool> {
    let sold = rows_sold(trial, folder)?;
    let (mut counts, mut wrong, mut runs) = (Counts::new(), Vec::new(), 0);
    let (mut least, mut most) = (usize::MAX, 0);
    let small = fresh(folder, "small")?;
    for size in (step..=end).step_by(step) {
        let is_mounted = Command::new("mount")
            .args(["-t", "tmpfs", "-o", &format!("size={size}k"), "tmpfs"])
            .arg(&small)
            .status()?
            .success();
        if !is_mounted {
            return Err(io::Error::other("a tmpfs cannot be mounted here"));
        }
        let book = small.join("book");
        let mut broker = trial.broker(&book, &[])?;
        broker.sells(&trial.commands);
        let (answered, status, told) = broker.ends()?;
        runs += 1;
        (least, most) = (least.min(answered), most.max(answered));
        let told = told.trim_end();
        if !matches!((told, status.code()), ("dsedge: book Write" | "dsedge: book Open", Some(4)) | ("", Some(0))) {
            wrong.push(format!("{size} KiB: told {told:?}, {status}"));
        }
        *counts.entry(format!("told {}", if told.is_empty() { "nothing" } else { told })).or_default() += 1;
        // again on the full disk, and then with room
        let again = trial.run(Some(&book), "look\n")?;
        let shown = match (fault_of(&again), serial_of(&again)) {
            (Some(fault), _) => format!("told {fault} again on the full disk"),
            (None, Some(serial)) if serial == answered || serial == answered + 1 => {
                "showed what was answered again on the full disk".to_string()
            }
            _ => {
                wrong.push(format!("{size} KiB: {answered} were answered, again: {:?} {:?}", again.answer, again.told));
                "wrong again on the full disk".to_string()
            }
        };
        *counts.entry(shown).or_default() += 1;
        let room = fresh(folder, "room")?;
        for name in ["book", "book-wal"] {
            if small.join(name).exists() {
                fs::copy(small.join(name), room.join(name))?;
            }
        }
        Command::new("umount").arg(&small).status()?;
        if let Some(why) = missing(trial, &sold, &room, answered)? {
            wrong.push(format!("{size} KiB, with room: {why}"));
        }
    }
    let what = format!("full disks, {least} to {most} commands answered: {runs} runs");
    Ok(tells(&what, &counts, &wrong))
}

fn main() -> ExitCode {
    let words: Vec<String> = std::env::args().skip(1).collect();
    let words: Vec<&str> = words.iter().map(String::as_str).collect();
    let [mode, program, domain, commands, folder, ref numbers @ ..] = words[..] else {
        return ExitCode::from(2);
    };
    let done = fs::read_to_string(commands).and_then(|text| {
        let commands = text.lines().map(str::to_string).collect();
        let trial = Trial { program: program.to_string(), domain: domain.to_string(), commands };
        let number = |place: usize| numbers.get(place).and_then(|word| word.parse().ok()).unwrap_or(1);
        let folder = Path::new(folder);
        match mode {
            "bytes" => try_bytes(&trial, folder, number(0), number(1)),
            "calls" => try_calls(&trial, folder),
            "copying" => try_copying(&trial, folder),
            "full" => try_full(&trial, folder, number(0), number(1)),
            _ => Err(io::Error::other("no such mode")),
        }
    });
    match done {
        Ok(true) => ExitCode::SUCCESS,
        Ok(false) => ExitCode::FAILURE,
        Err(fault) => {
            eprintln!("judge: {fault}");
            ExitCode::from(4)
        }
    }
}
