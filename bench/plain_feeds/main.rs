//! Plain Rust over std alone, for comparison: a table behind `RwLock<Arc<..>>`, as an engineer would share it with readers.
//! `feeds THREADS LOOKS PACE`: looks so often in each of so many threads, while one more thread puts a new table in the place of
//! the one that is there, once in PACE nanoseconds. Prints how many looks and how many tables there were, and the nanoseconds
//! that they took.

use std::env;
use std::hint::spin_loop;
use std::process::ExitCode;
use std::sync::atomic::{AtomicU64, Ordering};
use std::sync::{Arc, RwLock};
use std::thread;
use std::time::{Duration, Instant};

#[derive(Clone)]
struct Table {
    serial: u64,
    contracts: Vec<String>,
    flows: Vec<u32>,
}

/// Puts new tables there until so many threads have done with looking: how many.
fn publish(shared: &RwLock<Arc<Table>>, done: &AtomicU64, threads: u64, pace: Duration) -> u64 {
    let mut table = Table { serial: 0, contracts: Vec::new(), flows: Vec::new() };
    let mut next = Instant::now();
    while done.load(Ordering::SeqCst) != threads {
        if table.contracts.is_empty() {
            table.contracts.push("a".to_owned());
            table.flows.push(0);
        } else {
            table.contracts.clear();
            table.flows.clear();
        }
        table.serial += 1;
        *shared.write().unwrap() = Arc::new(table.clone());
        next += pace;
        while Instant::now() < next && done.load(Ordering::SeqCst) != threads {
            spin_loop();
        }
    }
    table.serial
}

/// Looks so often: how often a table was seen with as many flows as contracts, and no older one than before.
fn watch(shared: &RwLock<Arc<Table>>, looks: u64) -> u64 {
    let mut even = 0;
    let mut newest = 0;
    for _ in 0..looks {
        let seen = Arc::clone(&shared.read().unwrap());
        if seen.serial >= newest && seen.contracts.len() == seen.flows.len() {
            even += 1;
        }
        newest = seen.serial;
    }
    even
}

fn main() -> ExitCode {
    let words: Vec<u64> = env::args().skip(1).filter_map(|word| word.parse().ok()).collect();
    let [threads, looks, pace] = words[..] else {
        return ExitCode::from(2);
    };
    let shared = RwLock::new(Arc::new(Table { serial: 0, contracts: Vec::new(), flows: Vec::new() }));
    let done = AtomicU64::new(0);
    let begin = Instant::now();
    let (seen, tables) = thread::scope(|scope| {
        let seller = scope.spawn(|| publish(&shared, &done, threads, Duration::from_nanos(pace)));
        let mut watchers = Vec::new();
        for _ in 0..threads {
            watchers.push(scope.spawn(|| {
                let even = watch(&shared, looks);
                done.fetch_add(1, Ordering::SeqCst);
                even
            }));
        }
        let seen: u64 = watchers.into_iter().map(|watcher| watcher.join().unwrap()).sum();
        (seen, seller.join().unwrap())
    });
    println!("{seen} {tables} {}", begin.elapsed().as_nanos());
    ExitCode::SUCCESS
}
