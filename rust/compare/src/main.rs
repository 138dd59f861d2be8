//! compare                        the fixed set: sequences, files and pictures of fixed seeds, and whether all that has to come
//!                                up did
//! compare long SEED CALLS        about so many calls from another seed
//! compare files SEED CONVERSIONS the same for list files
//! compare pictures SEED CALLS    the same for pictures
//! compare replay SEED            one sequence, call by call
//! compare file SEED              one list file
//! compare picture SEED           one picture
//!
//! All but the last three run on two threads.

use compare::compared::Compared;
use compare::packing::Conversions;
use compare::pictures::Pictures;
use compare::random::Random;
use compare::tally::Tally;
use std::process::ExitCode;
use std::sync::atomic::{AtomicBool, Ordering};
use std::thread;
use std::time::Instant;

/// The fixed set.
const SEED: u64 = 1;
const SEQUENCES: u64 = 50_000;
const FILES: u64 = 50_000;
const PICTURES: u64 = 50_000;

const THREADS: u64 = 2;

/// Calls between two lines of progress.
const PROGRESS: u64 = 5_000_000;

fn main() -> ExitCode {
    let words: Vec<String> = std::env::args().skip(1).collect();
    let words: Vec<&str> = words.iter().map(String::as_str).collect();
    match command(&words) {
        Some(true) => ExitCode::SUCCESS,
        Some(false) => ExitCode::FAILURE,
        None => {
            eprintln!(
                "usage: compare [long SEED CALLS | files SEED CONVERSIONS | pictures SEED CALLS | replay SEED | file SEED | \
                 picture SEED]"
            );
            ExitCode::from(2)
        }
    }
}

/// Whether no difference was found; none where the words are no command.
fn command(words: &[&str]) -> Option<bool> {
    match words {
        [] => Some(fixed_set()),
        ["long", seed, calls] => Some(long::<Tally>(number(seed)?, number(calls)?)),
        ["files", seed, calls] => Some(long::<Conversions>(number(seed)?, number(calls)?)),
        ["pictures", seed, calls] => Some(long::<Pictures>(number(seed)?, number(calls)?)),
        ["replay", seed] => Some(replay::<Tally>(number(seed)?)),
        ["file", seed] => Some(replay::<Conversions>(number(seed)?)),
        ["picture", seed] => Some(replay::<Pictures>(number(seed)?)),
        _ => None,
    }
}

/// A decimal number, or a hexadecimal one after 0x.
fn number(word: &str) -> Option<u64> {
    match word.strip_prefix("0x") {
        Some(digits) => u64::from_str_radix(digits, 16).ok(),
        None => word.parse().ok(),
    }
}

/// The seed of one sequence, file or picture.
fn own_seed(seed: u64, index: u64) -> u64 {
    Random::new(Random::new(seed).word() ^ index).word()
}

/// Plays one sequence, file or picture of a seed and prints the difference that it finds.
fn play_one<C: Compared>(seed: u64, index: u64, counts: &mut C) -> bool {
    let own = own_seed(seed, index);
    let outcome = counts.play(own, false);
    if let Err(what) = &outcome {
        let (unit, replay) = (C::UNIT, C::REPLAY);
        println!("DIFFERENCE: seed {seed}, {unit} {index} (compare {replay} {own:#x}), {what}");
    }
    outcome.is_ok()
}

fn fixed_set() -> bool {
    let sequences = fixed::<Tally>(SEQUENCES);
    let files = fixed::<Conversions>(FILES);
    let pictures = fixed::<Pictures>(PICTURES);
    let kinds = [sequences, files, pictures];
    let passed: usize = kinds.iter().map(|checks| checks.passed).sum();
    let failed: usize = kinds.iter().map(|checks| checks.failed).sum();
    println!("{passed} passed, {failed} failed");
    failed == 0
}

/// Checks that passed and failed.
struct Checks {
    passed: usize,
    failed: usize,
}

/// So many sequences, files or pictures of the fixed seed, and whether all that has to come up did.
fn fixed<C: Compared>(number: u64) -> Checks {
    println!("seed {SEED}, {number} {}s", C::UNIT);
    let (counts, equal) = play_while::<C>(SEED, |index, _| index < number);
    if !equal {
        return Checks {
            passed: 0,
            failed: 1,
        };
    }
    counts.print();
    let (passed, failed): (Vec<_>, Vec<_>) = counts.coverage().into_iter().partition(|c| c.1);
    for (name, _) in &failed {
        println!("FAILED: {name}");
    }
    Checks {
        passed: passed.len(),
        failed: failed.len(),
    }
}

fn long<C: Compared>(seed: u64, calls: u64) -> bool {
    println!("seed {seed}, {calls} {} on {THREADS} threads", C::CALLS);
    let begun = Instant::now();
    let (counts, equal) = play_while::<C>(seed, |_, counts| counts.calls() < calls / THREADS);
    counts.print();
    let seconds = begun.elapsed().as_secs_f64();
    println!(
        "{:.0} {} a second",
        counts.calls() as f64 / seconds,
        C::CALLS
    );
    equal
}

/// Plays the sequences, files or pictures of a seed, every thread while this holds of its next one and its counts, and no thread found a
/// difference. The counts, and whether none was found.
fn play_while<C: Compared>(seed: u64, goes_on: impl Fn(u64, &C) -> bool + Sync) -> (C, bool) {
    let stop = AtomicBool::new(false);
    let mut total = C::default();
    thread::scope(|scope| {
        let (goes_on, stop) = (&goes_on, &stop);
        let worker = |first| move || stride(seed, first, goes_on, stop);
        let workers: Vec<_> = (0..THREADS)
            .map(|first| scope.spawn(worker(first)))
            .collect();
        for worker in workers {
            total.add(&worker.join().expect("a thread ends"));
        }
    });
    (total, !stop.load(Ordering::Relaxed))
}

/// What one thread plays: those numbered first, first + THREADS and so on.
fn stride<C: Compared>(
    seed: u64,
    first: u64,
    goes_on: &impl Fn(u64, &C) -> bool,
    stop: &AtomicBool,
) -> C {
    let mut counts = C::default();
    let mut told = 0;
    let mut index = first;
    while goes_on(index, &counts) && !stop.load(Ordering::Relaxed) {
        if !play_one(seed, index, &mut counts) {
            stop.store(true, Ordering::Relaxed);
        }
        index += THREADS;
        if counts.calls() / PROGRESS > told {
            told = counts.calls() / PROGRESS;
            println!("thread {first}: {} {}", counts.calls(), C::CALLS);
        }
    }
    counts
}

fn replay<C: Compared>(seed: u64) -> bool {
    let outcome = C::default().play(seed, true);
    match &outcome {
        Ok(()) => println!("no difference"),
        Err(what) => println!("DIFFERENCE: {what}"),
    }
    outcome.is_ok()
}
