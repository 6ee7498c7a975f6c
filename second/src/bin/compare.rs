//! Compares the library with this program's own answers and stops at the first difference.
//!
//! `compare [--seconds N] [--seed X] [--patience N] [-- COMMAND]`: 60 seconds, a list of seeds, and a patience of 30 seconds with a
//! step that does not return, unless told otherwise. A command starts the library in a process of its own (`box.c`), which ends with
//! this one; without a command this build's own subject is compared.

use std::panic;
use std::process::{exit, ExitCode};
use std::sync::atomic::{AtomicBool, Ordering};
use std::sync::{Arc, Mutex, OnceLock};
use std::thread;
use std::time::{Duration, SystemTime, UNIX_EPOCH};

use second::campaign;
use second::comparer::{Comparer, Current, Tally};
use second::served::Served;
use second::steps::{subject, Steps};

const FIXED_SEEDS: [u64; 4] = [1, 2, 3, 2_026];
const USAGE: &str = "usage: compare [--seconds N] [--seed X] [--patience N] [-- COMMAND]";

/// The library's process, if a command starts one.
static SERVED: OnceLock<Served> = OnceLock::new();

struct Wishes {
    seconds: u64,
    /// A run that is so many seconds over its time hangs in some step.
    patience: u64,
    seeds: Vec<u64>,
    command: Vec<String>,
}

fn main() -> ExitCode {
    let Some(wishes) = wishes(std::env::args().skip(1)) else {
        eprintln!("{USAGE}");
        return ExitCode::from(2);
    };
    let subject = match chosen(&wishes.command) {
        Ok(subject) => subject,
        Err(error) => {
            eprintln!("compare: {} does not start: {error}", wishes.command.join(" "));
            return ExitCode::from(2);
        }
    };
    println!("comparing the {} for {} s", subject.name(), wishes.seconds);
    println!("seeds {:?}", wishes.seeds);
    let mut comparer = Comparer::new(subject);
    let time = Duration::from_secs(wishes.seconds);
    end_if_it_hangs(comparer.current.clone(), time + Duration::from_secs(wishes.patience));
    end_if_it_fails(comparer.current.clone());
    let outcome = campaign::run(&mut comparer, &wishes.seeds, time);
    print_tally(&comparer.tally);
    match outcome {
        Ok(()) => leave(0, "no difference"),
        Err(difference) => leave(1, &format!("DIFFERENCE\n{difference}")),
    }
}

/// Says how the run ended, ends the library's process, and then this one. Only the first caller does: ending the process fails whoever
/// waits for its answer, and that is no news.
fn leave(status: i32, last_words: &str) -> ! {
    static LEAVING: AtomicBool = AtomicBool::new(false);
    if LEAVING.swap(true, Ordering::SeqCst) {
        thread::sleep(Duration::from_secs(1));
        exit(1);
    }
    println!("{last_words}");
    if let Some(served) = SERVED.get() {
        served.end();
    }
    exit(status)
}

fn chosen(command: &[String]) -> std::io::Result<&'static dyn Steps> {
    if command.is_empty() {
        return Ok(subject());
    }
    let served = Served::start(command)?;
    Ok(SERVED.get_or_init(|| served))
}

fn wishes(mut arguments: impl Iterator<Item = String>) -> Option<Wishes> {
    let mut wishes = Wishes { seconds: 60, patience: 30, seeds: Vec::new(), command: Vec::new() };
    while let Some(argument) = arguments.next() {
        if argument == "--" {
            wishes.command = arguments.collect();
            break;
        }
        let number = arguments.next()?.parse().ok()?;
        match argument.as_str() {
            "--seconds" => wishes.seconds = number,
            "--patience" => wishes.patience = number,
            "--seed" => wishes.seeds.push(number),
            _ => return None,
        }
    }
    if wishes.seeds.is_empty() {
        wishes.seeds.extend(FIXED_SEEDS);
        wishes.seeds.push(seed_from_clock());
    }
    Some(wishes)
}

fn seed_from_clock() -> u64 {
    let since = SystemTime::now().duration_since(UNIX_EPOCH);
    since.map_or(0, |since| since.as_micros() as u64)
}

/// A step that ends its process, or this one, is a difference too.
fn end_if_it_fails(current: Arc<Mutex<Current>>) {
    panic::set_hook(Box::new(move |failure| {
        let told = match current.try_lock() {
            Ok(current) => format!("DIFFERENCE\n{}: {failure}\n{current}", current.step),
            Err(_) => format!("DIFFERENCE\n{failure}"),
        };
        leave(1, &told);
    }));
}

/// A step that never returns is a difference too.
fn end_if_it_hangs(current: Arc<Mutex<Current>>, after: Duration) {
    thread::spawn(move || {
        thread::sleep(after);
        let current = current.lock().expect("nobody fails while writing it");
        leave(1, &format!("DIFFERENCE\n{}: does not return\n{current}", current.step));
    });
}

fn print_tally(tally: &Tally) {
    println!("\n{:<10} {:>10}   by number", "step", "compared");
    for (step, numbers) in &tally.numbers {
        let seen = (0..).zip(numbers).filter(|&(_, &times)| times > 0);
        let by_number: Vec<String> =
            seen.map(|(number, times): (u32, _)| format!("{number}: {times}")).collect();
        println!("{step:<10} {:>10}   {}", numbers.iter().sum::<u64>(), by_number.join(", "));
    }
    let mut group_before = "";
    for (&(group, name), times) in &tally.kinds {
        if group != group_before {
            println!("\n{group}");
            group_before = group;
        }
        println!("  {name:<32} {times:>10}");
    }
    println!();
}
