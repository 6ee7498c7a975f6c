//! Measures the library beside the yardstick on the same blocks.
//!
//! `measure [REPETITIONS]` prints the tables; `measure --once SHAPE library|yardstick [TIMES]`
//! only handles one block that many times, for a profiler. `measure --list` names the shapes.

use std::process::ExitCode;
use std::time::Instant;

use second::codec::{block_of, pack_table, Pair, Table};
use second::rng::Rng;
use second::shapes::{relabelled, Shape, Size};
use second::standin::StandIn;
use second::steps::{subject, Steps, WORK_NUMBERS};

const USAGE: &str =
    "usage: measure [REPETITIONS] | --list | --once SHAPE library|yardstick [TIMES]";
const REPETITIONS: usize = 2_000;
/// How many commands one of the two handles in a row.
const TURN: usize = 50;
const AREA_BYTES: usize = 322;

/// A named table as the paper's use would have it.
struct Load {
    name: String,
    table: Table,
}

fn main() -> ExitCode {
    let arguments: Vec<String> = std::env::args().skip(1).collect();
    let words: Vec<&str> = arguments.iter().map(String::as_str).collect();
    match words[..] {
        [] => measure(REPETITIONS),
        ["--list"] => loads().iter().for_each(|load| println!("{}", load.name)),
        ["--once", shape, which] => return once(shape, which, "1"),
        ["--once", shape, which, times] => return once(shape, which, times),
        [repetitions] => match repetitions.parse() {
            Ok(repetitions) => measure(repetitions),
            Err(_) => return usage(),
        },
        _ => return usage(),
    }
    ExitCode::SUCCESS
}

fn usage() -> ExitCode {
    eprintln!("{USAGE}");
    ExitCode::from(2)
}

// ---- what is measured ----

/// The shapes, with fixed seeds so that two runs measure the same blocks.
fn loads() -> Vec<Load> {
    let mut loads = vec![
        Load { name: "empty".into(), table: Table::default() },
        load("no pairs", 15, 0),
        load("sparse", 1, 3_000),
        load("sparse", 3, 3_000),
        load("sparse", 15, 3_000),
        load("dense", 1, 3_000),
        load("dense", 3, 3_000),
        load("dense", 15, 3_000),
        load("ties", 1, 3_000),
        load("ties", 15, 3_000),
        load("gaps", 15, 3_000),
        load("strict lists", 15, 3_000),
        load("crowded", 15, 3_000),
        load("chains", 2, 3_000),
        Load { name: "one long chain".into(), table: one_long_chain() },
        load("bands", 15, 3_000),
        load("bands backwards", 15, 3_000),
        load("stairs", 15, 3_000),
        load("halves", 3, 3_000),
        load("halves", 15, 3_000),
        load("spare channels", 15, 3_000),
        load("pushes", 1, 3_000),
        load("pushes", 15, 3_000),
    ];
    loads.extend(["bands", "pushes", "halves"].map(mixed_load));
    loads
}

fn load(shape: &str, ranks: usize, pairs: usize) -> Load {
    let size = Size { ranks, pairs, ..Size::FULL };
    let table = Shape::named(shape).table(&mut Rng::new(1), &size);
    Load { name: format!("{shape} {ranks}"), table }
}

/// The same with numbers that do not follow the shape.
fn mixed_load(shape: &str) -> Load {
    let Load { name, table } = load(shape, 15, 3_000);
    Load { name: format!("{name} mixed"), table: relabelled(&mut Rng::new(2), &table) }
}

/// The last signal is placed only if all the others move on by one.
fn one_long_chain() -> Table {
    let pair = |signal, channel| Pair { signal, channel, rank: 1 };
    let mut pairs: Vec<Pair> =
        (0..199).flat_map(|signal| [pair(signal, signal), pair(signal, signal + 1)]).collect();
    pairs.push(pair(199, 0));
    Table { signals: 200, channels: 200, ranks: 1, pairs }
}

// ---- measuring ----

/// Memory as a box has it: lent again for every command, and cleared by nobody between.
struct Lending {
    area: Vec<u8>,
    work: Vec<u16>,
}

impl Lending {
    fn new() -> Self {
        Lending { area: vec![0; AREA_BYTES], work: vec![0; WORK_NUMBERS] }
    }

    fn handle(&mut self, steps: &dyn Steps, block: &[u8]) {
        let written = steps.handle(block, &mut self.area, &mut self.work);
        assert_eq!(written.number, 0, "every measured block is accepted");
    }
}

/// The shortest time of one command in a turn, in microseconds.
fn turn(steps: &dyn Steps, block: &[u8], lending: &mut Lending) -> f64 {
    let mut shortest = f64::INFINITY;
    for _ in 0..TURN {
        let begin = Instant::now();
        lending.handle(steps, block);
        shortest = shortest.min(begin.elapsed().as_secs_f64() * 1e6);
    }
    shortest
}

/// The two take turns, so that a disturbance meets both; a turn is long enough for either to
/// get over what the other left in the processor's caches.
fn shortest_of_both(block: &[u8], repetitions: usize) -> (f64, f64) {
    let mut lending = Lending::new();
    let mut shortest = (f64::INFINITY, f64::INFINITY);
    for _ in 0..repetitions.div_ceil(TURN) {
        shortest.0 = shortest.0.min(turn(subject(), block, &mut lending));
        shortest.1 = shortest.1.min(turn(&StandIn, block, &mut lending));
    }
    shortest
}

fn measure(repetitions: usize) {
    println!("microseconds for one command, the shortest of {repetitions}");
    println!("the yardstick beside the {}\n", subject().name());
    print_loads(repetitions);
    println!("\ngrowth with P, microseconds and the factor to the row above\n");
    for (shape, ranks) in [("dense", 1), ("dense", 3), ("dense", 15), ("bands", 15), ("pushes", 15)]
    {
        print_growth(shape, ranks, repetitions);
    }
}

fn print_loads(repetitions: usize) {
    let name = subject().name();
    println!(
        "{:<20} {:>4} {:>4} {:>3} {:>5} {:>10} {:>10} {:>6}",
        "shape", "S", "C", "R", "P", name, "yardstick", "ratio"
    );
    for Load { name, table } in loads() {
        let (library, yardstick) = shortest_of_both(&block_of(&pack_table(&table)), repetitions);
        println!(
            "{name:<20} {:>4} {:>4} {:>3} {:>5} {library:>10.2} {yardstick:>10.2} {:>6.2}",
            table.signals,
            table.channels,
            table.ranks,
            table.pairs.len(),
            library / yardstick
        );
    }
}

fn print_growth(shape: &str, ranks: usize, repetitions: usize) {
    let mut before: Option<(f64, f64)> = None;
    for pairs in [375, 750, 1_500, 3_000] {
        let Load { name, table } = load(shape, ranks, pairs);
        let (library, yardstick) = shortest_of_both(&block_of(&pack_table(&table)), repetitions);
        let factors = before.map(|then| (library / then.0, yardstick / then.1)).unzip();
        println!(
            "{name:<20} {:>5} {library:>10.2} {:>6} {yardstick:>10.2} {:>6}",
            table.pairs.len(),
            shown(factors.0),
            shown(factors.1)
        );
        before = Some((library, yardstick));
    }
}

fn shown(factor: Option<f64>) -> String {
    factor.map_or_else(String::new, |factor| format!("{factor:.2}"))
}

fn once(shape: &str, which: &str, times: &str) -> ExitCode {
    let steps: &dyn Steps = match which {
        "library" => subject(),
        "yardstick" => &StandIn,
        _ => return usage(),
    };
    let (Some(load), Ok(times)) =
        (loads().into_iter().find(|load| load.name == shape), times.parse::<usize>())
    else {
        return usage();
    };
    let block = block_of(&pack_table(&load.table));
    let mut lending = Lending::new();
    for _ in 0..times {
        lending.handle(steps, &block);
    }
    ExitCode::SUCCESS
}
