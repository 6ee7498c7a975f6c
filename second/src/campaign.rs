//! Which cases are compared: the paper's own, every tiny table, then random ones by seed.

use std::time::{Duration, Instant};

use crate::best;
use crate::codec::{
    answer_block_length, block_of, block_with_digits, judge_command, open_ended_block, pack_table,
    Table, LONGEST_PAYLOAD, MOST_SIGNALS,
};
use crate::comparer::{Comparer, Difference, Outcome};
use crate::damage::DAMAGES;
use crate::paper;
use crate::rng::Rng;
use crate::shapes;
use crate::steps::{Count, WORK_NUMBERS};

const LONGEST_ANSWER: usize = 322;
/// At most so many tiny tables of one size.
const TINY_TABLES: usize = 20_000;
const DAMAGES_EACH_ROUND: usize = 12;
const FRAMES_EACH_ROUND: usize = 2;
const LINES_EACH_ROUND: usize = 6;

/// Compares until a difference is found or the time is over; the seeds share the time.
pub fn run(comparer: &mut Comparer, seeds: &[u64], time: Duration) -> Outcome {
    let begin = Instant::now();
    of_the_paper(comparer)?;
    damaged_slightly_everywhere(comparer)?;
    every_frame_boundary(comparer)?;
    every_tiny_table(comparer, begin + time)?;
    let left = time.saturating_sub(begin.elapsed());
    for &seed in seeds {
        random(comparer, seed, Instant::now() + left / seeds.len() as u32)?;
    }
    Ok(())
}

/// The opened, the bare and the whole: one block through every step that reads it.
fn block_everywhere(
    comparer: &mut Comparer,
    block: &[u8],
    area_bytes: usize,
    work_numbers: usize,
) -> Outcome {
    comparer.open(block)?;
    if let Ok(part) = crate::codec::open(block) {
        comparer.check(&block[part])?;
    }
    comparer.handle(block, area_bytes, work_numbers)
}

// ---- the paper's own cases ----

fn of_the_paper(comparer: &mut Comparer) -> Outcome {
    for small in paper::small_tables() {
        comparer.note("paper", "small table");
        agrees_with_paper(small.name, best::best_counts(&small.table), small.best.to_vec())?;
        let block = block_of(&pack_table(&small.table));
        for area_bytes in 0..=answer_block_length(&small.table) + 2 {
            block_everywhere(comparer, &block, area_bytes, WORK_NUMBERS)?;
        }
    }
    for edge in paper::edges() {
        comparer.note("paper", "edge");
        let judged = judge_command(&edge.block, LONGEST_ANSWER, WORK_NUMBERS);
        agrees_with_paper(edge.name, judged.err(), edge.refusal)?;
        block_everywhere(comparer, &edge.block, LONGEST_ANSWER, WORK_NUMBERS)?;
    }
    Ok(())
}

/// What this program expects is held against the paper before the library is.
fn agrees_with_paper<T: std::fmt::Debug + PartialEq>(name: &str, ours: T, papers: T) -> Outcome {
    if ours == papers {
        return Ok(());
    }
    Err(Box::new(Difference {
        step: "second program",
        what: format!("expects {ours:?}, the paper says {papers:?}"),
        input: format!("of the paper: {name}"),
    }))
}

/// Table A's block with each bit flipped, cut at each byte, and each byte made a newline.
fn damaged_slightly_everywhere(comparer: &mut Comparer) -> Outcome {
    let whole = paper::TABLE_A_BLOCK;
    let mut blocks: Vec<Vec<u8>> = (0..whole.len()).map(|end| whole[..end].to_vec()).collect();
    for bit in 0..8 * whole.len() {
        let mut flipped = whole.to_vec();
        flipped[bit / 8] ^= 0x80 >> (bit % 8);
        blocks.push(flipped);
    }
    let open_ended = open_ended_block(&whole[4..]);
    for at in 2..open_ended.len() {
        let mut broken = open_ended.clone();
        broken[at] = b'\n';
        blocks.push(broken);
    }
    for block in blocks {
        comparer.note("paper", "table A, damaged slightly");
        block_everywhere(comparer, &block, LONGEST_ANSWER, WORK_NUMBERS)?;
    }
    Ok(())
}

/// All lengths near a change in the number of digits, and near the longest one.
fn every_frame_boundary(comparer: &mut Comparer) -> Outcome {
    let mut rng = Rng::new(1);
    let around = |middle: usize| middle.saturating_sub(3)..=middle + 3;
    for length in [0, 10, 100, 1_000, LONGEST_PAYLOAD, 10_000, 65_536].into_iter().flat_map(around)
    {
        let payload = rng.bytes(length);
        let block_bytes = block_of(&payload).len();
        for area_bytes in
            [0, 1, 2, 3, length, block_bytes - 1, block_bytes, block_bytes + 1, block_bytes + 100]
        {
            comparer.note("frame", "near a boundary");
            comparer.frame(&payload, area_bytes)?;
        }
    }
    Ok(())
}

fn every_tiny_table(comparer: &mut Comparer, deadline: Instant) -> Outcome {
    for table in shapes::every_tiny_table(TINY_TABLES) {
        if Instant::now() > deadline {
            break;
        }
        comparer.note("tables", "every tiny one");
        let block = block_of(&pack_table(&table));
        block_everywhere(comparer, &block, answer_block_length(&table), WORK_NUMBERS)?;
    }
    Ok(())
}

// ---- random cases ----

fn random(comparer: &mut Comparer, seed: u64, deadline: Instant) -> Outcome {
    let mut rng = Rng::new(seed);
    loop {
        round(comparer, &mut rng)?;
        if Instant::now() > deadline {
            return Ok(());
        }
    }
}

fn round(comparer: &mut Comparer, rng: &mut Rng) -> Outcome {
    let (shape, table) = shapes::any(rng);
    comparer.note("tables", shape);
    whole_blocks(comparer, rng, &table)?;
    for _ in 0..DAMAGES_EACH_ROUND {
        damaged_block(comparer, rng, &table)?;
    }
    for _ in 0..FRAMES_EACH_ROUND {
        random_frame(comparer, rng)?;
    }
    for _ in 0..LINES_EACH_ROUND {
        random_lines(comparer, rng)?;
    }
    Ok(())
}

fn whole_blocks(comparer: &mut Comparer, rng: &mut Rng, table: &Table) -> Outcome {
    let payload = pack_table(table);
    let fewest = payload.len().to_string().len();
    let forms = [
        ("shortest header", block_of(&payload)),
        ("leading zeros", block_with_digits(&payload, rng.between(fewest, 9))),
        ("open-ended", open_ended_block(&payload)),
    ];
    let exact = answer_block_length(table);
    for (form, block) in forms {
        comparer.note("whole blocks", form);
        block_everywhere(comparer, &block, exact, WORK_NUMBERS)?;
        comparer.handle(&block, awkward_area(rng, exact), awkward_work(rng))?;
    }
    Ok(())
}

fn awkward_area(rng: &mut Rng, exact: usize) -> usize {
    let too_short = [0, 1, exact / 2, exact - 1];
    let enough = [exact, exact + 1, LONGEST_ANSWER.max(exact), exact + 65_536];
    let sizes = if rng.once_in(2) { too_short } else { enough };
    *rng.pick(&sizes)
}

fn awkward_work(rng: &mut Rng) -> usize {
    let too_few = [0, 1, rng.below(WORK_NUMBERS), WORK_NUMBERS - 1];
    let enough = [WORK_NUMBERS, WORK_NUMBERS + 1, 20_000, 65_536];
    let sizes = if rng.once_in(3) { too_few } else { enough };
    *rng.pick(&sizes)
}

fn damaged_block(comparer: &mut Comparer, rng: &mut Rng, table: &Table) -> Outcome {
    let damage = rng.pick(DAMAGES);
    let block = (damage.block)(rng, table);
    comparer.note("damaged blocks", damage.name);
    let exact = answer_block_length(table);
    let (area_bytes, work_numbers) = if rng.once_in(3) {
        (awkward_area(rng, exact), awkward_work(rng))
    } else {
        (LONGEST_ANSWER, WORK_NUMBERS)
    };
    block_everywhere(comparer, &block, area_bytes, work_numbers)
}

fn random_frame(comparer: &mut Comparer, rng: &mut Rng) -> Outcome {
    let longest = *rng.pick(&[12, 120, 1_200, LONGEST_PAYLOAD, LONGEST_PAYLOAD + 1]);
    let length = rng.between(0, longest);
    let payload = rng.bytes(length);
    let exact = block_of(&payload).len();
    comparer.note("frame", "random");
    comparer.frame(&payload, awkward_area(rng, exact))?;
    comparer.frame(&payload, exact)
}

// ---- lines of counts ----

/// Two lines that are unrelated or nearly the same, and now and then no lines at all.
fn random_lines(comparer: &mut Comparer, rng: &mut Rng) -> Outcome {
    let first = random_line(rng);
    let second = if rng.once_in(4) { random_line(rng) } else { nearly(rng, &first) };
    comparer.note("compare", "two lines");
    comparer.compare(&first, &second)?;
    comparer.compare(&second, &first)
}

fn random_line(rng: &mut Rng) -> Vec<Count> {
    let length = if rng.once_in(16) { *rng.pick(&[16, 17, 256, 271]) } else { rng.below(16) };
    let most = *rng.pick(&[0, 1, 3, MOST_SIGNALS]);
    let mut line: Vec<Count> = (0..length).map(|_| rng.between(0, most) as Count).collect();
    if rng.once_in(16) {
        set_any(rng, &mut line, 201);
    }
    line
}

fn set_any(rng: &mut Rng, line: &mut [Count], least: usize) {
    if !line.is_empty() {
        let at = rng.below(line.len());
        line[at] = rng.between(least.min(255), 255) as Count;
    }
}

fn nearly(rng: &mut Rng, line: &[Count]) -> Vec<Count> {
    let mut line = line.to_vec();
    match rng.below(6) {
        0 => {
            line.pop();
        }
        1 => line.push(0),
        2 => line.extend([0, 0, 1]),
        3 => set_any(rng, &mut line, 200),
        4 => {
            for count in &mut line {
                let lowered = count.saturating_sub(1);
                *count = if rng.once_in(5) { lowered } else { *count };
            }
        }
        _ => {}
    }
    line
}
