//! Blocks, tables and answers, written from the paper alone and for clearness, not speed.
//!
//! Bits are read and written one at a time, most significant first.

use std::cmp::Ordering;
use std::ops::Range;

use crate::steps::{Count, Refusal, WORK_NUMBERS};

pub const MOST_SIGNALS: usize = 200;
pub const MOST_CHANNELS: usize = 200;
pub const MOST_RANKS: usize = 15;
pub const MOST_PAIRS: usize = 3_000;
pub const LONGEST_PAYLOAD: usize = 7_504;

pub const HEAD_BITS: usize = 32;
pub const ENTRY_BITS: usize = 20;
const ANSWER_HEAD_BITS: usize = 16;
const COUNT_BITS: usize = 8;
const PLACE_BITS: usize = 12;
const NO_CHANNEL: u8 = 255;
const NEWLINE: u8 = 10;

#[derive(Clone, Copy, Debug, PartialEq, Eq, PartialOrd, Ord)]
pub struct Pair {
    pub signal: u8,
    pub channel: u8,
    pub rank: u8,
}

/// A table as its payload says it; packing does not ask whether it would be accepted.
#[derive(Clone, Debug, Default, PartialEq, Eq)]
pub struct Table {
    pub signals: u8,
    pub channels: u8,
    pub ranks: u8,
    pub pairs: Vec<Pair>,
}

/// Where a signal is placed.
#[derive(Clone, Copy, Debug, PartialEq, Eq)]
pub struct Seat {
    pub channel: u8,
    pub rank: u8,
}

/// An answer: one count for each rank, one place for each signal.
#[derive(Clone, Debug, PartialEq, Eq)]
pub struct Answer {
    pub counts: Vec<Count>,
    pub places: Vec<Option<Seat>>,
}

/// A command that no row refuses.
#[derive(Debug)]
pub struct Accepted {
    pub table: Table,
    pub answer_block_bytes: usize,
}

fn refuse<T>(number: u32) -> Result<T, Refusal> {
    Err(Refusal { number, place: 0 })
}

fn refuse_entry<T>(number: u32, entry: usize) -> Result<T, Refusal> {
    Err(Refusal { number, place: entry })
}

// ---- bit fields ----

fn bit(bytes: &[u8], at: usize) -> usize {
    usize::from(bytes[at / 8] >> (7 - at % 8) & 1)
}

pub fn read_bits(bytes: &[u8], at: usize, width: usize) -> usize {
    (at..at + width).fold(0, |value, at| 2 * value + bit(bytes, at))
}

pub fn write_bits(bytes: &mut [u8], at: usize, width: usize, value: usize) {
    for step in 0..width {
        let mask = 0x80 >> ((at + step) % 8);
        let byte = &mut bytes[(at + step) / 8];
        if value >> (width - 1 - step) & 1 == 1 {
            *byte |= mask;
        } else {
            *byte &= !mask;
        }
    }
}

fn bytes_for(bits: usize) -> usize {
    bits.div_ceil(8)
}

fn rest_is_zero(bytes: &[u8], from_bit: usize) -> bool {
    (from_bit..8 * bytes.len()).all(|at| bit(bytes, at) == 0)
}

// ---- blocks ----

fn digit(byte: &u8) -> Option<usize> {
    byte.is_ascii_digit().then(|| usize::from(byte - b'0'))
}

/// Rows 1 to 3: where the payload stands in the block.
pub fn open(block: &[u8]) -> Result<Range<usize>, Refusal> {
    if block.first() != Some(&b'#') {
        return refuse(1);
    }
    match block.get(1).and_then(digit) {
        None => refuse(2),
        Some(0) => open_ended_payload(block),
        Some(digits) => definite_payload(block, digits),
    }
}

fn definite_payload(block: &[u8], digits: usize) -> Result<Range<usize>, Refusal> {
    let start = 2 + digits;
    let mut announced = 0;
    for at in 2..start {
        let Some(value) = block.get(at).and_then(digit) else {
            return refuse(2);
        };
        announced = 10 * announced + value;
    }
    if announced != block.len() - start {
        return refuse(3);
    }
    Ok(start..block.len())
}

fn open_ended_payload(block: &[u8]) -> Result<Range<usize>, Refusal> {
    let last = block.len() - 1;
    match (2..block.len()).find(|&at| block[at] == NEWLINE) {
        Some(first_newline) if first_newline == last => Ok(2..last),
        _ => refuse(3),
    }
}

/// The definite form with the fewest digits.
pub fn block_of(payload: &[u8]) -> Vec<u8> {
    block_with_digits(payload, payload.len().to_string().len())
}

/// The definite form with `digits` digits, led by zeros where the count has fewer.
pub fn block_with_digits(payload: &[u8], digits: usize) -> Vec<u8> {
    let mut block = format!("#{digits}{:0digits$}", payload.len()).into_bytes();
    block.extend_from_slice(payload);
    block
}

/// The open-ended form; it reads back only if the payload has no newline.
pub fn open_ended_block(payload: &[u8]) -> Vec<u8> {
    [b"#0", payload, &[NEWLINE]].concat()
}

fn block_length(payload_bytes: usize) -> usize {
    2 + payload_bytes.to_string().len() + payload_bytes
}

/// Rows 6 and 10: the block that framing writes.
pub fn frame(payload: &[u8], area_bytes: usize) -> Result<Vec<u8>, Refusal> {
    if payload.len() > LONGEST_PAYLOAD {
        return refuse(6);
    }
    if area_bytes < block_length(payload.len()) {
        return refuse(10);
    }
    Ok(block_of(payload))
}

// ---- tables ----

pub fn table_payload_bytes(pairs: usize) -> usize {
    bytes_for(HEAD_BITS + ENTRY_BITS * pairs)
}

pub fn pack_table(table: &Table) -> Vec<u8> {
    let mut payload = vec![0; table_payload_bytes(table.pairs.len())];
    write_bits(&mut payload, 0, 8, table.signals.into());
    write_bits(&mut payload, 8, 8, table.channels.into());
    write_bits(&mut payload, 16, 4, table.ranks.into());
    write_bits(&mut payload, 20, 12, table.pairs.len());
    for (entry, pair) in table.pairs.iter().enumerate() {
        write_pair(&mut payload, entry, pair);
    }
    payload
}

pub fn entry_bit(entry: usize) -> usize {
    HEAD_BITS + ENTRY_BITS * entry
}

fn write_pair(payload: &mut [u8], entry: usize, pair: &Pair) {
    let at = entry_bit(entry);
    write_bits(payload, at, 8, pair.signal.into());
    write_bits(payload, at + 8, 8, pair.channel.into());
    write_bits(payload, at + 16, 4, pair.rank.into());
}

fn read_pair(payload: &[u8], entry: usize) -> Pair {
    let at = entry_bit(entry);
    Pair {
        signal: read_bits(payload, at, 8) as u8,
        channel: read_bits(payload, at + 8, 8) as u8,
        rank: read_bits(payload, at + 16, 4) as u8,
    }
}

/// Rows 4 to 9: the table that an accepted payload holds.
pub fn judge_payload(payload: &[u8]) -> Result<Table, Refusal> {
    if payload.len() < bytes_for(HEAD_BITS) {
        return refuse(4);
    }
    let signals = read_bits(payload, 0, 8);
    let channels = read_bits(payload, 8, 8);
    let ranks = read_bits(payload, 16, 4);
    let pairs = read_bits(payload, 20, 12);
    if signals > MOST_SIGNALS || channels > MOST_CHANNELS || pairs > MOST_PAIRS {
        return refuse(5);
    }
    if payload.len() != table_payload_bytes(pairs) {
        return refuse(6);
    }
    if !rest_is_zero(payload, entry_bit(pairs)) {
        return refuse(7);
    }
    let table = Table {
        signals: signals as u8,
        channels: channels as u8,
        ranks: ranks as u8,
        pairs: (0..pairs).map(|entry| read_pair(payload, entry)).collect(),
    };
    judge_entries(&table)?;
    Ok(table)
}

/// Rows 8 and 9: the first faulty entry decides, and row 8 within it.
fn judge_entries(table: &Table) -> Result<(), Refusal> {
    for (entry, pair) in table.pairs.iter().enumerate() {
        if !is_in_range(table, pair) {
            return refuse_entry(8, entry);
        }
        if entry > 0 && !stands_above(pair, &table.pairs[entry - 1]) {
            return refuse_entry(9, entry);
        }
    }
    Ok(())
}

fn is_in_range(table: &Table, pair: &Pair) -> bool {
    pair.signal < table.signals
        && pair.channel < table.channels
        && (1..=table.ranks).contains(&pair.rank)
}

fn stands_above(pair: &Pair, before: &Pair) -> bool {
    (pair.signal, pair.channel) > (before.signal, before.channel)
}

// ---- whole commands ----

/// Rows 1 to 11: the table that is to be placed, and how long its answer's block is.
pub fn judge_command(
    block: &[u8],
    area_bytes: usize,
    work_numbers: usize,
) -> Result<Accepted, Refusal> {
    let table = judge_payload(&block[open(block)?])?;
    let answer_block_bytes = answer_block_length(&table);
    if area_bytes < answer_block_bytes {
        return refuse(10);
    }
    if work_numbers < WORK_NUMBERS {
        return refuse(11);
    }
    Ok(Accepted { table, answer_block_bytes })
}

pub fn answer_block_length(table: &Table) -> usize {
    block_length(answer_payload_bytes(table.signals.into(), table.ranks.into()))
}

// ---- answers ----

fn places_bit(ranks: usize) -> usize {
    ANSWER_HEAD_BITS + COUNT_BITS * ranks
}

fn answer_payload_bytes(signals: usize, ranks: usize) -> usize {
    bytes_for(places_bit(ranks) + PLACE_BITS * signals)
}

pub fn pack_answer(answer: &Answer) -> Vec<u8> {
    let (signals, ranks) = (answer.places.len(), answer.counts.len());
    let mut payload = vec![0; answer_payload_bytes(signals, ranks)];
    write_bits(&mut payload, 0, 8, signals);
    write_bits(&mut payload, 8, 4, ranks);
    for (index, &count) in answer.counts.iter().enumerate() {
        write_bits(&mut payload, ANSWER_HEAD_BITS + COUNT_BITS * index, COUNT_BITS, count.into());
    }
    for (signal, place) in answer.places.iter().enumerate() {
        let (channel, rank) = place.map_or((NO_CHANNEL, 0), |seat| (seat.channel, seat.rank));
        let at = places_bit(ranks) + PLACE_BITS * signal;
        write_bits(&mut payload, at, 8, channel.into());
        write_bits(&mut payload, at + 8, 4, rank.into());
    }
    payload
}

/// Reads an answer strictly: whatever packing would not have written is named as a fault.
pub fn unpack_answer(payload: &[u8]) -> Result<Answer, String> {
    if payload.len() < bytes_for(ANSWER_HEAD_BITS) {
        return Err(format!("the answer's payload has only {} bytes", payload.len()));
    }
    let signals = read_bits(payload, 0, 8);
    let ranks = read_bits(payload, 8, 4);
    let needed = answer_payload_bytes(signals, ranks);
    if payload.len() != needed {
        return Err(format!("the answer's payload has {} bytes, not {needed}", payload.len()));
    }
    let count_bit = |index| ANSWER_HEAD_BITS + COUNT_BITS * index;
    let answer = Answer {
        counts: (0..ranks).map(|i| read_bits(payload, count_bit(i), COUNT_BITS) as u8).collect(),
        places: (0..signals).map(|signal| read_place(payload, ranks, signal)).collect(),
    };
    if pack_answer(&answer) != payload {
        return Err("the answer has dirty zero bits or a place that is neither one".into());
    }
    Ok(answer)
}

/// A rank of 0 means unplaced; a channel other than 255 beside it shows when packed again.
fn read_place(payload: &[u8], ranks: usize, signal: usize) -> Option<Seat> {
    let at = places_bit(ranks) + PLACE_BITS * signal;
    let channel = read_bits(payload, at, 8) as u8;
    let rank = read_bits(payload, at + 8, 4) as u8;
    (rank != 0).then_some(Seat { channel, rank })
}

// ---- lines of counts ----

/// Row 5 for two lines, then −1, 0 or 1.
pub fn compare_lines(first: &[Count], second: &[Count]) -> Result<i32, Refusal> {
    let is_line = |line: &[Count]| {
        line.len() <= MOST_RANKS && line.iter().all(|&count| usize::from(count) <= MOST_SIGNALS)
    };
    if !is_line(first) || !is_line(second) {
        return refuse(5);
    }
    Ok(match filled_up(first).cmp(&filled_up(second)) {
        Ordering::Less => -1,
        Ordering::Equal => 0,
        Ordering::Greater => 1,
    })
}

/// Arrays of equal length compare at the first place where they differ.
fn filled_up(line: &[Count]) -> [Count; MOST_RANKS] {
    std::array::from_fn(|index| line.get(index).copied().unwrap_or(0))
}
