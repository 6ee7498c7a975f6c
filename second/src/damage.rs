//! Every kind of damage to a block. What a damaged block deserves is for the codec to say.

use crate::codec::{
    block_of, block_with_digits, entry_bit, open_ended_block, pack_table, read_bits,
    table_payload_bytes, write_bits, Pair, Table, ENTRY_BITS, MOST_CHANNELS, MOST_PAIRS,
    MOST_SIGNALS,
};
use crate::rng::Rng;

/// One kind of damage: it makes a block from an accepted table.
pub struct Damage {
    pub name: &'static str,
    pub block: fn(&mut Rng, &Table) -> Vec<u8>,
}

pub const DAMAGES: &[Damage] = &[
    Damage { name: "empty or random bytes", block: random_bytes },
    Damage { name: "wrong mark", block: wrong_mark },
    Damage { name: "wrong digit of digits", block: wrong_digit_of_digits },
    Damage { name: "wrong count digit", block: wrong_count_digit },
    Damage { name: "header cut", block: header_cut },
    Damage { name: "count off", block: count_off },
    Damage { name: "newline in the middle", block: newline_in_the_middle },
    Damage { name: "newline missing", block: newline_missing },
    Damage { name: "truncated", block: truncated },
    Damage { name: "extended", block: extended },
    Damage { name: "short payload", block: short_payload },
    Damage { name: "signals above 200", block: signals_above },
    Damage { name: "channels above 200", block: channels_above },
    Damage { name: "pairs above 3,000", block: pairs_above },
    Damage { name: "pairs above 3,000, all there", block: pairs_above_all_there },
    Damage { name: "pairs one off", block: pairs_one_off },
    Damage { name: "payload length off", block: payload_length_off },
    Damage { name: "dirty fill", block: dirty_fill },
    Damage { name: "signal out of range", block: signal_out_of_range },
    Damage { name: "channel out of range", block: channel_out_of_range },
    Damage { name: "rank out of range", block: rank_out_of_range },
    Damage { name: "fewer in the head", block: fewer_in_the_head },
    Damage { name: "pair repeated", block: pair_repeated },
    Damage { name: "entries swapped", block: entries_swapped },
    Damage { name: "several entries random", block: several_entries_random },
    Damage { name: "bits flipped", block: bits_flipped },
    Damage { name: "bytes replaced", block: bytes_replaced },
];

// ---- blocks ----

/// The table in one of the forms that read back, if its payload has no newline.
fn any_form(rng: &mut Rng, payload: &[u8]) -> Vec<u8> {
    match rng.below(4) {
        0 => open_ended_block(payload),
        1 => block_with_digits(payload, rng.between(payload.len().to_string().len(), 9)),
        _ => block_of(payload),
    }
}

fn whole(rng: &mut Rng, table: &Table) -> Vec<u8> {
    any_form(rng, &pack_table(table))
}

fn not_a_digit(rng: &mut Rng) -> u8 {
    let bytes = [0, b'/', b':', b' ', b'+', b'-', b'a', b'#', 10, 255, rng.byte() | 0x80];
    *rng.pick(&bytes)
}

fn random_bytes(rng: &mut Rng, _: &Table) -> Vec<u8> {
    let length = rng.below(12);
    let mut block = rng.bytes(length);
    if let (Some(first), false) = (block.first_mut(), rng.once_in(4)) {
        *first = b'#';
    }
    if let (Some(second), true) = (block.get_mut(1), rng.once_in(2)) {
        *second = b'0' + rng.below(10) as u8;
    }
    block
}

fn wrong_mark(rng: &mut Rng, table: &Table) -> Vec<u8> {
    let mut block = whole(rng, table);
    block[0] = *rng.pick(&[0, b'"', b'$', b'!', b'0', 0xA3]);
    block
}

fn wrong_digit_of_digits(rng: &mut Rng, table: &Table) -> Vec<u8> {
    let mut block = whole(rng, table);
    block[1] = if rng.once_in(2) { not_a_digit(rng) } else { b'0' + rng.below(10) as u8 };
    block
}

fn wrong_count_digit(rng: &mut Rng, table: &Table) -> Vec<u8> {
    let payload = pack_table(table);
    let fewest = payload.len().to_string().len();
    let digits = rng.between(fewest, 9);
    let mut block = block_with_digits(&payload, digits);
    block[2 + rng.below(digits)] = not_a_digit(rng);
    block
}

fn header_cut(rng: &mut Rng, table: &Table) -> Vec<u8> {
    let mut block = block_with_digits(&pack_table(table), 9);
    block.truncate(rng.below(12));
    block
}

fn count_off(rng: &mut Rng, table: &Table) -> Vec<u8> {
    let payload = pack_table(table);
    let by = *rng.pick(&[1, 1, 1, 2, 5, 256, 65_536, 900_000_000]);
    let count = if rng.once_in(2) { payload.len() + by } else { payload.len().saturating_sub(by) };
    let count = count.to_string();
    [format!("#{}{count}", count.len()).as_bytes(), &payload].concat()
}

fn newline_in_the_middle(rng: &mut Rng, table: &Table) -> Vec<u8> {
    let mut block = open_ended_block(&pack_table(table));
    let at = rng.between(2, block.len() - 1);
    if rng.once_in(2) {
        block.insert(at, 10);
    } else {
        block[at] = 10;
    }
    block
}

fn newline_missing(rng: &mut Rng, table: &Table) -> Vec<u8> {
    let mut block = open_ended_block(&pack_table(table));
    let last = block.len() - 1;
    if rng.once_in(2) {
        block.truncate(last);
    } else {
        block[last] = *rng.pick(&[0, 9, 11, 13, b'#']);
    }
    block
}

fn truncated(rng: &mut Rng, table: &Table) -> Vec<u8> {
    let mut block = whole(rng, table);
    let cut = rng.between(1, block.len());
    block.truncate(block.len() - if rng.once_in(2) { 1 } else { cut });
    block
}

fn extended(rng: &mut Rng, table: &Table) -> Vec<u8> {
    let mut block = whole(rng, table);
    let length = rng.between(1, 4);
    let more = if rng.once_in(2) { vec![10; length] } else { rng.bytes(length) };
    block.extend(more);
    block
}

// ---- payloads ----

fn short_payload(rng: &mut Rng, _: &Table) -> Vec<u8> {
    let length = rng.below(4);
    let payload = rng.bytes(length);
    any_form(rng, &payload)
}

/// The table with one field of its payload set to something else.
fn with_field(rng: &mut Rng, table: &Table, at: usize, width: usize, value: usize) -> Vec<u8> {
    let mut payload = pack_table(table);
    write_bits(&mut payload, at, width, value);
    any_form(rng, &payload)
}

fn signals_above(rng: &mut Rng, table: &Table) -> Vec<u8> {
    let value = if rng.once_in(4) { 201 } else { rng.between(MOST_SIGNALS, 255) };
    with_field(rng, table, 0, 8, value)
}

fn channels_above(rng: &mut Rng, table: &Table) -> Vec<u8> {
    let value = if rng.once_in(4) { 201 } else { rng.between(MOST_CHANNELS, 255) };
    with_field(rng, table, 8, 8, value)
}

fn pairs_above(rng: &mut Rng, table: &Table) -> Vec<u8> {
    let value = if rng.once_in(4) { MOST_PAIRS + 1 } else { rng.between(MOST_PAIRS, 4_095) };
    with_field(rng, table, 20, 12, value)
}

/// The payload is as long as its head says, only too long.
fn pairs_above_all_there(rng: &mut Rng, table: &Table) -> Vec<u8> {
    let pairs = if rng.once_in(2) { MOST_PAIRS + 1 } else { rng.between(MOST_PAIRS + 1, 4_095) };
    let mut payload = pack_table(table);
    payload.resize(table_payload_bytes(pairs), 0);
    write_bits(&mut payload, 20, 12, pairs);
    any_form(rng, &payload)
}

fn pairs_one_off(rng: &mut Rng, table: &Table) -> Vec<u8> {
    let pairs = table.pairs.len();
    let value = if rng.once_in(2) { pairs + 1 } else { pairs.saturating_sub(1) };
    with_field(rng, table, 20, 12, value)
}

fn payload_length_off(rng: &mut Rng, table: &Table) -> Vec<u8> {
    let mut payload = pack_table(table);
    let by = *rng.pick(&[1, 1, 2, 3, 5, 256, 65_536]);
    if rng.once_in(2) {
        payload.resize(payload.len() + by, 0);
    } else {
        payload.truncate(payload.len().saturating_sub(by));
    }
    any_form(rng, &payload)
}

/// Only an odd number of entries leaves fill bits, so an entry goes where there are none.
fn dirty_fill(rng: &mut Rng, table: &Table) -> Vec<u8> {
    let mut table = table.clone();
    if table.pairs.len().is_multiple_of(2) {
        table.pairs.pop();
    }
    let fill_at = entry_bit(table.pairs.len());
    let mut payload = pack_table(&table);
    let fill_bits = 8 * payload.len() - fill_at;
    if fill_bits > 0 {
        write_bits(&mut payload, fill_at + rng.below(fill_bits), 1, 1);
    }
    any_form(rng, &payload)
}

// ---- entries ----

/// A field of a random entry set to something else; an empty table stays whole.
fn with_entry_field(
    rng: &mut Rng,
    table: &Table,
    offset: usize,
    width: usize,
    value: usize,
) -> Vec<u8> {
    if table.pairs.is_empty() {
        return whole(rng, table);
    }
    let entry = rng.below(table.pairs.len());
    with_field(rng, table, entry_bit(entry) + offset, width, value)
}

fn signal_out_of_range(rng: &mut Rng, table: &Table) -> Vec<u8> {
    let least = table.signals.into();
    let value = if rng.once_in(2) { least } else { rng.between(least, 255) };
    with_entry_field(rng, table, 0, 8, value)
}

fn channel_out_of_range(rng: &mut Rng, table: &Table) -> Vec<u8> {
    let least = table.channels.into();
    let value = if rng.once_in(2) { least } else { rng.between(least, 255) };
    with_entry_field(rng, table, 8, 8, value)
}

fn rank_out_of_range(rng: &mut Rng, table: &Table) -> Vec<u8> {
    let above = usize::from(table.ranks) + 1;
    let value = if rng.once_in(2) || above > 15 { 0 } else { rng.between(above, 15) };
    with_entry_field(rng, table, 16, 4, value)
}

/// The head allows fewer signals, channels or ranks than the entries use.
fn fewer_in_the_head(rng: &mut Rng, table: &Table) -> Vec<u8> {
    let payload = pack_table(table);
    let (at, width) = *rng.pick(&[(0, 8), (8, 8), (16, 4)]);
    let fewer = read_bits(&payload, at, width).saturating_sub(rng.between(1, 3));
    with_field(rng, table, at, width, fewer)
}

fn with_pairs(rng: &mut Rng, table: &Table, change: impl Fn(&mut Rng, &mut Vec<Pair>)) -> Vec<u8> {
    let mut table = table.clone();
    if !table.pairs.is_empty() {
        change(rng, &mut table.pairs);
    }
    whole(rng, &table)
}

fn pair_repeated(rng: &mut Rng, table: &Table) -> Vec<u8> {
    with_pairs(rng, table, |rng, pairs| {
        let (from, to) = (rng.below(pairs.len()), rng.below(pairs.len()));
        if rng.once_in(2) && pairs.len() < MOST_PAIRS {
            pairs.insert(from, pairs[from]);
        } else {
            pairs[to] = pairs[from];
        }
    })
}

fn entries_swapped(rng: &mut Rng, table: &Table) -> Vec<u8> {
    with_pairs(rng, table, |rng, pairs| {
        let first = rng.below(pairs.len());
        let neighbour = (first + 1).min(pairs.len() - 1);
        let second = if rng.once_in(2) { neighbour } else { rng.below(pairs.len()) };
        pairs.swap(first, second);
    })
}

/// Several faults at once, so that rows 8 and 9 compete.
fn several_entries_random(rng: &mut Rng, table: &Table) -> Vec<u8> {
    let mut payload = pack_table(table);
    for _ in 0..rng.between(1, 4) {
        if !table.pairs.is_empty() {
            let at = entry_bit(rng.below(table.pairs.len()));
            write_bits(&mut payload, at, ENTRY_BITS, rng.below(1 << ENTRY_BITS));
        }
    }
    any_form(rng, &payload)
}

// ---- anything anywhere ----

fn bits_flipped(rng: &mut Rng, table: &Table) -> Vec<u8> {
    let mut block = whole(rng, table);
    for _ in 0..rng.between(1, 3) {
        let at = rng.below(block.len());
        block[at] ^= 1 << rng.below(8);
    }
    block
}

fn bytes_replaced(rng: &mut Rng, table: &Table) -> Vec<u8> {
    let mut block = whole(rng, table);
    for _ in 0..rng.between(1, 3) {
        let at = rng.below(block.len());
        block[at] = rng.byte();
    }
    block
}
