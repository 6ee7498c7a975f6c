//! The paper's worked example, its small tables and its list of edges.

use crate::codec::{block_of, pack_table, Pair, Table};
use crate::steps::{Count, Refusal};

/// One of the paper's small tables with its best counts.
pub struct Small {
    pub name: &'static str,
    pub table: Table,
    pub best: &'static [Count],
}

pub const TABLE_A_BLOCK: [u8; 16] = [
    0x23, 0x32, 0x31, 0x32, 0x02, 0x02, 0x20, 0x03, 0x00, 0x00, 0x10, 0x00, 0x12, 0x01, 0x00, 0x10,
];

pub const TABLE_A_ANSWER: [u8; 10] = [0x23, 0x31, 0x37, 0x02, 0x20, 0x01, 0x01, 0x01, 0x20, 0x01];

/// A pair is written as signal, channel and rank.
fn table(signals: u8, channels: u8, ranks: u8, pairs: &[(u8, u8, u8)]) -> Table {
    let pair = |&(signal, channel, rank): &(u8, u8, u8)| Pair { signal, channel, rank };
    Table { signals, channels, ranks, pairs: pairs.iter().map(pair).collect() }
}

pub fn small_tables() -> Vec<Small> {
    let small = |name, table, best| Small { name, table, best };
    vec![
        small("A", table(2, 2, 2, &[(0, 0, 1), (0, 1, 2), (1, 0, 1)]), &[1, 1]),
        small("B", table(2, 2, 3, &[(0, 0, 1), (0, 1, 2), (1, 0, 2)]), &[1, 0, 0]),
        small("D", table(3, 2, 2, &[(0, 0, 1), (0, 1, 1), (1, 0, 2), (2, 1, 2)]), &[1, 1]),
        small("E", table(3, 2, 2, &[(0, 0, 1), (0, 1, 1), (1, 0, 1), (2, 1, 2)]), &[2, 0]),
        small("F", table(1, 1, 3, &[(0, 0, 3)]), &[0, 0, 1]),
        small("G", table(0, 0, 2, &[]), &[0, 0]),
        small("H", table(1, 1, 0, &[]), &[]),
        small("I", table(1, 2, 2, &[(0, 0, 1), (0, 1, 2)]), &[1, 0]),
        small("J", table(1, 2, 3, &[(0, 0, 1), (0, 1, 2)]), &[1, 0, 0]),
        small("K", table(2, 2, 1, &[(0, 0, 1), (1, 0, 1)]), &[1]),
    ]
}

/// A block of the edge list, and what the paper says of it; `None` means that it is read.
pub struct Edge {
    pub name: &'static str,
    pub block: Vec<u8>,
    pub refusal: Option<Refusal>,
}

pub fn edges() -> Vec<Edge> {
    let read = |name, block| Edge { name, block, refusal: None };
    let refused =
        |name, block, number, place| Edge { name, block, refusal: Some(Refusal { number, place }) };
    vec![
        read("S = 200", block_of(&[200, 0, 0, 0])),
        refused("S = 201", block_of(&[201, 0, 0, 0]), 5, 0),
        read("P = 3,000", table_block(&many_pairs(3_000))),
        refused("P = 3,001", table_block(&many_pairs(3_001)), 5, 0),
        refused("#10", b"#10".to_vec(), 4, 0),
        refused("# alone", b"#".to_vec(), 2, 0),
        refused("#9 and eight digits", b"#900000000".to_vec(), 2, 0),
        refused("#15 and four bytes", b"#15\0\0\0\0".to_vec(), 3, 0),
        refused("rank 0", table_block(&table(1, 1, 1, &[(0, 0, 0)])), 8, 0),
        refused("a pair twice", table_block(&table(1, 1, 1, &[(0, 0, 1), (0, 0, 1)])), 9, 1),
    ]
}

fn table_block(table: &Table) -> Vec<u8> {
    block_of(&pack_table(table))
}

/// The first `count` pairs of 200 signals and 200 channels, all at rank 1.
fn many_pairs(count: usize) -> Table {
    let pair =
        |index: usize| Pair { signal: (index / 200) as u8, channel: (index % 200) as u8, rank: 1 };
    Table { signals: 200, channels: 200, ranks: 1, pairs: (0..count).map(pair).collect() }
}
