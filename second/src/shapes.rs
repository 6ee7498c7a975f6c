//! Tables of many shapes. Every table made here is one that the rules accept.

use crate::codec::{Pair, Table, MOST_PAIRS, MOST_RANKS, MOST_SIGNALS};
use crate::rng::Rng;

/// How large a table is wanted; a shape may have fewer pairs than `pairs`, never more.
#[derive(Clone, Copy, Debug)]
pub struct Size {
    pub signals: usize,
    pub channels: usize,
    pub ranks: usize,
    pub pairs: usize,
}

impl Size {
    pub const FULL: Size = Size {
        signals: MOST_SIGNALS,
        channels: MOST_SIGNALS,
        ranks: MOST_RANKS,
        pairs: MOST_PAIRS,
    };

    fn rank(&self, rng: &mut Rng) -> usize {
        rng.between(1, self.ranks)
    }

    /// How many channels each signal lists when the pairs are shared out evenly.
    fn list_length(&self) -> usize {
        (self.pairs / self.signals).clamp(1, self.channels)
    }

    fn has_room(&self) -> bool {
        self.signals > 0 && self.channels > 0 && self.ranks > 0
    }
}

/// A signal, a channel and a rank.
type Listed = (usize, usize, usize);

/// A shape makes a list of pairs for a size that has signals, channels and ranks.
pub struct Shape {
    pub name: &'static str,
    pairs: fn(&mut Rng, &Size) -> Vec<Listed>,
}

pub const SHAPES: &[Shape] = &[
    Shape { name: "scattered", pairs: scattered },
    Shape { name: "sparse", pairs: sparse },
    Shape { name: "dense", pairs: dense },
    Shape { name: "ties", pairs: ties },
    Shape { name: "gaps", pairs: gaps },
    Shape { name: "chains", pairs: chains },
    Shape { name: "bands", pairs: bands },
    Shape { name: "bands backwards", pairs: bands_backwards },
    Shape { name: "crowded", pairs: crowded },
    Shape { name: "strict lists", pairs: strict_lists },
    Shape { name: "stairs", pairs: stairs },
    Shape { name: "halves", pairs: halves },
    Shape { name: "pushes", pairs: pushes },
    Shape { name: "spare channels", pairs: spare_channels },
    Shape { name: "no pairs", pairs: no_pairs },
];

impl Shape {
    pub fn named(name: &str) -> &'static Shape {
        SHAPES.iter().find(|shape| shape.name == name).expect("the shape is in the list")
    }

    pub fn table(&self, rng: &mut Rng, size: &Size) -> Table {
        let listed = if size.has_room() { (self.pairs)(rng, size) } else { Vec::new() };
        table(rng, size, listed)
    }
}

/// The first mention of a pair counts; what is too much is dropped at random.
fn table(rng: &mut Rng, size: &Size, mut listed: Vec<Listed>) -> Table {
    listed.sort_by_key(|&(signal, channel, _)| (signal, channel));
    listed.dedup_by_key(|&mut (signal, channel, _)| (signal, channel));
    rng.shuffle(&mut listed);
    listed.truncate(size.pairs.min(MOST_PAIRS));
    listed.sort_unstable();
    let pair = |&(signal, channel, rank): &Listed| Pair {
        signal: signal as u8,
        channel: channel as u8,
        rank: rank as u8,
    };
    Table {
        signals: size.signals as u8,
        channels: size.channels as u8,
        ranks: size.ranks as u8,
        pairs: listed.iter().map(pair).collect(),
    }
}

/// The same table with its signals and channels numbered anew, so that their order says nothing.
pub fn relabelled(rng: &mut Rng, table: &Table) -> Table {
    let mut signals: Vec<u8> = (0..table.signals).collect();
    let mut channels: Vec<u8> = (0..table.channels).collect();
    rng.shuffle(&mut signals);
    rng.shuffle(&mut channels);
    let renamed = |pair: &Pair| Pair {
        signal: signals[usize::from(pair.signal)],
        channel: channels[usize::from(pair.channel)],
        rank: pair.rank,
    };
    let mut pairs: Vec<Pair> = table.pairs.iter().map(renamed).collect();
    pairs.sort_unstable();
    Table { pairs, ..*table }
}

fn every_pair(size: &Size) -> impl Iterator<Item = (usize, usize)> {
    let channels = size.channels;
    (0..size.signals).flat_map(move |signal| (0..channels).map(move |channel| (signal, channel)))
}

fn no_pairs(_: &mut Rng, _: &Size) -> Vec<Listed> {
    Vec::new()
}

/// Anything anywhere, about half of what fits.
fn scattered(rng: &mut Rng, size: &Size) -> Vec<Listed> {
    let wanted = rng.between(1, size.pairs.max(1));
    let random =
        |rng: &mut Rng| (rng.below(size.signals), rng.below(size.channels), size.rank(rng));
    (0..wanted).map(|_| random(rng)).collect()
}

/// None to three channels for each signal.
fn sparse(rng: &mut Rng, size: &Size) -> Vec<Listed> {
    let mut listed = Vec::new();
    for signal in 0..size.signals {
        for _ in 0..rng.below(4) {
            listed.push((signal, rng.below(size.channels), size.rank(rng)));
        }
    }
    listed
}

/// As many pairs as fit.
fn dense(rng: &mut Rng, size: &Size) -> Vec<Listed> {
    every_pair(size).map(|(signal, channel)| (signal, channel, size.rank(rng))).collect()
}

/// All channels of a signal stand at one rank.
fn ties(rng: &mut Rng, size: &Size) -> Vec<Listed> {
    let rank_of: Vec<usize> = (0..size.signals).map(|_| size.rank(rng)).collect();
    every_pair(size).map(|(signal, channel)| (signal, channel, rank_of[signal])).collect()
}

/// Only two or three of the ranks occur.
fn gaps(rng: &mut Rng, size: &Size) -> Vec<Listed> {
    let used: Vec<usize> = (0..rng.between(2, 3)).map(|_| size.rank(rng)).collect();
    let mut listed = scattered(rng, size);
    for pair in &mut listed {
        pair.2 = *rng.pick(&used);
    }
    listed
}

/// Each signal joins two neighbouring channels, and now and then a chain ends. A signal at the
/// far end can be placed only if the whole chain moves.
fn chains(rng: &mut Rng, size: &Size) -> Vec<Listed> {
    let most_links = size.channels.min(size.signals);
    let later = size.rank(rng);
    let mut listed = Vec::new();
    for link in 0..most_links {
        listed.push((link, link, 1));
        let next = (link + 1) % size.channels;
        listed.push((link, next, if rng.once_in(40) { size.rank(rng) } else { later }));
    }
    for signal in most_links..size.signals {
        listed.push((signal, rng.below(size.channels), 1));
    }
    listed
}

/// The channels from a signal's own number on, farther ones at later ranks.
fn bands(_: &mut Rng, size: &Size) -> Vec<Listed> {
    band(size, |step, width| step * size.ranks / width + 1)
}

/// The channels from a signal's own number on, farther ones at earlier ranks.
fn bands_backwards(_: &mut Rng, size: &Size) -> Vec<Listed> {
    band(size, |step, width| size.ranks - step * size.ranks / width)
}

fn band(size: &Size, rank: impl Fn(usize, usize) -> usize) -> Vec<Listed> {
    let width = size.list_length();
    let mut listed = Vec::new();
    for signal in 0..size.signals {
        for step in 0..width {
            listed.push((signal, (signal + step) % size.channels, rank(step, width)));
        }
    }
    listed
}

/// Everybody wants the same few channels first and the others later.
fn crowded(rng: &mut Rng, size: &Size) -> Vec<Listed> {
    let wanted = size.channels.div_ceil(8);
    let mut listed = Vec::new();
    for signal in 0..size.signals {
        for _ in 0..size.list_length() {
            let popular = rng.once_in(2);
            let channel = rng.below(if popular { wanted } else { size.channels });
            let rank =
                if popular { rng.between(1, size.ranks.div_ceil(3)) } else { size.rank(rng) };
            listed.push((signal, channel, rank));
        }
    }
    listed
}

/// Every signal's channels in an order of its own, no two at one rank.
fn strict_lists(rng: &mut Rng, size: &Size) -> Vec<Listed> {
    let mut channels: Vec<usize> = (0..size.channels).collect();
    let mut listed = Vec::new();
    for signal in 0..size.signals {
        rng.shuffle(&mut channels);
        let longest = size.list_length().min(size.ranks);
        let ranked = channels.iter().take(longest).zip(1..);
        listed.extend(ranked.map(|(&channel, rank)| (signal, channel, rank)));
    }
    listed
}

/// Later signals list more channels, higher channels at later ranks: a single largest plan.
fn stairs(_: &mut Rng, size: &Size) -> Vec<Listed> {
    let on_or_below = |&(signal, channel): &(usize, usize)| channel <= signal;
    let rank = |channel: usize| channel * size.ranks / size.channels + 1;
    every_pair(size)
        .filter(on_or_below)
        .map(|(signal, channel)| (signal, channel, rank(channel)))
        .collect()
}

/// The first half is placed at rank 1. The other half lists the same channels at later ranks,
/// and its searches through them find nothing.
fn halves(rng: &mut Rng, size: &Size) -> Vec<Listed> {
    let placed = size.signals.min(size.channels).div_ceil(2);
    let width = size.list_length().min(placed);
    let mut listed = Vec::new();
    for signal in 0..size.signals {
        for step in 0..width {
            let rank = if signal < placed { 1 } else { rng.between(2.min(size.ranks), size.ranks) };
            listed.push((signal, (signal + step) % placed, rank));
        }
    }
    listed
}

/// Half the signals sit in a band, the others all push in at its beginning.
fn pushes(rng: &mut Rng, size: &Size) -> Vec<Listed> {
    let settled = size.signals.div_ceil(2);
    let width = size.list_length();
    let mut listed = Vec::new();
    for signal in 0..size.signals {
        let (start, rank) = if signal < settled { (signal, 1) } else { (0, size.rank(rng)) };
        for step in 0..width {
            listed.push((signal, (start + step) % size.channels, rank));
        }
    }
    listed
}

/// Groups share, at rank 1, one channel more than they have members. Two latecomers to each
/// list one channel of it: the first gets in if a member moves to the spare one, the other not.
fn spare_channels(rng: &mut Rng, size: &Size) -> Vec<Listed> {
    let mut listed = Vec::new();
    let (mut signal, mut channel) = (0, 0);
    while signal < size.signals && channel < size.channels {
        let members = rng.between(1, 24).min(size.signals - signal);
        let shared = (members + 1).min(size.channels - channel);
        for member in signal..signal + members {
            listed.extend((channel..channel + shared).map(|channel| (member, channel, 1)));
        }
        signal += members;
        for latecomer in signal..(signal + 2).min(size.signals) {
            listed.push((latecomer, channel + rng.below(shared), size.rank(rng)));
        }
        signal += 2;
        channel += shared;
    }
    listed
}

/// Any shape in any size, small ones most often.
pub fn any(rng: &mut Rng) -> (&'static str, Table) {
    let size = any_size(rng);
    let shape = rng.pick(SHAPES);
    let table = shape.table(rng, &size);
    let table = if rng.once_in(2) { relabelled(rng, &table) } else { table };
    (shape.name, table)
}

fn any_size(rng: &mut Rng) -> Size {
    let most = *rng.pick(&[4, 4, 6, 6, 12, 30, 80, MOST_SIGNALS]);
    let ranks = match rng.below(6) {
        0 => 1,
        1 => 3,
        2 => MOST_RANKS,
        3 => 2,
        _ => rng.between(1, MOST_RANKS),
    };
    let size = Size {
        signals: rng.between(1, most),
        channels: rng.between(1, most),
        ranks,
        pairs: rng.between(1, MOST_PAIRS.min(most * most)),
    };
    match rng.below(24) {
        0 => Size::FULL,
        1 => Size { ranks, ..Size::FULL },
        2 => Size { signals: most, channels: most, ..size },
        3 => without_something(rng, size),
        _ => size,
    }
}

/// No signals, no channels or no ranks: the table is accepted, and nothing can be placed.
fn without_something(rng: &mut Rng, size: Size) -> Size {
    match rng.below(3) {
        0 => Size { signals: 0, ..size },
        1 => Size { channels: 0, ..size },
        _ => Size { ranks: 0, ..size },
    }
}

/// Every table with up to three signals, channels and ranks, as long as there are not more than
/// `limit` of one size.
pub fn every_tiny_table(limit: usize) -> impl Iterator<Item = Table> {
    let sizes = (0..=3).flat_map(|signals| {
        (0..=3).flat_map(move |channels| (0..=3).map(move |ranks| (signals, channels, ranks)))
    });
    sizes
        .map(|(signals, channels, ranks): (usize, usize, usize)| {
            let tables = (ranks + 1).pow((signals * channels) as u32);
            (Size { signals, channels, ranks, pairs: signals * channels }, tables)
        })
        .filter(move |&(_, tables)| tables <= limit)
        .flat_map(|(size, tables)| (0..tables).map(move |number| tiny_table(&size, number)))
}

/// The digits of `number` are the pairs' ranks; 0 means that the pair is not listed.
fn tiny_table(size: &Size, mut number: usize) -> Table {
    let mut pairs = Vec::new();
    for (signal, channel) in every_pair(size) {
        let rank = (number % (size.ranks + 1)) as u8;
        number /= size.ranks + 1;
        if rank > 0 {
            pairs.push(Pair { signal: signal as u8, channel: channel as u8, rank });
        }
    }
    Table {
        signals: size.signals as u8,
        channels: size.channels as u8,
        ranks: size.ranks as u8,
        pairs,
    }
}

#[cfg(test)]
mod tests {
    use super::*;
    use crate::codec::{judge_payload, pack_table};

    #[test]
    fn every_table_made_here_is_accepted_and_reads_back() {
        let mut rng = Rng::new(7);
        for _ in 0..2_000 {
            let (name, table) = any(&mut rng);
            assert_eq!(judge_payload(&pack_table(&table)).as_ref(), Ok(&table), "{name}");
        }
    }

    #[test]
    fn full_size_is_reached() {
        let table = Shape::named("dense").table(&mut Rng::new(1), &Size::FULL);
        assert_eq!((table.signals, table.channels, table.pairs.len()), (200, 200, 3_000));
    }
}
