//! Two ways to the best counts, neither of them rank by rank.
//!
//! `by_trying_all` follows the definition: it walks through every plan. `by_assignment` finds
//! a plan of greatest weight, where one signal at a rank outweighs 200 at all later ranks.

use crate::codec::{Pair, Seat, Table, MOST_SIGNALS};
use crate::steps::Count;

/// What walking through every plan finds.
#[derive(Debug, PartialEq, Eq)]
pub struct Tried {
    pub counts: Vec<Count>,
    /// How many plans share the best counts.
    pub best_plans: usize,
}

/// A plan, as a seat for each signal.
pub type Plan = Vec<Option<Seat>>;

/// How many choices `by_trying_all` walks through at most, cut off at `limit`.
pub fn choices(table: &Table, limit: usize) -> usize {
    lists(table).iter().fold(1, |product: usize, list| (product * (list.len() + 1)).min(limit))
}

/// The pairs of each signal.
fn lists(table: &Table) -> Vec<Vec<Pair>> {
    let mut lists = vec![Vec::new(); table.signals.into()];
    for pair in &table.pairs {
        lists[usize::from(pair.signal)].push(*pair);
    }
    lists
}

pub fn counts_of(plan: &[Option<Seat>], ranks: u8) -> Vec<Count> {
    let mut counts = vec![0; ranks.into()];
    for seat in plan.iter().flatten() {
        counts[usize::from(seat.rank) - 1] += 1;
    }
    counts
}

// ---- every plan ----

pub fn by_trying_all(table: &Table) -> Tried {
    let zeros = vec![0; table.ranks.into()];
    let mut walk = Walk {
        lists: lists(table),
        taken: vec![false; table.channels.into()],
        counts: zeros.clone(),
        best: Tried { counts: zeros, best_plans: 0 },
    };
    walk.choose_for(0);
    walk.best
}

struct Walk {
    lists: Vec<Vec<Pair>>,
    taken: Vec<bool>,
    counts: Vec<Count>,
    best: Tried,
}

impl Walk {
    fn choose_for(&mut self, signal: usize) {
        if signal == self.lists.len() {
            self.note_plan();
            return;
        }
        self.choose_for(signal + 1);
        for index in 0..self.lists[signal].len() {
            let Pair { channel, rank, .. } = self.lists[signal][index];
            let (channel, rank) = (usize::from(channel), usize::from(rank) - 1);
            if !self.taken[channel] {
                self.taken[channel] = true;
                self.counts[rank] += 1;
                self.choose_for(signal + 1);
                self.counts[rank] -= 1;
                self.taken[channel] = false;
            }
        }
    }

    /// Lines of equal length compare as the paper orders them.
    fn note_plan(&mut self) {
        if self.counts > self.best.counts {
            self.best = Tried { counts: self.counts.clone(), best_plans: 1 };
        } else if self.counts == self.best.counts {
            self.best.best_plans += 1;
        }
    }
}

// ---- the plan of greatest weight ----

/// Weights are numbers in base 201 with one digit for each rank, rank 1 foremost. A plan's
/// weight has its counts as digits, none above 200, so greater weight is a greater line. No
/// value below exceeds twice 201^15, which is less than 2^116.
type Weight = i128;

const BASE: Weight = MOST_SIGNALS as Weight + 1;

fn weight(table: &Table, rank: u8) -> Weight {
    BASE.pow(u32::from(table.ranks - rank))
}

pub fn by_assignment(table: &Table) -> Plan {
    let mut assignment = Assignment::new(table);
    for signal in 0..assignment.offers.len() {
        assignment.insert(signal);
    }
    assignment.assert_greatest();
    assignment.seat_of
}

pub fn best_counts(table: &Table) -> Vec<Count> {
    counts_of(&by_assignment(table), table.ranks)
}

#[derive(Clone, Copy)]
struct Offer {
    seat: Seat,
    weight: Weight,
}

/// A plan over the signals inserted so far, and prices that show that its weight is greatest:
/// no price is negative, the two prices of a pair cover its weight, and exactly so where the
/// pair is used; whoever is left out has price 0.
struct Assignment {
    offers: Vec<Vec<Offer>>,
    signal_price: Vec<Weight>,
    channel_price: Vec<Weight>,
    seat_of: Plan,
    holder_of: Vec<Option<usize>>,
}

/// How a search from a new signal ends: a channel is free, or some signal gives way.
#[derive(Clone, Copy)]
enum End {
    Channel(usize),
    Signal(usize),
}

/// Shortest distances from a new signal, measured in spare price along alternating paths.
struct Distances {
    to_channel: Vec<Option<Weight>>,
    /// The signal and seat by which a channel's distance was found.
    by: Vec<Option<(usize, Seat)>>,
    settled_channels: Vec<(usize, Weight)>,
    settled_signals: Vec<(usize, Weight)>,
}

impl Assignment {
    fn new(table: &Table) -> Self {
        let offer = |pair: &Pair| Offer {
            seat: Seat { channel: pair.channel, rank: pair.rank },
            weight: weight(table, pair.rank),
        };
        let offers = lists(table).iter().map(|list| list.iter().map(offer).collect()).collect();
        let (signals, channels) = (table.signals.into(), table.channels.into());
        Assignment {
            offers,
            signal_price: vec![0; signals],
            channel_price: vec![0; channels],
            seat_of: vec![None; signals],
            holder_of: vec![None; channels],
        }
    }

    fn insert(&mut self, root: usize) {
        self.signal_price[root] = self.price_that_covers(root);
        let (distances, end, length) = self.shortest_path(root);
        self.move_prices(&distances, length);
        self.flip(&distances, end);
    }

    fn price_that_covers(&self, signal: usize) -> Weight {
        let missing = |offer: &Offer| offer.weight - self.channel_price[channel_of(offer)];
        self.offers[signal].iter().map(missing).max().unwrap_or(0).max(0)
    }

    /// Dijkstra's search; spare prices are never negative.
    fn shortest_path(&self, root: usize) -> (Distances, End, Weight) {
        let channels = self.channel_price.len();
        let mut distances = Distances {
            to_channel: vec![None; channels],
            by: vec![None; channels],
            settled_channels: Vec::new(),
            settled_signals: Vec::new(),
        };
        let mut settled = vec![false; channels];
        let mut end = (End::Signal(root), self.signal_price[root]);
        let (mut signal, mut distance) = (root, 0);
        loop {
            if distance + self.signal_price[signal] < end.1 {
                end = (End::Signal(signal), distance + self.signal_price[signal]);
            }
            self.relax(&mut distances, signal, distance);
            let Some((channel, nearest)) = self.nearest(&distances, &settled) else { break };
            if nearest >= end.1 {
                break;
            }
            settled[channel] = true;
            let Some(holder) = self.holder_of[channel] else {
                end = (End::Channel(channel), nearest);
                break;
            };
            distances.settled_channels.push((channel, nearest));
            (signal, distance) = (holder, nearest);
        }
        (distances, end.0, end.1)
    }

    fn relax(&self, distances: &mut Distances, signal: usize, distance: Weight) {
        distances.settled_signals.push((signal, distance));
        for offer in &self.offers[signal] {
            let channel = channel_of(offer);
            let spare = self.signal_price[signal] + self.channel_price[channel] - offer.weight;
            let known = &mut distances.to_channel[channel];
            if known.is_none_or(|known| distance + spare < known) {
                *known = Some(distance + spare);
                distances.by[channel] = Some((signal, offer.seat));
            }
        }
    }

    /// Among channels equally near a free one comes first, because it ends the search.
    fn nearest(&self, distances: &Distances, settled: &[bool]) -> Option<(usize, Weight)> {
        let reached = distances.to_channel.iter().enumerate();
        reached
            .filter(|&(channel, _)| !settled[channel])
            .filter_map(|(channel, distance)| distance.map(|distance| (channel, distance)))
            .min_by_key(|&(channel, distance)| (distance, self.holder_of[channel].is_some()))
    }

    fn move_prices(&mut self, distances: &Distances, length: Weight) {
        for &(signal, distance) in &distances.settled_signals {
            self.signal_price[signal] -= length - distance;
        }
        for &(channel, distance) in &distances.settled_channels {
            self.channel_price[channel] += length - distance;
        }
    }

    /// From the path's end back to the new signal, each signal moves to the next channel.
    fn flip(&mut self, distances: &Distances, end: End) {
        let mut open_channel = match end {
            End::Channel(channel) => Some(channel),
            End::Signal(signal) => self.seat_of[signal].take().map(|seat| seat.channel.into()),
        };
        while let Some(channel) = open_channel {
            let (signal, seat) = distances.by[channel].expect("a channel on the path was reached");
            let left = self.seat_of[signal].replace(seat);
            self.holder_of[channel] = Some(signal);
            open_channel = left.map(|seat| seat.channel.into());
        }
    }

    /// The certificate: by the prices no plan can weigh more than this one.
    fn assert_greatest(&self) {
        let prices = || self.signal_price.iter().chain(&self.channel_price);
        assert!(prices().all(|&price| price >= 0), "no price is negative");
        let mut plan_weight = 0;
        for (signal, offers) in self.offers.iter().enumerate() {
            for offer in offers {
                let covered = self.signal_price[signal] + self.channel_price[channel_of(offer)];
                assert!(covered >= offer.weight, "the prices of a pair cover its weight");
                if self.seat_of[signal] == Some(offer.seat) {
                    plan_weight += offer.weight;
                }
            }
        }
        assert_eq!(plan_weight, prices().sum::<Weight>(), "the plan weighs all that is paid");
    }
}

fn channel_of(offer: &Offer) -> usize {
    offer.seat.channel.into()
}
