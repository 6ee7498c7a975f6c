//! A plain, quick placer without proofs, rank by rank: the yardstick for speed.
//!
//! It does the whole command on lent memory alone and shares nothing with `codec`. All indexing
//! is checked; signals and channels are bytes and their rooms have 256 numbers, so the compiler
//! drops most of those checks by itself.

use std::ops::Range;

use crate::steps::{Refusal, WORK_NUMBERS};

const MOST_SIGNALS: u8 = 200;
const MOST_CHANNELS: u8 = 200;
const MOST_PAIRS: u16 = 3_000;
const LONGEST_PAYLOAD: usize = 7_504;
const HEAD_BYTES: usize = 4;
const RANK_SLOTS: usize = 16;

fn refusal(number: u32) -> Refusal {
    Refusal { number, place: 0 }
}

/// The whole command; gives the length of the answer's block.
pub fn handle(block: &[u8], area: &mut [u8], work: &mut [u16]) -> Result<usize, Refusal> {
    let payload = &block[open(block)?];
    let head = check(payload)?;
    let answer_bytes = 2 + usize::from(head.ranks) + (3 * usize::from(head.signals)).div_ceil(2);
    let header_bytes = header_length(answer_bytes);
    let Some(area) = area.get_mut(..header_bytes + answer_bytes) else {
        return Err(refusal(10));
    };
    let Some(work) = work.first_chunk_mut::<WORK_NUMBERS>() else {
        return Err(refusal(11));
    };
    let mut placer = Placer::unpack(&head, &payload[HEAD_BYTES..], work);
    placer.place();
    write_header(area, answer_bytes);
    write_answer(&head, placer.seat_of, &mut area[header_bytes..]);
    work.fill(0);
    Ok(header_bytes + answer_bytes)
}

// ---- blocks ----

pub fn open(block: &[u8]) -> Result<Range<usize>, Refusal> {
    match *block {
        [b'#', b'0', ref rest @ ..] => match rest.iter().position(|&byte| byte == b'\n') {
            Some(at) if at + 1 == rest.len() => Ok(2..2 + at),
            _ => Err(refusal(3)),
        },
        [b'#', digits @ b'1'..=b'9', ref rest @ ..] => {
            let digits = usize::from(digits - b'0');
            let count = rest.get(..digits).ok_or(refusal(2))?;
            let announced = decimal(count).ok_or(refusal(2))?;
            if announced == rest.len() - digits {
                Ok(2 + digits..block.len())
            } else {
                Err(refusal(3))
            }
        }
        [b'#', ..] => Err(refusal(2)),
        _ => Err(refusal(1)),
    }
}

fn decimal(digits: &[u8]) -> Option<usize> {
    digits.iter().try_fold(0, |value, digit| {
        digit.is_ascii_digit().then(|| 10 * value + usize::from(digit - b'0'))
    })
}

pub fn frame(payload: &[u8], area: &mut [u8]) -> Result<usize, Refusal> {
    if payload.len() > LONGEST_PAYLOAD {
        return Err(refusal(6));
    }
    let start = header_length(payload.len());
    let block = area.get_mut(..start + payload.len()).ok_or(refusal(10))?;
    write_header(block, payload.len());
    block[start..].copy_from_slice(payload);
    Ok(block.len())
}

fn header_length(payload_bytes: usize) -> usize {
    match payload_bytes {
        0..=9 => 3,
        10..=99 => 4,
        100..=999 => 5,
        _ => 6,
    }
}

fn write_header(block: &mut [u8], payload_bytes: usize) {
    let end = header_length(payload_bytes);
    block[0] = b'#';
    block[1] = b'0' + (end - 2) as u8;
    let mut left = payload_bytes;
    for digit in block[2..end].iter_mut().rev() {
        *digit = b'0' + (left % 10) as u8;
        left /= 10;
    }
}

// ---- tables ----

/// An accepted table's head, and how many pairs stand at each rank.
pub struct Head {
    pub signals: u8,
    pub channels: u8,
    pub ranks: u8,
    pub pairs: u16,
    at_rank: [u16; RANK_SLOTS],
}

pub fn check(payload: &[u8]) -> Result<Head, Refusal> {
    let [signals, channels, high, low, body @ ..] = payload else {
        return Err(refusal(4));
    };
    let mut head = Head {
        signals: *signals,
        channels: *channels,
        ranks: high >> 4,
        pairs: u16::from(high & 15) << 8 | u16::from(*low),
        at_rank: [0; RANK_SLOTS],
    };
    if head.signals > MOST_SIGNALS || head.channels > MOST_CHANNELS || head.pairs > MOST_PAIRS {
        return Err(refusal(5));
    }
    if body.len() != (5 * usize::from(head.pairs)).div_ceil(2) {
        return Err(refusal(6));
    }
    if head.pairs % 2 == 1 && body[body.len() - 1] & 15 != 0 {
        return Err(refusal(7));
    }
    check_entries(&mut head, body)?;
    Ok(head)
}

fn check_entries(head: &mut Head, body: &[u8]) -> Result<(), Refusal> {
    let mut lowest = 0;
    let mut place = 0;
    for_each_entry(body, |entry| {
        let Entry { signal, channel, rank } = Entry::of(entry);
        // A rank of 0 wraps round and is above every other.
        let in_range = (signal < head.signals)
            & (channel < head.channels)
            & (rank.wrapping_sub(1) < head.ranks);
        if !in_range {
            return Err(Refusal { number: 8, place });
        }
        let pair = entry >> 4;
        if pair < lowest {
            return Err(Refusal { number: 9, place });
        }
        lowest = pair + 1;
        head.at_rank[usize::from(rank)] += 1;
        place += 1;
        Ok(())
    })
}

/// The 20 bits of an entry taken apart.
struct Entry {
    signal: u8,
    channel: u8,
    rank: u8,
}

impl Entry {
    #[inline(always)]
    fn of(entry: u32) -> Self {
        Entry { signal: (entry >> 12) as u8, channel: (entry >> 4) as u8, rank: entry as u8 & 15 }
    }
}

/// Five bytes hold two entries; an odd last one stands in three.
#[inline(always)]
fn for_each_entry<E>(body: &[u8], mut visit: impl FnMut(u32) -> Result<(), E>) -> Result<(), E> {
    let fives = body.chunks_exact(5);
    let odd = fives.remainder();
    for five in fives {
        let &[a, b, c, d, e] = five else { unreachable!("chunks have five bytes") };
        visit(u32::from(a) << 12 | u32::from(b) << 4 | u32::from(c) >> 4)?;
        visit(u32::from(c & 15) << 16 | u32::from(d) << 8 | u32::from(e))?;
    }
    if let &[a, b, c] = odd {
        visit(u32::from(a) << 12 | u32::from(b) << 4 | u32::from(c) >> 4)?;
    }
    Ok(())
}

// ---- placing ----

type Room = [u16; 256];
const ROOMS: usize = 9;

/// A seat is `rank << 8 | channel` and so never 0; 0 means that there is none.
const NONE: u16 = 0;
/// A channel's holder is `HELD | signal`.
const HELD: u16 = 256;

/// What placing keeps, all of it in the lent work area.
struct Placer<'a> {
    signals: usize,
    channels: usize,
    ranks: u8,
    at_rank: [u16; RANK_SLOTS],
    free_channels: usize,
    /// The table's pairs, rank after rank, as `signal << 8 | channel`.
    by_rank: &'a mut [u16],
    /// The live seats of each signal, in the room that its entries have in the table.
    live: &'a mut [u16],
    live_start: &'a mut Room,
    live_end: &'a mut Room,
    seat_of: &'a mut Room,
    holder_of: &'a mut Room,
    /// By which seat a channel was reached, as `rank << 8 | signal`: the search's marks.
    reached_by: &'a mut Room,
    closed_signal: &'a mut Room,
    closed_channel: &'a mut Room,
    queue: &'a mut Room,
    /// The signals that are still free, ascending.
    roots: &'a mut Room,
}

impl<'a> Placer<'a> {
    /// Only what is read before it is written has to be cleared.
    fn unpack(head: &Head, body: &[u8], work: &'a mut [u16; WORK_NUMBERS]) -> Self {
        let pairs = usize::from(head.pairs);
        let (rooms, lists) = work.split_at_mut(ROOMS * 256);
        let (by_rank, lists) = lists.split_at_mut(pairs);
        let live = &mut lists[..pairs];
        rooms.fill(0);
        let mut rooms = rooms.chunks_exact_mut(256).map(|room| room.try_into().unwrap());
        let mut room = || -> &'a mut Room { rooms.next().expect("there are nine rooms") };
        let mut placer = Placer {
            signals: head.signals.into(),
            channels: head.channels.into(),
            ranks: head.ranks,
            at_rank: head.at_rank,
            free_channels: head.channels.into(),
            by_rank,
            live,
            live_start: room(),
            live_end: room(),
            seat_of: room(),
            holder_of: room(),
            reached_by: room(),
            closed_signal: room(),
            closed_channel: room(),
            queue: room(),
            roots: room(),
        };
        placer.sort_by_rank(body);
        placer
    }

    fn sort_by_rank(&mut self, body: &[u8]) {
        let mut next = [0; RANK_SLOTS];
        for rank in 1..RANK_SLOTS {
            next[rank] = next[rank - 1] + self.at_rank[rank - 1];
        }
        let lengths = &mut *self.live_end;
        let Ok(()) = for_each_entry(body, |entry| {
            let Entry { signal, rank, .. } = Entry::of(entry);
            let slot = &mut next[usize::from(rank)];
            self.by_rank[usize::from(*slot)] = (entry >> 4) as u16;
            *slot += 1;
            lengths[usize::from(signal)] += 1;
            Ok::<(), std::convert::Infallible>(())
        });
        // Each list has the room of all its entries and begins empty.
        let mut room = 0;
        for (start, end) in self.live_start.iter_mut().zip(lengths).take(self.signals) {
            *start = room;
            room += std::mem::replace(end, room);
        }
    }

    fn place(&mut self) {
        let mut free = self.signals;
        for signal in 0..free {
            self.roots[signal] = signal as u16;
        }
        let mut end = 0;
        for rank in 1..=self.ranks {
            let start = end;
            end += usize::from(self.at_rank[usize::from(rank)]);
            if !self.enter(rank, start..end) {
                continue;
            }
            let failed;
            (free, failed) = self.search_from_all(free);
            if free == 0 || self.free_channels == 0 {
                return;
            }
            self.close(failed);
        }
    }

    /// Pairs with two open ends become live, and are used at once where both ends are free.
    fn enter(&mut self, rank: u8, pairs: Range<usize>) -> bool {
        let mut entered = false;
        for index in pairs {
            let [signal, channel] = self.by_rank[index].to_be_bytes().map(usize::from);
            if self.closed_signal[signal] | self.closed_channel[channel] != 0 {
                continue;
            }
            entered = true;
            let seat = u16::from(rank) << 8 | channel as u16;
            self.live[usize::from(self.live_end[signal])] = seat;
            self.live_end[signal] += 1;
            if self.seat_of[signal] == NONE && self.holder_of[channel] == NONE {
                self.seat_of[signal] = seat;
                self.holder_of[channel] = HELD | signal as u16;
                self.free_channels -= 1;
            }
        }
        entered
    }

    /// Makes each free signal a root once; gives how many stay free and whether marks remain.
    fn search_from_all(&mut self, free: usize) -> (usize, bool) {
        let mut still_free = 0;
        let mut marks_remain = false;
        for index in 0..free {
            let root = self.roots[index] as u8;
            if self.seat_of[usize::from(root)] != NONE {
                continue;
            }
            let (reached, found) = self.search(root);
            if let Some(channel) = found {
                self.flip(channel);
                self.clear_marks(reached);
            } else {
                marks_remain |= reached > 0;
                self.roots[still_free] = root.into();
                still_free += 1;
            }
        }
        (still_free, marks_remain)
    }

    /// Breadth first over live seats, past the marks of earlier searches of this rank. Gives how
    /// many channels were queued, and the free one among them. No channel is queued twice, so
    /// the queue's masks change nothing; they spare its bounds checks.
    fn search(&mut self, root: u8) -> (usize, Option<u8>) {
        let mut queued = 0;
        let mut head = 0;
        let mut signal = root;
        loop {
            let list = usize::from(self.live_start[usize::from(signal)])
                ..usize::from(self.live_end[usize::from(signal)]);
            for &seat in &self.live[list] {
                let channel = seat as u8;
                let mark = &mut self.reached_by[usize::from(channel)];
                if *mark != NONE {
                    continue;
                }
                *mark = seat & 0xFF00 | u16::from(signal);
                self.queue[queued & 255] = channel.into();
                queued += 1;
                if self.holder_of[usize::from(channel)] == NONE {
                    return (queued, Some(channel));
                }
            }
            if head == queued {
                return (queued, None);
            }
            signal = self.holder_of[usize::from(self.queue[head & 255] as u8)] as u8;
            head += 1;
        }
    }

    /// From the free channel back to the root.
    fn flip(&mut self, free: u8) {
        self.free_channels -= 1;
        let mut channel = free;
        loop {
            let [rank, signal] = self.reached_by[usize::from(channel)].to_be_bytes();
            let seat = &mut self.seat_of[usize::from(signal)];
            let left = *seat;
            *seat = u16::from_be_bytes([rank, channel]);
            self.holder_of[usize::from(channel)] = HELD | u16::from(signal);
            if left == NONE {
                return;
            }
            channel = left as u8;
        }
    }

    fn clear_marks(&mut self, queued: usize) {
        for &channel in &self.queue[..queued] {
            self.reached_by[usize::from(channel as u8)] = NONE;
        }
    }

    /// The marks name a cover: marked channels, and signals placed on unmarked ones. They close,
    /// and a live seat with both ends in the cover is struck.
    fn close(&mut self, marks_remain: bool) {
        for signal in 0..self.signals {
            let seat = self.seat_of[signal];
            if seat != NONE && self.reached_by[usize::from(seat as u8)] == NONE {
                self.closed_signal[signal] = 1;
                if marks_remain {
                    self.strike_marked(signal);
                }
            }
        }
        if marks_remain {
            let marks = &mut self.reached_by[..self.channels];
            for (closed, mark) in self.closed_channel.iter_mut().zip(marks) {
                *closed |= *mark;
                *mark = NONE;
            }
        }
    }

    /// A list of one is the signal's own seat, which is not marked.
    fn strike_marked(&mut self, signal: usize) {
        let start = self.live_start[signal];
        let list = &mut self.live[usize::from(start)..usize::from(self.live_end[signal])];
        if list.len() == 1 {
            return;
        }
        let mut kept = 0;
        for index in 0..list.len() {
            let seat = list[index];
            list[kept] = seat;
            kept += usize::from(self.reached_by[usize::from(seat as u8)] == NONE);
        }
        self.live_end[signal] = start + kept as u16;
    }
}

// ---- answers ----

fn write_answer(head: &Head, seat_of: &Room, payload: &mut [u8]) {
    let seats = &seat_of[..usize::from(head.signals)];
    let (start, places) = payload.split_at_mut(2 + usize::from(head.ranks));
    start[0] = head.signals;
    start[1] = head.ranks << 4;
    let counts = &mut start[2..];
    counts.fill(0);
    for &seat in seats {
        if let Some(count) = counts.get_mut(usize::from(seat >> 8).wrapping_sub(1)) {
            *count += 1;
        }
    }
    for (three, two) in places.chunks_mut(3).zip(seats.chunks(2)) {
        let first = place_bits(two[0]);
        three[0] = (first >> 4) as u8;
        three[1] = (first << 4) as u8;
        if let [_, seat] = *two {
            let second = place_bits(seat);
            three[1] |= (second >> 8) as u8;
            three[2] = second as u8;
        }
    }
}

/// Twelve bits: the channel, then the rank; 255 and 0 for a signal without a seat.
fn place_bits(seat: u16) -> u16 {
    if seat == NONE {
        return 0xFF0;
    }
    (seat & 0xFF) << 4 | seat >> 8
}
