//! Plants faults in the stand-in and sees the comparer find each of them.

use std::time::Duration;

use second::best::{best_counts, counts_of, Plan};
use second::campaign;
use second::codec::*;
use second::comparer::{Comparer, Difference};
use second::standin::StandIn;
use second::steps::*;

/// The stand-in with some of its steps replaced.
struct Faulty {
    open: fn(&[u8]) -> Opened,
    frame: fn(&[u8], &mut [u8]) -> Written,
    check: fn(&[u8]) -> Checked,
    compare: fn(&[Count], &[Count]) -> Compared,
    handle: fn(&[u8], &mut [u8], &mut [u16]) -> Written,
}

const FAULTLESS: Faulty = Faulty {
    open: |block| StandIn.open(block),
    frame: |payload, area| StandIn.frame(payload, area),
    check: |payload| StandIn.check(payload),
    compare: |first, second| StandIn.compare(first, second),
    handle: |block, area, work| StandIn.handle(block, area, work),
};

impl Steps for Faulty {
    fn name(&self) -> &'static str {
        "stand-in with a fault"
    }
    fn open(&self, block: &[u8]) -> Opened {
        (self.open)(block)
    }
    fn frame(&self, payload: &[u8], area: &mut [u8]) -> Written {
        (self.frame)(payload, area)
    }
    fn check(&self, payload: &[u8]) -> Checked {
        (self.check)(payload)
    }
    fn compare(&self, first: &[Count], second: &[Count]) -> Compared {
        (self.compare)(first, second)
    }
    fn handle(&self, block: &[u8], area: &mut [u8], work: &mut [u16]) -> Written {
        (self.handle)(block, area, work)
    }
}

/// The difference that a short campaign finds, which must name the step and the fault.
fn caught(faulty: Faulty, step: &str, what: &str) {
    let mut comparer = Comparer::new(&faulty);
    let outcome = campaign::run(&mut comparer, &[9], Duration::from_secs(20));
    let difference: Box<Difference> = outcome.expect_err("the planted fault is found");
    assert_eq!(difference.step, step, "{difference}");
    assert!(difference.what.contains(what), "{difference}");
}

fn caught_handling(handle: fn(&[u8], &mut [u8], &mut [u16]) -> Written, what: &str) {
    caught(Faulty { handle, ..FAULTLESS }, "handle", what);
}

/// Handles a command faultlessly but for the answer, which `change` turns into another.
fn with_answer(
    block: &[u8],
    area: &mut [u8],
    work: &mut [u16],
    change: fn(&Table, Answer) -> Answer,
) -> Written {
    let written = StandIn.handle(block, area, work);
    if written.number == 0 {
        let table = judge_payload(&block[open(block).unwrap()]).unwrap();
        let part = open(&area[..written.length]).unwrap();
        let answer = change(&table, unpack_answer(&area[part]).unwrap());
        area[..written.length].copy_from_slice(&block_of(&pack_answer(&answer)));
    }
    written
}

fn answer_of(table: &Table, places: Plan) -> Answer {
    Answer { counts: counts_of(&places, table.ranks), places }
}

fn seat(pair: &Pair) -> Seat {
    Seat { channel: pair.channel, rank: pair.rank }
}

// ---- plans that look good and are not ----

#[test]
fn a_comparer_without_a_fault_finds_none() {
    let mut comparer = Comparer::new(&FAULTLESS);
    assert!(campaign::run(&mut comparer, &[9], Duration::from_secs(1)).is_ok());
}

#[test]
fn a_placer_that_stops_at_rank_1() {
    let handle = |block: &[u8], area: &mut [u8], work: &mut [u16]| {
        with_answer(block, area, work, |table, answer| {
            let at_rank_1 = |seat: &Seat| seat.rank == 1;
            answer_of(table, answer.places.iter().map(|place| place.filter(at_rank_1)).collect())
        })
    };
    caught_handling(handle, "the best are [1, 1]");
}

#[test]
fn a_placer_that_serves_who_comes_first() {
    let handle = |block: &[u8], area: &mut [u8], work: &mut [u16]| {
        with_answer(block, area, work, |table, _| {
            let mut pairs = table.pairs.clone();
            pairs.sort_by_key(|pair| (pair.rank, pair.signal, pair.channel));
            let mut places: Plan = vec![None; table.signals.into()];
            for pair in pairs {
                let taken = places.iter().flatten().any(|seat| seat.channel == pair.channel);
                let place = &mut places[usize::from(pair.signal)];
                if !taken && place.is_none() {
                    *place = Some(seat(&pair));
                }
            }
            answer_of(table, places)
        })
    };
    caught_handling(handle, "its counts are [1, 0], the best are [1, 1]");
}

/// A table with one rank has its largest plans as its best ones.
#[test]
fn a_placer_that_wants_the_largest_total_first() {
    let handle = |block: &[u8], area: &mut [u8], work: &mut [u16]| {
        with_answer(block, area, work, |table, answer| {
            let one_rank = Table {
                ranks: 1,
                pairs: table.pairs.iter().map(|pair| Pair { rank: 1, ..*pair }).collect(),
                ..*table
            };
            if best_counts(&one_rank).iter().sum::<u8>() == answer.counts.iter().sum::<u8>() {
                return answer;
            }
            let largest = second::best::by_assignment(&one_rank);
            let with_rank = |(signal, place): (usize, &Option<Seat>)| {
                let listed = |pair: &&Pair| {
                    usize::from(pair.signal) == signal
                        && Some(pair.channel) == place.map(|seat| seat.channel)
                };
                table.pairs.iter().find(listed).map(seat)
            };
            answer_of(table, largest.iter().enumerate().map(with_rank).collect())
        })
    };
    caught_handling(handle, "its counts are [0, 2, 0], the best are [1, 0, 0]");
}

#[test]
fn a_placer_that_invents_its_counts() {
    let handle = |block: &[u8], area: &mut [u8], work: &mut [u16]| {
        with_answer(block, area, work, |table, answer| Answer {
            counts: best_counts(table),
            places: vec![None; answer.places.len()],
        })
    };
    caught_handling(handle, "it counts [1, 1], its plan has [0, 0]");
}

#[test]
fn a_placer_that_places_two_signals_on_one_channel() {
    let handle = |block: &[u8], area: &mut [u8], work: &mut [u16]| {
        with_answer(block, area, work, |table, mut answer| {
            for pair in &table.pairs {
                answer.places[usize::from(pair.signal)].get_or_insert(seat(pair));
            }
            answer_of(table, answer.places)
        })
    };
    caught_handling(handle, "share channel");
}

#[test]
fn a_placer_that_uses_pairs_that_are_not_listed() {
    let handle = |block: &[u8], area: &mut [u8], work: &mut [u16]| {
        with_answer(block, area, work, |table, mut answer| {
            let taken = |channel| answer.places.iter().flatten().any(|s| s.channel == channel);
            let spare = (0..table.channels).find(|&channel| !taken(channel));
            let unplaced = answer.places.iter().position(Option::is_none);
            if let (Some(channel), Some(signal), 1..) = (spare, unplaced, table.ranks) {
                answer.places[signal] = Some(Seat { channel, rank: 1 });
            }
            answer_of(table, answer.places)
        })
    };
    caught_handling(handle, "the table has no signal");
}

// ---- answers ----

#[test]
fn a_header_that_counts_places() {
    let handle = |block: &[u8], area: &mut [u8], work: &mut [u16]| {
        let written = StandIn.handle(block, area, work);
        if written.length == 10 {
            area[2] = b'0' + area[3];
        }
        written
    };
    caught_handling(handle, "the answer does not open");
}

#[test]
fn an_answer_with_dirty_fill() {
    let handle = |block: &[u8], area: &mut [u8], work: &mut [u16]| {
        let written = StandIn.handle(block, area, work);
        if written.number == 0 && area[3] % 2 == 1 {
            area[written.length - 1] |= 1;
        }
        written
    };
    caught_handling(handle, "dirty zero bits");
}

#[test]
fn a_length_that_leaves_out_the_header() {
    let handle = |block: &[u8], area: &mut [u8], work: &mut [u16]| {
        let written = StandIn.handle(block, area, work);
        Written { length: written.length.saturating_sub(3), ..written }
    };
    caught_handling(handle, "length: 7");
}

// ---- refusals and lent memory ----

#[test]
fn a_placer_that_refuses_everything() {
    caught_handling(|_, _, _| Refusal { number: 5, place: 0 }.into(), "gave Written { number: 5");
}

#[test]
fn a_refusal_that_writes_into_the_area() {
    let handle = |block: &[u8], area: &mut [u8], work: &mut [u16]| {
        let written = StandIn.handle(block, area, work);
        if let (8.., Some(first)) = (written.number, area.first_mut()) {
            *first = b'#';
        }
        written
    };
    caught_handling(handle, "place 0 of the area was touched");
}

#[test]
fn a_refusal_that_writes_into_the_work_area() {
    let handle = |block: &[u8], area: &mut [u8], work: &mut [u16]| {
        let written = StandIn.handle(block, area, work);
        if written.number == 9 {
            work[5_000..5_002].fill(0);
        }
        written
    };
    caught_handling(handle, "place 5000 of the work area was touched");
}

#[test]
fn a_work_area_that_is_not_zeroed() {
    let handle = |block: &[u8], area: &mut [u8], work: &mut [u16]| {
        let last = work.last().copied();
        let written = StandIn.handle(block, area, work);
        if let (0, Some(last)) = (written.number, last) {
            work[WORK_NUMBERS - 1] = last;
        }
        written
    };
    caught_handling(handle, "number 16383 of the work area is not zero");
}

#[test]
fn a_work_area_that_is_zeroed_too_far() {
    let handle = |block: &[u8], area: &mut [u8], work: &mut [u16]| {
        let written = StandIn.handle(block, area, work);
        if written.number == 0 {
            work.fill(0);
        }
        written
    };
    caught_handling(handle, "place 16384 of the work area was touched");
}

#[test]
fn a_block_written_with_something_after_it() {
    let handle = |block: &[u8], area: &mut [u8], work: &mut [u16]| {
        let written = StandIn.handle(block, area, work);
        if let (0, Some(next)) = (written.number, area.get_mut(written.length)) {
            *next = b'\n';
        }
        written
    };
    caught_handling(handle, "of the area was touched");
}

#[test]
fn an_area_that_must_be_longer_than_needed() {
    let handle = |block: &[u8], area: &mut [u8], work: &mut [u16]| {
        let exact = area.len();
        StandIn.handle(block, &mut area[..exact.saturating_sub(1)], work)
    };
    caught_handling(handle, "gave Written { number: 10");
}

#[test]
fn rows_10_and_11_in_the_wrong_order() {
    let handle = |block: &[u8], area: &mut [u8], work: &mut [u16]| {
        let written = StandIn.handle(block, area, work);
        let both = written.number == 10 && work.len() < WORK_NUMBERS;
        Written { number: if both { 11 } else { written.number }, ..written }
    };
    caught_handling(handle, "gave Written { number: 11");
}

// ---- opening ----

#[test]
fn a_refused_opening_that_still_names_a_part() {
    let open = |block: &[u8]| {
        let opened = StandIn.open(block);
        Opened { start: if opened.number == 0 { opened.start } else { 2 }, ..opened }
    };
    caught(Faulty { open, ..FAULTLESS }, "open", "start: 2");
}

#[test]
fn an_opening_that_takes_the_last_newline_for_the_end() {
    let open = |block: &[u8]| match (StandIn.open(block), block) {
        (Opened { number: 3, .. }, [b'#', b'0', rest @ .., b'\n']) => {
            Opened { start: 2, length: rest.len(), ..Opened::default() }
        }
        (opened, _) => opened,
    };
    caught(Faulty { open, ..FAULTLESS }, "open", "gave Opened { number: 0");
}

#[test]
fn an_opening_that_refuses_leading_zeros() {
    let open = |block: &[u8]| match (StandIn.open(block), block) {
        (Opened { number: 0, .. }, [b'#', b'2'..=b'9', b'0', ..]) => {
            Refusal { number: 2, place: 0 }.into()
        }
        (opened, _) => opened,
    };
    caught(Faulty { open, ..FAULTLESS }, "open", "gave Opened { number: 2");
}

// ---- checking ----

#[test]
fn a_check_that_forgets_the_place() {
    let check = |payload: &[u8]| Checked { place: 0, ..StandIn.check(payload) };
    caught(Faulty { check, ..FAULTLESS }, "check", "place: 0");
}

#[test]
fn a_check_that_overlooks_fill_bits() {
    let check = |payload: &[u8]| {
        let mut clean = payload.to_vec();
        if StandIn.check(payload).number == 7 {
            *clean.last_mut().unwrap() &= 0xF0;
        }
        StandIn.check(&clean)
    };
    caught(Faulty { check, ..FAULTLESS }, "check", "number: 7");
}

#[test]
fn a_check_that_looks_for_row_8_in_all_entries_first() {
    let check = |payload: &[u8]| match StandIn.check(payload) {
        Checked { number: 9, place, .. } => {
            let (signals, pairs) = (read_bits(payload, 0, 8), read_bits(payload, 20, 12));
            let outside = |&entry: &usize| read_bits(payload, entry_bit(entry), 8) >= signals;
            let later = (place..pairs).find(outside);
            let row_8 = later.map(|place| Refusal { number: 8, place });
            row_8.unwrap_or(Refusal { number: 9, place }).into()
        }
        checked => checked,
    };
    caught(Faulty { check, ..FAULTLESS }, "check", "expected Checked { number: 9");
}

#[test]
fn a_check_with_its_limit_one_off() {
    let check = |payload: &[u8]| match StandIn.check(payload) {
        Checked { number: 0, pairs: 3_000, .. } => Refusal { number: 5, place: 0 }.into(),
        checked => checked,
    };
    caught(Faulty { check, ..FAULTLESS }, "check", "pairs: 3000");
}

// ---- framing ----

#[test]
fn a_framing_that_takes_too_long_a_payload() {
    let frame = |payload: &[u8], area: &mut [u8]| match StandIn.frame(payload, area) {
        Written { number: 6, .. } if area.len() < payload.len() => {
            Refusal { number: 10, place: 0 }.into()
        }
        written => written,
    };
    caught(Faulty { frame, ..FAULTLESS }, "frame", "expected Written { number: 6");
}

#[test]
fn a_framing_that_writes_after_the_block() {
    let frame = |payload: &[u8], area: &mut [u8]| {
        let written = StandIn.frame(payload, area);
        if let (0, Some(next)) = (written.number, area.get_mut(written.length)) {
            *next = b'\n';
        }
        written
    };
    caught(Faulty { frame, ..FAULTLESS }, "frame", "of the area was touched");
}

#[test]
fn a_framing_that_spoils_a_byte() {
    let frame = |payload: &[u8], area: &mut [u8]| {
        let written = StandIn.frame(payload, area);
        if written.length == 7_510 {
            area[7_509] ^= 1;
        }
        written
    };
    caught(Faulty { frame, ..FAULTLESS }, "frame", "wrote");
}

// ---- comparing ----

#[test]
fn a_comparison_that_takes_the_longer_line_for_the_greater() {
    let compare = |first: &[Count], second: &[Count]| match StandIn.compare(first, second) {
        Compared { number: 0, order: 0, .. } if first.len() > second.len() => {
            Compared { order: 1, ..Compared::default() }
        }
        compared => compared,
    };
    caught(Faulty { compare, ..FAULTLESS }, "compare", "order: 1");
}

#[test]
fn a_comparison_that_overlooks_counts_after_the_first_difference() {
    let compare = |first: &[Count], second: &[Count]| {
        let compared = StandIn.compare(first, second);
        match (compared.number, first.iter().zip(second).find(|(a, b)| a != b)) {
            (5, Some((a, b))) if a.max(b) <= &200 && first.len().max(second.len()) <= 15 => {
                Compared { order: if a < b { -1 } else { 1 }, ..Compared::default() }
            }
            _ => compared,
        }
    };
    caught(Faulty { compare, ..FAULTLESS }, "compare", "expected Compared { number: 5");
}

#[test]
fn a_comparison_that_gives_an_order_with_a_refusal() {
    let compare = |first: &[Count], second: &[Count]| match StandIn.compare(first, second) {
        Compared { number: 5, .. } => Compared { number: 5, place: 0, order: 1 },
        compared => compared,
    };
    caught(Faulty { compare, ..FAULTLESS }, "compare", "order: 1");
}
