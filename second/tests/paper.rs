//! The codec, the best counts and the yardstick against the paper's worked examples.

use second::best::{best_counts, by_trying_all};
use second::codec::*;
use second::paper::{edges, small_tables, TABLE_A_ANSWER, TABLE_A_BLOCK};
use second::steps::{Refusal, WORK_NUMBERS};
use second::yardstick;

fn refusal(number: u32, place: usize) -> Refusal {
    Refusal { number, place }
}

fn table_a() -> Table {
    small_tables().swap_remove(0).table
}

#[test]
fn table_a_is_packed_as_the_paper_prints_it() {
    assert_eq!(block_of(&pack_table(&table_a())), TABLE_A_BLOCK);
    let part = open(&TABLE_A_BLOCK).unwrap();
    assert_eq!(part, 4..16);
    assert_eq!(judge_payload(&TABLE_A_BLOCK[part]), Ok(table_a()));
}

#[test]
fn the_answer_to_table_a_is_packed_as_the_paper_prints_it() {
    let answer = Answer {
        counts: vec![1, 1],
        places: vec![Some(Seat { channel: 1, rank: 2 }), Some(Seat { channel: 0, rank: 1 })],
    };
    assert_eq!(block_of(&pack_answer(&answer)), TABLE_A_ANSWER);
    assert_eq!(unpack_answer(&TABLE_A_ANSWER[3..]), Ok(answer));
}

#[test]
fn the_yardstick_answers_table_a_as_the_paper_prints_it() {
    let mut area = [0xEE; 12];
    let mut work = vec![7; WORK_NUMBERS + 1];
    assert_eq!(yardstick::handle(&TABLE_A_BLOCK, &mut area, &mut work), Ok(10));
    assert_eq!(area[..10], TABLE_A_ANSWER);
    assert_eq!(area[10..], [0xEE; 2]);
    assert!(work[..WORK_NUMBERS].iter().all(|&number| number == 0));
    assert_eq!(work[WORK_NUMBERS], 7);
}

#[test]
fn the_small_tables_have_the_papers_best_counts() {
    for small in small_tables() {
        assert_eq!(by_trying_all(&small.table).counts, small.best, "table {}", small.name);
        assert_eq!(best_counts(&small.table), small.best, "table {}", small.name);
    }
}

#[test]
fn table_a_has_one_best_plan_and_table_d_has_two() {
    let plans = |name| {
        let tables = small_tables();
        let small = tables.iter().find(|small| small.name == name).unwrap();
        by_trying_all(&small.table).best_plans
    };
    assert_eq!((plans("A"), plans("D")), (1, 2));
}

#[test]
fn the_edges_are_judged_as_the_paper_says() {
    for edge in edges() {
        let judged = judge_command(&edge.block, 322, WORK_NUMBERS);
        assert_eq!(judged.err(), edge.refusal, "{}", edge.name);
        let quick = yardstick::handle(&edge.block, &mut [0; 322], &mut [0; WORK_NUMBERS]);
        assert_eq!(quick.err(), edge.refusal, "{}", edge.name);
    }
}

#[test]
fn blocks_open_by_their_rows() {
    assert_eq!(open(b""), Err(refusal(1, 0)));
    assert_eq!(open(b"$10"), Err(refusal(1, 0)));
    assert_eq!(open(b"#x"), Err(refusal(2, 0)));
    assert_eq!(open(b"#2 1a"), Err(refusal(2, 0)));
    assert_eq!(open(b"#10x"), Err(refusal(3, 0)));
    assert_eq!(open(b"#10"), Ok(3..3));
    assert_eq!(open(b"#9000000002ab"), Ok(11..13));
    assert_eq!(open(b"#0"), Err(refusal(3, 0)));
    assert_eq!(open(b"#0\n"), Ok(2..2));
    assert_eq!(open(b"#0a\nb\n"), Err(refusal(3, 0)));
    assert_eq!(open(b"#0ab"), Err(refusal(3, 0)));
    assert_eq!(open(b"#0ab\n"), Ok(2..4));
}

#[test]
fn payloads_are_judged_by_their_rows() {
    let judged = |payload: &[u8]| judge_payload(payload).map(|_| ());
    assert_eq!(judged(&[0, 0, 0]), Err(refusal(4, 0)));
    assert_eq!(judged(&[0, 201, 0, 0]), Err(refusal(5, 0)));
    assert_eq!(judged(&[0, 0, 0x0B, 0xB9]), Err(refusal(5, 0)));
    assert_eq!(judged(&[0, 0, 0x0B, 0xB8]), Err(refusal(6, 0)));
    assert_eq!(judged(&[0, 0, 0, 0, 0]), Err(refusal(6, 0)));
    assert_eq!(judged(&[1, 1, 0x10, 1, 0, 0, 0x11]), Err(refusal(7, 0)));
    assert_eq!(judged(&[1, 1, 0x10, 1, 1, 0, 0x10]), Err(refusal(8, 0)));
    assert_eq!(judged(&[1, 1, 0x10, 1, 0, 1, 0x10]), Err(refusal(8, 0)));
    assert_eq!(judged(&[1, 1, 0x10, 1, 0, 0, 0x20]), Err(refusal(8, 0)));
    assert_eq!(judged(&[1, 2, 0x10, 2, 0, 1, 0x10, 0, 0x01]), Err(refusal(9, 1)));
    assert_eq!(judged(&[1, 2, 0x10, 2, 0, 0, 0x10, 0, 0x11]), Ok(()));
}

#[test]
fn within_an_entry_row_8_comes_first_and_the_first_faulty_entry_decides() {
    let pair = |signal, channel, rank| Pair { signal, channel, rank };
    let judged = |pairs: Vec<Pair>| {
        judge_payload(&pack_table(&Table { signals: 2, channels: 2, ranks: 1, pairs }))
    };
    let (good, low_and_bad, bad) = (pair(1, 1, 1), pair(0, 0, 2), pair(2, 0, 1));
    assert_eq!(judged(vec![good, low_and_bad]), Err(refusal(8, 1)));
    assert_eq!(judged(vec![good, good, bad]), Err(refusal(9, 1)));
    assert_eq!(judged(vec![bad, good, good]), Err(refusal(8, 0)));
}

#[test]
fn rooms_are_asked_for_last_and_the_area_first() {
    let judged = |area, work| judge_command(&TABLE_A_BLOCK, area, work).map(|_| ());
    assert_eq!(judged(9, 0), Err(refusal(10, 0)));
    assert_eq!(judged(10, WORK_NUMBERS - 1), Err(refusal(11, 0)));
    assert_eq!(judged(10, WORK_NUMBERS), Ok(()));
}

#[test]
fn framing_takes_the_fewest_digits() {
    assert_eq!(frame(&[], 3).unwrap(), b"#10");
    assert_eq!(frame(&[], 2), Err(refusal(10, 0)));
    assert_eq!(frame(&[b'x'; 10], 14).unwrap(), b"#210xxxxxxxxxx");
    assert_eq!(frame(&[0; 7_504], 7_510).unwrap()[..6], *b"#47504");
    assert_eq!(frame(&[0; 7_505], 0), Err(refusal(6, 0)));
}

#[test]
fn the_longest_and_the_shortest_answer_have_the_papers_lengths() {
    let table = |signals, ranks| Table { signals, ranks, ..Table::default() };
    assert_eq!(answer_block_length(&table(200, 15)), 322);
    assert_eq!(answer_block_length(&table(0, 0)), 5);
    assert_eq!(table_payload_bytes(3_000), LONGEST_PAYLOAD);
}

#[test]
fn answers_with_dirt_in_them_are_not_read() {
    let clean = TABLE_A_ANSWER[3..].to_vec();
    let with = |at: usize, value: u8| {
        let mut payload = clean.clone();
        payload[at] = value;
        unpack_answer(&payload)
    };
    assert!(with(1, 0x21).is_err(), "the head's zero bits");
    assert!(with(5, 0x00).is_err(), "a channel without a rank");
    assert!(unpack_answer(&clean[..6]).is_err(), "too short");
    assert!(unpack_answer(&[1, 0x00, 0xFF, 0x01]).is_err(), "the fill bits");
    assert_eq!(unpack_answer(&[1, 0x00, 0xFF, 0x00]).unwrap().places, [None]);
}

#[test]
fn lines_are_compared_as_the_paper_orders_them() {
    assert_eq!(compare_lines(&[1, 0, 0], &[0, 200, 200]), Ok(1));
    assert_eq!(compare_lines(&[1, 1], &[1, 2]), Ok(-1));
    assert_eq!(compare_lines(&[], &[0, 0]), Ok(0));
    assert_eq!(compare_lines(&[1], &[1, 0, 1]), Ok(-1));
    assert_eq!(compare_lines(&[201], &[]), Err(refusal(5, 0)));
    assert_eq!(compare_lines(&[], &[0; 16]), Err(refusal(5, 0)));
}
