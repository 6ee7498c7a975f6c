//! The yardstick behind the library's steps: what is compared when there is no archive.

use crate::codec;
use crate::steps::{Checked, Compared, Count, Opened, Steps, Written};
use crate::yardstick;

pub struct StandIn;

impl Steps for StandIn {
    fn name(&self) -> &'static str {
        "stand-in"
    }

    fn open(&self, block: &[u8]) -> Opened {
        match yardstick::open(block) {
            Ok(payload) => {
                Opened { start: payload.start, length: payload.len(), ..Opened::default() }
            }
            Err(refusal) => refusal.into(),
        }
    }

    fn frame(&self, payload: &[u8], area: &mut [u8]) -> Written {
        yardstick::frame(payload, area).map_or_else(Written::from, Written::success)
    }

    fn check(&self, payload: &[u8]) -> Checked {
        match yardstick::check(payload) {
            Ok(head) => Checked {
                signals: head.signals.into(),
                channels: head.channels.into(),
                ranks: head.ranks.into(),
                pairs: head.pairs.into(),
                ..Checked::default()
            },
            Err(refusal) => refusal.into(),
        }
    }

    fn compare(&self, first: &[Count], second: &[Count]) -> Compared {
        match codec::compare_lines(first, second) {
            Ok(order) => Compared { order, ..Compared::default() },
            Err(refusal) => refusal.into(),
        }
    }

    fn handle(&self, block: &[u8], area: &mut [u8], work: &mut [u16]) -> Written {
        yardstick::handle(block, area, work).map_or_else(Written::from, Written::success)
    }
}
