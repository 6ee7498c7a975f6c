//! A second program that checks the placer library and shares no line of its logic.
//!
//! `codec` and `best` say what must come out; `yardstick` is a plain quick placer;
//! `comparer` and `campaign` hold any implementation of `steps` against the former two.

pub mod best;
pub mod campaign;
pub mod codec;
pub mod comparer;
pub mod damage;
#[cfg(feature = "archive")]
pub mod ffi;
pub mod lent;
pub mod paper;
pub mod rng;
pub mod served;
pub mod shapes;
pub mod standin;
pub mod steps;
pub mod yardstick;
