//! The library's public steps as a trait, so that any implementation can be compared.
//!
//! The results have the layout of the C interface, and are handed over by value.

/// One count of a line of counts, as the C interface passes it.
pub type Count = u8;

/// How many numbers of the work area a command uses.
pub const WORK_NUMBERS: usize = 16_384;

/// Why something was refused.
#[derive(Clone, Copy, Debug, PartialEq, Eq)]
pub struct Refusal {
    pub number: u32,
    pub place: usize,
}

/// What opening a block gives: the payload is `length` bytes from `start` on.
#[repr(C)]
#[derive(Clone, Copy, Debug, Default, PartialEq, Eq)]
pub struct Opened {
    pub number: u32,
    pub place: usize,
    pub start: usize,
    pub length: usize,
}

/// What framing a payload or handling a command gives: `length` bytes were written.
#[repr(C)]
#[derive(Clone, Copy, Debug, Default, PartialEq, Eq)]
pub struct Written {
    pub number: u32,
    pub place: usize,
    pub length: usize,
}

/// What checking a bare payload gives.
#[repr(C)]
#[derive(Clone, Copy, Debug, Default, PartialEq, Eq)]
pub struct Checked {
    pub number: u32,
    pub place: usize,
    pub signals: u32,
    pub channels: u32,
    pub ranks: u32,
    pub pairs: u32,
}

/// What comparing two lines of counts gives: an order of −1, 0 or 1.
#[repr(C)]
#[derive(Clone, Copy, Debug, Default, PartialEq, Eq)]
pub struct Compared {
    pub number: u32,
    pub place: usize,
    pub order: i32,
}

/// A refusal yields its number and place, and zero everywhere else.
macro_rules! from_refusal {
    ($($result:ident)*) => {$(
        impl From<Refusal> for $result {
            fn from(refusal: Refusal) -> Self {
                $result { number: refusal.number, place: refusal.place, ..$result::default() }
            }
        }
    )*};
}
from_refusal!(Opened Written Checked Compared);

impl Written {
    pub fn success(length: usize) -> Self {
        Written { length, ..Written::default() }
    }
}

/// The five public steps.
pub trait Steps {
    fn name(&self) -> &'static str;
    fn open(&self, block: &[u8]) -> Opened;
    fn frame(&self, payload: &[u8], area: &mut [u8]) -> Written;
    fn check(&self, payload: &[u8]) -> Checked;
    fn compare(&self, first: &[Count], second: &[Count]) -> Compared;
    fn handle(&self, block: &[u8], area: &mut [u8], work: &mut [u16]) -> Written;
}

/// What this build compares and measures: the archive, or the yardstick in its stead.
pub fn subject() -> &'static dyn Steps {
    #[cfg(feature = "archive")]
    return &crate::ffi::Archive;
    #[cfg(not(feature = "archive"))]
    return &crate::standin::StandIn;
}
