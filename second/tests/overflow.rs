//! In the build that is tested, and that compares, arithmetic that overflows ends the program.

use std::hint::black_box;

use second::lent::Lent;

#[test]
#[should_panic(expected = "attempt to add with overflow")]
fn a_sum_of_a_test_that_does_not_fit() {
    black_box(black_box(u8::MAX) + 1);
}

/// Lending adds two margins to the length.
#[test]
#[should_panic(expected = "attempt to add with overflow")]
fn a_sum_of_this_program_that_does_not_fit() {
    Lent::<u8>::new(black_box(usize::MAX), 0);
}
