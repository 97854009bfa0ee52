//! Whole-number square roots.

/// The greatest whole number whose square is at most `number`.
pub fn root(number: u64) -> u64 {
    let square = |side: u64| u128::from(side) * u128::from(side);
    // The double is right to within one or two; the loops make it exact.
    let mut side = (number as f64).sqrt() as u64;
    while square(side) > u128::from(number) {
        side -= 1;
    }
    while square(side + 1) <= u128::from(number) {
        side += 1;
    }
    side
}

/// The whole number m with m² - m < number <= m² + m, and 0 for 0.
pub fn nearest_root(number: u64) -> u64 {
    let side = root(number);
    if number - side * side <= side {
        side
    } else {
        side + 1
    }
}
