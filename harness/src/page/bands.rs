//! The error table.

use super::units::Mills;

/// A row of the table.
#[derive(Clone, Copy, Debug, PartialEq, Eq)]
pub struct Band {
    pub obvious_minimum: Mills,
    /// "Catastrophic minimum and adjustment."
    pub catastrophic: Mills,
}

/// The row for a theoretical price.
pub fn band(tp: Mills) -> Band {
    let (obvious_minimum, catastrophic) = match tp.0 {
        0..=1_999 => (250, 1_000),
        2_000..=5_000 => (400, 2_000),
        5_001..=10_000 => (500, 3_000),
        10_001..=20_000 => (800, 5_000),
        20_001..=50_000 => (1_000, 7_000),
        50_001..=100_000 => (1_000, 10_000),
        _ => (1_000, 15_000),
    };
    Band {
        obvious_minimum: Mills(obvious_minimum),
        catastrophic: Mills(catastrophic),
    }
}
