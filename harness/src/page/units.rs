//! "A price, a number of contracts and a number of seconds are three things to the desk, and none
//! is ever added to another."

use std::ops::{Add, Sub};

/// A price in mills, $1 = 1,000.
#[derive(Clone, Copy, Debug, PartialEq, Eq, PartialOrd, Ord)]
pub struct Mills(pub u32);

#[derive(Clone, Copy, Debug, PartialEq, Eq, PartialOrd, Ord)]
pub struct Contracts(pub u32);

#[derive(Clone, Copy, Debug, PartialEq, Eq, PartialOrd, Ord)]
pub struct Seconds(pub u32);

impl Add for Mills {
    type Output = Mills;

    fn add(self, other: Mills) -> Mills {
        Mills(self.0 + other.0)
    }
}

impl Sub for Mills {
    type Output = Mills;

    fn sub(self, other: Mills) -> Mills {
        Mills(self.0 - other.0)
    }
}

impl Sub for Contracts {
    type Output = Contracts;

    fn sub(self, other: Contracts) -> Contracts {
        Contracts(self.0 - other.0)
    }
}

impl Sub for Seconds {
    type Output = Seconds;

    fn sub(self, other: Seconds) -> Seconds {
        Seconds(self.0 - other.0)
    }
}
