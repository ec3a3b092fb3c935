//! How random walks differ from each other.

use crate::rng::Rng;

/// How a list likes to walk. Weights: send, receive, drive, burst, recover,
/// abort, anything.
pub struct Style {
    pub weights: [usize; 7],
    /// Of a hundred calls that store something, how many lose power.
    pub cuts: usize,
    /// Of a hundred lost powers, how many are followed by a recover.
    pub recovers: usize,
}

impl Style {
    pub fn random(rng: &mut Rng) -> Style {
        let weights = match rng.weighted(&[30, 25, 20, 15, 10]) {
            0 => [20, 20, 50, 2, 2, 1, 2],
            1 => [10, 10, 100, 1, 1, 0, 0],
            2 => [10, 15, 30, 12, 1, 0, 1],
            3 => [40, 20, 40, 2, 3, 3, 10],
            _ => [10, 10, 10, 1, 5, 5, 40],
        };
        let cuts = rng.pick(&[0, 2, 5, 20, 60]).unwrap();
        Style { weights, cuts, recovers: rng.pick(&[100, 100, 80, 30]).unwrap() }
    }

    /// Gets rounds on, and seldom loses power.
    pub fn driving(rng: &mut Rng) -> Style {
        let cuts = rng.pick(&[0, 1, 3]).unwrap();
        Style { weights: [14, 16, 60, 2, 1, 0, 0], cuts, recovers: 100 }
    }

    /// Fills logs and channels again and again, and loses no power.
    pub fn bursting() -> Style {
        Style { weights: [10, 10, 20, 12, 1, 0, 0], cuts: 0, recovers: 0 }
    }
}
