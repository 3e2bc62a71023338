//! Which refusals apply in a case, also those that an earlier one hides: a set of them, known by number and ordinal.

use hailgully_tests::refusals::Named;
use std::ops::BitOr;

#[derive(Clone, Copy)]
pub struct Applying(u64);

/// Numbers are below this, ordinals 1 and 2.
const NUMBERS: u32 = 32;

/// Those of the first code or position, or of none, that apply.
pub fn applying(each: &[(u32, bool)]) -> Applying {
    each.iter().filter(|(_, applies)| *applies).map(|&(number, _)| (number, 1)).collect()
}

impl Applying {
    /// The same of the second code or position.
    pub fn of_the_second(self) -> Applying {
        Applying(self.0 << NUMBERS)
    }

    pub fn has(self, (number, ordinal): Named) -> bool {
        assert!(number < NUMBERS && matches!(ordinal, 1 | 2), "no room for refusal {number} of {ordinal}");
        self.0 >> (NUMBERS * (ordinal - 1) + number) & 1 == 1
    }

    pub fn count(self) -> u32 {
        self.0.count_ones()
    }
}

impl FromIterator<Named> for Applying {
    fn from_iter<I: IntoIterator<Item = Named>>(each: I) -> Applying {
        Applying(each.into_iter().fold(0, |set, (number, ordinal)| set | 1 << (NUMBERS * (ordinal - 1) + number)))
    }
}

impl BitOr for Applying {
    type Output = Applying;

    fn bitor(self, other: Applying) -> Applying {
        Applying(self.0 | other.0)
    }
}
