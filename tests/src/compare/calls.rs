//! The library's calls, made of their one table (calls/table.rs): their names, their parameters, which faults can be made of each, and what a run must
//! meet of each.

#[macro_use]
mod table;
mod applying;
mod held;
mod parameters;
mod rows;

pub use applying::{applying, Applying};
pub use held::wrong;
pub use parameters::{Parameter, What};
pub use rows::Row;

use crate::regions::Regions;
use hailgully_tests::refusals::Named;
use std::fmt;
use table::{Order, ADDING, READING};

macro_rules! parameter {
    ($call:ident $name:ident lent $what:ident) => {
        parameter!($call $name $what)
    };
    ($call:ident $name:ident $what:ident) => {
        $crate::calls::Parameter { call: $crate::calls::Call::$call, name: stringify!($name), what: $crate::calls::What::$what }
    };
}

struct Entry {
    name: &'static str,
    parameters: &'static [Parameter],
    order: Order,
    regions: Regions,
}

macro_rules! made {
    ($($call:ident: $name:ident($($part:ident: $($what:ident)+),*) -> $answer:ident { order: $order:expr, regions: $regions:ident, })*) => {
        #[derive(Clone, Copy, Debug, PartialEq, Eq, PartialOrd, Ord)]
        pub enum Call {
            $($call,)*
        }

        impl Call {
            pub const ALL: &[Call] = &[$(Call::$call),*];

            const fn entry(self) -> Entry {
                match self {
                    $(Call::$call => Entry {
                        name: stringify!($name),
                        parameters: &[$(parameter!($call $part $($what)+)),*],
                        order: $order,
                        regions: Regions::$regions,
                    },)*
                }
            }
        }
    };
}

each_call!(made);

impl Call {
    pub fn parameters(self) -> &'static [Parameter] {
        self.entry().parameters
    }

    /// Where it must be asked.
    pub fn regions(self) -> Regions {
        self.entry().regions
    }

    /// How many refusals the call has.
    pub fn count(self) -> usize {
        self.entry().order.len()
    }

    /// The refusal at this place of the order.
    pub fn refusal(self, place: usize) -> Named {
        self.entry().order[place].0
    }

    /// A bit for each place of the order whose refusal applies.
    pub fn places(self, applying: Applying) -> u32 {
        let places = (0..self.count()).filter(|&place| applying.has(self.refusal(place))).map(|place| 1 << place).sum::<u32>();
        assert!(places.count_ones() == applying.count(), "{self}: a refusal that it has not");
        places
    }

    /// The pairs of places at which two refusals can apply together; neighbours always can, but for a code's 7 and 20, and 22 and the 8 of the code
    /// that is then missing.
    pub fn pairs(self) -> Vec<(usize, usize)> {
        let order = self.entry().order;
        let together = |&(first, second): &(usize, usize)| {
            let (earlier, (later, without)) = (order[first].0, order[second]);
            let apart = without.contains(&earlier);
            let known = matches!((earlier.0, later.0), (7, 20) | (22, 8));
            assert!(!apart || second > first + 1 || known, "{self}: neighbours that cannot apply together");
            !apart
        };
        let each = (0..order.len()).flat_map(|second| (0..second).map(move |first| (first, second)));
        each.filter(together).collect()
    }
}

impl fmt::Display for Call {
    fn fmt(&self, to: &mut fmt::Formatter) -> fmt::Result {
        to.write_str(self.entry().name)
    }
}

pub fn words(named: Named) -> String {
    match named {
        (number, 2) => format!("{number}(2nd)"),
        (number, _) => number.to_string(),
    }
}
