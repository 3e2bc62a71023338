//! The rows in which a run counts: a call, or where it is told an edition the call in each, since each must meet everything.

use super::{Call, What};
use hailgully_tests::space::Edition;
use std::fmt;

/// A call, in one of the editions where it is told one.
#[derive(Clone, Copy, PartialEq, Eq, PartialOrd, Ord)]
pub struct Row {
    pub call: Call,
    edition: Option<Edition>,
}

impl Row {
    /// All of them.
    pub fn all() -> impl Iterator<Item = Row> {
        Call::ALL.iter().flat_map(|&call| match call.parameters().iter().any(|parameter| parameter.what == What::Edition) {
            true => Edition::BOTH.map(|edition| Row::from((call, edition))).to_vec(),
            false => vec![Row::from(call)],
        })
    }
}

impl From<Call> for Row {
    fn from(call: Call) -> Row {
        Row { call, edition: None }
    }
}

impl From<(Call, Edition)> for Row {
    fn from((call, edition): (Call, Edition)) -> Row {
        Row { call, edition: Some(edition) }
    }
}

impl fmt::Display for Row {
    fn fmt(&self, to: &mut fmt::Formatter) -> fmt::Result {
        match self.edition {
            Some(edition) => write!(to, "{}, edition {}", self.call, edition as u32),
            None => self.call.fmt(to),
        }
    }
}
