//! What is to be said of an accepted network.

use crate::paper::Rule;

#[derive(Clone, Debug, PartialEq, Eq)]
pub enum Verdict {
    /// Number 0. The loop is empty at the floor, else it contradicts itself at `period - 1`.
    Answered { period: i64, latencies: Vec<i64>, witness: Vec<Rule> },
    /// Number 8: a loop without period contradicts itself.
    NoPeriod { witness: Vec<Rule> },
    /// Number 9: a loop contradicts itself at the ceiling.
    AboveCeiling { witness: Vec<Rule> },
}

impl Verdict {
    pub fn number(&self) -> i32 {
        match self {
            Verdict::Answered { .. } => 0,
            Verdict::NoPeriod { .. } => 8,
            Verdict::AboveCeiling { .. } => 9,
        }
    }

    pub fn witness(&self) -> &[Rule] {
        match self {
            Verdict::Answered { witness, .. } | Verdict::NoPeriod { witness } | Verdict::AboveCeiling { witness } => {
                witness
            }
        }
    }

    /// The verdict without its loop: the part that has no choice in it.
    pub fn settled(&self) -> (i32, Option<(i64, &[i64])>) {
        match self {
            Verdict::Answered { period, latencies, .. } => (0, Some((*period, latencies))),
            _ => (self.number(), None),
        }
    }
}
