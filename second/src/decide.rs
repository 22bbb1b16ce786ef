//! The verdict on an accepted network, by the solver that its size allows.

use crate::arrows::Problem;
use crate::paper::Network;
use crate::verdict::Verdict;
use crate::{fast, solver};

/// All pairs cost the cube of the register count, so larger networks go to the fast solver.
const ALL_PAIRS_UP_TO: usize = 8;

pub fn verdict(network: &Network) -> Verdict {
    let problem = Problem::of(network);
    if problem.registers <= ALL_PAIRS_UP_TO {
        solver::solve(&problem)
    } else {
        fast::solve(&problem)
    }
}
