//! The fast solver: latencies spread from the host through a queue, a contradiction shows as a circle among the
//! arrows that last raised each register, and the period is found by halving steps from below.

use std::collections::VecDeque;

use crate::arrows::{in_order, Arrow, Problem};
use crate::paper::Rule;
use crate::verdict::Verdict;

pub fn solve(problem: &Problem) -> Verdict {
    if let Err(witness) = Web::new(problem.registers, problem.timeless()).spread(0) {
        return Verdict::NoPeriod { witness };
    }
    let web = Web::new(problem.registers, problem.arrows.clone());
    // The highest period from the floor up that is barred, built from its binary digits, the greatest first.
    let (mut barred, mut witness) = (problem.floor - 1, Vec::new());
    let mut step = 1_i64 << (problem.ceiling - barred).ilog2();
    while step > 0 {
        let tried = barred + step;
        if tried <= problem.ceiling {
            if let Err(found) = web.spread(tried) {
                (barred, witness) = (tried, found);
            }
        }
        step /= 2;
    }
    let period = barred + 1;
    if period > problem.ceiling {
        return Verdict::AboveCeiling { witness };
    }
    let latencies = web.spread(period).expect("every period above the highest barred one has a schedule");
    Verdict::Answered { period, latencies, witness }
}

/// Whether the problem has a schedule at the period.
pub fn has_schedule(problem: &Problem, period: i64) -> bool {
    Web::new(problem.registers, problem.arrows.clone()).spread(period).is_ok()
}

/// Arrows listed by the register they leave.
struct Web {
    arrows: Vec<Arrow>,
    leaving: Vec<Vec<usize>>,
}

/// The state of one spreading: what has reached each register, and by which arrow.
struct Reach {
    latency: Vec<Option<i64>>,
    by: Vec<Option<usize>>,
}

impl Web {
    fn new(registers: usize, arrows: Vec<Arrow>) -> Web {
        let mut leaving = vec![Vec::new(); registers];
        for (index, arrow) in arrows.iter().enumerate() {
            leaving[arrow.tail].push(index);
        }
        Web { arrows, leaving }
    }

    /// The least latencies at the period, or a loop that contradicts itself there.
    ///
    /// The queue is emptied in passes. A register raised in pass k was raised by one that was itself raised in pass
    /// k - 1 or later, so after as many passes as there are registers the arrows `by` cannot all lead back to the
    /// host: if anything is still raised then, they hold a circle. So the passes are few, and looking for the circle
    /// after each one is enough.
    fn spread(&self, period: i64) -> Result<Vec<i64>, Vec<Rule>> {
        let n = self.leaving.len();
        let mut reach = Reach { latency: vec![None; n], by: vec![None; n] };
        let mut queued = vec![false; n];
        let mut queue = VecDeque::from([0]);
        reach.latency[0] = Some(0);
        while !queue.is_empty() {
            for _ in 0..queue.len() {
                let register = queue.pop_front().expect("the pass is as long as the queue was");
                queued[register] = false;
                for head in self.raise_from(register, period, &mut reach) {
                    if !std::mem::replace(&mut queued[head], true) {
                        queue.push_back(head);
                    }
                }
            }
            if let Some(circle) = self.circle(&reach) {
                return Err(in_order(&circle));
            }
        }
        Ok(reach.latency.into_iter().map(|found| found.expect("the low rules reach every register")).collect())
    }

    /// Raises what the arrows leaving the register demand, and names the registers raised.
    fn raise_from(&self, register: usize, period: i64, reach: &mut Reach) -> Vec<usize> {
        let mut raised = Vec::new();
        for &index in &self.leaving[register] {
            let arrow = &self.arrows[index];
            let here = reach.latency[register].expect("a queued register has been reached");
            let demanded = here + arrow.amount(period);
            if reach.latency[arrow.head].is_none_or(|latency| demanded > latency) {
                reach.latency[arrow.head] = Some(demanded);
                reach.by[arrow.head] = Some(index);
                raised.push(arrow.head);
            }
        }
        raised
    }

    /// A circle among the arrows that last raised each register. Around one the amounts add up to more than 0: each
    /// register is at most its raiser plus the amount, and the arrow that closed the circle raised strictly.
    fn circle(&self, reach: &Reach) -> Option<Vec<Arrow>> {
        let n = self.leaving.len();
        let mut walk_of = vec![None; n];
        for start in 0..n {
            let mut at = start;
            while walk_of[at].is_none() {
                walk_of[at] = Some(start);
                match reach.by[at] {
                    Some(index) => at = self.arrows[index].tail,
                    None => break,
                }
            }
            if walk_of[at] == Some(start) && reach.by[at].is_some() {
                return Some(self.round(at, reach));
            }
        }
        None
    }

    /// The arrows of the circle that passes the register, walked backward.
    fn round(&self, register: usize, reach: &Reach) -> Vec<Arrow> {
        let mut arrows = Vec::new();
        let mut at = register;
        while arrows.is_empty() || at != register {
            let arrow = self.arrows[reach.by[at].expect("every register of a circle was raised")];
            arrows.push(arrow);
            at = arrow.tail;
        }
        arrows
    }
}
