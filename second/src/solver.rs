//! The plain solver: longest paths between all pairs of registers (Floyd and Warshall), bisection over the period,
//! and a loop found by leaving out rules until none can be spared. Slow, and simple enough to believe.

use crate::arrows::{in_order, Arrow, Problem};
use crate::paper::Rule;
use crate::verdict::Verdict;

/// Stands for "no path": lower than any sum that occurs, and never added to.
const NO_PATH: i64 = i64::MIN;

pub fn solve(problem: &Problem) -> Verdict {
    let n = problem.registers;
    let timeless = problem.timeless();
    if least_latencies(n, &timeless, 0).is_none() {
        return Verdict::NoPeriod { witness: spare_nothing(n, timeless, 0) };
    }
    let Some(at_ceiling) = least_latencies(n, &problem.arrows, problem.ceiling) else {
        return Verdict::AboveCeiling { witness: spare_nothing(n, problem.arrows.clone(), problem.ceiling) };
    };
    // `barred` has no schedule or lies below the floor; `period` has one. A longer period never breaks a rule.
    let (mut barred, mut period, mut latencies) = (problem.floor - 1, problem.ceiling, at_ceiling);
    while period - barred > 1 {
        let middle = barred + (period - barred) / 2;
        match least_latencies(n, &problem.arrows, middle) {
            Some(found) => (period, latencies) = (middle, found),
            None => barred = middle,
        }
    }
    let witness =
        if period > problem.floor { spare_nothing(n, problem.arrows.clone(), period - 1) } else { Vec::new() };
    Verdict::Answered { period, latencies, witness }
}

/// The longest path from the host to each register, or none where some loop contradicts itself.
/// The low rules are arrows from the host to every other register, so with them each register has such a path.
pub fn least_latencies(n: usize, arrows: &[Arrow], period: i64) -> Option<Vec<i64>> {
    let longest = all_pairs(n, arrows, period)?;
    Some(longest[..n].to_vec())
}

/// Row by row, the longest path from each register to each other; none where some loop contradicts itself.
fn all_pairs(n: usize, arrows: &[Arrow], period: i64) -> Option<Vec<i64>> {
    let mut longest = direct(n, arrows, period);
    for via in 0..n {
        // Past a contradiction the sums grow without bound, so it must be seen before every step.
        if contradicts(n, &longest) {
            return None;
        }
        for from in 0..n {
            let to_via = longest[from * n + via];
            if to_via == NO_PATH {
                continue;
            }
            for to in 0..n {
                let onward = longest[via * n + to];
                if onward != NO_PATH && to_via + onward > longest[from * n + to] {
                    longest[from * n + to] = to_via + onward;
                }
            }
        }
    }
    (!contradicts(n, &longest)).then_some(longest)
}

/// The longest single arrows, with the empty path from each register to itself.
fn direct(n: usize, arrows: &[Arrow], period: i64) -> Vec<i64> {
    let mut longest = vec![NO_PATH; n * n];
    for register in 0..n {
        longest[register * n + register] = 0;
    }
    for arrow in arrows {
        let entry = &mut longest[arrow.tail * n + arrow.head];
        *entry = (*entry).max(arrow.amount(period));
    }
    longest
}

fn contradicts(n: usize, longest: &[i64]) -> bool {
    (0..n).any(|register| longest[register * n + register] > 0)
}

/// Leaves out every arrow without which a contradiction remains. A set that contradicts itself holds a loop that
/// does; since no arrow of what remains can be spared, what remains is that loop and nothing else.
fn spare_nothing(n: usize, arrows: Vec<Arrow>, period: i64) -> Vec<Rule> {
    let mut kept = arrows;
    let mut at = 0;
    while at < kept.len() {
        let spared = kept.remove(at);
        if all_pairs(n, &kept, period).is_some() {
            kept.insert(at, spared);
            at += 1;
        }
    }
    in_order(&kept)
}
