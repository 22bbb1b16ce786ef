//! A network's rules as weighted arrows: what both solvers work on.

use crate::paper::{Kind, Network, Rule};

/// An arrow whose amount is `fixed - periods * period`. The share of the period is kept as a number, so that a
/// wrong program can be made by giving a rule the wrong share.
#[derive(Clone, Copy, Debug, PartialEq, Eq)]
pub struct Arrow {
    pub tail: usize,
    pub head: usize,
    pub fixed: i64,
    pub periods: i64,
    pub rule: Rule,
}

impl Arrow {
    pub fn amount(&self, period: i64) -> i64 {
        self.fixed - self.periods * period
    }
}

/// All that a solver needs to know of a network.
#[derive(Clone, Debug)]
pub struct Problem {
    pub registers: usize,
    pub floor: i64,
    pub ceiling: i64,
    pub arrows: Vec<Arrow>,
}

impl Problem {
    pub fn of(network: &Network) -> Problem {
        let arrow = |rule: Rule| Arrow {
            tail: network.tail(rule),
            head: network.head(rule),
            fixed: network.amount(rule, 0),
            periods: i64::from(rule.kind == Kind::Setup),
            rule,
        };
        Problem {
            registers: network.registers.len(),
            floor: network.floor,
            ceiling: network.ceiling,
            arrows: network.rules().into_iter().map(arrow).collect(),
        }
    }

    /// The arrows that no period changes: a contradiction among them bars every period.
    pub fn timeless(&self) -> Vec<Arrow> {
        self.arrows.iter().filter(|arrow| arrow.periods == 0).copied().collect()
    }
}

/// The rules of a loop, listed arrow after arrow from its lowest-numbered register.
/// The arrows may come in any order, but must be those of one loop.
pub fn in_order(arrows: &[Arrow]) -> Vec<Rule> {
    let Some(first) = arrows.iter().min_by_key(|arrow| arrow.tail) else {
        return Vec::new();
    };
    let mut rules = vec![first.rule];
    let mut at = first.head;
    while at != first.tail {
        let next = arrows.iter().find(|arrow| arrow.tail == at).expect("the arrows of a loop chain head to tail");
        rules.push(next.rule);
        at = next.head;
    }
    assert_eq!(rules.len(), arrows.len(), "the arrows must be those of one loop");
    rules
}
