//! The rule question (RULES 8 and 15).

use crate::linked;
use crate::network::Network;
use crate::refusal::Refusal;
use crate::rule::{Ends, Loop, Rule};
use std::fmt;

/// A rule, its registers and its slack.
#[derive(Clone, Copy, Debug, PartialEq, Eq, Hash)]
pub struct RuleSlack {
    /// The rule.
    pub rule: Rule,
    /// The registers at its two ends.
    pub ends: Ends,
    /// How many picoseconds it has to spare. Below 0 it is broken by so many.
    pub slack: i32,
}

impl RuleSlack {
    /// Whether the rule is met. A slack of 0 meets it exactly.
    pub fn is_met(&self) -> bool {
        self.slack >= 0
    }
}

impl fmt::Display for RuleSlack {
    fn fmt(&self, f: &mut fmt::Formatter<'_>) -> fmt::Result {
        write!(f, "{}: slack {}", self.rule, self.slack)
    }
}

/// Whether the network is accepted: none of the refusals 1 to 6 applies. Nothing is scheduled.
pub fn check(network: &Network) -> Result<(), Refusal> {
    accepted(&network.to_bytes())
}

/// No kind of rules has this number, so that the file alone decides between 1 to 6 and 10.
const NO_KIND: i32 = -1;

fn accepted(file: &[u8]) -> Result<(), Refusal> {
    match ask(file, 1, (NO_KIND, 0), 0, 0) {
        Err(Refusal::Question) => Ok(()),
        Err(refusal) => Err(refusal),
        Ok(_) => Err(Refusal::Unreadable(0)),
    }
}

/// The slack of one rule at a period, with these latencies at the tail and the head of its arrow ([`Rule::ends`]).
pub fn slack(network: &Network, period: i32, rule: Rule, tail: i32, head: i32) -> Result<i32, Refusal> {
    ask(&network.to_bytes(), period, (rule.kind().number(), rule.number()), tail, head)
}

/// The slack of every rule of the network at a period, with these latencies, one for each register.
pub fn slacks(network: &Network, period: i32, latencies: &[i32]) -> Result<Vec<RuleSlack>, Refusal> {
    slacks_of(network, network.rules(), period, latencies)
}

impl Loop {
    /// The slacks of its rules, as [`slacks`] has them. At an answer's period and latencies they add up to less than the number of the
    /// loop's setup rules, so that there is no room for a shorter period.
    pub fn slacks(&self, network: &Network, period: i32, latencies: &[i32]) -> Result<Vec<RuleSlack>, Refusal> {
        slacks_of(network, self.rules.iter().copied(), period, latencies)
    }

    /// What its amounts add up to at a period. It contradicts itself where that is more than 0.
    pub fn sum(&self, network: &Network, period: i32) -> Result<i64, Refusal> {
        // Latencies cancel around a loop, so any will do; the slacks then add up to the amounts with their sign turned.
        let slacks = self.slacks(network, period, &vec![0; network.registers().len()])?;
        Ok(-slacks.iter().map(|of| i64::from(of.slack)).sum::<i64>())
    }
}

fn slacks_of(
    network: &Network,
    rules: impl Iterator<Item = Rule>,
    period: i32,
    latencies: &[i32],
) -> Result<Vec<RuleSlack>, Refusal> {
    let file = network.to_bytes();
    accepted(&file)?;
    if latencies.len() != network.registers().len() {
        return Err(Refusal::Question);
    }
    let of = |rule: Rule| {
        let ends = rule.ends(network).ok_or(Refusal::Question)?;
        let (tail, head) = ends.tail.of(latencies).zip(ends.head.of(latencies)).ok_or(Refusal::Question)?;
        let slack = ask(&file, period, (rule.kind().number(), rule.number()), *tail, *head)?;
        Ok(RuleSlack { rule, ends, slack })
    };
    rules.map(of).collect()
}

fn ask(file: &[u8], period: i32, rule: (i32, i32), tail: i32, head: i32) -> Result<i32, Refusal> {
    let returned = linked::question(file, period, rule, tail, head);
    match returned.number() {
        // Two's complement.
        0 => Ok(returned.above() as i32),
        10 => Err(Refusal::Question),
        number => Err(Refusal::of_file(returned).unwrap_or(Refusal::Unreadable(number))),
    }
}
