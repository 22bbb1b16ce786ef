//! Judging a shown loop by the definitions alone: no solver has a say here.

use crate::paper::{Kind, Network, Rule};

/// Whether the entries (kind, number) are a loop of the network, listed as RULES 7.9 asks, that contradicts itself
/// at the period. The fault is told in words.
pub fn judge(network: &Network, entries: &[(i32, i32)], period: i64) -> Result<Vec<Rule>, String> {
    let mut rules = Vec::with_capacity(entries.len());
    for (index, &(kind, number)) in entries.iter().enumerate() {
        let rule = network.rule(kind, number);
        rules.push(rule.ok_or_else(|| format!("loop entry {index} names no rule: kind {kind}, number {number}"))?);
    }
    closes(network, &rules)?;
    let sum: i64 = rules.iter().map(|&rule| network.amount(rule, period)).sum();
    if sum <= 0 {
        return Err(format!("the loop's amounts add up to {sum} at period {period}, which is no contradiction"));
    }
    Ok(rules)
}

/// The rules chain head to tail, end where they start, pass no register twice and start at the lowest.
fn closes(network: &Network, rules: &[Rule]) -> Result<(), String> {
    if rules.is_empty() {
        return Err("the loop is empty".to_string());
    }
    let mut passed = vec![false; network.registers.len()];
    for (index, &rule) in rules.iter().enumerate() {
        let next = rules[(index + 1) % rules.len()];
        let (tail, head) = (network.tail(rule), network.head(rule));
        if head != network.tail(next) {
            return Err(format!("loop entry {index} leads to register {head}, where the next one does not start"));
        }
        if std::mem::replace(&mut passed[tail], true) {
            return Err(format!("the loop passes register {tail} twice"));
        }
    }
    let lowest = passed.iter().position(|&was| was);
    if lowest != Some(network.tail(rules[0])) {
        return Err("the loop does not start at its lowest-numbered register".to_string());
    }
    Ok(())
}

/// The further demand on the loop of refusal 8.
pub fn knows_no_period(rules: &[Rule]) -> Result<(), String> {
    match rules.iter().position(|rule| rule.kind == Kind::Setup) {
        Some(index) => Err(format!("loop entry {index} is a setup rule, which refusal 8 may not rest on")),
        None => Ok(()),
    }
}
