//! The rule question (RULES 8.1, 15.1): how much room do these latencies leave the named rule?

use crate::file;
use crate::paper::{LATENCY_MOST, PERIOD_MOST};

#[derive(Clone, Copy, Debug, PartialEq, Eq)]
pub struct Question {
    pub period: i32,
    pub kind: i32,
    pub number: i32,
    pub at_tail: i32,
    pub at_head: i32,
}

/// The answer to a question. A slack of at least 0 is yes and one below 0 is no; a refusal carries none.
#[derive(Clone, Copy, Debug, PartialEq, Eq)]
pub enum Reply {
    Slack(i64),
    Refused(file::Refusal),
}

pub fn reply(file: &[u8], question: &Question) -> Reply {
    let network = match file::read(file) {
        Ok(network) => network,
        Err(refusal) => return Reply::Refused(refusal),
    };
    let [period, at_tail, at_head] = [question.period, question.at_tail, question.at_head].map(i64::from);
    let in_range =
        (1..=PERIOD_MOST).contains(&period) && at_tail.abs() <= LATENCY_MOST && at_head.abs() <= LATENCY_MOST;
    match network.rule(question.kind, question.number) {
        Some(rule) if in_range => Reply::Slack(network.slack(rule, period, at_tail, at_head)),
        _ => Reply::Refused(file::Refusal::whole_file(10)),
    }
}
