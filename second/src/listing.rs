//! The listing of a network file in decimal lines.

use std::fmt::Write;

use crate::decide;
use crate::file::{self, Refusal};
use crate::paper::{Network, Rule};
use crate::verdict::Verdict;

pub fn listing(file: &[u8]) -> String {
    match file::read(file) {
        Err(refusal) => refused(refusal),
        Ok(network) => listed(&network, &decide::verdict(&network)),
    }
}

/// The listing of a verdict on an accepted network.
pub fn listed(network: &Network, verdict: &Verdict) -> String {
    match verdict {
        Verdict::Answered { period, latencies, witness } => {
            let mut text = format!("period {period}\n");
            for (register, latency) in latencies.iter().enumerate() {
                line(&mut text, format_args!("latency {register} {latency}"));
            }
            text + &shown(period - 1, witness)
        }
        Verdict::NoPeriod { witness } => refused(Refusal::whole_file(8)) + &shown(network.ceiling, witness),
        Verdict::AboveCeiling { witness } => refused(Refusal::whole_file(9)) + &shown(network.ceiling, witness),
    }
}

fn refused(refusal: Refusal) -> String {
    format!("refused {} {}\n", refusal.number, refusal.place)
}

fn shown(period: i64, witness: &[Rule]) -> String {
    let mut text = String::new();
    if !witness.is_empty() {
        line(&mut text, format_args!("loop {period}"));
    }
    for rule in witness {
        line(&mut text, format_args!("{} {}", rule.kind.name(), rule.number));
    }
    text
}

fn line(text: &mut String, words: std::fmt::Arguments) {
    writeln!(text, "{words}").expect("writing to a string does not fail");
}
