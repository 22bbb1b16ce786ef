//! The scheduler's call, and its output read back (RULES 7).

use crate::file::header;
use crate::linked::{self, Returned};
use crate::network::{Network, RegisterId};
use crate::record;
use crate::refusal::Refusal;
use crate::rule::{Loop, Rule};
use std::fmt;

/// Room enough for 256 registers, the most that are accepted.
const ROOM: usize = 14 + 16 * 256;

/// The best schedule there is.
#[derive(Clone, Debug, PartialEq, Eq)]
pub struct Answer {
    /// The shortest whole period from the floor to the ceiling at which there is a schedule.
    pub period: i32,
    /// The smallest latency of each register at that period, the host's, which is 0, first.
    pub latencies: Vec<i32>,
    /// Where the period is above the floor, rules that contradict each other at the period before.
    pub loop_: Option<Loop>,
}

impl Answer {
    /// The latency of a register. One that the network does not have has none.
    pub fn latency(&self, register: RegisterId) -> Option<i32> {
        register.of(&self.latencies).copied()
    }
}

/// The lines of the listing (RULES 9.2), without the newline of the last.
impl fmt::Display for Answer {
    fn fmt(&self, f: &mut fmt::Formatter<'_>) -> fmt::Result {
        write!(f, "period {}", self.period)?;
        for (register, latency) in self.latencies.iter().enumerate() {
            write!(f, "\nlatency {register} {latency}")?;
        }
        if let Some(shown) = &self.loop_ {
            write!(f, "\nloop {}", self.period.saturating_sub(1))?;
            shown.rules.iter().try_for_each(|rule| write!(f, "\n{rule}"))?;
        }
        Ok(())
    }
}

/// The shortest period and the smallest latencies, or why there are none.
pub fn schedule(network: &Network) -> Result<Answer, Refusal> {
    schedule_bytes(&network.to_bytes())
}

/// The same of a network file. Any bytes may be given.
pub fn schedule_bytes(file: &[u8]) -> Result<Answer, Refusal> {
    let mut out = [0; ROOM];
    let returned = linked::schedule(file, &mut out);
    read(returned, file, &out)
}

fn read(returned: Returned, file: &[u8], out: &[u8]) -> Result<Answer, Refusal> {
    let number = returned.number();
    let unreadable = Refusal::Unreadable(number);
    match number {
        0 => answer(file, out).ok_or(unreadable),
        7 => Err(Refusal::Room),
        8 => Err(loop_alone(file, out).map_or(unreadable, Refusal::NoPeriod)),
        9 => Err(loop_alone(file, out).map_or(unreadable, Refusal::NoneToCeiling)),
        _ => Err(Refusal::of_file(returned).unwrap_or(unreadable)),
    }
}

/// RULES 7.5: the period, one latency for each register, and the loop.
fn answer(file: &[u8], out: &[u8]) -> Option<Answer> {
    let [n, m, ..] = header(file)?;
    let [period, latencies, entries] = record::get(out, 0, b"SK")?;
    if period < 1 || latencies != n || !(0..=n).contains(&entries) {
        return None;
    }
    let latency =
        |register: i32| record::get(out, 14 + 6 * register as usize, b"LT").map(|[latency]: [i32; 1]| latency);
    let latencies = (0..n).map(latency).collect::<Option<Vec<i32>>>()?;
    let rules = rules(out.get(14 + 6 * latencies.len()..)?, entries, n, m)?;
    Some(Answer { period, latencies, loop_: (!rules.is_empty()).then_some(Loop { rules }) })
}

/// RULES 7.6: no period, no latencies, and a loop.
fn loop_alone(file: &[u8], out: &[u8]) -> Option<Loop> {
    let [n, m, ..] = header(file)?;
    let [period, latencies, entries] = record::get(out, 0, b"SK")?;
    if (period, latencies) != (0, 0) || !(1..=n).contains(&entries) {
        return None;
    }
    Some(Loop { rules: rules(out.get(14..)?, entries, n, m)? })
}

/// The rules that the first entries name.
fn rules(bytes: &[u8], entries: i32, n: i32, m: i32) -> Option<Vec<Rule>> {
    let entry = |index: i32| record::get(bytes, 10 * index as usize, b"ED");
    (0..entries).map(|index| Rule::of_entry(entry(index)?, n, m)).collect()
}

#[cfg(test)]
#[path = "answer_tests.rs"]
mod tests;
