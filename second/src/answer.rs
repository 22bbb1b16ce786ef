//! Answering requests by this program's own solvers, rightly or with one of the easy errors put in.

use crate::draft::put_record;
use crate::file::{self, Refusal};
use crate::paper::Rule;
use crate::question::Reply;
use crate::slip::Slip;
use crate::verdict::Verdict;
use crate::wire::{fresh_buffer, Answer, Request};
use crate::wrong;

pub fn answer(request: &Request, slip: Option<Slip>) -> Answer {
    match request {
        Request::Solve { room, file } => solved(file, *room, slip),
        Request::Question { question, file } => {
            let (number, place, slack) = match wrong::reply(file, question, slip) {
                Reply::Slack(slack) => (0, 0, Some(i32::try_from(slack).expect("a slack fits into four bytes"))),
                Reply::Refused(refusal) => (refusal.number, refusal.place, None),
            };
            Answer::Replied { number, place, slack }
        }
    }
}

fn solved(file: &[u8], room: i32, slip: Option<Slip>) -> Answer {
    let mut buffer = fresh_buffer(room);
    let Refusal { number, place } = match file::read(file) {
        Err(refusal) => refusal,
        Ok(network) if buffer.len() < 14 + 16 * network.registers.len() => Refusal::whole_file(7),
        Ok(network) => {
            let verdict = wrong::verdict(&network, slip);
            let bytes = output(&verdict);
            buffer[..bytes.len()].copy_from_slice(&bytes);
            Refusal::whole_file(verdict.number())
        }
    };
    Answer::Solved { number, place, buffer }
}

/// The bytes written for a verdict.
fn output(verdict: &Verdict) -> Vec<u8> {
    let (period, latencies) = match verdict {
        Verdict::Answered { period, latencies, .. } => (*period, &latencies[..]),
        _ => (0, &[][..]),
    };
    let witness = verdict.witness();
    let mut bytes = Vec::new();
    put_record(&mut bytes, b"SK", &[period as i32, latencies.len() as i32, witness.len() as i32]);
    for &latency in latencies {
        put_record(&mut bytes, b"LT", &[latency as i32]);
    }
    for Rule { kind, number } in witness {
        put_record(&mut bytes, b"ED", &[kind.number(), *number as i32]);
    }
    bytes
}
