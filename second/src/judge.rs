//! Judging whole streams: counts of what was seen, and the first faults told so that they can be had again.

use std::collections::BTreeMap;
use std::io::{self, ErrorKind, Read};

use crate::answer::answer;
use crate::check::{judge_question, Expected};
use crate::gen::Source;
use crate::paper::{Kind, Rule};
use crate::slip::Slip;
use crate::wire::{fresh_buffer, Answer, Request};

const FAULTS_TOLD: usize = 10;
const BYTES_TOLD: usize = 400;

/// What a judged stream came to.
#[derive(Default)]
pub struct Tally {
    pub judged: usize,
    pub wrong: usize,
    pub seen: BTreeMap<String, usize>,
    pub faults: Vec<String>,
    /// The answers were cut short or too long, or a stream is misformed.
    pub broken: Option<String>,
}

impl Tally {
    pub fn is_clean(&self) -> bool {
        self.wrong == 0 && self.broken.is_none()
    }

    pub fn report(&self) -> String {
        let mut lines: Vec<String> = self.seen.iter().map(|(what, count)| format!("{what}: {count}")).collect();
        lines.extend(self.faults.iter().cloned());
        lines.push(self.last_line());
        lines.join("\n") + "\n"
    }

    /// A broken stream is not judged to its end, so its last line must not read like that of a clean one.
    fn last_line(&self) -> String {
        let Tally { judged, wrong, .. } = self;
        match &self.broken {
            Some(fault) => format!("BROKEN: {fault}; {judged} judged, {wrong} wrong"),
            None => format!("judged {judged}, wrong {wrong}"),
        }
    }

    fn count(&mut self, what: String) {
        *self.seen.entry(what).or_default() += 1;
    }

    fn enter(&mut self, request: &Request, start: usize, answer: &Answer, judged: Result<Vec<Rule>, String>) {
        self.count(outcome(answer));
        match judged {
            Ok(rules) => {
                let kinds: std::collections::BTreeSet<_> = rules.iter().map(|rule| rule.kind).collect();
                kinds.iter().for_each(|kind| self.count(format!("loop with {}", kind.name())));
                end_reached(request, answer).into_iter().for_each(|end| self.count(end));
            }
            Err(fault) => {
                self.wrong += 1;
                if self.faults.len() < FAULTS_TOLD {
                    self.faults.push(format!("request {} at byte {start}: {}: {fault}", self.judged, told(request)));
                }
            }
        }
        self.judged += 1;
    }
}

/// The answer as it is counted. Answers of 0 are told apart by whether a loop came with them.
fn outcome(answer: &Answer) -> String {
    match answer {
        Answer::Solved { number: 0, buffer, .. } => {
            let at_floor = buffer.get(10..14) == Some(&[0; 4][..]);
            format!("solved 0, {}", if at_floor { "no loop" } else { "with a loop" })
        }
        Answer::Solved { number, .. } => format!("solved {number}"),
        Answer::Replied { slack: Some(slack), .. } => format!("slack {}", side(*slack)),
        Answer::Replied { number, .. } => format!("question {number}"),
    }
}

fn side(slack: i32) -> &'static str {
    match slack.signum() {
        -1 => "below 0",
        0 => "of 0",
        _ => "above 0",
    }
}

/// The end of what its rule can reach (RULES 15.6) that a slack found right stands at, if it does.
fn end_reached(request: &Request, answer: &Answer) -> Option<String> {
    let (Request::Question { question, .. }, Answer::Replied { slack, .. }) = (request, answer) else {
        return None;
    };
    let (slack, kind) = (i64::from((*slack)?), Kind::numbered(question.kind)?);
    let (smallest, greatest) = kind.slack_ends();
    let ends = [("smallest", smallest), ("greatest", greatest)];
    let (end, _) = ends.into_iter().find(|(_, end)| *end == slack)?;
    Some(format!("slack of {}, the {end}", kind.name()))
}

/// The request in words, its file in hexadecimal where that is short enough to read.
fn told(request: &Request) -> String {
    let file = request.file();
    let start: String = file.iter().take(BYTES_TOLD).map(|byte| format!("{byte:02x}")).collect();
    let dots = if file.len() > BYTES_TOLD { "..." } else { "" };
    let asked = match request {
        Request::Solve { room, .. } => format!("S room {room}"),
        Request::Question { question, .. } => format!("Q {question:?}"),
    };
    format!("{asked} file of {} bytes {start}{dots}", file.len())
}

/// Judges a stream of answers against the stream of requests.
pub fn judge(requests: &mut impl Read, answers: &mut impl Read) -> io::Result<Tally> {
    let mut tally = Tally::default();
    let mut start = 0;
    while let Some(request) = Request::read(requests)? {
        let answer = match request.read_answer(answers) {
            Ok(answer) => answer,
            Err(error) if error.kind() == ErrorKind::UnexpectedEof => {
                tally.broken = Some(format!("the answers are cut short at request {}", tally.judged));
                return Ok(tally);
            }
            Err(error) => return Err(error),
        };
        let judged = Judge::of(&request).judge(&answer);
        tally.enter(&request, start, &answer, judged);
        start += length_of(&request);
    }
    let mut rest = Vec::new();
    if answers.read_to_end(&mut rest)? > 0 {
        tally.broken = Some(format!("{} bytes follow the last answer", rest.len()));
    }
    Ok(tally)
}

fn length_of(request: &Request) -> usize {
    let numbers = match request {
        Request::Solve { .. } => 2,
        Request::Question { .. } => 6,
    };
    1 + 4 * numbers + request.file().len()
}

/// One request with what is due for it, ready to judge any number of answers to it.
pub enum Judge<'a> {
    Solve(Expected, Vec<u8>),
    Question(&'a Request),
}

impl Judge<'_> {
    pub fn of(request: &Request) -> Judge<'_> {
        match request {
            Request::Solve { room, file } => Judge::Solve(Expected::of(file, *room as usize), fresh_buffer(*room)),
            Request::Question { .. } => Judge::Question(request),
        }
    }

    pub fn judge(&self, answer: &Answer) -> Result<Vec<Rule>, String> {
        match (self, answer) {
            (Judge::Solve(expected, before), Answer::Solved { number, place, buffer }) => {
                expected.judge(before, *number, *place, buffer)
            }
            (Judge::Question(Request::Question { question, file }), Answer::Replied { number, place, slack }) => {
                judge_question(file, question, *number, *place, *slack).map(|()| Vec::new())
            }
            _ => Err("the answer is not of the request's sort".to_string()),
        }
    }
}

/// How often a program was caught, by the sort of request.
#[derive(Clone, Copy, Debug, Default, PartialEq, Eq)]
pub struct Caught {
    pub solves: usize,
    pub questions: usize,
}

/// Runs one stream through the right program and every wrong one, and counts the answers found wrong.
pub fn try_programs(mut source: Source, count: usize) -> Vec<(Option<Slip>, Caught)> {
    let programs = [None].into_iter().chain(Slip::ALL.map(Some));
    let mut results: Vec<(Option<Slip>, Caught)> = programs.map(|slip| (slip, Caught::default())).collect();
    for _ in 0..count {
        let request = source.request();
        let judge = Judge::of(&request);
        for (slip, caught) in &mut results {
            if judge.judge(&answer(&request, *slip)).is_err() {
                match request {
                    Request::Solve { .. } => caught.solves += 1,
                    Request::Question { .. } => caught.questions += 1,
                }
            }
        }
    }
    results
}

/// Whether a program's record is as it should be: the right one clean, a wrong one caught wherever its error reaches.
pub fn as_it_should_be(slip: Option<Slip>, caught: Caught) -> bool {
    match slip {
        None => caught == Caught::default(),
        Some(slip) => (caught.solves > 0, caught.questions > 0) == (slip.touches_solves(), slip.touches_questions()),
    }
}
