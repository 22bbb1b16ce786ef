//! The paper's tables of what was worked by hand: the eleven networks (RULES 11.5), those of the requests (RULES
//! 16.10), and the slacks (RULES 15.9, 16.12).

use crate::draft::Draft;
use crate::paper::Kind;
use crate::question::Question;
use crate::wire::Request;

/// A worked case: its name, its network and what RULES 11.5 or 16.10 says of it. The period is 0 for a refusal.
pub struct Case {
    pub name: &'static str,
    pub draft: Draft,
    pub number: i32,
    pub period: i64,
    pub latencies: &'static [i64],
    pub witness: Entries,
}

fn network_a() -> Draft {
    Draft {
        floor: 1,
        ceiling: 100,
        uncertainty: 0,
        registers: vec![[1, 1, 0, 0], [1, 1, -10, 10], [1, 1, -10, 10]],
        paths: vec![[0, 1, 2, 9], [1, 2, 2, 3], [2, 0, 2, 6]],
    }
}

fn network_d() -> Draft {
    Draft {
        floor: 1,
        ceiling: 100,
        uncertainty: 0,
        registers: vec![[0, 0, 0, 0], [0, 0, -10, 10]],
        paths: vec![[0, 1, 5, 10], [1, 0, 5, 5]],
    }
}

fn lone(hold: i32, paths: Vec<[i32; 4]>) -> Draft {
    Draft { floor: 1, ceiling: 100, uncertainty: 0, registers: vec![[0, hold, 0, 0]], paths }
}

type Entries = &'static [(Kind, usize)];

#[rustfmt::skip]
fn case(name: &'static str, draft: Draft, number: i32, period: i64, latencies: &'static [i64], witness: Entries) -> Case {
    Case { name, draft, number, period, latencies, witness }
}

/// The eleven of RULES 11.5.
#[rustfmt::skip]
pub fn worked_cases() -> Vec<Case> {
    use Kind::*;
    let a = network_a;
    let e = Draft { registers: vec![[0, 0, 0, 0], [0, 0, 0, 1]], ..network_d() };
    vec![
        case("A", a(), 0, 9, &[0, 1, -1], &[(Setup, 0), (Hold, 0)]),
        case("A2", Draft { floor: 9, ..a() }, 0, 9, &[0, 1, -1], &[]),
        case("A3", Draft { floor: 20, ..a() }, 0, 20, &[0, -2, -1], &[]),
        case("A4", Draft { ceiling: 8, ..a() }, 9, 0, &[], &[(Setup, 0), (Hold, 0)]),
        case("A5", Draft { ceiling: 9, ..a() }, 0, 9, &[0, 1, -1], &[(Setup, 0), (Hold, 0)]),
        case("A6", Draft { uncertainty: 1, ..a() }, 0, 11, &[0, 0, 0], &[(Setup, 0), (Hold, 0)]),
        case("A7", Draft { uncertainty: 2, ..a() }, 8, 0, &[], &[(Hold, 2), (Hold, 1), (Hold, 0)]),
        case("B", lone(1, vec![[0, 0, 0, 5]]), 8, 0, &[], &[(Hold, 0)]),
        case("D", network_d(), 0, 8, &[0, 2], &[(Setup, 0), (Setup, 1)]),
        case("E", e, 0, 9, &[0, 1], &[(Setup, 0), (High, 1)]),
        case("F", lone(0, vec![]), 0, 1, &[0], &[]),
    ]
}

const TOGGLE: [i32; 4] = [2, 2, -10, 10];

fn network_t() -> Draft {
    Draft { floor: 1, ceiling: 100, uncertainty: 3, registers: vec![[0; 4], TOGGLE], paths: vec![[1, 1, 2, 5]] }
}

/// T with register 2, and with these paths.
fn with_two(paths: &[[i32; 4]]) -> Draft {
    Draft { registers: vec![[0; 4], TOGGLE, TOGGLE], paths: paths.to_vec(), ..network_t() }
}

/// The cases of RULES 16.10.
#[rustfmt::skip]
pub fn request_cases() -> Vec<Case> {
    use Kind::*;
    let t = network_t;
    let t2 = with_two(&[[1, 2, 2, 5], [2, 1, 2, 5]]);
    let t3 = with_two(&[[1, 2, 5, 9], [2, 1, 5, 5]]);
    let t4 = Draft { registers: vec![[2, 2, 0, 0]], paths: vec![[0, 0, 2, 5]], ..t() };
    let t5 = Draft { registers: vec![[0; 4], [2, 3, -10, 10]], ..t() };
    let t7 = with_two(&[[1, 1, 2, 5], [1, 2, 4, 9], [2, 2, 3, 6]]);
    let t8 = Draft { paths: vec![[1, 1, 5, 5]], ..t() };
    let t9 = Draft { paths: vec![[1, 1, 2, 5], [1, 1, 3, 7]], ..t() };
    vec![
        case("T", t(), 0, 10, &[0, -10], &[(Setup, 0)]),
        case("T2", t2, 8, 0, &[], &[(Hold, 1), (Hold, 0)]),
        case("T3", t3, 0, 14, &[0, -10, -10], &[(Setup, 0), (Hold, 0)]),
        case("T4", t4, 0, 10, &[0], &[(Setup, 0)]),
        case("T5", t5, 8, 0, &[], &[(Hold, 0)]),
        case("T6", Draft { uncertainty: 10_000, ..t() }, 9, 0, &[], &[(Setup, 0)]),
        case("T7", t7, 0, 15, &[0, -9, -10], &[(Setup, 1), (Hold, 1)]),
        case("T8", t8, 0, 10, &[0, -10], &[(Setup, 0)]),
        case("T9", t9, 0, 12, &[0, -10], &[(Setup, 1)]),
    ]
}

/// All networks of the two tables, the eleven first.
pub fn all_cases() -> Vec<Case> {
    worked_cases().into_iter().chain(request_cases()).collect()
}

/// A row of RULES 15.9 or 16.12: a question about a named network, and its slack.
pub struct SlackRow {
    pub network: &'static str,
    pub question: Question,
    pub slack: i64,
}

impl SlackRow {
    pub fn draft(&self) -> Draft {
        match self.network {
            "G" => network_g(),
            "H" => network_h(),
            name => all_cases().into_iter().find(|case| case.name == name).expect("a worked network").draft,
        }
    }
}

const M: i32 = 1_000_000;

fn network_g() -> Draft {
    Draft {
        floor: 1,
        ceiling: 10 * M,
        uncertainty: 0,
        registers: vec![[0; 4], [-100_000, -100_000, -M, M]],
        paths: vec![[0, 1, 0, 0], [0, 1, M, M]],
    }
}

fn network_h() -> Draft {
    Draft {
        floor: 1,
        ceiling: 10 * M,
        uncertainty: 10_000,
        registers: vec![[0; 4], [100_000, 100_000, M, M], [100_000, 100_000, -M, -M]],
        paths: vec![[0, 1, 0, M]],
    }
}

#[rustfmt::skip]
fn row(network: &'static str, kind: Kind, number: i32, period: i32, at_tail: i32, at_head: i32, slack: i64) -> SlackRow {
    SlackRow { network, question: Question { period, kind: kind.number(), number, at_tail, at_head }, slack }
}

/// The rows of RULES 15.9.
#[rustfmt::skip]
pub fn slack_rows() -> Vec<SlackRow> {
    use Kind::*;
    vec![
        row("A", Setup, 0, 9, 0, 1, 0),
        row("A", Setup, 1, 9, 1, -1, 3),
        row("A", Setup, 2, 9, -1, 0, 3),
        row("A", Hold, 0, 9, 1, 0, 0),
        row("A", Hold, 1, 9, -1, 1, 3),
        row("A", Hold, 2, 9, 0, -1, 0),
        row("A", Low, 1, 9, 0, 1, 11),
        row("A", Low, 2, 9, 0, -1, 9),
        row("A", High, 1, 9, 1, 0, 9),
        row("A", High, 2, 9, -1, 0, 11),
        row("A6", Hold, 1, 11, 0, 0, 0),
        row("D", Setup, 0, 8, 0, 2, 0),
        row("D", Setup, 1, 8, 2, 0, 1),
        row("A", Setup, 0, 8, 0, 1, -1),
        row("A", Hold, 0, 8, 2, 0, -1),
        row("A", Low, 1, 9, 5, -11, -1),
        row("A", High, 1, 9, 11, 5, -1),
        row("G", Setup, 0, 10 * M, -M, M, 12_100_000),
        row("H", Setup, 0, 1, M, -M, -3_109_999),
        row("G", Hold, 1, 1, -M, M, 3_100_000),
        row("H", Hold, 0, 10 * M, M, -M, -2_110_000),
        row("G", Low, 1, 1, 0, M, 2_000_000),
        row("H", Low, 1, 1, 0, -M, -2_000_000),
        row("G", High, 1, 1, -M, 0, 2_000_000),
        row("H", High, 2, 1, M, 0, -2_000_000),
        row("B", Setup, 0, 9, 2, 5, 7),
        row("B", Hold, 0, 9, 2, 5, 2),
    ]
}

/// The rows of RULES 16.12.
#[rustfmt::skip]
pub fn request_slack_rows() -> Vec<SlackRow> {
    use Kind::*;
    vec![
        row("T", Setup, 0, 10, -10, -10, 0),
        row("T", Hold, 0, 10, -10, -10, 0),
        row("T", Setup, 0, 9, -10, -10, -1),
        row("T", Setup, 0, 9, 2, 5, 2),
        row("T", Hold, 0, 9, 2, 5, 3),
        row("T", Hold, 0, 9, 5, 2, -3),
        row("T2", Hold, 0, 10, 0, 0, -3),
        row("T3", Hold, 0, 14, -10, -10, 0),
        row("T4", Setup, 0, 10, 0, 0, 0),
        row("T4", Hold, 0, 10, 0, 0, 0),
        row("T5", Hold, 0, 10, -10, -10, -1),
        row("T6", Setup, 0, 10_007, -10, -10, 0),
        row("T6", Hold, 0, 100, -10, -10, 0),
        row("T7", Hold, 0, 15, -9, -9, 0),
        row("T7", Hold, 1, 15, -10, -9, 0),
        row("T7", Hold, 2, 15, -10, -10, 1),
        row("T8", Hold, 0, 10, -10, -10, 3),
        row("T9", Hold, 0, 12, -10, -10, 0),
        row("T9", Hold, 1, 12, -10, -10, 1),
    ]
}

/// All rows of the two tables, those of RULES 15.9 first.
pub fn all_slack_rows() -> Vec<SlackRow> {
    slack_rows().into_iter().chain(request_slack_rows()).collect()
}

/// Questions that are refused, with number and place: no slack may follow, so the answers behind them must not move.
pub fn refused_questions() -> Vec<(Request, i32, i32)> {
    let file = network_a().file();
    let sound = Question { period: 9, kind: 0, number: 0, at_tail: 0, at_head: 1 };
    let mut faulty = file.clone();
    faulty[112] = b'?';
    let ask = |question, file: &[u8]| Request::Question { question, file: file.to_vec() };
    vec![
        (ask(sound, &file[..21]), 1, 0),
        (ask(sound, &file[..129]), 3, 0),
        (ask(sound, &faulty), 6, 2),
        (ask(Question { period: 0, ..sound }, &file), 10, 0),
        (ask(Question { at_tail: M + 1, ..sound }, &file), 10, 0),
        (ask(Question { kind: 2, ..sound }, &file), 10, 0),
        (ask(Question { kind: 4, ..sound }, &file), 10, 0),
    ]
}

/// All of it as requests: the networks with just the room they need, the questions that are refused, and the rows of
/// slacks.
pub fn requests() -> Vec<Request> {
    let solves =
        all_cases().into_iter().map(|case| Request::Solve { room: case.draft.room(), file: case.draft.file() });
    let refused = refused_questions().into_iter().map(|(request, _, _)| request);
    let rows =
        all_slack_rows().into_iter().map(|row| Request::Question { question: row.question, file: row.draft().file() });
    solves.chain(refused).chain(rows).collect()
}
