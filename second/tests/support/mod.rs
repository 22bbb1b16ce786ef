//! What several tests share: outputs written by hand, and the definitions tried out by exhaustion on networks small
//! enough for it.
#![allow(dead_code)]

use second::draft::{put_record, Draft};
use second::file;
use second::paper::{Kind, Network, Rule};
use second::question::{reply, Question, Reply};
use second::rng::Rng;
use second::wire::fresh_buffer;
use second::worked::SlackRow;

pub fn accepted(draft: &Draft) -> Network {
    file::read(&draft.file()).expect("the draft is a sound network")
}

pub fn rules_of(witness: &[(Kind, usize)]) -> Vec<Rule> {
    witness.iter().map(|&(kind, number)| Rule { kind, number }).collect()
}

/// A fresh buffer of the room with an output written into it, as the paper lays it out.
pub fn output(room: i32, period: i64, latencies: &[i64], witness: &[Rule]) -> Vec<u8> {
    let mut bytes = Vec::new();
    put_record(&mut bytes, b"SK", &[period as i32, latencies.len() as i32, witness.len() as i32]);
    latencies.iter().for_each(|&latency| put_record(&mut bytes, b"LT", &[latency as i32]));
    witness.iter().for_each(|rule| put_record(&mut bytes, b"ED", &[rule.kind.number(), rule.number as i32]));
    let mut buffer = fresh_buffer(room);
    buffer[..bytes.len()].copy_from_slice(&bytes);
    buffer
}

/// Every loop of the network, listed from its lowest-numbered register.
pub fn all_loops(network: &Network) -> Vec<Vec<Rule>> {
    let mut found = Vec::new();
    for lowest in 0..network.registers.len() {
        extend(network, lowest, lowest, &mut Vec::new(), &mut found);
    }
    found
}

fn extend(network: &Network, lowest: usize, at: usize, chain: &mut Vec<Rule>, found: &mut Vec<Vec<Rule>>) {
    for rule in network.rules().into_iter().filter(|&rule| network.tail(rule) == at) {
        let head = network.head(rule);
        chain.push(rule);
        if head == lowest {
            found.push(chain.clone());
        } else if head > lowest && chain.iter().all(|&earlier| network.tail(earlier) != head) {
            extend(network, lowest, head, chain, found);
        }
        chain.pop();
    }
}

pub fn sum_at(network: &Network, rules: &[Rule], period: i64) -> i64 {
    rules.iter().map(|&rule| network.amount(rule, period)).sum()
}

pub fn setups_in(rules: &[Rule]) -> i64 {
    rules.iter().filter(|rule| rule.kind == Kind::Setup).count() as i64
}

/// The loops that may be shown with a number and a period, by the paper's words.
pub fn loops_allowed(network: &Network, number: i32, period: i64) -> Vec<Vec<Rule>> {
    let mut loops = all_loops(network);
    match number {
        0 if period == network.floor => loops.clear(),
        0 => loops.retain(|rules| sum_at(network, rules, period - 1) > 0),
        8 => loops.retain(|rules| setups_in(rules) == 0 && sum_at(network, rules, 1) > 0),
        9 => loops.retain(|rules| sum_at(network, rules, network.ceiling) > 0),
        other => panic!("no loop is shown with number {other}"),
    }
    loops
}

/// Number and period by the loops' needs: the larger of the floor and the greatest need.
pub fn period_by_needs(network: &Network) -> (i32, i64) {
    let loops = all_loops(network);
    if loops.iter().any(|rules| setups_in(rules) == 0 && sum_at(network, rules, 1) > 0) {
        return (8, 0);
    }
    let needs = loops.iter().filter(|rules| setups_in(rules) > 0).map(|rules| {
        let (sum, setups) = (sum_at(network, rules, 0), setups_in(rules));
        -(-sum).div_euclid(setups)
    });
    let period = needs.fold(network.floor, i64::max);
    if period > network.ceiling {
        (9, 0)
    } else {
        (0, period)
    }
}

/// The least latencies at a period by trying every combination within the windows; none if there is no schedule.
pub fn least_by_trying(network: &Network, period: i64) -> Option<Vec<i64>> {
    let mut least: Option<Vec<i64>> = None;
    let mut tried: Vec<i64> = network.registers.iter().map(|register| register.low).collect();
    loop {
        let met = |rule: Rule| network.is_met(rule, period, tried[network.tail(rule)], tried[network.head(rule)]);
        if network.rules().into_iter().all(met) {
            let so_far = least.get_or_insert_with(|| tried.clone());
            so_far.iter_mut().zip(&tried).for_each(|(low, &latency)| *low = latency.min(*low));
        }
        let Some(next) = (0..tried.len()).find(|&i| tried[i] < network.registers[i].high) else {
            return least;
        };
        tried[next] += 1;
        (0..next).for_each(|i| tried[i] = network.registers[i].low);
    }
}

/// How many combinations `least_by_trying` has to go through.
pub fn combinations(network: &Network) -> i64 {
    network.registers.iter().map(|register| register.high - register.low + 1).product()
}

/// The cells of the table that stands below a paragraph of the rules, without its two lines of head.
pub fn table(paragraph: &str) -> Vec<Vec<String>> {
    let rules = concat!(env!("CARGO_MANIFEST_DIR"), "/../docs/RULES.md");
    let text = std::fs::read_to_string(rules).unwrap();
    let (_, after) = text.split_once(&format!("**{paragraph}**")).expect("the rules have the paragraph");
    let lines = after.lines().skip_while(|line| !line.starts_with('|')).take_while(|line| line.starts_with('|'));
    lines.skip(2).map(|line| line.split('|').map(|cell| cell.trim().to_string()).collect()).collect()
}

/// A number as the rules write it: `-3,109,999`, and `M` for a million.
pub fn number(cell: &str) -> i64 {
    let digits = cell.replace(',', "");
    match digits.strip_suffix('M') {
        Some("") => 1_000_000,
        Some("-") => -1_000_000,
        Some(count) => count.parse::<i64>().unwrap() * 1_000_000,
        None => digits.parse().unwrap(),
    }
}

pub fn name_of(question: &Question) -> String {
    format!("{} {}", Kind::numbered(question.kind).unwrap().name(), question.number)
}

/// Rows of slacks against the table of a paragraph, and each row's slack against the reply.
pub fn held_to_the_page(rows: &[SlackRow], paragraph: &str, count: usize) {
    let written = table(paragraph);
    assert_eq!((rows.len(), written.len()), (count, count));
    for (row, cells) in rows.iter().zip(written) {
        let Question { period, at_tail, at_head, .. } = row.question;
        let numbers = [i64::from(period), i64::from(at_tail), i64::from(at_head), row.slack];
        assert_eq!((row.network, name_of(&row.question)), (&cells[1][..], cells[2].clone()));
        assert_eq!(numbers.to_vec(), cells[3..7].iter().map(|cell| number(cell)).collect::<Vec<_>>(), "{cells:?}");
        assert_eq!(reply(&row.draft().file(), &row.question), Reply::Slack(row.slack), "{cells:?}");
    }
}

/// Tiny networks of one seed that pass the filter, so many of them.
pub fn tiny_networks(seed: u64, count: usize, keep: impl Fn(&Network) -> bool) -> Vec<(Draft, Network)> {
    networks_of(second::gen::tiny::network, seed, count, keep)
}

/// Networks that the maker draws from one seed and that pass the filter, so many of them.
pub fn networks_of(
    make: fn(&mut Rng) -> Draft,
    seed: u64,
    count: usize,
    keep: impl Fn(&Network) -> bool,
) -> Vec<(Draft, Network)> {
    let mut rng = Rng::new(seed);
    let drafts = std::iter::repeat_with(move || make(&mut rng));
    let networks = drafts.map(|draft| {
        let network = accepted(&draft);
        (draft, network)
    });
    networks.filter(|(_, network)| keep(network)).take(count).collect()
}
