//! The checker of complete outputs: the number, the place and every byte of the output buffer.

use crate::decide;
use crate::file::{self, marked, number_at, Refusal};
use crate::paper::{Network, Rule};
use crate::question::{self, Question, Reply};
use crate::verdict::Verdict;
use crate::witness;

/// What must come back for a file and a room. Computed once, it can judge any number of answers.
pub enum Expected {
    /// Numbers 1 to 7: the output must be untouched.
    Untouched(Refusal),
    /// Numbers 0, 8 and 9.
    Written(Network, Verdict),
}

impl Expected {
    pub fn of(file: &[u8], room: usize) -> Expected {
        match file::read(file) {
            Err(refusal) => Expected::Untouched(refusal),
            Ok(network) if room < 14 + 16 * network.registers.len() => Expected::Untouched(Refusal::whole_file(7)),
            Ok(network) => {
                let verdict = decide::verdict(&network);
                Expected::Written(network, verdict)
            }
        }
    }

    fn refusal(&self) -> Refusal {
        match self {
            Expected::Untouched(refusal) => *refusal,
            Expected::Written(_, verdict) => Refusal::whole_file(verdict.number()),
        }
    }

    /// Judges an answer; the loop it shows is handed back.
    pub fn judge(&self, before: &[u8], number: i32, place: i32, after: &[u8]) -> Result<Vec<Rule>, String> {
        let expected = self.refusal();
        if (number, place) != (expected.number, expected.place) {
            let Refusal { number: n, place: p } = expected;
            return Err(format!("number {number} place {place}, but number {n} place {p} is due"));
        }
        if before.len() != after.len() {
            return Err(format!("the buffer went from {} to {} bytes", before.len(), after.len()));
        }
        match self {
            Expected::Untouched(_) => untouched(before, after, 0).map(|()| Vec::new()),
            Expected::Written(network, verdict) => judge_written(network, verdict, before, after),
        }
    }
}

/// Judges one complete output of the first public function. The buffers are as long as the room.
pub fn judge_solve(file: &[u8], before: &[u8], number: i32, place: i32, after: &[u8]) -> Result<(), String> {
    Expected::of(file, before.len()).judge(before, number, place, after).map(|_| ())
}

/// Judges one answer of the second public function. The slack is due to the picosecond, and after a refusal there
/// must be none.
pub fn judge_question(
    file: &[u8],
    question: &Question,
    number: i32,
    place: i32,
    slack: Option<i32>,
) -> Result<(), String> {
    let due = match question::reply(file, question) {
        Reply::Slack(slack) => (0, 0, Some(slack)),
        Reply::Refused(refusal) => (refusal.number, refusal.place, None),
    };
    let found = (number, place, slack.map(i64::from));
    if found == due {
        return Ok(());
    }
    Err(format!("{}, but {} is due", replied(found), replied(due)))
}

fn replied((number, place, slack): (i32, i32, Option<i64>)) -> String {
    let slack = slack.map_or("no slack".to_string(), |slack| format!("slack {slack}"));
    format!("number {number} place {place} {slack}")
}

fn judge_written(network: &Network, verdict: &Verdict, before: &[u8], after: &[u8]) -> Result<Vec<Rule>, String> {
    let mut page = Page { bytes: after, at: 0 };
    let [period, latencies, entries] =
        page.record(b"SK", ["period", "number of latencies", "number of loop entries"])?;
    match verdict {
        Verdict::Answered { period: due, latencies: least, .. } => {
            same("period", period, *due)?;
            same("number of latencies", latencies, least.len() as i64)?;
            for (register, &due) in least.iter().enumerate() {
                let [latency] = page.record(b"LT", ["latency"])?;
                same(&format!("latency of register {register}"), latency, due)?;
            }
            meets_all_rules(network, period, least)?;
        }
        _ => {
            same("period", period, 0)?;
            same("number of latencies", latencies, 0)?;
        }
    }
    if matches!(verdict, Verdict::Answered { .. }) && period == network.floor {
        same("number of loop entries", entries, 0)?;
    }
    let shown = page.loop_entries(entries, network.registers.len())?;
    untouched(before, after, page.at)?;
    judge_shown(network, verdict, &shown)
}

/// The loop must be one that the verdict allows.
fn judge_shown(network: &Network, verdict: &Verdict, shown: &[(i32, i32)]) -> Result<Vec<Rule>, String> {
    match verdict {
        // At the floor the count has been found to be 0 already.
        Verdict::Answered { period, .. } if *period == network.floor => Ok(Vec::new()),
        Verdict::Answered { period, .. } => witness::judge(network, shown, period - 1),
        Verdict::AboveCeiling { .. } => witness::judge(network, shown, network.ceiling),
        Verdict::NoPeriod { .. } => {
            let rules = witness::judge(network, shown, network.ceiling)?;
            witness::knows_no_period(&rules).map(|()| rules)
        }
    }
}

/// The solver is not trusted alone: what it calls a schedule is tried against every inequality as the paper has it.
fn meets_all_rules(network: &Network, period: i64, latencies: &[i64]) -> Result<(), String> {
    for rule in network.rules() {
        let (at_tail, at_head) = (latencies[network.tail(rule)], latencies[network.head(rule)]);
        if !network.is_met(rule, period, at_tail, at_head) {
            return Err(format!("{} {} is broken at period {period}", rule.kind.name(), rule.number));
        }
    }
    same("latency of the host", latencies[0], 0)
}

fn untouched(before: &[u8], after: &[u8], from: usize) -> Result<(), String> {
    match (from..after.len()).find(|&i| before[i] != after[i]) {
        Some(i) => Err(format!("byte {i} should have kept its value {} but is {}", before[i], after[i])),
        None => Ok(()),
    }
}

fn same(what: &str, found: i64, due: i64) -> Result<(), String> {
    if found == due {
        return Ok(());
    }
    Err(format!("{what} is {found}, but {due} is due"))
}

/// The output as records read one after the other.
struct Page<'a> {
    bytes: &'a [u8],
    at: usize,
}

impl Page<'_> {
    fn record<const N: usize>(&mut self, mark: &[u8; 2], names: [&str; N]) -> Result<[i64; N], String> {
        let (start, end) = (self.at, self.at + 2 + 4 * N);
        let name = String::from_utf8_lossy(mark);
        if end > self.bytes.len() {
            return Err(format!("no room is left for {name} ({}) at byte {start}", names.join(", ")));
        }
        if !marked(self.bytes, start, mark) {
            return Err(format!("bytes {start} and {} are not the mark {name}", start + 1));
        }
        self.at = end;
        Ok(std::array::from_fn(|field| number_at(self.bytes, start + 2 + 4 * field)))
    }

    fn loop_entries(&mut self, count: i64, registers: usize) -> Result<Vec<(i32, i32)>, String> {
        if count < 0 || count > registers as i64 {
            return Err(format!("{count} loop entries cannot pass {registers} registers at most once each"));
        }
        let mut entries = Vec::new();
        for _ in 0..count {
            let [kind, number] = self.record(b"ED", ["kind", "number"])?;
            entries.push((kind as i32, number as i32));
        }
        Ok(entries)
    }
}
