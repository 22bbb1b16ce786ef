//! Schedules a network that stands in memory, and asks by how much the answer meets the rules of the loop that is shown with it.

use mileparcel::{schedule, Answer, Host, Loop, Network, Path, Period, Refusal, Register, RegisterId};
use std::process::ExitCode;

/// Three registers, the host first, and three paths around them.
fn network_a() -> Network {
    let host = RegisterId::HOST;
    let mut network = Network::new(Period { floor: 1, ceiling: 100 }, 0, Host { setup: 1, hold: 1 });
    let register = |name: &str| Register { name: Some(name.into()), setup: 1, hold: 1, low: -10, high: 10 };
    let a = network.register(register("a"));
    let b = network.register(register("b"));
    network.path(Path { from: host, to: a, dmin: 2, dmax: 9 });
    network.path(Path { from: a, to: b, dmin: 2, dmax: 3 });
    network.path(Path { from: b, to: host, dmin: 2, dmax: 6 });
    network
}

/// The slack of each rule of the loop, and their sum. At the answer's period the sum is at least 0 and less than the number of setup rules.
/// Each of these loses 1 at the period before, so there the sum is below 0, with any latencies: some rule is always broken.
fn print_slacks(network: &Network, answer: &Answer, shown: &Loop, period: i32) -> Result<(), Refusal> {
    let slacks = shown.slacks(network, period, &answer.latencies)?;
    for of in &slacks {
        println!("{} at {period}: slack {}, {}", of.rule, of.slack, if of.is_met() { "yes" } else { "no" });
    }
    let sum: i32 = slacks.iter().map(|of| of.slack).sum();
    println!("sum at {period}: {sum}, setup rules: {}", shown.setups());
    Ok(())
}

fn show(network: &Network) -> Result<(), Refusal> {
    let answer = schedule(network)?;
    println!("period {}", answer.period);
    for (register, latency) in answer.latencies.iter().enumerate() {
        println!("latency {register} {latency}");
    }
    if let Some(shown) = &answer.loop_ {
        println!("loop {}", answer.period - 1);
        print_slacks(network, &answer, shown, answer.period)?;
        print_slacks(network, &answer, shown, answer.period - 1)?;
    }
    Ok(())
}

fn main() -> ExitCode {
    let network = network_a();
    match show(&network) {
        Ok(()) => ExitCode::SUCCESS,
        Err(refusal) => {
            eprintln!("{}", refusal.describe(&network));
            ExitCode::FAILURE
        }
    }
}
