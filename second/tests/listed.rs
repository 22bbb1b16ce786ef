//! The listing program, run on the worked files and on what is no network file at all.

mod support;

use std::io::Write;
use std::path::PathBuf;
use std::process::{Command, Stdio};

use second::listing::listed;
use second::verdict::Verdict;
use second::worked::{all_cases, worked_cases, Case};
use support::{accepted, loops_allowed};

/// What the listing program writes; `tools/run` builds it where it is missing.
fn skewlist(input: &[u8]) -> String {
    let run = PathBuf::from(env!("CARGO_MANIFEST_DIR")).join("../tools/run");
    let mut child = Command::new(run)
        .arg("skewlist")
        .stdin(Stdio::piped())
        .stdout(Stdio::piped())
        .spawn()
        .expect("tools/run starts");
    // A program that has read enough may close its end before all is written.
    let _ = child.stdin.take().expect("the pipe is there").write_all(input);
    let output = child.wait_with_output().expect("tools/run ends");
    assert!(output.status.success());
    String::from_utf8(output.stdout).expect("a listing is text")
}

fn verdict(case: &Case, witness: Vec<second::paper::Rule>) -> Verdict {
    match case.number {
        0 => Verdict::Answered { period: case.period, latencies: case.latencies.to_vec(), witness },
        8 => Verdict::NoPeriod { witness },
        _ => Verdict::AboveCeiling { witness },
    }
}

#[test]
fn the_listings_are_the_papers_but_for_the_choice_of_loop() {
    for case in all_cases() {
        let network = accepted(&case.draft);
        let mut allowed = loops_allowed(&network, case.number, case.period);
        if allowed.is_empty() {
            allowed.push(Vec::new());
        }
        let text = skewlist(&case.draft.file());
        let due: Vec<String> = allowed.into_iter().map(|witness| listed(&network, &verdict(&case, witness))).collect();
        assert!(due.contains(&text), "{}: {text}", case.name);
    }
}

#[test]
fn what_is_no_network_file_is_refused() {
    let megabyte: Vec<u8> = (0..1_000_000u32).map(|i| (i.wrapping_mul(2_654_435_761) >> 24) as u8).collect();
    for input in [&b""[..], b"N", b"\0\0", &megabyte] {
        assert_eq!(skewlist(input), "refused 1 0\n");
    }
    let mut long = worked_cases()[0].draft.file();
    for length in [131, 41_494, 41_495, 41_496, 1_000_000] {
        long.resize(length, 0);
        assert_eq!(skewlist(&long), "refused 3 0\n", "{length}");
    }
}
