//! The second program's fastest solver behind the module's C signature, so that it is timed on the same bytes.
use second::{arrows::Problem, draft::put_record, fast, file, paper::Rule, verdict::Verdict};

/// # Safety
/// `file` and `out` must be lent with their sizes, as the module's header asks.
#[no_mangle]
pub unsafe extern "C" fn second_schedule(file: *const u8, size: usize, out: *mut u8, room: usize) -> u64 {
    let (bytes, out) = (std::slice::from_raw_parts(file, size), std::slice::from_raw_parts_mut(out, room));
    let network = match file::read(bytes) {
        Ok(network) => network,
        Err(refusal) => return refusal.number as u64 | (refusal.place as u64) << 32,
    };
    if room < 14 + 16 * network.registers.len() {
        return 7;
    }
    let verdict = fast::solve(&Problem::of(&network));
    let written = output(&verdict);
    out[..written.len()].copy_from_slice(&written);
    verdict.number() as u64
}

fn output(verdict: &Verdict) -> Vec<u8> {
    let (period, latencies) = match verdict {
        Verdict::Answered { period, latencies, .. } => (*period, &latencies[..]),
        _ => (0, &[][..]),
    };
    let mut bytes = Vec::new();
    put_record(&mut bytes, b"SK", &[period as i32, latencies.len() as i32, verdict.witness().len() as i32]);
    for &latency in latencies {
        put_record(&mut bytes, b"LT", &[latency as i32]);
    }
    for Rule { kind, number } in verdict.witness() {
        put_record(&mut bytes, b"ED", &[kind.number(), *number as i32]);
    }
    bytes
}
