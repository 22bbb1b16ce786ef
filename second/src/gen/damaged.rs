//! Damaged files, as a catalogue: every truncation, every mark, every field at both sides of both ends of its range,
//! counts at and past their limits, trailing bytes, and two faults at once.

use crate::draft::Draft;
use crate::gen::tiny;
use crate::paper::{DELAY_MOST, LATENCY_MOST, MARGIN_MOST, PERIOD_MOST, UNCERTAINTY_MOST};
use crate::rng::Rng;
use crate::wire::FILE_MOST;

const HEADER: usize = 22;
const RECORD: usize = 18;

/// All damaged files made from one tiny network, in no order. Some of them are sound: a field just inside its range.
pub fn catalogue(rng: &mut Rng) -> Vec<Vec<u8>> {
    let base = base(rng);
    let sound = base.file();
    let mut files: Vec<Vec<u8>> = (0..sound.len()).map(|length| sound[..length].to_vec()).collect();
    files.extend(wrong_marks(&base, &sound));
    files.extend(edges_of_fields(&base, &sound));
    files.extend(odd_counts(&sound));
    files.extend(counts_at_limits());
    files.extend(trailing(rng, &sound));
    let doubles: Vec<Vec<u8>> = (0..40).map(|_| damaged_twice(rng, &base, &sound)).collect();
    files.extend(doubles);
    rng.shuffle(&mut files);
    files
}

/// A sound network with at least two registers and two paths, so that places other than 0 occur.
fn base(rng: &mut Rng) -> Draft {
    loop {
        let draft = tiny::network(rng);
        if draft.n() >= 2 && (2..=4).contains(&draft.paths.len()) {
            return draft;
        }
    }
}

fn record_starts(base: &Draft) -> Vec<usize> {
    let records = base.registers.len() + base.paths.len();
    let starts = (0..records).map(|record| HEADER + RECORD * record);
    [0].into_iter().chain(starts).collect()
}

fn wrong_marks(base: &Draft, sound: &[u8]) -> Vec<Vec<u8>> {
    let mut files = Vec::new();
    for start in record_starts(base) {
        for at in [start, start + 1] {
            files.push(with_byte(sound, at, sound[at] ^ 0x20));
        }
        let swapped = with_byte(sound, start, sound[start + 1]);
        files.push(with_byte(&swapped, start + 1, sound[start]));
    }
    files
}

/// Every field with the values to try in it, by the byte it starts at.
fn fields(base: &Draft) -> Vec<(usize, Vec<i32>)> {
    let latency = LATENCY_MOST as i32;
    let n = base.n();
    let mut fields = vec![
        (10, ends(1, base.ceiling)),
        (10, ends(1, PERIOD_MOST as i32)),
        (14, ends(base.floor, PERIOD_MOST as i32)),
        (18, ends(0, UNCERTAINTY_MOST as i32)),
    ];
    for (i, &[_, _, low, high]) in base.registers.iter().enumerate() {
        let at = HEADER + RECORD * i + 2;
        let margin = ends(-MARGIN_MOST as i32, MARGIN_MOST as i32);
        fields.extend([
            (at, margin.clone()),
            (at + 4, margin),
            (at + 8, ends(-latency, high)),
            (at + 12, ends(low, latency)),
        ]);
    }
    for (p, &[_, _, dmin, dmax]) in base.paths.iter().enumerate() {
        let at = HEADER + RECORD * (base.registers.len() + p) + 2;
        let (slowest, end) = (DELAY_MOST as i32, ends(0, n - 1));
        fields.extend([(at, end.clone()), (at + 4, end), (at + 8, ends(0, dmax)), (at + 12, ends(dmin, slowest))]);
    }
    fields
}

/// Both ends of a range, one beyond each, and the ends of what four bytes can say.
fn ends(low: i32, high: i32) -> Vec<i32> {
    vec![low, high, low - 1, high + 1, i32::MIN, i32::MAX, -1]
}

fn edges_of_fields(base: &Draft, sound: &[u8]) -> Vec<Vec<u8>> {
    let fields = fields(base);
    let tries = fields.iter().flat_map(|(at, values)| values.iter().map(|value| with_number(sound, *at, *value)));
    tries.collect()
}

/// Counts that do not fit the length, or nothing at all. 2^30 and its like make a careless 18 * (n + m) wrap around.
fn odd_counts(sound: &[u8]) -> Vec<Vec<u8>> {
    let values = [0, -1, 1, 2, 3, 255, 256, 257, 2_048, 2_049, 65_536, 65_538, 1 << 30, 1 << 29, i32::MAX, i32::MIN];
    let counts = values.iter().flat_map(|&value| [(2, value), (6, value)]);
    let mut files: Vec<Vec<u8>> = counts.map(|(at, value)| with_number(sound, at, value)).collect();
    // The sum of the two counts is right, one of them is not.
    let records = ((sound.len() - HEADER) / RECORD) as i32;
    for (n, m) in [(0, records), (-1, records + 1), (records, 0), (records + 1, -1), (1, records - 1)] {
        files.push(with_number(&with_number(sound, 2, n), 6, m));
    }
    files
}

/// Files of the greatest counts, and of one more, that are sound in all else; each also with its last byte missing.
fn counts_at_limits() -> Vec<Vec<u8>> {
    let mut files = Vec::new();
    for (n, m) in [(256, 0), (257, 0), (256, 2_048), (1, 2_048), (1, 2_049), (257, 2_048)] {
        let mut registers = vec![[0, 0, -5, 5]; n];
        registers[0] = [0; 4];
        let draft = Draft { floor: 1, ceiling: 9, uncertainty: 0, registers, paths: vec![[0, 0, 1, 2]; m] };
        let whole = draft.file();
        files.push(whole[..whole.len() - 1].to_vec());
        files.push(whole);
    }
    files
}

fn trailing(rng: &mut Rng, sound: &[u8]) -> Vec<Vec<u8>> {
    let longest = FILE_MOST as usize;
    let mut files: Vec<Vec<u8>> = Vec::new();
    for extra in [1, 17, 18, 19, 4_096, longest - sound.len()] {
        let mut file = sound.to_vec();
        file.resize(sound.len() + extra, 0);
        files.push(file);
    }
    files.push(vec![0; longest]);
    files.push((0..longest).map(|_| rng.word() as u8).collect());
    files.push((0..rng.between(0, 200)).map(|_| rng.word() as u8).collect());
    files
}

/// Two fields or marks wrong, or some byte at random: the lowest number, and its lowest place, must win.
fn damaged_twice(rng: &mut Rng, base: &Draft, sound: &[u8]) -> Vec<u8> {
    let (fields, starts) = (fields(base), record_starts(base));
    let mut file = sound.to_vec();
    for _ in 0..2 {
        file = match rng.index(3) {
            0 => {
                let (at, values) = &fields[rng.index(fields.len())];
                with_number(&file, *at, rng.pick(values))
            }
            1 => with_byte(&file, rng.pick(&starts), b'?'),
            _ => {
                let at = rng.index(file.len());
                with_byte(&file, at, rng.word() as u8)
            }
        };
    }
    file
}

fn with_byte(file: &[u8], at: usize, byte: u8) -> Vec<u8> {
    let mut changed = file.to_vec();
    changed[at] = byte;
    changed
}

fn with_number(file: &[u8], at: usize, number: i32) -> Vec<u8> {
    let mut changed = file.to_vec();
    changed[at..at + 4].copy_from_slice(&number.to_le_bytes());
    changed
}
