//! Which files are refused, with which number and place.

use second::draft::Draft;
use second::file::{read, Refusal};
use second::gen::damaged::catalogue;
use second::rng::Rng;
use second::worked::worked_cases;

fn sound() -> Draft {
    worked_cases().swap_remove(0).draft
}

fn with_number(at: usize, number: i32) -> Vec<u8> {
    let mut file = sound().file();
    file[at..at + 4].copy_from_slice(&number.to_le_bytes());
    file
}

fn with_byte(at: usize, byte: u8) -> Vec<u8> {
    let mut file = sound().file();
    file[at] = byte;
    file
}

/// Network A with two of its numbers changed.
fn with_two(first: (usize, i32), second: (usize, i32)) -> Vec<u8> {
    let mut file = with_number(first.0, first.1);
    file[second.0..second.0 + 4].copy_from_slice(&second.1.to_le_bytes());
    file
}

fn refused(number: i32, place: i32) -> Option<Refusal> {
    Some(Refusal { number, place })
}

fn of_counts(n: usize, m: usize) -> Vec<u8> {
    let mut registers = vec![[0, 0, -1, 1]; n];
    if let Some(host) = registers.first_mut() {
        *host = [0; 4];
    }
    Draft { floor: 1, ceiling: 9, uncertainty: 0, registers, paths: vec![[0, 0, 0, 0]; m] }.file()
}

// Where the fields of network A start: three registers of 18 bytes after the header, then three paths.
const R0: usize = 22 + 2;
const R1: usize = R0 + 18;
const R2: usize = R1 + 18;
const P0: usize = R2 + 18;
const P1: usize = P0 + 18;
const P2: usize = P1 + 18;

#[test]
fn single_faults_are_refused_with_their_number_and_place() {
    let lengths =
        [(vec![], 1), (b"NW".to_vec(), 1), (sound().file()[..21].to_vec(), 1), (sound().file()[..22].to_vec(), 3)];
    for (file, number) in lengths {
        assert_eq!(read(&file).err(), refused(number, 0), "{} bytes", file.len());
    }
    let marks =
        [(0, 1, 0), (1, 1, 0), (22, 5, 0), (23, 5, 0), (40, 5, 1), (59, 5, 2), (76, 6, 0), (95, 6, 1), (112, 6, 2)];
    for (at, number, place) in marks {
        assert_eq!(read(&with_byte(at, b'?')).err(), refused(number, place), "mark at {at}");
    }
}

/// Each field with the ends of its range, which are accepted, and their neighbours outside, which are not.
#[test]
fn every_field_is_accepted_at_its_ends_and_refused_beyond() {
    let fields = [
        (10, 1, 100, 4, 0),
        (14, 1, 10_000_000, 4, 0),
        (18, 0, 10_000, 4, 0),
        (R0, -100_000, 100_000, 5, 0),
        (R0 + 4, -100_000, 100_000, 5, 0),
        (R0 + 8, 0, 0, 5, 0),
        (R0 + 12, 0, 0, 5, 0),
        (R1, -100_000, 100_000, 5, 1),
        (R2 + 4, -100_000, 100_000, 5, 2),
        (R1 + 8, -1_000_000, 10, 5, 1),
        (R2 + 12, -10, 1_000_000, 5, 2),
        (P0, 0, 2, 6, 0),
        (P1 + 4, 0, 2, 6, 1),
        (P2 + 8, 0, 6, 6, 2),
        (P0 + 12, 2, 1_000_000, 6, 0),
    ];
    for (at, low, high, number, place) in fields {
        for inside in [low, high] {
            assert_eq!(read(&with_number(at, inside)).err(), None, "{inside} at {at}");
        }
        for outside in [low - 1, high + 1, i32::MIN, i32::MAX] {
            assert_eq!(read(&with_number(at, outside)).err(), refused(number, place), "{outside} at {at}");
        }
    }
}

#[test]
fn floor_and_ceiling_reach_ten_million() {
    assert_eq!(read(&with_two((10, 10_000_000), (14, 10_000_000))).err(), None);
    assert_eq!(read(&with_two((10, 10_000_001), (14, 10_000_001))).err(), refused(4, 0));
    assert_eq!(read(&with_two((10, 0), (14, 0))).err(), refused(4, 0));
}

#[test]
fn counts_are_judged_before_the_length() {
    assert_eq!(read(&of_counts(256, 2_048)).err(), None);
    assert_eq!(of_counts(256, 2_048).len(), 41_494);
    for (n, m) in [(0, 0), (0, 3), (257, 0), (1, 2_049), (257, 2_049)] {
        assert_eq!(read(&of_counts(n, m)).err(), refused(2, 0), "{n} registers, {m} paths");
    }
    for (at, number) in [(2, -1), (6, -1), (2, i32::MIN), (6, i32::MAX), (2, 1 << 30)] {
        assert_eq!(read(&with_number(at, number)).err(), refused(2, 0), "{number} at {at}");
    }
    for (at, number) in [(2, 2), (2, 4), (6, 2), (6, 4), (2, 256), (6, 2_048)] {
        assert_eq!(read(&with_number(at, number)).err(), refused(3, 0), "{number} at {at}");
    }
    let longer = [sound().file(), vec![0]].concat();
    assert_eq!(read(&longer).err(), refused(3, 0));
    let longest = [sound().file(), vec![0; 10_000_000]].concat();
    assert_eq!(read(&longest).err(), refused(3, 0));
}

#[test]
fn the_lowest_number_wins_and_then_the_lowest_place() {
    assert_eq!(read(&with_two((18, -1), (R0, 999_999))).err(), refused(4, 0));
    assert_eq!(read(&with_two((P0, 9), (R2, 999_999))).err(), refused(5, 2));
    assert_eq!(read(&with_two((R2, 999_999), (R1 + 4, 999_999))).err(), refused(5, 1));
    assert_eq!(read(&with_two((P2 + 8, -1), (P1, -1))).err(), refused(6, 1));
    assert_eq!(read(&with_two((2, 0), (18, -1))).err(), refused(2, 0));
}

#[test]
fn every_truncation_is_refused_and_the_whole_is_read_as_drafted() {
    let whole = sound().file();
    for length in 0..whole.len() {
        let number = if length < 22 { 1 } else { 3 };
        assert_eq!(read(&whole[..length]).err(), refused(number, 0), "{length} bytes");
    }
    let network = read(&whole).unwrap();
    assert_eq!((network.floor, network.ceiling, network.uncertainty), (1, 100, 0));
    let windows: Vec<(i64, i64)> = network.registers.iter().map(|r| (r.low, r.high)).collect();
    assert_eq!(windows, [(0, 0), (-10, 10), (-10, 10)]);
    let paths: Vec<_> = network.paths.iter().map(|p| (p.from, p.to, p.dmin, p.dmax)).collect();
    assert_eq!(paths, [(0, 1, 2, 9), (1, 2, 2, 3), (2, 0, 2, 6)]);
}

#[test]
fn a_catalogue_of_damage_shows_every_refusal() {
    let files = catalogue(&mut Rng::new(5));
    let mut seen = [0; 7];
    for file in &files {
        seen[read(file).err().map_or(0, |refusal| refusal.number as usize)] += 1;
    }
    assert!(seen.iter().all(|&count| count >= 5), "{seen:?}");
}
