//! Each field just inside and just outside its range (RULES 5.6): the refusal, its place and its words.

use crate::networks::{a, setup, Draft};
use mileparcel::{check, schedule, schedule_bytes, slack, Network, PathId, Record, Refusal, RegisterId};

const M: i32 = 1_000_000;

/// A field: how it is set, the refusal of a value outside its range, the words for its record, its name, its range, and why it is so.
type Field = (fn(&mut Draft, i32), Refusal, &'static str, &'static str, [i32; 2], &'static str);

/// A, with numbers that leave every other field its whole range.
fn base() -> Draft {
    let mut draft = Draft { ceiling: 10 * M, ..a() };
    draft.registers[2] = [1, 1, -10, M];
    draft.paths[1] = [1, 2, 0, 3];
    draft
}

fn network(draft: &Draft) -> Network {
    Network::from_bytes(&draft.file()).unwrap()
}

fn path(number: i32) -> Refusal {
    Refusal::Path(PathId::new(number))
}

fn register(number: i32) -> Refusal {
    Refusal::Register(RegisterId::new(number))
}

#[rustfmt::skip]
fn fields() -> Vec<Field> {
    let times = [-100_000, 100_000];
    let (header, host, last) = ("the network", "register 0 (the host)", "register 2");
    let registers = " (the network's registers)";
    vec![
        (|draft, value| draft.floor = value, Refusal::Ranges, header, "floor", [1, 10 * M], ""),
        (|draft, value| draft.ceiling = value, Refusal::Ranges, header, "ceiling", [1, 10 * M], " (not below floor)"),
        (|draft, value| draft.u = value, Refusal::Ranges, header, "uncertainty", [0, 10_000], ""),
        (|draft, value| draft.registers[0][0] = value, register(0), host, "setup", times, ""),
        (|draft, value| draft.registers[0][1] = value, register(0), host, "hold", times, ""),
        (|draft, value| draft.registers[0][2] = value, register(0), host, "low", [0, 0], " (it is the host's)"),
        (|draft, value| draft.registers[0][3] = value, register(0), host, "high", [0, 0], " (it is the host's)"),
        (|draft, value| draft.registers[2][0] = value, register(2), last, "setup", times, ""),
        (|draft, value| draft.registers[2][1] = value, register(2), last, "hold", times, ""),
        (|draft, value| draft.registers[2][2] = value, register(2), last, "low", [-M, M], ""),
        (|draft, value| draft.registers[2][3] = value, register(2), last, "high", [-10, M], " (not below low)"),
        (|draft, value| draft.paths[1][0] = value, path(1), "path 1", "from", [0, 2], registers),
        (|draft, value| draft.paths[1][1] = value, path(1), "path 1", "to", [0, 2], registers),
        (|draft, value| draft.paths[1][2] = value, path(1), "path 1", "dmin", [0, 3], " (not above dmax)"),
        (|draft, value| draft.paths[1][3] = value, path(1), "path 1", "dmax", [0, M], ""),
    ]
}

#[test]
fn the_ends_of_a_range_are_accepted() {
    for (set, _, record, name, ends, _) in fields() {
        for value in ends {
            let mut draft = base();
            set(&mut draft, value);
            assert_eq!(check(&network(&draft)), Ok(()), "{record}: {name} {value}");
            assert_eq!(network(&draft).faults(), [], "{record}: {name} {value}");
        }
    }
}

#[test]
fn what_is_just_outside_is_refused_with_its_place_and_told_with_its_range() {
    for (set, refusal, record, name, [least, most], because) in fields() {
        for value in [least - 1, most + 1, i32::MIN, i32::MAX] {
            let mut draft = base();
            set(&mut draft, value);
            let network = network(&draft);
            assert_eq!(check(&network), Err(refusal.clone()), "{record}: {name} {value}");
            assert_eq!(schedule(&network), Err(refusal.clone()), "{record}: {name} {value}");
            assert_eq!(schedule_bytes(&draft.file()), Err(refusal.clone()), "{record}: {name} {value}");
            assert_eq!(slack(&network, 9, setup(0), 0, 0), Err(refusal.clone()), "{record}: {name} {value}");
            let words = format!("{refusal}\n{record}: {name} is {value}, outside {least} to {most}{because}");
            assert_eq!(refusal.describe(&network), words);
        }
    }
}

#[test]
fn counts_are_refused_and_told() {
    let row = |registers: usize, paths: usize| {
        network(&Draft { registers: vec![[0; 4]; registers], paths: vec![[0; 4]; paths], ..a() })
    };
    for (registers, paths) in [(1, 0), (256, 0), (1, 2048), (256, 2048)] {
        assert_eq!(schedule(&row(registers, paths)).map(|answer| answer.latencies.len()), Ok(registers));
    }
    let words = "refused 2: the registers must be 1 to 256, with the host, and the paths 0 to 2048";
    for (registers, paths, fault) in
        [(257, 0, "register count is 257, outside 1 to 256"), (1, 2049, "path count is 2049, outside 0 to 2048")]
    {
        let refusal = schedule(&row(registers, paths)).unwrap_err();
        assert_eq!(refusal, Refusal::Counts);
        assert_eq!(refusal.describe(&row(registers, paths)), format!("{words}\nthe network: {fault}"));
    }
}

#[test]
fn every_wrong_field_is_told_and_the_lowest_is_refused() {
    let mut draft = base();
    draft.registers[1] = [0, 100_001, 5, 4];
    draft.registers[2] = [-100_001, 0, M + 1, -M - 1];
    draft.paths[0] = [3, -1, -1, -1];
    draft.paths[2] = [0, 0, M + 1, 7];
    let network = network(&draft);
    let refusal = check(&network).unwrap_err();
    assert_eq!(refusal, register(1));
    let due = "refused 5: register 1 has a wrong mark, or a number out of range
register 1: hold is 100001, outside -100000 to 100000
register 1: high is 4, outside 5 to 1000000 (not below low)
register 2: setup is -100001, outside -100000 to 100000
register 2: low is 1000001, outside -1000000 to 1000000
register 2: high is -1000001, outside -1000000 to 1000000 (not below low)
path 0: from is 3, outside 0 to 2 (the network's registers)
path 0: to is -1, outside 0 to 2 (the network's registers)
path 0: dmin is -1, outside 0 to 1000000 (not above dmax)
path 0: dmax is -1, outside 0 to 1000000
path 2: dmin is 1000001, outside 0 to 7 (not above dmax)";
    assert_eq!(refusal.describe(&network), due);
}

/// Numbers that repeat from run to run.
struct Seeded(u64);

impl Seeded {
    fn below(&mut self, end: usize) -> usize {
        self.0 = self.0.wrapping_mul(6_364_136_223_846_793_005).wrapping_add(1_442_695_040_888_963_407);
        (self.0 >> 33) as usize % end
    }

    fn edit(&mut self, draft: &mut Draft) {
        let ends = [-M, -100_000, -10, 0, 1, 2, 3, 10, 10_000, 100_000, M, 10 * M];
        let value = ends[self.below(ends.len())] + self.below(3) as i32 - 1;
        let (part, field) = (self.below(3), self.below(4));
        match self.below(9) {
            0 => draft.floor = value,
            1 => draft.ceiling = value,
            2 => draft.u = value,
            3..=5 => draft.registers[part][field] = value,
            _ => draft.paths[part][field] = value,
        }
    }
}

/// The refusal that the first fault leads to.
fn first(network: &Network) -> Option<Refusal> {
    network.faults().first().map(|fault| match fault.record {
        Record::Header => Refusal::Ranges,
        Record::Register(id) => Refusal::Register(id),
        Record::Path(id) => Refusal::Path(id),
    })
}

#[test]
fn the_words_agree_with_the_proved_module() {
    let (mut seeded, mut accepted) = (Seeded(1), 0);
    for round in 0..20_000 {
        let mut draft = base();
        (0..seeded.below(5)).for_each(|_| seeded.edit(&mut draft));
        let network = network(&draft);
        assert_eq!(first(&network), check(&network).err(), "round {round}: {network}");
        accepted += usize::from(network.faults().is_empty());
    }
    // Both sorts are met often.
    assert!((5_000..15_000).contains(&accepted), "{accepted}");
}
