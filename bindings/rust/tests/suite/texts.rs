//! What is printed.

use crate::networks::{high, hold, low, named, setup};
use mileparcel::*;

/// A, with names for its registers.
fn a_named() -> Network {
    let mut network = Network::new(Period { floor: 1, ceiling: 100 }, 0, Host { setup: 1, hold: 1 });
    let register = |name: &str| Register { name: Some(name.to_string()), setup: 1, hold: 1, low: -10, high: 10 };
    let (a, b) = (network.register(register("a")), network.register(register("b")));
    let paths = [(RegisterId::HOST, a, 2, 9), (a, b, 2, 3), (b, RegisterId::HOST, 2, 6)];
    let ids = paths.map(|(from, to, dmin, dmax)| network.path(Path { from, to, dmin, dmax }).number());
    assert_eq!((a.number(), b.number(), ids), (1, 2, [0, 1, 2]));
    network
}

#[test]
fn a_network_is_printed_with_its_names() {
    let due = "network floor 1 ceiling 100 u 0
register setup 1 hold 1 low 0 high 0
register setup 1 hold 1 low -10 high 10 # a
register setup 1 hold 1 low -10 high 10 # b
path 0 1 2 9
path 1 2 2 3
path 2 0 2 6";
    assert_eq!(a_named().to_string(), due);
}

#[test]
fn a_name_stays_on_its_line() {
    let mut network = named("F").network();
    let name = "top/\\u[3] \u{2028}q\n\r\tpath 0 0 0 0";
    let id = network.register(Register { name: Some(name.to_string()), setup: 0, hold: 0, low: 0, high: 0 });
    let due = "top/\\u[3] \\u{2028}q\\n\\r\\tpath 0 0 0 0";
    assert_eq!(network.to_string().lines().nth(2).unwrap(), format!("register setup 0 hold 0 low 0 high 0 # {due}"));
    assert_eq!(network.label(id), format!("register 1 ({due})"));
    assert_eq!(network.registers()[1].name.as_deref(), Some(name));
}

#[test]
fn labels_have_the_names_that_there_are() {
    let network = a_named();
    let labels: Vec<_> = [0, 1, 2, 3, -1].iter().map(|number| network.label(RegisterId::new(*number))).collect();
    assert_eq!(labels, ["register 0 (the host)", "register 1 (a)", "register 2 (b)", "register 3", "register -1"]);
}

#[test]
fn an_answer_is_printed_as_the_listing() {
    let listing = |name: &str| schedule(&named(name).network()).unwrap().to_string();
    assert_eq!(listing("A"), "period 9\nlatency 0 0\nlatency 1 1\nlatency 2 -1\nloop 8\nsetup 0\nhold 0");
    assert_eq!(listing("A2"), "period 9\nlatency 0 0\nlatency 1 1\nlatency 2 -1");
    assert_eq!(listing("E"), "period 9\nlatency 0 0\nlatency 1 1\nloop 8\nsetup 0\nhigh 1");
}

#[test]
fn rules_are_printed_by_kind_and_number() {
    let rules = [setup(0), hold(1), low(2), high(1)];
    assert_eq!(rules.map(|rule| rule.to_string()), ["setup 0", "hold 1", "low 2", "high 1"]);
    assert_eq!(rules.map(|rule| rule.kind().number()), [0, 1, 2, 3]);
    let due = [
        "setup 0: of the path from register 0 (the host) to register 1 (a)",
        "hold 1: of the path from register 1 (a) to register 2 (b)",
        "low 2: of the window of register 2 (b)",
        "high 1: of the window of register 1 (a)",
    ];
    assert_eq!(rules.map(|rule| rule.describe(&a_named())), due);
    assert_eq!(setup(3).describe(&a_named()), "setup 3: the network has no such rule");
    let slacks = slacks(&a_named(), 8, &[0, 1, -1]).unwrap();
    assert_eq!(slacks[0].to_string(), "setup 0: slack -1");
}

fn refusal(name: &str) -> Refusal {
    schedule(&named(name).network()).unwrap_err()
}

#[test]
fn each_refusal_has_its_number_and_its_words() {
    let cases = [
        (Refusal::Header, "refused 1: the file has fewer than 22 bytes, or its first two are not `NW`"),
        (Refusal::Counts, "refused 2: the registers must be 1 to 256, with the host, and the paths 0 to 2048"),
        (Refusal::Length, "refused 3: the file's length is not 22 + 18(n + m) bytes for its n registers and m paths"),
        (Refusal::Ranges, "refused 4: floor, ceiling or uncertainty is out of range"),
        (Refusal::Register(RegisterId::new(7)), "refused 5: register 7 has a wrong mark, or a number out of range"),
        (Refusal::Path(PathId::new(9)), "refused 6: path 9 has a wrong mark, or a number out of range"),
        (Refusal::Room, "refused 7: the output has fewer than 14 + 16n bytes for the n registers"),
        (
            refusal("A7"),
            "refused 8: no period has a schedule, however long: the loop hold 2, hold 1, hold 0 contradicts itself",
        ),
        (
            refusal("A4"),
            "refused 9: no period up to the ceiling has a schedule: the loop setup 0, hold 0 contradicts itself there",
        ),
        (
            Refusal::Question,
            "refused 10: the question's period must be 1 to 10000000, its latencies -1000000 to 1000000, \
             one for each register, and its rule one of the network's",
        ),
        (
            Refusal::Unreadable(11),
            "returned 11: the library left what the rules do not have; it is not the one that this crate is for",
        ),
    ];
    for ((refusal, words), number) in cases.into_iter().zip(1..) {
        let error: Box<dyn std::error::Error> = Box::new(refusal.clone());
        assert_eq!((refusal.number(), error.to_string().as_str()), (number, words));
    }
}

#[test]
fn a_loop_is_told_with_its_registers_and_its_sum() {
    let mut network = Network::new(Period { floor: 1, ceiling: 8 }, 0, Host { setup: 1, hold: 1 });
    let a = network.register(Register { name: Some("a".into()), setup: 1, hold: 1, low: -10, high: 10 });
    network.path(Path { from: RegisterId::HOST, to: a, dmin: 2, dmax: 9 });
    let due = "refused 9: no period up to the ceiling has a schedule: the loop setup 0, hold 0 contradicts itself there
setup 0: of the path from register 0 (the host) to register 1 (a)
hold 0: of the path from register 0 (the host) to register 1 (a)
at the ceiling, 8, the loop's amounts add up to 1";
    assert_eq!(schedule(&network).unwrap_err().describe(&network), due);
    let due = "refused 8: no period has a schedule, however long: the loop hold 0 contradicts itself
hold 0: of the path from register 0 (the host) to register 0 (the host)
at the ceiling, 100, the loop's amounts add up to 1";
    assert_eq!(refusal("B").describe(&named("B").network()), due);
    // The loop of another network, which has no such rule.
    assert_eq!(
        refusal("A7").describe(&named("F").network()).lines().last(),
        Some("hold 0: the network has no such rule")
    );
}

#[test]
fn bytes_that_are_no_file_are_told() {
    let counts = FileError::Counts { registers: 0, paths: 3 };
    let length = FileError::Length { bytes: 129, due: 130 };
    let cases = [
        (FileError::Header, "the file has fewer than 22 bytes, or its first two are not `NW`"),
        (counts, "the header counts 0 registers and 3 paths: 1 to 256 and 0 to 2048 are due"),
        (length, "the file has 129 bytes, and its header counts 130"),
        (FileError::RegisterMark(RegisterId::new(2)), "the record of register 2 does not begin with `RG`"),
        (FileError::PathMark(PathId::new(0)), "the record of path 0 does not begin with `PT`"),
    ];
    for (error, words) in cases {
        assert_eq!(error.to_string(), words);
    }
}
