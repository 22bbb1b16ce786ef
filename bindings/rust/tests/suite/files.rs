//! Network files: bytes out of a network, and a network out of bytes.

use crate::networks::{a, named};
use crate::worked::{cases, told};
use mileparcel::{schedule_bytes, FileError, Network, PathId, Refusal, RegisterId};

#[test]
fn bytes_are_those_of_the_paper_and_come_back() {
    for (name, ..) in cases() {
        let (draft, network) = (named(name), named(name).network());
        assert_eq!(network.to_bytes(), draft.file(), "{name}");
        assert_eq!(Network::from_bytes(&draft.file()), Ok(network), "{name}");
    }
    assert_eq!(a().network().to_bytes().len(), 130);
}

#[test]
fn bytes_are_scheduled_as_their_network_is() {
    for (name, number, period, latencies, rules) in cases() {
        assert_eq!(told(&schedule_bytes(&named(name).file())), (number, period, latencies, &rules[..]), "{name}");
    }
}

/// A's file with four bytes replaced.
fn with(at: usize, number: i32) -> Vec<u8> {
    let mut file = a().file();
    file[at..at + 4].copy_from_slice(&number.to_le_bytes());
    file
}

fn with_byte(at: usize, byte: u8) -> Vec<u8> {
    let mut file = a().file();
    file[at] = byte;
    file
}

#[test]
fn what_is_no_file_is_an_error_and_refused() {
    let counts = |registers, paths| FileError::Counts { registers, paths };
    let length = |bytes, due| FileError::Length { bytes, due };
    let cases = [
        (vec![], FileError::Header, Refusal::Header),
        (a().file()[..21].to_vec(), FileError::Header, Refusal::Header),
        (with_byte(0, b'n'), FileError::Header, Refusal::Header),
        (with(2, 0), counts(0, 3), Refusal::Counts),
        (with(2, -1), counts(-1, 3), Refusal::Counts),
        (with(6, -1), counts(3, -1), Refusal::Counts),
        (a().file()[..22].to_vec(), length(22, 130), Refusal::Length),
        (a().file()[..129].to_vec(), length(129, 130), Refusal::Length),
        ([a().file(), vec![0]].concat(), length(131, 130), Refusal::Length),
        (with(2, 4), length(130, 148), Refusal::Length),
        (with_byte(22, b'r'), FileError::RegisterMark(RegisterId::HOST), Refusal::Register(RegisterId::HOST)),
        (with_byte(59, b'T'), FileError::RegisterMark(RegisterId::new(2)), Refusal::Register(RegisterId::new(2))),
        (with_byte(113, b'G'), FileError::PathMark(PathId::new(2)), Refusal::Path(PathId::new(2))),
    ];
    for (file, error, refusal) in cases {
        assert_eq!(Network::from_bytes(&file), Err(error));
        assert_eq!(schedule_bytes(&file), Err(refusal), "{error}");
    }
}

#[test]
fn counts_too_large_for_memory_are_a_matter_of_length() {
    let mut file = with(2, i32::MAX);
    file[6..10].copy_from_slice(&i32::MAX.to_le_bytes());
    let due = 22 + 18 * 2 * 0x7fff_ffff;
    assert_eq!(Network::from_bytes(&file), Err(FileError::Length { bytes: 130, due }));
    assert_eq!(schedule_bytes(&file), Err(Refusal::Counts));
}

#[test]
fn a_file_that_is_cut_anywhere_is_no_file() {
    let file = a().file();
    for length in 0..file.len() {
        let error = Network::from_bytes(&file[..length]).unwrap_err();
        assert_eq!(error == FileError::Header, length < 22, "{length}");
        let number = schedule_bytes(&file[..length]).unwrap_err().number();
        assert_eq!(number, if length < 22 { 1 } else { 3 }, "{length}");
    }
}

#[test]
fn numbers_out_of_range_are_kept() {
    let file = with(96, 7);
    let network = Network::from_bytes(&file).unwrap();
    assert_eq!(network.paths()[1].from, RegisterId::new(7));
    assert_eq!(network.to_bytes(), file);
    assert_eq!(schedule_bytes(&file), Err(Refusal::Path(PathId::new(1))));
}
