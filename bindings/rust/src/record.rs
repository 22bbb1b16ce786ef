//! Records, the form of both files and answers: a mark of two bytes, then numbers of four (RULES 5.1).

pub(crate) fn put<const N: usize>(bytes: &mut Vec<u8>, mark: &[u8; 2], numbers: [i32; N]) {
    bytes.extend_from_slice(mark);
    bytes.extend(numbers.iter().flat_map(|number| number.to_le_bytes()));
}

/// The numbers of the record that begins there. There is none where the bytes end before it does, or where it has another mark.
pub(crate) fn get<const N: usize>(bytes: &[u8], at: usize, mark: &[u8; 2]) -> Option<[i32; N]> {
    let behind = bytes.get(at..)?.strip_prefix(mark)?.get(..4 * N)?;
    let mut numbers = [0; N];
    for (number, four) in numbers.iter_mut().zip(behind.chunks_exact(4)) {
        *number = i32::from_le_bytes(four.try_into().ok()?);
    }
    Some(numbers)
}
