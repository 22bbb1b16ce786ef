//! The requests and answers of the program under examination, as they travel on its standard input and output.

use std::io::{self, Error, ErrorKind, Read, Write};

use crate::question::Question;

pub const ROOM_MOST: i32 = 8_192;
pub const FILE_MOST: i32 = 65_536;

#[derive(Clone, Debug, PartialEq, Eq)]
pub enum Request {
    Solve { room: i32, file: Vec<u8> },
    Question { question: Question, file: Vec<u8> },
}

/// A question's slack travels behind number 0 alone: behind a refusal nothing follows.
#[derive(Clone, Debug, PartialEq, Eq)]
pub enum Answer {
    Solved { number: i32, place: i32, buffer: Vec<u8> },
    Replied { number: i32, place: i32, slack: Option<i32> },
}

/// The buffer as it stands before each solving: no two neighbours alike, so a stray write shows.
pub fn fresh_buffer(room: i32) -> Vec<u8> {
    (0..room as usize).map(|i| ((i * 7 + 165) % 256) as u8).collect()
}

impl Request {
    pub fn file(&self) -> &[u8] {
        match self {
            Request::Solve { file, .. } | Request::Question { file, .. } => file,
        }
    }

    pub fn write(&self, out: &mut impl Write) -> io::Result<()> {
        match self {
            Request::Solve { room, file } => {
                out.write_all(b"S")?;
                put_numbers(out, &[*room, file.len() as i32])?;
                out.write_all(file)
            }
            Request::Question { question: q, file } => {
                out.write_all(b"Q")?;
                put_numbers(out, &[q.period, q.kind, q.number, q.at_tail, q.at_head, file.len() as i32])?;
                out.write_all(file)
            }
        }
    }

    /// The next request, or none at the end of the stream.
    pub fn read(input: &mut impl Read) -> io::Result<Option<Request>> {
        let mut sort = Vec::new();
        input.by_ref().take(1).read_to_end(&mut sort)?;
        let Some(&sort) = sort.first() else {
            return Ok(None);
        };
        match sort {
            b'S' => {
                let [room, length] = numbers(input)?;
                within("room", room, ROOM_MOST)?;
                Ok(Some(Request::Solve { room, file: file_bytes(input, length)? }))
            }
            b'Q' => {
                let [period, kind, number, at_tail, at_head, length] = numbers(input)?;
                let question = Question { period, kind, number, at_tail, at_head };
                Ok(Some(Request::Question { question, file: file_bytes(input, length)? }))
            }
            other => Err(misformed(format!("a request begins with byte {other}"))),
        }
    }

    /// The answer to this request, read from the answer stream.
    pub fn read_answer(&self, input: &mut impl Read) -> io::Result<Answer> {
        match self {
            Request::Solve { room, .. } => {
                let [number, place] = numbers(input)?;
                let mut buffer = vec![0; *room as usize];
                input.read_exact(&mut buffer)?;
                Ok(Answer::Solved { number, place, buffer })
            }
            Request::Question { .. } => {
                let [number, place] = numbers(input)?;
                let slack = if number == 0 { Some(numbers::<1>(input)?[0]) } else { None };
                Ok(Answer::Replied { number, place, slack })
            }
        }
    }
}

impl Answer {
    pub fn write(&self, out: &mut impl Write) -> io::Result<()> {
        match self {
            Answer::Solved { number, place, buffer } => {
                put_numbers(out, &[*number, *place])?;
                out.write_all(buffer)
            }
            Answer::Replied { number, place, slack } => {
                put_numbers(out, &[*number, *place])?;
                slack.iter().try_for_each(|slack| put_numbers(out, &[*slack]))
            }
        }
    }
}

fn put_numbers(out: &mut impl Write, numbers: &[i32]) -> io::Result<()> {
    numbers.iter().try_for_each(|number| out.write_all(&number.to_le_bytes()))
}

fn numbers<const N: usize>(input: &mut impl Read) -> io::Result<[i32; N]> {
    let mut found = [0; N];
    for number in &mut found {
        let mut four = [0; 4];
        input.read_exact(&mut four)?;
        *number = i32::from_le_bytes(four);
    }
    Ok(found)
}

fn file_bytes(input: &mut impl Read, length: i32) -> io::Result<Vec<u8>> {
    within("file length", length, FILE_MOST)?;
    let mut file = vec![0; length as usize];
    input.read_exact(&mut file)?;
    Ok(file)
}

fn within(what: &str, value: i32, most: i32) -> io::Result<()> {
    if (0..=most).contains(&value) {
        return Ok(());
    }
    Err(misformed(format!("{what} {value} is outside 0 to {most}")))
}

fn misformed(what: String) -> Error {
    Error::new(ErrorKind::InvalidData, what)
}
