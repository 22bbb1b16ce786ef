//! Seeded streams of requests, by shape. The same seed, count and shape give the same bytes.

pub mod damaged;
pub mod ends;
pub mod limits;
pub mod maximal;
pub mod planned;
pub mod questions;
pub mod rooms;
pub mod tiny;
pub mod toggles;

use crate::draft::Draft;
use crate::rng::Rng;
use crate::wire::Request;

type NetworkMaker = fn(&mut Rng) -> Draft;

/// The shapes that are networks; each is asked for with room enough.
const NETWORKS: [(&str, NetworkMaker); 14] = [
    ("tiny", tiny::network),
    ("toggles", toggles::network),
    ("medium", planned::medium),
    ("pipeline", planned::pipeline),
    ("dense", planned::dense),
    ("tight", planned::tight),
    ("parallel", planned::parallel),
    ("selfs", planned::selfs),
    ("chain", maximal::chain),
    ("ring", maximal::ring),
    ("race", maximal::race),
    ("extreme", maximal::extreme),
    ("limits", maximal::near_limits),
    ("corner", maximal::corner),
];

/// The other shapes: all of the greatest networks, four that are not about networks, and the mix.
const OTHERS: [&str; 6] = ["maximal", "damaged", "rooms", "questions", "ends", "mix"];

/// Where the greatest networks begin in `NETWORKS`.
const FIRST_MAXIMAL: usize = 3;

pub fn shapes() -> Vec<&'static str> {
    NETWORKS.iter().map(|(name, _)| *name).chain(OTHERS).collect()
}

pub struct Source {
    rng: Rng,
    shape: &'static str,
    /// Damaged files not yet handed out. They come as whole catalogues, so that none of a catalogue is missed.
    damaged: Vec<Vec<u8>>,
}

impl Source {
    /// A source of that shape, if there is such a shape.
    pub fn new(seed: u64, shape: &str) -> Option<Source> {
        let shape = shapes().into_iter().find(|name| *name == shape)?;
        Some(Source { rng: Rng::new(seed), shape, damaged: Vec::new() })
    }

    pub fn request(&mut self) -> Request {
        self.request_of(self.shape)
    }

    fn request_of(&mut self, shape: &str) -> Request {
        if let Some((_, make)) = NETWORKS.iter().find(|(name, _)| *name == shape) {
            let draft = make(&mut self.rng);
            return rooms::enough(&mut self.rng, &draft);
        }
        match shape {
            "maximal" => {
                let index = FIRST_MAXIMAL + self.rng.index(NETWORKS.len() - FIRST_MAXIMAL);
                self.request_of(NETWORKS[index].0)
            }
            "damaged" => self.damaged(),
            "rooms" => rooms::odd(&mut self.rng),
            "questions" => self.question(),
            "ends" => ends::request(&mut self.rng),
            _ => self.mixed(),
        }
    }

    fn mixed(&mut self) -> Request {
        let shape = match self.rng.between(1, 1_000) {
            1..=480 => "tiny",
            481..=580 => "toggles",
            581..=730 => "questions",
            731..=860 => "damaged",
            861..=910 => "rooms",
            911..=985 => "medium",
            _ => "maximal",
        };
        self.request_of(shape)
    }

    fn damaged(&mut self) -> Request {
        let file = self.damaged_file();
        if self.rng.percent(10) {
            return Request::Question { question: questions::plain(), file };
        }
        // Now and then there is no room either: the file's own refusal comes first.
        let room = if self.rng.percent(10) { 0 } else { 4_110 };
        Request::Solve { room, file }
    }

    fn damaged_file(&mut self) -> Vec<u8> {
        if self.damaged.is_empty() {
            self.damaged = damaged::catalogue(&mut self.rng);
        }
        self.damaged.pop().expect("a catalogue is never empty")
    }

    fn question(&mut self) -> Request {
        let draft = match self.rng.between(1, 200) {
            1 => maximal::extreme(&mut self.rng),
            2..=20 => planned::medium(&mut self.rng),
            21..=50 => return ends::request(&mut self.rng),
            51..=90 => return toggles::request(&mut self.rng),
            _ => tiny::network(&mut self.rng),
        };
        let question = questions::about(&mut self.rng, &draft);
        Request::Question { question, file: draft.file() }
    }
}
