//! Requests with room enough, and requests with odd rooms.

use crate::draft::Draft;
use crate::gen::{planned, tiny};
use crate::rng::Rng;
use crate::wire::{Request, ROOM_MOST};

/// Mostly exactly the room required, so that a write beyond it shows.
pub fn enough(rng: &mut Rng, draft: &Draft) -> Request {
    let spare = if rng.percent(70) { 0 } else { rng.between(0, 40) };
    Request::Solve { room: draft.room() + spare, file: draft.file() }
}

/// Rooms of nothing, of about one record, just short, exact and wide, for networks of any verdict.
pub fn odd(rng: &mut Rng) -> Request {
    let draft = if rng.percent(90) { tiny::network(rng) } else { planned::medium(rng) };
    let exact = draft.room();
    let room = rng.pick(&[0, 1, 13, 14, 15, exact - 16, exact - 1, exact, exact + 1, exact + 100, ROOM_MOST]);
    Request::Solve { room, file: draft.file() }
}
