//! Floors and ceilings close to the least period a network has, where off-by-one errors live.

use crate::arrows::Problem;
use crate::draft::Draft;
use crate::fast;
use crate::file;
use crate::paper::PERIOD_MOST;
use crate::rng::Rng;
use crate::verdict::Verdict;

pub const MOST: i32 = PERIOD_MOST as i32;

/// The draft with floor and ceiling moved close to its least period; one without any period stays wide open.
pub fn near_need(rng: &mut Rng, draft: Draft) -> Draft {
    let open = Draft { floor: 1, ceiling: MOST, ..draft };
    let Some(need) = least_period(&open) else {
        return open;
    };
    let (floor, ceiling) = rng.pick(&[
        (1, need - 1),
        (1, need),
        (1, need + 1),
        (need - 1, need - 1),
        (need - 1, need),
        (need, need),
        (need, MOST),
        (need + 1, MOST),
        (need + 1, need + 1),
    ]);
    let floor = floor.clamp(1, MOST);
    Draft { floor, ceiling: ceiling.clamp(floor, MOST), ..open }
}

fn least_period(draft: &Draft) -> Option<i32> {
    let network = file::read(&draft.file()).ok()?;
    match fast::solve(&Problem::of(&network)) {
        Verdict::Answered { period, .. } => Some(period as i32),
        _ => None,
    }
}
