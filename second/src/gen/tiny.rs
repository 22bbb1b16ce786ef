//! Networks of 1 to 5 registers with small numbers. Here everything collides: ties, fractional needs, self paths,
//! host-to-host paths, parallel paths, and loops of every make.

use crate::draft::Draft;
use crate::gen::limits::{near_need, MOST};
use crate::rng::Rng;

/// The ranges one sort of tiny network is drawn from.
struct Taste {
    registers: (i32, i32),
    paths: (i32, i32),
    dmax: (i32, i32),
    spread: i32,
    setup: (i32, i32),
    hold: (i32, i32),
    low: (i32, i32),
    width: (i32, i32),
    u: (i32, i32),
}

const TASTES: [Taste; 7] = [
    // A bit of everything.
    Taste {
        registers: (1, 5),
        paths: (0, 8),
        dmax: (0, 8),
        spread: 8,
        setup: (-2, 3),
        hold: (-4, 1),
        low: (-8, 4),
        width: (0, 12),
        u: (0, 1),
    },
    // Races: hold rules bind, some beyond cure.
    Taste {
        registers: (1, 5),
        paths: (1, 7),
        dmax: (1, 6),
        spread: 4,
        setup: (0, 1),
        hold: (0, 3),
        low: (-10, -4),
        width: (8, 20),
        u: (0, 2),
    },
    // Slow paths with wide windows: loops of setup rules, and needs that are fractions.
    Taste {
        registers: (2, 5),
        paths: (3, 10),
        dmax: (5, 12),
        spread: 3,
        setup: (0, 2),
        hold: (-5, 0),
        low: (-30, -20),
        width: (40, 60),
        u: (0, 1),
    },
    // Narrow windows: loops through low and high rules.
    Taste {
        registers: (2, 5),
        paths: (1, 8),
        dmax: (0, 10),
        spread: 6,
        setup: (-1, 2),
        hold: (-6, -1),
        low: (-2, 2),
        width: (0, 2),
        u: (0, 1),
    },
    // Two registers and many paths between them.
    Taste {
        registers: (1, 2),
        paths: (3, 9),
        dmax: (2, 9),
        spread: 7,
        setup: (0, 2),
        hold: (-3, 1),
        low: (-9, 0),
        width: (4, 12),
        u: (0, 1),
    },
    // Ties: hardly any choice, so sums of exactly 0 are common.
    Taste {
        registers: (2, 4),
        paths: (2, 8),
        dmax: (1, 2),
        spread: 1,
        setup: (0, 1),
        hold: (0, 1),
        low: (-2, 0),
        width: (0, 4),
        u: (0, 1),
    },
    // Negative margins: needs below 1, held up by the floor.
    Taste {
        registers: (1, 4),
        paths: (0, 5),
        dmax: (0, 4),
        spread: 4,
        setup: (-9, -3),
        hold: (-9, -3),
        low: (-3, 3),
        width: (0, 6),
        u: (0, 2),
    },
];

pub fn network(rng: &mut Rng) -> Draft {
    let taste = &TASTES[rng.index(TASTES.len())];
    let n = draw(rng, taste.registers);
    let m = draw(rng, taste.paths);
    let floor = if rng.percent(65) { 1 } else { rng.between(1, 12) };
    let ceiling = if rng.percent(15) { MOST } else { floor + rng.between(0, 25) };
    let draft = Draft {
        floor,
        ceiling,
        uncertainty: draw(rng, taste.u),
        registers: (0..n).map(|i| register(rng, taste, i)).collect(),
        paths: (0..m).map(|_| path(rng, taste, n)).collect(),
    };
    if rng.percent(25) {
        near_need(rng, draft)
    } else {
        draft
    }
}

fn register(rng: &mut Rng, taste: &Taste, i: i32) -> [i32; 4] {
    let (setup, hold) = (draw(rng, taste.setup), draw(rng, taste.hold));
    if i == 0 {
        return [setup, hold, 0, 0];
    }
    let low = draw(rng, taste.low);
    [setup, hold, low, low + draw(rng, taste.width)]
}

fn path(rng: &mut Rng, taste: &Taste, n: i32) -> [i32; 4] {
    let dmax = draw(rng, taste.dmax);
    let dmin = (dmax - rng.between(0, taste.spread)).max(0);
    [rng.between(0, n - 1), rng.between(0, n - 1), dmin, dmax]
}

fn draw(rng: &mut Rng, (low, high): (i32, i32)) -> i32 {
    rng.between(low, high)
}
