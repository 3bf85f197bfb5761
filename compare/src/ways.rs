//! Every step towards a point, hit at its sample, from points of every size and at every distance.
use feedercoil::raw::ANY_DECK;
use feedercoil::ShipPlan;

use crate::calls::{Asked, Call, Query, Room};
use crate::check::{compare, Ship};
use crate::glam::{vec2, Vec2};
use crate::met::Met;
use crate::questions::squared_distance;
use crate::random::Random;
use crate::rings::{square_at, STEPS};

/// How many pairs of points there are, and the calls for them: in each step a square on both sides of the sample.
pub const PAIRS: u32 = 300;
pub const CALLS: u32 = 2 * STEPS * PAIRS;

/// Longer than a square, so that each is hit by one step.
const REACH: f32 = 333.3;

/// Two points around (0, 0), whose squared distance may be subnormal and is not 0.
fn pair(random: &mut Random) -> (Query, (f32, f32)) {
    loop {
        let size = 10f32.powf(if random.once_in(3) { -23.0 + 4.0 * random.part() } else { -19.0 + 24.5 * random.part() });
        let [x, y, to_x, to_y] = [0; 4].map(|_| random.sign() * random.part() * size);
        let (query, towards) = (Query { x, y, deck: ANY_DECK }, (to_x, to_y));
        if squared_distance(query, towards) != 0.0 {
            return (query, towards);
        }
    }
}

/// How many calls found a place; a difference is told to `differs`.
pub fn every_step(differs: &mut dyn FnMut(&str)) -> u64 {
    let (mut met, mut random) = (Met::new(), Random(0x57A1_2000));
    for _ in 0..PAIRS {
        let (query, towards) = pair(&mut random);
        let p = vec2(query.x, query.y);
        let direction: Vec2 = -(p - vec2(towards.0, towards.1)).normalize();
        for (step, way) in (0..STEPS).flat_map(|step| [(step, 1.0), (step, -1.0)]) {
            let place = p + direction * REACH * step as f32;
            let mut ship = Ship::new(ShipPlan { reach: REACH, steps: STEPS, decks: vec![square_at(place, way)] });
            let call = Call::ClosestPointTowards { query, towards };
            let asked = Asked { call, blocked: vec![], output: Room::Just, work: Room::Just };
            if let Err(difference) = compare(&mut ship, &asked, &mut met) {
                differs(&difference);
            }
        }
    }
    met.count("place towards a point: step 0") + met.count("place towards a point: a later step")
}
