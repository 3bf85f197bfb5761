//! Every sample of every step, hit as a seat's place.
use feedercoil::raw::{ANY_DECK, NO_POLYGON};
use feedercoil::{seat_list, BlockedDecks, DeckPlan, Seat, SeatRecord, Ship as Library, ShipPlan, VertexPlan};

use crate::calls::{Asked, Call, Query, Room};
use crate::check::{compare, Ship};
use crate::glam::{vec2, Vec2};
use crate::met::Met;
use crate::polyanya::direction;

pub const STEPS: u32 = 16;

/// A point, and a reach for it: the floats of its samples are some thousandths apart.
const NEAR: (Vec2, f32) = (vec2(0.25, -0.5), 333.3);

/// Another, far out, where floats are 1/16 apart, so that several samples of a step lie at one place.
const FAR: (Vec2, f32) = (vec2(999_950.0, 999_950.0), 0.05);

/// A square with one corner at a place, which lies `way` from there. A sample that is off by the last bit misses it on one of the two
/// ways, and no other sample comes near.
pub fn square_at(place: Vec2, way: f32) -> DeckPlan {
    let side = 32.0 * way;
    let vertex = |(dx, dy): (f32, f32)| VertexPlan { x: place.x + dx * side, y: place.y + dy * side, neighbours: vec![] };
    let corners = [(0.0, 0.0), (1.0, 0.0), (1.0, 1.0), (0.0, 1.0)];
    DeckPlan { offset: (0.0, 0.0), vertices: corners.map(vertex).to_vec(), polygons: vec![vec![0, 1, 2, 3]], heights: vec![] }
}

/// A ship of 16 steps, which a sample around a point hits at its corner.
fn ship_at((point, reach): (Vec2, f32), step: u32, i: u32, way: f32) -> ShipPlan {
    let (a, b) = direction(step, i);
    let place = point + vec2(a, b) * reach * step as f32;
    ShipPlan { reach, steps: STEPS, decks: vec![square_at(place, way)] }
}

/// The same, and a query that the sample finds it by.
pub fn hit_by(step: u32, i: u32) -> (ShipPlan, Query) {
    (ship_at(NEAR, step, i, 1.0), Query { x: NEAR.0.x, y: NEAR.0.y, deck: ANY_DECK })
}

/// The number of pairs of step and sample, and of the calls for them: four for each way of the near point, and a run for each of the far.
pub const SAMPLES: u32 = 1216;
pub const CALLS: u32 = 2 * (4 + 1) * SAMPLES;

/// Each sample of each step as the place of a seat and of the three calls that search, and the record held against the pair itself.
/// A difference is told to `differs`. How many pairs were a seat's step and sample is the answer.
pub fn every_sample(differs: &mut dyn FnMut(&str)) -> u32 {
    // What is met here does not count: the random calls have to meet each step too.
    let mut met = Met::new();
    let mut ask = |ship: &mut Ship, call: Call| {
        let asked = Asked { call, blocked: vec![0; 32], output: Room::Just, work: Room::Just };
        if let Err(difference) = compare(ship, &asked, &mut met) {
            differs(&difference);
        }
    };
    let seat = |(point, _): (Vec2, f32)| Seat::at(point.x, point.y);
    let query = Query { x: NEAR.0.x, y: NEAR.0.y, deck: ANY_DECK };
    let mut hit = 0;
    for (step, i) in (0..STEPS).flat_map(|step| (0..=10 * step).map(move |i| (step, i))) {
        let mut both = true;
        for way in [1.0, -1.0] {
            let mut far = Ship::new(ship_at(FAR, step, i, way));
            ask(&mut far, Call::Run { seats: seat_list(&[seat(FAR)]) });
            let mut near = Ship::new(ship_at(NEAR, step, i, way));
            ask(&mut near, Call::Run { seats: seat_list(&[seat(NEAR)]) });
            ask(&mut near, Call::ClosestPoints(query));
            ask(&mut near, Call::ClosestPoint(query));
            ask(&mut near, Call::CandidatePolygons { query, polygon: NO_POLYGON });
            let record = Library::new(&near.file).run(&BlockedDecks::new(), &[seat(NEAR)]).expect("not refused");
            both &= matches!(record[0], SeatRecord::Placed { step: s, sample, .. } if (s, sample) == (step, i));
        }
        hit += u32::from(both);
    }
    hit
}
