//! Random calls.
use feedercoil::raw::{ANY_DECK, NO_POLYGON};
use feedercoil::{seat_list, BlockedDecks, ShipPlan};

use crate::calls::{Asked, Call, Query, Room};
use crate::points::{random_deck, random_point, random_points, random_seat};
use crate::random::Random;

/// A few decks of the ship, now and then one that is not there.
fn blocked(plan: &ShipPlan, random: &mut Random) -> BlockedDecks {
    let share = random.one_of(&[2, 5, 100]);
    let mut blocked: BlockedDecks = (0..plan.decks.len()).map(|d| d as u8).filter(|_| random.once_in(share)).collect();
    if random.once_in(4) {
        blocked.insert(random.below(256) as u8);
    }
    blocked
}

fn query(plan: &ShipPlan, random: &mut Random) -> Query {
    let (x, y) = random_point(plan, random);
    Query { x, y, deck: random_deck(plan, random) }
}

/// A query of a call that asks no 17: its deck may be absent.
fn loose_query(plan: &ShipPlan, random: &mut Random) -> Query {
    let query = query(plan, random);
    if random.once_in(8) {
        return Query { deck: random.one_of(&[plan.decks.len() as u32, 255, 256, ANY_DECK - 1]), ..query };
    }
    query
}

/// A polygon of the ship. Where it has no decks, none, or polygon 0 of deck 0, which is refused.
fn any_polygon(plan: &ShipPlan, random: &mut Random) -> u32 {
    if plan.decks.is_empty() {
        return random.one_of(&[0, NO_POLYGON]);
    }
    let d = random.index(plan.decks.len());
    (d << 24) as u32 | random.below(plan.decks[d].polygons.len() as u32)
}

fn call(plan: &ShipPlan, random: &mut Random) -> Call {
    match random.below(26) {
        0..=5 => {
            let seats: Vec<_> = (0..random.one_of(&[0, 1, 1, 2, 3, 5])).map(|_| random_seat(plan, random)).collect();
            Call::Run { seats: seat_list(&seats) }
        }
        6 | 7 => Call::ClosestPoints(query(plan, random)),
        8 | 9 => Call::ClosestPoint(query(plan, random)),
        10 | 11 => {
            let ((x, y), towards) = random_points(plan, random);
            Call::ClosestPointTowards { query: Query { x, y, deck: random_deck(plan, random) }, towards }
        }
        12 | 13 => {
            let (x, y) = random_point(plan, random);
            Call::Height { x, y, polygon: if random.once_in(8) { NO_POLYGON } else { any_polygon(plan, random) } }
        }
        14 | 15 => Call::PointLocation(loose_query(plan, random)),
        16 | 17 => Call::PointLayer(loose_query(plan, random)),
        18..=20 => {
            let query = loose_query(plan, random);
            let named = random.one_of(&[0, 0x0100_0000, 12345]);
            Call::CandidatePolygons { query, polygon: if random.once_in(8) { named } else { NO_POLYGON } }
        }
        21 | 22 => Call::Islands { deck: random.below(plan.decks.len().max(1) as u32) },
        23 => Call::StitchPoints,
        24 => Call::RemoveStitches,
        _ => {
            let any = random.below(256) as u8;
            Call::RemoveStitchesToLayer { layer: random.one_of(&[0, 1, 2, 3, 255, any]) }
        }
    }
}

fn room(random: &mut Random) -> Room {
    match random.below(16) {
        0 => Room::Less(1),
        1 => Room::Less(usize::MAX),
        2..=6 => Room::More(random.below(40) as usize),
        _ => Room::Just,
    }
}

pub fn random_call(plan: &ShipPlan, random: &mut Random) -> Asked {
    let call = call(plan, random);
    Asked { call, blocked: blocked(plan, random).0.to_vec(), output: room(random), work: room(random) }
}
