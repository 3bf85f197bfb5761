//! A ship with no decks against `Mesh::default()`: every call, for every number of steps.
use feedercoil::raw::{ANY_DECK, NO_POLYGON};
use feedercoil::{seat_list, Seat, ShipPlan};

use crate::by_rust::is_sayable;
use crate::calls::{Answer, Asked, Call, Query, Room};
use crate::check::{compare, expected, Ship};
use crate::differences::panics;
use crate::met::Met;
use crate::rings::STEPS;

/// No deck, decks that the Rust's number can say, and some that it cannot.
const DECKS: [u32; 7] = [ANY_DECK, 0, 1, 255, 256, 257, ANY_DECK - 1];

/// Every call with no deck named, and with deck 0.
pub fn cases() -> Vec<(ShipPlan, Call)> {
    let plan = || ShipPlan { reach: 0.5, steps: 2, decks: vec![] };
    [ANY_DECK, 0].into_iter().flat_map(calls).map(|call| (plan(), call)).collect()
}

/// Every call at a point, with this deck where it names one.
fn calls(deck: u32) -> Vec<Call> {
    let query = Query { x: 1.0, y: -0.0, deck };
    let seat = |wish| Seat { deck: Some(deck).filter(|&deck| deck != ANY_DECK), wish, ..Seat::at(1.0, -0.0) };
    let polygon = if deck == ANY_DECK { NO_POLYGON } else { deck << 24 };
    vec![
        Call::Run { seats: vec![] },
        Call::Run { seats: seat_list(&[seat(None), seat(Some(2.0))]) },
        Call::ClosestPoints(query),
        Call::ClosestPoint(query),
        Call::ClosestPointTowards { query, towards: (0.0, 3.0) },
        Call::Height { x: 1.0, y: -0.0, polygon },
        Call::PointLocation(query),
        Call::PointLayer(query),
        Call::CandidatePolygons { query, polygon: NO_POLYGON },
        Call::CandidatePolygons { query, polygon: 0x0300_0007 },
        Call::Islands { deck },
        Call::StitchPoints,
        Call::RemoveStitches,
        Call::RemoveStitchesToLayer { layer: deck as u8 },
    ]
}

/// Whether 17 is said of a deck that the Rust can be asked of: not of one above 255, nor for its islands, which are a method of the deck.
fn names_a_deck(ship: &mut Ship, asked: &Asked, deck: u32) -> bool {
    let refused = expected(ship, asked).answer == Answer::Refused(17);
    refused && is_sayable(deck) && !matches!(asked.call, Call::Islands { .. })
}

/// How many calls agree, and how many of these name a deck, at which the Rust panics. A difference is told to `differs`.
pub fn every_call(differs: &mut dyn FnMut(&str)) -> (u32, u32) {
    let (mut met, mut agree, mut named) = (Met::new(), 0, 0);
    for (steps, reach) in (1..=STEPS).flat_map(|steps| [0.0, -0.0, 0.5, 1000.0].map(|reach| (steps, reach))) {
        let mut ship = Ship::new(ShipPlan { reach, steps, decks: vec![] });
        for (deck, room) in DECKS.into_iter().flat_map(|deck| [Room::Just, Room::More(9), Room::Less(1)].map(|room| (deck, room))) {
            for call in calls(deck) {
                let asked = Asked { call, blocked: vec![0; 32], output: room, work: room };
                match compare(&mut ship, &asked, &mut met) {
                    Ok(()) => agree += 1,
                    Err(difference) => differs(&difference),
                }
                if names_a_deck(&mut ship, &asked, deck) {
                    named += 1;
                    let rust = ship.rust.as_mut().expect("the file passes");
                    if !panics(|| rust.answer(&asked.call, &asked.blocked)) {
                        differs(&format!("the Rust answers: {asked:?}"));
                    }
                }
            }
        }
    }
    (agree, named)
}
