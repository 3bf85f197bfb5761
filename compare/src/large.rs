//! Long lists: many candidates to merge, many polygons to label.
use feedercoil::raw::{ANY_DECK, NO_POLYGON};
use feedercoil::{DeckPlan, PackedPolygon, ShipPlan, VertexPlan};

use crate::calls::{Asked, Call, Query, Room};
use crate::check::{compare, Ship};
use crate::met::Met;
use crate::random::Random;

/// Polygons of each of two decks.
const POLYGONS: u32 = 600;

/// Two decks of triangles that lie on each other, each with vertices of its own, whose lists name at most one polygon.
fn stacked(random: &mut Random, packed: bool) -> ShipPlan {
    let deck = |d: u8, random: &mut Random| {
        let mut deck = DeckPlan { polygons: (0..POLYGONS).map(|k| vec![3 * k, 3 * k + 1, 3 * k + 2]).collect(), ..DeckPlan::default() };
        for _ in 0..POLYGONS {
            let to = random.below(POLYGONS);
            let named = if packed { PackedPolygon::new(if random.once_in(9) { 1 - d } else { d }, to).0 } else { to };
            let neighbours = if random.once_in(6) { vec![] } else { vec![u32::MAX, named] };
            deck.vertices.extend([(0.0, 0.0), (4.0, 0.0), (0.0, 4.0)].map(|(x, y)| VertexPlan { x, y, neighbours: neighbours.clone() }));
        }
        deck
    };
    ShipPlan { reach: 0.5, steps: 2, decks: vec![deck(0, random), deck(1, random)] }
}

/// How many calls agree; a difference is told to `differs`.
pub fn lists(differs: &mut dyn FnMut(&str)) -> u32 {
    let (mut met, mut random, mut agree) = (Met::new(), Random(0x1A26E), 0);
    for round in 0..4 {
        let mut ship = Ship::new(stacked(&mut random, round % 2 == 0));
        let query = Query { x: 1.0, y: 1.0, deck: ANY_DECK };
        for call in [Call::CandidatePolygons { query, polygon: NO_POLYGON }, Call::Islands { deck: 0 }, Call::RemoveStitches] {
            // Just enough room, room for all that there are, and too little.
            for output in [Room::Just, Room::More(8 * POLYGONS as usize), Room::Less(1)] {
                let asked = Asked { call: call.clone(), blocked: vec![0; 32], output, work: Room::Just };
                match compare(&mut ship, &asked, &mut met) {
                    Ok(()) => agree += 1,
                    Err(difference) => differs(&difference),
                }
            }
        }
    }
    if met.count("candidate dropped through a chain") == 0 || met.count("island label of another polygon") == 0 {
        differs("the long lists have nothing to merge");
    }
    agree
}
