//! What a plan may not mean, though nothing in it is wrong.
use feedercoil::DeckPlan;

use crate::{Deck, Plan};

/// A point nearer than this to an edge's line, in the library's measure, is on it.
const EDGE: f64 = 1e-4;

/// A line for each polygon that turns right at a corner. It holds the points left of all its edges alone: one that runs clockwise holds
/// none but those on its edges, and one that is not convex a part of what is drawn. The library takes them as they are. The plan has to be
/// one that it does not refuse.
pub fn notes(plan: &Plan) -> Vec<String> {
    plan.decks.iter().flat_map(deck_notes).collect()
}

fn deck_notes(deck: &Deck) -> impl Iterator<Item = String> + '_ {
    deck.plan.polygons.iter().enumerate().filter_map(move |(k, polygon)| {
        let vertex = right_turn(&deck.plan, polygon)?;
        let place = &deck.polygons[k];
        Some(format!(
            "{place}: note: polygon {k} of deck '{}' turns clockwise at vertex {vertex}: it holds only what is left of all its edges",
            deck.name
        ))
    })
}

/// The first corner from which on the polygon goes to the right.
fn right_turn(deck: &DeckPlan, polygon: &[u32]) -> Option<u32> {
    let n = polygon.len();
    let at = |i: usize| {
        let vertex = &deck.vertices[polygon[i % n] as usize];
        (f64::from(vertex.x), f64::from(vertex.y))
    };
    let turn = |i: usize| {
        let (a, b, c) = (at(i + n - 1), at(i), at(i + 1));
        (b.0 - a.0) * (c.1 - a.1) - (b.1 - a.1) * (c.0 - a.0)
    };
    (0..n).find(|&i| turn(i) <= -EDGE).map(|i| polygon[i])
}
