//! What there is in an answer on which both agree, told to the counts.
use std::collections::HashSet;

use feedercoil::raw::{ANY_DECK, NO_POLYGON};
use feedercoil::{DeckPlan, ShipPlan};

use crate::by_rust::{blocked_layers, coords, names_blocked, RustShip};
use crate::calls::{words, Query};
use crate::glam::vec2;
use crate::met::{Met, SEAT_LEFT_OUT};
use crate::questions::squared_distance;
use crate::seen::{edges, from_edge, point};

/// A seat and the Rust's record of it.
pub fn seat(met: &mut Met, ship: &RustShip, blocked: &[u8], seat: &[u32], record: &[u32]) {
    let query = Query { x: f32::from_bits(seat[0]), y: f32::from_bits(seat[1]), deck: seat[2] };
    let blocked = blocked_layers(blocked);
    if names_blocked(query.deck, &blocked) {
        return met.see(SEAT_LEFT_OUT);
    }
    let nearest = point(met, &ship.plan, query.x, query.y);
    met.see_if(query.deck != ANY_DECK, "seat on a named deck");
    if record[0] == NO_POLYGON {
        return met.see("seat unplaced");
    }
    met.see(&format!("step {}", record[5]));
    met.see_if(record[6] > 0, "seat of a sample after the first");
    met.see_if(record[8] > 1, "seat of several candidates");
    let found = ship.mesh.get_closest_points_on_layers(coords(query), blocked);
    let decks: HashSet<u8> = found.iter().filter_map(|c| c.layer()).collect();
    met.see_if(decks.len() > 1, "seat of candidates on several decks");
    met.see_if(found.len() > decks.len() && nearest > 1e-3, "seat on overlapping polygons");
    let deck = &ship.plan.decks[(record[0] >> 24) as usize];
    let on_edge = edges(deck, (record[0] & 0xFF_FFFF) as usize).any(|(i, j)| {
        let at = |v: usize| (f64::from(deck.vertices[v].x), f64::from(deck.vertices[v].y));
        from_edge((f32::from_bits(record[1]).into(), f32::from_bits(record[2]).into()), at(i), at(j)).0 == 0.0
    });
    met.see_if(record[3] == 1 && on_edge, "height on an edge");
    met.see_if(record[3] == 1 && !on_edge, "height by the mean");
    met.see_if(record[3] == 0 && !deck.heights.is_empty(), "no height on a degenerate edge");
    if seat[3] == 1 {
        let wish = f32::from_bits(seat[4]);
        let chosen = found.iter().position(|c| c.polygon() == record[0]).unwrap();
        let gaps: Vec<Option<f32>> = found.iter().map(|&c| ship.height(c).map(|h| (h - wish).abs())).collect();
        met.see_if(chosen > 0 && gaps[0].is_some(), "wish that takes a later candidate");
        met.see_if(gaps[chosen].is_some() && gaps[chosen + 1..].contains(&gaps[chosen]), "wish with a tie");
        met.see_if(gaps[..chosen].contains(&None), "wish past a candidate without a height");
        met.see_if(gaps.len() > 1 && gaps.iter().all(Option::is_none), "wish among candidates without a height");
    }
}

/// What a search towards a point found. Its squared distance is subnormal where the two points are nearly equal.
pub fn towards(met: &mut Met, ship: &RustShip, query: Query, towards: (f32, f32), answer: &[u8]) {
    met.see_if(squared_distance(query, towards) < f32::MIN_POSITIVE, "towards a nearly equal point");
    let deck = match words(answer).first() {
        None => return met.see("place towards a point: none"),
        Some(polygon) => (polygon >> 24) as usize,
    };
    let layer = &ship.mesh.layers[deck];
    let here = layer.get_point_locations_unit(vec2(query.x, query.y) - layer.offset).next().is_some();
    met.see_if(here, "place towards a point: step 0");
    met.see_if(!here, "place towards a point: a later step");
    met.see_if(query.deck != ANY_DECK, "place towards a point: a named deck");
    met.see_if(query.deck == ANY_DECK && deck > 0, "place towards a point: none named, above the lowest deck");
    met.see_if(layer.offset.x != 0.0 || layer.offset.y != 0.0, "place towards a point: a deck with an offset");
}

/// What candidate_polygons kept of what was found.
pub fn merged(met: &mut Met, ship: &RustShip, query: Query, blocked: &[u8], answer: &[u8]) {
    let kept = words(answer);
    let blocked = blocked_layers(blocked);
    if query.deck != ANY_DECK && query.deck as usize >= ship.plan.decks.len() {
        return;
    }
    let closed = names_blocked(query.deck, &blocked);
    let found: Vec<u32> = ship.mesh.get_closest_points_on_layers(coords(query), blocked).iter().map(|c| c.polygon()).collect();
    if closed {
        return met.see_if(!found.is_empty(), "candidates of a blocked deck that is named");
    }
    for &b in found.iter().filter(|b| !kept.contains(b)) {
        met.see("candidate dropped");
        met.see_if(b >> 24 > 0, "candidate dropped above deck 0");
        met.see_if(!kept.iter().any(|&a| hop(&ship.plan, a, b)), "candidate dropped through a chain");
    }
    let later_reaches = |(i, &b): (usize, &u32)| kept[i + 1..].iter().any(|&c| hop(&ship.plan, c, b));
    met.see_if(kept.iter().enumerate().any(later_reaches), "candidate kept that a later one reaches");
}

/// Whether an edge of a has packed b in both ends' lists.
fn hop(plan: &ShipPlan, a: u32, b: u32) -> bool {
    let deck = &plan.decks[(a >> 24) as usize];
    let has = |v: usize| deck.vertices[v].neighbours.contains(&b);
    let found = edges(deck, (a & 0xFF_FFFF) as usize).any(|(i, j)| has(i) && has(j));
    found
}

pub fn labels(met: &mut Met, deck: &DeckPlan, answer: &[u8]) {
    let labels = words(answer);
    for (k, &label) in labels.iter().enumerate() {
        met.see_if(label as usize != k, "island label of another polygon");
        let mut names = deck.polygons[k].iter().flat_map(|&v| &deck.vertices[v as usize].neighbours);
        met.see_if(label as usize == k && names.any(|&e| (e as usize) < k), "island label one way");
    }
}

pub fn stitch_points(met: &mut Met, plan: &ShipPlan, answer: &[u8]) {
    let points: Vec<Vec<u32>> = answer.chunks(16).map(words).collect();
    met.see_times("stitch point", points.len() as u64);
    met.see_if(points.windows(2).any(|w| w[0] == w[1]), "stitch point repeated");
    let bits = |p: &[u32]| {
        let other = &plan.decks[p[1] as usize].vertices;
        !other.iter().any(|v| v.x.to_bits() == p[2] && v.y.to_bits() == p[3])
    };
    met.see_if(points.iter().any(|p| bits(p)), "stitch point of 0 and -0");
}

/// What a removal did to the entries; `after` is the ship's plan after it.
pub fn removal(met: &mut Met, before: &ShipPlan, after: &ShipPlan, layer: Option<u8>) {
    let entries = |plan: &ShipPlan| plan.decks.iter().flat_map(|d| &d.vertices).flat_map(|v| v.neighbours.clone()).collect::<Vec<_>>();
    let (old, new) = (entries(before), entries(after));
    met.see_if(new.len() < old.len(), "entry of another deck dropped");
    met.see_if(new.iter().any(|e| !old.contains(e)), "entry made plain");
    met.see_if(layer.is_some_and(|t| usize::from(t) >= before.decks.len()), "removal to a layer without a deck");
}

/// Where each probe lies, in reaches.
pub const PROBES: [(f32, f32); 9] =
    [(0.0, 0.0), (1.0, 0.0), (1.0, 1.0), (0.0, 1.0), (-1.0, 1.0), (-1.0, 0.0), (-1.0, -1.0), (0.0, -1.0), (1.0, -1.0)];

/// The probes that found what `get_point_layer` answers.
pub fn probes(met: &mut Met, ship: &RustShip, query: Query, answer: &[u8]) {
    for polygon in words(answer) {
        let layer = &ship.mesh.layers[(polygon >> 24) as usize];
        let at = vec2(query.x, query.y) - layer.offset;
        let hits = |&(x, y): &(f32, f32)| layer.get_point_locations_unit(at + vec2(x, y) * ship.plan.reach).next().is_some();
        let probe = PROBES.iter().position(hits).expect("a probe hits");
        met.see(&format!("probe {probe}"));
    }
}
