//! Neighbour lists of random ships.
use feedercoil::{PackedPolygon, ShipPlan};

use crate::random::Random;

const OUTSIDE: u32 = u32::MAX;

/// What the lists of a ship are made of.
#[derive(Clone, Copy, PartialEq)]
enum Lists {
    /// The polygons around the vertex by their plain numbers.
    Unstitched,
    /// The same packed, with those of other decks that have a vertex there.
    Stitched,
    /// The same with some left out, so that reach goes one way.
    OneWay,
    /// Plain numbers below the count and all ones, any of them.
    Plain,
    /// Packed numbers of any decks and polygons, there or not.
    Any,
}

/// The polygons of a deck around each of its vertices.
fn around(plan: &ShipPlan, deck: usize) -> Vec<Vec<u32>> {
    let mut around = vec![vec![]; plan.decks[deck].vertices.len()];
    for (k, polygon) in plan.decks[deck].polygons.iter().enumerate() {
        for &v in polygon {
            if !around[v as usize].contains(&(k as u32)) {
                around[v as usize].push(k as u32);
            }
        }
    }
    around
}

fn packed(deck: usize, polygon: u32) -> u32 {
    PackedPolygon::new(deck as u8, polygon).0
}

/// Sets the lists of all decks.
pub fn set_lists(plan: &mut ShipPlan, random: &mut Random) {
    let all: Vec<Vec<Vec<u32>>> = (0..plan.decks.len()).map(|d| around(plan, d)).collect();
    let places: Vec<Vec<(f32, f32)>> = plan.decks.iter().map(|d| d.vertices.iter().map(|v| (v.x, v.y)).collect()).collect();
    let counts: Vec<u32> = plan.decks.iter().map(|d| d.polygons.len() as u32).collect();
    let kind = random.one_of(&[
        Lists::Unstitched,
        Lists::Stitched,
        Lists::Stitched,
        Lists::OneWay,
        Lists::OneWay,
        Lists::Plain,
        Lists::Plain,
        Lists::Any,
    ]);
    // Other decks are looked at where there are few.
    let others = if plan.decks.len() <= 4 { plan.decks.len() } else { 0 };
    for (d, deck) in plan.decks.iter_mut().enumerate() {
        for (v, vertex) in deck.vertices.iter_mut().enumerate() {
            let mut list: Vec<u32> = match kind {
                Lists::Unstitched => all[d][v].clone(),
                Lists::Plain => (0..random.below(4)).map(|_| random.below(counts[d])).collect(),
                Lists::Any => (0..random.below(4)).map(|_| any_entry(random, &counts)).collect(),
                Lists::Stitched | Lists::OneWay => all[d][v].iter().map(|&k| packed(d, k)).collect(),
            };
            if matches!(kind, Lists::Stitched | Lists::OneWay) {
                for e in (0..others).filter(|&e| e != d) {
                    let there = (0..places[e].len()).filter(|&w| places[e][w] == places[d][v]);
                    list.extend(there.flat_map(|w| all[e][w].iter().map(|&k| packed(e, k))).collect::<Vec<_>>());
                }
            }
            if kind == Lists::OneWay {
                list.retain(|_| !random.once_in(3));
            }
            if !random.once_in(3) {
                list.insert(random.index(list.len() + 1), OUTSIDE);
            }
            vertex.neighbours = list;
        }
    }
}

fn any_entry(random: &mut Random, counts: &[u32]) -> u32 {
    let d = random.index(counts.len());
    match random.below(6) {
        0 => random.below(256) << 24 | random.below(3),
        1 => 0xFF00_0000 | random.below(4),
        2 => OUTSIDE - 1,
        3 => random.below(counts[0] + 1),
        _ => packed(d, random.below(counts[d])),
    }
}
