//! What there is in a ship and around a point, told to the counts.
use feedercoil::raw::NO_POLYGON;
use feedercoil::{DeckPlan, ShipPlan};

use crate::met::Met;

fn is_negative_zero(x: f32) -> bool {
    x.to_bits() == 1 << 31
}

/// The edges of a polygon as pairs of vertex numbers.
pub fn edges(deck: &DeckPlan, k: usize) -> impl Iterator<Item = (usize, usize)> + '_ {
    let list = &deck.polygons[k];
    (0..list.len()).map(|i| (list[i] as usize, list[(i + 1) % list.len()] as usize))
}

/// Twice the area, negative for a polygon that is turned round.
fn area(deck: &DeckPlan, k: usize) -> f64 {
    let at = |v: usize| (f64::from(deck.vertices[v].x), f64::from(deck.vertices[v].y));
    edges(deck, k).map(|(i, j)| at(i).0 * at(j).1 - at(i).1 * at(j).0).sum()
}

pub fn ship(met: &mut Met, plan: &ShipPlan) {
    met.see(match plan.decks.len() {
        0 => "no decks",
        1 => "1 deck",
        2..=4 => "2 to 4 decks",
        256 => "256 decks",
        _ => "250 to 255 decks",
    });
    met.see_if(plan.reach.to_bits() == 0, "reach 0");
    met.see_if(is_negative_zero(plan.reach), "reach -0");
    met.see_if(plan.reach == 1000.0, "reach 1,000");
    met.see_if(plan.steps == 16, "S 16");
    for (d, deck) in plan.decks.iter().enumerate() {
        for (k, list) in deck.polygons.iter().enumerate() {
            met.see_if(list.len() == 1, "polygon of 1 vertex");
            met.see_if(list.len() == 2, "polygon of 2 vertices");
            met.see_if(area(deck, k) < 0.0, "polygon turned round");
            met.see_if(list.len() > 2 && list.windows(2).any(|w| w[0] == w[1]), "vertex doubled");
        }
        let floats: Vec<f32> = deck.vertices.iter().flat_map(|v| [v.x, v.y]).collect();
        met.see_if(floats.iter().any(|&x| is_negative_zero(x)), "coordinate -0");
        met.see_if(deck.offset.0 != 0.0 || deck.offset.1 != 0.0, "offset");
        met.see_if(is_negative_zero(deck.offset.0) || is_negative_zero(deck.offset.1), "offset -0");
        met.see_if(floats.iter().all(|x| x.abs() < 1e-3), "coordinates below 1/1000");
        met.see_if(floats.iter().any(|x| x.abs() > 900_000.0), "coordinate above 900,000");
        met.see(if deck.heights.is_empty() { "deck without heights" } else { "deck with heights" });
        let mut entries = deck.vertices.iter().flat_map(|v| &v.neighbours).filter(|&&e| e != NO_POLYGON);
        met.see_if(entries.clone().any(|e| (e >> 24) as usize != d && e >> 24 != 0), "list that names another deck");
        met.see_if(d > 0 && entries.all(|e| e >> 24 == 0), "plain list above deck 0");
        met.see_if((0..deck.polygons.len()).any(|k| one_way(deck, d, k)), "one-way lists");
    }
}

/// A polygon whose neighbour does not name it.
fn one_way(deck: &DeckPlan, d: usize, k: usize) -> bool {
    let names = |k: usize, other: usize| {
        let packed = (d << 24 | other) as u32;
        deck.polygons[k].iter().any(|&v| deck.vertices[v as usize].neighbours.contains(&packed))
    };
    (0..deck.polygons.len()).any(|other| names(k, other) && !names(other, k))
}

/// How far a point is from an edge, and whether it is on its line, past its ends.
pub fn from_edge(p: (f64, f64), a: (f64, f64), b: (f64, f64)) -> (f64, bool) {
    let (u, v) = ((b.0 - a.0, b.1 - a.1), (p.0 - a.0, p.1 - a.1));
    let length = u.0 * u.0 + u.1 * u.1;
    let t = if length == 0.0 { 0.0 } else { (u.0 * v.0 + u.1 * v.1) / length };
    let near = t.clamp(0.0, 1.0);
    let distance = (v.0 - u.0 * near).hypot(v.1 - u.1 * near);
    (distance, length > 0.0 && u.0 * v.1 == u.1 * v.0 && t != near)
}

/// How far a point is from the nearest edge of a deck, after what it is was told.
pub fn point(met: &mut Met, plan: &ShipPlan, x: f32, y: f32) -> f64 {
    met.see_if(is_negative_zero(x) || is_negative_zero(y), "point -0");
    let (mut nearest, mut on_line, mut on_vertex) = (f64::MAX, false, false);
    for deck in &plan.decks {
        let p = (x - deck.offset.0, y - deck.offset.1);
        on_vertex |= deck.vertices.iter().any(|v| (v.x, v.y) == p);
        let at = |v: usize| (f64::from(deck.vertices[v].x), f64::from(deck.vertices[v].y));
        for (i, j) in (0..deck.polygons.len()).flat_map(|k| edges(deck, k)) {
            let (distance, past) = from_edge((p.0.into(), p.1.into()), at(i), at(j));
            nearest = nearest.min(distance);
            on_line |= past;
        }
    }
    met.see_if(on_vertex, "point on a vertex");
    met.see_if(on_line, "point on an edge's line past its ends");
    for (least, most) in [("1e-7", "1e-6"), ("1e-6", "1e-5"), ("1e-5", "1e-4"), ("1e-4", "1e-3")] {
        let within = (least.parse().unwrap()..most.parse().unwrap()).contains(&nearest);
        met.see_if(within, &format!("point off an edge by {least} to {most}"));
    }
    nearest
}
