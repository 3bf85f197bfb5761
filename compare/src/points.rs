//! Points of random queries, and seats.
use feedercoil::raw::ANY_DECK;
use feedercoil::{DeckPlan, Seat, ShipPlan};

use crate::polyanya::direction;
use crate::random::Random;
use crate::ships::MOST;

type Point = (f32, f32);

/// A vertex by its number.
fn corner(deck: &DeckPlan, v: u32) -> Point {
    (deck.vertices[v as usize].x, deck.vertices[v as usize].y)
}

/// An edge of some polygon of a deck.
fn edge(deck: &DeckPlan, random: &mut Random) -> (Point, Point) {
    let list = &deck.polygons[random.index(deck.polygons.len())];
    let i = random.index(list.len());
    (corner(deck, list[i]), corner(deck, list[(i + 1) % list.len()]))
}

/// A place on a polygon: on an edge, between its vertices, or one of them.
fn target(deck: &DeckPlan, random: &mut Random) -> Point {
    if random.once_in(3) {
        let ((a, b), t) = (edge(deck, random), random.part());
        return (a.0 + (b.0 - a.0) * t, a.1 + (b.1 - a.1) * t);
    }
    let list = &deck.polygons[random.index(deck.polygons.len())];
    let n = list.len() as f32;
    let middle = list.iter().map(|&v| corner(deck, v)).fold((0.0, 0.0), |sum, p| (sum.0 + p.0 / n, sum.1 + p.1 / n));
    let vertex = corner(deck, list[random.index(list.len())]);
    let part = random.one_of(&[0.0, 0.0, 0.5, 1.0, 0.9]);
    (middle.0 + (vertex.0 - middle.0) * part, middle.1 + (vertex.1 - middle.1) * part)
}

/// On the line through an edge, on the edge or past its ends.
fn on_line(deck: &DeckPlan, random: &mut Random) -> Point {
    let (a, b) = edge(deck, random);
    let t = random.one_of(&[-2.0, -0.5, 0.0, 0.25, 0.5, 0.75, 1.0, 1.25, 3.0]);
    (a.0 + (b.0 - a.0) * t, a.1 + (b.1 - a.1) * t)
}

/// Beside an edge by 1e-7 to 1e-3, by the bounds of the side and the box, or past a vertex by as much.
fn near_edge(deck: &DeckPlan, random: &mut Random) -> Point {
    let (a, b) = edge(deck, random);
    let (dx, dy) = (b.0 - a.0, b.1 - a.1);
    let length = (dx * dx + dy * dy).sqrt();
    let away = match random.below(5) {
        // The cross product is 1e-4, or nearly.
        0 => 1e-4 / length.max(1e-6),
        1 => 1e-6,
        _ => 10f32.powf(-7.0 + 4.0 * random.part()),
    } * random.sign();
    if length == 0.0 || random.once_in(4) {
        return random.one_of(&[(a.0 + away, a.1), (a.0, a.1 + away)]);
    }
    let t = random.part();
    (a.0 + dx * t - dy / length * away, a.1 + dy * t + dx / length * away)
}

/// A place on a polygon, less the way to a sample; of three samples, the one that leads farthest from a vertex of the deck.
fn off_by_reaches(plan: &ShipPlan, deck: &DeckPlan, random: &mut Random) -> Point {
    let step = random.below(plan.steps).max(random.below(plan.steps));
    let to = target(deck, random);
    let from = corner(deck, random.below(deck.vertices.len() as u32));
    if random.once_in(4) {
        // Off by a probe.
        let mut side = || random.one_of(&[-1.0, 0.0, 1.0]);
        return (to.0 + side() * plan.reach, to.1 + side() * plan.reach);
    }
    let off = |(x, y): (f32, f32)| (to.0 - x * plan.reach * step as f32, to.1 - y * plan.reach * step as f32);
    let far = |p: &Point| (p.0 - from.0).hypot(p.1 - from.1);
    let points = [0; 3].map(|_| off(direction(step, random.below(10 * step + 1))));
    points.into_iter().max_by(|p, q| far(p).total_cmp(&far(q))).unwrap()
}

fn outside(random: &mut Random) -> Point {
    (random.sign() * random.one_of(&[40.0, 7000.0, MOST]), random.coordinate(100) * 1000.0)
}

/// As it may stand in a call; of a ship with an even number of steps, -0 for 0.
fn set(plan: &ShipPlan, x: f32) -> f32 {
    if x == 0.0 && plan.steps & 1 == 0 {
        -0.0
    } else {
        x.clamp(-MOST, MOST)
    }
}

/// A point where there is no deck to be near to.
fn anywhere(plan: &ShipPlan, random: &mut Random) -> Point {
    let (x, y) = if random.once_in(3) { outside(random) } else { (random.coordinate(8), random.coordinate(8)) };
    (set(plan, x), set(plan, y))
}

/// A point around a ship.
pub fn random_point(plan: &ShipPlan, random: &mut Random) -> Point {
    if plan.decks.is_empty() {
        return anywhere(plan, random);
    }
    let deck = &plan.decks[random.index(plan.decks.len())];
    let (x, y) = match random.below(16) {
        0..=2 => corner(deck, random.below(deck.vertices.len() as u32)),
        3..=6 => near_edge(deck, random),
        7..=8 => on_line(deck, random),
        9..=12 => off_by_reaches(plan, deck, random),
        13 => outside(random),
        14 => (random.coordinate(8), random.coordinate(8)),
        _ => target(deck, random),
    };
    (set(plan, x + deck.offset.0), set(plan, y + deck.offset.1))
}

/// A point some reaches off a place on a polygon, and one on its way there or past the place. Of three ways, the one that leads
/// farthest from a vertex of the deck.
fn on_the_way(plan: &ShipPlan, random: &mut Random) -> (Point, Point) {
    let deck = &plan.decks[random.index(plan.decks.len())];
    let away = plan.reach * random.below(plan.steps).max(random.below(plan.steps)) as f32;
    let to = target(deck, random);
    let from = corner(deck, random.below(deck.vertices.len() as u32));
    let off = |(x, y): Point, by: f32| (to.0 + x * by, to.1 + y * by);
    let far = |way: &Point| {
        let p = off(*way, -away);
        (p.0 - from.0).hypot(p.1 - from.1)
    };
    let ways = [0; 3].map(|_| direction(15, random.below(151)));
    let way = ways.into_iter().max_by(|p, q| far(p).total_cmp(&far(q))).unwrap();
    let past = random.one_of(&[1.0, -away / 2.0, away + 0.5, 1e-3 - away, 500.0]);
    let set = |(x, y): Point| (set(plan, x + deck.offset.0), set(plan, y + deck.offset.1));
    (set(off(way, -away)), set(off(way, past)))
}

/// 0, or a number whose square is subnormal or 0.
fn next_to_0(random: &mut Random) -> f32 {
    if random.once_in(3) {
        return random.sign() * 0.0;
    }
    random.sign() * 10f32.powf(-20.0 - 4.0 * random.part())
}

/// A point, and another to go towards: the point itself, nearly the point, on the way to a polygon, or anywhere.
pub fn random_points(plan: &ShipPlan, random: &mut Random) -> (Point, Point) {
    match random.below(16) {
        0 => {
            let point = random_point(plan, random);
            (point, point)
        }
        1..=4 => ((next_to_0(random), next_to_0(random)), (next_to_0(random), next_to_0(random))),
        5..=11 if !plan.decks.is_empty() => on_the_way(plan, random),
        _ => (random_point(plan, random), random_point(plan, random)),
    }
}

/// A deck of the ship, or none named. Where it has no decks, 0 may be named all the same, which is refused.
pub fn random_deck(plan: &ShipPlan, random: &mut Random) -> u32 {
    if random.once_in(3) {
        random.below(plan.decks.len().max(1) as u32)
    } else {
        ANY_DECK
    }
}

pub fn random_seat(plan: &ShipPlan, random: &mut Random) -> Seat {
    let (x, y) = random_point(plan, random);
    let deck = match random_deck(plan, random) {
        ANY_DECK => None,
        deck => Some(deck),
    };
    let wish = match random.below(4) {
        0 | 1 => None,
        2 => Some(random.coordinate(5)),
        _ => Some(random.one_of(&[-0.0, 0.0, 2.0, 0.5, -MOST])),
    };
    Seat { x, y, deck, wish }
}
