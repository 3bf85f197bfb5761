//! Random ships of every kind that the comparison wants to meet.
use feedercoil::{DeckPlan, ShipPlan, VertexPlan};

use crate::lists::set_lists;
use crate::met::Met;
use crate::random::Random;

/// No file has larger coordinates.
pub const MOST: f32 = 1_000_000.0;

fn vertex(x: f32, y: f32) -> VertexPlan {
    VertexPlan { x, y, neighbours: vec![] }
}

fn deck(points: &[(f32, f32)], polygons: Vec<Vec<u32>>) -> DeckPlan {
    DeckPlan { offset: (0.0, 0.0), vertices: points.iter().map(|&(x, y)| vertex(x, y)).collect(), polygons, heights: vec![] }
}

/// A grid of squares, `wide` by `high`, each `side` long.
pub fn grid(wide: u32, high: u32, side: f32) -> DeckPlan {
    let points: Vec<_> = (0..=high).flat_map(|j| (0..=wide).map(move |i| (i as f32 * side, j as f32 * side))).collect();
    let at = |i: u32, j: u32| j * (wide + 1) + i;
    let square = |(i, j): (u32, u32)| vec![at(i, j), at(i + 1, j), at(i + 1, j + 1), at(i, j + 1)];
    deck(&points, (0..wide * high).map(|k| square((k % wide, k / wide))).collect())
}

/// Triangles around a vertex in the middle.
fn fan(random: &mut Random) -> DeckPlan {
    let n = 3 + random.below(5);
    let size = 1.0 + random.part() * 3.0;
    let rim = |k: u32| {
        let angle = k as f32 * std::f32::consts::TAU / n as f32;
        (size * angle.cos(), size * angle.sin())
    };
    let points: Vec<_> = std::iter::once((0.0, 0.0)).chain((0..n).map(rim)).collect();
    // An open fan leaves its last triangle out.
    deck(&points, (0..n - random.below(2)).map(|k| vec![0, 1 + k, 1 + (k + 1) % n]).collect())
}

/// Rectangles that lie over each other, some of them turned round.
fn rectangles(random: &mut Random) -> DeckPlan {
    let (mut points, mut polygons) = (vec![], vec![]);
    for k in 0..1 + random.below(4) {
        let (x, y) = (random.below(4) as f32 / 2.0, random.below(4) as f32 / 2.0);
        let (w, h) = (1.0 + random.below(3) as f32, 1.0 + random.below(3) as f32);
        points.extend([(x, y), (x + w, y), (x + w, y + h), (x, y + h)]);
        let mut list: Vec<u32> = (4 * k..4 * k + 4).collect();
        if random.once_in(4) {
            list.reverse();
        }
        polygons.push(list);
    }
    deck(&points, polygons)
}

/// Polygons of one to six vertices in any order: some are empty of points, turned round or degenerate, some name a vertex twice.
fn soup(random: &mut Random) -> DeckPlan {
    let count = 1 + random.below(7);
    let points: Vec<_> = (0..count).map(|_| (random.coordinate(4), random.coordinate(4))).collect();
    let polygons = (0..1 + random.below(5)).map(|_| (0..1 + random.below(6)).map(|_| random.below(count)).collect()).collect();
    deck(&points, polygons)
}

/// One polygon of one to three vertices, for ships of many decks.
fn tiny(random: &mut Random) -> DeckPlan {
    let count = 1 + random.below(3);
    let points: Vec<_> = (0..count).map(|_| (random.below(5) as f32 - 2.0, random.below(5) as f32 - 2.0)).collect();
    deck(&points, vec![(0..count).collect()])
}

/// A polygon that is a point or a segment, or that names a vertex twice running.
fn add_degenerate(deck: &mut DeckPlan, random: &mut Random) {
    let count = deck.vertices.len() as u32;
    let v = random.below(count);
    match random.below(3) {
        0 => deck.polygons.push(vec![v]),
        1 => deck.polygons.push(vec![v, random.below(count)]),
        _ => {
            let k = random.index(deck.polygons.len());
            let i = random.index(deck.polygons[k].len());
            let again = deck.polygons[k][i];
            deck.polygons[k].insert(i, again);
        }
    }
}

fn add_heights(deck: &mut DeckPlan, random: &mut Random) {
    let count = deck.vertices.len() as u32;
    deck.heights = match random.below(5) {
        0 => vec![],
        1 => vec![random.one_of(&[-0.0, 0.0, 2.0]); count as usize],
        2 => deck.vertices.iter().map(|v| (v.x / 4.0).clamp(-MOST, MOST)).collect(),
        3 => (0..count).map(|_| random.coordinate(5) * 200_000.0).map(|h| h.clamp(-MOST, MOST)).collect(),
        _ => (0..count).map(|_| random.coordinate(5)).collect(),
    };
}

/// Coordinates made tiny or large, or moved far out, now and then with -0 for 0.
fn place(deck: &mut DeckPlan, scale: f32, shift: (f32, f32), random: &mut Random) {
    let negative = random.once_in(3);
    let set = |x: f32, by: f32| {
        let x = (x * scale + by).clamp(-MOST, MOST);
        if negative && x == 0.0 {
            -0.0
        } else {
            x
        }
    };
    deck.vertices.iter_mut().for_each(|v| (v.x, v.y) = (set(v.x, shift.0), set(v.y, shift.1)));
}

fn offset(scale: f32, random: &mut Random) -> (f32, f32) {
    match random.below(5) {
        0 | 1 => (0.0, 0.0),
        2 => (-0.0, random.one_of(&[0.0, -0.0])),
        3 => (random.coordinate(3) * scale, random.coordinate(3) * scale),
        _ => (random.coordinate(3), random.sign() * random.one_of(&[0.1, 1000.3, 900_000.0])),
    }
}

fn random_deck(random: &mut Random, met: &mut Met) -> DeckPlan {
    let shape: (&str, fn(&mut Random) -> DeckPlan) = random.one_of(&[
        ("grid", |random| grid(1 + random.below(3), 1 + random.below(3), random.one_of(&[1.0, 1.5]))),
        ("fan", fan as fn(&mut Random) -> DeckPlan),
        ("rectangles", rectangles),
        ("soup", soup),
    ]);
    met.see(shape.0);
    let mut deck = shape.1(random);
    if random.once_in(4) {
        add_degenerate(&mut deck, random);
    }
    deck
}

/// A ship with no decks yet.
fn no_decks(random: &mut Random) -> ShipPlan {
    let reach = random.one_of(&[0.0, -0.0, 0.07, 0.5, 1000.0]);
    ShipPlan { reach, steps: 1 + random.below(16), decks: vec![] }
}

/// A ship of one to four decks, now and then of none or of 250 to 256.
pub fn random_ship(random: &mut Random, met: &mut Met) -> ShipPlan {
    if random.once_in(25) {
        return no_decks(random);
    }
    let many = random.once_in(50);
    let scale = random.one_of(&[1.0, 1.0, 1.0, 1.0, 1.0, 1e-3, 1e-5, 30_000.0]);
    let shift =
        if random.once_in(6) { (random.sign() * random.one_of(&[100.0, 999_990.0]), random.sign() * 999_996.0) } else { (0.0, 0.0) };
    let mut decks: Vec<DeckPlan> = vec![];
    for _ in 0..if many { random.one_of(&[250, 251, 252, 253, 254, 255, 256, 256]) } else { 1 + random.below(4) } {
        // A deck above another one, of the same vertices, has points to stitch.
        let deck = match decks.first() {
            Some(first) if !many && random.once_in(2) => first.clone(),
            _ => {
                let mut deck = if many { tiny(random) } else { random_deck(random, met) };
                place(&mut deck, scale, shift, random);
                deck
            }
        };
        decks.push(deck);
    }
    for deck in &mut decks {
        deck.offset = offset(scale, random);
        add_heights(deck, random);
    }
    // Decks over each other are met together where they are not moved apart.
    if random.once_in(2) {
        let first = decks[0].offset;
        decks.iter_mut().for_each(|deck| deck.offset = first);
    }
    let near = random.below(33) as f32 / 16.0 * scale.min(1000.0);
    // Far out, several samples of a small reach lie at one place.
    let small = if shift == (0.0, 0.0) { near } else { 0.07 };
    let reach = random.one_of(&[near, near, near, near, small, small, small, 0.0, -0.0, 0.3, 1000.0]);
    let steps = if many { 1 + random.below(3) } else { random.one_of(&[1, 2, 3, 4, 6, 9, 16]) };
    let mut plan = ShipPlan { reach: reach.min(1000.0), steps, decks };
    set_lists(&mut plan, random);
    plan
}
