//! A seat's record, all nine numbers, from the Rust's answers.
use std::collections::HashSet;

use feedercoil::raw::{ANY_DECK, NO_POLYGON};

use crate::by_rust::{coords, entry, names_blocked, RustShip};
use crate::calls::Query;
use crate::glam::{vec2, Vec2};
use crate::polyanya::direction;

/// How many samples a step has.
fn samples(step: u32) -> u32 {
    10 * step + 1
}

impl RustShip {
    /// The nine numbers of a seat's record.
    pub fn record(&mut self, seat: &[u32], blocked: &HashSet<u8>) -> [u32; 9] {
        let [x, y] = [f32::from_bits(seat[0]), f32::from_bits(seat[1])];
        let query = Query { x, y, deck: seat[2] };
        if names_blocked(query.deck, blocked) {
            return [NO_POLYGON, 0, 0, 0, 0, 0, 0, 0, 0];
        }
        let decks = self.mesh.layers.len();
        let open: Vec<usize> = match query.deck {
            ANY_DECK => (0..decks).filter(|&d| !blocked.contains(&(d as u8))).collect(),
            deck => vec![deck as usize],
        };
        let before = |step: u32| open.len() as u32 * (0..step).map(samples).sum::<u32>();
        let candidates = self.mesh.get_closest_points_on_layers(coords(query), blocked.clone());
        if candidates.is_empty() {
            return [NO_POLYGON, 0, 0, 0, 0, 0, 0, before(self.mesh.search_steps), 0];
        }
        let chosen = if seat[3] == 0 {
            candidates[0]
        } else {
            let wish = f32::from_bits(seat[4]);
            self.mesh.get_closest_points_on_layers_at_height(coords(query), blocked.clone(), wish).expect("there are candidates")
        };
        let step = self.step(query, blocked);
        let hits: Vec<Option<u32>> = open.iter().map(|&d| self.hit(d, vec2(x, y), step)).collect();
        let tried = before(step) + hits.iter().map(|hit| hit.map_or(samples(step), |i| i + 1)).sum::<u32>();
        let turn = open.iter().position(|&d| d == usize::from(chosen.layer().unwrap())).unwrap();
        let height = self.height(chosen);
        let [polygon, x, y] = entry(&chosen);
        let (kind, height) = (height.is_some().into(), height.map_or(0, f32::to_bits));
        [polygon, x, y, kind, height, step, hits[turn].expect("its deck is hit"), tried, candidates.len() as u32]
    }

    /// The least k for which the Rust finds anything in k + 1 steps.
    fn step(&mut self, query: Query, blocked: &HashSet<u8>) -> u32 {
        let steps = self.mesh.search_steps;
        let mut k = 0;
        while k + 1 < steps {
            self.mesh.set_search_steps(k + 1);
            if !self.mesh.get_closest_points_on_layers(coords(query), blocked.clone()).is_empty() {
                break;
            }
            k += 1;
        }
        self.mesh.set_search_steps(steps);
        k
    }

    /// The sample of a step that hits a deck: the first that lies where the Rust's answer lies. An earlier one of the same place
    /// would have hit.
    fn hit(&self, deck: usize, p: Vec2, step: u32) -> Option<u32> {
        let layer = &self.mesh.layers[deck];
        let p = p - layer.offset;
        let place = layer.get_closest_points_inner(p, self.mesh.search_delta, step).first()?.0;
        let bits = |p: Vec2| (p.x.to_bits(), p.y.to_bits());
        let lies = |i: u32| {
            let (x, y) = direction(step, i);
            p + vec2(x, y) * self.mesh.search_delta * step as f32
        };
        Some((0..samples(step)).find(|&i| bits(lies(i)) == bits(place)).expect("a sample of this step"))
    }
}
