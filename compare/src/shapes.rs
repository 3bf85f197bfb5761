//! The ships and lists of seats that are measured.
use feedercoil::{Seat, ShipPlan};

use crate::random::Random;
use crate::ships::grid;

/// Where a seat is: on a deck, up to a few steps off, or out of reach.
#[derive(Clone, Copy)]
pub enum Kind {
    On,
    Near,
    Far,
}
use Kind::{Far, Near, On};

/// Decks of squares that overlap in part, and a list of seats.
#[derive(Clone, Copy)]
pub struct Shape {
    pub decks: u32,
    pub wide: u32,
    pub high: u32,
    pub steps: u32,
    pub reach: f32,
    pub kinds: &'static [Kind],
    pub seats: usize,
}

/// In every block of so many seats of a list each kind is there equally often, and so is each distance of those a few steps off.
pub const BLOCK: usize = 15;
const DISTANCES: usize = 5;

impl Shape {
    pub fn ship(&self) -> ShipPlan {
        let deck = |d: u32| {
            let mut deck = grid(self.wide, self.high, 1.0);
            deck.offset = (10.0 * d as f32, 5.0 * d as f32);
            deck.vertices.iter_mut().for_each(|v| v.neighbours = vec![u32::MAX]);
            deck.heights = deck.vertices.iter().map(|v| v.x / 4.0).collect();
            deck
        };
        ShipPlan { reach: self.reach, steps: self.steps, decks: (0..self.decks).map(deck).collect() }
    }

    /// In random order, since a processor learns one that repeats.
    pub fn seats(&self) -> Vec<Seat> {
        let random = &mut Random(0xB0A7);
        let mut seats: Vec<_> = (0..self.seats).map(|k| self.seat(k, random)).collect();
        seats.chunks_mut(BLOCK).for_each(|block| random.shuffle(block));
        seats
    }

    fn seat(&self, k: usize, random: &mut Random) -> Seat {
        let mut along = |n: u32| random.below(10 * n) as f32 / 10.0;
        let steps_off = 2.0 + 0.6 * ((k / self.kinds.len() % DISTANCES) as f32 + along(1));
        // Past the last deck, and past the last step from there.
        let out = (self.wide.max(self.high) + 10 * self.decks) as f32 + self.steps as f32 * self.reach;
        match self.kinds[k % self.kinds.len()] {
            On => Seat::at(along(self.wide), along(self.high)),
            Near => Seat::at(along(self.wide), -self.reach * steps_off),
            Far => Seat::at(out + along(100), out),
        }
    }

    /// Polygons of a deck.
    pub fn polygons(&self) -> u32 {
        self.wide * self.high
    }

    pub fn kind_name(&self) -> &'static str {
        match self.kinds {
            [On] => "on a deck",
            [Near] => "a few steps off",
            [Far] => "nowhere near",
            _ => "mixed",
        }
    }
}

const SMALL: Shape = Shape { decks: 1, wide: 10, high: 5, steps: 8, reach: 0.5, kinds: &[On, Near, Far], seats: 3000 };
const MIDDLE: Shape = Shape { decks: 4, wide: 50, high: 30, seats: 300, ..SMALL };
const LARGE: Shape = Shape { decks: 16, wide: 100, high: 50, ..MIDDLE };
const ONE_DECK: Shape = Shape { decks: 1, high: 20, ..MIDDLE };

pub const SHIPS: [Shape; 3] = [SMALL, MIDDLE, LARGE];
pub const ALL_FAR: &[Kind] = &[Far];

pub struct Table {
    pub title: &'static str,
    /// Microseconds a seat, and not seats a second.
    pub micros: bool,
    pub shapes: &'static [Shape],
}

const fn table(title: &'static str, shapes: &'static [Shape]) -> Table {
    Table { title, micros: false, shapes }
}

pub const TABLES: [Table; 7] = [
    table("three ships", &SHIPS),
    Table {
        title: "a seat of each kind",
        micros: true,
        shapes: &[Shape { kinds: &[On], ..MIDDLE }, Shape { kinds: &[Near], ..MIDDLE }, Shape { kinds: ALL_FAR, ..MIDDLE }],
    },
    table(
        "a reach that covers the deck",
        &[
            Shape { reach: 12.0, ..SMALL },
            Shape { reach: 12.0, kinds: &[On], ..SMALL },
            Shape { reach: 60.0, ..MIDDLE },
            Shape { reach: 60.0, kinds: &[On], ..MIDDLE },
        ],
    ),
    table(
        "more polygons",
        &[
            Shape { wide: 10, high: 10, ..ONE_DECK },
            ONE_DECK,
            Shape { wide: 100, high: 100, ..ONE_DECK },
            Shape { wide: 500, high: 200, ..ONE_DECK },
        ],
    ),
    table(
        "more steps",
        &[
            Shape { steps: 1, ..ONE_DECK },
            Shape { steps: 2, ..ONE_DECK },
            Shape { steps: 4, ..ONE_DECK },
            ONE_DECK,
            Shape { steps: 16, ..ONE_DECK },
        ],
    ),
    table(
        "a longer reach",
        &[
            Shape { reach: 0.1, ..ONE_DECK },
            ONE_DECK,
            Shape { reach: 2.0, ..ONE_DECK },
            Shape { reach: 8.0, ..ONE_DECK },
            Shape { reach: 60.0, ..ONE_DECK },
        ],
    ),
    table("more seats", &[Shape { seats: 30, ..ONE_DECK }, ONE_DECK, Shape { seats: 3000, ..ONE_DECK }]),
];
