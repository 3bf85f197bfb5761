//! Ships of the tests, and the thirteen calls with lent output and work.
#![allow(dead_code)]
use feedercoil::raw::{self, ANY_DECK, NO_POLYGON};
use feedercoil::{seat_list, DeckPlan, Refusal, Seat, ShipPlan, VertexPlan};

pub const OUTSIDE: u32 = u32::MAX;

/// Corners of the square of document 01.
pub const SQUARE: [(f32, f32); 4] = [(0.0, 0.0), (4.0, 0.0), (4.0, 4.0), (0.0, 4.0)];

/// A deck of one polygon that has all vertices in order, each with the list [0, outside].
pub fn one_polygon(points: &[(f32, f32)]) -> DeckPlan {
    DeckPlan {
        offset: (0.0, 0.0),
        vertices: points.iter().map(|&(x, y)| VertexPlan { x, y, neighbours: vec![0, OUTSIDE] }).collect(),
        polygons: vec![(0..points.len() as u32).collect()],
        heights: vec![],
    }
}

/// The square with heights 1, 1, 3, 3.
pub fn square() -> DeckPlan {
    DeckPlan { heights: vec![1.0, 1.0, 3.0, 3.0], ..one_polygon(&SQUARE) }
}

/// The ship of the example in document 01, section 7.
pub fn example() -> ShipPlan {
    ShipPlan { reach: 0.5, steps: 2, decks: vec![square()] }
}

/// The same with no decks yet.
pub fn no_decks() -> ShipPlan {
    ShipPlan { decks: vec![], ..example() }
}

/// A deck of squares that lie on each other, each with four vertices of its own, whose lists are `lists` of the square.
pub fn stacked(lists: &[&[u32]]) -> DeckPlan {
    let vertices = lists.iter().flat_map(|list| SQUARE.iter().map(|&(x, y)| VertexPlan { x, y, neighbours: list.to_vec() })).collect();
    let polygons = (0..lists.len() as u32).map(|k| (4 * k..4 * k + 4).collect()).collect();
    DeckPlan { offset: (0.0, 0.0), vertices, polygons, heights: vec![] }
}

/// A ship that is searched at the point itself alone.
pub fn still(decks: Vec<DeckPlan>) -> ShipPlan {
    ShipPlan { reach: 0.0, steps: 1, decks }
}

/// What the lent bytes are before a call.
pub const LENT: u8 = 0xA5;

pub type Call = fn(&[u8], &mut [u8], &mut [u8]) -> Result<usize, Refusal>;

/// Every call, at (1, 1), with nothing blocked, and towards (3, 1). The number is the bytes of an entry, of removal a byte.
pub const CALLS: [(&str, usize, Call); 13] = [
    ("run", 36, |file, out, _| raw::run(file, &[0; 32], &seat_list(&[Seat::at(1.0, 1.0)]), out)),
    ("run_loads", 36, |file, out, work| {
        with_table(file, |table| raw::run_loads(file, &[0; 32], &seat_list(&[Seat::at(1.0, 1.0)]), out, table, work))
    }),
    ("closest_points", 12, |file, out, _| raw::closest_points(file, 1.0, 1.0, ANY_DECK, &[0; 32], out)),
    ("closest_point", 12, |file, out, _| raw::closest_point(file, 1.0, 1.0, ANY_DECK, &[0; 32], out)),
    ("closest_point_towards", 12, |file, out, _| raw::closest_point_towards(file, 1.0, 1.0, 3.0, 1.0, ANY_DECK, out)),
    ("height", 4, |file, out, _| raw::height(file, 1.0, 1.0, 0, out)),
    ("point_location", 0, |file, _, _| raw::point_location(file, 1.0, 1.0, ANY_DECK).map(|polygon| polygon as usize)),
    ("point_layer", 4, |file, out, _| raw::point_layer(file, 1.0, 1.0, ANY_DECK, out)),
    ("candidate_polygons", 4, |file, out, work| raw::candidate_polygons(file, 1.0, 1.0, ANY_DECK, NO_POLYGON, &[0; 32], out, work)),
    ("islands", 4, |file, out, work| raw::islands(file, 0, out, work)),
    ("stitch_points", 16, |file, out, _| raw::stitch_points(file, out)),
    ("remove_stitches", 1, |file, out, _| raw::remove_stitches(file, out)),
    ("remove_stitches_to_layer", 1, |file, out, _| raw::remove_stitches_to_layer(file, 0, out)),
];

/// A call with a table of more bytes than the sheet of any ship of this file's length. A refusal has to leave all of it as it was.
pub fn with_table(file: &[u8], call: impl FnOnce(&mut [u8]) -> Result<usize, Refusal>) -> Result<usize, Refusal> {
    let mut table = vec![LENT; 3 * file.len() + 9];
    let answer = call(&mut table);
    assert!(answer.is_ok() || table.iter().all(|&b| b == LENT), "the table was altered: {answer:?}");
    answer
}

/// A call with this much lent. A refusal has to leave all of it as it was.
pub fn lend(name: &str, call: Call, file: &[u8], out: usize, work: usize) -> (Result<usize, Refusal>, Vec<u8>, Vec<u8>) {
    let before = file.to_vec();
    let mut out = vec![LENT; out];
    let mut work = vec![LENT; work];
    let answer = call(file, &mut out, &mut work);
    assert_eq!(file, before, "{name} altered the file");
    if answer.is_err() {
        assert!(out.iter().chain(&work).all(|&b| b == LENT), "{name} altered what was lent: {answer:?}");
    }
    (answer, out, work)
}

/// Every call refuses the file with this number.
pub fn refused_by_all(file: &[u8], number: u32) {
    for (name, _, call) in CALLS {
        let room = 4096;
        assert_eq!(lend(name, call, file, room, room).0, Err(Refusal(number)), "{name}");
    }
}

/// No call refuses the file.
pub fn passed_by_all(file: &[u8]) {
    for (name, _, call) in CALLS {
        let room = 1 << 20;
        let answer = lend(name, call, file, room, room).0;
        assert!(answer.is_ok(), "{name}: {answer:?}");
    }
}

/// xorshift, so that every run has the same cases.
pub struct Random(pub u64);

impl Random {
    pub fn below(&mut self, n: u32) -> u32 {
        self.0 ^= self.0 << 13;
        self.0 ^= self.0 >> 7;
        self.0 ^= self.0 << 17;
        (self.0 >> 32) as u32 % n
    }

    pub fn float(&mut self) -> f32 {
        (self.below(129) as f32 - 64.0) / 8.0
    }

    /// An entry of a neighbour list: the outside, a plain number, or a number of some deck.
    fn entry(&mut self) -> u32 {
        match self.below(4) {
            0 => OUTSIDE,
            1 => self.below(6),
            2 => self.below(256) << 24 | self.below(4),
            _ => self.below(4) << 24 | self.below(6),
        }
    }

    fn deck(&mut self) -> DeckPlan {
        let count = 1 + self.below(6);
        let vertex = |random: &mut Random| VertexPlan {
            x: random.float(),
            y: random.float(),
            neighbours: (0..random.below(5)).map(|_| random.entry()).collect(),
        };
        let vertices = (0..count).map(|_| vertex(self)).collect();
        let polygons = (0..1 + self.below(5)).map(|_| (0..1 + self.below(5)).map(|_| self.below(count)).collect()).collect();
        let heights = if self.below(2) == 0 { vec![] } else { (0..count).map(|_| self.float()).collect() };
        DeckPlan { offset: (self.float(), self.float()), vertices, polygons, heights }
    }

    /// One of this many decks, or none named.
    pub fn named_deck(&mut self, decks: u32) -> Option<u32> {
        if decks > 0 && self.below(3) == 0 {
            Some(self.below(decks))
        } else {
            None
        }
    }

    /// A plan whose file passes every question, now and then one with no decks.
    pub fn plan(&mut self) -> ShipPlan {
        let count = if self.below(16) == 0 { 0 } else { 1 + self.below(4) };
        let decks = (0..count).map(|_| self.deck()).collect();
        ShipPlan { reach: self.below(33) as f32 / 16.0, steps: 1 + self.below(16), decks }
    }
}
