//! Runs random seat lists on random ships, each whole and in portions, and writes what the library answers to standard output, for
//! tools/load_sheet.py to count anew. A ship: the lengths of its file and the number of runs, the file, and of each run the lengths of
//! records and table, then both. The first run is of the whole list.
use std::io::{self, Write};

use feedercoil::raw::{self, BLOCKED_SIZE, COUNT_SIZE, LOADS_WORK_SIZE, RECORD_SIZE, SEAT_SIZE};
use feedercoil::{seat_list, DeckPlan, Seat, ShipPlan, VertexPlan};

const SHIPS: u32 = 2000;

/// xorshift, so that every run has the same ships.
struct Random(u64);

impl Random {
    fn below(&mut self, n: u32) -> u32 {
        self.0 ^= self.0 << 13;
        self.0 ^= self.0 >> 7;
        self.0 ^= self.0 << 17;
        (self.0 >> 32) as u32 % n
    }

    /// From 0 to below n, in eighths.
    fn place(&mut self, n: u32) -> f32 {
        self.below(8 * n) as f32 / 8.0
    }

    /// Squares on a grid, in any order and at times on each other. A vertex names the outside or polygons of the deck; few of them, so
    /// that islands differ and many a reach is one way.
    fn deck(&mut self) -> DeckPlan {
        let count = 1 + self.below(16);
        let mut deck = DeckPlan { offset: (self.place(2), self.place(2)), ..DeckPlan::default() };
        for k in 0..count {
            let (x, y) = (2.0 * self.below(4) as f32, 2.0 * self.below(3) as f32);
            for (dx, dy) in [(0.0, 0.0), (1.5, 0.0), (1.5, 1.5), (0.0, 1.5)] {
                let entry = |random: &mut Random| if random.below(3) == 0 { u32::MAX } else { random.below(count) };
                let neighbours = if self.below(5) == 0 { (0..1 + self.below(2)).map(|_| entry(self)).collect() } else { vec![] };
                deck.vertices.push(VertexPlan { x: x + dx, y: y + dy, neighbours });
            }
            deck.polygons.push((4 * k..4 * k + 4).collect());
        }
        if self.below(2) == 0 {
            deck.heights = (0..4 * count).map(|_| self.place(4)).collect();
        }
        deck
    }

    /// Now and then a ship with no decks.
    fn plan(&mut self) -> ShipPlan {
        let decks = if self.below(20) == 0 { 0 } else { 1 + self.below(4) };
        ShipPlan { reach: self.place(1), steps: 1 + self.below(3), decks: (0..decks).map(|_| self.deck()).collect() }
    }

    fn seat(&mut self, decks: u32) -> Seat {
        let mut seat = Seat::at(self.place(9), self.place(7));
        seat.deck = if decks > 0 && self.below(4) == 0 { Some(self.below(decks)) } else { None };
        seat.wish = if self.below(3) == 0 { Some(self.place(4)) } else { None };
        seat
    }
}

/// The records and the table of a run.
fn run(plan: &ShipPlan, blocked: &[u8], seats: &[u8]) -> (Vec<u8>, Vec<u8>) {
    let polygons: usize = plan.decks.iter().map(|deck| deck.polygons.len()).sum();
    let mut records = vec![0xA5; RECORD_SIZE * (seats.len() / SEAT_SIZE)];
    let mut table = vec![0xA5; COUNT_SIZE * (2 * polygons + plan.decks.len() + 1)];
    let mut work = vec![0xA5; LOADS_WORK_SIZE * polygons];
    let answer = raw::run_loads(&plan.file(), blocked, seats, &mut records, &mut table, &mut work);
    assert_eq!(answer, Ok(seats.len() / SEAT_SIZE), "{plan:?}");
    assert!(work.iter().all(|&b| b == 0), "work is left as it was: {plan:?}");
    (records, table)
}

fn lengths(a: usize, b: usize) -> Vec<u8> {
    [a, b].iter().flat_map(|&n| (n as u32).to_le_bytes()).collect()
}

fn main() -> io::Result<()> {
    let mut random = Random(0x1912_0415_1912_0415);
    let mut out = io::BufWriter::new(io::stdout().lock());
    for _ in 0..SHIPS {
        let plan = random.plan();
        let decks = plan.decks.len() as u32;
        let mut blocked = [0; BLOCKED_SIZE];
        if random.below(3) == 0 {
            blocked[0] = 1 << random.below(4);
        }
        let seats: Vec<Seat> = (0..random.below(25)).map(|_| random.seat(decks)).collect();
        let list = seat_list(&seats);
        // Three portions, some of them empty.
        let mut ends = [0, 1].map(|_| SEAT_SIZE * random.below(seats.len() as u32 + 1) as usize);
        ends.sort_unstable();
        let lists = [&list[..], &list[..ends[0]], &list[ends[0]..ends[1]], &list[ends[1]..]];
        let file = plan.file();
        out.write_all(&lengths(file.len(), lists.len()))?;
        out.write_all(&file)?;
        for list in lists {
            let (records, table) = run(&plan, &blocked, list);
            out.write_all(&lengths(records.len(), table.len()))?;
            out.write_all(&records)?;
            out.write_all(&table)?;
        }
    }
    out.flush()
}
