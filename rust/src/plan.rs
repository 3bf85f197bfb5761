use crate::bytes::{float_at, number_at, numbers, put, put_float};

const HEADER_SIZE: usize = 12;
const PAIR_SIZE: usize = 8;
const BLOCKS_PER_DECK: usize = 5;
const OFFSET_SIZE: usize = 8;
const VERTEX_SIZE: usize = 16;
const LIST_SIZE: usize = 8;

/// A vertex of a deck.
#[derive(Debug, Clone, PartialEq, Default)]
pub struct VertexPlan {
    pub x: f32,
    pub y: f32,
    /// The polygons around it; `u32::MAX` is the outside.
    pub neighbours: Vec<u32>,
}

/// A deck.
#[derive(Debug, Clone, PartialEq, Default)]
pub struct DeckPlan {
    pub offset: (f32, f32),
    pub vertices: Vec<VertexPlan>,
    /// The vertices of each polygon, counter-clockwise.
    pub polygons: Vec<Vec<u32>>,
    /// Nothing, or a height for each vertex.
    pub heights: Vec<f32>,
}

/// A ship: what a ship file says. Nothing is judged here; what is wrong with a plan, the library says of its file.
///
/// A new project begins with no decks, a file of 12 bytes. No seat is placed on it, and it has no deck that a seat can name:
///
/// ```
/// use feedercoil::{BlockedDecks, Refusal, Seat, SeatRecord, Ship, ShipPlan};
///
/// let plan = ShipPlan { reach: 0.5, steps: 2, decks: vec![] };
/// assert_eq!(plan.file(), [0, 0, 0, 0, 0, 0, 0, 0x3F, 2, 0, 0, 0]);
///
/// let ship = Ship::new(plan.file());
/// let seat = Seat::at(1.0, 1.0);
/// assert_eq!(ship.run(&BlockedDecks::new(), &[seat])?, [SeatRecord::Unplaced { tried: 0 }]);
/// assert_eq!(ship.run(&BlockedDecks::new(), &[Seat { deck: Some(0), ..seat }]), Err(Refusal(17)));
/// # Ok::<(), Refusal>(())
/// ```
#[derive(Debug, Clone, PartialEq, Default)]
pub struct ShipPlan {
    /// How far a step of the search goes beyond the one before.
    pub reach: f32,
    pub steps: u32,
    /// At most 256.
    pub decks: Vec<DeckPlan>,
}

impl ShipPlan {
    /// The ship file. A count or a length of 2^32 and more does not fit the file, which question 6 then refuses.
    pub fn file(&self) -> Vec<u8> {
        let mut file = Vec::new();
        put(&mut file, self.decks.len() as u32);
        put_float(&mut file, self.reach);
        put(&mut file, self.steps);
        let table = file.len();
        file.resize(table + PAIR_SIZE * BLOCKS_PER_DECK * self.decks.len(), 0);
        for (d, deck) in self.decks.iter().enumerate() {
            let writers: [fn(&DeckPlan, &mut Vec<u8>); BLOCKS_PER_DECK] =
                [DeckPlan::put_vertices, DeckPlan::put_neighbours, DeckPlan::put_polygons, DeckPlan::put_corners, DeckPlan::put_heights];
            for (k, write) in writers.iter().enumerate() {
                let start = file.len();
                write(deck, &mut file);
                let length = file.len() - start;
                let pair = table + PAIR_SIZE * (BLOCKS_PER_DECK * d + k);
                file[pair..pair + 4].copy_from_slice(&(start as u32).to_le_bytes());
                file[pair + 4..pair + 8].copy_from_slice(&(length as u32).to_le_bytes());
            }
        }
        file
    }

    /// The plan of a ship file. `None` where no plan has this file: where its blocks or its lists do not lie end to end. Every file
    /// that passes questions 1 to 13 has a plan.
    pub fn read(file: &[u8]) -> Option<ShipPlan> {
        let decks = deck_count(file)?;
        let plan = ShipPlan {
            reach: float_at(file, 4)?,
            steps: number_at(file, 8)?,
            decks: (0..decks).map(|d| DeckPlan::read(file, d)).collect::<Option<_>>()?,
        };
        if plan.file() == file {
            Some(plan)
        } else {
            None
        }
    }
}

impl DeckPlan {
    fn put_vertices(&self, file: &mut Vec<u8>) {
        put_float(file, self.offset.0);
        put_float(file, self.offset.1);
        let mut start = 0;
        for vertex in &self.vertices {
            put_float(file, vertex.x);
            put_float(file, vertex.y);
            put(file, start as u32);
            put(file, vertex.neighbours.len() as u32);
            start += vertex.neighbours.len();
        }
    }

    fn put_neighbours(&self, file: &mut Vec<u8>) {
        self.vertices.iter().flat_map(|v| &v.neighbours).for_each(|&entry| put(file, entry));
    }

    fn put_polygons(&self, file: &mut Vec<u8>) {
        let mut start = 0;
        for polygon in &self.polygons {
            put(file, start as u32);
            put(file, polygon.len() as u32);
            start += polygon.len();
        }
    }

    fn put_corners(&self, file: &mut Vec<u8>) {
        self.polygons.iter().flatten().for_each(|&vertex| put(file, vertex));
    }

    fn put_heights(&self, file: &mut Vec<u8>) {
        self.heights.iter().for_each(|&height| put_float(file, height));
    }

    fn read(file: &[u8], deck: usize) -> Option<DeckPlan> {
        let v = block(file, deck, Block::V)?;
        let n = block(file, deck, Block::N)?;
        let c = block(file, deck, Block::C)?;
        let vertex = |row: &[u8]| {
            Some(VertexPlan { x: float_at(row, 0)?, y: float_at(row, 4)?, neighbours: list(n, number_at(row, 8)?, number_at(row, 12)?)? })
        };
        let polygon = |row: &[u8]| list(c, number_at(row, 0)?, number_at(row, 4)?);
        Some(DeckPlan {
            offset: (float_at(v, 0)?, float_at(v, 4)?),
            vertices: v[OFFSET_SIZE..].chunks(VERTEX_SIZE).map(vertex).collect::<Option<_>>()?,
            polygons: block(file, deck, Block::P)?.chunks(LIST_SIZE).map(polygon).collect::<Option<_>>()?,
            heights: numbers(block(file, deck, Block::H)?).into_iter().map(f32::from_bits).collect(),
        })
    }
}

/// The blocks of a deck, in the file's order.
#[derive(Clone, Copy)]
enum Block {
    V,
    N,
    P,
    C,
    H,
}

/// The number of decks, where the file has room for their rows in the table.
pub(crate) fn deck_count(file: &[u8]) -> Option<usize> {
    let decks = number_at(file, 0)? as usize;
    if decks > file.len() / (PAIR_SIZE * BLOCKS_PER_DECK) {
        return None;
    }
    Some(decks)
}

/// A block of a deck, where it lies in the file.
fn block(file: &[u8], deck: usize, which: Block) -> Option<&[u8]> {
    let pair = HEADER_SIZE + PAIR_SIZE * (BLOCKS_PER_DECK * deck + which as usize);
    let start = number_at(file, pair)? as usize;
    let length = number_at(file, pair + 4)? as usize;
    file.get(start..start.checked_add(length)?)
}

/// A list of `count` entries of a block, from entry `start` on.
fn list(block: &[u8], start: u32, count: u32) -> Option<Vec<u32>> {
    let start = (start as usize).checked_mul(4)?;
    let length = (count as usize).checked_mul(4)?;
    Some(numbers(block.get(start..start.checked_add(length)?)?))
}

/// How many polygons a deck has; 0 for a deck that is not there.
pub(crate) fn polygon_count(file: &[u8], deck: usize) -> usize {
    match deck_count(file) {
        Some(decks) if deck < decks => block(file, deck, Block::P).map_or(0, |p| p.len() / LIST_SIZE),
        _ => 0,
    }
}

/// How many polygons each deck has, where the file has room for the decks' rows in the table.
pub(crate) fn polygon_counts(file: &[u8]) -> Option<Vec<usize>> {
    Some((0..deck_count(file)?).map(|d| polygon_count(file, d)).collect())
}

/// How many polygons all decks have. Never more than the file has room for, whatever its table says.
pub(crate) fn polygon_total(file: &[u8]) -> usize {
    let total: usize = (0..deck_count(file).unwrap_or(0)).map(|d| polygon_count(file, d)).sum();
    total.min(file.len() / LIST_SIZE)
}
