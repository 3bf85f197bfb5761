//! Asks the library, and finds the row that a refusal is about.
use feedercoil::raw::{self, RECORD_SIZE};
use feedercoil::{seat_list, BlockedDecks, DeckPlan, Refusal, SeatRecord, Ship, ShipPlan, VertexPlan};

use crate::{Deck, Error, Place, Plan, SeatList};

/// What the library was given, and what it answered.
#[derive(Debug, Clone)]
pub struct Placing {
    /// The ship file.
    pub ship: Vec<u8>,
    pub blocked: BlockedDecks,
    /// The seat list's bytes.
    pub seats: Vec<u8>,
    /// The records' bytes, and the records.
    pub bytes: Vec<u8>,
    pub records: Vec<SeatRecord>,
    /// How many seats stand on each deck, and how many on none.
    pub loads: Vec<u64>,
    pub unplaced: u64,
}

impl Placing {
    /// What the program `seatlist` reads.
    pub fn seatlist_input(&self) -> Vec<u8> {
        [&(self.ship.len() as u32).to_le_bytes(), &self.ship[..], self.blocked.as_bytes(), &self.seats].concat()
    }
}

/// The run of a plan's seats, and how many stand on each deck.
pub fn place_seats(plan: &Plan, list: &SeatList, blocked: &BlockedDecks) -> Result<Placing, Error> {
    let model = plan.ship();
    let (ship, seats) = (model.file(), seat_list(&list.plain()));
    let mut bytes = vec![0; RECORD_SIZE * list.seats.len()];
    raw::run(&ship, blocked.as_bytes(), &seats, &mut bytes).map_err(|refusal| refused(plan, list, refusal))?;
    let records = SeatRecord::list(&bytes);
    let (_, sheet) = Ship::new(without_neighbours(model).file())
        .run_list_loads(blocked.as_bytes(), &seats)
        .map_err(|refusal| refused(plan, list, refusal))?;
    let loads = sheet.decks.iter().map(|deck| deck.seats).collect();
    Ok(Placing { ship, blocked: *blocked, seats, bytes, records, loads, unplaced: sheet.unplaced })
}

/// No search reads a neighbour list, and a load sheet asks that they name polygons of their own deck alone (question 19), which those of
/// stitched decks do not. How many seats stand on a deck is the same without them.
fn without_neighbours(mut ship: ShipPlan) -> ShipPlan {
    ship.decks.iter_mut().flat_map(|deck| &mut deck.vertices).for_each(|vertex| vertex.neighbours.clear());
    ship
}

fn refused(plan: &Plan, list: &SeatList, refusal: Refusal) -> Error {
    let place = match refusal.question() {
        3 => Some(&plan.reach_place),
        4 => Some(&plan.steps_place),
        2 => plan.decks.get(256).map(|deck| &deck.place),
        7..=13 => refused_deck(plan).map(|deck| refused_row(deck, refusal)),
        15..=17 => refused_seat(plan, list),
        _ => None,
    };
    match place {
        Some(place) => Error::text(place, refusal.to_string()),
        None => Error::file(&plan.reach_place.file, refusal),
    }
}

/// The last of the shortest first part that is refused. Questions are asked in the order of what they are asked of, so it is the one that
/// the refusal of the whole is about.
fn first_refused(count: usize, ask: impl Fn(usize) -> Result<(), Refusal>) -> Option<usize> {
    let (mut passed, mut refused) = (0, count + 1);
    while refused - passed > 1 {
        let middle = passed + (refused - passed) / 2;
        match ask(middle) {
            Ok(()) => passed = middle,
            Err(_) => refused = middle,
        }
    }
    Some(passed).filter(|&at| at < count)
}

fn check(decks: Vec<DeckPlan>) -> Result<(), Refusal> {
    Ship::new(ShipPlan { reach: 0.0, steps: 1, decks }.file()).check()
}

fn refused_deck(plan: &Plan) -> Option<&Deck> {
    let first = first_refused(plan.decks.len(), |n| check(plan.decks[..n].iter().map(|deck| deck.plan.clone()).collect()))?;
    plan.decks.get(first)
}

/// The row of a deck: a vertex or a polygon, or the deck's own where it is none of them.
fn refused_row(deck: &Deck, refusal: Refusal) -> &Place {
    let plan = &deck.plan;
    let row = match refusal.question() {
        10 => deck.uneven.as_ref(),
        11 if check(vec![one_corner(plan.offset, vec![VertexPlan::default()], vec![])]).is_ok() => {
            let heights = |n| plan.heights.get(..n).unwrap_or(&[]).to_vec();
            let vertices = |n| plan.vertices[..n].iter().map(|v| VertexPlan { neighbours: vec![], ..v.clone() }).collect();
            let ask = |n| check(vec![one_corner(plan.offset, vertices(n), heights(n))]);
            first_refused(deck.vertices.len(), ask).map(|first| &deck.vertices[first])
        }
        12 | 13 => {
            let ask = |n| check(vec![DeckPlan { polygons: plan.polygons[..n].to_vec(), ..plan.clone() }]);
            first_refused(deck.polygons.len(), ask).map(|first| &deck.polygons[first])
        }
        _ => None,
    };
    row.unwrap_or(&deck.place)
}

/// A deck whose one polygon is its first vertex.
fn one_corner(offset: (f32, f32), vertices: Vec<VertexPlan>, heights: Vec<f32>) -> DeckPlan {
    DeckPlan { offset, vertices, polygons: vec![vec![0]], heights }
}

fn refused_seat<'a>(plan: &Plan, list: &'a SeatList) -> Option<&'a Place> {
    let ship = Ship::new(plan.ship().file());
    let seats = list.plain();
    let first = first_refused(seats.len(), |n| ship.run(&BlockedDecks::new(), &seats[..n]).map(|_| ()))?;
    list.seats.get(first).map(|seat| &seat.place)
}
