//! Files and calls with something wrong in them: the number is held against document 01.
use feedercoil::raw::ANY_DECK;
use feedercoil::ShipPlan;

use crate::ask::random_call;
use crate::calls::{Asked, Call, Query, Room};
use crate::check::Ship;
use crate::questions::file_passes;
use crate::random::Random;

fn number(bytes: &[u8], k: usize) -> u32 {
    u32::from_le_bytes([bytes[4 * k], bytes[4 * k + 1], bytes[4 * k + 2], bytes[4 * k + 3]])
}

/// Just above the largest float of a file.
const ABOVE: f32 = 1_000_000.06;

fn wrong_float(random: &mut Random) -> f32 {
    random.one_of(&[f32::NAN, f32::INFINITY, f32::NEG_INFINITY, ABOVE, -ABOVE])
}

/// A number near the old one, near a bound of some question, or a float at a bound.
fn changed(old: u32, random: &mut Random) -> u32 {
    match random.below(4) {
        0 => old.wrapping_add(1),
        1 => old.wrapping_sub(1 + random.below(16)),
        2 => random.one_of(&[0, 1, 4, 16, 17, 256, 257, 4096, 4097, u32::MAX, 1 << 31]),
        3 if random.once_in(2) => wrong_float(random).to_bits(),
        _ => random.one_of(&[1_000_000.0f32, -1_000_000.0, 1000.0, 1000.06, -1e-30]).to_bits(),
    }
}

/// A block with bytes added or taken away, and all blocks laid end to end again. A ship with no decks has no block.
fn relaid(file: &[u8], random: &mut Random) -> Vec<u8> {
    let pairs = 5 * number(file, 0) as usize;
    if pairs == 0 {
        return file.to_vec();
    }
    let block = |k: usize| file[number(file, 3 + 2 * k) as usize..][..number(file, 4 + 2 * k) as usize].to_vec();
    let mut blocks: Vec<Vec<u8>> = (0..pairs).map(block).collect();
    let k = random.index(pairs);
    let length = blocks[k].len();
    let unit = random.one_of(&[1, 4, 8, 16, length]);
    blocks[k].resize(if random.once_in(2) { length + unit } else { length.saturating_sub(unit) }, 0);
    let mut new = file[..12].to_vec();
    let mut start = 12 + 8 * pairs;
    for block in &blocks {
        new.extend((start as u32).to_le_bytes());
        new.extend((block.len() as u32).to_le_bytes());
        start += block.len();
    }
    new.extend(blocks.concat());
    new
}

/// The file of a ship with a block, a few numbers or its length changed.
pub fn damaged_file(plan: &ShipPlan, random: &mut Random) -> Ship {
    let mut file = plan.file();
    if random.once_in(3) {
        file = relaid(&file, random);
    }
    for _ in 0..random.below(3) {
        // Half of the changes are in the header and the table of blocks.
        let numbers = if random.once_in(2) { 3 + 10 * plan.decks.len() } else { file.len() / 4 };
        let k = random.index(numbers.min(file.len() / 4));
        let new = changed(number(&file, k), random);
        file[4 * k..4 * k + 4].copy_from_slice(&new.to_le_bytes());
    }
    match random.below(12) {
        0 => file.truncate(random.index(file.len())),
        1 => file.truncate(random.index(60)),
        2 => file.push(0),
        _ => {}
    }
    let passes = file_passes(&file);
    Ship::of_file(file, passes)
}

fn absent_deck(plan: &ShipPlan, random: &mut Random) -> u32 {
    random.one_of(&[plan.decks.len() as u32, 256, 257, 0x0100_0000, ANY_DECK - 1])
}

/// The number after the last polygon of a deck. With no decks, every polygon is absent.
fn absent_polygon(plan: &ShipPlan, random: &mut Random) -> u32 {
    let d = random.index(plan.decks.len().max(1));
    let polygons = plan.decks.get(d).map_or(0, |deck| deck.polygons.len());
    (d << 24 | polygons) as u32
}

fn damage_seats(plan: &ShipPlan, seats: &mut Vec<u8>, random: &mut Random) {
    if seats.len() >= 20 {
        for _ in 0..1 + random.below(2) {
            let seat = 20 * random.index(seats.len() / 20);
            let (word, new) = match random.below(6) {
                0 => (3, random.one_of(&[2, u32::MAX])),
                1 => (3, 0),
                2 => (4, random.one_of(&[1, 1 << 31])),
                3 => (4, wrong_float(random).to_bits()),
                4 => (random.index(2), wrong_float(random).to_bits()),
                _ => (2, absent_deck(plan, random)),
            };
            seats[seat + 4 * word..seat + 4 * word + 4].copy_from_slice(&new.to_le_bytes());
        }
    }
    if random.once_in(6) {
        seats.resize(seats.len() + random.one_of(&[1, 19, 4]), 0);
    }
}

fn damage_query(plan: &ShipPlan, query: &mut Query, random: &mut Random) {
    match random.below(3) {
        0 => query.x = wrong_float(random),
        1 => query.y = wrong_float(random),
        _ => query.deck = absent_deck(plan, random),
    }
}

/// A call with a few things wrong with it. Some are nothing to this call, and it is answered.
pub fn damaged_call(plan: &ShipPlan, random: &mut Random) -> Asked {
    let mut asked = random_call(plan, random);
    if random.once_in(5) {
        asked.blocked.resize(random.one_of(&[0, 31, 33, 64]), 0);
    }
    match &mut asked.call {
        Call::Run { seats } => damage_seats(plan, seats, random),
        Call::ClosestPoints(q) | Call::ClosestPoint(q) | Call::PointLocation(q) | Call::PointLayer(q) => damage_query(plan, q, random),
        Call::ClosestPointTowards { query, towards } => {
            if random.once_in(3) {
                *towards = (query.x, query.y);
            }
            match random.below(4) {
                0 => towards.0 = wrong_float(random),
                1 => towards.1 = wrong_float(random),
                _ => damage_query(plan, query, random),
            }
        }
        Call::CandidatePolygons { query, .. } => damage_query(plan, query, random),
        Call::Height { x, polygon, .. } => match random.below(4) {
            0 => *x = wrong_float(random),
            1 => *polygon = random.one_of(&[0xFF00_0000, 0xFEFF_FFFF, (plan.decks.len() as u32 % 256) << 24]),
            _ => *polygon = absent_polygon(plan, random),
        },
        Call::Islands { deck } => {
            let absent = absent_deck(plan, random);
            *deck = random.one_of(&[*deck, absent, ANY_DECK]);
        }
        _ => asked.output = random.one_of(&[Room::Less(1), Room::Less(usize::MAX)]),
    }
    asked
}

/// A file of one vertex and this many polygons, of which nothing but their number is as it has to be.
pub fn many_polygons(count: u32) -> Vec<u8> {
    let mut file = vec![];
    let bytes = 8 * count;
    for word in [1, 0, 1, 52, 24, 76, 0, 76, bytes, 76 + bytes, 0, 76 + bytes, 0] {
        file.extend(u32::to_le_bytes(word));
    }
    file.resize(76 + bytes as usize, 0);
    file
}
