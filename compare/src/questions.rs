//! The questions of document 01, read over the bytes of a call in their order, without the Rust and without the library.
#[path = "../../rust/tests/common/first_question.rs"]
mod first_question;

use first_question::{first_question, number};

use crate::calls::{Asked, Call, Query};

const ALL_ONES: u32 = u32::MAX;

/// A deck's blocks V, N, P, C, H, of a file that passes 1 to 13.
fn blocks(file: &[u8], deck: usize) -> [&[u8]; 5] {
    [0, 1, 2, 3, 4].map(|k| {
        let pair = 3 + 2 * (5 * deck + k);
        &file[number(file, pair) as usize..][..number(file, pair + 1) as usize]
    })
}

fn decks(file: &[u8]) -> u32 {
    number(file, 0)
}

fn polygons(file: &[u8], deck: usize) -> u32 {
    blocks(file, deck)[2].len() as u32 / 8
}

fn in_size(float: f32) -> bool {
    float.is_finite() && (-1_000_000.0..=1_000_000.0).contains(&float)
}

fn is_deck(file: &[u8], deck: u32) -> bool {
    deck < decks(file)
}

/// 15, 16 and 17 of a seat.
fn seat_question(file: &[u8], seat: &[u8]) -> Option<u32> {
    let [x, y, deck, kind, height] = [0, 1, 2, 3, 4].map(|k| number(seat, k));
    if kind > 1 || kind == 0 && height != 0 {
        return Some(15);
    }
    if ![x, y, height].iter().all(|&bits| in_size(f32::from_bits(bits))) {
        return Some(16);
    }
    if deck != ALL_ONES && !is_deck(file, deck) {
        return Some(17);
    }
    None
}

/// 19: the entries at the vertices that the deck's polygons use.
fn lists_in_range(file: &[u8], deck: usize) -> bool {
    let [v, n, _, c, _] = blocks(file, deck);
    let list = |vertex: usize| {
        let (start, count) = (number(v, 4 + 4 * vertex) as usize, number(v, 5 + 4 * vertex) as usize);
        (start..start + count).map(|k| number(n, k))
    };
    let mut used = (0..c.len() / 4).flat_map(|k| list(number(c, k) as usize));
    used.all(|entry| entry == ALL_ONES || entry < polygons(file, deck))
}

/// The squared distance of two points, in f32.
pub fn squared_distance(query: Query, (x, y): (f32, f32)) -> f32 {
    let (dx, dy) = (query.x - x, query.y - y);
    dx * dx + dy * dy
}

/// Whether a file passes questions 1 to 13.
pub fn file_passes(file: &[u8]) -> bool {
    first_question(file).is_none()
}

/// The first question from 1 to 19, or 22, that a call does not pass.
pub fn first_no(file: &[u8], asked: &Asked) -> Option<u32> {
    if let Some(no) = first_question(file) {
        return Some(no);
    }
    let call = &asked.call;
    if call.takes_blocked() && asked.blocked.len() != 32 {
        return Some(14);
    }
    if let Call::Run { seats } = call {
        if seats.len() % 20 != 0 {
            return Some(14);
        }
        return seats.chunks(20).find_map(|seat| seat_question(file, seat));
    }
    if !call.coordinates().into_iter().all(in_size) {
        return Some(16);
    }
    match *call {
        Call::ClosestPoints(q) | Call::ClosestPoint(q) | Call::ClosestPointTowards { query: q, .. }
            if q.deck != ALL_ONES && !is_deck(file, q.deck) =>
        {
            Some(17)
        }
        Call::ClosestPointTowards { query, towards } if squared_distance(query, towards) == 0.0 => Some(22),
        Call::Height { polygon: ALL_ONES, .. } => None,
        Call::Height { polygon, .. } if !is_deck(file, polygon >> 24) => Some(17),
        Call::Height { polygon, .. } if polygon % (1 << 24) >= polygons(file, (polygon >> 24) as usize) => Some(18),
        Call::Islands { deck } if !is_deck(file, deck) => Some(17),
        Call::Islands { deck } if !lists_in_range(file, deck as usize) => Some(19),
        _ => None,
    }
}

/// The bytes of work that 20 asks for.
pub fn work_asked(file: &[u8], call: &Call) -> usize {
    match call {
        Call::CandidatePolygons { .. } => (0..decks(file) as usize).map(|d| 4 * polygons(file, d) as usize).sum(),
        Call::Islands { deck } => 4 * polygons(file, *deck as usize) as usize,
        _ => 0,
    }
}
