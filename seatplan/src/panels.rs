//! What each panel of the picture has.
use feedercoil::SeatRecord;

use crate::table::counted;
use crate::{Placing, Plan, SeatList};

pub type Point = (f64, f64);

/// What a panel has.
pub struct Panel<'a> {
    /// The deck's name.
    pub deck: &'a str,
    pub title: String,
    /// The corners of each polygon, on the ship.
    pub polygons: Vec<Vec<Point>>,
    pub placed: Vec<Placed<'a>>,
    pub unplaced: Vec<(&'a str, (f32, f32))>,
}

pub struct Placed<'a> {
    pub name: &'a str,
    pub asked: (f32, f32),
    pub stands: (f32, f32),
}

/// A panel a deck, or one for the seats of a ship with no decks. An unplaced seat is drawn on the deck that it names, and otherwise on all.
pub fn panels<'a>(plan: &'a Plan, list: &'a SeatList, placing: &Placing) -> Vec<Panel<'a>> {
    let mut panels: Vec<Panel> =
        (0..plan.decks.len()).map(|d| Panel::new(&plan.decks[d].name, title(plan, placing, d), polygons(plan, d))).collect();
    if panels.is_empty() {
        panels.push(Panel::new("", "No decks".to_string(), vec![]));
    }
    for (seat, record) in list.seats.iter().zip(&placing.records) {
        let asked = (seat.seat.x, seat.seat.y);
        match *record {
            SeatRecord::Placed { deck, x, y, .. } => panels[deck as usize].placed.push(Placed { name: &seat.name, asked, stands: (x, y) }),
            SeatRecord::Unplaced { .. } => {
                let named = |d: usize| seat.seat.deck.map_or(true, |deck| deck as usize == d);
                panels.iter_mut().enumerate().filter(|(d, _)| named(*d)).for_each(|(_, panel)| panel.unplaced.push((&seat.name, asked)));
            }
        }
    }
    panels
}

fn title(plan: &Plan, placing: &Placing, deck: usize) -> String {
    let blocked = u8::try_from(deck).map_or(false, |deck| placing.blocked.contains(deck));
    format!("{}: {}{}", plan.decks[deck].name, counted(placing.loads[deck], "seat"), if blocked { ", blocked" } else { "" })
}

fn polygons(plan: &Plan, deck: usize) -> Vec<Vec<Point>> {
    let deck = &plan.decks[deck].plan;
    let offset = deck.offset;
    let point = |&v: &u32| {
        let vertex = &deck.vertices[v as usize];
        (f64::from(vertex.x) + f64::from(offset.0), f64::from(vertex.y) + f64::from(offset.1))
    };
    deck.polygons.iter().map(|polygon| polygon.iter().map(point).collect()).collect()
}

/// The least box around points.
pub struct Extent {
    pub low: Point,
    pub high: Point,
}

impl<'a> Panel<'a> {
    fn new(deck: &'a str, title: String, polygons: Vec<Vec<Point>>) -> Panel<'a> {
        Panel { deck, title, polygons, placed: Vec::new(), unplaced: Vec::new() }
    }

    pub fn extent(&self) -> Extent {
        let wide = |p: (f32, f32)| (f64::from(p.0), f64::from(p.1));
        let seats = self.placed.iter().flat_map(|seat| [seat.asked, seat.stands]).chain(self.unplaced.iter().map(|seat| seat.1));
        let points: Vec<Point> = self.polygons.iter().flatten().copied().chain(seats.map(wide)).collect();
        let (x, y) = (range(points.iter().map(|p| p.0)), range(points.iter().map(|p| p.1)));
        Extent { low: (x.0, y.0), high: (x.1, y.1) }
    }
}

/// The least and the greatest; 0 of none.
pub fn range(numbers: impl Iterator<Item = f64>) -> (f64, f64) {
    numbers.fold(None, |found: Option<(f64, f64)>, n| Some(found.map_or((n, n), |(a, b)| (a.min(n), b.max(n))))).unwrap_or((0.0, 0.0))
}
