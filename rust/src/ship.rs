use std::borrow::Cow;

use crate::bytes::numbers;
use crate::loads::sheet_size;
use crate::plan::{deck_count, polygon_count, polygon_total};
use crate::raw::{
    self, ANY_DECK, CANDIDATE_SIZE, HEIGHT_SIZE, LABEL_SIZE, LOADS_WORK_SIZE, NO_POLYGON, POLYGON_SIZE, RECORD_SIZE, SEAT_SIZE,
    STITCH_SIZE, WORK_SIZE,
};
use crate::{seat_list, BlockedDecks, Candidate, LoadSheet, PackedPolygon, Refusal, Seat, SeatRecord, ShipPlan, StitchPoint};

/// No ship has more decks.
const MOST_DECKS: usize = 256;

/// A ship file, and the library's calls on it. The methods have the names of polyanya's.
///
/// Nothing is kept between calls: each one asks the file's questions, 1 to 13, and then its own.
#[derive(Debug, Clone, PartialEq, Eq)]
pub struct Ship<'a> {
    file: Cow<'a, [u8]>,
}

impl<'a> Ship<'a> {
    /// A ship of a file's bytes, owned or borrowed. They are not judged here.
    pub fn new(file: impl Into<Cow<'a, [u8]>>) -> Self {
        Ship { file: file.into() }
    }

    /// The file's bytes.
    pub fn file(&self) -> &[u8] {
        &self.file
    }

    /// What the file says, as [`ShipPlan::read`].
    pub fn plan(&self) -> Option<ShipPlan> {
        ShipPlan::read(&self.file)
    }

    /// Questions 1 to 13 alone: a run of no seats.
    pub fn check(&self) -> Result<(), Refusal> {
        raw::run(&self.file, BlockedDecks::new().as_bytes(), &[], &mut []).map(|_| ())
    }

    /// The seat run: a record a seat, in list order.
    pub fn run(&self, blocked: &BlockedDecks, seats: &[Seat]) -> Result<Vec<SeatRecord>, Refusal> {
        self.run_list(blocked.as_bytes(), &seat_list(seats))
    }

    /// The seat run on the bytes of a blocked set and of a seat list.
    pub fn run_list(&self, blocked: &[u8], seats: &[u8]) -> Result<Vec<SeatRecord>, Refusal> {
        let mut out = vec![0; RECORD_SIZE * (seats.len() / SEAT_SIZE)];
        let count = raw::run(&self.file, blocked, seats, &mut out)?;
        Ok(SeatRecord::list(&out[..RECORD_SIZE * count]))
    }

    /// The seat run, with its load sheet: how many seats stand on each polygon, each island and each deck. Each deck has to have
    /// island labels, also one that is blocked or has no seat: 19 otherwise. Sheets of portions of a list add to that of the whole
    /// ([`LoadSheet::checked_add`]).
    pub fn run_loads(&self, blocked: &BlockedDecks, seats: &[Seat]) -> Result<(Vec<SeatRecord>, LoadSheet), Refusal> {
        self.run_list_loads(blocked.as_bytes(), &seat_list(seats))
    }

    /// The same on the bytes of a blocked set and of a seat list.
    pub fn run_list_loads(&self, blocked: &[u8], seats: &[u8]) -> Result<(Vec<SeatRecord>, LoadSheet), Refusal> {
        let polygons = polygon_total(&self.file);
        let mut out = vec![0; RECORD_SIZE * (seats.len() / SEAT_SIZE)];
        let mut table = vec![0; sheet_size(polygons, deck_count(&self.file).unwrap_or(0))];
        let mut work = vec![0; LOADS_WORK_SIZE * polygons];
        let count = raw::run_loads(&self.file, blocked, seats, &mut out, &mut table, &mut work)?;
        let sheet = LoadSheet::read(&self.file, &table).expect("the table has the sheet's length");
        Ok((SeatRecord::list(&out[..RECORD_SIZE * count]), sheet))
    }

    /// The polygons nearest to a point by the ring search: all candidates of the first step with a hit. Where the named deck is
    /// blocked there are none.
    pub fn get_closest_points_on_layers(
        &self,
        x: f32,
        y: f32,
        deck: Option<u32>,
        blocked: &BlockedDecks,
    ) -> Result<Vec<Candidate>, Refusal> {
        let mut out = vec![0; CANDIDATE_SIZE * polygon_total(&self.file)];
        let count = raw::closest_points(&self.file, x, y, deck.unwrap_or(ANY_DECK), blocked.as_bytes(), &mut out)?;
        Ok(Candidate::list(&out[..CANDIDATE_SIZE * count]))
    }

    /// The first of the candidates.
    pub fn get_closest_point_on_layers(
        &self,
        x: f32,
        y: f32,
        deck: Option<u32>,
        blocked: &BlockedDecks,
    ) -> Result<Option<Candidate>, Refusal> {
        let mut out = [0; CANDIDATE_SIZE];
        let count = raw::closest_point(&self.file, x, y, deck.unwrap_or(ANY_DECK), blocked.as_bytes(), &mut out)?;
        Ok(Candidate::list(&out[..CANDIDATE_SIZE * count]).pop())
    }

    /// The first place on a deck from a point towards another. Step 0 looks at the point, each later step a reach farther on, past
    /// the other point too; each step at the decks in rising order, or at the named one alone. No deck is blocked. Two points whose
    /// squared distance computes to 0 are refused with 22.
    pub fn get_closest_point_towards(&self, x: f32, y: f32, towards: (f32, f32), deck: Option<u32>) -> Result<Option<Candidate>, Refusal> {
        let mut out = [0; CANDIDATE_SIZE];
        let count = raw::closest_point_towards(&self.file, x, y, towards.0, towards.1, deck.unwrap_or(ANY_DECK), &mut out)?;
        Ok(Candidate::list(&out[..CANDIDATE_SIZE * count]).pop())
    }

    /// The height of a polygon at a place. The deck's offset is not taken off.
    pub fn height(&self, x: f32, y: f32, polygon: PackedPolygon) -> Result<Option<f32>, Refusal> {
        let mut out = [0; HEIGHT_SIZE];
        let count = raw::height(&self.file, x, y, polygon.0, &mut out)?;
        Ok(numbers(&out[..HEIGHT_SIZE * count]).pop().map(f32::from_bits))
    }

    /// The polygon that a point is in, by nine probes a deck; the lowest deck first. A deck that is not there has none.
    pub fn get_point_location(&self, x: f32, y: f32, deck: Option<u32>) -> Result<Option<PackedPolygon>, Refusal> {
        let polygon = raw::point_location(&self.file, x, y, deck.unwrap_or(ANY_DECK))?;
        Ok(if polygon == NO_POLYGON { None } else { Some(PackedPolygon(polygon)) })
    }

    /// The polygon that a point is in, on each deck that has one.
    pub fn get_point_layer(&self, x: f32, y: f32, deck: Option<u32>) -> Result<Vec<PackedPolygon>, Refusal> {
        let mut out = [0; POLYGON_SIZE * MOST_DECKS];
        let count = raw::point_layer(&self.file, x, y, deck.unwrap_or(ANY_DECK), &mut out)?;
        Ok(packed(&out[..POLYGON_SIZE * count]))
    }

    /// The polygons that a point may be on, without those that an earlier one reaches. A polygon already named comes back unchecked.
    pub fn candidate_polygons(
        &self,
        x: f32,
        y: f32,
        deck: Option<u32>,
        polygon: Option<PackedPolygon>,
        blocked: &BlockedDecks,
    ) -> Result<Vec<PackedPolygon>, Refusal> {
        let polygons = polygon_total(&self.file);
        // A named polygon comes back also where the ship has none.
        let mut out = vec![0; POLYGON_SIZE * polygons.max(1)];
        let mut work = vec![0; WORK_SIZE * polygons];
        let named = polygon.unwrap_or(PackedPolygon::NONE).0;
        let count = raw::candidate_polygons(&self.file, x, y, deck.unwrap_or(ANY_DECK), named, blocked.as_bytes(), &mut out, &mut work)?;
        Ok(packed(&out[..POLYGON_SIZE * count]))
    }

    /// The label of each polygon of a deck: the least number of a polygon that reaches it.
    pub fn bake_islands_detection(&self, deck: u32) -> Result<Vec<u32>, Refusal> {
        let polygons = polygon_count(&self.file, deck as usize);
        let mut out = vec![0; LABEL_SIZE * polygons];
        let mut work = vec![0; WORK_SIZE * polygons];
        let count = raw::islands(&self.file, deck, &mut out, &mut work)?;
        Ok(numbers(&out[..LABEL_SIZE * count]))
    }

    /// The points where two decks have a vertex each.
    pub fn find_stitch_points(&self) -> Result<Vec<StitchPoint>, Refusal> {
        // How many there are is not known beforehand: there is room for as many as the file could have vertices, and for twice as
        // many each time that they do not fit.
        let mut out = vec![0; self.file.len()];
        loop {
            match raw::stitch_points(&self.file, &mut out) {
                Ok(count) => return Ok(StitchPoint::list(&out[..STITCH_SIZE * count])),
                Err(Refusal(20)) => out = vec![0; 2 * out.len()],
                Err(refusal) => return Err(refusal),
            }
        }
    }

    /// The ship without its stitches: in each deck the entries of other decks are dropped, and those of the deck itself become plain
    /// numbers. A second removal reads the plain numbers as entries of deck 0, and in the decks above drops them too.
    pub fn remove_stitches(&self) -> Result<Ship<'static>, Refusal> {
        let mut out = vec![0; self.file.len()];
        let length = raw::remove_stitches(&self.file, &mut out)?;
        out.truncate(length);
        Ok(Ship::new(out))
    }

    /// The ship without the stitches to one deck: as [`Ship::remove_stitches`] in that deck, and elsewhere its entries are dropped.
    pub fn remove_stitches_to_layer(&self, layer: u8) -> Result<Ship<'static>, Refusal> {
        let mut out = vec![0; self.file.len()];
        let length = raw::remove_stitches_to_layer(&self.file, layer, &mut out)?;
        out.truncate(length);
        Ok(Ship::new(out))
    }
}

fn packed(bytes: &[u8]) -> Vec<PackedPolygon> {
    numbers(bytes).into_iter().map(PackedPolygon).collect()
}
