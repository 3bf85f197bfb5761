use crate::bytes::numbers;
use crate::raw::{CANDIDATE_SIZE, NO_POLYGON, RECORD_SIZE, STITCH_SIZE};
use crate::PackedPolygon;

/// What became of a seat.
#[derive(Debug, Clone, Copy, PartialEq)]
pub enum SeatRecord {
    Placed {
        /// The deck, and the polygon's number in it.
        deck: u32,
        polygon: u32,
        /// The place.
        x: f32,
        y: f32,
        /// The height there, if there is one.
        height: Option<f32>,
        /// The step that found it, and the sample of that step that gave the place.
        step: u32,
        sample: u32,
        /// Samples tried on all open decks.
        tried: u32,
        /// Candidates that the step gave on all open decks.
        candidates: u32,
    },
    /// No sample of the search hits any open deck.
    Unplaced {
        /// Samples tried: all that there are.
        tried: u32,
    },
}

impl SeatRecord {
    /// The records in the output of a run, 36 bytes each.
    pub fn list(bytes: &[u8]) -> Vec<SeatRecord> {
        bytes.chunks_exact(RECORD_SIZE).map(SeatRecord::of_bytes).collect()
    }

    fn of_bytes(bytes: &[u8]) -> SeatRecord {
        let n = numbers(bytes);
        if n[0] == NO_POLYGON {
            return SeatRecord::Unplaced { tried: n[7] };
        }
        let packed = PackedPolygon(n[0]);
        SeatRecord::Placed {
            deck: packed.deck(),
            polygon: packed.polygon(),
            x: f32::from_bits(n[1]),
            y: f32::from_bits(n[2]),
            height: if n[3] == 1 { Some(f32::from_bits(n[4])) } else { None },
            step: n[5],
            sample: n[6],
            tried: n[7],
            candidates: n[8],
        }
    }

    /// The packed polygon of a placed seat.
    pub fn packed(self) -> Option<PackedPolygon> {
        match self {
            SeatRecord::Placed { deck, polygon, .. } => Some(PackedPolygon::new(deck as u8, polygon)),
            SeatRecord::Unplaced { .. } => None,
        }
    }
}

/// A polygon near a point, and the place on it.
#[derive(Debug, Clone, Copy, PartialEq)]
pub struct Candidate {
    pub polygon: PackedPolygon,
    pub x: f32,
    pub y: f32,
}

impl Candidate {
    /// The candidates in the output of a call, 12 bytes each.
    pub fn list(bytes: &[u8]) -> Vec<Candidate> {
        let entry = |bytes| {
            let n = numbers(bytes);
            Candidate { polygon: PackedPolygon(n[0]), x: f32::from_bits(n[1]), y: f32::from_bits(n[2]) }
        };
        bytes.chunks_exact(CANDIDATE_SIZE).map(entry).collect()
    }
}

/// A point where decks a and b, a before b, have a vertex each; x and y are those of a's vertex.
#[derive(Debug, Clone, Copy, PartialEq)]
pub struct StitchPoint {
    pub a: u32,
    pub b: u32,
    pub x: f32,
    pub y: f32,
}

impl StitchPoint {
    /// The stitch points in the output of a call, 16 bytes each.
    pub fn list(bytes: &[u8]) -> Vec<StitchPoint> {
        let entry = |bytes| {
            let n = numbers(bytes);
            StitchPoint { a: n[0], b: n[1], x: f32::from_bits(n[2]), y: f32::from_bits(n[3]) }
        };
        bytes.chunks_exact(STITCH_SIZE).map(entry).collect()
    }
}
