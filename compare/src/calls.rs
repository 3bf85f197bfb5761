//! A call of the library, with what it is lent.
use std::fmt;

use feedercoil::raw;

/// A query's point, and the deck that it names or `ANY_DECK`.
#[derive(Debug, Clone, Copy)]
pub struct Query {
    pub x: f32,
    pub y: f32,
    pub deck: u32,
}

#[derive(Debug, Clone)]
pub enum Call {
    Run { seats: Vec<u8> },
    ClosestPoints(Query),
    ClosestPoint(Query),
    ClosestPointTowards { query: Query, towards: (f32, f32) },
    Height { x: f32, y: f32, polygon: u32 },
    PointLocation(Query),
    PointLayer(Query),
    CandidatePolygons { query: Query, polygon: u32 },
    Islands { deck: u32 },
    StitchPoints,
    RemoveStitches,
    RemoveStitchesToLayer { layer: u8 },
}

/// The calls' names, in the order of `Call::number`.
pub const NAMES: [&str; 12] = [
    "run",
    "closest_points",
    "closest_point",
    "closest_point_towards",
    "height",
    "point_location",
    "point_layer",
    "candidate_polygons",
    "islands",
    "stitch_points",
    "remove_stitches",
    "remove_stitches_to_layer",
];

impl Call {
    pub fn number(&self) -> usize {
        match self {
            Call::Run { .. } => 0,
            Call::ClosestPoints(_) => 1,
            Call::ClosestPoint(_) => 2,
            Call::ClosestPointTowards { .. } => 3,
            Call::Height { .. } => 4,
            Call::PointLocation(_) => 5,
            Call::PointLayer(_) => 6,
            Call::CandidatePolygons { .. } => 7,
            Call::Islands { .. } => 8,
            Call::StitchPoints => 9,
            Call::RemoveStitches => 10,
            Call::RemoveStitchesToLayer { .. } => 11,
        }
    }

    /// Bytes of an entry; of removal, which counts bytes, 1; of the location, which writes nothing, 0.
    pub fn entry_size(&self) -> usize {
        [36, 12, 12, 12, 4, 0, 4, 4, 4, 16, 1, 1][self.number()]
    }

    pub fn takes_blocked(&self) -> bool {
        matches!(self, Call::Run { .. } | Call::ClosestPoints(_) | Call::ClosestPoint(_) | Call::CandidatePolygons { .. })
    }

    pub fn takes_work(&self) -> bool {
        matches!(self, Call::CandidatePolygons { .. } | Call::Islands { .. })
    }

    fn seats(&self) -> &[u8] {
        match self {
            Call::Run { seats } => seats,
            _ => &[],
        }
    }

    /// The point of a call that has one, and the deck that it names.
    pub fn query(&self) -> Option<Query> {
        match *self {
            Call::ClosestPoints(query) | Call::ClosestPoint(query) | Call::PointLocation(query) | Call::PointLayer(query) => Some(query),
            Call::ClosestPointTowards { query, .. } | Call::CandidatePolygons { query, .. } => Some(query),
            Call::Height { x, y, .. } => Some(Query { x, y, deck: raw::ANY_DECK }),
            _ => None,
        }
    }

    /// The coordinates of the points of a call.
    pub fn coordinates(&self) -> Vec<f32> {
        let mut all = self.query().map_or(vec![], |q| vec![q.x, q.y]);
        if let Call::ClosestPointTowards { towards: (x, y), .. } = *self {
            all.extend([x, y]);
        }
        all
    }
}

/// How much a call is lent: what its answer takes, and more or less; or so many bytes.
#[derive(Debug, Clone, Copy, PartialEq)]
pub enum Room {
    Bytes(usize),
    Just,
    More(usize),
    Less(usize),
}

impl Room {
    pub fn of(self, needed: usize) -> usize {
        match self {
            Room::Bytes(bytes) => bytes,
            Room::Just => needed,
            Room::More(bytes) => needed + bytes,
            Room::Less(bytes) => needed.saturating_sub(bytes),
        }
    }
}

/// A call, its blocked set, and the output and work that it is lent.
#[derive(Debug, Clone)]
pub struct Asked {
    pub call: Call,
    pub blocked: Vec<u8>,
    pub output: Room,
    pub work: Room,
}

/// The bytes that a call wrote (of the location, the packed polygon), or the number of the question that its input does not pass.
#[derive(Clone, PartialEq)]
pub enum Answer {
    Refused(u32),
    Wrote(Vec<u8>),
}

impl fmt::Debug for Answer {
    fn fmt(&self, f: &mut fmt::Formatter<'_>) -> fmt::Result {
        match self {
            Answer::Refused(number) => write!(f, "refused {number}"),
            Answer::Wrote(bytes) => write!(f, "{} bytes: {:08X?}", bytes.len(), words(bytes)),
        }
    }
}

/// The numbers in bytes.
pub fn words(bytes: &[u8]) -> Vec<u32> {
    bytes.chunks_exact(4).map(|w| u32::from_le_bytes([w[0], w[1], w[2], w[3]])).collect()
}

pub fn bytes_of(words: &[u32]) -> Vec<u8> {
    words.iter().flat_map(|w| w.to_le_bytes()).collect()
}

/// What lent memory is filled with before a call.
const LENT: u8 = 0xA5;

/// The library's answer; or what it did to lent memory that it may not do.
pub fn library(file: &[u8], call: &Call, blocked: &[u8], output: usize, work: usize) -> Result<Answer, String> {
    let before = (file.to_vec(), call.clone(), blocked.to_vec());
    let (mut out, mut work) = (vec![LENT; output], vec![LENT; work]);
    let (o, w) = (&mut out[..], &mut work[..]);
    let code = match call {
        Call::Run { seats } => raw::run(file, blocked, seats, o),
        Call::ClosestPoints(q) => raw::closest_points(file, q.x, q.y, q.deck, blocked, o),
        Call::ClosestPoint(q) => raw::closest_point(file, q.x, q.y, q.deck, blocked, o),
        Call::ClosestPointTowards { query: q, towards: (x, y) } => raw::closest_point_towards(file, q.x, q.y, *x, *y, q.deck, o),
        Call::Height { x, y, polygon } => raw::height(file, *x, *y, *polygon, o),
        Call::PointLocation(q) => match raw::point_location(file, q.x, q.y, q.deck) {
            Ok(polygon) => return Ok(Answer::Wrote(bytes_of(&[polygon]))),
            Err(refusal) => return Ok(Answer::Refused(refusal.question())),
        },
        Call::PointLayer(q) => raw::point_layer(file, q.x, q.y, q.deck, o),
        Call::CandidatePolygons { query: q, polygon } => raw::candidate_polygons(file, q.x, q.y, q.deck, *polygon, blocked, o, w),
        Call::Islands { deck } => raw::islands(file, *deck, o, w),
        Call::StitchPoints => raw::stitch_points(file, o),
        Call::RemoveStitches => raw::remove_stitches(file, o),
        Call::RemoveStitchesToLayer { layer } => raw::remove_stitches_to_layer(file, *layer, o),
    };
    if file != before.0 || call.seats() != before.1.seats() || blocked != before.2 {
        return Err(format!("what is lent to be read is altered: {code:?}"));
    }
    let (end, left) = match code {
        Ok(count) => (count * call.entry_size(), if call.takes_work() { 0 } else { LENT }),
        Err(_) => (0, LENT),
    };
    if end > out.len() || out[end..].iter().any(|&b| b != LENT) {
        return Err(format!("output past the answer is altered: {code:?}"));
    }
    if work.iter().any(|&b| b != left) {
        return Err(format!("work is not as it has to be: {code:?}"));
    }
    out.truncate(end);
    Ok(code.map_or_else(|refusal| Answer::Refused(refusal.question()), |_| Answer::Wrote(out)))
}
