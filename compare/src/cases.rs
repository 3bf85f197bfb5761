//! Cases and their answers as the programs of stored cases have them: R, P, Q, H of the run's, the other letters of the other calls'.
use crate::calls::{bytes_of, words, Answer, Asked, Call, Query, Room};
use crate::check::Expected;

/// A file, and what is asked of it, with lengths and not with what an answer takes.
pub struct Case {
    pub file: Vec<u8>,
    pub asked: Asked,
}

/// Whether a call is the run's, a closest point's or the height's.
pub fn is_of_run(call: &Call) -> bool {
    matches!(call, Call::Run { .. } | Call::ClosestPoints(_) | Call::ClosestPoint(_) | Call::Height { .. })
}

fn letter(call: &Call) -> u32 {
    u32::from(b"RPQDHPLCISRT"[call.number()])
}

/// The bytes of a case, which has its lengths from what is expected of it.
pub fn case_bytes(file: &[u8], asked: &Asked, expected: &Expected) -> Vec<u8> {
    let blocked: &[u8] = match &asked.call {
        call if call.takes_blocked() => &asked.blocked,
        // In the blocked set's place stands the point to go towards.
        Call::ClosestPointTowards { towards: (x, y), .. } => &bytes_of(&[x.to_bits(), y.to_bits()]),
        _ => &[],
    };
    let (f, b, output) = (file.len() as u32, blocked.len() as u32, expected.output as u32);
    let head = |words: &[u32]| bytes_of(&[&[letter(&asked.call)], words].concat());
    let other = |query: Option<Query>, deck: u32, number: u32| {
        let (x, y) = query.map_or((0, 0), |q| (q.x.to_bits(), q.y.to_bits()));
        [head(&[f, b, x, y, deck, number, output, expected.work as u32]), file.to_vec(), blocked.to_vec()].concat()
    };
    match &asked.call {
        Call::Run { seats } => [&head(&[f, b, seats.len() as u32, output]), file, blocked, seats].concat(),
        Call::ClosestPoints(q) | Call::ClosestPoint(q) => {
            [&head(&[f, b, q.x.to_bits(), q.y.to_bits(), q.deck, output]), file, blocked].concat()
        }
        Call::Height { x, y, polygon } => [&head(&[f, x.to_bits(), y.to_bits(), *polygon, output]), file].concat(),
        Call::ClosestPointTowards { query, .. } => other(Some(*query), query.deck, 0),
        Call::CandidatePolygons { query, polygon } => other(Some(*query), query.deck, *polygon),
        Call::PointLocation(q) | Call::PointLayer(q) => other(Some(*q), q.deck, 0),
        Call::Islands { deck } => other(None, *deck, 0),
        Call::StitchPoints | Call::RemoveStitches => other(None, 0, 0),
        Call::RemoveStitchesToLayer { layer } => other(None, 0, u32::from(*layer)),
    }
}

/// The case at the start of the bytes, and the bytes after it.
pub fn read_case(bytes: &[u8], of_run: bool) -> Option<(Case, &[u8])> {
    let letter = *bytes.first()?;
    let size = match (of_run, letter) {
        (true, b'R') => 20,
        (true, b'H') => 24,
        (true, _) => 28,
        (false, _) => 36,
    };
    let w = words(bytes.get(..size)?);
    let point = |k: usize, deck: u32| Query { x: f32::from_bits(w[k]), y: f32::from_bits(w[k + 1]), deck };
    let mut rest = &bytes[size..];
    let mut take = |length: u32| -> Option<Vec<u8>> {
        let (taken, left) = rest.split_at_checked(length as usize)?;
        rest = left;
        Some(taken.to_vec())
    };
    let file = take(w[1])?;
    let blocked = if size == 24 { vec![] } else { take(w[2])? };
    let (output, work) = if of_run { (w[size / 4 - 1], 0) } else { (w[7], w[8]) };
    let call = match (of_run, letter) {
        (true, b'R') => Call::Run { seats: take(w[3])? },
        (true, b'P') => Call::ClosestPoints(point(3, w[5])),
        (true, b'Q') => Call::ClosestPoint(point(3, w[5])),
        (true, b'H') => Call::Height { x: f32::from_bits(w[2]), y: f32::from_bits(w[3]), polygon: w[4] },
        (false, b'D') => match words(&blocked)[..] {
            [x, y] => Call::ClosestPointTowards { query: point(3, w[5]), towards: (f32::from_bits(x), f32::from_bits(y)) },
            _ => return None,
        },
        (false, b'P') => Call::PointLocation(point(3, w[5])),
        (false, b'L') => Call::PointLayer(point(3, w[5])),
        (false, b'C') => Call::CandidatePolygons { query: point(3, w[5]), polygon: w[6] },
        (false, b'I') => Call::Islands { deck: w[5] },
        (false, b'S') => Call::StitchPoints,
        (false, b'R') => Call::RemoveStitches,
        (false, b'T') => Call::RemoveStitchesToLayer { layer: w[6].try_into().ok()? },
        _ => return None,
    };
    let asked = Asked { call, blocked, output: Room::Bytes(output as usize), work: Room::Bytes(work as usize) };
    Some((Case { file, asked }, rest))
}

/// The lines of an answer: its first line says that lent memory is as document 01 asks.
pub fn answer_lines(call: &Call, answer: &Answer) -> String {
    let bytes = match answer {
        Answer::Refused(number) if matches!(call, Call::PointLocation(_)) => return format!("refused {number}\n"),
        Answer::Refused(number) if call.takes_work() => return format!("refused {number} kept untouched\n"),
        Answer::Refused(number) => return format!("refused {number} kept\n"),
        Answer::Wrote(bytes) => bytes,
    };
    let line = |entry: &[u8]| words(entry).iter().map(|word| format!(" {word:08x}")).collect::<String>() + "\n";
    if matches!(call, Call::PointLocation(_)) {
        return format!("found{}", line(bytes));
    }
    let zeros = if call.takes_work() { " zeros" } else { "" };
    let size = call.entry_size();
    // A new file is counted in bytes, and printed a word a line.
    let lines = bytes.chunks(size.max(4)).map(line).collect::<String>();
    format!("wrote {} kept{zeros}\n{lines}", bytes.len() / size)
}
