//! The library's calls on byte slices, with output, table and work lent by the caller.
//!
//! Each is one function of `include/seats.h` under its name there, without `seats_`. It says how many entries it wrote at the front
//! of `out`, or the question that the input does not pass. Output and table past the answer are left as they were; a refusal alters
//! nothing lent; after an answer `work` is all zeros. `deck` is [`ANY_DECK`] where none is named, and `polygon` is [`NO_POLYGON`].
use crate::ffi;
use crate::Refusal;

/// Bytes of a record of [`run`].
pub const RECORD_SIZE: usize = 36;
/// Bytes of a seat.
pub const SEAT_SIZE: usize = 20;
/// Bytes of the blocked set.
pub const BLOCKED_SIZE: usize = 32;
/// Bytes of a candidate of [`closest_points`].
pub const CANDIDATE_SIZE: usize = 12;
/// Bytes of a height.
pub const HEIGHT_SIZE: usize = 4;
/// Bytes of a packed polygon.
pub const POLYGON_SIZE: usize = 4;
/// Bytes of a label of [`islands`].
pub const LABEL_SIZE: usize = 4;
/// Bytes of a stitch point.
pub const STITCH_SIZE: usize = 16;
/// Bytes of a count of [`run_loads`].
pub const COUNT_SIZE: usize = 8;
/// Bytes of work a polygon.
pub const WORK_SIZE: usize = 4;
/// Bytes of work a polygon of [`run_loads`].
pub const LOADS_WORK_SIZE: usize = 8;
/// No deck is named: all ones.
pub const ANY_DECK: u32 = u32::MAX;
/// No polygon: all ones.
pub const NO_POLYGON: u32 = u32::MAX;

fn answer(code: i64) -> Result<usize, Refusal> {
    if code < 0 {
        Err(Refusal(code.unsigned_abs() as u32))
    } else {
        Ok(code as usize)
    }
}

// In every call below each pointer and length come from one slice, which Rust keeps valid and, where it is written to, apart from
// the others. The library has no other condition. An empty slice's pointer is not null.

/// The seat run: a record a seat, [`RECORD_SIZE`] bytes each.
pub fn run(file: &[u8], blocked: &[u8], seats: &[u8], out: &mut [u8]) -> Result<usize, Refusal> {
    answer(unsafe {
        ffi::seats_run(file.as_ptr(), file.len(), blocked.as_ptr(), blocked.len(), seats.as_ptr(), seats.len(), out.as_mut_ptr(), out.len())
    })
}

/// The seat run, with a load sheet beside the records. For a ship of N polygons on L decks the table takes 2·N + L + 1 counts,
/// [`COUNT_SIZE`] bytes each: one a polygon, decks rising; again one a polygon, where a label's place has its island's seats and every
/// other place 0; one a deck; the unplaced. [`LoadSheet::read`](crate::LoadSheet::read) reads them. Work: [`LOADS_WORK_SIZE`] bytes a
/// polygon of all decks.
pub fn run_loads(file: &[u8], blocked: &[u8], seats: &[u8], out: &mut [u8], table: &mut [u8], work: &mut [u8]) -> Result<usize, Refusal> {
    answer(unsafe {
        ffi::seats_run_loads(
            file.as_ptr(),
            file.len(),
            blocked.as_ptr(),
            blocked.len(),
            seats.as_ptr(),
            seats.len(),
            out.as_mut_ptr(),
            out.len(),
            table.as_mut_ptr(),
            table.len(),
            work.as_mut_ptr(),
            work.len(),
        )
    })
}

/// The candidates around a point, [`CANDIDATE_SIZE`] bytes each.
pub fn closest_points(file: &[u8], x: f32, y: f32, deck: u32, blocked: &[u8], out: &mut [u8]) -> Result<usize, Refusal> {
    answer(unsafe {
        ffi::seats_closest_points(file.as_ptr(), file.len(), x, y, deck, blocked.as_ptr(), blocked.len(), out.as_mut_ptr(), out.len())
    })
}

/// The first candidate, or no entry.
pub fn closest_point(file: &[u8], x: f32, y: f32, deck: u32, blocked: &[u8], out: &mut [u8]) -> Result<usize, Refusal> {
    answer(unsafe {
        ffi::seats_closest_point(file.as_ptr(), file.len(), x, y, deck, blocked.as_ptr(), blocked.len(), out.as_mut_ptr(), out.len())
    })
}

/// The first place on a deck from a point towards another, [`CANDIDATE_SIZE`] bytes, or no entry.
pub fn closest_point_towards(
    file: &[u8],
    x: f32,
    y: f32,
    towards_x: f32,
    towards_y: f32,
    deck: u32,
    out: &mut [u8],
) -> Result<usize, Refusal> {
    answer(unsafe {
        ffi::seats_closest_point_towards(file.as_ptr(), file.len(), x, y, towards_x, towards_y, deck, out.as_mut_ptr(), out.len())
    })
}

/// The height of a polygon at a place, [`HEIGHT_SIZE`] bytes, or no entry.
pub fn height(file: &[u8], x: f32, y: f32, polygon: u32, out: &mut [u8]) -> Result<usize, Refusal> {
    answer(unsafe { ffi::seats_height(file.as_ptr(), file.len(), x, y, polygon, out.as_mut_ptr(), out.len()) })
}

/// The packed polygon that a point is in, or [`NO_POLYGON`].
pub fn point_location(file: &[u8], x: f32, y: f32, deck: u32) -> Result<u32, Refusal> {
    answer(unsafe { ffi::seats_point_location(file.as_ptr(), file.len(), x, y, deck) }).map(|polygon| polygon as u32)
}

/// The packed polygon that a point is in on each deck, [`POLYGON_SIZE`] bytes each.
pub fn point_layer(file: &[u8], x: f32, y: f32, deck: u32, out: &mut [u8]) -> Result<usize, Refusal> {
    answer(unsafe { ffi::seats_point_layer(file.as_ptr(), file.len(), x, y, deck, out.as_mut_ptr(), out.len()) })
}

/// The packed polygons that a point may be on, merged, [`POLYGON_SIZE`] bytes each. Work: [`WORK_SIZE`] bytes a polygon of all decks.
#[allow(clippy::too_many_arguments)]
pub fn candidate_polygons(
    file: &[u8],
    x: f32,
    y: f32,
    deck: u32,
    polygon: u32,
    blocked: &[u8],
    out: &mut [u8],
    work: &mut [u8],
) -> Result<usize, Refusal> {
    answer(unsafe {
        ffi::seats_candidate_polygons(
            file.as_ptr(),
            file.len(),
            x,
            y,
            deck,
            polygon,
            blocked.as_ptr(),
            blocked.len(),
            out.as_mut_ptr(),
            out.len(),
            work.as_mut_ptr(),
            work.len(),
        )
    })
}

/// The label of each polygon of a deck, [`LABEL_SIZE`] bytes each. Work: [`WORK_SIZE`] bytes a polygon of the deck.
pub fn islands(file: &[u8], deck: u32, out: &mut [u8], work: &mut [u8]) -> Result<usize, Refusal> {
    answer(unsafe { ffi::seats_islands(file.as_ptr(), file.len(), deck, out.as_mut_ptr(), out.len(), work.as_mut_ptr(), work.len()) })
}

/// The points where two decks have a vertex each, [`STITCH_SIZE`] bytes each.
pub fn stitch_points(file: &[u8], out: &mut [u8]) -> Result<usize, Refusal> {
    answer(unsafe { ffi::seats_stitch_points(file.as_ptr(), file.len(), out.as_mut_ptr(), out.len()) })
}

/// The file without its stitches. The answer is how many bytes it has.
pub fn remove_stitches(file: &[u8], out: &mut [u8]) -> Result<usize, Refusal> {
    answer(unsafe { ffi::seats_remove_stitches(file.as_ptr(), file.len(), out.as_mut_ptr(), out.len()) })
}

/// The file without the stitches to one deck. The answer is how many bytes it has.
pub fn remove_stitches_to_layer(file: &[u8], layer: u8, out: &mut [u8]) -> Result<usize, Refusal> {
    answer(unsafe { ffi::seats_remove_stitches_to_layer(file.as_ptr(), file.len(), layer, out.as_mut_ptr(), out.len()) })
}
