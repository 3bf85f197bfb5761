//! Safe functions over the proved library of seats on decks, a port of the point location of polyanya.
//!
//! A [`ShipPlan`] writes a ship file; a [`Ship`] has a ship file's bytes and the library's calls on them. A call either answers or
//! says, as a [`Refusal`], which question its input does not pass. [`raw`] has the same calls on lent byte slices.
//!
//! A square deck with heights, and three seats. The first stands on it; the second is too far off; the third is found by sample 5 of
//! step 1, half a unit to its right:
//!
//! ```
//! use feedercoil::{BlockedDecks, DeckPlan, Refusal, Seat, SeatRecord, Ship, ShipPlan, VertexPlan};
//!
//! // At each vertex meet polygon 0 and the outside.
//! let vertex = |x, y| VertexPlan { x, y, neighbours: vec![0, u32::MAX] };
//! let deck = DeckPlan {
//!     offset: (0.0, 0.0),
//!     vertices: vec![vertex(0.0, 0.0), vertex(4.0, 0.0), vertex(4.0, 4.0), vertex(0.0, 4.0)],
//!     polygons: vec![vec![0, 1, 2, 3]],
//!     heights: vec![1.0, 1.0, 3.0, 3.0],
//! };
//! let plan = ShipPlan { reach: 0.5, steps: 2, decks: vec![deck] };
//!
//! let ship = Ship::new(plan.file());
//! let seats = [Seat::at(1.0, 1.0), Seat::at(5.0, 5.0), Seat::at(-0.5, 2.0)];
//! let records = ship.run(&BlockedDecks::new(), &seats)?;
//!
//! let placed = |x, y, step, sample, tried| SeatRecord::Placed {
//!     deck: 0, polygon: 0, x, y, height: Some(2.0), step, sample, tried, candidates: 1,
//! };
//! assert_eq!(records, [placed(1.0, 1.0, 0, 0, 1), SeatRecord::Unplaced { tried: 12 }, placed(0.0, 2.0, 1, 5, 7)]);
//!
//! // The third seat drawn towards a stair in the middle of the deck: in step 1 it comes to the edge.
//! let drawn = ship.get_closest_point_towards(-0.5, 2.0, (2.0, 2.0), None)?;
//! assert_eq!(drawn.map(|place| (place.x, place.y)), Some((0.0, 2.0)));
//!
//! let absent = Seat { deck: Some(1), ..Seat::at(1.0, 1.0) };
//! assert_eq!(ship.run(&BlockedDecks::new(), &[absent]), Err(Refusal(17)));
//! # Ok::<(), Refusal>(())
//! ```

mod blocked;
mod bytes;
mod ffi;
mod loads;
mod plan;
mod polygon;
pub mod raw;
mod record;
mod refusal;
mod seat;
mod ship;

pub use blocked::BlockedDecks;
pub use loads::{DeckLoads, LoadSheet};
pub use plan::{DeckPlan, ShipPlan, VertexPlan};
pub use polygon::PackedPolygon;
pub use record::{Candidate, SeatRecord, StitchPoint};
pub use refusal::Refusal;
pub use seat::{seat_list, Seat};
pub use ship::Ship;
