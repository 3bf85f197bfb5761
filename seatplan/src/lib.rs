//! Deck plans and seat lists as text, asked of the proved library, and its records as a table and a picture.
//!
//! A [`Plan`] is a ship with names and with the places of its rows in their files, a [`SeatList`] the seats likewise. [`place_seats`]
//! asks the library; a refusal comes back as an [`Error`] at the row that it is about. [`table`] and [`svg`] say and draw the records;
//! [`notes`] says what of the plan may not be meant.
//!
//! ```
//! use seatplan::{place_seats, table, Plan, SeatList};
//!
//! let plan = Plan::of_text("plan.csv", "
//! reach,0.5
//! steps,2
//! deck,Main
//! vertex,0,0,1
//! vertex,4,0,1
//! vertex,4,4,3
//! vertex,0,4,3
//! polygon,0,1,2,3
//! ")?;
//! let seats = SeatList::of_text("seats.csv", "A1,1,1\nA2,5,5\nA3,-0.5,2\n", &plan)?;
//! let placed = place_seats(&plan, &seats, &Default::default())?;
//! assert_eq!((placed.loads[0], placed.unplaced), (2, 1));
//! print!("{}", table(&plan, &seats, &placed));
//! # Ok::<(), seatplan::Error>(())
//! ```

mod around;
mod error;
mod mesh;
mod notes;
mod output;
mod panels;
mod placing;
mod plan;
mod rows;
mod seats;
mod svg;
mod table;

pub use error::{Error, Place};
pub use notes::notes;
pub use output::write_whole;
pub use placing::{place_seats, Placing};
pub use plan::{Deck, Plan};
pub use seats::{NamedSeat, SeatList};
pub use svg::svg;
pub use table::table;
