//! A seat list as CSV: name, x, y, deck or blank, wished height or blank.
use std::collections::HashMap;
use std::path::Path;

use feedercoil::Seat;

use crate::plan::read_text;
use crate::rows::{cell_rows, Row};
use crate::{Error, Place, Plan};

/// The cells of a first row that is no seat.
const HEADER: [&str; 5] = ["name", "x", "y", "deck", "height"];

#[derive(Debug, Clone)]
pub struct NamedSeat {
    pub name: String,
    pub seat: Seat,
    pub place: Place,
}

#[derive(Debug, Clone, Default)]
pub struct SeatList {
    pub seats: Vec<NamedSeat>,
}

impl SeatList {
    pub fn read(path: &Path, plan: &Plan) -> Result<SeatList, Error> {
        SeatList::of_text(&path.display().to_string(), &read_text(path)?, plan)
    }

    /// The seats of a text. No line of it is a comment: a seat may be called '#1', and none is to be left out unseen.
    pub fn of_text(file: &str, text: &str, plan: &Plan) -> Result<SeatList, Error> {
        let rows = cell_rows(file, text, false)?;
        let seats = rows.iter().skip(usize::from(rows.first().map_or(false, is_header)));
        let seats: Vec<NamedSeat> = seats.map(|row| named_seat(row, plan)).collect::<Result<_, _>>()?;
        let mut lines: HashMap<&str, usize> = HashMap::new();
        for seat in &seats {
            if let Some(line) = lines.insert(&seat.name, seat.place.line) {
                return Err(Error::text(&seat.place, format!("a seat '{}' stands on line {line} already", seat.name)));
            }
        }
        Ok(SeatList { seats })
    }

    /// The seats without their names.
    pub fn plain(&self) -> Vec<Seat> {
        self.seats.iter().map(|seat| seat.seat).collect()
    }
}

fn is_header(row: &Row) -> bool {
    row.cells.len() <= HEADER.len()
        && row.cells.len() >= 3
        && row.cells.iter().zip(HEADER).all(|(cell, word)| cell.text.eq_ignore_ascii_case(word))
}

fn named_seat(row: &Row, plan: &Plan) -> Result<NamedSeat, Error> {
    let name = row.needed(0, "seat's name")?;
    let x = row.needed(1, "x")?.float()?;
    let y = row.needed(2, "y")?.float()?;
    let absent = |name: &str| format!("the plan has no deck '{name}': {}", plan.deck_names());
    let deck = match row.cell(3) {
        Some(cell) => Some(plan.deck_number(&cell.text).ok_or_else(|| Error::text(&cell.place, absent(&cell.text)))? as u32),
        None => None,
    };
    let wish = row.cell(4).map(|cell| cell.float()).transpose()?;
    row.at_most(5)?;
    Ok(NamedSeat { name: name.text.clone(), seat: Seat { x, y, deck, wish }, place: row.place.clone() })
}
