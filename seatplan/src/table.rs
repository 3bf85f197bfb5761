//! The records as text, in metres: the placed seats, the unplaced, and how many stand on each deck.
use std::fmt::Display;

use feedercoil::SeatRecord;

use crate::{Placing, Plan, SeatList};

/// A column: its title, and whether its cells are set to the right.
type Column = (&'static str, bool);

const PLACED: [Column; 10] = [
    ("seat", false),
    ("deck", false),
    ("polygon", true),
    ("x", true),
    ("y", true),
    ("height", true),
    ("step", true),
    ("distance", true),
    ("candidates", true),
    ("tried", true),
];
const UNPLACED: [Column; 5] = [("seat", false), ("x", true), ("y", true), ("deck asked", false), ("samples tried", true)];
const TOTALS: [Column; 2] = [("deck", false), ("seats", true)];

pub fn table(plan: &Plan, list: &SeatList, placing: &Placing) -> String {
    let (mut placed, mut unplaced) = (Vec::new(), Vec::new());
    for (seat, record) in list.seats.iter().zip(&placing.records) {
        let asked = (seat.seat.x, seat.seat.y);
        match *record {
            SeatRecord::Placed { deck, polygon, x, y, height, step, candidates, tried, .. } => placed.push(vec![
                seat.name.clone(),
                plan.decks[deck as usize].name.clone(),
                polygon.to_string(),
                metres(x.into()),
                metres(y.into()),
                height.map_or("-".to_string(), |height| metres(height.into())),
                step.to_string(),
                metres(distance(asked, (x, y))),
                candidates.to_string(),
                tried.to_string(),
            ]),
            SeatRecord::Unplaced { tried } => unplaced.push(vec![
                seat.name.clone(),
                metres(asked.0.into()),
                metres(asked.1.into()),
                seat.seat.deck.map_or("any", |deck| &plan.decks[deck as usize].name).to_string(),
                tried.to_string(),
            ]),
        }
    }
    let mut totals: Vec<Vec<String>> =
        plan.decks.iter().zip(&placing.loads).map(|(deck, count)| vec![deck.name.clone(), count.to_string()]).collect();
    totals.push(vec!["(placed)".to_string(), placing.loads.iter().sum::<u64>().to_string()]);
    totals.push(vec!["(unplaced)".to_string(), placing.unplaced.to_string()]);
    let mut text = format!("Lengths in metres. Reach {}, {}.\n", plan.reach, counted(plan.steps, "step"));
    for (title, columns, rows) in [
        ("Placed", &PLACED[..], &placed),
        ("Unplaced: no deck within reach", &UNPLACED[..], &unplaced),
        ("Seats by deck", &TOTALS[..], &totals),
    ] {
        if !rows.is_empty() {
            text += &format!("\n{title}\n\n{}", lines(columns, rows));
        }
    }
    text
}

/// So many of a thing.
pub fn counted<N: Display + From<u8> + PartialEq>(number: N, thing: &str) -> String {
    let end = if number == N::from(1) { "" } else { "s" };
    format!("{number} {thing}{end}")
}

/// A length to the millimetre.
fn metres(length: f64) -> String {
    let text = format!("{length:.3}");
    match text.strip_prefix('-') {
        Some(size) if size.chars().all(|c| matches!(c, '0' | '.')) => size.to_string(),
        _ => text,
    }
}

fn distance(a: (f32, f32), b: (f32, f32)) -> f64 {
    (f64::from(b.0) - f64::from(a.0)).hypot(f64::from(b.1) - f64::from(a.1))
}

fn lines(columns: &[Column], rows: &[Vec<String>]) -> String {
    let titles: Vec<String> = columns.iter().map(|column| column.0.to_string()).collect();
    let all = || std::iter::once(&titles).chain(rows);
    let widths: Vec<usize> = (0..columns.len()).map(|i| all().map(|row| row[i].chars().count()).max().unwrap_or(0)).collect();
    let mut text = String::new();
    for row in all() {
        let mut line = String::new();
        for ((cell, &width), &(_, right)) in row.iter().zip(&widths).zip(columns) {
            let blanks = " ".repeat(width - cell.chars().count());
            line += &if right { format!("{blanks}{cell}  ") } else { format!("{cell}{blanks}  ") };
        }
        text += line.trim_end();
        text.push('\n');
    }
    text
}

#[cfg(test)]
mod tests {
    use super::*;

    #[test]
    fn to_the_millimetre() {
        assert_eq!(
            ["-0.0004", "-0.0006", "0", "-12.34567", "1000000"].map(|t| metres(t.parse().unwrap())),
            ["0.000", "-0.001", "0.000", "-12.346", "1000000.000"]
        );
        assert_eq!(distance((1.0, 2.0), (4.0, -2.0)), 5.0);
    }

    #[test]
    fn columns() {
        let rows = [vec!["ä1".to_string(), "1".to_string()], vec!["b".to_string(), "100000".to_string()]];
        assert_eq!(lines(&TOTALS, &rows), "deck   seats\nä1         1\nb     100000\n");
    }
}
