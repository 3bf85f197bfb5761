//! Both sides measured in one run, and an older library beside them.
use std::time::Instant;

use crate::calls::Call;
use crate::shapes::{Shape, Table, BLOCK, TABLES};
use crate::sides::{Library, Older, Polyanya, Side};

/// A run and a turn, in seconds: a turn repeats a run.
const RUN: f64 = 0.1;
const TURN: f64 = 0.4;

/// The best of so many turns counts, or of as many as are done in so many seconds.
const TURNS: u32 = 4;
const ENOUGH: f64 = 10.0;

/// How many seats a side was measured on, and the seconds a seat.
struct Measured {
    seats: usize,
    a_seat: f64,
}

/// A list's first seats, as many as a run has time for, since a slow side would take minutes for all. Whole blocks, so that every side
/// has the same share of the seats that take long.
fn fitting(side: &mut dyn Side, most: usize) -> Measured {
    let blocks = (RUN / side.turn(BLOCK, RUN)) as usize;
    Measured { seats: (blocks.max(1) * BLOCK).min(most), a_seat: f64::MAX }
}

fn in_turn(sides: &mut [&mut dyn Side], most: usize) -> Vec<Measured> {
    let begin = Instant::now();
    let mut measured: Vec<_> = sides.iter_mut().map(|side| fitting(*side, most)).collect();
    for _ in 0..TURNS {
        for (side, of) in sides.iter_mut().zip(&mut measured) {
            of.a_seat = of.a_seat.min(side.turn(of.seats, TURN) / of.seats as f64);
        }
        if begin.elapsed().as_secs_f64() > ENOUGH {
            break;
        }
    }
    measured
}

/// The records are the Rust's, of as many seats as can be checked in a moment.
fn check_records(here: &Library, rust: &mut Polyanya) {
    let few = 6;
    assert_eq!(here.out[..36 * few], rust.ship.answer(&Call::Run { seats: here.list[..20 * few].to_vec() }, &[0; 32]));
}

impl Table {
    fn print_heading(&self, older: bool) {
        let unit = if self.micros { "us a seat" } else { "seats a s" };
        println!("\n{}; {}", self.title, if self.micros { "microseconds a seat" } else { "seats a second" });
        print!("decks  polygons   S  reach            seats    of  placed  here, {unit}    of  Rust, {unit}   ratio");
        println!("{}", if older { format!("    of  before, {unit}  after/before") } else { String::new() });
    }

    fn shown(&self, a_seat: f64) -> String {
        let value = if self.micros { 1e6 * a_seat } else { 1.0 / a_seat };
        if value < 100.0 {
            format!("{value:.1}")
        } else {
            format!("{value:.0}")
        }
    }

    /// Measures the sides in turn, and prints a line.
    fn measure(&self, number: usize, shape: &Shape, program: Option<&str>) {
        let (mut here, mut rust) = (Library::new(shape), Polyanya::new(shape));
        let mut older = program.map(|program| Older { program, shape: number });
        let mut sides: Vec<&mut dyn Side> = vec![&mut here, &mut rust];
        sides.extend(older.as_mut().map(|older| older as &mut dyn Side));
        let measured = in_turn(&mut sides, shape.seats);
        check_records(&here, &mut rust);
        self.print_line(shape, &here, &measured);
    }

    fn print_line(&self, shape: &Shape, library: &Library, measured: &[Measured]) {
        let (here, rust) = (&measured[0], &measured[1]);
        let placed = library.out.chunks(36).take(here.seats).filter(|record| record[..4] != [255; 4]).count();
        print!("{:>5} {:>9} {:>3} {:>6} {:>16}", shape.decks, shape.polygons(), shape.steps, shape.reach, shape.kind_name());
        print!(" {:>5} {placed:>7} {:>15}", here.seats, self.shown(here.a_seat));
        print!(" {:>5} {:>15} {:>7.2}", rust.seats, self.shown(rust.a_seat), rust.a_seat / here.a_seat);
        if let Some(before) = measured.get(2) {
            print!(" {:>5} {:>17} {:>13.2}", before.seats, self.shown(before.a_seat), before.a_seat / here.a_seat);
        }
        println!();
    }
}

/// Polygons are of each deck. The program is this one with an older library.
pub fn run(program: Option<&str>) {
    println!(
        "'of': the first seats of the list, as many as that side can do in {RUN} s, in blocks of {BLOCK} with each kind equally often"
    );
    let mut number = 0;
    for table in &TABLES {
        table.print_heading(program.is_some());
        for shape in table.shapes {
            table.measure(number, shape, program);
            number += 1;
        }
    }
}

/// What the program with the older library is asked for: a turn, of a shape by its number.
pub fn turn(number: usize, seats: usize, time: f64) {
    let shape = TABLES.iter().flat_map(|table| table.shapes).nth(number).expect("a shape's number");
    println!("{}", Library::new(shape).turn(seats, time));
}
