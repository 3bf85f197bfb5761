//! The instructions of the library's seat run, counted by callgrind: a seat of the benchmark's lists, and one nowhere near.
use std::env::current_exe;
use std::process::Command;

use feedercoil::{raw, seat_list};

use crate::fail;
use crate::shapes::{Shape, ALL_FAR, BLOCK, SHIPS};

/// How many seats of each list are counted, in whole blocks: callgrind takes some fifty times as long as the run itself.
const SEATS: [usize; 3] = [300, 30, 15];

/// A ship with its list, with seats nowhere near alone, or with no seats.
fn shape(ship: usize, list: &str) -> Shape {
    match list {
        "list" => Shape { seats: SEATS[ship], ..SHIPS[ship] },
        "far" => Shape { seats: SEATS[ship] / BLOCK, kinds: ALL_FAR, ..SHIPS[ship] },
        _ => Shape { seats: 0, ..SHIPS[ship] },
    }
}

/// What callgrind runs.
pub fn once(ship: usize, list: &str) {
    let shape = shape(ship, list);
    let mut out = vec![0; 36 * shape.seats];
    assert_eq!(raw::run(&shape.ship().file(), &[0; 32], &seat_list(&shape.seats()), &mut out), Ok(shape.seats));
    assert!(list != "far" || out.chunks(36).all(|record| record[..4] == [255; 4]));
}

/// The instructions from the entry of `seats_run` to its return, in a process of its own.
fn counted(ship: usize, list: &str) -> f64 {
    let program = current_exe().expect("this program's path");
    let mut valgrind = Command::new("valgrind");
    valgrind.args(["--tool=callgrind", "--callgrind-out-file=/dev/null", "--toggle-collect=seats_run"]);
    valgrind.arg(program).args(["once", &ship.to_string(), list]);
    let ran = valgrind.output().unwrap_or_else(|wrong| fail(&format!("valgrind is needed to count instructions: {wrong}")));
    let said = String::from_utf8_lossy(&ran.stderr);
    let count = said.lines().find_map(|line| line.split("Collected :").nth(1)?.trim().parse().ok());
    count.filter(|_| ran.status.success()).unwrap_or_else(|| fail(&format!("valgrind failed: {said}")))
}

/// The questions are asked once a run, however few its seats are. So they are counted by themselves, and are no part of a seat.
pub fn run() {
    println!("instructions:         a seat of the list,  for each polygon of the ship:");
    println!("decks  polygons   S     without questions  a seat nowhere near  the questions");
    for (ship, of) in SHIPS.iter().enumerate() {
        let questions = counted(ship, "none");
        let a_seat = |list| (counted(ship, list) - questions) / shape(ship, list).seats as f64;
        let polygons = f64::from(of.decks * of.polygons());
        println!(
            "{:>5} {:>9} {:>3} {:>20.0} {:>20.2} {:>14.2}",
            of.decks,
            of.polygons(),
            of.steps,
            a_seat("list"),
            a_seat("far") / polygons,
            questions / polygons
        );
    }
}
