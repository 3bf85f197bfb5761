//! What is measured: the library that is linked here, polyanya's code, and an older library.
use std::collections::HashSet;
use std::hint::black_box;
use std::process::{Command, Stdio};
use std::time::Instant;

use feedercoil::{raw, seat_list, Seat};

use crate::by_rust::RustShip;
use crate::fail;
use crate::glam::vec2;
use crate::shapes::Shape;

pub trait Side {
    /// The seconds of the fastest run over the first seats of the list: of as many runs as there is time for, and of one at least.
    fn turn(&mut self, seats: usize, time: f64) -> f64;
}

fn fastest(time: f64, mut run: impl FnMut()) -> f64 {
    let (begin, mut best) = (Instant::now(), f64::MAX);
    loop {
        let start = Instant::now();
        run();
        best = best.min(start.elapsed().as_secs_f64());
        if begin.elapsed().as_secs_f64() + best > time {
            return best;
        }
    }
}

pub struct Library {
    file: Vec<u8>,
    pub list: Vec<u8>,
    pub out: Vec<u8>,
}

impl Library {
    pub fn new(shape: &Shape) -> Self {
        Library { file: shape.ship().file(), list: seat_list(&shape.seats()), out: vec![0; 36 * shape.seats] }
    }
}

impl Side for Library {
    fn turn(&mut self, seats: usize, time: f64) -> f64 {
        fastest(time, || assert_eq!(raw::run(&self.file, &[0; 32], &self.list[..20 * seats], &mut self.out), Ok(seats)))
    }
}

/// Unbaked. It gives its candidates alone, where the library gives records.
pub struct Polyanya {
    pub ship: RustShip,
    seats: Vec<Seat>,
}

impl Polyanya {
    pub fn new(shape: &Shape) -> Self {
        Polyanya { ship: RustShip::new(shape.ship()), seats: shape.seats() }
    }
}

impl Side for Polyanya {
    fn turn(&mut self, seats: usize, time: f64) -> f64 {
        let nothing = HashSet::new();
        fastest(time, || {
            for seat in &self.seats[..seats] {
                black_box(self.ship.mesh.get_closest_points_on_layers(vec2(seat.x, seat.y), nothing.clone()));
            }
        })
    }
}

/// Two libraries with the same symbols cannot be in one program: this is another one of this source, and the shape's number.
pub struct Older<'a> {
    pub program: &'a str,
    pub shape: usize,
}

impl Side for Older<'_> {
    fn turn(&mut self, seats: usize, time: f64) -> f64 {
        let asked = [self.shape.to_string(), seats.to_string(), time.to_string()];
        let ran = Command::new(self.program).arg("turn").args(asked).stderr(Stdio::inherit()).output();
        let seconds = ran.ok().and_then(|ran| String::from_utf8_lossy(&ran.stdout).trim().parse().ok());
        seconds.unwrap_or_else(|| fail(&format!("no time from {}, the program with the older library", self.program)))
    }
}
