//! Runs polyanya's own code and the proved library on the same ships and calls: compares every answer, and measures both.
mod answers;
mod ask;
mod bench;
mod calls;
mod cases;
mod check;
mod damage;
mod differences;
mod glam;
mod instructions;
mod large;
mod lists;
mod met;
mod no_decks;
mod outcomes;
mod points;
mod polyanya;
mod questions;
mod random;
mod rings;
mod rounds;
mod seen;
mod shapes;
mod ships;
mod sides;
mod stored;
mod ways;

#[cfg(not(feature = "mistakes"))]
mod by_rust;
#[cfg(feature = "mistakes")]
mod mistakes;
#[cfg(not(feature = "mistakes"))]
mod record;
#[cfg(feature = "mistakes")]
mod by_rust {
    #![allow(unused_parens, clippy::double_parens)]
    crate::polyanya::extracted!("by_rust.rs");
}
#[cfg(feature = "mistakes")]
mod record {
    #![allow(unused_parens, clippy::double_parens)]
    crate::polyanya::extracted!("record.rs");
}

use std::process::exit;

use calls::{library, Answer, Call};
use glam::vec2;
use met::{Met, CALL_LEFT_OUT, SEAT_LEFT_OUT};
use polyanya::layers::Layer;
use polyanya::mesh::MeshError;
use polyanya::primitives::{Polygon, Vertex};

/// How many calls a full run makes, if it is not asked for another number.
const FULL_CALLS: u64 = 1_000_000;

fn main() {
    let word = |k: usize| std::env::args().nth(k);
    let number = |k: usize| word(k).map(|word| word.parse().expect("a number"));
    match word(1).as_deref() {
        Some("check") => compare_all(rounds::GATE_CALLS, rounds::SEED),
        Some("full") => {
            compare_all(number(2).unwrap_or(FULL_CALLS), number(3).unwrap_or(rounds::SEED));
            rust_refuses_too_many();
        }
        Some("answers") => answers::write(),
        Some("bench") => bench::run(word(2).as_deref()),
        // What the benchmark asks of the program with an older library.
        Some("turn") => {
            let seconds = word(4).and_then(|word| word.parse().ok());
            bench::turn(number(2).expect("a shape") as usize, number(3).expect("seats") as usize, seconds.expect("seconds"));
        }
        Some("instructions") => instructions::run(),
        // What the instructions are counted of.
        Some("once") => instructions::once(number(2).expect("a ship") as usize, &word(3).expect("a list")),
        #[cfg(feature = "mistakes")]
        Some("mistakes") if mistakes::all_show() => println!("compare: each mistake shows"),
        #[cfg(feature = "mistakes")]
        Some("mistakes") => fail("a mistake does not show, or there are differences without one"),
        _ => {
            eprintln!("usage: compare check|full [CALLS [SEED]]|mistakes|answers|bench [OLD]|instructions");
            exit(2);
        }
    }
}

fn fail(what: &str) -> ! {
    eprintln!("compare: {what}");
    exit(1);
}

/// Compares at least as many random calls as are asked, after every sample of every step.
fn compare_all(calls: u64, seed: u64) {
    let wrong = [differences::not_as_written(include_str!("../../docs/DIFFERENCES.md")), differences::refusals_of_both()].concat();
    if !wrong.is_empty() {
        fail(&format!("docs/DIFFERENCES.md: {}", wrong.join("; ")));
    }
    if !differences::sums_from_negative_zero() {
        fail("this compiler's library sums floats from 0 and not from -0, as newer ones do: the heights cannot be compared");
    }
    let hit = rings::every_sample(&mut |difference| fail(difference));
    if hit != rings::SAMPLES {
        fail(&format!("{hit} samples of {} were a seat's place", rings::SAMPLES));
    }
    let towards = ways::every_step(&mut |difference| fail(difference));
    if towards != u64::from(ways::CALLS) {
        fail(&format!("{towards} calls of {} found a place towards a point", ways::CALLS));
    }
    let long = large::lists(&mut |difference| fail(difference));
    let (of_none, named) = no_decks::every_call(&mut |difference| fail(difference));
    let mut met = Met::new();
    rounds::random_calls(calls, seed, &mut met, &mut |number, file, difference| {
        fail(&format!("call {number}: {difference}\nthe ship {:?}", feedercoil::ShipPlan::read(file)));
    });
    too_many_polygons(&mut met);
    met.print();
    let never = met.never_met();
    if !never.is_empty() {
        fail(&format!("never met: {}", never.join(", ")));
    }
    let stored = stored::check(&mut |difference| fail(difference)).unwrap_or_else(|wrong| fail(&wrong));
    println!("compare: {stored} stored answers are the Rust's");
    println!("compare: {} known differences are as docs/DIFFERENCES.md has them", differences::DIFFERENCES.len());
    println!("compare: each of {hit} samples of 16 steps was a seat's place, in {} calls", rings::CALLS);
    println!("compare: each of 16 steps towards {} points found its place, in {towards} calls", ways::PAIRS);
    println!("compare: {long} calls with long lists agree");
    println!("compare: {of_none} calls with no decks agree with `Mesh::default()`; {named} of them name a deck, at which it panics");
    let (seats, calls) = (met.count(SEAT_LEFT_OUT), met.count(CALL_LEFT_OUT));
    println!("compare: left out, and held to document 02: {seats} seats and {calls} closest-point calls that name a blocked deck");
    println!("compare: {} random calls agree", met.calls);
}

/// Question 9 wants a file of 128 MiB. With a polygon less, 12 is the first that this file does not pass.
fn too_many_polygons(met: &mut Met) {
    for (count, number) in [(16_777_216, 9), (16_777_215, 12)] {
        let answer = library(&damage::many_polygons(count), &Call::StitchPoints, &[], 0, 0);
        if answer != Ok(Answer::Refused(number)) {
            fail(&format!("{count} polygons: {answer:?}"));
        }
        met.calls += 1;
        met.see(&format!("refused {number}"));
    }
}

/// The Rust refuses as many polygons as question 9 does. It takes half a gigabyte to ask it, so the gate does not.
fn rust_refuses_too_many() {
    let layer =
        |count: usize| Layer::new(vec![Vertex::new(vec2(0.0, 0.0), vec![])], vec![Polygon::EMPTY; count]).map(|layer| layer.polygons.len());
    if layer(16_777_216) != Err(MeshError::TooManyPolygons) || layer(16_777_215) != Ok(16_777_215) {
        fail("the Rust's limit of polygons is another");
    }
    println!("compare: the Rust refuses 16,777,216 polygons and takes one less");
}
