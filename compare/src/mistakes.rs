//! The gate's calls with each deliberate mistake in the Rust, or in what is made of its answers: each has to show.
use crate::met::Met;
use crate::polyanya::{switch_on, MISTAKES};
use crate::rings::{self, every_sample};
use crate::rounds::{random_calls, GATE_CALLS, SEED};
use crate::stored;
use crate::ways;

/// How many answers differ.
struct Differences {
    /// Of random calls, with how many these are, and the number of the first.
    random: u64,
    calls: u64,
    first: Option<u64>,
    /// Of the calls for every sample of every step, and for every step towards a point.
    samples: u64,
    /// Of the stored answers, with how many these are.
    stored: u64,
    answers: usize,
}

fn differences() -> Differences {
    let mut met = Met::new();
    let (mut random, mut samples, mut stored, mut first) = (0, 0, 0, None);
    every_sample(&mut |_| samples += 1);
    ways::every_step(&mut |_| samples += 1);
    random_calls(GATE_CALLS, SEED, &mut met, &mut |number, _, _| {
        first = first.or(Some(number));
        random += 1;
    });
    let answers = stored::check(&mut |_| stored += 1).expect("stored answers");
    Differences { random, calls: met.calls, first, samples, stored, answers }
}

impl Differences {
    fn print(&self, name: &str) {
        let first = self.first.map_or("-".to_string(), |number| number.to_string());
        println!("| {name} | {} | {first} | {} | {} |", self.random, self.samples, self.stored);
    }

    fn any(&self) -> bool {
        self.random + self.samples > 0
    }
}

/// Whether each mistake shows, and nothing without one.
pub fn all_show() -> bool {
    // A mistake may make the Rust panic, which is a difference too.
    std::panic::set_hook(Box::new(|_| {}));
    switch_on(MISTAKES.len());
    let none = differences();
    println!(
        "| mistake | of {} random calls | first in call | of {} calls at samples | of {} stored answers |",
        none.calls,
        rings::CALLS + ways::CALLS,
        none.answers
    );
    println!("|---|---|---|---|---|");
    none.print("none");
    let mut show = !none.any() && none.stored == 0;
    for (number, name) in MISTAKES.iter().enumerate() {
        switch_on(number);
        let some = differences();
        some.print(name);
        show &= some.any();
    }
    show
}
