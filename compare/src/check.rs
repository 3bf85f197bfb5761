//! One call held against the Rust and document 01.
use std::panic::{catch_unwind, AssertUnwindSafe};

use feedercoil::ShipPlan;

use crate::by_rust::{blocked_layers, names_blocked, RustShip};
use crate::calls::{library, words, Answer, Asked, Call, NAMES};
use crate::met::{no_deck_to_name, with_no_decks, Met, CALL_LEFT_OUT, EQUAL_POINTS, GOES_ON, POINTS_OF_DISTANCE_0};
use crate::outcomes;
use crate::questions::{first_no, work_asked};

/// A file, and the Rust's ship of it where it passes questions 1 to 13.
pub struct Ship {
    pub file: Vec<u8>,
    pub rust: Option<RustShip>,
}

impl Ship {
    pub fn new(plan: ShipPlan) -> Self {
        Ship { file: plan.file(), rust: Some(RustShip::new(plan)) }
    }

    /// Of a file that may be anything; `passes` is whether it passes questions 1 to 13.
    pub fn of_file(file: Vec<u8>, passes: bool) -> Self {
        let plan = |file: &[u8]| ShipPlan::read(file).expect("a file that passes has a plan");
        let rust = passes.then(|| RustShip::new(plan(&file)));
        Ship { file, rust }
    }

    /// Whether it passes and has no decks.
    fn has_no_decks(&self) -> bool {
        self.rust.as_ref().is_some_and(|rust| rust.plan.decks.is_empty())
    }
}

/// What a call is held to.
pub struct Expected {
    pub answer: Answer,
    /// How many bytes of output and of work it is lent.
    pub output: usize,
    pub work: usize,
}

/// What document 01 asks of a call: the number of the first question that is not passed, or the Rust's answer.
pub fn expected(ship: &mut Ship, asked: &Asked) -> Expected {
    if let Some(no) = first_no(&ship.file, asked) {
        return Expected { answer: Answer::Refused(no), output: asked.output.of(48), work: asked.work.of(8) };
    }
    let rust = ship.rust.as_mut().expect("the file passes");
    let answer = rust.answer(&asked.call, &asked.blocked);
    let least = work_asked(&ship.file, &asked.call);
    let (output, work) = (asked.output.of(answer.len()), asked.work.of(least));
    let short = asked.call.entry_size() > 0 && output < answer.len() || work < least;
    Expected { answer: if short { Answer::Refused(20) } else { Answer::Wrote(answer) }, output, work }
}

/// How many seats or points of an answered call name a blocked deck, so that the Rust's answer is left out.
pub fn left_out(asked: &Asked) -> usize {
    let named: Vec<u32> = match &asked.call {
        Call::Run { seats } => seats.chunks(20).map(|seat| words(seat)[2]).collect(),
        Call::ClosestPoints(query) | Call::ClosestPoint(query) => vec![query.deck],
        _ => return 0,
    };
    let blocked = blocked_layers(&asked.blocked);
    named.into_iter().filter(|&deck| names_blocked(deck, &blocked)).count()
}

/// A difference is said with the call and both answers. A panic of the Rust is one too.
pub fn compare(ship: &mut Ship, asked: &Asked, met: &mut Met) -> Result<(), String> {
    met.calls += 1;
    let compared = catch_unwind(AssertUnwindSafe(|| {
        let expected = expected(ship, asked);
        let library = library(&ship.file, &asked.call, &asked.blocked, expected.output, expected.work);
        if library.as_ref() != Ok(&expected.answer) {
            return Err(format!("{asked:?}\nthe library {library:?}\nexpected    {:?}", expected.answer));
        }
        tell(ship, asked, &expected, met);
        Ok(())
    }));
    if let Some(rust) = ship.rust.as_mut().filter(|_| compared.is_err()) {
        rust.set_steps();
    }
    compared.unwrap_or_else(|_| Err(format!("the Rust panics: {asked:?}")))
}

fn tell_refusal(ship: &Ship, asked: &Asked, number: u32, met: &mut Met) {
    let name = NAMES[asked.call.number()];
    met.see(&format!("{name} refused"));
    met.see(&format!("refused {number}"));
    met.see_if(number == 6 && ship.file[..4] == [0; 4], GOES_ON);
    if number == 17 && ship.has_no_decks() {
        met.see(&no_deck_to_name(name));
    }
    if let (22, Call::ClosestPointTowards { query, towards }) = (number, &asked.call) {
        met.see(if (query.x, query.y) == *towards { EQUAL_POINTS } else { POINTS_OF_DISTANCE_0 });
    }
}

/// Tells the counts of an answer on which both agree.
pub fn tell(ship: &Ship, asked: &Asked, expected: &Expected, met: &mut Met) {
    let bytes = match &expected.answer {
        Answer::Refused(number) => return tell_refusal(ship, asked, *number, met),
        Answer::Wrote(bytes) => bytes,
    };
    let name = NAMES[asked.call.number()];
    met.see(&format!("{name} answered"));
    if ship.has_no_decks() {
        met.see(&with_no_decks(name));
    }
    met.see_if(asked.call.entry_size() > 0 && expected.output > bytes.len(), "output longer than the answer");
    let rust = ship.rust.as_ref().expect("the file passes");
    match &asked.call {
        Call::Run { seats } => {
            let records = bytes.chunks(36).map(words);
            seats.chunks(20).map(words).zip(records).for_each(|(seat, record)| outcomes::seat(met, rust, &asked.blocked, &seat, &record));
        }
        Call::ClosestPoints(_) | Call::ClosestPoint(_) => met.see_times(CALL_LEFT_OUT, left_out(asked) as u64),
        Call::ClosestPointTowards { query, towards } => outcomes::towards(met, rust, *query, *towards, bytes),
        Call::CandidatePolygons { query, polygon: u32::MAX } => outcomes::merged(met, rust, *query, &asked.blocked, bytes),
        Call::PointLayer(query) => outcomes::probes(met, rust, *query, bytes),
        Call::Islands { deck } => outcomes::labels(met, &rust.plan.decks[*deck as usize], bytes),
        Call::StitchPoints => outcomes::stitch_points(met, &rust.plan, bytes),
        Call::RemoveStitches => outcomes::removal(met, &rust.plan, &ShipPlan::read(bytes).expect("a file"), None),
        Call::RemoveStitchesToLayer { layer } => {
            outcomes::removal(met, &rust.plan, &ShipPlan::read(bytes).expect("a file"), Some(*layer));
        }
        _ => {}
    }
}
