//! The stored answers: cases of small ships whose answers are the Rust's, for programs that run without it.
use feedercoil::raw::{ANY_DECK, NO_POLYGON};
use feedercoil::{seat_list, DeckPlan, Seat, ShipPlan, VertexPlan};

use crate::ask::random_call;
use crate::by_rust::{is_sayable, mesh_of};
use crate::calls::{Answer, Asked, Call, Query, Room};
use crate::cases::{answer_lines, case_bytes, is_of_run};
use crate::check::{expected, left_out, tell, Ship};
use crate::damage::damaged_call;
use crate::differences::panics;
use crate::met::{Met, CALL_LEFT_OUT, EQUAL_POINTS, GOES_ON, POINTS_OF_DISTANCE_0, SEAT_LEFT_OUT};
use crate::no_decks;
use crate::outcomes::PROBES;
use crate::polyanya::direction;
use crate::questions::file_passes;
use crate::random::Random;
use crate::rings::{hit_by, STEPS};
use crate::seen;
use crate::ships::random_ship;
use crate::stored::{folder, FOLDERS};

/// The programs read no more than 262,144 bytes of cases, and lend no more than so much output and work.
const MOST_CASES: usize = 250_000;
const MOST_LENT: [usize; 2] = [32_768, 4_096];

/// How many of a kind are few at first. Later, more are.
const FEW: u64 = 10;

/// What no stored case has: ships that are too large, answers that are not the Rust's, and shapes, which are the generator's words.
const NOT_STORED: [&str; 26] = [
    "grid",
    "fan",
    "rectangles",
    "soup",
    "250 to 255 decks",
    "256 decks",
    "no height on a degenerate edge",
    SEAT_LEFT_OUT,
    CALL_LEFT_OUT,
    EQUAL_POINTS,
    POINTS_OF_DISTANCE_0,
    GOES_ON,
    "islands with no decks, one named",
    "refused 1",
    "refused 2",
    "refused 5",
    "refused 6",
    "refused 7",
    "refused 9",
    "refused 11",
    "refused 12",
    "refused 13",
    "refused 14",
    "refused 15",
    "refused 16",
    "refused 22",
];

/// What stdin and stdout hold.
struct Stored {
    cases: Vec<u8>,
    answers: String,
    count: u64,
}

fn small_ship(random: &mut Random) -> ShipPlan {
    let most = random.one_of(&[200, 250, 300, 600]);
    loop {
        let plan = random_ship(random, &mut Met::new());
        // Every ship with no decks is small: most of them are passed over, or the cases would be of little else.
        let passed_over = plan.decks.is_empty() && !random.once_in(10);
        if plan.file().len() <= most && !passed_over {
            return plan;
        }
    }
}

/// A ship that the Rust refuses to make, and the library by questions 3, 4, 8 and 10; with no decks, by 3 and 4.
fn refused_ship(random: &mut Random, mut plan: ShipPlan) -> ShipPlan {
    match random.below(if plan.decks.is_empty() { 2 } else { 5 }) {
        0 => plan.reach = random.one_of(&[-0.5, f32::NAN, f32::NEG_INFINITY]),
        1 => plan.steps = 0,
        2 => plan.decks[0].polygons.clear(),
        3 => plan.decks[0] = DeckPlan { polygons: plan.decks[0].polygons.clone(), ..DeckPlan::default() },
        _ => plan.decks[0].heights = vec![1.0; plan.decks[0].vertices.len() + 1],
    }
    plan
}

/// Whether the Rust says what is expected: it answers, or it refuses by an error or a panic where a number is expected.
fn is_the_rusts(ship: &mut Ship, plan: &ShipPlan, asked: &Asked, answer: &Answer) -> bool {
    match answer {
        Answer::Refused(3 | 4 | 8 | 10) => panics(|| mesh_of(plan).expect("refused")),
        Answer::Refused(17..=19) if !matches!(asked.call, Call::Islands { deck } if deck as usize >= plan.decks.len()) => {
            let sayable = asked.call.query().is_none_or(|q| is_sayable(q.deck));
            let rust = ship.rust.as_mut().expect("the file passes");
            let refused = panics(|| rust.answer(&asked.call, &asked.blocked));
            rust.set_steps();
            sayable && refused
        }
        Answer::Wrote(_) | Answer::Refused(20) => {
            let not_a_height = ship.rust.as_ref().expect("the file passes").not_a_height.take();
            !not_a_height && left_out(asked) == 0
        }
        _ => false,
    }
}

/// A place that is an argument cannot be a NaN in the programs.
fn has_nan(call: &Call) -> bool {
    call.coordinates().iter().any(|x| x.is_nan())
}

/// What random small ships seldom have.
fn first_cases() -> Vec<(ShipPlan, Call)> {
    let mut cases = vec![];
    // A seat and points of each step, of its first and its last sample and of two between.
    for step in 0..STEPS {
        for (k, i) in [0, 3 * step, 7 * step, 10 * step].into_iter().enumerate() {
            let (plan, query) = hit_by(step, i);
            cases.push((plan.clone(), Call::Run { seats: seat_list(&[Seat::at(query.x, query.y)]) }));
            if step % 5 == 0 || k == 3 {
                cases.push((plan.clone(), Call::ClosestPoint(query)));
                cases.push((plan, Call::CandidatePolygons { query, polygon: NO_POLYGON }));
            }
        }
    }
    // Each probe but the first finds the second of two squares, and the probe after it the first.
    let square = |(x, y): (f32, f32)| [(x - 0.25, y - 0.25), (x + 0.25, y - 0.25), (x + 0.25, y + 0.25), (x - 0.25, y + 0.25)];
    for k in 1..PROBES.len() {
        let points = [square(PROBES[(k + 1).min(8)]), square(PROBES[k])].concat();
        let deck = DeckPlan { polygons: vec![vec![0, 1, 2, 3], vec![4, 5, 6, 7]], ..deck(&points) };
        let plan = ShipPlan { reach: 1.0, steps: 1, decks: vec![deck] };
        cases.push((plan, Call::PointLayer(Query { x: 0.0, y: 0.0, deck: ANY_DECK })));
    }
    // A place of each step towards a point, in as many directions.
    for step in 0..STEPS {
        let towards = direction(STEPS - 1, 9 * step);
        let place = (towards.0 * 2.5 * step as f32, towards.1 * 2.5 * step as f32);
        let plan = ShipPlan { reach: 2.5, steps: STEPS, decks: vec![deck(&square(place))] };
        cases.push((plan, Call::ClosestPointTowards { query: Query { x: 0.0, y: 0.0, deck: ANY_DECK }, towards }));
    }
    // Points that two decks share, one of them twice and one as 0 and -0.
    let decks = vec![deck(&[(0.0, 0.0), (1.0, 0.0), (1.0, 1.0)]), deck(&[(1.0, 1.0), (1.0, 1.0), (-0.0, 0.0)])];
    let shared = ShipPlan { reach: 0.5, steps: 2, decks };
    cases.extend([Call::StitchPoints, Call::RemoveStitches].map(|call| (shared.clone(), call)));
    cases
}

/// One polygon of all vertices, each of which names a polygon of deck 0 and one of deck 1.
fn deck(points: &[(f32, f32)]) -> DeckPlan {
    let vertex = |&(x, y): &(f32, f32)| VertexPlan { x, y, neighbours: vec![0x0100_0000, 0] };
    let polygon = (0..points.len() as u32).collect();
    DeckPlan { vertices: points.iter().map(vertex).collect(), polygons: vec![polygon], ..DeckPlan::default() }
}

impl Stored {
    /// Adds a case whose answer is the Rust's, if it has something that there are fewer of than `few`. The call is of the ship as it
    /// was before something in it was made wrong.
    fn add(&mut self, of_run: bool, whole: &ShipPlan, plan: &ShipPlan, asked: &Asked, few: u64, met: &mut Met) {
        if is_of_run(&asked.call) != of_run || has_nan(&asked.call) {
            return;
        }
        let file = plan.file();
        let passes = file_passes(&file);
        let mut ship = Ship::of_file(file, passes);
        let expected = expected(&mut ship, asked);
        if !is_the_rusts(&mut ship, plan, asked, &expected.answer) || expected.output.max(expected.work) > MOST_LENT[usize::from(of_run)] {
            return;
        }
        let mut seen = Met::new();
        seen::ship(&mut seen, whole);
        tell(&ship, asked, &expected, &mut seen);
        if met.add_if_below(few, &seen) {
            self.answers += &answer_lines(&asked.call, &expected.answer);
            self.cases.extend(case_bytes(&ship.file, asked, &expected));
            self.count += 1;
        }
    }
}

/// The first cases, and random ones until there is no room for more.
fn stored(of_run: bool, met: &mut Met) -> Stored {
    let mut random = Random(0xA115_0E25);
    let mut stored = Stored { cases: vec![], answers: String::new(), count: 0 };
    for (plan, call) in first_cases().into_iter().chain(no_decks::cases()) {
        let asked = Asked { call, blocked: vec![0; 32], output: Room::Just, work: Room::Just };
        stored.add(of_run, &plan, &plan, &asked, u64::MAX, met);
    }
    while stored.cases.len() < MOST_CASES {
        let whole = small_ship(&mut random);
        let plan = if random.once_in(20) { refused_ship(&mut random, whole.clone()) } else { whole.clone() };
        let asked = if random.once_in(5) { damaged_call(&whole, &mut random) } else { random_call(&whole, &mut random) };
        let few = FEW + stored.count / 20;
        stored.add(of_run, &whole, &plan, &asked, few, met);
    }
    stored
}

/// Writes both programs' files.
pub fn write() {
    let mut met = Met::new();
    for (name, of_run) in FOLDERS {
        let Stored { cases, answers, count } = stored(of_run, &mut met);
        println!("answers: {name}: {count} cases of {} bytes, answers of {} bytes", cases.len(), answers.len());
        std::fs::create_dir_all(folder(name)).expect("a folder");
        std::fs::write(folder(name).join("stdin"), cases).expect("written");
        std::fs::write(folder(name).join("stdout"), answers).expect("written");
    }
    met.print();
    let never: Vec<&str> = met.never_met().into_iter().filter(|kind| !NOT_STORED.contains(kind)).collect();
    assert!(never.is_empty(), "no stored case has: {never:?}");
}
