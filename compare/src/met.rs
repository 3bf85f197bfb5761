//! Counts of what the comparison met. A kind that was never met is no comparison, so it fails.
use std::collections::HashMap;

use crate::calls::NAMES;

/// Where the Rust's answer is left out, as it searches a blocked deck that is named.
pub const SEAT_LEFT_OUT: &str = "seat left out: it names a blocked deck";
pub const CALL_LEFT_OUT: &str = "closest-point call left out: it names a blocked deck";

/// Two points that are refused with 22: equal ones, and others whose squared distance computes to 0.
pub const EQUAL_POINTS: &str = "towards an equal point";
pub const POINTS_OF_DISTANCE_0: &str = "towards another point, at a squared distance of 0";

/// Whose first number is 0 and whose length is not the header's.
pub const GOES_ON: &str = "file with no decks that goes on after its header";

/// An answered call of a ship with no decks, and one that 17 is said of, as a deck is named.
pub fn with_no_decks(call: &str) -> String {
    format!("{call} with no decks")
}
pub fn no_deck_to_name(call: &str) -> String {
    format!("{call} with no decks, one named")
}

/// The calls that ask 17. Islands do always.
const NAMING: [&str; 6] = ["run", "closest_points", "closest_point", "closest_point_towards", "height", "islands"];

/// Kinds of ships, points and answers. To these come each call, step, probe and number of a refusal.
const KINDS: [&str; 73] = [
    "grid",
    "fan",
    "rectangles",
    "soup",
    "no decks",
    "1 deck",
    "2 to 4 decks",
    "250 to 255 decks",
    "256 decks",
    "polygon of 1 vertex",
    "polygon of 2 vertices",
    "polygon turned round",
    "vertex doubled",
    "coordinate -0",
    "offset",
    "offset -0",
    "coordinates below 1/1000",
    "coordinate above 900,000",
    "deck with heights",
    "deck without heights",
    "list that names another deck",
    "plain list above deck 0",
    "one-way lists",
    "reach 0",
    "reach -0",
    "reach 1,000",
    "S 16",
    "point on a vertex",
    "point off an edge by 1e-7 to 1e-6",
    "point off an edge by 1e-6 to 1e-5",
    "point off an edge by 1e-5 to 1e-4",
    "point off an edge by 1e-4 to 1e-3",
    "point on an edge's line past its ends",
    "point -0",
    "seat unplaced",
    "seat on a named deck",
    SEAT_LEFT_OUT,
    CALL_LEFT_OUT,
    "seat of a sample after the first",
    "seat of several candidates",
    "seat of candidates on several decks",
    "seat on overlapping polygons",
    "height on an edge",
    "height by the mean",
    "no height on a degenerate edge",
    "wish that takes a later candidate",
    "wish with a tie",
    "wish past a candidate without a height",
    "wish among candidates without a height",
    "place towards a point: step 0",
    "place towards a point: a later step",
    "place towards a point: none",
    "place towards a point: a named deck",
    "place towards a point: none named, above the lowest deck",
    "place towards a point: a deck with an offset",
    "towards a nearly equal point",
    EQUAL_POINTS,
    POINTS_OF_DISTANCE_0,
    "candidate dropped",
    "candidate dropped above deck 0",
    "candidate dropped through a chain",
    "candidate kept that a later one reaches",
    "candidates of a blocked deck that is named",
    "island label of another polygon",
    "island label one way",
    "stitch point",
    "stitch point of 0 and -0",
    "stitch point repeated",
    "entry made plain",
    "entry of another deck dropped",
    "removal to a layer without a deck",
    "output longer than the answer",
    GOES_ON,
];

pub struct Met {
    pub calls: u64,
    counts: HashMap<String, u64>,
    /// In the order of the print.
    names: Vec<String>,
}

impl Met {
    pub fn new() -> Self {
        let answers = |name: &&str| [format!("{name} answered"), format!("{name} refused")];
        let mut names: Vec<String> = NAMES.iter().flat_map(answers).collect();
        names.extend(KINDS.iter().map(|kind| kind.to_string()));
        names.extend(NAMES.iter().filter(|&&name| name != "islands").map(|name| with_no_decks(name)));
        names.extend(NAMING.iter().map(|name| no_deck_to_name(name)));
        names.extend((0..16).map(|step| format!("step {step}")));
        names.extend((0..9).map(|probe| format!("probe {probe}")));
        names.extend((1..=20).chain([22]).map(|number| format!("refused {number}")));
        Met { calls: 0, counts: names.iter().map(|name| (name.clone(), 0)).collect(), names }
    }

    pub fn see(&mut self, kind: &str) {
        self.see_times(kind, 1);
    }

    pub fn see_if(&mut self, met: bool, kind: &str) {
        self.see_times(kind, met.into());
    }

    pub fn see_times(&mut self, kind: &str, times: u64) {
        *self.counts.get_mut(kind).unwrap_or_else(|| panic!("no kind '{kind}'")) += times;
    }

    pub fn count(&self, kind: &str) -> u64 {
        self.counts[kind]
    }

    /// Adds what was seen, if it has a kind of which there are fewer than `few`.
    pub fn add_if_below(&mut self, few: u64, seen: &Met) -> bool {
        let below = seen.counts.iter().any(|(kind, &times)| times > 0 && self.counts[kind] < few);
        if below {
            seen.counts.iter().for_each(|(kind, &times)| self.see_times(kind, times));
        }
        below
    }

    pub fn print(&self) {
        for name in &self.names {
            println!("{:>9}  {name}", self.counts[name]);
        }
    }

    pub fn never_met(&self) -> Vec<&str> {
        self.names.iter().filter(|&name| self.counts[name] == 0).map(String::as_str).collect()
    }
}
