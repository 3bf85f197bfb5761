//! The known differences of docs/DIFFERENCES.md, each with its smallest input: what the Rust says, and what the library says.
use std::collections::HashSet;
use std::panic::{catch_unwind, set_hook, take_hook, AssertUnwindSafe};

use feedercoil::{BlockedDecks, DeckPlan, PackedPolygon, Refusal, Seat, SeatRecord, Ship, ShipPlan, VertexPlan};

use crate::by_rust::mesh_of;
use crate::glam::vec2;
use crate::polyanya::mesh::{Coords, Mesh};

const ABOVE: f32 = 1_000_000.06;

fn deck(points: &[(f32, f32)], polygon: &[u32], heights: &[f32]) -> DeckPlan {
    let vertices = points.iter().map(|&(x, y)| VertexPlan { x, y, neighbours: vec![] }).collect();
    DeckPlan { offset: (0.0, 0.0), vertices, polygons: vec![polygon.to_vec()], heights: heights.to_vec() }
}

fn ship(decks: Vec<DeckPlan>) -> ShipPlan {
    ShipPlan { reach: 0.0, steps: 1, decks }
}

/// One vertex at (0, 0).
fn point(heights: &[f32]) -> DeckPlan {
    deck(&[(0.0, 0.0)], &[0], heights)
}

fn rust(plan: &ShipPlan) -> Mesh {
    mesh_of(plan).expect("the Rust takes it")
}

/// Whether it panics, with nothing said of it.
pub fn panics<T>(f: impl FnOnce() -> T) -> bool {
    let hook = take_hook();
    set_hook(Box::new(|_| {}));
    let panics = catch_unwind(AssertUnwindSafe(f)).is_err();
    set_hook(hook);
    panics
}

/// The packed polygons that the Rust finds.
fn found(mesh: &Mesh, at: impl Into<Coords>) -> Vec<u32> {
    mesh.get_closest_points_on_layers(at, HashSet::new()).iter().map(Coords::polygon).collect()
}

fn refused(plan: &ShipPlan, number: u32) -> bool {
    Ship::new(plan.file()).check() == Err(Refusal(number))
}

fn record(plan: &ShipPlan, seat: Seat) -> Result<SeatRecord, Refusal> {
    Ship::new(plan.file()).run(&BlockedDecks::new(), &[seat]).map(|records| records[0])
}

fn library_height(plan: &ShipPlan, polygon: u32) -> Result<Option<f32>, Refusal> {
    Ship::new(plan.file()).height(0.0, 0.0, PackedPolygon(polygon))
}

/// What the first column of the table says, and whether both sides are as it says.
pub type Difference = (&'static str, fn() -> bool);

pub const DIFFERENCES: [Difference; 19] = [
    ("the height on an edge whose squared length rounds to 0", || {
        let plan = ship(vec![point(&[1.0])]);
        let height = Coords::on_polygon(vec2(0.0, 0.0), 0).height(&rust(&plan));
        height.is_some_and(f32::is_nan) && library_height(&plan, 0) == Ok(None)
    }),
    ("`abs(-0)`", || {
        // The cross product is -0 on the first edge, which is Edge for both.
        let plan = ship(vec![deck(&[(0.0, 0.0), (-1.0, 0.0)], &[0, 1], &[])]);
        let cross = vec2(-1.0, 0.0).perp_dot(vec2(0.5, 0.0));
        let bits = (cross.to_bits(), cross.abs().to_bits());
        let placed = matches!(record(&plan, Seat::at(0.5, 0.0)), Ok(SeatRecord::Placed { .. }));
        bits == (1 << 31, 0) && found(&rust(&plan), vec2(0.5, 0.0)) == [0] && placed
    }),
    ("directions", || {
        let (_, cosine) = (5.0 * std::f32::consts::TAU / 20.0).sin_cos();
        let square = [(1.0, 0.0), (1.1, 0.0), (1.1, 0.1), (1.0, 0.1)];
        let plan = ShipPlan { reach: 1.0, steps: 2, decks: vec![deck(&square, &[0, 1, 2, 3], &[])] };
        match record(&plan, Seat::at(0.0, 0.0)) {
            Ok(SeatRecord::Placed { x, y, step: 1, sample: 5, .. }) => (x, y) == (1.0, 0.0) && cosine < 0.0,
            _ => false,
        }
    }),
    ("a probe's zero component for a reach of -0", || {
        let plan = ShipPlan { reach: -0.0, ..ship(vec![point(&[])]) };
        let rust_probe = (-0.0f32 + 0.0).to_bits();
        let location = Ship::new(plan.file()).get_point_location(-0.0, -0.0, None);
        rust_probe == 0 && rust(&plan).get_point_location(vec2(-0.0, -0.0)) == 0 && location == Ok(Some(PackedPolygon(0)))
    }),
    ("an absent polygon of a deck without heights, in a height call", || {
        let plan = ship(vec![point(&[])]);
        let height = Coords::on_polygon(vec2(0.0, 0.0), 1).height(&rust(&plan));
        height.is_none() && library_height(&plan, 1) == Err(Refusal(18))
    }),
    ("an absent deck or polygon", || {
        let (none, one) = (ship(vec![]), ship(vec![point(&[1.0])]));
        let meshes = [&none, &one].map(rust);
        let deck = panics(|| found(&meshes[0], Coords::on_layer(vec2(0.0, 0.0), 0)));
        let polygon = panics(|| Coords::on_polygon(vec2(0.0, 0.0), 1).height(&meshes[1]));
        let seat = Seat { deck: Some(0), ..Seat::at(0.0, 0.0) };
        deck && polygon && record(&none, seat) == Err(Refusal(17)) && library_height(&one, 1) == Err(Refusal(18))
    }),
    ("the islands of an absent deck", || {
        let plan = ship(vec![]);
        rust(&plan).layers.is_empty() && Ship::new(plan.file()).bake_islands_detection(0) == Err(Refusal(17))
    }),
    ("the islands of a deck with an entry out of range at a used vertex", || {
        let mut plan = ship(vec![point(&[])]);
        plan.decks[0].vertices[0].neighbours = vec![1];
        let mut mesh = rust(&plan);
        panics(|| mesh.layers[0].bake_islands_detection()) && Ship::new(plan.file()).bake_islands_detection(0) == Err(Refusal(19))
    }),
    ("reach above 1,000, S of 17 and more", || {
        let far = ShipPlan { reach: 1000.06, ..ship(vec![point(&[])]) };
        let long = ShipPlan { steps: 17, ..ship(vec![point(&[])]) };
        let both = [&far, &long].map(|plan| found(&rust(plan), vec2(0.0, 0.0)));
        both == [[0], [0]] && refused(&far, 3) && refused(&long, 4)
    }),
    ("decks of 256 and more", || {
        let plan = ship(vec![point(&[])]);
        u8::try_from(256).is_err() && record(&plan, Seat { deck: Some(256), ..Seat::at(0.0, 0.0) }) == Err(Refusal(17))
    }),
    ("more than 256 decks", || {
        let far = deck(&[(5.0, 5.0), (6.0, 5.0), (5.0, 6.0)], &[0, 1, 2], &[]);
        let mut plan = ship(vec![far; 256]);
        plan.decks.push(point(&[]));
        found(&rust(&plan), vec2(0.0, 0.0)) == [0] && refused(&plan, 2)
    }),
    ("a blocked deck that is named, by a seat or a closest-point call", || {
        let plan = ship(vec![point(&[])]);
        let (mesh, library) = (rust(&plan), Ship::new(plan.file()));
        let (at, shut) = (Coords::on_layer(vec2(0.0, 0.0), 0), BlockedDecks::from_iter([0]));
        let points = mesh.get_closest_points_on_layers(at, HashSet::from([0])).len();
        let point = mesh.get_closest_point_on_layers(at, HashSet::from([0])).is_some();
        let seat = Seat { deck: Some(0), ..Seat::at(0.0, 0.0) };
        (points, point) == (1, true)
            && library.run(&shut, &[seat]) == Ok(vec![SeatRecord::Unplaced { tried: 0 }])
            && library.get_closest_points_on_layers(0.0, 0.0, Some(0), &shut) == Ok(vec![])
            && library.get_closest_point_on_layers(0.0, 0.0, Some(0), &shut) == Ok(None)
    }),
    ("a point and the one to go towards, at a squared distance that computes to 0", || {
        let plan = ship(vec![point(&[])]);
        let (mesh, library) = (rust(&plan), Ship::new(plan.file()));
        let nowhere = |to: (f32, f32)| {
            mesh.get_closest_point_towards(vec2(0.0, 0.0), vec2(to.0, to.1)).is_none()
                && library.get_closest_point_towards(0.0, 0.0, to, None) == Err(Refusal(22))
        };
        found(&mesh, vec2(0.0, 0.0)) == [0] && [(0.0, 0.0), (1e-23, 0.0), (1e-23, -1e-23)].into_iter().all(nowhere)
    }),
    ("a polygon of no vertices", || {
        let plan = ship(vec![deck(&[(0.0, 0.0)], &[], &[])]);
        let mesh = rust(&plan);
        panics(|| found(&mesh, vec2(0.0, 0.0))) && refused(&plan, 12)
    }),
    ("a polygon of more than 4,096 vertices", || {
        let plan = ship(vec![deck(&[(0.0, 0.0)], &[0; 4097], &[])]);
        found(&rust(&plan), vec2(0.0, 0.0)) == [0] && refused(&plan, 12)
    }),
    ("a polygon that names an absent vertex", || {
        let plan = ship(vec![deck(&[(0.0, 0.0)], &[1], &[])]);
        found(&rust(&plan), vec2(0.0, 0.0)).is_empty() && refused(&plan, 13)
    }),
    ("the same, behind an edge that says yes", || {
        let plan = ship(vec![deck(&[(0.0, 0.0)], &[0, 0, 1], &[])]);
        found(&rust(&plan), vec2(0.0, 0.0)) == [0] && refused(&plan, 13)
    }),
    ("coordinates that are not finite, or above 1,000,000 in size", || {
        let far = ship(vec![deck(&[(ABOVE, 0.0)], &[0], &[])]);
        let near = ship(vec![point(&[])]);
        let both = [&far, &near].map(|plan| found(&rust(plan), vec2(ABOVE, 0.0)));
        both == [[0], [0]] && refused(&far, 11) && record(&near, Seat::at(ABOVE, 0.0)) == Err(Refusal(16))
    }),
    ("heights and wished heights that are not finite, or above 1,000,000 in size", || {
        let high = ship(vec![point(&[ABOVE])]);
        let mesh = rust(&ship(vec![point(&[])]));
        let wish = mesh.get_closest_points_on_layers_at_height(vec2(0.0, 0.0), HashSet::new(), f32::INFINITY);
        let height = Coords::on_polygon(vec2(9.0, 9.0), 0).height(&rust(&high));
        let seat = Seat { wish: Some(ABOVE), ..Seat::at(0.0, 0.0) };
        wish.map(|c| c.polygon()) == Some(0)
            && height == Some(ABOVE)
            && refused(&high, 11)
            && record(&ship(vec![point(&[])]), seat) == Err(Refusal(16))
    }),
];

/// The differences that are not as the table says, and rows without a test or tests without a row.
pub fn not_as_written(table: &str) -> Vec<String> {
    let rows: Vec<&str> = table.lines().filter_map(|line| line.strip_prefix("| ")?.split(" | ").next()).skip(1).collect();
    let names: Vec<&str> = DIFFERENCES.iter().map(|(name, _)| *name).collect();
    let mut wrong: Vec<String> = DIFFERENCES.iter().filter(|(_, holds)| !holds()).map(|(name, _)| format!("not so: {name}")).collect();
    wrong.extend(rows.iter().filter(|row| !names.contains(row)).map(|row| format!("no test: {row}")));
    wrong.extend(names.iter().filter(|name| !rows.contains(name)).map(|name| format!("no row: {name}")));
    wrong
}

/// Whether this compiler's library sums floats from -0, which leaves the mean of heights of -0 at -0. Older ones sum from 0.
pub fn sums_from_negative_zero() -> bool {
    [-0.0f32].iter().sum::<f32>().is_sign_negative()
}

/// The Rust's own refusals, which are questions 3, 4, 8 and 10 here.
pub fn refusals_of_both() -> Vec<String> {
    let plan = || ship(vec![point(&[])]);
    let wrong_reach = |reach: f32| ShipPlan { reach, ..plan() };
    let no_polygon = DeckPlan { polygons: vec![], ..point(&[]) };
    let refusals = [
        (3, wrong_reach(-1.0)),
        (3, wrong_reach(f32::NAN)),
        (4, ShipPlan { steps: 0, ..plan() }),
        (8, ship(vec![no_polygon])),
        (8, ship(vec![deck(&[], &[], &[])])),
        (10, ship(vec![point(&[1.0, 2.0])])),
    ];
    let agree = |(number, plan): &(u32, ShipPlan)| panics(|| mesh_of(plan).expect("refused")) && refused(plan, *number);
    refusals.iter().filter(|refusal| !agree(refusal)).map(|(number, plan)| format!("{number}: {plan:?}")).collect()
}
