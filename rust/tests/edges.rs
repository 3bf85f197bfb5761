//! The rows of document 01's table 'Edges of the behaviour', through the calls.
mod common;
use common::{example, one_polygon, passed_by_all, refused_by_all, stacked, still, OUTSIDE, SQUARE};
use feedercoil::{BlockedDecks, Candidate, DeckPlan, PackedPolygon, Ship, VertexPlan};

/// Whether the one polygon passes at a point: with one step and a reach of 0 the search tests the point alone, and so do all probes.
fn passes(points: &[(f32, f32)], x: f32, y: f32) -> bool {
    let ship = Ship::new(still(vec![one_polygon(points)]).file());
    let nothing = BlockedDecks::new();
    let found = ship.get_closest_points_on_layers(x, y, None, &nothing).unwrap();
    let polygons: Vec<PackedPolygon> = found.iter().map(|c| c.polygon).collect();
    assert_eq!(ship.get_closest_point_on_layers(x, y, None, &nothing).unwrap(), found.first().copied());
    assert_eq!(ship.get_closest_point_towards(x, y, (x + 1.0, y), None).unwrap(), found.first().copied());
    assert_eq!(ship.get_point_location(x, y, None).unwrap(), polygons.first().copied());
    assert_eq!(ship.get_point_layer(x, y, None).unwrap(), polygons);
    assert_eq!(ship.candidate_polygons(x, y, None, None, &nothing).unwrap(), polygons);
    assert!(found.is_empty() || found == [Candidate { polygon: PackedPolygon(0), x, y }]);
    !found.is_empty()
}

#[test]
fn nine_polygon_rows() {
    let reversed: Vec<_> = SQUARE.iter().rev().copied().collect();
    assert!(passes(&SQUARE, 1.0, 1.0));
    assert!(passes(&SQUARE, 0.0, 2.0));
    assert!(!passes(&SQUARE, 5.0, 5.0));
    assert!(passes(&SQUARE, 2.0, -0.00001));
    assert!(!passes(&SQUARE, 2.0, -0.0001));
    assert!(!passes(&reversed, 1.0, 1.0));
    assert!(passes(&[(0.0, 0.0)], 9.0, 9.0));
    assert!(passes(&[(0.0, 0.0), (4.0, 0.0)], 9.0, 0.0));
    assert!(!passes(&[(0.0, 0.0), (4.0, 0.0)], 9.0, 1.0));
}

#[test]
fn removal_once_and_twice() {
    let list = vec![OUTSIDE, 0x0100_0002, 0x0000_0005];
    let vertex = VertexPlan { x: 0.0, y: 0.0, neighbours: list };
    let deck = DeckPlan { vertices: vec![vertex], polygons: vec![vec![0]], ..DeckPlan::default() };
    let ship = Ship::new(still(vec![one_polygon(&SQUARE), deck]).file());
    let list_of = |ship: &Ship| ship.plan().unwrap().decks[1].vertices[0].neighbours.clone();
    let once = ship.remove_stitches().unwrap();
    assert_eq!(list_of(&once), [OUTSIDE, 2]);
    let twice = once.remove_stitches().unwrap();
    assert_eq!(list_of(&twice), [OUTSIDE]);
    assert_eq!(twice.remove_stitches().unwrap(), twice);
    assert_eq!((ship.file().len(), once.file().len(), twice.file().len()), (268, 264, 260));
}

#[test]
fn labels() {
    let ship = Ship::new(still(vec![stacked(&[&[], &[0, 2], &[]])]).file());
    assert_eq!(ship.bake_islands_detection(0).unwrap(), [0, 1, 1]);
}

#[test]
fn rows_run_by_program() {
    let mut plan = example();
    plan.steps = 16;
    passed_by_all(&plan.file());
    plan.steps = 17;
    refused_by_all(&plan.file(), 4);
    let ship = |decks| still(vec![one_polygon(&SQUARE[..1]); decks]).file();
    passed_by_all(&ship(256));
    refused_by_all(&ship(257), 2);
    assert_eq!(Ship::new(ship(0)).check(), Ok(()), "0 passes since document 02, point 5");
    assert_eq!(Ship::new(example().file()).run(&BlockedDecks::new(), &[]).unwrap(), []);
}
