//! Each call on small ships, with answers worked out by hand from document 01.
mod common;
use common::{example, no_decks, one_polygon, square, stacked, still, OUTSIDE, SQUARE};
use feedercoil::{BlockedDecks, Candidate, DeckPlan, PackedPolygon, Refusal, Seat, SeatRecord, Ship, ShipPlan, StitchPoint, VertexPlan};

fn blocked(decks: &[u8]) -> BlockedDecks {
    decks.iter().copied().collect()
}

fn packed(numbers: &[u32]) -> Vec<PackedPolygon> {
    numbers.iter().map(|&n| PackedPolygon(n)).collect()
}

/// The example's square, and on deck 1 the same square 2 to the right, all of it at height 9.
fn two_decks() -> Ship<'static> {
    let above = DeckPlan { offset: (2.0, 0.0), heights: vec![9.0; 4], ..square() };
    Ship::new(ShipPlan { decks: vec![square(), above], ..example() }.file())
}

#[test]
fn run_on_two_decks() {
    let ship = two_decks();
    let at = Seat::at(3.0, 1.0);
    let placed = |deck, height, tried, candidates| SeatRecord::Placed {
        deck,
        polygon: 0,
        x: 3.0,
        y: 1.0,
        height: Some(height),
        step: 0,
        sample: 0,
        tried,
        candidates,
    };
    let run = |blocked, seat| ship.run(&blocked, &[seat]).unwrap()[0];
    let nothing = BlockedDecks::new();
    assert_eq!(run(nothing, at), placed(0, 2.0, 2, 2));
    assert_eq!(run(nothing, Seat { wish: Some(5.0), ..at }), placed(0, 2.0, 2, 2));
    assert_eq!(run(nothing, Seat { wish: Some(5.5), ..at }), placed(0, 2.0, 2, 2), "as near to 2 as to 9: the first");
    assert_eq!(run(nothing, Seat { wish: Some(6.0), ..at }), placed(1, 9.0, 2, 2));
    assert_eq!(run(blocked(&[0]), at), placed(1, 9.0, 1, 1));
    assert_eq!(run(blocked(&[1]), Seat { deck: Some(0), ..at }), placed(0, 2.0, 1, 1));
    assert_eq!(run(blocked(&[0]), Seat { deck: Some(0), ..at }), SeatRecord::Unplaced { tried: 0 }, "a blocked deck is not searched");
    assert_eq!(run(blocked(&[0, 1]), at), SeatRecord::Unplaced { tried: 0 });
    let absent = Seat { deck: Some(2), ..at };
    assert_eq!(ship.run(&blocked(&[2]), &[absent]), Err(Refusal(17)), "an absent deck, whatever its bit");
    assert_eq!(run(nothing, Seat { deck: Some(1), wish: Some(0.0), ..at }).packed(), Some(PackedPolygon::new(1, 0)));
}

/// Document 02, point 5: nothing is laid out yet.
#[test]
fn no_decks_yet() {
    let ship = Ship::new(no_decks().file());
    let nothing = BlockedDecks::new();
    let (at, unplaced) = (Seat::at(1.0, 1.0), SeatRecord::Unplaced { tried: 0 });
    assert_eq!(ship.run(&nothing, &[]), Ok(vec![]));
    assert_eq!(ship.run(&nothing, &[at, Seat { wish: Some(2.0), ..at }]), Ok(vec![unplaced; 2]));
    assert_eq!(ship.run(&blocked(&[0, 255]), &[at]), Ok(vec![unplaced]));
    assert_eq!(ship.get_closest_points_on_layers(1.0, 1.0, None, &nothing), Ok(vec![]));
    assert_eq!(ship.get_closest_point_on_layers(1.0, 1.0, None, &nothing), Ok(None));
    assert_eq!(ship.get_closest_point_towards(1.0, 1.0, (3.0, 1.0), None), Ok(None));
    assert_eq!(ship.get_closest_point_towards(1.0, 1.0, (1.0, 1.0), None), Err(Refusal(22)), "22 is asked all the same");
    assert_eq!(ship.height(1.0, 1.0, PackedPolygon::NONE), Ok(None));
    assert_eq!(ship.get_point_location(1.0, 1.0, None), Ok(None));
    assert_eq!(ship.get_point_layer(1.0, 1.0, None), Ok(vec![]));
    assert_eq!(ship.candidate_polygons(1.0, 1.0, None, None, &nothing), Ok(vec![]));
    assert_eq!(ship.candidate_polygons(1.0, 1.0, None, Some(PackedPolygon(0)), &nothing), Ok(packed(&[0])), "unchecked");
    assert_eq!(ship.find_stitch_points(), Ok(vec![]));
    assert_eq!(ship.remove_stitches().unwrap(), ship);
    assert_eq!(ship.remove_stitches_to_layer(0).unwrap(), ship);
}

#[test]
fn no_deck_to_name() {
    let ship = Ship::new(no_decks().file());
    let nothing = BlockedDecks::new();
    let at = Seat::at(1.0, 1.0);
    for deck in [0, 1, 255, 256, u32::MAX - 1] {
        let named = Some(deck);
        for blocked in [&nothing, &blocked(&[0, 1, 255])] {
            assert_eq!(ship.run(blocked, &[at, Seat { deck: named, ..at }]), Err(Refusal(17)));
            assert_eq!(ship.get_closest_points_on_layers(1.0, 1.0, named, blocked), Err(Refusal(17)));
            assert_eq!(ship.get_closest_point_on_layers(1.0, 1.0, named, blocked), Err(Refusal(17)));
            assert_eq!(ship.candidate_polygons(1.0, 1.0, named, None, blocked), Ok(vec![]));
        }
        assert_eq!(ship.get_closest_point_towards(1.0, 1.0, (1.0, 1.0), named), Err(Refusal(17)), "before 22");
        assert_eq!(ship.get_point_location(1.0, 1.0, named), Ok(None));
        assert_eq!(ship.get_point_layer(1.0, 1.0, named), Ok(vec![]));
        assert_eq!(ship.bake_islands_detection(deck), Err(Refusal(17)));
    }
    assert_eq!(ship.bake_islands_detection(u32::MAX), Err(Refusal(17)));
    for polygon in [0, 1, 0x0100_0000, 0xFF00_0000, u32::MAX - 1] {
        assert_eq!(ship.height(1.0, 1.0, PackedPolygon(polygon)), Err(Refusal(17)));
        assert_eq!(ship.candidate_polygons(1.0, 1.0, Some(0), Some(PackedPolygon(polygon)), &nothing), Ok(packed(&[polygon])));
    }
}

#[test]
fn a_wish_prefers_a_candidate_with_a_height() {
    let bare = DeckPlan { heights: vec![], ..square() };
    let ship = Ship::new(still(vec![bare.clone(), square(), bare]).file());
    let run = |seat| ship.run(&BlockedDecks::new(), &[seat]).unwrap()[0];
    let seat = Seat::at(1.0, 1.0);
    assert!(matches!(run(seat), SeatRecord::Placed { deck: 0, height: None, candidates: 3, tried: 3, .. }));
    assert!(matches!(run(Seat { wish: Some(-1e6), ..seat }), SeatRecord::Placed { deck: 1, candidates: 3, .. }));
    let wish = Seat { wish: Some(0.0), deck: Some(2), ..seat };
    assert!(matches!(run(wish), SeatRecord::Placed { deck: 2, height: None, candidates: 1, tried: 1, .. }));
}

#[test]
fn closest_points() {
    let nothing = BlockedDecks::new();
    let ship = two_decks();
    let on = |deck, x, y| Candidate { polygon: PackedPolygon::new(deck, 0), x, y };
    let points = |x, y, deck, blocked| ship.get_closest_points_on_layers(x, y, deck, &blocked).unwrap();
    assert_eq!(points(3.0, 1.0, None, nothing), [on(0, 3.0, 1.0), on(1, 3.0, 1.0)]);
    assert_eq!(points(1.0, 1.0, None, nothing), [on(0, 1.0, 1.0)]);
    // Step 1, sample 5 is half a unit to the right: deck 0 is hit at (0, 2), and deck 1 is not hit in this step.
    assert_eq!(points(-0.5, 2.0, None, nothing), [on(0, 0.0, 2.0)]);
    assert_eq!(points(1.5, 2.0, None, blocked(&[0])), [on(1, 2.0, 2.0)]);
    assert_eq!(points(3.0, 1.0, Some(1), blocked(&[0])), [on(1, 3.0, 1.0)]);
    assert_eq!(points(3.0, 1.0, Some(1), blocked(&[1])), []);
    assert_eq!(points(9.0, 9.0, None, nothing), []);

    let first = |x, y, deck, blocked| ship.get_closest_point_on_layers(x, y, deck, &blocked).unwrap();
    assert_eq!(first(3.0, 1.0, None, nothing), Some(on(0, 3.0, 1.0)));
    assert_eq!(first(3.0, 1.0, None, blocked(&[0])), Some(on(1, 3.0, 1.0)));
    assert_eq!(first(3.0, 1.0, Some(0), blocked(&[0])), None);
    assert_eq!(first(9.0, 9.0, None, nothing), None);
    assert_eq!(ship.get_closest_points_on_layers(1.0, 1.0, Some(2), &nothing), Err(Refusal(17)));
    assert_eq!(ship.get_closest_point_on_layers(1.0, 1.0, Some(2), &nothing), Err(Refusal(17)));

    // Several polygons at one sample, in rising number.
    let ship = Ship::new(still(vec![stacked(&[&[], &[], &[]])]).file());
    let found = ship.get_closest_points_on_layers(1.0, 1.0, None, &nothing).unwrap();
    assert_eq!(found.iter().map(|c| c.polygon.0).collect::<Vec<_>>(), [0, 1, 2]);
}

#[test]
fn closest_point_towards() {
    let ship = two_decks();
    let on = |deck, x, y| Some(Candidate { polygon: PackedPolygon::new(deck, 0), x, y });
    let towards = |x, y, to, deck| ship.get_closest_point_towards(x, y, to, deck).unwrap();
    // Points two apart: the length is 2, 1/length is 1/2, and each step goes half a unit.
    assert_eq!(towards(3.0, 1.0, (5.0, 1.0), None), on(0, 3.0, 1.0), "step 0 is the point itself");
    assert_eq!(towards(3.0, 1.0, (5.0, 1.0), Some(1)), on(1, 3.0, 1.0));
    assert_eq!(towards(-0.5, 2.0, (1.5, 2.0), None), on(0, 0.0, 2.0), "step 1, to the right");
    assert_eq!(towards(-0.5, 2.0, (-2.5, 2.0), None), None, "and away from the deck");
    assert_eq!(towards(6.5, 2.0, (4.5, 2.0), None), on(1, 6.0, 2.0), "to the left, deck 1 alone");
    assert_eq!(towards(6.5, 2.0, (4.5, 2.0), Some(0)), None);
    assert_eq!(towards(3.0, -0.5, (3.0, 1.5), None), on(0, 3.0, 0.0), "both decks in one step: the lower");
    assert_eq!(towards(3.0, -0.5, (3.0, 1.5), Some(1)), on(1, 3.0, 0.0));
    assert_eq!(towards(4.5, 1.0, (2.5, 1.0), None), on(1, 4.5, 1.0), "deck 1 in step 0, before deck 0 in step 1");
    assert_eq!(towards(-1.0, 2.0, (1.0, 2.0), None), None, "step 2 is not searched");
    assert_eq!(ship.get_closest_point_towards(1.0, 1.0, (3.0, 1.0), Some(2)), Err(Refusal(17)));

    // A stray point five from a stair at the square's corner. 1/5 is rounded, and so are 3/5 and 4/5; five times these are 3 and 4.
    let plan = ShipPlan { reach: 5.0, ..example() };
    assert_eq!(Ship::new(plan.file()).get_closest_point_towards(-3.0, -4.0, (0.0, 0.0), None).unwrap(), on(0, 0.0, 0.0));
    // It goes on past the point that it is drawn towards.
    let plan = ShipPlan { steps: 5, ..example() };
    assert_eq!(Ship::new(plan.file()).get_closest_point_towards(-2.0, 1.0, (-1.0, 1.0), None).unwrap(), on(0, 0.0, 1.0));
    // Several polygons at one sample: the lowest number.
    let ship = Ship::new(still(vec![stacked(&[&[], &[], &[]])]).file());
    assert_eq!(ship.get_closest_point_towards(1.0, 1.0, (3.0, 1.0), None).unwrap(), on(0, 1.0, 1.0));
}

#[test]
fn step_0_turns_a_negative_zero() {
    let nothing = BlockedDecks::new();
    let at_zero = |reach| {
        let ship = Ship::new(ShipPlan { reach, ..still(vec![square()]) }.file());
        let found = ship.get_closest_point_on_layers(-0.0, -0.0, None, &nothing).unwrap().unwrap();
        (found.x.to_bits(), found.y.to_bits())
    };
    assert_eq!(at_zero(0.5), (0, 0), "-0 + 0 is +0");
    assert_eq!(at_zero(0.0), (0, 0));
}

#[test]
fn heights() {
    let ship = Ship::new(example().file());
    let height = |x, y| ship.height(x, y, PackedPolygon(0)).unwrap();
    assert_eq!(height(1.0, 1.0), Some(2.0), "the mean");
    assert_eq!(height(99.0, 99.0), Some(2.0), "also off the polygon");
    assert_eq!(height(2.0, 0.0), Some(1.0), "on the first edge");
    assert_eq!(height(4.0, 1.0), Some(1.5), "a quarter up the second");
    assert_eq!(height(4.0, 4.0), Some(3.0));
    assert_eq!(height(0.0, 1.0), Some(1.5), "three quarters along the last");
    assert_eq!(ship.height(1.0, 1.0, PackedPolygon::NONE).unwrap(), None);
    assert_eq!(ship.height(1.0, 1.0, PackedPolygon::new(1, 0)), Err(Refusal(17)));
    assert_eq!(ship.height(1.0, 1.0, PackedPolygon::new(0, 1)), Err(Refusal(18)));

    let bare = Ship::new(still(vec![one_polygon(&SQUARE)]).file());
    assert_eq!(bare.height(1.0, 1.0, PackedPolygon(0)).unwrap(), None, "no heights");
    assert_eq!(bare.height(1.0, 1.0, PackedPolygon(1)), Err(Refusal(18)));

    let point = DeckPlan { heights: vec![1.0], ..one_polygon(&[(0.0, 0.0)]) };
    let point = Ship::new(still(vec![point]).file());
    assert_eq!(point.height(0.0, 0.0, PackedPolygon(0)).unwrap(), None, "an edge of no length");
    assert_eq!(point.height(1.0, 0.0, PackedPolygon(0)).unwrap(), Some(1.0), "off that edge: the mean");

    // The deck's offset is not taken off.
    let moved = Ship::new(still(vec![DeckPlan { offset: (100.0, 0.0), ..square() }]).file());
    assert_eq!(moved.height(4.0, 1.0, PackedPolygon(0)).unwrap(), Some(1.5));
}

#[test]
fn point_location() {
    let ship = Ship::new(example().file());
    let at = |x, y| ship.get_point_location(x, y, None).unwrap();
    let here = Some(PackedPolygon(0));
    assert_eq!(at(1.0, 1.0), here);
    // Each of the eight other probes reaches the square from outside.
    for (x, y) in [(-0.5, 2.0), (-0.5, -0.5), (2.0, -0.5), (4.5, -0.5), (4.5, 2.0), (4.5, 4.5), (2.0, 4.5), (-0.5, 4.5)] {
        assert_eq!(at(x, y), here, "({x}, {y})");
    }
    assert_eq!(at(5.0, 5.0), None);
    assert_eq!(at(4.625, 2.0), None);
    assert_eq!(ship.get_point_location(1.0, 1.0, Some(0)).unwrap(), here);
    assert_eq!(ship.get_point_location(1.0, 1.0, Some(1)).unwrap(), None, "an absent deck gives nothing");
    assert_eq!(ship.get_point_location(f32::NAN, 1.0, Some(1)), Err(Refusal(16)));

    let ship = two_decks();
    assert_eq!(ship.get_point_location(3.0, 1.0, None).unwrap(), Some(PackedPolygon::new(0, 0)));
    assert_eq!(ship.get_point_location(3.0, 1.0, Some(1)).unwrap(), Some(PackedPolygon::new(1, 0)));
    assert_eq!(ship.get_point_location(5.0, 1.0, None).unwrap(), Some(PackedPolygon::new(1, 0)));
}

#[test]
fn point_layer() {
    let ship = two_decks();
    let layers = |x, y, deck| ship.get_point_layer(x, y, deck).unwrap();
    assert_eq!(layers(3.0, 1.0, None), packed(&[0, 0x0100_0000]));
    assert_eq!(layers(1.0, 1.0, None), packed(&[0]));
    assert_eq!(layers(3.0, 1.0, Some(1)), packed(&[0x0100_0000]));
    assert_eq!(layers(3.0, 1.0, Some(2)), []);
    assert_eq!(layers(9.0, 9.0, None), []);
    let all = Ship::new(still(vec![square(); 256]).file());
    let found = all.get_point_layer(1.0, 1.0, None).unwrap();
    assert_eq!(found, (0..=255).map(|d| PackedPolygon::new(d, 0)).collect::<Vec<_>>());
}

/// Two squares side by side; the two vertices between them have these lists, on this many empty decks.
fn side_by_side(below: usize, lists: [&[u32]; 2]) -> Ship<'static> {
    let vertex = |x, y, list: &[u32]| VertexPlan { x, y, neighbours: list.to_vec() };
    let none: &[u32] = &[OUTSIDE];
    let deck = DeckPlan {
        vertices: vec![
            vertex(0.0, 0.0, none),
            vertex(2.0, 0.0, lists[0]),
            vertex(2.0, 2.0, lists[1]),
            vertex(0.0, 2.0, none),
            vertex(4.0, 0.0, none),
            vertex(4.0, 2.0, none),
        ],
        polygons: vec![vec![0, 1, 2, 3], vec![1, 4, 5, 2]],
        ..DeckPlan::default()
    };
    let away = DeckPlan { offset: (1000.0, 0.0), ..one_polygon(&SQUARE) };
    let mut decks = vec![away; below];
    decks.push(deck);
    Ship::new(still(decks).file())
}

#[test]
fn candidate_polygons_on_an_edge() {
    let merged = |ship: Ship| ship.candidate_polygons(2.0, 1.0, None, None, &BlockedDecks::new()).unwrap();
    assert_eq!(merged(side_by_side(0, [&[0, 1], &[1, OUTSIDE, 0]])), packed(&[0]));
    assert_eq!(merged(side_by_side(0, [&[1], &[1]])), packed(&[0]), "one way");
    assert_eq!(merged(side_by_side(0, [&[0], &[0]])), packed(&[0, 1]), "the later reaches the earlier");
    assert_eq!(merged(side_by_side(0, [&[0, 1], &[0]])), packed(&[0, 1]), "at one end alone");
    let on = |n: u32| 0x0100_0000 + n;
    assert_eq!(merged(side_by_side(1, [&[0, 1], &[0, 1]])), packed(&[on(0), on(1)]), "plain entries match on deck 0 alone");
    assert_eq!(merged(side_by_side(1, [&[on(0), on(1)], &[on(0), on(1)]])), packed(&[on(0)]));
}

#[test]
fn candidate_polygons_through_the_list() {
    let merged = |lists: &[&[u32]]| {
        let ship = Ship::new(still(vec![stacked(lists)]).file());
        ship.candidate_polygons(1.0, 1.0, None, None, &BlockedDecks::new()).unwrap()
    };
    assert_eq!(merged(&[&[], &[], &[]]), packed(&[0, 1, 2]));
    assert_eq!(merged(&[&[1], &[2], &[]]), packed(&[0]), "one that drops out passes reach on");
    assert_eq!(merged(&[&[2], &[], &[1]]), packed(&[0]), "in any order");
    assert_eq!(merged(&[&[], &[2], &[0]]), packed(&[0, 1]));
    assert_eq!(merged(&[&[3], &[], &[]]), packed(&[0, 1, 2]), "3 is not of the list");
}

#[test]
fn candidate_polygons_asked() {
    let ship = two_decks();
    let ask = |deck, polygon, blocked: &[u8]| ship.candidate_polygons(3.0, 1.0, deck, polygon, &self::blocked(blocked)).unwrap();
    let one = 0x0100_0000;
    assert_eq!(ask(None, None, &[]), packed(&[0, one]));
    assert_eq!(ask(None, None, &[0]), packed(&[one]));
    assert_eq!(ask(Some(1), None, &[]), packed(&[one]));
    assert_eq!(ask(Some(1), None, &[1]), [], "a blocked named deck gives nothing");
    assert_eq!(ask(Some(2), None, &[]), [], "nor an absent one");
    assert_eq!(ask(Some(2), Some(PackedPolygon(0x1234_5678)), &[0, 1, 2]), packed(&[0x1234_5678]), "a named polygon, unchecked");
    let nan = ship.candidate_polygons(f32::NAN, 1.0, None, Some(PackedPolygon(0)), &BlockedDecks::new());
    assert_eq!(nan, Err(Refusal(16)), "16 is asked all the same");
}

#[test]
fn islands() {
    let labels = |lists: &[&[u32]]| Ship::new(still(vec![stacked(lists)]).file()).bake_islands_detection(0);
    assert_eq!(labels(&[&[], &[], &[]]).unwrap(), [0, 1, 2]);
    assert_eq!(labels(&[&[], &[0, 2], &[]]).unwrap(), [0, 1, 1], "one way");
    assert_eq!(labels(&[&[2], &[], &[1]]).unwrap(), [0, 0, 0]);
    assert_eq!(labels(&[&[OUTSIDE], &[2, OUTSIDE], &[1]]).unwrap(), [0, 1, 1]);
    assert_eq!(labels(&[&[3], &[], &[]]), Err(Refusal(19)));

    let ship = two_decks();
    assert_eq!(ship.bake_islands_detection(1).unwrap(), [0]);
    assert_eq!(ship.bake_islands_detection(2), Err(Refusal(17)));
    assert_eq!(ship.bake_islands_detection(u32::MAX), Err(Refusal(17)));

    // An entry out of range at a vertex of no polygon is read by nobody.
    let mut deck = square();
    deck.vertices.push(VertexPlan { neighbours: vec![7], ..VertexPlan::default() });
    deck.heights.push(0.0);
    assert_eq!(Ship::new(still(vec![deck]).file()).bake_islands_detection(0).unwrap(), [0]);
}

#[test]
fn stitch_points() {
    let decks = vec![square(), one_polygon(&[(4.0, 4.0), (-0.0, 0.0), (4.0, 4.0)]), one_polygon(&[(4.0, 0.0), (-0.0, 0.0)])];
    let moved = DeckPlan { offset: (50.0, 0.0), ..decks[1].clone() };
    let at = |a, b, x, y| StitchPoint { a, b, x, y };
    let expected = [at(0, 1, 0.0, 0.0), at(0, 1, 4.0, 4.0), at(0, 1, 4.0, 4.0), at(0, 2, 0.0, 0.0), at(0, 2, 4.0, 0.0), at(1, 2, 0.0, 0.0)];
    let ship = Ship::new(still(decks.clone()).file());
    let found = ship.find_stitch_points().unwrap();
    assert_eq!(found, expected);
    // x and y are of a's vertex, with its sign.
    let negative: Vec<bool> = found.iter().map(|p| p.x.is_sign_negative()).collect();
    assert_eq!(negative, [false, false, false, false, false, true]);
    let ship = Ship::new(still(vec![decks[0].clone(), moved, decks[2].clone()]).file());
    assert_eq!(ship.find_stitch_points().unwrap(), expected, "offsets are ignored");
    assert_eq!(Ship::new(example().file()).find_stitch_points().unwrap(), []);
    // More points than the file has vertices.
    let ship = Ship::new(still(vec![one_polygon(&[(1.0, 2.0); 100]); 3]).file());
    assert_eq!(ship.find_stitch_points().unwrap().len(), 30_000);
}

#[test]
fn removal_to_one_deck() {
    let list = [OUTSIDE, 5, 0x0100_0002, 0x0200_0001, 0xFF00_0003];
    let ship = Ship::new(still(vec![stacked(&[&list]); 3]).file());
    let lists = |t| -> Vec<Vec<u32>> {
        let plan = ship.remove_stitches_to_layer(t).unwrap().plan().unwrap();
        plan.decks.into_iter().map(|d| d.vertices[3].neighbours.clone()).collect()
    };
    let without = |n: u32| list.iter().copied().filter(|&e| e != n).collect::<Vec<_>>();
    assert_eq!(lists(0), [vec![OUTSIDE, 5], without(5), without(5)]);
    assert_eq!(lists(1), [without(0x0100_0002), vec![OUTSIDE, 2], without(0x0100_0002)]);
    assert_eq!(lists(2), [without(0x0200_0001), without(0x0200_0001), vec![OUTSIDE, 1]]);
    assert_eq!(lists(255), vec![without(0xFF00_0003); 3], "all ones stays, also for 255");
    assert_eq!(lists(7), vec![list.to_vec(); 3], "a deck that is not there");
    let plain = ship.remove_stitches().unwrap().plan().unwrap();
    let found: Vec<Vec<u32>> = plain.decks.into_iter().map(|d| d.vertices[0].neighbours.clone()).collect();
    assert_eq!(found, [vec![OUTSIDE, 5], vec![OUTSIDE, 2], vec![OUTSIDE, 1]]);
}
