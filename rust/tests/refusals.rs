//! Each question's number, by every call that asks it, and that a refusal alters nothing lent (`lend` sees to that).
mod common;
use common::{example, lend, no_decks, one_polygon, passed_by_all, refused_by_all, square, still, with_table, Call, SQUARE};
use feedercoil::raw::{self, ANY_DECK, NO_POLYGON};
use feedercoil::{BlockedDecks, Candidate, DeckPlan, PackedPolygon, Refusal, Seat, Ship, ShipPlan, VertexPlan};

/// The example's file with a number in another place's stead.
fn with(at: usize, number: u32) -> Vec<u8> {
    let mut file = example().file();
    file[at..at + 4].copy_from_slice(&number.to_le_bytes());
    file
}

/// The example with its deck changed.
fn deck(change: fn(&mut DeckPlan)) -> Vec<u8> {
    let mut plan = example();
    change(&mut plan.decks[0]);
    plan.file()
}

/// The example's file with bytes added to the end of block k, and the table set right.
fn longer_block(k: usize, bytes: usize) -> Vec<u8> {
    let mut file = example().file();
    let number = |file: &[u8], at: usize| u32::from_le_bytes([file[at], file[at + 1], file[at + 2], file[at + 3]]);
    let end = number(&file, 12 + 8 * k) + number(&file, 16 + 8 * k);
    for _ in 0..bytes {
        file.insert(end as usize, 0);
    }
    let mut add = |at: usize| {
        let sum = number(&file, at) + bytes as u32;
        file[at..at + 4].copy_from_slice(&sum.to_le_bytes());
    };
    add(16 + 8 * k);
    (k + 1..5).for_each(|later| add(12 + 8 * later));
    file
}

#[test]
fn questions_1_to_6() {
    let file = example().file();
    passed_by_all(&file);
    refused_by_all(&[], 1);
    refused_by_all(&file[..11], 1);
    refused_by_all(&with(0, 257), 2);
    refused_by_all(&with(0, u32::MAX), 2);
    for reach in [f32::NAN, f32::INFINITY, -1.0, -f32::MIN_POSITIVE, 1000.0625] {
        refused_by_all(&with(4, reach.to_bits()), 3);
    }
    passed_by_all(&with(4, (-0.0f32).to_bits()));
    passed_by_all(&with(4, 1000.0f32.to_bits()));
    refused_by_all(&with(8, 0), 4);
    refused_by_all(&with(8, 17), 4);
    passed_by_all(&with(8, 16));
    refused_by_all(&file[..12], 5);
    refused_by_all(&file[..51], 5);
    refused_by_all(&with(0, 256), 5);
    refused_by_all(&file[..52], 6);
    refused_by_all(&file[..195], 6);
    refused_by_all(&[&file[..], &[0]].concat(), 6);
    refused_by_all(&with(12, 51), 6);
    refused_by_all(&with(12, 53), 6);
    refused_by_all(&with(16, 76), 6);
    refused_by_all(&with(20, u32::MAX), 6);
    refused_by_all(&with(48, u32::MAX), 6);
}

/// Document 02, point 5: with no decks the file ends with its header.
#[test]
fn questions_of_no_decks() {
    let file = no_decks().file();
    assert_eq!(file.len(), 12);
    assert_eq!(Ship::new(&file).check(), Ok(()));
    for length in 0..12 {
        refused_by_all(&file[..length], 1);
    }
    for more in [1, 2, 40, 184] {
        refused_by_all(&[&file[..], &vec![0u8; more]].concat(), 6);
    }
    refused_by_all(&with(0, 0), 6);
    refused_by_all(&[&[1u8][..], &file[1..]].concat(), 5);
    // 3 and 4 are asked of this header too, before 6.
    let changed = |reach: f32, steps: u32, more: usize| {
        let file = ShipPlan { reach, steps, decks: vec![] }.file();
        [&file[..], &vec![0u8; more]].concat()
    };
    for more in [0, 1] {
        for reach in [f32::NAN, f32::INFINITY, -1.0, 1000.0625] {
            refused_by_all(&changed(reach, 0, more), 3);
        }
        refused_by_all(&changed(0.5, 0, more), 4);
        refused_by_all(&changed(0.5, 17, more), 4);
    }
    for (reach, steps) in [(0.0, 1), (-0.0, 16), (1000.0, 2)] {
        assert_eq!(Ship::new(changed(reach, steps, 0)).check(), Ok(()));
    }
}

#[test]
fn questions_7_to_10() {
    for (k, bytes) in [(0, 1), (0, 8), (1, 1), (1, 2), (2, 4), (3, 3), (4, 2)] {
        refused_by_all(&longer_block(k, bytes), 7);
    }
    refused_by_all(&deck(|d| *d = DeckPlan { polygons: vec![vec![]], ..DeckPlan::default() }), 8);
    refused_by_all(&deck(|d| d.polygons.clear()), 8);
    // 16,777,216 polygons, of which 9 looks at nothing but their number.
    let mut many = still(vec![DeckPlan { polygons: vec![], ..one_polygon(&[(0.0, 0.0)]) }]).file();
    let bytes: u32 = 8 * 16_777_216;
    let p = u32::from_le_bytes([many[28], many[29], many[30], many[31]]);
    many[32..36].copy_from_slice(&bytes.to_le_bytes());
    many[36..40].copy_from_slice(&(p + bytes).to_le_bytes());
    many[44..48].copy_from_slice(&(p + bytes).to_le_bytes());
    many.resize(many.len() + bytes as usize, 0);
    assert_eq!(Ship::new(&many).check(), Err(Refusal(9)));
    refused_by_all(&deck(|d| d.heights.truncate(3)), 10);
    refused_by_all(&deck(|d| d.heights.push(0.0)), 10);
}

#[test]
fn questions_11_to_13() {
    for float in [f32::NAN, f32::INFINITY, f32::NEG_INFINITY, 1_000_000.06, -1_000_000.06] {
        // The deck's offset, a vertex's x and y, a height.
        for at in [52, 56, 60, 76 + 4, 180, 192] {
            refused_by_all(&with(at, float.to_bits()), 11);
        }
    }
    for float in [1_000_000.0f32, -1_000_000.0] {
        passed_by_all(&with(52, float.to_bits()));
        passed_by_all(&with(180, float.to_bits()));
    }
    refused_by_all(&with(68, 1), 12);
    refused_by_all(&with(72, 1), 12);
    refused_by_all(&with(120, 3), 12);
    refused_by_all(&with(156, 1), 12);
    refused_by_all(&with(160, 3), 12);
    refused_by_all(&longer_block(1, 4), 12);
    refused_by_all(&longer_block(3, 4), 12);
    refused_by_all(&deck(|d| d.polygons.push(vec![])), 12);
    refused_by_all(&deck(|d| d.polygons.push(vec![0; 4097])), 12);
    passed_by_all(&deck(|d| d.polygons.push(vec![0; 4096])));
    refused_by_all(&with(164, 4), 13);
    refused_by_all(&with(176, u32::MAX), 13);
}

#[test]
fn the_first_question_counts() {
    let wrong_corner = DeckPlan { polygons: vec![vec![4]], ..square() };
    let no_polygon = DeckPlan { polygons: vec![], ..square() };
    refused_by_all(&still(vec![wrong_corner.clone(), no_polygon.clone()]).file(), 13);
    refused_by_all(&still(vec![no_polygon, wrong_corner]).file(), 8);
    let seat = |deck, wish| Seat { deck, wish, ..Seat::at(1.0, 1.0) };
    let ship = Ship::new(example().file());
    let run = |seats: &[Seat]| ship.run(&BlockedDecks::new(), seats);
    assert_eq!(run(&[seat(Some(1), None), seat(None, Some(f32::NAN))]), Err(Refusal(17)), "seat by seat");
    assert_eq!(run(&[seat(Some(1), Some(f32::NAN))]), Err(Refusal(16)), "a seat's 16 before its 17");
}

/// Every call that takes a blocked set, with this one.
fn blocked_of<const N: usize>() -> [(&'static str, Call); 5] {
    [
        ("run", |file, out, _| raw::run(file, &[0; N], &[], out)),
        ("run_loads", |file, out, work| with_table(file, |table| raw::run_loads(file, &[0; N], &[], out, table, work))),
        ("closest_points", |file, out, _| raw::closest_points(file, f32::NAN, 1.0, 9, &[0; N], out)),
        ("closest_point", |file, out, _| raw::closest_point(file, f32::NAN, 1.0, 9, &[0; N], out)),
        ("candidate_polygons", |file, out, work| raw::candidate_polygons(file, f32::NAN, 1.0, 9, 0, &[0; N], out, work)),
    ]
}

#[test]
fn questions_14_and_15() {
    let file = example().file();
    for (name, call) in [blocked_of::<0>(), blocked_of::<31>(), blocked_of::<33>()].concat() {
        assert_eq!(lend(name, call, &file, 64, 64).0, Err(Refusal(14)), "{name}");
    }
    let run = |seats: &[u8]| {
        let mut out = [0; 72];
        let answer = raw::run(&file, &[0; 32], seats, &mut out);
        assert!(answer.is_ok() || out == [0; 72]);
        answer
    };
    assert_eq!(run(&[0; 19]), Err(Refusal(14)));
    assert_eq!(run(&[0; 21]), Err(Refusal(14)));
    let seat = |kind: u32, height: u32| -> Vec<u8> { [0u32, 0, 0, kind, height].iter().flat_map(|n| n.to_le_bytes()).collect() };
    assert_eq!(run(&seat(0, 0)), Ok(1));
    assert_eq!(run(&seat(1, 0x3F80_0000)), Ok(1));
    assert_eq!(run(&seat(0, 0x8000_0000)), Err(Refusal(15)), "-0 is not zero bits");
    assert_eq!(run(&seat(2, 0)), Err(Refusal(15)));
    assert_eq!(run(&[seat(1, 0), seat(u32::MAX, 0)].concat()), Err(Refusal(15)));
}

#[test]
fn question_16() {
    let file = example().file();
    let ship = Ship::new(&file);
    let nothing = BlockedDecks::new();
    for float in [f32::NAN, f32::INFINITY, f32::NEG_INFINITY, 1_000_000.06, -1_000_000.06] {
        let seats = [Seat::at(float, 0.0), Seat::at(0.0, float), Seat { wish: Some(float), ..Seat::at(0.0, 0.0) }];
        for seat in seats {
            assert_eq!(ship.run(&nothing, &[seat]), Err(Refusal(16)));
        }
        for (x, y) in [(float, 0.0), (0.0, float)] {
            let deck = Some(0);
            assert_eq!(ship.get_closest_points_on_layers(x, y, deck, &nothing), Err(Refusal(16)));
            assert_eq!(ship.get_closest_point_on_layers(x, y, deck, &nothing), Err(Refusal(16)));
            assert_eq!(ship.get_closest_point_towards(x, y, (1.0, 1.0), deck), Err(Refusal(16)));
            assert_eq!(ship.get_closest_point_towards(1.0, 1.0, (x, y), deck), Err(Refusal(16)));
            assert_eq!(ship.height(x, y, PackedPolygon(0)), Err(Refusal(16)));
            assert_eq!(ship.get_point_location(x, y, deck), Err(Refusal(16)));
            assert_eq!(ship.get_point_layer(x, y, deck), Err(Refusal(16)));
            assert_eq!(ship.candidate_polygons(x, y, deck, None, &nothing), Err(Refusal(16)));
        }
    }
}

#[test]
fn questions_17_to_19() {
    let file = example().file();
    let absent: [(&str, u32, Call); 9] = [
        ("run", 17, |file, out, _| {
            let seat = feedercoil::seat_list(&[Seat { deck: Some(256), ..Seat::at(1.0, 1.0) }]);
            raw::run(file, &[0; 32], &seat, out)
        }),
        ("run_loads", 17, |file, out, work| {
            let seat = feedercoil::seat_list(&[Seat { deck: Some(1), ..Seat::at(1.0, 1.0) }]);
            with_table(file, |table| raw::run_loads(file, &[0; 32], &seat, out, table, work))
        }),
        ("closest_points", 17, |file, out, _| raw::closest_points(file, 1.0, 1.0, 1, &[0; 32], out)),
        ("closest_point", 17, |file, out, _| raw::closest_point(file, 1.0, 1.0, 256, &[0; 32], out)),
        ("closest_point_towards", 17, |file, out, _| raw::closest_point_towards(file, 1.0, 1.0, 3.0, 1.0, 1, out)),
        ("height", 17, |file, out, _| raw::height(file, 1.0, 1.0, 0x0100_0000, out)),
        ("height", 18, |file, out, _| raw::height(file, 1.0, 1.0, 1, out)),
        ("islands", 17, |file, out, work| raw::islands(file, 1, out, work)),
        ("islands", 17, |file, out, work| raw::islands(file, ANY_DECK, out, work)),
    ];
    for (name, number, call) in absent {
        assert_eq!(lend(name, call, &file, 64, 64).0, Err(Refusal(number)), "{name}");
        assert_eq!(lend(name, call, &file, 0, 0).0, Err(Refusal(number)), "{name}, before 20");
    }
    assert_eq!(raw::point_location(&file, 1.0, 1.0, 1), Ok(NO_POLYGON));
    assert_eq!(raw::point_layer(&file, 1.0, 1.0, 1, &mut []), Ok(0));
    let islands: Call = |file, out, work| raw::islands(file, 0, out, work);
    let loads: Call = |file, out, work| with_table(file, |table| raw::run_loads(file, &[0; 32], &[], out, table, work));
    for entry in [1, 0x0100_0000, u32::MAX - 1] {
        assert_eq!(lend("islands", islands, &with(124, entry), 0, 0).0, Err(Refusal(19)));
        assert_eq!(lend("run_loads", loads, &with(124, entry), 0, 0).0, Err(Refusal(19)));
    }
}

#[test]
fn question_22() {
    let file = example().file();
    let ship = Ship::new(&file);
    let towards = |x, y, to| ship.get_closest_point_towards(x, y, to, None);
    let place = |x, y| Ok(Some(Candidate { polygon: PackedPolygon(0), x, y }));
    assert_eq!(towards(1.0, 1.0, (1.0, 1.0)), Err(Refusal(22)));
    assert_eq!(towards(9.0, 9.0, (9.0, 9.0)), Err(Refusal(22)), "off the deck too");
    assert_eq!(towards(0.0, -0.0, (-0.0, 0.0)), Err(Refusal(22)));
    assert_eq!(towards(1e6, -1e6, (1e6, -1e6)), Err(Refusal(22)));
    assert_eq!(towards(1.0, 1.0, (1.0, 1.0 + f32::EPSILON)), place(1.0, 1.0), "the next float");
    // The square of 2^-75 is half of the least float above 0: a tie, to 0. A sum of two such squares is 0 too.
    let half = f32::from_bits((127 - 75) << 23);
    let above = f32::from_bits(half.to_bits() + 1);
    for to in [(half, 0.0), (0.0, -half), (half, half), (-half, half), (f32::from_bits(1), 0.0)] {
        assert_eq!(towards(0.0, 0.0, to), Err(Refusal(22)), "{to:?}");
    }
    for to in [(above, 0.0), (half, -above), (above, above)] {
        assert_eq!(towards(0.0, 0.0, to), place(0.0, 0.0), "{to:?}");
    }

    // After 16 and 17, before 20.
    let equal: [(u32, Call); 4] = [
        (22, |file, out, _| raw::closest_point_towards(file, 1.0, 1.0, 1.0, 1.0, ANY_DECK, out)),
        (22, |file, out, _| raw::closest_point_towards(file, 1.0, 1.0, 1.0, 1.0, 0, out)),
        (17, |file, out, _| raw::closest_point_towards(file, 1.0, 1.0, 1.0, 1.0, 1, out)),
        (16, |file, out, _| raw::closest_point_towards(file, 2e6, 1.0, 2e6, 1.0, 1, out)),
    ];
    for (number, call) in equal {
        for room in [0, 11, 12, 64] {
            assert_eq!(lend("closest_point_towards", call, &file, room, 0).0, Err(Refusal(number)));
        }
    }
}

#[test]
fn what_a_refusal_says() {
    let ship = Ship::new(vec![0; 5]);
    let refusal = ship.check().unwrap_err();
    assert_eq!((refusal.question(), refusal.sentence()), (1, "The ship file is shorter than its header of 12 bytes."));
    let plan = ShipPlan { decks: vec![DeckPlan { vertices: vec![VertexPlan::default()], ..DeckPlan::default() }], reach: 1.0, steps: 1 };
    let refusal = Ship::new(plan.file()).check().unwrap_err();
    assert_eq!(refusal.to_string(), "refused, question 8: A deck has no vertex, or no polygon.");
    assert_eq!(Ship::new(still(vec![one_polygon(&SQUARE)]).file()).check(), Ok(()));
}
