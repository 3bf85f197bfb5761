//! Document 02, point 4: the load sheet, with counts worked out by hand, and on random ships with counts made from the records.
mod common;
use common::{example, no_decks, Random, LENT, OUTSIDE};
use feedercoil::raw;
use feedercoil::{
    seat_list, BlockedDecks, DeckLoads, DeckPlan, LoadSheet, PackedPolygon, Refusal, Seat, SeatRecord, Ship, ShipPlan, VertexPlan,
};

/// Squares of side 1 around (0, 0), (2, 0), (4, 0) .., the first vertex of each with one of these lists.
fn row(lists: &[&[u32]]) -> DeckPlan {
    let mut deck = DeckPlan::default();
    for (k, list) in lists.iter().enumerate() {
        let x = 2.0 * k as f32;
        let vertex = |x, y, list: &[u32]| VertexPlan { x, y, neighbours: list.to_vec() };
        deck.vertices.push(vertex(x - 0.5, -0.5, list));
        deck.vertices.extend([(x + 0.5, -0.5), (x + 0.5, 0.5), (x - 0.5, 0.5)].map(|(x, y)| vertex(x, y, &[])));
        deck.polygons.push((4 * k as u32..4 * k as u32 + 4).collect());
    }
    deck
}

/// Labels 0, 1, 1 on deck 0, since reach is one way; and on deck 1 one island of two polygons, ten away.
fn two_decks() -> ShipPlan {
    let above = DeckPlan { offset: (0.0, 10.0), ..row(&[&[1], &[0]]) };
    ShipPlan { reach: 0.5, steps: 2, decks: vec![row(&[&[], &[0, 2], &[]]), above] }
}

/// Two on polygon 0 of deck 0, one on its polygon 2, three on deck 1, two unplaced.
fn seats() -> Vec<Seat> {
    let on = |deck, x, y| Seat { deck: Some(deck), ..Seat::at(x, y) };
    vec![
        Seat::at(0.0, 0.0),
        Seat::at(4.0, 0.0),
        Seat::at(2.0, 10.0),
        Seat::at(50.0, 50.0),
        Seat::at(0.0, -0.75), // step 1
        on(1, 2.0, 10.25),
        on(1, 0.0, 0.0),
        Seat::at(0.25, 10.0),
    ]
}

const COUNTS: [u64; 13] = [2, 0, 1, 1, 2, 2, 1, 0, 3, 0, 3, 3, 2];

fn bytes(counts: &[u64]) -> Vec<u8> {
    counts.iter().flat_map(|n| n.to_le_bytes()).collect()
}

fn deck(polygons: &[u64], islands: &[u64], seats: u64) -> DeckLoads {
    DeckLoads { polygons: polygons.to_vec(), islands: islands.to_vec(), seats }
}

#[test]
fn two_decks_and_three_islands() {
    let ship = Ship::new(two_decks().file());
    let nothing = BlockedDecks::new();
    assert_eq!(ship.bake_islands_detection(0).unwrap(), [0, 1, 1]);
    assert_eq!(ship.bake_islands_detection(1).unwrap(), [0, 0]);
    let (records, sheet) = ship.run_loads(&nothing, &seats()).unwrap();
    assert_eq!(records, ship.run(&nothing, &seats()).unwrap());
    assert_eq!(sheet, LoadSheet { decks: vec![deck(&[2, 0, 1], &[2, 1, 0], 3), deck(&[1, 2], &[3, 0], 3)], unplaced: 2 });
    assert_eq!(sheet.polygon(PackedPolygon::new(0, 2)), Some(1));
    assert_eq!(sheet.island(PackedPolygon::new(0, 1)), Some(1), "the seat on polygon 2 counts at its label's place");
    let of_bytes = ship.run_list_loads(nothing.as_bytes(), &seat_list(&seats()));
    assert_eq!(of_bytes, Ok((records, sheet)));
}

#[test]
fn blocked_decks_and_no_seats() {
    let ship = Ship::new(two_decks().file());
    let run = |decks: &[u8], seats: &[Seat]| ship.run_loads(&decks.iter().copied().collect(), seats).unwrap().1;
    let (zero, one) = (deck(&[0; 3], &[0; 3], 0), deck(&[0; 2], &[0; 2], 0));
    assert_eq!(run(&[], &[]), LoadSheet { decks: vec![zero.clone(), one.clone()], unplaced: 0 });
    let sheet = run(&[0], &seats());
    assert_eq!(sheet, LoadSheet { decks: vec![zero.clone(), deck(&[1, 2], &[3, 0], 3)], unplaced: 5 });
    let sheet = run(&[1], &seats());
    assert_eq!(sheet, LoadSheet { decks: vec![deck(&[2, 0, 1], &[2, 1, 0], 3), one.clone()], unplaced: 5 });
    assert_eq!(run(&[0, 1], &seats()), LoadSheet { decks: vec![zero, one], unplaced: 8 });
}

/// A run with this much of output, table and work.
fn lend(file: &[u8], seats: &[u8], lent: [usize; 3]) -> (Result<usize, Refusal>, [Vec<u8>; 3]) {
    let mut slices = lent.map(|n| vec![LENT; n]);
    let [out, table, work] = &mut slices;
    let answer = raw::run_loads(file, &[0; 32], seats, out, table, work);
    if answer.is_err() {
        assert!(slices.iter().flatten().all(|&b| b == LENT), "a refusal altered what was lent: {answer:?}");
    }
    (answer, slices)
}

#[test]
fn the_tables_bytes() {
    let (file, list) = (two_decks().file(), seat_list(&seats()));
    let need = [36 * 8, 8 * COUNTS.len(), 8 * 5];
    let (answer, [exact, table, work]) = lend(&file, &list, need);
    assert_eq!((answer, table, work), (Ok(8), bytes(&COUNTS), vec![0; 40]));
    let mut records = vec![0; need[0]];
    assert_eq!(raw::run(&file, &[0; 32], &list, &mut records), Ok(8));
    assert_eq!(exact, records);
    // More than it takes: what is past the answer stays, and work is cleared to its end.
    for more in [1, 7, 8, 100] {
        let (answer, [out, table, work]) = lend(&file, &list, need.map(|n| n + more));
        assert_eq!((answer, &out[..need[0]], &table[..need[1]]), (Ok(8), &exact[..], &bytes(&COUNTS)[..]));
        assert!(out[need[0]..].iter().chain(&table[need[1]..]).all(|&b| b == LENT));
        assert!(work.iter().all(|&b| b == 0));
    }
    // Each a byte short, and none of it.
    for k in 0..3 {
        for short in [0, need[k] / 2, need[k] - 1] {
            let mut lent = need.map(|n| n + 9);
            lent[k] = short;
            assert_eq!(lend(&file, &list, lent).0, Err(Refusal(20)), "{lent:?}");
        }
    }
    // The table and the work are wanted without a seat too.
    assert_eq!(lend(&file, &[], [0, need[1], need[2]]), (Ok(0), [vec![], vec![0; need[1]], vec![0; need[2]]]));
    assert_eq!(lend(&file, &[], [0, need[1] - 1, need[2]]).0, Err(Refusal(20)));
    assert_eq!(lend(&file, &[], [0, need[1], need[2] - 1]).0, Err(Refusal(20)));
}

/// One count, the unplaced, and no work.
#[test]
fn no_decks_yet() {
    let (file, list) = (no_decks().file(), seat_list(&[Seat::at(0.0, 0.0), Seat { wish: Some(1.0), ..Seat::at(9.0, 9.0) }]));
    let ship = Ship::new(&file);
    let sheet = |unplaced| LoadSheet { decks: vec![], unplaced };
    let unplaced = SeatRecord::Unplaced { tried: 0 };
    assert_eq!(ship.run_list_loads(&[0; 32], &list), Ok((vec![unplaced; 2], sheet(2))));
    assert_eq!(ship.run_list_loads(&[255; 32], &list), Ok((vec![unplaced; 2], sheet(2))), "every deck's bit set");
    assert_eq!(ship.run_loads(&BlockedDecks::new(), &[]), Ok((vec![], sheet(0))));
    let (answer, [out, table, work]) = lend(&file, &list, [72, 8, 0]);
    assert_eq!((answer, table, work), (Ok(2), bytes(&[2]), vec![]));
    let record = [&[255u8; 4][..], &[0; 32]].concat();
    assert_eq!(out, [&record[..], &record].concat());
    let (answer, [_, table, work]) = lend(&file, &list, [72, 17, 9]);
    assert_eq!((answer, &table[..8], &table[8..], work), (Ok(2), &bytes(&[2])[..], &[LENT; 9][..], vec![0; 9]));
    for short in [[71, 8, 0], [0, 8, 0], [72, 7, 0], [72, 0, 0]] {
        assert_eq!(lend(&file, &list, short).0, Err(Refusal(20)), "{short:?}");
    }
    for deck in [0, 1, 255, 256] {
        let named = seat_list(&[Seat::at(0.0, 0.0), Seat { deck: Some(deck), ..Seat::at(0.0, 0.0) }]);
        assert_eq!(lend(&file, &named, [0; 3]).0, Err(Refusal(17)));
    }
    let (_, part) = ship.run_loads(&BlockedDecks::new(), &[Seat::at(3.0, 3.0)]).unwrap();
    assert_eq!(part.checked_add(&sheet(2)), Some(sheet(3)));
}

/// docs/FORMAT.md's example.
#[test]
fn the_documents_table() {
    let ship = two_decks();
    let one = DeckPlan { offset: (0.0, 10.0), ..row(&[&[]]) };
    let file = ShipPlan { decks: vec![ship.decks[0].clone(), one], ..ship }.file();
    let at = [(0.0, 0.0), (0.0, 10.0), (4.0, 0.0), (0.25, 0.0), (9.0, 9.0), (0.0, 10.25)];
    let list = seat_list(&at.map(|(x, y)| Seat::at(x, y)));
    let (answer, [_, table, _]) = lend(&file, &list, [36 * 6, 88, 32]);
    assert_eq!((answer, table), (Ok(6), bytes(&[2, 0, 1, 2, 2, 1, 0, 2, 3, 2, 1])));
    assert_eq!(lend(&file, &list, [36 * 6, 87, 32]).0, Err(Refusal(20)));
}

#[test]
fn question_19() {
    let bad = || row(&[&[], &[2]]);
    let good = || row(&[&[OUTSIDE, 1], &[]]);
    let ship = |decks| Ship::new(ShipPlan { reach: 0.5, steps: 1, decks }.file());
    let run =
        |ship: &Ship, blocked: &[u8], seats: &[Seat]| ship.run_loads(&blocked.iter().copied().collect(), seats).map(|(_, sheet)| sheet);
    let seat = Seat { deck: Some(0), ..Seat::at(0.0, 0.0) };
    for decks in [vec![bad(), good()], vec![good(), bad()], vec![good(), good(), bad()]] {
        let last = decks.len() as u8 - 1;
        let ship = ship(decks);
        for blocked in [&[][..], &[last], &[0, 1, 2]] {
            for seats in [&[][..], &[seat]] {
                assert_eq!(run(&ship, blocked, seats), Err(Refusal(19)));
            }
        }
        assert_eq!(ship.run(&BlockedDecks::new(), &[seat]).map(|r| r.len()), Ok(1), "the run does not ask it");
        // The seats' questions come before it.
        let absent = Seat { deck: Some(7), ..seat };
        assert_eq!(run(&ship, &[], &[seat, absent]), Err(Refusal(17)));
        assert_eq!(run(&ship, &[], &[Seat { wish: Some(f32::NAN), ..seat }]), Err(Refusal(16)));
        assert_eq!(ship.run_list_loads(&[0; 31], &[]).err(), Some(Refusal(14)));
        // And 20 after it.
        assert_eq!(lend(ship.file(), &seat_list(&[seat]), [0; 3]).0, Err(Refusal(19)));
    }
    assert!(run(&ship(vec![good(), good()]), &[], &[seat]).is_ok());
    // An entry out of range at a vertex of no polygon is read by nobody.
    let mut loose = good();
    loose.vertices.push(VertexPlan { neighbours: vec![7], ..VertexPlan::default() });
    assert!(run(&ship(vec![loose]), &[], &[seat]).is_ok());
    assert_eq!(Ship::new(vec![0; 5]).run_loads(&BlockedDecks::new(), &[]).err(), Some(Refusal(1)));
}

/// The sheet of records, each counted at its place.
fn counted(ship: &Ship, records: &[SeatRecord]) -> LoadSheet {
    let plan = ship.plan().unwrap();
    let labels: Vec<Vec<u32>> = (0..plan.decks.len()).map(|d| ship.bake_islands_detection(d as u32).unwrap()).collect();
    let zero = |deck: &DeckPlan| deck.polygons.iter().map(|_| 0).collect::<Vec<u64>>();
    let decks = plan.decks.iter().map(|deck| DeckLoads { polygons: zero(deck), islands: zero(deck), seats: 0 });
    let mut sheet = LoadSheet { decks: decks.collect(), unplaced: 0 };
    for record in records {
        match *record {
            SeatRecord::Unplaced { .. } => sheet.unplaced += 1,
            SeatRecord::Placed { deck, polygon, .. } => {
                let (d, k) = (deck as usize, polygon as usize);
                sheet.decks[d].polygons[k] += 1;
                sheet.decks[d].islands[labels[d][k] as usize] += 1;
                sheet.decks[d].seats += 1;
            }
        }
    }
    sheet
}

/// A random plan, the entries of most of them brought into range.
fn random_plan(random: &mut Random) -> ShipPlan {
    let mut plan = random.plan();
    if random.below(4) > 0 {
        for deck in &mut plan.decks {
            let polygons = deck.polygons.len() as u32;
            deck.vertices.iter_mut().flat_map(|v| &mut v.neighbours).filter(|e| **e != OUTSIDE).for_each(|e| *e %= polygons);
        }
    }
    plan
}

#[test]
fn random_ships() {
    let mut random = Random(0x10AD_5EA7_10AD_5EA7);
    let (mut answered, mut refused) = (0, 0);
    for _ in 0..800 {
        let plan = random_plan(&mut random);
        let decks = plan.decks.len() as u32;
        let ship = Ship::new(plan.file());
        let blocked: BlockedDecks = (0..random.below(2)).map(|_| random.below(4) as u8).collect();
        let seat = |random: &mut Random| Seat {
            deck: random.named_deck(decks),
            wish: if random.below(3) == 0 { Some(random.float()) } else { None },
            ..Seat::at(random.float(), random.float())
        };
        let seats: Vec<Seat> = (0..random.below(12)).map(|_| seat(&mut random)).collect();
        if (0..decks).any(|d| ship.bake_islands_detection(d) == Err(Refusal(19))) {
            assert_eq!(ship.run_loads(&blocked, &seats).err(), Some(Refusal(19)), "{plan:?}");
            refused += 1;
            continue;
        }
        let (records, sheet) = ship.run_loads(&blocked, &seats).unwrap();
        assert_eq!(records, ship.run(&blocked, &seats).unwrap());
        assert_eq!(sheet, counted(&ship, &records), "{plan:?}");
        for deck in &sheet.decks {
            assert_eq!((deck.polygons.iter().sum::<u64>(), deck.islands.iter().sum::<u64>()), (deck.seats, deck.seats));
        }
        assert_eq!(sheet.decks.iter().map(|deck| deck.seats).sum::<u64>() + sheet.unplaced, seats.len() as u64);
        // In portions, cut anywhere.
        let cut = random.below(seats.len() as u32 + 1) as usize;
        let [first, second] = [&seats[..cut], &seats[cut..]].map(|part| ship.run_loads(&blocked, part).unwrap());
        assert_eq!([first.0, second.0].concat(), records);
        assert_eq!(first.1.checked_add(&second.1), Some(sheet));
        answered += 1;
    }
    assert!(answered > 400 && refused > 50, "{answered} {refused}");
}

#[test]
fn sheets_of_other_ships_do_not_add() {
    let nothing = BlockedDecks::new();
    let sheet = |plan: ShipPlan| Ship::new(plan.file()).run_loads(&nothing, &[Seat::at(0.0, 0.0)]).unwrap().1;
    assert_eq!(sheet(two_decks()).checked_add(&sheet(example())), None);
    assert_eq!(sheet(example()).checked_add(&sheet(two_decks())), None);
}
