//! What a call does to lent output and work: question 20, output past the answer, work all zeros, empty slices.
mod common;
use common::{example, lend, no_decks, square, stacked, still, Random, CALLS, LENT};
use feedercoil::raw::{self, ANY_DECK, NO_POLYGON};
use feedercoil::{Refusal, ShipPlan};

fn needs_work(name: &str) -> bool {
    matches!(name, "candidate_polygons" | "islands" | "run_loads")
}

/// Every call with just enough room, with more, and with a byte less.
fn lend_each(plan: &ShipPlan) {
    let file = plan.file();
    let in_all: usize = plan.decks.iter().map(|d| d.polygons.len()).sum();
    for (name, size, call) in CALLS {
        let of_first = plan.decks.first().map_or(0, |deck| deck.polygons.len());
        let polygons = if name == "islands" { of_first } else { in_all };
        let a_polygon = if name == "run_loads" { 8 } else { 4 };
        let work = if needs_work(name) { a_polygon * polygons } else { 0 };
        let room = 16 * file.len();
        let (answer, wide, _) = lend(name, call, &file, room, work);
        let count = match answer {
            Ok(count) => count,
            Err(Refusal(19)) if name == "islands" || name == "run_loads" => continue,
            Err(Refusal(17)) if plan.decks.is_empty() && (name == "islands" || name == "height") => continue,
            Err(refusal) => panic!("{name}: {refusal}"),
        };
        let bytes = size * count;
        assert!(wide[bytes..].iter().all(|&b| b == LENT), "{name} wrote past its answer");

        let (answer, exact, after) = lend(name, call, &file, bytes, work + 7);
        assert_eq!((answer, &exact[..]), (Ok(count), &wide[..bytes]), "{name}");
        let left = if needs_work(name) { 0 } else { LENT };
        assert!(after.iter().all(|&b| b == left), "{name}: work after an answer");

        if bytes > 0 {
            assert_eq!(lend(name, call, &file, bytes - 1, work).0, Err(Refusal(20)), "{name}");
            assert_eq!(lend(name, call, &file, 0, work).0, Err(Refusal(20)), "{name}");
        }
        if work > 0 {
            assert_eq!(lend(name, call, &file, room, work - 1).0, Err(Refusal(20)), "{name}");
            assert_eq!(lend(name, call, &file, room, 0).0, Err(Refusal(20)), "{name}");
        }
    }
}

#[test]
fn room() {
    lend_each(&example());
    lend_each(&no_decks());
    lend_each(&still(vec![square(), stacked(&[&[1], &[2], &[], &[]]), square()]));
    lend_each(&still(vec![stacked(&[&[1], &[2], &[], &[]]); 3]));
    let mut random = Random(0x5EA7_5EA7_5EA7_5EA7);
    for _ in 0..500 {
        lend_each(&random.plan());
    }
}

/// A short output is refused by what stays after merging, and not by what was found.
#[test]
fn room_for_the_merged_list() {
    let file = still(vec![stacked(&[&[1], &[2], &[], &[]])]).file();
    let call = |out: &mut [u8], work: &mut [u8]| raw::candidate_polygons(&file, 1.0, 1.0, ANY_DECK, NO_POLYGON, &[0; 32], out, work);
    let mut work = [LENT; 16];
    let mut out = [LENT; 8];
    assert_eq!(call(&mut out[..7], &mut work), Err(Refusal(20)));
    assert_eq!((out, work), ([LENT; 8], [LENT; 16]));
    assert_eq!(call(&mut out, &mut work), Ok(2));
    assert_eq!((out, work), ([0, 0, 0, 0, 3, 0, 0, 0], [0; 16]));
    // A named polygon needs its entry and the work too.
    let named = |out: &mut [u8], work: &mut [u8]| raw::candidate_polygons(&file, 1.0, 1.0, ANY_DECK, 7, &[0; 32], out, work);
    assert_eq!(named(&mut out[..3], &mut work), Err(Refusal(20)));
    assert_eq!(named(&mut out, &mut work[..15]), Err(Refusal(20)));
    assert_eq!(named(&mut out, &mut work), Ok(1));
    assert_eq!(out, [7, 0, 0, 0, 3, 0, 0, 0]);
}

#[test]
fn empty_slices() {
    let file = example().file();
    for (name, _, call) in CALLS {
        assert_eq!(lend(name, call, &[], 0, 0).0, Err(Refusal(1)), "{name}");
    }
    // With no decks nothing but a seat's record and the new file is written.
    for (name, size, call) in CALLS {
        let answer = lend(name, call, &no_decks().file(), 0, 0).0;
        match name {
            "height" | "islands" => assert_eq!(answer, Err(Refusal(17)), "{name}"),
            "run" | "run_loads" | "remove_stitches" | "remove_stitches_to_layer" => assert_eq!(answer, Err(Refusal(20)), "{name}"),
            _ => assert_eq!(size * answer.unwrap(), 0, "{name}"),
        }
    }
    // Answers of no entries need no output.
    assert_eq!(raw::run(&file, &[0; 32], &[], &mut []), Ok(0));
    assert_eq!(raw::closest_points(&file, 9.0, 9.0, ANY_DECK, &[0; 32], &mut []), Ok(0));
    assert_eq!(raw::closest_point(&file, 9.0, 9.0, ANY_DECK, &[0; 32], &mut []), Ok(0));
    assert_eq!(raw::closest_point_towards(&file, 9.0, 9.0, 10.0, 9.0, ANY_DECK, &mut []), Ok(0));
    assert_eq!(raw::height(&file, 9.0, 9.0, NO_POLYGON, &mut []), Ok(0));
    assert_eq!(raw::point_location(&file, 9.0, 9.0, ANY_DECK), Ok(NO_POLYGON));
    assert_eq!(raw::point_layer(&file, 9.0, 9.0, ANY_DECK, &mut []), Ok(0));
    assert_eq!(raw::stitch_points(&file, &mut []), Ok(0));
    let mut work = [LENT; 4];
    assert_eq!(raw::candidate_polygons(&file, 9.0, 9.0, ANY_DECK, NO_POLYGON, &[0; 32], &mut [], &mut work), Ok(0));
    assert_eq!(work, [0; 4], "work is cleared all the same");
    let (mut table, mut work) = ([LENT; 32], [LENT; 8]);
    assert_eq!(raw::run_loads(&file, &[0; 32], &[], &mut [], &mut table, &mut work), Ok(0));
    assert_eq!((table, work), ([0; 32], [0; 8]), "and so is a sheet of no seats");
    assert_eq!(raw::closest_points(&file, 9.0, 9.0, ANY_DECK, &[], &mut []), Err(Refusal(14)));
}
