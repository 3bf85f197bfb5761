//! Document 01's example (section 7): the square and three seats.
mod common;
use common::{example, OUTSIDE};
use feedercoil::{raw, seat_list, BlockedDecks, Seat, SeatRecord, Ship};

const SEATS: [(f32, f32); 3] = [(1.0, 1.0), (5.0, 5.0), (-0.5, 2.0)];

fn seats() -> Vec<Seat> {
    SEATS.iter().map(|&(x, y)| Seat::at(x, y)).collect()
}

fn words(bytes: &[u8]) -> Vec<u32> {
    bytes.chunks(4).map(|b| u32::from_le_bytes([b[0], b[1], b[2], b[3]])).collect()
}

#[test]
fn the_file_has_196_bytes() {
    let (half, one, three, four) = (0x3F00_0000, 0x3F80_0000, 0x4040_0000, 0x4080_0000);
    let file = example().file();
    assert_eq!(file.len(), 196);
    let mut expected = vec![1, half, 2, 52, 72, 124, 32, 156, 8, 164, 16, 180, 16];
    expected.extend([0, 0, 0, 0, 0, 2, four, 0, 2, 2, four, four, 4, 2, 0, four, 6, 2]);
    expected.extend([0, OUTSIDE, 0, OUTSIDE, 0, OUTSIDE, 0, OUTSIDE]);
    expected.extend([0, 4, 0, 1, 2, 3, one, one, three, three]);
    assert_eq!(words(&file), expected);
}

#[test]
fn record_by_record() {
    let placed =
        |x, y, step, sample, tried| SeatRecord::Placed { deck: 0, polygon: 0, x, y, height: Some(2.0), step, sample, tried, candidates: 1 };
    let ship = Ship::new(example().file());
    let records = ship.run(&BlockedDecks::new(), &seats()).unwrap();
    assert_eq!(records, [placed(1.0, 1.0, 0, 0, 1), SeatRecord::Unplaced { tried: 12 }, placed(0.0, 2.0, 1, 5, 7)]);
    for (i, seat) in seats().into_iter().enumerate() {
        assert_eq!(ship.run(&BlockedDecks::new(), &[seat]).unwrap(), records[i..=i]);
    }
}

#[test]
fn the_records_bytes() {
    let mut out = [0; 3 * raw::RECORD_SIZE];
    assert_eq!(raw::run(&example().file(), &[0; 32], &seat_list(&seats()), &mut out), Ok(3));
    let (one, two) = (0x3F80_0000, 0x4000_0000);
    let expected = [[0, one, one, 1, two, 0, 0, 1, 1], [OUTSIDE, 0, 0, 0, 0, 0, 0, 12, 0], [0, 0, two, 1, two, 1, 5, 7, 1]];
    assert_eq!(words(&out), expected.concat());
}

#[test]
fn a_larger_step_number_moves_no_placed_seat() {
    let few = Ship::new(example().file()).run(&BlockedDecks::new(), &seats()).unwrap();
    for steps in 3..=16 {
        let mut plan = example();
        plan.steps = steps;
        let more = Ship::new(plan.file()).run(&BlockedDecks::new(), &seats()).unwrap();
        assert_eq!((more[0], more[2]), (few[0], few[2]), "{steps} steps");
    }
}
