//! Questions 1 to 13, as `common/first_question.rs` reads them, against the library, on files with a few changes.
mod common;
#[path = "common/first_question.rs"]
mod first_question;
use common::Random;
use feedercoil::{Refusal, Ship};
use first_question::{first_question, number};

/// A number that may stand in a file: near the old one, near a bound of some question, or any.
fn changed(random: &mut Random, old: u32) -> u32 {
    let million = 1_000_000.0f32.to_bits();
    let near =
        [0, 1, 4, 16, 17, 256, 257, 4096, 4097, u32::MAX, 1u32 << 31, f32::NAN.to_bits(), f32::INFINITY.to_bits(), million, million + 1];
    match random.below(4) {
        0 => old.wrapping_add(1),
        1 => old.wrapping_sub(1 + random.below(16)),
        2 => near[random.below(near.len() as u32) as usize],
        _ => million | 1 << 31 | random.below(2),
    }
}

/// Blocks with bytes added or taken away, laid end to end again.
fn relaid(random: &mut Random, file: &[u8]) -> Vec<u8> {
    let decks = number(file, 0) as usize;
    let mut blocks: Vec<Vec<u8>> =
        (0..5 * decks).map(|k| file[number(file, 3 + 2 * k) as usize..][..number(file, 4 + 2 * k) as usize].to_vec()).collect();
    let at = random.below(blocks.len() as u32) as usize;
    let length = blocks[at].len() as u32;
    let unit = [1, 4, 8, 16, length][random.below(5) as usize];
    blocks[at].resize(if random.below(2) == 0 { length + unit } else { length.saturating_sub(unit) } as usize, 0);
    let mut new = file[..12].to_vec();
    let mut start = 12 + 40 * decks;
    for block in &blocks {
        new.extend((start as u32).to_le_bytes());
        new.extend((block.len() as u32).to_le_bytes());
        start += block.len();
    }
    new.extend(blocks.concat());
    new
}

#[test]
fn the_first_question_that_fails() {
    let mut random = Random(0x9E37_79B9_7F4A_7C15);
    let mut seen = [0u32; 14];
    let (mut no_decks, mut too_long) = (0, 0);
    for _ in 0..60_000 {
        let mut file = random.plan().file();
        if random.below(3) == 0 && file.len() > 12 {
            file = relaid(&mut random, &file);
        }
        for _ in 0..random.below(3) {
            let k = random.below(file.len() as u32 / 4) as usize;
            let new = changed(&mut random, number(&file, k));
            file[4 * k..4 * k + 4].copy_from_slice(&new.to_le_bytes());
        }
        match random.below(20) {
            0 => file.truncate(random.below(file.len() as u32) as usize),
            1 => file.truncate(random.below(60).min(file.len() as u32) as usize),
            2 => file.push(0),
            _ => {}
        }
        let expected = first_question(&file);
        seen[expected.unwrap_or(0) as usize] += 1;
        no_decks += u32::from(expected.is_none() && file.len() == 12);
        too_long += u32::from(expected == Some(6) && file[..4] == [0; 4]);
        assert_eq!(Ship::new(&file).check().err(), expected.map(Refusal), "{file:02X?}");
    }
    assert!(no_decks > 1000 && too_long > 100, "{no_decks} of no decks, {too_long} that go on after their header");
    // Each question but 9, which wants a file of 128 megabytes.
    assert!(seen.iter().enumerate().all(|(k, &count)| k == 9 || count >= 20), "{seen:?}");
}
