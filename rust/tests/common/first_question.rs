//! Questions 1 to 13, written from document 01 and from document 02, point 5.

/// The k-th number of bytes.
pub fn number(bytes: &[u8], k: usize) -> u32 {
    u32::from_le_bytes([bytes[4 * k], bytes[4 * k + 1], bytes[4 * k + 2], bytes[4 * k + 3]])
}

fn in_size(bits: u32) -> bool {
    f32::from_bits(bits).abs() <= 1_000_000.0
}

/// Lists of start and count lie end to end, from 0 to the last of `entries`.
fn end_to_end(lists: &[(u32, u32)], entries: usize) -> bool {
    let mut at = 0;
    for &(start, count) in lists {
        if u64::from(start) != at {
            return false;
        }
        at += u64::from(count);
    }
    at == entries as u64
}

fn deck_question(blocks: &[&[u8]]) -> Option<u32> {
    let [v, n, p, c, h] = [blocks[0], blocks[1], blocks[2], blocks[3], blocks[4]];
    if v.len() < 8 || (v.len() - 8) % 16 != 0 || n.len() % 4 + c.len() % 4 + h.len() % 4 + p.len() % 8 != 0 {
        return Some(7);
    }
    let (vertices, polygons) = ((v.len() - 8) / 16, p.len() / 8);
    if vertices == 0 || polygons == 0 {
        return Some(8);
    }
    if polygons > 16_777_215 {
        return Some(9);
    }
    if !h.is_empty() && h.len() / 4 != vertices {
        return Some(10);
    }
    let floats = [0, 1].into_iter().chain((0..vertices).flat_map(|k| [2 + 4 * k, 3 + 4 * k])).map(|k| number(v, k));
    if !floats.chain((0..h.len() / 4).map(|k| number(h, k))).all(in_size) {
        return Some(11);
    }
    let neighbours: Vec<_> = (0..vertices).map(|k| (number(v, 4 + 4 * k), number(v, 5 + 4 * k))).collect();
    let corners: Vec<_> = (0..polygons).map(|k| (number(p, 2 * k), number(p, 2 * k + 1))).collect();
    let counts = corners.iter().all(|&(_, count)| (1..=4096).contains(&count));
    if !end_to_end(&neighbours, n.len() / 4) || !end_to_end(&corners, c.len() / 4) || !counts {
        return Some(12);
    }
    if !(0..c.len() / 4).all(|k| (number(c, k) as usize) < vertices) {
        return Some(13);
    }
    None
}

/// The number of the first question that a file does not pass.
pub fn first_question(file: &[u8]) -> Option<u32> {
    if file.len() < 12 {
        return Some(1);
    }
    let decks = number(file, 0) as usize;
    if decks > 256 {
        return Some(2);
    }
    let reach = f32::from_bits(number(file, 1));
    if !(0.0..=1000.0).contains(&reach) {
        return Some(3);
    }
    if !(1..=16).contains(&number(file, 2)) {
        return Some(4);
    }
    if file.len() < 12 + 40 * decks {
        return Some(5);
    }
    let mut at = 12 + 40 * decks;
    let mut blocks = vec![];
    for k in 0..5 * decks {
        let (start, length) = (number(file, 3 + 2 * k) as usize, number(file, 4 + 2 * k) as usize);
        if start != at || file.len() - at < length {
            return Some(6);
        }
        blocks.push(&file[at..at + length]);
        at += length;
    }
    // With no decks, this is the header's end.
    if at != file.len() {
        return Some(6);
    }
    blocks.chunks(5).find_map(deck_question)
}
