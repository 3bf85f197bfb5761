use crate::bytes::{put, put_float};
use crate::raw::SEAT_SIZE;

/// A passenger seat. A deck of `Some(u32::MAX)` is the file's word for "any deck", as `None` is.
#[derive(Debug, Clone, Copy, PartialEq)]
pub struct Seat {
    pub x: f32,
    pub y: f32,
    /// The one deck that may be searched; `None` leaves them all. A blocked deck is searched for no seat, named or not.
    pub deck: Option<u32>,
    /// The wished height: of the candidates, the one nearest to it is chosen. Without a wish the first is.
    pub wish: Option<f32>,
}

impl Seat {
    /// A seat on any deck, with no wish.
    pub fn at(x: f32, y: f32) -> Self {
        Seat { x, y, deck: None, wish: None }
    }
}

/// The bytes of a seat list, 20 a seat.
pub fn seat_list(seats: &[Seat]) -> Vec<u8> {
    let mut bytes = Vec::with_capacity(SEAT_SIZE * seats.len());
    for seat in seats {
        put_float(&mut bytes, seat.x);
        put_float(&mut bytes, seat.y);
        put(&mut bytes, seat.deck.unwrap_or(u32::MAX));
        put(&mut bytes, u32::from(seat.wish.is_some()));
        put(&mut bytes, seat.wish.map_or(0, f32::to_bits));
    }
    bytes
}

#[cfg(test)]
mod tests {
    use super::*;
    use crate::bytes::numbers;

    #[test]
    fn twenty_bytes_a_seat() {
        let seats = [Seat::at(1.0, -0.5), Seat { x: 0.0, y: 2.0, deck: Some(3), wish: Some(-0.0) }];
        let any = u32::MAX;
        assert_eq!(numbers(&seat_list(&seats)), [0x3F80_0000, 0xBF00_0000, any, 0, 0, 0, 0x4000_0000, 3, 1, 0x8000_0000]);
        assert!(seat_list(&[]).is_empty());
    }
}
