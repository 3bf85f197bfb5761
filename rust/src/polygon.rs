/// A polygon of a ship in one number: deck · 2^24 + the polygon's number in its deck.
#[derive(Debug, Clone, Copy, PartialEq, Eq, PartialOrd, Ord, Hash)]
pub struct PackedPolygon(pub u32);

impl PackedPolygon {
    /// No polygon: all ones.
    pub const NONE: PackedPolygon = PackedPolygon(u32::MAX);

    /// The polygon of this number in this deck; of the number, the lower 24 bits.
    pub fn new(deck: u8, polygon: u32) -> Self {
        PackedPolygon(u32::from(deck) << 24 | polygon & 0x00FF_FFFF)
    }

    /// The deck, 0 to 255.
    pub fn deck(self) -> u32 {
        self.0 >> 24
    }

    /// The number in the deck.
    pub fn polygon(self) -> u32 {
        self.0 & 0x00FF_FFFF
    }
}

#[cfg(test)]
mod tests {
    use super::*;

    #[test]
    fn deck_3_polygon_7() {
        let packed = PackedPolygon(0x0300_0007);
        assert_eq!((packed.deck(), packed.polygon()), (3, 7));
        assert_eq!(PackedPolygon::new(3, 7), packed);
        assert_eq!(PackedPolygon::new(255, 0x00FF_FFFF), PackedPolygon::NONE);
    }
}
