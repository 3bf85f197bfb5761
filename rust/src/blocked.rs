use crate::raw::BLOCKED_SIZE;

/// The decks that a search leaves out: deck d is bit d % 8 of byte d / 8, bit 0 the lowest.
#[derive(Debug, Clone, Copy, PartialEq, Eq, Hash, Default)]
pub struct BlockedDecks(pub [u8; BLOCKED_SIZE]);

impl BlockedDecks {
    /// No deck is blocked.
    pub fn new() -> Self {
        Self::default()
    }

    /// Blocks a deck.
    pub fn insert(&mut self, deck: u8) {
        self.0[usize::from(deck) / 8] |= 1 << (deck % 8);
    }

    /// Whether a deck is blocked.
    pub fn contains(&self, deck: u8) -> bool {
        self.0[usize::from(deck) / 8] >> (deck % 8) & 1 == 1
    }

    /// The bytes, as a call takes them.
    pub fn as_bytes(&self) -> &[u8] {
        &self.0
    }
}

impl FromIterator<u8> for BlockedDecks {
    fn from_iter<I: IntoIterator<Item = u8>>(decks: I) -> Self {
        let mut blocked = Self::new();
        decks.into_iter().for_each(|deck| blocked.insert(deck));
        blocked
    }
}

#[cfg(test)]
mod tests {
    use super::*;

    #[test]
    fn a_bit_a_deck() {
        for deck in 0..=255 {
            let blocked: BlockedDecks = [deck].into_iter().collect();
            assert!((0..=255).all(|d| blocked.contains(d) == (d == deck)));
            assert_eq!(blocked.0.iter().map(|b| b.count_ones()).sum::<u32>(), 1);
        }
        let blocked: BlockedDecks = [0, 9, 255].into_iter().collect();
        assert_eq!((blocked.0[0], blocked.0[1], blocked.0[31]), (1, 2, 128));
    }
}
