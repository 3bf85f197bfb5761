use std::error::Error;
use std::fmt;

/// What each number says of the input, 1 first.
const SENTENCES: [&str; 22] = [
    "The ship file is shorter than its header of 12 bytes.",
    "The ship has more than 256 decks.",
    "The reach is not a number from 0 to 1,000.",
    "The number of steps is not from 1 to 16.",
    "The ship file ends before its table of blocks does.",
    "The blocks do not lie end to end, from the table of blocks to the file's last byte.",
    "A deck has a block that is no whole number of entries.",
    "A deck has no vertex, or no polygon.",
    "A deck has more than 16,777,215 polygons.",
    "A deck has heights, but not one for each vertex.",
    "A deck has an offset, a coordinate or a height that is not finite, or is above 1,000,000 in size.",
    "A deck's lists do not lie end to end, or a polygon has no vertex or more than 4,096.",
    "A polygon names a vertex that its deck does not have.",
    "The blocked set is not 32 bytes long, or the seat list is no whole number of seats of 20 bytes.",
    "A seat's kind is neither 0 nor 1, or it is 0 and a height is given.",
    "A coordinate or a wished height of the call is not finite, or is above 1,000,000 in size.",
    "The ship does not have the named deck.",
    "The deck does not have the named polygon.",
    "A vertex of a polygon has a neighbour entry that is neither the outside nor a polygon of the deck.",
    "The output or the table is too short for this answer, or the work is shorter than 4 bytes a polygon, of a load sheet 8.",
    "The input of seatlist is longer than 65,536 bytes, or too short for its file and its blocked set.",
    "The point is the one to go towards, or so near to it that their squared distance is 0.",
];

/// Why a call was refused: the number of the first question that its input does not pass.
///
/// The library gives 1 to 20 and 22; 21 is the program `seatlist`'s.
#[derive(Debug, Clone, Copy, PartialEq, Eq, Hash)]
pub struct Refusal(pub u32);

impl Refusal {
    /// The question's number.
    pub fn question(self) -> u32 {
        self.0
    }

    /// What the number says of the input.
    pub fn sentence(self) -> &'static str {
        let at = self.0.wrapping_sub(1) as usize;
        SENTENCES.get(at).copied().unwrap_or("There is no question of this number.")
    }
}

impl fmt::Display for Refusal {
    fn fmt(&self, f: &mut fmt::Formatter<'_>) -> fmt::Result {
        write!(f, "refused, question {}: {}", self.0, self.sentence())
    }
}

impl Error for Refusal {}

#[cfg(test)]
mod tests {
    use super::*;

    #[test]
    fn one_sentence_a_question() {
        for (i, sentence) in SENTENCES.iter().enumerate() {
            assert_eq!(Refusal(i as u32 + 1).sentence(), *sentence);
            assert!(sentence.ends_with('.') && !sentence.contains(". "), "{sentence}");
            assert!(!SENTENCES[..i].contains(sentence), "{sentence}");
        }
    }

    #[test]
    fn numbers_of_no_question() {
        for number in [0, 23, u32::MAX] {
            assert_eq!(Refusal(number).sentence(), "There is no question of this number.");
        }
    }

    #[test]
    fn shown_with_its_number() {
        let refusal = Refusal(17);
        assert_eq!(refusal.question(), 17);
        assert_eq!(refusal.to_string(), "refused, question 17: The ship does not have the named deck.");
        let error: Box<dyn Error> = refusal.into();
        assert!(error.source().is_none());
    }
}
