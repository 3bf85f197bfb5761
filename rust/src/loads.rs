use crate::bytes::counts;
use crate::plan::polygon_counts;
use crate::raw::COUNT_SIZE;
use crate::PackedPolygon;

/// How many seats of a run stand where: on each polygon, each island and each deck, and on none.
///
/// Two decks, and two seats on the first one's second polygon, which the first polygon reaches:
///
/// ```
/// use feedercoil::{BlockedDecks, DeckPlan, PackedPolygon, Refusal, Seat, Ship, ShipPlan, VertexPlan};
///
/// // Squares of side 2 in a row, each with the polygons that its vertices name.
/// let deck = |lists: &[&[u32]]| DeckPlan {
///     vertices: (0..lists.len())
///         .flat_map(|k| [(2 * k, 0), (2 * k + 2, 0), (2 * k + 2, 2), (2 * k, 2)].map(|at| (k, at)))
///         .map(|(k, (x, y))| VertexPlan { x: x as f32, y: y as f32, neighbours: lists[k].to_vec() })
///         .collect(),
///     polygons: (0..lists.len() as u32).map(|k| (4 * k..4 * k + 4).collect()).collect(),
///     ..DeckPlan::default()
/// };
/// let plan = ShipPlan { reach: 0.5, steps: 1, decks: vec![deck(&[&[1], &[], &[]]), deck(&[&[]])] };
/// let ship = Ship::new(plan.file());
///
/// let seats = [Seat::at(3.0, 1.0), Seat::at(3.5, 1.5), Seat { deck: Some(1), ..Seat::at(1.0, 1.0) }, Seat::at(50.0, 50.0)];
/// let (records, sheet) = ship.run_loads(&BlockedDecks::new(), &seats)?;
/// assert_eq!(records, ship.run(&BlockedDecks::new(), &seats)?);
/// assert_eq!(sheet.decks[0].polygons, [0, 2, 0]);
/// assert_eq!(sheet.decks[0].islands, [2, 0, 0]); // polygons 0 and 1 have the label 0
/// assert_eq!((sheet.decks[0].seats, sheet.decks[1].seats, sheet.unplaced), (2, 1, 1));
/// assert_eq!(sheet.polygon(PackedPolygon::new(0, 1)), Some(2));
///
/// // The list in two portions.
/// let (_, first) = ship.run_loads(&BlockedDecks::new(), &seats[..1])?;
/// let (_, second) = ship.run_loads(&BlockedDecks::new(), &seats[1..])?;
/// assert_eq!(first.checked_add(&second), Some(sheet));
/// # Ok::<(), Refusal>(())
/// ```
#[derive(Debug, Clone, PartialEq, Eq, Hash, Default)]
pub struct LoadSheet {
    /// Those of each deck, decks rising. None of a ship with no decks, where every seat is unplaced.
    pub decks: Vec<DeckLoads>,
    /// Seats that stand on no deck.
    pub unplaced: u64,
}

/// How many seats stand on a deck.
#[derive(Debug, Clone, PartialEq, Eq, Hash, Default)]
pub struct DeckLoads {
    /// On each polygon.
    pub polygons: Vec<u64>,
    /// On each island, at its label's place, which is the least number of a polygon that reaches it; every other place has 0.
    pub islands: Vec<u64>,
    /// On the deck.
    pub seats: u64,
}

impl LoadSheet {
    /// The sheet in the table of [`raw::run_loads`](crate::raw::run_loads) on this ship file. `None` where the table is too short for
    /// the file's polygons and decks. What is past the sheet is not read.
    pub fn read(file: &[u8], table: &[u8]) -> Option<LoadSheet> {
        let of_decks = polygon_counts(file)?;
        let mut left = counts(table);
        let mut take = |n: usize| -> Option<Vec<u64>> {
            let taken: Vec<u64> = left.by_ref().take(n).collect();
            Some(taken).filter(|taken| taken.len() == n)
        };
        let polygons = of_decks.iter().map(|&n| take(n)).collect::<Option<Vec<_>>>()?;
        let islands = of_decks.iter().map(|&n| take(n)).collect::<Option<Vec<_>>>()?;
        let seats = take(of_decks.len())?;
        let unplaced = take(1)?[0];
        let decks = polygons.into_iter().zip(islands).zip(seats).map(|((polygons, islands), seats)| DeckLoads { polygons, islands, seats });
        Some(LoadSheet { decks: decks.collect(), unplaced })
    }

    /// The seats on a polygon. `None` where the sheet has no such polygon.
    pub fn polygon(&self, polygon: PackedPolygon) -> Option<u64> {
        self.decks.get(polygon.deck() as usize)?.polygons.get(polygon.polygon() as usize).copied()
    }

    /// The seats on the island whose label is this polygon's number: 0 where it is no label. `None` where the sheet has no such
    /// polygon. The labels are those of [`Ship::bake_islands_detection`](crate::Ship::bake_islands_detection).
    pub fn island(&self, label: PackedPolygon) -> Option<u64> {
        self.decks.get(label.deck() as usize)?.islands.get(label.polygon() as usize).copied()
    }

    /// The sheet of two lists together, entry by entry: of portions of a list, that of the whole. `None` where the two have not the
    /// same number of decks, or of polygons on a deck, and so are not of one ship; and where a sum is above `u64::MAX`.
    pub fn checked_add(&self, other: &LoadSheet) -> Option<LoadSheet> {
        let decks = same_length(&self.decks, &other.decks)?.map(|(a, b)| a.checked_add(b)).collect::<Option<_>>()?;
        Some(LoadSheet { decks, unplaced: self.unplaced.checked_add(other.unplaced)? })
    }
}

impl DeckLoads {
    fn checked_add(&self, other: &DeckLoads) -> Option<DeckLoads> {
        let sums = |a: &[u64], b: &[u64]| same_length(a, b)?.map(|(a, b)| a.checked_add(*b)).collect::<Option<Vec<u64>>>();
        Some(DeckLoads {
            polygons: sums(&self.polygons, &other.polygons)?,
            islands: sums(&self.islands, &other.islands)?,
            seats: self.seats.checked_add(other.seats)?,
        })
    }
}

/// The pairs of two lists of one length.
fn same_length<'a, T>(a: &'a [T], b: &'a [T]) -> Option<impl Iterator<Item = (&'a T, &'a T)>> {
    if a.len() != b.len() {
        return None;
    }
    Some(a.iter().zip(b))
}

/// How many bytes the sheet of a ship takes. A polygon takes 8 bytes of the file and a deck 40, so that but for the last count these are
/// fewer than three times as many.
pub(crate) fn sheet_size(polygons: usize, decks: usize) -> usize {
    COUNT_SIZE * (2 * polygons + decks + 1)
}

#[cfg(test)]
mod tests {
    use super::*;
    use crate::{DeckPlan, ShipPlan};

    /// A ship of this many polygons on each deck.
    fn ship(polygons: &[usize]) -> Vec<u8> {
        let deck = |&n: &usize| DeckPlan { polygons: vec![vec![0]; n], ..DeckPlan::default() };
        ShipPlan { decks: polygons.iter().map(deck).collect(), ..ShipPlan::default() }.file()
    }

    fn table(counts: &[u64]) -> Vec<u8> {
        counts.iter().flat_map(|n| n.to_le_bytes()).collect()
    }

    fn deck(polygons: &[u64], islands: &[u64], seats: u64) -> DeckLoads {
        DeckLoads { polygons: polygons.to_vec(), islands: islands.to_vec(), seats }
    }

    #[test]
    fn polygons_islands_decks_unplaced() {
        let file = ship(&[3, 1]);
        let bytes = table(&[1, 2, 3, 4, 3, 0, 3, 4, 6, 4, 1 << 40]);
        assert_eq!(bytes.len(), sheet_size(4, 2));
        let sheet = LoadSheet::read(&file, &bytes).unwrap();
        assert_eq!(sheet, LoadSheet { decks: vec![deck(&[1, 2, 3], &[3, 0, 3], 6), deck(&[4], &[4], 4)], unplaced: 1 << 40 });
        assert_eq!(sheet.polygon(PackedPolygon::new(0, 2)), Some(3));
        assert_eq!(sheet.island(PackedPolygon::new(0, 0)), Some(3));
        assert_eq!(sheet.island(PackedPolygon::new(0, 1)), Some(0));
        assert_eq!(sheet.island(PackedPolygon::new(1, 0)), Some(4));
        for absent in [PackedPolygon::new(0, 3), PackedPolygon::new(1, 1), PackedPolygon::new(2, 0), PackedPolygon::NONE] {
            assert_eq!((sheet.polygon(absent), sheet.island(absent)), (None, None));
        }
        // What is past the sheet is no part of it, and a byte less is too short.
        assert_eq!(LoadSheet::read(&file, &[&bytes[..], &[0xA5; 9]].concat()), Some(sheet));
        for length in [0, 8, bytes.len() - 8, bytes.len() - 1] {
            assert_eq!(LoadSheet::read(&file, &bytes[..length]), None);
        }
        assert_eq!(LoadSheet::read(&file[..11], &bytes), None);
        assert_eq!(LoadSheet::read(&[], &[]), None);
    }

    #[test]
    fn no_decks() {
        let file = ship(&[]);
        assert_eq!((file.len(), sheet_size(0, 0)), (12, 8));
        let sheet = LoadSheet::read(&file, &table(&[7, 1])).unwrap();
        assert_eq!(sheet, LoadSheet { decks: vec![], unplaced: 7 });
        assert_eq!((sheet.polygon(PackedPolygon(0)), sheet.island(PackedPolygon(0))), (None, None));
        assert_eq!(sheet.checked_add(&sheet), Some(LoadSheet { decks: vec![], unplaced: 14 }));
        assert_eq!(LoadSheet::read(&file, &table(&[7])[..7]), None);
    }

    #[test]
    fn entry_by_entry() {
        let a = LoadSheet { decks: vec![deck(&[1, 2], &[3, 0], 3), deck(&[4], &[4], 4)], unplaced: 5 };
        let b = LoadSheet { decks: vec![deck(&[10, 0], &[10, 0], 10), deck(&[0], &[0], 0)], unplaced: 1 };
        let sum = LoadSheet { decks: vec![deck(&[11, 2], &[13, 0], 13), deck(&[4], &[4], 4)], unplaced: 6 };
        assert_eq!(a.checked_add(&b), Some(sum.clone()));
        assert_eq!(b.checked_add(&a), Some(sum));
    }

    #[test]
    fn sheets_of_two_ships_have_no_sum() {
        let a = LoadSheet { decks: vec![deck(&[1, 2], &[3, 0], 3), deck(&[4], &[4], 4)], unplaced: 5 };
        let fewer = LoadSheet { decks: a.decks[..1].to_vec(), unplaced: 5 };
        let swapped = LoadSheet { decks: a.decks.iter().rev().cloned().collect(), unplaced: 5 };
        let uneven = LoadSheet { decks: vec![deck(&[1, 2], &[3], 3), a.decks[1].clone()], unplaced: 5 };
        for other in [fewer, swapped, uneven, LoadSheet::default()] {
            assert_eq!(a.checked_add(&other), None);
            assert_eq!(other.checked_add(&a), None);
        }
    }

    #[test]
    fn a_sum_that_does_not_fit() {
        let one = LoadSheet { decks: vec![deck(&[1], &[1], 1)], unplaced: 1 };
        let zero = LoadSheet { decks: vec![deck(&[0], &[0], 0)], unplaced: 0 };
        let most = u64::MAX;
        for full in [deck(&[most], &[0], 0), deck(&[0], &[most], 0), deck(&[0], &[0], most)] {
            let sheet = LoadSheet { decks: vec![full], unplaced: 0 };
            assert_eq!(sheet.checked_add(&one), None);
            assert_eq!(sheet.checked_add(&zero), Some(sheet));
        }
        assert_eq!(LoadSheet { unplaced: most, ..zero }.checked_add(&one), None);
    }
}
