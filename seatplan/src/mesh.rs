//! A deck in polyanya's text format, version 2: `mesh`, `2`, the numbers of vertices and polygons; a line a vertex, its x, y, how many
//! polygons are around it and their numbers; a line a polygon, how many vertices it has, their numbers and a neighbour a side. The
//! outside is -1.
use feedercoil::{DeckPlan, VertexPlan};

use crate::around::OUTSIDE;
use crate::rows::{word_rows, Cell, Row};
use crate::{Error, Place};

/// What a mesh file has: a deck without heights, and the places of its rows.
pub struct Mesh {
    pub deck: DeckPlan,
    pub vertices: Vec<Place>,
    pub polygons: Vec<Place>,
}

pub fn read_mesh(file: &str, text: &str) -> Result<Mesh, Error> {
    let rows = word_rows(file, text);
    let mut lines = Lines { file, last: text.lines().count(), rows: rows.iter() };
    lines.word("mesh", "the word 'mesh'")?;
    lines.word("2", "version 2 of the format")?;
    let counts = lines.next("numbers of vertices and polygons")?;
    let vertices: usize = counts.needed(0, "number of vertices")?.whole("number of vertices")?;
    let polygons: usize = counts.needed(1, "number of polygons")?.whole("number of polygons")?;
    counts.at_most(2)?;
    let mut mesh = Mesh { deck: DeckPlan::default(), vertices: Vec::new(), polygons: Vec::new() };
    for _ in 0..vertices {
        let row = lines.next("vertex")?;
        mesh.deck.vertices.push(vertex(row)?);
        mesh.vertices.push(row.place.clone());
    }
    for _ in 0..polygons {
        let row = lines.next("polygon")?;
        mesh.deck.polygons.push(polygon(row)?);
        mesh.polygons.push(row.place.clone());
    }
    match lines.rows.next() {
        Some(row) => Err(Error::text(&row.place, format!("a line after the {vertices} vertices and {polygons} polygons"))),
        None => Ok(mesh),
    }
}

struct Lines<'a> {
    file: &'a str,
    last: usize,
    rows: std::slice::Iter<'a, Row>,
}

impl<'a> Lines<'a> {
    fn next(&mut self, kind: &str) -> Result<&'a Row, Error> {
        let end = Place { file: self.file.into(), line: self.last + 1, column: 1 };
        self.rows.next().ok_or_else(|| Error::text(&end, format!("the text ends before the {kind}")))
    }

    fn word(&mut self, word: &str, kind: &str) -> Result<(), Error> {
        let row = self.next(kind)?;
        if row.cells[0].text != word {
            return Err(Error::text(&row.place, format!("'{}', where there has to be {kind}", row.cells[0].text)));
        }
        row.at_most(1)
    }
}

fn vertex(row: &Row) -> Result<VertexPlan, Error> {
    let x = row.needed(0, "x")?.float()?;
    let y = row.needed(1, "y")?.float()?;
    let count: usize = row.needed(2, "number of polygons around it")?.whole("number of polygons")?;
    let neighbours = counted(row, 3, count, "polygons", entry)?;
    row.at_most(count.saturating_add(3))?;
    Ok(VertexPlan { x, y, neighbours })
}

fn polygon(row: &Row) -> Result<Vec<u32>, Error> {
    let count: usize = row.needed(0, "number of vertices")?.whole("number of vertices")?;
    let corners = counted(row, 1, count, "vertices", |cell| cell.whole("vertex number"))?;
    // The ship file has no place for the neighbours of a polygon. They are read, so that a wrong count shows.
    counted(row, count.saturating_add(1), count, "neighbours", entry)?;
    row.at_most(count.saturating_mul(2).saturating_add(1))?;
    Ok(corners)
}

/// So many cells from one on.
fn counted(row: &Row, from: usize, count: usize, kind: &str, read: fn(&Cell) -> Result<u32, Error>) -> Result<Vec<u32>, Error> {
    let cells = row.cells.get(from..).unwrap_or(&[]);
    if cells.len() < count {
        return Err(Error::text(&row.place, format!("the row has {} of its {count} {kind}", cells.len())));
    }
    cells[..count].iter().map(read).collect()
}

/// An entry of a neighbour list: a polygon, plain or packed, or the outside.
pub fn entry(cell: &Cell) -> Result<u32, Error> {
    match cell.text.as_str() {
        "-1" | "outside" => Ok(OUTSIDE),
        _ => cell.whole("polygon number"),
    }
}

#[cfg(test)]
mod tests {
    use super::*;

    const SQUARE: &str = "mesh\n2\n4 1\n0 0 2 0 -1\n4 0 2 0 -1\n\n4 4 2 0 -1\n0 4.5 1 0\n4 0 1 2 3 -1 -1 -1 -1\n";

    #[test]
    fn a_square() {
        let mesh = read_mesh("m", SQUARE).unwrap();
        assert_eq!(mesh.deck.polygons, [[0, 1, 2, 3]]);
        assert_eq!(mesh.deck.vertices[2], VertexPlan { x: 4.0, y: 4.0, neighbours: vec![0, OUTSIDE] });
        assert_eq!(mesh.deck.vertices[3], VertexPlan { x: 0.0, y: 4.5, neighbours: vec![0] });
        assert_eq!((mesh.vertices[3].line, mesh.polygons[0].line), (8, 9));
        assert!(mesh.deck.heights.is_empty());
    }

    #[test]
    fn wrong_text() {
        let error = |old: &str, new: &str| {
            assert!(SQUARE.contains(old), "{old}");
            read_mesh("m", &SQUARE.replacen(old, new, 1)).err().map(|e| e.to_string()).unwrap_or_default()
        };
        assert_eq!(error("mesh", "mash"), "m:1:1: 'mash', where there has to be the word 'mesh'");
        assert_eq!(error("\n2\n", "\n1\n"), "m:2:1: '1', where there has to be version 2 of the format");
        assert_eq!(error("4 1\n", "4\n"), "m:3:1: the row ends before its number of polygons");
        assert_eq!(error("4 1\n", "5 1\n"), "m:9:9: '3' is one cell too many");
        assert_eq!(error("4 1\n", "4 2\n"), "m:10:1: the text ends before the polygon");
        assert_eq!(error("4 1\n", "3 1\n"), "m:8:3: '4.5' is one cell too many");
        assert_eq!(error("4 4 2 0 -1", "4 x 2 0 -1"), "m:7:3: 'x' is no number");
        assert_eq!(error("4 4 2 0 -1", "4 4 3 0 -1"), "m:7:1: the row has 2 of its 3 polygons");
        assert_eq!(error("4 4 2 0 -1", "4 4 1 0 -1"), "m:7:9: '-1' is one cell too many");
        assert_eq!(error("4 4 2 0 -1", "4 4 2 0 -2"), "m:7:9: '-2' is no polygon number");
        assert_eq!(error("4 0 1 2 3 -1", "4 0 1 2 3.5 -1"), "m:9:9: '3.5' is no vertex number");
        assert_eq!(error("-1 -1 -1 -1", "-1 -1 -1"), "m:9:1: the row has 3 of its 4 neighbours");
        assert_eq!(error("-1 -1 -1 -1", "-1 -1 -1 -1\n7"), "m:10:1: a line after the 4 vertices and 1 polygons");
    }
}
