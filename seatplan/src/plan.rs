//! A plan as text: a row each for the reach and the steps, and for each deck its name, its vertices and its polygons.
use std::collections::BTreeMap;
use std::fs;
use std::path::Path;

use feedercoil::{DeckPlan, ShipPlan, VertexPlan};

use crate::around::polygons_around;
use crate::mesh::{entry, read_mesh};
use crate::rows::{cell_rows, text_of_bytes, Row};
use crate::{Error, Place};

/// A deck with its name, and where its rows stand.
#[derive(Debug, Clone)]
pub struct Deck {
    pub name: String,
    pub plan: DeckPlan,
    pub place: Place,
    pub vertices: Vec<Place>,
    pub polygons: Vec<Place>,
    /// The first vertex that has no height where an earlier one has, or the other way round.
    pub uneven: Option<Place>,
}

/// A ship with names, and where its rows stand. Nothing of the ship itself is judged here: the library is asked.
#[derive(Debug, Clone)]
pub struct Plan {
    pub reach: f32,
    pub steps: u32,
    pub decks: Vec<Deck>,
    pub reach_place: Place,
    pub steps_place: Place,
}

impl Plan {
    /// The plan in a file. Mesh files are looked for beside it.
    pub fn read(path: &Path) -> Result<Plan, Error> {
        let text = read_text(path)?;
        let folder = path.parent().unwrap_or(Path::new(""));
        plan_of_text(&path.display().to_string(), &text, &mut |file| {
            let path = folder.join(file);
            Ok((path.display().to_string(), read_text(&path)?))
        })
    }

    /// The plan in a text that takes no deck from a mesh file; `file` is what errors call it.
    pub fn of_text(file: &str, text: &str) -> Result<Plan, Error> {
        plan_of_text(file, text, &mut |mesh| Err(Error::file(mesh, "a mesh file can be read beside a plan's file alone")))
    }

    /// The ship, as the library's crate has it.
    pub fn ship(&self) -> ShipPlan {
        ShipPlan { reach: self.reach, steps: self.steps, decks: self.decks.iter().map(|deck| deck.plan.clone()).collect() }
    }

    /// The number of the deck of a name.
    pub fn deck_number(&self, name: &str) -> Option<usize> {
        self.decks.iter().position(|deck| deck.name == name)
    }

    /// The names of all decks, for an error that wants one of them.
    pub fn deck_names(&self) -> String {
        match self.decks.is_empty() {
            true => "it has no decks".to_string(),
            false => format!("it has {}", self.decks.iter().map(|deck| deck.name.as_str()).collect::<Vec<_>>().join(", ")),
        }
    }
}

pub fn read_text(path: &Path) -> Result<String, Error> {
    let name = path.display().to_string();
    text_of_bytes(&name, fs::read(path).map_err(|error| Error::file(&name, error))?)
}

/// Reads a mesh file that a plan names: what errors call it, and its text.
type ReadMesh<'a> = dyn FnMut(&str) -> Result<(String, String), Error> + 'a;

fn plan_of_text(file: &str, text: &str, read: &mut ReadMesh) -> Result<Plan, Error> {
    let (mut reach, mut steps) = (None, None);
    let mut decks: Vec<DeckRows> = Vec::new();
    for row in cell_rows(file, text, true)? {
        match row.cells[0].text.as_str() {
            "reach" => once(&mut reach, &row, row.needed(1, "number")?.float()?)?,
            "steps" => once(&mut steps, &row, row.needed(1, "whole number")?.whole("whole number")?)?,
            "deck" => decks.push(DeckRows::new(&row, &decks)?),
            _ => match decks.last_mut() {
                Some(deck) => deck.take(&row, read)?,
                None => return Err(Error::text(&row.place, format!("'{}' is neither 'reach', 'steps' nor 'deck'", row.cells[0].text))),
            },
        }
    }
    let end = Place { file: file.into(), line: text.lines().count() + 1, column: 1 };
    let missing = |word: &str| Error::text(&end, format!("the plan ends, and has no row '{word}'"));
    let (reach, reach_place) = reach.ok_or_else(|| missing("reach"))?;
    let (steps, steps_place) = steps.ok_or_else(|| missing("steps"))?;
    let decks = decks.into_iter().map(DeckRows::deck).collect::<Result<_, _>>()?;
    Ok(Plan { reach, steps, decks, reach_place, steps_place })
}

/// A row that a plan has once.
fn once<N>(found: &mut Option<(N, Place)>, row: &Row, number: N) -> Result<(), Error> {
    row.at_most(2)?;
    if let Some((_, place)) = found {
        return Err(Error::text(&row.place, format!("'{}' stands on line {} already", row.cells[0].text, place.line)));
    }
    *found = Some((number, row.cells[1].place.clone()));
    Ok(())
}

/// The rows of a deck.
struct DeckRows {
    deck: Deck,
    /// Lists that are written, by their vertex.
    written: BTreeMap<u32, (Place, Vec<u32>)>,
    of_mesh: bool,
}

impl DeckRows {
    /// `deck, name, offset x, offset y`
    fn new(row: &Row, before: &[DeckRows]) -> Result<DeckRows, Error> {
        let name = row.needed(1, "deck's name")?;
        row.at_most(4)?;
        if let Some(other) = before.iter().find(|other| other.deck.name == name.text) {
            return Err(Error::text(&name.place, format!("a deck '{}' stands on line {} already", name.text, other.deck.place.line)));
        }
        let offset = |i| row.cell(i).map_or(Ok(0.0), |cell| cell.float());
        let plan = DeckPlan { offset: (offset(2)?, offset(3)?), ..DeckPlan::default() };
        let place = row.place.clone();
        let deck = Deck { name: name.text.clone(), plan, place, vertices: Vec::new(), polygons: Vec::new(), uneven: None };
        Ok(DeckRows { deck, written: BTreeMap::new(), of_mesh: false })
    }

    fn take(&mut self, row: &Row, read: &mut ReadMesh) -> Result<(), Error> {
        let word = row.cells[0].text.as_str();
        if self.of_mesh && matches!(word, "vertex" | "polygon" | "neighbours" | "mesh") {
            return Err(Error::text(&row.place, format!("'{word}' in a deck that is taken from a mesh file")));
        }
        match word {
            "vertex" => self.vertex(row),
            "polygon" => self.polygon(row),
            "neighbours" => self.neighbours(row),
            "mesh" => self.mesh(row, read),
            _ => Err(Error::text(&row.place, format!("'{word}' is neither 'vertex', 'polygon', 'neighbours', 'mesh' nor 'deck'"))),
        }
    }

    /// `vertex, x, y, height or blank`
    fn vertex(&mut self, row: &Row) -> Result<(), Error> {
        let x = row.needed(1, "x")?.float()?;
        let y = row.needed(2, "y")?.float()?;
        row.at_most(4)?;
        let even = row.cell(3).is_some() != self.deck.plan.heights.is_empty();
        if !even && !self.deck.vertices.is_empty() && self.deck.uneven.is_none() {
            self.deck.uneven = Some(row.place.clone());
        }
        if let Some(cell) = row.cell(3) {
            self.deck.plan.heights.push(cell.float()?);
        }
        self.deck.plan.vertices.push(VertexPlan { x, y, neighbours: Vec::new() });
        self.deck.vertices.push(row.place.clone());
        Ok(())
    }

    /// `polygon, vertex, vertex, ..`
    fn polygon(&mut self, row: &Row) -> Result<(), Error> {
        self.deck.plan.polygons.push(row.cells[1..].iter().map(|cell| cell.whole("vertex number")).collect::<Result<_, _>>()?);
        self.deck.polygons.push(row.place.clone());
        Ok(())
    }

    /// `neighbours, vertex, polygon, polygon, ..`
    fn neighbours(&mut self, row: &Row) -> Result<(), Error> {
        let vertex = row.needed(1, "vertex number")?;
        let entries = row.cells[2..].iter().map(entry).collect::<Result<_, _>>()?;
        match self.written.insert(vertex.whole("vertex number")?, (vertex.place.clone(), entries)) {
            Some((place, _)) => {
                Err(Error::text(&vertex.place, format!("the neighbours of vertex {} stand on line {} already", vertex.text, place.line)))
            }
            None => Ok(()),
        }
    }

    /// `mesh, file, height of every vertex or blank`
    fn mesh(&mut self, row: &Row, read: &mut ReadMesh) -> Result<(), Error> {
        let name = row.needed(1, "mesh file's name")?;
        row.at_most(3)?;
        if !self.deck.vertices.is_empty() || !self.deck.polygons.is_empty() || !self.written.is_empty() {
            return Err(Error::text(&row.place, "'mesh' in a deck that has rows of its own"));
        }
        let (file, text) = read(&name.text).map_err(|error| match error {
            Error::File { .. } => Error::text(&name.place, error.to_string()),
            error => error,
        })?;
        let mesh = read_mesh(&file, &text)?;
        let height: Option<f32> = row.cell(2).map(|cell| cell.float()).transpose()?;
        let heights = height.map_or(Vec::new(), |height| vec![height; mesh.vertices.len()]);
        self.deck.plan = DeckPlan { offset: self.deck.plan.offset, heights, ..mesh.deck };
        self.deck.vertices = mesh.vertices;
        self.deck.polygons = mesh.polygons;
        self.of_mesh = true;
        Ok(())
    }

    /// The deck, with the lists that are written, and the others worked out.
    fn deck(self) -> Result<Deck, Error> {
        let mut deck = self.deck;
        if self.of_mesh {
            return Ok(deck);
        }
        let vertices = &mut deck.plan.vertices;
        for (vertex, entries) in vertices.iter_mut().zip(polygons_around(deck.vertices.len(), &deck.plan.polygons)) {
            vertex.neighbours = entries;
        }
        let count = vertices.len();
        for (number, (place, entries)) in self.written {
            let vertex = vertices.get_mut(number as usize);
            let absent = || Error::text(&place, format!("deck '{}' has no vertex {number}: it has {count}, from 0 on", deck.name));
            vertex.ok_or_else(absent)?.neighbours = entries;
        }
        Ok(deck)
    }
}
