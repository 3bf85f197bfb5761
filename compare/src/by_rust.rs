//! What the Rust says of each call, in the library's terms.
use std::cell::Cell;
use std::collections::HashSet;

use feedercoil::raw::{ANY_DECK, NO_POLYGON};
use feedercoil::{DeckPlan, ShipPlan};

use crate::calls::{bytes_of, words, Call, Query};
use crate::glam::vec2;
use crate::polyanya::helpers::Vec2Helper;
use crate::polyanya::layers::Layer;
use crate::polyanya::mesh::{Coords, Mesh, MeshError};
use crate::polyanya::primitives::{Polygon, Vertex};

/// A ship's plan, and the Rust's mesh of it.
pub struct RustShip {
    pub plan: ShipPlan,
    pub mesh: Mesh,
    /// Whether an answer had a height of the Rust's that was no number.
    pub not_a_height: Cell<bool>,
}

pub fn layer_of(deck: &DeckPlan) -> Result<Layer, MeshError> {
    let vertices = deck.vertices.iter().map(|v| Vertex::new(vec2(v.x, v.y), v.neighbours.clone())).collect();
    let polygons = deck.polygons.iter().map(|p| Polygon::new(p.clone(), false)).collect();
    let mut layer = Layer::new(vertices, polygons)?;
    layer.offset = vec2(deck.offset.0, deck.offset.1);
    layer.set_heights(deck.heights.clone())?;
    Ok(layer)
}

/// Panics where the Rust asserts that the reach or the steps are others. With no decks the mesh is `Mesh::default()`, but for these two.
pub fn mesh_of(plan: &ShipPlan) -> Result<Mesh, MeshError> {
    let mut mesh = Mesh::default();
    for deck in &plan.decks {
        mesh.layers.push(layer_of(deck)?);
    }
    mesh.set_search_delta(plan.reach);
    mesh.set_search_steps(plan.steps);
    Ok(mesh)
}

/// The blocked set of a call.
pub fn blocked_layers(blocked: &[u8]) -> HashSet<u8> {
    (0..=255u8).filter(|&d| blocked[usize::from(d) / 8] >> (d % 8) & 1 == 1).collect()
}

/// Whether a blocked deck is named. The ring search of the Rust looks at it all the same and document 02, point 1, does not, so the
/// Rust's answer is left out there (docs/DIFFERENCES.md).
pub fn names_blocked(deck: u32, blocked: &HashSet<u8>) -> bool {
    deck != ANY_DECK && blocked.contains(&(deck as u8))
}

/// Whether the Rust's number can say it, which ends at 255: a deck, or that none is named.
pub fn is_sayable(deck: u32) -> bool {
    deck == ANY_DECK || deck <= 255
}

/// A deck's number for the Rust, which has none above 255.
pub fn coords(query: Query) -> Coords {
    let at = vec2(query.x, query.y);
    match query.deck {
        ANY_DECK => at.into(),
        deck => Coords::on_layer(at, deck as u8),
    }
}

pub fn entry(c: &Coords) -> [u32; 3] {
    [c.polygon(), c.position().x.to_bits(), c.position().y.to_bits()]
}

impl RustShip {
    pub fn new(plan: ShipPlan) -> Self {
        let mesh = mesh_of(&plan).expect("a ship that passes the questions");
        RustShip { plan, mesh, not_a_height: Cell::new(false) }
    }

    /// Sets the step number again that a record, which searches with fewer, may have left.
    pub fn set_steps(&mut self) {
        self.mesh.search_steps = self.plan.steps;
    }

    /// The bytes of the answer to a call that passes questions 1 to 19 and 22.
    pub fn answer(&mut self, call: &Call, blocked: &[u8]) -> Vec<u8> {
        let blocked = if call.takes_blocked() { blocked_layers(blocked) } else { HashSet::new() };
        match call {
            Call::Run { seats } => seats.chunks(20).flat_map(|seat| bytes_of(&self.record(&words(seat), &blocked))).collect(),
            Call::ClosestPoints(q) | Call::ClosestPoint(q) if names_blocked(q.deck, &blocked) => vec![],
            Call::ClosestPoints(q) => {
                let found = self.mesh.get_closest_points_on_layers(coords(*q), blocked);
                found.iter().flat_map(|c| bytes_of(&entry(c))).collect()
            }
            Call::ClosestPoint(q) => {
                let found = self.mesh.get_closest_point_on_layers(coords(*q), blocked);
                found.iter().flat_map(|c| bytes_of(&entry(c))).collect()
            }
            Call::ClosestPointTowards { query, towards } => {
                let found = self.mesh.get_closest_point_towards(coords(*query), vec2(towards.0, towards.1));
                found.iter().flat_map(|c| bytes_of(&entry(c))).collect()
            }
            Call::Height { x, y, polygon } => {
                self.height(Coords::on_polygon(vec2(*x, *y), *polygon)).iter().flat_map(|h| h.to_bits().to_le_bytes()).collect()
            }
            Call::PointLocation(q) => self.location(*q),
            Call::PointLayer(q) => self.layers(*q),
            Call::CandidatePolygons { query, polygon } => self.candidate_polygons(*query, *polygon, &blocked),
            Call::Islands { deck } => {
                let mut layer = self.mesh.layers[*deck as usize].clone();
                layer.bake_islands_detection();
                layer.islands.unwrap().iter().flat_map(|&label| (label as u32).to_le_bytes()).collect()
            }
            Call::StitchPoints => {
                let points = self.mesh.find_stitch_points();
                let entries = points.iter().flat_map(|((a, b), points)| points.iter().map(move |p| (*a, *b, p)));
                entries.flat_map(|(a, b, p)| bytes_of(&[a.into(), b.into(), p.x.to_bits(), p.y.to_bits()])).collect()
            }
            Call::RemoveStitches => self.file_after(|mesh| mesh.remove_stitches()),
            Call::RemoveStitchesToLayer { layer } => self.file_after(|mesh| mesh.remove_stitches_to_layer(*layer)),
        }
    }

    // In these three a deck that is not there, and that the Rust's number cannot say, gives nothing.

    fn location(&self, query: Query) -> Vec<u8> {
        bytes_of(&[if is_sayable(query.deck) { self.mesh.get_point_location(coords(query)) } else { NO_POLYGON }])
    }

    fn layers(&self, query: Query) -> Vec<u8> {
        let found = if is_sayable(query.deck) { self.mesh.get_point_layer(coords(query)) } else { vec![] };
        found.iter().flat_map(|c| c.polygon().to_le_bytes()).collect()
    }

    fn candidate_polygons(&self, query: Query, polygon: u32, blocked: &HashSet<u8>) -> Vec<u8> {
        if polygon != NO_POLYGON {
            return bytes_of(&self.mesh.candidate_polygons(Coords::on_polygon(vec2(query.x, query.y), polygon), blocked));
        }
        bytes_of(&if is_sayable(query.deck) { self.mesh.candidate_polygons(coords(query), blocked) } else { vec![] })
    }

    /// The file of the ship whose lists are the mesh's after a removal.
    fn file_after(&self, remove: impl Fn(&mut Mesh)) -> Vec<u8> {
        let (mut mesh, mut plan) = (self.mesh.clone(), self.plan.clone());
        remove(&mut mesh);
        for (deck, layer) in plan.decks.iter_mut().zip(mesh.layers) {
            for (vertex, theirs) in deck.vertices.iter_mut().zip(layer.vertices) {
                vertex.neighbours = theirs.polygons;
            }
        }
        plan.file()
    }

    /// The height, where it is one: on an edge whose squared length rounds to 0 the Rust has NaN or infinity (docs/DIFFERENCES.md).
    pub fn height(&self, at: Coords) -> Option<f32> {
        let height = at.height(&self.mesh)?;
        if height.is_finite() {
            return Some(height);
        }
        assert!(self.on_degenerate_edge(at), "the Rust's height {height} at {at:?}");
        self.not_a_height.set(true);
        None
    }

    /// Whether the first edge that the place is on has a squared length that rounds to 0.
    fn on_degenerate_edge(&self, at: Coords) -> bool {
        let layer = &self.mesh.layers[usize::from(at.layer().unwrap())];
        let corner = |v: u32| layer.vertices[v as usize].coords;
        let polygon = &layer.polygons[(at.polygon() & 0xFF_FFFF) as usize];
        let edges = polygon.edges_index().map(|[a, b]| (corner(a), corner(b)));
        let first = edges.into_iter().find(|&edge| at.position().on_segment(edge));
        first.is_some_and(|(a, b)| (b - a).dot(b - a) == 0.0)
    }
}
