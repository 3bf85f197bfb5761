//! The polygons around each vertex, worked out from the polygons' corners.

/// The neighbour entry of the outside.
pub const OUTSIDE: u32 = u32::MAX;

/// A polygon at a vertex: the vertices after and before it. Counter-clockwise around the vertex the polygon lies from the edge to the
/// one after to the edge to the one before.
struct Corner {
    polygon: u32,
    after: u32,
    before: u32,
}

/// Of each vertex its polygons counter-clockwise, each once: a run of polygons that share an edge, and the outside where the run ends
/// with an edge that no further polygon has. Open runs come by the number of their first polygon, then closed ones, each from its
/// least. A vertex of no polygon has the outside alone. A corner that names no vertex is left to the library, which refuses it.
pub fn polygons_around(vertices: usize, polygons: &[Vec<u32>]) -> Vec<Vec<u32>> {
    let mut corners: Vec<Vec<Corner>> = (0..vertices).map(|_| Vec::new()).collect();
    for (k, polygon) in polygons.iter().enumerate() {
        for (i, &vertex) in polygon.iter().enumerate() {
            let after = polygon[(i + 1) % polygon.len()];
            let before = polygon[(i + polygon.len() - 1) % polygon.len()];
            if let Some(at) = corners.get_mut(vertex as usize) {
                if at.last().map_or(true, |last| last.polygon != k as u32) {
                    at.push(Corner { polygon: k as u32, after, before });
                }
            }
        }
    }
    corners.iter().map(|at| around(at)).collect()
}

fn around(corners: &[Corner]) -> Vec<u32> {
    let mut entries = Vec::new();
    let mut used = vec![false; corners.len()];
    // Runs with a first polygon, then closed ones.
    let firsts = (0..corners.len()).filter(|&i| !corners.iter().any(|other| other.before == corners[i].after));
    for start in firsts.chain(0..corners.len()) {
        let mut next = Some(start).filter(|&i| !used[i]);
        let begun = next.is_some();
        let mut end = start;
        while let Some(i) = next {
            used[i] = true;
            entries.push(corners[i].polygon);
            end = i;
            next = (0..corners.len()).find(|&j| !used[j] && corners[j].after == corners[i].before);
        }
        if begun && corners[end].before != corners[start].after {
            entries.push(OUTSIDE);
        }
    }
    if entries.is_empty() {
        entries.push(OUTSIDE);
    }
    entries
}

#[cfg(test)]
mod tests {
    use super::*;

    #[test]
    fn a_square() {
        assert_eq!(
            polygons_around(5, &[vec![0, 1, 2, 3]]),
            [vec![0, OUTSIDE], vec![0, OUTSIDE], vec![0, OUTSIDE], vec![0, OUTSIDE], vec![OUTSIDE]]
        );
    }

    /// Four triangles around vertex 4, then three of them, then two that share the vertex alone.
    #[test]
    fn closed_open_and_apart() {
        let quarter = |k: u32| vec![4, k, (k + 1) % 4];
        let at_4 = |polygons: &[Vec<u32>]| polygons_around(5, polygons).pop().unwrap();
        assert_eq!(at_4(&[quarter(0), quarter(2), quarter(1), quarter(3)]), [0, 2, 1, 3]);
        assert_eq!(at_4(&[quarter(0), quarter(2), quarter(3)]), [1, 2, 0, OUTSIDE]);
        assert_eq!(at_4(&[quarter(2), quarter(0)]), [0, OUTSIDE, 1, OUTSIDE]);
        assert_eq!(polygons_around(5, &[quarter(0), quarter(1)])[1], [1, 0, OUTSIDE]);
    }

    #[test]
    fn odd_polygons() {
        // A corner twice, one vertex, two vertices, a vertex that is not there, the same polygon twice.
        assert_eq!(polygons_around(3, &[vec![0, 1, 0, 2]])[0], [0, OUTSIDE]);
        assert_eq!(polygons_around(1, &[vec![0]]), [[0]]);
        assert_eq!(polygons_around(2, &[vec![0, 1]]), [[0], [0]]);
        assert_eq!(polygons_around(1, &[vec![0, 7, 9]]), [[0, OUTSIDE]]);
        assert_eq!(polygons_around(3, &[vec![0, 1, 2], vec![0, 1, 2]])[0], [0, OUTSIDE, 1, OUTSIDE]);
        assert_eq!(polygons_around(1, &[vec![]]), [[OUTSIDE]]);
    }
}
