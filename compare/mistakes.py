"""The deliberate mistakes of `compare/run mistakes`: each a name, and its changes.

A change is a file of extract.py's with a function of it, the text that stands there once, and the text that takes its stead, in which ON
is whether this mistake is switched on. record.rs and by_rust.rs are the comparison's own: what it makes of the Rust's answers.
"""


def instead(place, right, wrong):
    return (place, right, "(if ON { %s } else { %s })" % (wrong, right))


def before(place, text, more):
    return (place, text, more + "\n" + text)


def after(place, text, more):
    return (place, text, text + "\n" + more)


SIDE = ("helpers.rs", "side")
BOX = ("helpers.rs", "in_bounding_box")
POLYGON = ("layers.rs", "point_in_polygon")
CLOSEST = ("mesh.rs", "get_closest_points_on_layers")
AT_HEIGHT = ("mesh.rs", "get_closest_points_on_layers_at_height")
TOWARDS = ("mesh.rs", "get_closest_point_towards")
TOWARDS_SAMPLE = ("layers.rs", "get_closest_point_towards_inner")
CANDIDATES = ("mesh.rs", "candidate_polygons")
HEIGHT = ("mesh.rs", "height")
MERGE = ("mesh.rs", "merge_touching_readings")
SHARE = ("mesh.rs", "share_an_edge")
STITCH = ("mesh.rs", "find_stitch_points")
REMOVE = ("mesh.rs", "remove_stitches")
REMOVE_TO_LAYER = ("mesh.rs", "remove_stitches_to_layer")
PROBES = ("layers.rs", "get_point_location")
ISLANDS = ("layers.rs", "bake_islands_detection")
RECORD = ("record.rs", "record")
HIT = ("record.rs", "hit")
MESH = ("by_rust.rs", "mesh_of")
ANSWER = ("by_rust.rs", "answer")


# The three functions that walk a ring, and the calls that use them.
RINGS = [
    ("get_closest_points_inner", "closest_points"),
    ("get_closest_point_inner", "closest_point"),
    ("push_point_locations", "candidate_polygons"),
]


def in_rings(name, right, wrong):
    return [("%s (%s)" % (name, call), [instead(("layers.rs", function), right, wrong)]) for function, call in RINGS]


def in_side(name, right, wrong):
    return (name, [instead(SIDE, right, wrong)])


CROSS = "local_line.perp_dot(local_point)"
IN_DOUBLE = "(local_line.x as f64 * local_point.y as f64 - local_line.y as f64 * local_point.x as f64) as f32"
# Of a box from a to b, in each coordinate.
ON_AN_END = " || ".join("self.%s == min(A.%s, B.%s) - EPSILON || self.%s == max(A.%s, B.%s) + EPSILON" % (6 * (c,)) for c in "xy")
PAST_AN_END = " || ".join("self.%s < min(A.%s, B.%s) || self.%s > max(A.%s, B.%s)" % (6 * (c,)) for c in "xy")


def in_box(name, no):
    no = no.replace("A.", "segment.0.").replace("B.", "segment.1.")
    return (name, [after(BOX, "const EPSILON: f32 = 1.0e-6;", "if ON && (%s) { return false; }" % no)])


GEOMETRY = [
    in_side("Edge at <= 1e-4", "x.abs() < EPSILON", "x.abs() <= EPSILON"),
    in_side("Edge without the abs", "x.abs() < EPSILON", "x < EPSILON"),
    in_side("the cross product in double precision", CROSS, IN_DOUBLE),
    in_side("the cross product with a rounding less", CROSS, "local_line.x.mul_add(local_point.y, -(local_line.y * local_point.x))"),
    in_box("a box with open ends", ON_AN_END),
    in_box("a box without the 1e-6", PAST_AN_END),
    ("Edge outside the box is a no", [before(POLYGON, "continue;", "if ON { return false; }")]),
    (
        "no edge from the last vertex to the first",
        [(POLYGON, "edges_index()", "edges_index().take(polygon.vertices.len() - ON as usize)")],
    ),
]


def in_found(name, wrong):
    """What becomes of the candidates of a step on all open decks."""
    found = "                            })\n                    })\n                    .collect();\n"
    text = "let coords: Vec<Coords> = if ON { %s } else { coords };" % wrong
    return (name, [after(CLOSEST, found, text)])


def in_named(name, place, on="ON"):
    """Where a blocked deck is named."""
    return ("a blocked deck searched where it is named (%s)" % name, [before(place, "names_blocked(", "!(%s) &&" % on)])


SEARCHES = [
    *in_rings("a ring without its last sample", "sample * step", "(sample * step).saturating_sub(1)"),
    *in_rings("a sample multiplied right to left", "vec2(x, y) * delta * step as f32", "vec2(x, y) * (delta * step as f32)"),
    in_found(
        "the place of step 0 at the query's own bits",
        "coords.into_iter().map(|c| if step == 0 { Coords { pos: point.pos, ..c } } else { c }).collect()",
    ),
    in_found("decks in falling order", "{ let mut all = coords; all.sort_by_key(|c| std::cmp::Reverse(c.layer)); all }"),
    in_found(
        "a step stopped at the first deck that hits (closest_points)",
        "{ let first = coords.first().and_then(|c| c.layer); coords.into_iter().filter(|c| c.layer == first).collect() }",
    ),
    (
        "a step stopped at the first deck that hits (candidate_polygons)",
        [before(CANDIDATES, "layer.push_point_locations(", "if ON && !found.is_empty() { continue; }")],
    ),
    in_named("run", RECORD),
    in_named("closest_points", ANSWER, "ON && matches!(call, Call::ClosestPoints(_))"),
    in_named("closest_point", ANSWER, "ON && matches!(call, Call::ClosestPoint(_))"),
    (
        "a blocked deck searched where it is named (candidate_polygons)",
        [before(CANDIDATES, "blocked_layers.contains(&layer_index)", "!(ON && point.layer.is_some()) &&")],
    ),
]

DIRECTION = "-(point.pos - towards).normalize()"


def in_direction(name, wrong):
    """Of v, the point less the one to go towards."""
    return (name, [instead(TOWARDS, DIRECTION, "{ let v = point.pos - towards; %s }" % wrong)])


DECKS = "self.layers.iter().enumerate()"
DECK_BY_DECK = "(0..self.layers.len()).find_map(|d| self.get_closest_point_towards(Coords::on_layer(point.pos, d as u8), towards))"

TOWARDS_A_POINT = [
    in_direction("a direction that is not turned round", "v.normalize()"),
    in_direction("a direction without 1/length", "-v"),
    in_direction("a direction divided by the length", "let l = v.dot(v).sqrt(); Vec2 { x: -(v.x / l), y: -(v.y / l) }"),
    in_direction(
        "a length in double precision",
        "-(v * (1.0 / (v.x as f64 * v.x as f64 + v.y as f64 * v.y as f64).sqrt()) as f32)",
    ),
    ("towards a point, without step 0", [before(TOWARDS_SAMPLE, "let point = point + ", "if ON && step == 0 { return None; }")]),
    (
        "towards a point, a sample multiplied right to left",
        [instead(TOWARDS_SAMPLE, "direction * delta * step as f32", "direction * (delta * step as f32)")],
    ),
    (
        "towards a point, the decks of a step from the highest down",
        [(TOWARDS, DECKS, "{ let mut all: Vec<_> = %s.collect(); if ON { all.reverse(); } all }" % DECKS)],
    ),
    (
        "towards a point, a deck with all its steps before the next",
        [before(TOWARDS, "if let Some(layer_index) = point.layer {", "if ON && point.layer.is_none() { return %s; }" % DECK_BY_DECK)],
    ),
]

NEARER = "acc\n                    .map(|(_, closest_height)|"


def in_wish(name, wrong):
    """When a candidate takes the place of an earlier one of height h."""
    text = "ON && acc.is_some_and(|(_, h)| %s) ||" % wrong
    return (name, [before(AT_HEIGHT, NEARER, text)])


MOVED = "(if ON { self.pos - layer.offset } else { self.pos })"

HEIGHTS = [
    in_wish("ties to the later", "(h - height).abs() == (coord_height - height).abs()"),
    in_wish(
        "heights held against the wish in double precision",
        "(h as f64 - height as f64).abs() > (coord_height as f64 - height as f64).abs()",
    ),
    (
        "candidates without a height not passed over",
        [(AT_HEIGHT, "coord.height(self)", "coord.height(self).or(ON.then_some(0.0))")],
    ),
    ("the mean of heights summed from 0", [before(HEIGHT, ".sum::<f32>()", ".chain(ON.then_some(0.0))")]),
    (
        "the offset taken off in the height",
        [(HEIGHT, "self.pos.on_segment((", MOVED + ".on_segment(("), (HEIGHT, "(self.pos - a)", "(%s - a)" % MOVED)],
    ),
    ("the height as a mean of two ends", [instead(HEIGHT, "h0 + (h1 - h0) * t", "h0 * (1.0 - t) + h1 * t")]),
    ("a place held between the ends of its edge", [before(HEIGHT, "let (h0, h1)", "let t = if ON { t.clamp(0.0, 1.0) } else { t };")]),
]

SHARED = "start.polygons.contains(&other) && end.polygons.contains(&other)"
PLAIN_SHARED = SHARED.replace("&other", "&other.polygon()")
EITHER_END = SHARED.replace("&&", "||")
EQUAL = "vertex.coords == vertex_b.coords"
OTHER_BITS = "[vertex.coords.x, vertex.coords.y].map(f32::to_bits) != [vertex_b.coords.x, vertex_b.coords.y].map(f32::to_bits)"
BACK = """if ON {
    let names = |v: &u32| self.vertices[*v as usize].polygons.contains(&(next as u32));
    to_visit.extend((0..islands.len()).filter(|&k| self.polygons[k].vertices.iter().any(names)));
}"""

OTHER_CALLS = [
    ("probes in another order", [instead(PROBES, "*delta", "vec2(delta.y, delta.x)")]),
    ("eight probes", [after(PROBES, "        .iter()\n", "        .take(9 - ON as usize)")]),
    (
        "merging two-way",
        [after(MERGE, "if self.share_an_edge(current, found[other])", "|| ON && self.share_an_edge(found[other], current)")],
    ),
    (
        "merging by direct hops only",
        [before(MERGE, "group.push(found.remove(other));", "if ON { found.remove(other); continue; }")],
    ),
    (
        "merging by rising numbers only",
        [after(MERGE, "while other < found.len() {", "if ON && found[other] < current { other += 1; continue; }")],
    ),
    ("plain numbers matched above deck 0", [after(SHARE, SHARED, "|| ON && " + PLAIN_SHARED)]),
    ("one end of an edge is enough", [before(SHARE, SHARED, "ON && (%s) ||" % EITHER_END)]),
    ("islands two-way", [before(ISLANDS, "let polygon = &mut self.polygons[next];", BACK)]),
    ("stitch points by bits", [before(STITCH, EQUAL, "!(ON && %s) &&" % OTHER_BITS)]),
    (
        "stitch points with the offsets",
        [instead(STITCH, EQUAL, "vertex.coords + layer.offset == vertex_b.coords + layer_b.offset")],
    ),
    (
        "stitch points without repeats",
        [before(STITCH, "stitch_points.sort_unstable_by_key", "if ON { stitch_points.iter_mut().for_each(|(_, p)| p.dedup()); }")],
    ),
    ("removal that keeps packed numbers", [instead(REMOVE, "p.polygon()", "*p")]),
    ("removal that can be repeated", [after(REMOVE, "if p.layer() == layer_index as u8", "|| ON && p.layer() == 0")]),
    ("removal to a layer that keeps packed numbers", [instead(REMOVE_TO_LAYER, "p.polygon()", "*p")]),
    (
        "removal to layer 255 that drops all ones",
        [after(REMOVE_TO_LAYER, "vertex.polygons.retain(|p| {", "if ON { return p.layer() != target_layer; }")],
    ),
]

FIRST = "(0..samples(step)).find(|&i| bits(lies(i)) == bits(place))"

RECORDS = [
    (
        "a ship with no decks as one of an empty deck",
        [before(MESH, "mesh.set_search_delta(", "if ON && plan.decks.is_empty() { mesh.layers.push(Layer::default()); }")],
    ),
    ("a step less", [instead(MESH, "plan.steps", "(plan.steps - 1).max(1)")]),
    ("tried with whole rings in the last step", [instead(RECORD, "i + 1", "samples(step)")]),
    ("tried without the steps before the last", [instead(RECORD, "before(step)", "0")]),
    ("the last of the samples at a place", [instead(HIT, FIRST, FIRST.replace(".find", ".rev().find"))]),
]

MISTAKES = GEOMETRY + SEARCHES + TOWARDS_A_POINT + HEIGHTS + OTHER_CALLS + RECORDS
