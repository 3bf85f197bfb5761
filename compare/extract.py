#!/usr/bin/env python3
"""extract.py SOURCES OUT: writes the parts of polyanya that the comparison runs, as Rust modules, from its own files.

SOURCES is the folder with polyanya's src/ (commit a297e0476c, see NOTICE), OUT a folder for the modules. The text is polyanya's
own but for these changes, all made here:
- `angle.sin_cos()` becomes a look-up in the table of directions (document 01, section 4), since `sin_cos` has no bit-exact definition.
  The table is computed by tools/directions.py, and not read from the library's code;
- the R-tree is left out: decks are unbaked, so `baked_polygons` is an empty option, and the branch that reads it is never taken or is cut;
- `SmallVec`, which is not among the files, becomes `Vec`, and one closure that extends it names its type;
- the vector library, which is not among the files, is compare/src/glam.rs;
- `Coords::on_polygon` is added, for the separate height call: its fields are private;
- derives, features and functions that the comparison does not run are left out.

OUT/mistaken gets the same modules, and the comparison's own reading of them, with the mistakes of mistakes.py put in.
"""
import os
import re
import sys

sys.dont_write_bytecode = True
here = os.path.dirname(os.path.abspath(__file__))
sys.path[:0] = [here, os.path.join(here, "..", "tools")]
import directions
import mistakes

sources, out = sys.argv[1:3]


def read(name):
    """A file of polyanya's, without what its features for traces and for files add to items."""
    text = open(os.path.join(sources, "src", name), encoding="utf-8").read()
    text = re.sub(r'^ *#\[cfg\(feature = "(tracing|serde)"\)\]\nuse [^\n]*\n', "", text, flags=re.M)
    return re.sub(r'^ *#\[cfg_attr\(feature = "(tracing|serde)"[^\n]*\n', "", text, flags=re.M)


def braced(text, pattern):
    """The item whose first line the pattern finds, to its closing brace."""
    at = re.search(pattern, text, re.M)
    if at is None:
        sys.exit("extract: nothing is found for '%s'" % pattern)
    depth, i = 0, text.index("{", at.start())
    for k in range(i, len(text)):
        depth += {"{": 1, "}": -1}.get(text[k], 0)
        if depth == 0:
            return text[at.start() : k + 1] + "\n"


def item(text, start):
    """The item whose first line begins with `start`."""
    return braced(text, r"^[ ]*" + re.escape(start))


def function_of(text, name):
    """The function of a name that has a body, which those of a trait have not."""
    return braced(text, r"^.*fn %s\((?:(?!;\n)[^{])*\{" % name)


def replaced(text, old, new):
    if text.count(old) != 1:
        sys.exit("extract: '%s' stands %d times" % (old, text.count(old)))
    return text.replace(old, new)


DIRECTION = (
    "let angle = i as f32 * std::f32::consts::TAU / (sample * (step + 1)) as f32;\n            let (x, y) = angle.sin_cos();",
    "let (x, y) = crate::direction(step, i);",
)


def plain_vectors(text):
    return text.replace("SmallVec<[u32; 1]>", "Vec<u32>").replace("SmallVec::new()", "Vec::new()").replace("smallvec::smallvec!", "vec!")


def helpers():
    return read("helpers.rs").replace("use glam::", "use crate::glam::")


def primitives():
    return read("primitives.rs").replace("use glam::", "use crate::glam::").replace("Vec2Helper}", "helpers::Vec2Helper}")


def instance():
    text = read("instance.rs")
    return (
        "#[derive(PartialEq, Eq, Clone, Copy, Debug)]\n"
        + item(text, "pub(crate) enum EdgeSide")
        + item(text, "pub(crate) trait U32Layer")
        + item(text, "impl U32Layer for u32")
    )


def layers():
    text = read("layers.rs")
    layer = replaced(item(text, "pub struct Layer"), "Option<RTree<BoundedPolygon>>", "Option<()>")
    layer = re.sub(r"    #\[cfg\(feature = \"detailed-layers\"\)\]\n    #\[cfg_attr[^\n]*\n    pub scale: Vec2,\n", "", layer)
    default = re.sub(r" *#\[cfg\(feature = \"detailed-layers\"\)\]\n *scale: Vec2::ONE,\n", "", item(text, "impl Default for Layer"))
    new = replaced(item(text, "pub fn new("), '        #[cfg(not(feature = "no-default-baking"))]\n        layer.bake();\n', "")
    new = replaced(new, '        #[cfg(feature = "no-default-baking")]\n', "")
    push = replaced(plain_vectors(item(text, "pub(crate) fn push_point_locations(")), *DIRECTION)
    push = replaced(push, "|polygon| U32Layer::from_layer_and_polygon", "|polygon| <u32 as U32Layer>::from_layer_and_polygon")
    push = re.sub(r"if let Some\(baked_polygons\).*?\} else (?=\{\n *found\.extend)", "", push, flags=re.S)
    return (
        "use crate::glam::{vec2, Vec2};\n"
        "use crate::{helpers::Vec2Helper, instance::{EdgeSide, U32Layer}, mesh::MeshError, primitives::{Polygon, Vertex}};\n"
        "#[derive(Debug, Clone)]\n"
        + layer
        + default
        + "impl Layer {\n"
        + "#[inline]\n"
        + item(text, "pub fn heights(")
        + item(text, "pub fn set_heights(")
        + item(text, "pub fn unbake(")
        + new
        + item(text, "pub(crate) fn get_point_locations_unit(")
        + "#[inline(always)]\n"
        + item(text, "fn point_in_polygon(")
        + "#[inline(always)]\n"
        + replaced(item(text, "pub(crate) fn get_closest_points_inner("), *DIRECTION)
        + "#[inline(always)]\n"
        + replaced(item(text, "pub(crate) fn get_closest_point_inner("), *DIRECTION)
        + "#[inline(always)]\n"
        + item(text, "pub(crate) fn get_closest_point_towards_inner(")
        + item(text, "pub fn bake_islands_detection(")
        + item(text, "pub(crate) fn get_point_location(")
        + push
        + "fn find_first_point_location_baked(&self, _point: &Vec2) -> Option<u32> { None }\n"
        + "fn get_point_locations_unit_baked<'a>(&'a self, _point: &'a Vec2)"
        + " -> impl Iterator<Item = u32> + use<'a> { std::iter::empty() }\n"
        + "}\n"
    )


def mesh():
    lib, stitching = read("lib.rs"), read("stitching.rs")
    fields = r"    #\[cfg\(feature = \"stats\"\)\]\n    #\[cfg_attr[^\n]*\n    pub\(crate\) scenarios: ScenarioCounter,\n"
    default = re.sub(r" *#\[cfg\(feature = \"stats\"\)\]\n *scenarios: [^\n]*\n", "", item(lib, "impl Default for Mesh"))
    coords = item(lib, "impl Coords {")
    return (
        "use std::collections::{HashMap, HashSet};\n"
        + "use crate::glam::Vec2;\nuse crate::{helpers::Vec2Helper, instance::U32Layer, layers::Layer};\n"
        + "#[derive(Debug, Copy, Clone, PartialEq)]\n"
        + re.sub(r" *#\[error[^\n]*\n", "", item(lib, "pub enum MeshError"))
        + "#[derive(Debug, PartialEq, Clone, Copy)]\n"
        + item(lib, "pub struct Coords {")
        + item(lib, "impl From<Vec2> for Coords {")
        + "impl Coords {\n"
        + item(coords, "pub fn on_layer(")
        + item(coords, "pub fn position(")
        + item(coords, "pub fn layer(")
        + item(coords, "pub fn polygon(")
        + item(coords, "pub fn height(")
        + "pub fn on_polygon(pos: Vec2, polygon: u32) -> Self { Coords { pos, layer: Some(polygon.layer()), polygon_index: polygon } }\n"
        + "}\n#[derive(Debug, Clone)]\n"
        + re.sub(fields, "", item(lib, "pub struct Mesh {"))
        + default
        + "impl Mesh {\n"
        + item(lib, "pub fn set_search_delta(")
        + item(lib, "pub fn set_search_steps(")
        + item(lib, "pub fn get_closest_point_on_layers(")
        + item(lib, "pub fn get_closest_points_on_layers_at_height(")
        + item(lib, "pub fn get_closest_points_on_layers(")
        + item(lib, "pub fn get_closest_point_towards(")
        + plain_vectors(item(lib, "pub(crate) fn candidate_polygons("))
        + plain_vectors(item(lib, "fn merge_touching_readings("))
        + item(lib, "fn share_an_edge(")
        + item(lib, "pub fn get_point_layer(")
        + replaced(item(lib, "fn get_point_location("), "fn get_point_location(", "pub fn get_point_location(")
        + item(lib, "fn get_point_locations(")
        + item(stitching, "pub fn remove_stitches(")
        + item(stitching, "pub fn remove_stitches_to_layer(")
        + item(stitching, "pub fn find_stitch_points(")
        + "}\ntype StitchPoints = Vec<((u8, u8), Vec<Vec2>)>;\n"
    )


def table():
    numbers = ["%d" % v.to_integral_value() for v in directions.directions()]
    return "pub const DIRECTIONS: [i32; %d] = [%s];\n" % (len(numbers), ", ".join(numbers))


def own(name):
    """A file of the comparison, to be included in a module: without the comment that is the module's own."""
    lines = open(os.path.join(here, "src", name), encoding="utf-8").read().splitlines(True)
    return "".join(line for line in lines if not line.startswith("//!"))


def with_mistakes(files):
    files = dict(files)
    for number, (name, changes) in enumerate(mistakes.MISTAKES):
        for (file, function), right, wrong in changes:
            there = function_of(files[file], function)
            switched = re.sub(r"\bON\b", "crate::polyanya::on(%d)" % number, wrong)
            files[file] = files[file].replace(there, replaced(there, right, switched))
    names = "".join('    "%s",\n' % name for name, _ in mistakes.MISTAKES)
    files["names.rs"] = "pub const MISTAKES: [&str; %d] = [\n%s];\n" % (len(mistakes.MISTAKES), names)
    return files


def write(folder, files):
    """A file that is as it was is not written again, so that nothing is built again for it."""
    os.makedirs(folder, exist_ok=True)
    for name, text in files.items():
        path = os.path.join(folder, name)
        if not os.path.exists(path) or open(path, encoding="utf-8").read() != text:
            with open(path, "w", encoding="utf-8") as f:
                f.write(text)


polyanya = {
    "helpers.rs": helpers(),
    "primitives.rs": primitives(),
    "instance.rs": instance(),
    "layers.rs": layers(),
    "mesh.rs": mesh(),
    "directions.rs": table(),
}
# Its modules are in one of ours.
polyanya = {name: text.replace("crate::", "crate::polyanya::") for name, text in polyanya.items()}
write(out, polyanya)
write(os.path.join(out, "mistaken"), with_mistakes({**polyanya, **{name: own(name) for name in ("by_rust.rs", "record.rs")}}))
