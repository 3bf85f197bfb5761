//! Each error of a text and each refusal, at the row that it is about.
mod common;
use common::{Folder, PLAN, SEATS};
use feedercoil::Refusal;

/// The one line of error of a plan and seats.
fn error(plan: &str, seats: &str) -> String {
    let folder = Folder::new().with("p", plan).with("s", seats).with("bad.mesh", "mesh\n2\n1 x\n");
    let said = folder.run(&["p", "s"]);
    assert_eq!((said.status, said.table.as_str()), (1, ""), "{plan}{seats}");
    let line = said.errors.strip_prefix("seatplan: ").and_then(|line| line.strip_suffix('\n')).unwrap_or(&said.errors);
    assert!(!line.contains('\n'), "{line}");
    line.to_string()
}

/// The error where a part of the example's plan is another.
fn changed(old: &str, new: &str) -> String {
    assert!(PLAN.contains(old), "{old}");
    error(&PLAN.replacen(old, new, 1), SEATS)
}

#[test]
fn a_plans_text() {
    for (old, new, what) in [
        ("reach,0.5", "reach,half", "p:1:7: 'half' is no number"),
        ("reach,0.5", "reach", "p:1:1: the row ends before its number"),
        ("reach,0.5", "reach,,1", "p:1:7: a blank cell in place of the number"),
        ("reach,0.5", "reach,0.5,m", "p:1:11: 'm' is one cell too many"),
        ("reach,0.5", "reach;0,5", "p:1:7: '0,5' is no number: decimals have a point"),
        ("reach,0.5\n", "", "p:8:1: the plan ends, and has no row 'reach'"),
        ("steps,2\n", "", "p:8:1: the plan ends, and has no row 'steps'"),
        ("steps,2", "steps,2.0", "p:2:7: '2.0' is no whole number"),
        ("steps,2", "steps,-2", "p:2:7: '-2' is no whole number"),
        ("steps,2", "steps,2\nsteps,2", "p:3:1: 'steps' stands on line 2 already"),
        ("steps,2", "step,2", "p:2:1: 'step' is neither 'reach', 'steps' nor 'deck'"),
        ("deck,Main\n", "", "p:3:1: 'vertex' is neither 'reach', 'steps' nor 'deck'"),
        ("deck,Main", "deck", "p:3:1: the row ends before its deck's name"),
        ("deck,Main", "deck,Main,1,one", "p:3:13: 'one' is no number"),
        ("polygon,", "deck,Main\npolygon,", "p:8:6: a deck 'Main' stands on line 3 already"),
        ("vertex,4,0,1", "vertex,4", "p:5:1: the row ends before its y"),
        ("vertex,4,0,1", "vertex,,0,1", "p:5:8: a blank cell in place of the x"),
        ("vertex,4,0,1", "vertex,4,0,1,1", "p:5:14: '1' is one cell too many"),
        ("vertex,4,0,1", "vertex, 4, 0, \"1", "p:5:15: a quote that does not end"),
        ("vertex,4,0,1", "corner,4,0,1", "p:5:1: 'corner' is neither 'vertex', 'polygon', 'neighbours', 'mesh' nor 'deck'"),
        ("0,1,2,3", "0,1,-2,3", "p:8:13: '-2' is no vertex number"),
        ("polygon,0,1,2,3", "polygon,\"0,1\"", "p:8:9: '0,1' is no vertex number"),
        ("0,1,2,3", "0,1,,3", "p:8:13: a blank cell in place of the vertex number"),
        ("polygon,", "neighbours\npolygon,", "p:8:1: the row ends before its vertex number"),
        ("polygon,", "neighbours,0,0,open\npolygon,", "p:8:16: 'open' is no polygon number"),
        ("polygon,", "neighbours,0\nneighbours,0,0\npolygon,", "p:9:12: the neighbours of vertex 0 stand on line 8 already"),
        ("polygon,", "neighbours,4\npolygon,", "p:8:12: deck 'Main' has no vertex 4: it has 4, from 0 on"),
        ("polygon,", "mesh,a.mesh\npolygon,", "p:8:1: 'mesh' in a deck that has rows of its own"),
        ("deck,Main", "deck,Top\nmesh,bad.mesh\ndeck,Main", "bad.mesh:3:3: 'x' is no number of polygons"),
    ] {
        assert_eq!(changed(old, new), what);
    }
    let absent = changed("deck,Main", "deck,Top\nmesh,absent.mesh\ndeck,Main");
    assert!(absent.starts_with("p:4:6: absent.mesh: "), "{absent}");
    let mesh = Folder::new().with("m", "mesh\n2\n1 1\n0 0 0\n1 0 -1\n").with("s", "");
    let said = mesh.with("p", "reach,1\nsteps,1\ndeck,A\nmesh,m\nvertex,1,1\n").run(&["p", "s"]);
    assert_eq!(said.errors, "seatplan: p:5:1: 'vertex' in a deck that is taken from a mesh file\n");
}

#[test]
fn a_seat_lists_text() {
    for (seats, what) in [
        ("A1,1,1\nA1,2,2\n", "s:2:1: a seat 'A1' stands on line 1 already"),
        ("name,x,y,deck,height\n,1,1\n", "s:2:1: a blank cell in place of the seat's name"),
        ("A1,1\n", "s:1:1: the row ends before its y"),
        ("# A1,1,1\n# note\n", "s:2:1: the row ends before its x"),
        ("A1,1,one\n", "s:1:6: 'one' is no number"),
        ("A1,1,1,Top\n", "s:1:8: the plan has no deck 'Top': it has Main"),
        ("A1,1,1,Main,high\n", "s:1:13: 'high' is no number"),
        ("A1,1,1,Main,1,1\n", "s:1:15: '1' is one cell too many"),
        ("A1;1,5;1\n", "s:1:4: '1,5' is no number: decimals have a point"),
    ] {
        assert_eq!(error(PLAN, seats), what);
    }
}

#[test]
fn what_the_library_refuses() {
    let refused = |place: &str, number: u32| format!("{place}: {}", Refusal(number));
    let more = "0,".repeat(4096) + "0";
    for (old, new, place, number) in [
        ("reach,0.5", "reach,1000.5", "p:1:7", 3),
        ("reach,0.5", "reach,nan", "p:1:7", 3),
        ("steps,2", "steps,17", "p:2:7", 4),
        ("steps,2", "steps,0", "p:2:7", 4),
        ("polygon,0,1,2,3\n", "", "p:3:1", 8),
        ("deck,Main", "deck,Top\ndeck,Main", "p:3:1", 8),
        ("vertex,4,4,3", "vertex,4,4", "p:6:1", 10),
        ("vertex,0,0,1", "vertex,0,0", "p:5:1", 10),
        ("deck,Main", "deck,Main,0,1000001", "p:3:1", 11),
        ("vertex,4,4,3", "vertex,4,inf,3", "p:6:1", 11),
        ("vertex,4,4,3", "vertex,4,4,-1e7", "p:6:1", 11),
        ("vertex,0,4,3", "vertex,1e60,4,3", "p:7:1", 11),
        ("polygon,0,1,2,3", "polygon,0,1,2,3\npolygon", "p:9:1", 12),
        ("0,1,2,3", &more, "p:8:1", 12),
        ("0,1,2,3", "0,1,2,4", "p:8:1", 13),
        ("polygon,0,1,2,3", "polygon,0,1,2,3\npolygon,0\npolygon,4\npolygon,5", "p:10:1", 13),
    ] {
        assert_eq!(changed(old, new), refused(place, number));
    }
    let deck = |d: usize| format!("deck,{d}\nvertex,0,0\npolygon,0\n");
    let decks: String = (0..257).map(deck).collect();
    assert_eq!(error(&format!("reach,1\nsteps,1\n{decks}"), SEATS), refused("p:771:1", 2));
    // Of several decks the one, and in a mesh file the line.
    assert_eq!(error(&format!("reach,1\nsteps,1\n{}{}polygon,1\n{}", deck(0), deck(1), deck(2)), SEATS), refused("p:9:1", 13));
    let mesh = "mesh\n2\n2 2\n0 0 0\n1 0 0\n1 0 -1\n\n1 2 -1\n";
    let folder = Folder::new().with("m", mesh).with("p", "reach,1\nsteps,1\ndeck,A\nmesh,m\n").with("s", SEATS);
    assert_eq!(folder.run(&["p", "s"]).errors, format!("seatplan: {}\n", refused("m:8:1", 13)));
    for (seats, place) in [("A1,1,1\nA2,1e7,1\nA3,1,inf\n", "s:2:1"), ("A1,1,1\nA2,1,1\nA3,1,1,Main,nan\n", "s:3:1")] {
        assert_eq!(error(PLAN, seats), refused(place, 16));
    }
}
