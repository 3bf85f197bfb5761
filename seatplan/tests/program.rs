//! The program's table, its files, and what it leaves alone.
mod common;
use common::{example, Folder, PLAN, SEATS};
use feedercoil::{raw, seat_list, DeckPlan, Seat, ShipPlan, VertexPlan};

/// Document 01's example by the library's crate, of 196 bytes.
fn ship() -> Vec<u8> {
    let vertex = |x, y| VertexPlan { x, y, neighbours: vec![0, u32::MAX] };
    let deck = DeckPlan {
        offset: (0.0, 0.0),
        vertices: vec![vertex(0.0, 0.0), vertex(4.0, 0.0), vertex(4.0, 4.0), vertex(0.0, 4.0)],
        polygons: vec![vec![0, 1, 2, 3]],
        heights: vec![1.0, 1.0, 3.0, 3.0],
    };
    ShipPlan { reach: 0.5, steps: 2, decks: vec![deck] }.file()
}

fn seats() -> Vec<u8> {
    seat_list(&[Seat::at(1.0, 1.0), Seat::at(5.0, 5.0), Seat::at(-0.5, 2.0)])
}

#[test]
fn the_table_of_document_01s_example() {
    let said = example().run(&["plan.csv", "seats.csv"]);
    assert_eq!((said.status, said.errors.as_str()), (0, ""));
    let expected = "\
Lengths in metres. Reach 0.5, 2 steps.

Placed

seat  deck  polygon      x      y  height  step  distance  candidates  tried
A1    Main        0  1.000  1.000   2.000     0     0.000           1      1
A3    Main        0  0.000  2.000   2.000     1     0.500           1      7

Unplaced: no deck within reach

seat      x      y  deck asked  samples tried
A2    5.000  5.000  any                    12

Seats by deck

deck        seats
Main            2
(placed)        2
(unplaced)      1
";
    assert_eq!(said.table, expected);
}

#[test]
fn its_bytes() {
    let folder = example();
    let files = ["--ship", "a", "--seats", "b", "--records", "c", "--seatlist", "d"];
    assert_eq!(folder.run(&[&["plan.csv", "seats.csv"][..], &files].concat()).status, 0);
    let mut records = vec![0; 3 * raw::RECORD_SIZE];
    assert_eq!(raw::run(&ship(), &[0; 32], &seats(), &mut records), Ok(3));
    assert_eq!(folder.read("a"), ship());
    assert_eq!(folder.read("b"), seats());
    assert_eq!(folder.read("c"), records);
    assert_eq!(folder.read("d"), [&196u32.to_le_bytes(), &ship()[..], &[0; 32], &seats()].concat());
    assert_eq!(folder.files(), ["a", "b", "c", "d", "plan.csv", "seats.csv"]);
}

#[test]
fn a_blocked_deck() {
    let folder = example();
    let said = folder.run(&["plan.csv", "seats.csv", "--blocked", "Main", "--seatlist", "d", "--svg", "s"]);
    assert_eq!((said.status, said.errors.as_str()), (0, ""));
    assert!(said.table.contains("A1     1.000  1.000  any                     0\n"), "{}", said.table);
    assert_eq!(folder.read("d")[200..232], [&[1][..], &[0; 31]].concat());
    assert!(String::from_utf8(folder.read("s")).unwrap().contains(">Main: 0 seats, blocked<"));
    let said = folder.run(&["plan.csv", "seats.csv", "--blocked", "Top"]);
    assert_eq!((said.status, said.errors.as_str()), (1, "seatplan: --blocked: the plan has no deck 'Top': it has Main\n"));
}

#[test]
fn no_decks_and_no_seats() {
    let folder = Folder::new().with("plan.csv", "reach;0.5\nsteps;2\n").with("seats.csv", "A1,1,1\n").with("none.csv", "Name,X,Y,Deck\n");
    let said = folder.run(&["plan.csv", "seats.csv", "--ship", "a", "--svg", "s"]);
    assert!(said.status == 0 && said.table.contains("A1    1.000  1.000  any                     0\n"), "{said:?}");
    assert_eq!(folder.read("a"), [0, 0, 0, 0, 0, 0, 0, 0x3F, 2, 0, 0, 0]);
    let said = folder.run(&["plan.csv", "none.csv", "--records", "c"]);
    assert!(said.status == 0 && said.table.ends_with("(placed)        0\n(unplaced)      0\n"), "{said:?}");
    assert!(folder.read("c").is_empty());
}

/// The example's square clockwise, a corner drawn in, a corner on an edge's line.
#[test]
fn a_polygon_that_turns_right_is_noted() {
    let noted = |corners: &str| {
        let plan = PLAN.replace("vertex,0,4,3", "vertex,0,4,3\nvertex,1,1,2\nvertex,2,0,1").replace("0,1,2,3", corners);
        let said = example().with("plan.csv", plan).run(&["plan.csv", "seats.csv"]);
        assert_eq!(said.status, 0);
        (said.errors, said.table.contains("A1    Main"))
    };
    let note = |vertex| {
        let what = "it holds only what is left of all its edges";
        format!("seatplan: plan.csv:10:1: note: polygon 0 of deck 'Main' turns clockwise at vertex {vertex}: {what}\n")
    };
    assert_eq!(noted("3,2,1,0"), (note(3), false));
    assert_eq!(noted("0,1,2,4,3").0, note(4));
    assert_eq!(noted("0,5,1,2,3"), (String::new(), true));
    assert_eq!(noted("4"), (String::new(), true));
}

/// Where the plan, the seats or one of the outputs is wrong, no file comes and none is altered.
#[test]
fn nothing_is_written_by_halves() {
    let refused = PLAN.replace("0,1,2,3", "0,1,2,4");
    let folder = example().with("refused.csv", refused).with("wrong.csv", "A1,1,x\n").with("c", "as before");
    let before = folder.files();
    std::fs::create_dir(folder.path().join("e")).unwrap();
    let outputs = ["--ship", "a", "--svg", "b", "--records", "c"];
    for (arguments, what) in [
        (vec!["refused.csv", "seats.csv"], "refused.csv:8:1: refused, question 13"),
        (vec!["plan.csv", "wrong.csv"], "wrong.csv:1:6: 'x' is no number"),
        (vec!["plan.csv", "seats.csv", "--seats", "absent/d"], "absent/d: "),
        (vec!["plan.csv", "seats.csv", "--seats", "e"], "e: this is no plain file"),
        (vec!["absent.csv", "seats.csv"], "absent.csv: "),
    ] {
        // The output that cannot be written comes last, after others that can.
        let said = folder.run(&[&arguments[..2], &outputs, &arguments[2..]].concat());
        assert_eq!((said.status, said.table.as_str()), (1, ""), "{what}");
        assert!(said.errors.starts_with(&format!("seatplan: {what}")), "{}", said.errors);
        assert_eq!(folder.files().len(), before.len() + 1, "{what}");
        assert_eq!(folder.read("c"), b"as before");
    }
    assert_eq!(folder.run(&[&["plan.csv", "seats.csv"][..], &outputs].concat()).status, 0);
    assert_eq!(folder.read("c").len(), 3 * raw::RECORD_SIZE);
}

#[test]
fn a_mesh_file_is_not_written_over() {
    let mesh = "mesh\n2\n1 1\n0 0 0\n1 0 -1\n";
    let folder = Folder::new().with("p", "reach,1\nsteps,1\ndeck,A\nmesh,m\n").with("m", mesh).with("s", SEATS);
    let said = folder.run(&["p", "s", "--ship", "a", "--svg", "./m"]);
    assert_eq!(
        (said.status, said.errors.as_str()),
        (1, "seatplan: ./m: the plan takes a deck from this file, and it is not written over\n")
    );
    assert_eq!((folder.files(), folder.read("m")), (vec!["m".to_string(), "p".to_string(), "s".to_string()], mesh.into()));
}

#[test]
fn commands_that_are_none() {
    let folder = example();
    for (arguments, what) in [
        (vec![], "a plan and a seat list are wanted, and the files named are 0"),
        (vec!["plan.csv"], "a plan and a seat list are wanted, and the files named are 1"),
        (vec!["plan.csv", "seats.csv", "--pdf", "a"], "there is no option '--pdf'"),
        (vec!["plan.csv", "seats.csv", "--svg"], "'--svg' wants a name after it"),
        (vec!["plan.csv", "seats.csv", "--svg", "a", "--ship", "./a"], "'./a' is named twice"),
        (vec!["plan.csv", "seats.csv", "--seats", "../seats.csv/../seats.csv", "--ship", "seats.csv"], "'seats.csv' is named twice"),
    ] {
        let said = folder.run(&arguments);
        assert_eq!((said.status, said.table.as_str()), (2, ""), "{arguments:?}");
        assert_eq!(said.errors, format!("seatplan: {what}; 'seatplan --help' says how it is called\n"));
    }
    assert_eq!((folder.read("plan.csv"), folder.read("seats.csv")), (PLAN.into(), SEATS.into()));
    let help = folder.run(&["--help"]);
    assert!(help.status == 0 && help.table.contains("--records FILE"), "{help:?}");
}
