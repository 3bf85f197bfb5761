//! Plans and their files: reading back what was written, and what removal makes of a plan.
mod common;
use common::{example, no_decks, square, Random, OUTSIDE};
use feedercoil::{PackedPolygon, Ship, ShipPlan, StitchPoint};

#[test]
fn read_back() {
    let mut random = Random(0x0DEC_5000_0DEC_5001);
    for _ in 0..2000 {
        let plan = random.plan();
        let file = plan.file();
        assert_eq!(ShipPlan::read(&file).as_ref(), Some(&plan));
        assert_eq!(Ship::new(&file).check(), Ok(()));
        assert_eq!(Ship::new(file).plan(), Some(plan));
    }
}

/// docs/FORMAT.md's file of a new project, which stays a plan's file until it has its first deck.
#[test]
fn a_new_project() {
    let file = [0u8, 0, 0, 0, 0, 0, 0, 0x3F, 2, 0, 0, 0];
    let mut plan = no_decks();
    assert_eq!(plan.file(), file);
    assert_eq!(ShipPlan::read(&file), Some(plan.clone()));
    assert_eq!(ShipPlan::read(&file[..11]), None);
    assert_eq!(ShipPlan::read(&[&file[..], &[0]].concat()), None);
    let ship = Ship::new(&file[..]);
    assert_eq!(ship.remove_stitches().unwrap().file(), file);
    for layer in [0, 1, 255] {
        assert_eq!(ship.remove_stitches_to_layer(layer).unwrap().file(), file);
    }
    plan.decks.push(square());
    assert_eq!(plan, example());
    assert_eq!(Ship::new(plan.file()).check(), Ok(()));
}

/// Plans that the library refuses have a file all the same, which reads back.
#[test]
fn read_back_what_is_refused() {
    let mut plans = vec![ShipPlan::default(), example(), example(), example(), example()];
    plans[1].decks[0].polygons.push(vec![]);
    plans[2].decks[0].vertices.clear();
    plans[3].decks[0].heights.push(-0.0);
    plans[4].steps = u32::MAX;
    for plan in plans {
        assert!(Ship::new(plan.file()).check().is_err());
        assert_eq!(ShipPlan::read(&plan.file()), Some(plan));
    }
}

/// Reading is total. What it reads, it writes again byte by byte; and it reads every file that passes.
#[test]
fn read_any_bytes() {
    let mut random = Random(0xF11E_F11E_F11E_F11E);
    let (mut read, mut passed) = (0, 0);
    for _ in 0..20_000 {
        let mut file = random.plan().file();
        for _ in 0..random.below(3) {
            let at = random.below(file.len() as u32) as usize;
            file[at] = [0, 1, 4, 255, file[at].wrapping_add(1)][random.below(5) as usize];
        }
        if random.below(8) == 0 {
            file.truncate(random.below(file.len() as u32) as usize);
        }
        let plan = ShipPlan::read(&file);
        if Ship::new(&file).check().is_ok() {
            passed += 1;
            assert!(plan.is_some(), "a file that passes has a plan");
        }
        if let Some(plan) = plan {
            read += 1;
            assert_eq!(plan.file(), file);
        }
    }
    assert!(passed > 5000 && read > passed && read < 20_000, "{passed} passed, {read} read");
}

/// Section 8: in deck d all ones stays, an entry of deck d becomes a plain number, others go.
fn plain_in(d: u32, entry: u32) -> Option<u32> {
    match entry {
        OUTSIDE => Some(OUTSIDE),
        _ if PackedPolygon(entry).deck() == d => Some(PackedPolygon(entry).polygon()),
        _ => None,
    }
}

fn each_list(plan: &ShipPlan, kept: impl Fn(u32, u32) -> Option<u32>) -> ShipPlan {
    let mut new = plan.clone();
    for (d, deck) in new.decks.iter_mut().enumerate() {
        for vertex in &mut deck.vertices {
            vertex.neighbours = vertex.neighbours.iter().filter_map(|&entry| kept(d as u32, entry)).collect();
        }
    }
    new
}

#[test]
fn removal() {
    let mut random = Random(0x5717_C4E5_5717_C4E5);
    for _ in 0..2000 {
        let plan = random.plan();
        let ship = Ship::new(plan.file());
        let removed = each_list(&plan, plain_in);
        let once = ship.remove_stitches().unwrap();
        assert_eq!(once.file(), removed.file());
        assert_eq!(once.remove_stitches().unwrap().plan(), Some(each_list(&removed, plain_in)), "a second removal");
        let t = [0, 1, 2, 3, 255, random.below(256) as u8][random.below(6) as usize];
        let to_t = each_list(&plan, |d, entry| match entry {
            _ if d == u32::from(t) => plain_in(d, entry),
            OUTSIDE => Some(OUTSIDE),
            _ if PackedPolygon(entry).deck() == u32::from(t) => None,
            _ => Some(entry),
        });
        assert_eq!(ship.remove_stitches_to_layer(t).unwrap().plan(), Some(to_t), "to {t}");
    }
}

#[test]
fn stitch_points_of_plans() {
    let mut random = Random(0x0031_4159_2653_5897);
    for _ in 0..1000 {
        let mut plan = random.plan();
        let whole = |x: f32| if x < 0.0 { -0.0 } else { x.trunc() };
        plan.decks.iter_mut().flat_map(|d| &mut d.vertices).for_each(|v| (v.x, v.y) = (whole(v.x), whole(v.y)));
        let mut expected = vec![];
        for b in 1..plan.decks.len() {
            for a in 0..b {
                for v in &plan.decks[a].vertices {
                    let same = plan.decks[b].vertices.iter().filter(|w| (v.x, v.y) == (w.x, w.y)).count();
                    expected.extend(vec![StitchPoint { a: a as u32, b: b as u32, x: v.x, y: v.y }; same]);
                }
            }
        }
        expected.sort_by_key(|p| (p.a, p.b));
        assert_eq!(Ship::new(plan.file()).find_stitch_points().unwrap(), expected);
    }
}

#[test]
fn labels_of_plans() {
    let mut random = Random(0x0027_1828_1828_4590);
    for _ in 0..1000 {
        let mut plan = random.plan();
        for deck in &mut plan.decks {
            let n = deck.polygons.len() as u32;
            for entry in deck.vertices.iter_mut().flat_map(|v| &mut v.neighbours) {
                *entry = if *entry == OUTSIDE { OUTSIDE } else { *entry % n };
            }
        }
        let ship = Ship::new(plan.file());
        for (d, deck) in plan.decks.iter().enumerate() {
            let names = |a: usize, b: usize| deck.polygons[a].iter().any(|&v| deck.vertices[v as usize].neighbours.contains(&(b as u32)));
            let n = deck.polygons.len();
            let mut reaches: Vec<Vec<bool>> = (0..n).map(|a| (0..n).map(|b| a == b || names(a, b)).collect()).collect();
            for k in 0..n {
                for a in 0..n {
                    for b in 0..n {
                        reaches[a][b] |= reaches[a][k] && reaches[k][b];
                    }
                }
            }
            let least = |b: usize| (0..n).find(|&a| reaches[a][b]).unwrap() as u32;
            assert_eq!(ship.bake_islands_detection(d as u32).unwrap(), (0..n).map(least).collect::<Vec<_>>());
        }
    }
}
