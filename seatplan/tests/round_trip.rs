//! A random ship is written as text, read, and written as a ship file, which has to be the ship's own.
#[path = "../../rust/tests/common/mod.rs"]
mod common;
use common::Random;
use feedercoil::ShipPlan;
use seatplan::Plan;

const PLANS: u32 = 2000;

/// A coordinate that a file may have, of any bits.
fn coordinate(random: &mut Random) -> f32 {
    loop {
        let float = f32::from_bits(random.below(u32::MAX));
        if float.abs() <= 1e6 {
            return float;
        }
    }
}

/// The plan's text: every row of it, the lists of all vertices written.
fn text(plan: &ShipPlan, separator: &str) -> String {
    let mut rows = vec![vec!["reach".to_string(), plan.reach.to_string()], vec!["steps".to_string(), plan.steps.to_string()]];
    for (d, deck) in plan.decks.iter().enumerate() {
        rows.push(vec!["deck".to_string(), format!("deck {d}"), deck.offset.0.to_string(), deck.offset.1.to_string()]);
        for (v, vertex) in deck.vertices.iter().enumerate() {
            let height = deck.heights.get(v).map(|height| height.to_string());
            rows.push(["vertex".to_string(), vertex.x.to_string(), vertex.y.to_string()].into_iter().chain(height).collect());
            let entries = vertex.neighbours.iter().map(|&entry| if entry == u32::MAX { "-1".to_string() } else { entry.to_string() });
            rows.push(["neighbours".to_string(), v.to_string()].into_iter().chain(entries).collect());
        }
        for polygon in &deck.polygons {
            rows.push(std::iter::once("polygon".to_string()).chain(polygon.iter().map(|v| v.to_string())).collect());
        }
    }
    rows.iter().map(|row| row.join(separator) + "\n").collect()
}

#[test]
fn random_plans() {
    let mut random = Random(0x1889_0702_1912_0415);
    for i in 0..PLANS {
        let mut plan = random.plan();
        for deck in &mut plan.decks {
            deck.offset = (coordinate(&mut random), coordinate(&mut random));
            deck.vertices.iter_mut().for_each(|vertex| (vertex.x, vertex.y) = (coordinate(&mut random), coordinate(&mut random)));
            deck.heights.iter_mut().for_each(|height| *height = coordinate(&mut random));
        }
        let written = text(&plan, [",", ";", "\t", " , "][i as usize % 4]);
        let read = Plan::of_text("plan", &written).unwrap();
        let file = read.ship().file();
        assert_eq!(file, plan.file(), "{written}");
        assert_eq!(ShipPlan::read(&file), Some(plan), "{written}");
    }
}
