//! Sections 3 to 8 of document 01 and point 2 of document 02, written anew over plans, against the library's answers on random ships.
mod common;
use common::{one_polygon, Random, OUTSIDE, SQUARE};
use feedercoil::{BlockedDecks, Candidate, DeckPlan, PackedPolygon, Refusal, Seat, SeatRecord, Ship, ShipPlan};

type Point = (f32, f32);

fn add(p: Point, q: Point) -> Point {
    (p.0 + q.0, p.1 + q.1)
}

fn sub(p: Point, q: Point) -> Point {
    (p.0 - q.0, p.1 - q.1)
}

fn dot(p: Point, q: Point) -> f32 {
    p.0 * q.0 + p.1 * q.1
}

/// Twice the signed area of a, b, p.
fn cross(p: Point, (a, b): (Point, Point)) -> f32 {
    let (u, v) = (sub(b, a), sub(p, a));
    u.0 * v.1 - u.1 * v.0
}

fn in_box(p: Point, (a, b): (Point, Point)) -> bool {
    let within = |x: f32, a: f32, b: f32| a.min(b) - 1e-6 <= x && x <= a.max(b) + 1e-6;
    within(p.0, a.0, b.0) && within(p.1, a.1, b.1)
}

/// The edges of a polygon as pairs of vertex numbers.
fn edges(deck: &DeckPlan, k: usize) -> Vec<(usize, usize)> {
    let list = &deck.polygons[k];
    (0..list.len()).map(|i| (list[i] as usize, list[(i + 1) % list.len()] as usize)).collect()
}

fn ends(deck: &DeckPlan, (i, j): (usize, usize)) -> (Point, Point) {
    ((deck.vertices[i].x, deck.vertices[i].y), (deck.vertices[j].x, deck.vertices[j].y))
}

/// Section 3.
fn passes(deck: &DeckPlan, k: usize, p: Point) -> bool {
    for edge in edges(deck, k) {
        let c = cross(p, ends(deck, edge));
        if c.abs() < 1e-4 {
            if in_box(p, ends(deck, edge)) {
                return true;
            }
        } else if c <= 0.0 {
            return false;
        }
    }
    true
}

fn passing(deck: &DeckPlan, p: Point) -> Vec<u32> {
    (0..deck.polygons.len()).filter(|&k| passes(deck, k, p)).map(|k| k as u32).collect()
}

/// Section 4.
fn sample(p: Point, step: u32, i: u32, reach: f32) -> Point {
    let angle = std::f64::consts::TAU * f64::from(i) / f64::from(10 * (step + 1));
    let part = |x: f64| (x * 16_777_216.0).round() as f32 / 16_777_216.0;
    add(p, (part(angle.sin()) * reach * step as f32, part(angle.cos()) * reach * step as f32))
}

/// Section 6.
fn height(deck: &DeckPlan, k: usize, p: Point) -> Option<f32> {
    let h = |i: usize| deck.heights[i];
    if deck.heights.is_empty() {
        return None;
    }
    for (i, j) in edges(deck, k) {
        let edge = ends(deck, (i, j));
        if in_box(p, edge) && cross(p, edge).abs() < 1e-4 {
            let along = sub(edge.1, edge.0);
            let d = dot(along, along);
            let t = dot(sub(p, edge.0), along) / d;
            return if d == 0.0 { None } else { Some(h(i) + (h(j) - h(i)) * t) };
        }
    }
    let list: Vec<f32> = deck.polygons[k].iter().map(|&v| h(v as usize)).collect();
    let sum = list[1..].iter().fold(list[0], |sum, h| sum + h);
    Some(sum / list.len() as f32)
}

struct Found {
    step: u32,
    tried: u32,
    /// Each with its sample.
    candidates: Vec<(Candidate, u32)>,
}

/// Section 5, and document 02, point 1: the blocked set comes first.
fn search(plan: &ShipPlan, p: Point, deck: Option<u32>, blocked: &BlockedDecks) -> Found {
    let free = (0..plan.decks.len() as u8).filter(|&d| !blocked.contains(d));
    let open: Vec<u8> = free.filter(|&d| deck.unwrap_or(d.into()) == u32::from(d)).collect();
    let mut found = Found { step: 0, tried: 0, candidates: vec![] };
    for step in 0..plan.steps {
        found.step = step;
        for &d in &open {
            let deck = &plan.decks[usize::from(d)];
            for i in 0..=10 * step {
                found.tried += 1;
                let at = sample(sub(p, deck.offset), step, i, plan.reach);
                let hit = passing(deck, at);
                let (x, y) = add(at, deck.offset);
                found.candidates.extend(hit.iter().map(|&k| (Candidate { polygon: PackedPolygon::new(d, k), x, y }, i)));
                if !hit.is_empty() {
                    break;
                }
            }
        }
        if !found.candidates.is_empty() {
            break;
        }
    }
    found
}

/// Document 02, point 2: the step and the place. None where the squared distance is 0, which is refused.
fn search_towards(plan: &ShipPlan, p: Point, to: Point, deck: Option<u32>) -> Option<Option<(u32, Candidate)>> {
    let v = sub(p, to);
    if dot(v, v) == 0.0 {
        return None;
    }
    let scale = 1.0 / dot(v, v).sqrt();
    let way = (-(v.0 * scale), -(v.1 * scale));
    for step in 0..plan.steps {
        for d in (0..plan.decks.len()).filter(|&d| deck.unwrap_or(d as u32) == d as u32) {
            let on = &plan.decks[d];
            let at = add(sub(p, on.offset), (way.0 * plan.reach * step as f32, way.1 * plan.reach * step as f32));
            if let Some(&k) = passing(on, at).first() {
                let (x, y) = add(at, on.offset);
                return Some(Some((step, Candidate { polygon: PackedPolygon::new(d as u8, k), x, y })));
            }
        }
    }
    Some(None)
}

fn height_of(plan: &ShipPlan, c: &Candidate) -> Option<f32> {
    height(&plan.decks[c.polygon.deck() as usize], c.polygon.polygon() as usize, (c.x, c.y))
}

/// Section 7.
fn record(plan: &ShipPlan, seat: Seat, blocked: &BlockedDecks) -> SeatRecord {
    let found = search(plan, (seat.x, seat.y), seat.deck, blocked);
    let mut chosen = match found.candidates.first() {
        None => return SeatRecord::Unplaced { tried: found.tried },
        Some(first) => first,
    };
    if let Some(wish) = seat.wish {
        let mut least = f32::INFINITY;
        for candidate in &found.candidates {
            if let Some(h) = height_of(plan, &candidate.0) {
                if (h - wish).abs() < least {
                    least = (h - wish).abs();
                    chosen = candidate;
                }
            }
        }
    }
    let (c, sample) = chosen;
    SeatRecord::Placed {
        deck: c.polygon.deck(),
        polygon: c.polygon.polygon(),
        x: c.x,
        y: c.y,
        height: height_of(plan, c),
        step: found.step,
        sample: *sample,
        tried: found.tried,
        candidates: found.candidates.len() as u32,
    }
}

/// Section 8: nine probes a deck.
fn located(plan: &ShipPlan, p: Point, deck: Option<u32>) -> Vec<PackedPolygon> {
    const PROBES: [Point; 9] =
        [(0.0, 0.0), (1.0, 0.0), (1.0, 1.0), (0.0, 1.0), (-1.0, 1.0), (-1.0, 0.0), (-1.0, -1.0), (0.0, -1.0), (1.0, -1.0)];
    let on = |d: usize| {
        let from = sub(p, plan.decks[d].offset);
        let first = |m: &Point| passing(&plan.decks[d], add(from, (m.0 * plan.reach, m.1 * plan.reach))).first().copied();
        PROBES.iter().find_map(first).map(|k| PackedPolygon::new(d as u8, k))
    };
    (0..plan.decks.len()).filter(|&d| deck.is_none() || deck == Some(d as u32)).filter_map(on).collect()
}

/// Whether an edge of a has packed b in both ends' lists.
fn hop(plan: &ShipPlan, a: PackedPolygon, b: PackedPolygon) -> bool {
    let deck = &plan.decks[a.deck() as usize];
    let has = |v: usize| deck.vertices[v].neighbours.contains(&b.0);
    edges(deck, a.polygon() as usize).iter().any(|&(i, j)| has(i) && has(j))
}

fn merged(plan: &ShipPlan, list: &[PackedPolygon]) -> Vec<PackedPolygon> {
    let n = list.len();
    let mut reaches: Vec<Vec<bool>> = (0..n).map(|a| (0..n).map(|b| hop(plan, list[a], list[b])).collect()).collect();
    for k in 0..n {
        for a in 0..n {
            for b in 0..n {
                reaches[a][b] |= reaches[a][k] && reaches[k][b];
            }
        }
    }
    (0..n).filter(|&b| !(0..b).any(|a| reaches[a][b])).map(|b| list[b]).collect()
}

/// Bits, so that the sign of a zero counts.
fn bits(c: &Candidate) -> (u32, u32, u32) {
    (c.polygon.0, c.x.to_bits(), c.y.to_bits())
}

fn shown(r: &SeatRecord) -> Vec<u32> {
    match *r {
        SeatRecord::Unplaced { tried } => vec![tried],
        SeatRecord::Placed { deck, polygon, x, y, height, step, sample, tried, candidates } => {
            let height = height.map_or(u32::MAX, f32::to_bits);
            vec![deck, polygon, x.to_bits(), y.to_bits(), height, step, sample, tried, candidates]
        }
    }
}

/// A point anywhere, or on a vertex, where several polygons pass.
fn point(random: &mut Random, plan: &ShipPlan) -> Point {
    if plan.decks.is_empty() || random.below(3) == 0 {
        return (random.float() + random.below(1 << 20) as f32 / (1 << 20) as f32, random.float());
    }
    let deck = &plan.decks[random.below(plan.decks.len() as u32) as usize];
    let vertex = &deck.vertices[random.below(deck.vertices.len() as u32) as usize];
    add((vertex.x, vertex.y), deck.offset)
}

/// A random ship; in half of them polygons are neighbours by packed numbers, so that merging has something to do.
fn ship(random: &mut Random) -> ShipPlan {
    let mut plan = random.plan();
    plan.steps = 1 + random.below(5);
    if random.below(2) == 0 {
        for d in 0..plan.decks.len() {
            let polygons = plan.decks[d].polygons.clone();
            for (v, vertex) in plan.decks[d].vertices.iter_mut().enumerate() {
                vertex.neighbours.push(OUTSIDE);
                let around = (0..polygons.len()).filter(|&k| polygons[k].contains(&(v as u32)));
                vertex.neighbours.extend(around.map(|k| PackedPolygon::new(d as u8, k as u32).0));
                vertex.neighbours.retain(|_| random.below(5) > 0);
            }
        }
    }
    plan
}

#[test]
fn every_search() {
    let mut random = Random(0x0CEA_2117_0CEA_2117);
    let (mut several, mut dropped, mut unsearched) = (0, 0, 0);
    for _ in 0..3000 {
        let plan = ship(&mut random);
        let file = plan.file();
        let ship = Ship::new(&file);
        let decks = plan.decks.len() as u32;
        let blocked: BlockedDecks = (0..random.below(3)).map(|_| random.below(4) as u8).collect();
        let mut seats = vec![];
        for _ in 0..8 {
            let (x, y) = point(&mut random, &plan);
            let deck = random.named_deck(decks);
            let wish = if random.below(2) == 0 { Some(random.float()) } else { None };
            seats.push(Seat { x, y, deck, wish });

            let expected = search(&plan, (x, y), deck, &blocked).candidates;
            let found = ship.get_closest_points_on_layers(x, y, deck, &blocked).unwrap();
            assert_eq!(
                found.iter().map(bits).collect::<Vec<_>>(),
                expected.iter().map(|(c, _)| bits(c)).collect::<Vec<_>>(),
                "{plan:?} {x} {y}"
            );
            let first = ship.get_closest_point_on_layers(x, y, deck, &blocked).unwrap();
            assert_eq!(first.as_ref().map(bits), expected.first().map(|(c, _)| bits(c)));
            for c in &found {
                let height = ship.height(c.x, c.y, c.polygon).unwrap();
                assert_eq!(height.map(f32::to_bits), height_of(&plan, c).map(f32::to_bits), "{plan:?} {c:?}");
            }

            let asked = if random.below(8) == 0 { Some(decks) } else { deck };
            let layers = located(&plan, (x, y), asked);
            assert_eq!(ship.get_point_layer(x, y, asked).unwrap(), layers, "{plan:?} {x} {y}");
            assert_eq!(ship.get_point_location(x, y, asked).unwrap(), layers.first().copied());

            let list: Vec<_> = if asked == Some(decks) { vec![] } else { found.iter().map(|c| c.polygon).collect() };
            let merged = merged(&plan, &list);
            assert_eq!(ship.candidate_polygons(x, y, asked, None, &blocked).unwrap(), merged, "{plan:?} {x} {y}");
            unsearched += deck.iter().filter(|&&d| blocked.contains(d as u8)).count();
            several += u32::from(list.len() > 1);
            dropped += u32::from(merged.len() < list.len());
        }
        let records = ship.run(&blocked, &seats).unwrap();
        for (seat, found) in seats.iter().zip(&records) {
            assert_eq!(shown(found), shown(&record(&plan, *seat, &blocked)), "{plan:?} {seat:?} {blocked:?}");
        }
    }
    assert!(several > 3000 && dropped > 500, "{several} of several candidates, {dropped} merged");
    assert!(unsearched > 1000, "{unsearched} that name a blocked deck");
}

#[test]
fn every_search_towards() {
    let mut random = Random(0x57A1_2057_A120_57A1);
    let (mut first, mut later, mut missing, mut refused) = (0, 0, 0, 0);
    for _ in 0..3000 {
        let mut plan = ship(&mut random);
        // Polygons of one vertex pass everywhere, in step 0. Of squares, more are met later.
        if random.below(4) > 0 {
            plan.decks.iter_mut().for_each(|deck| *deck = DeckPlan { offset: deck.offset, ..one_polygon(&SQUARE) });
        }
        let file = plan.file();
        let ship = Ship::new(&file);
        for _ in 0..8 {
            let to = point(&mut random, &plan);
            let p = if random.below(2) == 0 { add(to, (random.float(), random.float())) } else { point(&mut random, &plan) };
            let deck = random.named_deck(plan.decks.len() as u32);
            let (count, expected) = match search_towards(&plan, p, to, deck) {
                None => (&mut refused, Err(Refusal(22))),
                Some(None) => (&mut missing, Ok(None)),
                Some(Some((0, place))) => (&mut first, Ok(Some(bits(&place)))),
                Some(Some((_, place))) => (&mut later, Ok(Some(bits(&place)))),
            };
            *count += 1;
            let found = ship.get_closest_point_towards(p.0, p.1, to, deck);
            assert_eq!(found.map(|place| place.as_ref().map(bits)), expected, "{plan:?} {p:?} {to:?} {deck:?}");
        }
    }
    assert!(first > 3000 && later > 700 && missing > 3000 && refused > 500, "{first} {later} {missing} {refused}");
}
