//! The random calls, ship by ship, the same in every run.
use crate::ask::random_call;
use crate::check::{compare, Ship};
use crate::damage::{damaged_call, damaged_file};
use crate::met::Met;
use crate::random::Random;
use crate::seen;
use crate::ships::random_ship;

/// Calls of a ship as it is, with something wrong in the call, and with something wrong in the file.
const CALLS: u32 = 20;
const DAMAGED_CALLS: u32 = 4;
const DAMAGED_FILES: u32 = 3;

/// How many calls the gate makes, and each mistake, and their seed.
pub const GATE_CALLS: u64 = 20_000;
pub const SEED: u64 = 0x5EA7_5EA7;

/// At least as many calls as are asked. A difference is told to `differs`, with the number of its call and the ship's file.
pub fn random_calls(calls: u64, seed: u64, met: &mut Met, differs: &mut dyn FnMut(u64, &[u8], &str)) {
    // The numbers never leave 0.
    let mut random = Random(seed.max(1));
    while met.calls < calls {
        let plan = random_ship(&mut random, met);
        seen::ship(met, &plan);
        let mut ship = Ship::new(plan.clone());
        let mut ask = |ship: &mut Ship, asked, met: &mut Met| {
            if let Err(difference) = compare(ship, &asked, met) {
                differs(met.calls, &ship.file, &difference);
            }
        };
        for _ in 0..CALLS {
            ask(&mut ship, random_call(&plan, &mut random), met);
        }
        for _ in 0..DAMAGED_CALLS {
            ask(&mut ship, damaged_call(&plan, &mut random), met);
        }
        for _ in 0..DAMAGED_FILES {
            let mut damaged = damaged_file(&plan, &mut random);
            let asked = if random.once_in(2) { random_call(&plan, &mut random) } else { damaged_call(&plan, &mut random) };
            ask(&mut damaged, asked, met);
        }
    }
}
