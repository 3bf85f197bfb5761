//! polyanya's own code, as extract.py wrote it to the folder POLYANYA; with the feature `mistakes`, with mistakes in it.
#![allow(warnings)]

#[cfg(not(feature = "mistakes"))]
macro_rules! extracted {
    ($name:literal) => {
        include!(concat!(env!("POLYANYA"), "/", $name));
    };
}
#[cfg(feature = "mistakes")]
macro_rules! extracted {
    ($name:literal) => {
        include!(concat!(env!("POLYANYA"), "/mistaken/", $name));
    };
}
pub(crate) use extracted;

pub(crate) use crate::glam;

pub mod helpers {
    super::extracted!("helpers.rs");
}
pub mod instance {
    super::extracted!("instance.rs");
}
pub mod layers {
    super::extracted!("layers.rs");
}
pub mod mesh {
    super::extracted!("mesh.rs");
}
pub mod primitives {
    super::extracted!("primitives.rs");
}

extracted!("directions.rs");

/// The table's direction for sample i of a step, in place of `sin_cos`.
#[inline(always)]
pub fn direction(step: u32, i: u32) -> (f32, f32) {
    let k = 2 * (5 * step * step - 4 * step + i) as usize;
    (DIRECTIONS[k] as f32 / 16777216.0, DIRECTIONS[k + 1] as f32 / 16777216.0)
}

#[cfg(feature = "mistakes")]
pub use switch::*;

#[cfg(feature = "mistakes")]
mod switch {
    use std::sync::atomic::{AtomicUsize, Ordering::Relaxed};

    super::extracted!("names.rs");

    static SWITCHED_ON: AtomicUsize = AtomicUsize::new(usize::MAX);

    /// Whether the mistake of this number is made.
    #[inline(always)]
    pub fn on(mistake: usize) -> bool {
        SWITCHED_ON.load(Relaxed) == mistake
    }

    /// From now on this mistake alone is made; of a number that no mistake has, none.
    pub fn switch_on(mistake: usize) {
        SWITCHED_ON.store(mistake, Relaxed);
    }
}
