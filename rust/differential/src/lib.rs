//! Differential tests: every exported call against the independent program.
//!
//! A [`Case`](case::Case) is one call with all its lent buffers. [`make`]
//! makes it from a seed, [`sides`] runs it on both sides, [`memory`] says
//! where the lent buffers lie, and [`run`] runs many and counts what came out.

#![deny(unsafe_code)]

pub mod case;
pub mod chains;
pub mod damage;
pub mod flows;
pub mod grids;
pub mod make;
pub mod memory;
pub mod run;
pub mod sides;
