//! Independent reference for the flow comparer.
//!
//! Written only from document 01 (the scope: sheets, grids, turns, plans), from
//! requests L1 (which record is off its chain), L2 (actions by name), L3 (old
//! sheets to named ones and back), L6 (alike means the same buttons too) and L8
//! (the shortest plan) of document 02 and from document 004 (the base
//! algorithm). It aims at being plainly right rather than fast.
//! Names: a page is a [`lts::State`], a move is a [`lts::Transition`], a turn
//! list is a schedule, the name of a block is its representative, the name of an
//! action is its label, and a plan is a [`plans::Strategy`] made of
//! [`plans::Entry`]. A call gives its result or a
//! [`refusal::Refusal`], which has a refusal number and a record number.
//!
//! The calls:
//!
//! | call | function |
//! |---|---|
//! | normalise | [`sheet::normalise`] |
//! | end start | [`grid::end_start`] |
//! | ready start | [`grid::ready_start`] |
//! | test simulation | [`grid::test_simulation`] |
//! | coarsest | [`turns::coarsest`] |
//! | check plan | [`plans::check_plan`] |
//! | write plan | [`plans::write_plan`] |
//! | hand play | [`game::hand_play`] |
//! | compare | [`compare::compare`] |
//! | compare ready | [`compare::compare_ready`] |
//! | join | [`join::join`] |
//! | to named | [`convert::to_named`] |
//! | to plain | [`convert::to_plain`] |
//! | the program flowcheck | [`report::flowcheck`] |

pub mod base;
pub mod chain_faults;
pub mod compare;
pub mod convert;
pub mod fixpoint;
pub mod game;
pub mod grid;
pub mod join;
pub mod label_faults;
pub mod labels;
pub mod lts;
pub mod plan_depths;
pub mod plans;
pub mod prng;
pub mod random;
pub mod ready_flows;
pub mod refusal;
pub mod relation;
pub mod report;
pub mod shapes;
pub mod sheet;
pub mod state_set;
pub mod turns;

#[cfg(test)]
mod tests;
