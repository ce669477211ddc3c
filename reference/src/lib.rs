//! A second implementation of document 01, "Kiosk order flows: sheet, state and touches", and of
//! its change requests CR 1, "A total nobody can type over", CR 2, "Blank where nothing is meant", CR 3, "Sums
//! beyond the range", CR 4, "Eight leaves on a proof order", CR 5, "Mirrored screens", CR 6, "Counter, customer and
//! technician", and CR 7, "The tariff on the receipt".
//!
//! Trees inside, words in lent memory. Loading ([`sheet`], [`limits`], [`tree`], [`typing`], put
//! together in [`flow`]); the rules ([`evaluate`], [`observe`], [`stride`], [`handle`], [`inputs`], [`roles`]);
//! start, look and handle on a flow ([`state`]); the program ([`session`]). The four calls on lent
//! memory ([`calls`]) read and write states as words ([`words`]). The rest makes cases ([`generate`])
//! and lent memory ([`lent`]) to compare engines on ([`compare`], [`engine`], [`program`] with the
//! [`edges`], [`blank_edges`], [`overflow_edges`], [`leaf_edges`] and [`role_edges`]), tells what the cases cover
//! ([`coverage`], [`role_coverage`]), says anew what holds at every rest ([`model`]) and names wrong variants ([`slips`]). CR 5
//! changes no rule: [`counterparts`] is what it says of bytes, [`pairs`] are sessions that correspond by it, and
//! [`pair_report`] runs a program on them. CR 7 stands beside all of it: [`receipt`] prices an order, on
//! [`receipt_edges`] and [`receipt_inputs`], and [`receipt_report`] asks for its bound.
#![forbid(unsafe_code)]

pub mod binders;
pub mod blank_edges;
pub mod calls;
pub mod compare;
pub mod counterparts;
pub mod coverage;
pub mod edges;
pub mod engine;
pub mod evaluate;
pub mod event;
pub mod field;
pub mod flow;
pub mod generate;
pub mod grounds;
pub mod handle;
pub mod inputs;
pub mod kinds;
pub mod leaf_edges;
pub mod lent;
pub mod limits;
pub mod model;
pub mod nesting_edges;
pub mod observe;
pub mod operators;
pub mod overflow_edges;
pub mod pair_report;
pub mod pairs;
pub mod program;
pub mod random;
pub mod receipt;
pub mod receipt_edges;
pub mod receipt_inputs;
pub mod receipt_report;
pub mod role_coverage;
pub mod role_edges;
pub mod roles;
pub mod rules;
pub mod session;
pub mod sheet;
pub mod slips;
pub mod state;
pub mod stride;
pub mod syntax;
pub mod task;
pub mod tree;
pub mod typing;
pub mod value;
pub mod words;
