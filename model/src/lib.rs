//! A model of the lattice priority controller, cycle by cycle: document 01, with
//! the requests of document 02 that have landed (`docs/changes/README.md`).
//!
//! Every rule stands in the module named after its place in document 01:
//!
//! | Document 01                        | Module                  |
//! |------------------------------------|-------------------------|
//! | The policy file                    | [`policy`]              |
//! | Masks of W-205                     | [`masks`]               |
//! | A tick: fresh states, range checks | [`state`]               |
//! | A tick: ticks and offers           | [`tick`]                |
//! | The walk, and how long one can be  | [`walk`]                |
//! | Dead time                          | [`dead_time`]           |
//! | Trace and log                      | [`trace`]               |
//! | The extract                        | [`extract`]             |
//! | Sets of classes of W-211           | [`class_set`]           |
//! | Recordings of W-204                | [`recordings`]          |
//! | Every small order of W-208         | [`orders`]              |
//! | Two lists side by side             | [`leaks`], [`pairs`]    |
//! | Promises of document 02            | [`promises`]            |
//! | The program                        | [`program`]             |
//! | What is turned down                | [`refusal`]             |
//!
//! [`generate`] makes policies and traces from a seed, [`coverage`] counts
//! what they exercise, [`generate_recordings`] makes pairs of recordings and says of what
//! kinds they are, [`generate_orders`] makes calls for orders, says of what kinds those are, and
//! gives each order its turn, [`random`] is the source of chance of all, [`reader`] is
//! W-203's rule, with W-206's gaps, as a reader of trace and log sees it, and [`planted`]
//! holds wrong rules, of which the searches for leaks and for broken promises must find
//! those that leak or break one; [`altered`] holds the faults by which the comparison of
//! the search for leaks is tested, and [`met`] counts what it meets.
//!
//! The text in quotation marks above a rule is document 01's own, or that of
//! document 02's request which is named before it.

#![forbid(unsafe_code)]

pub mod altered;
pub mod class_set;
pub mod coverage;
pub mod dead_time;
pub mod extract;
pub mod generate;
pub mod generate_orders;
pub mod generate_recordings;
pub mod leaks;
pub mod masks;
pub mod met;
pub mod orders;
pub mod pairs;
pub mod planted;
pub mod policy;
pub mod program;
pub mod promises;
pub mod random;
pub mod reader;
pub mod recordings;
pub mod refusal;
pub mod state;
pub mod tick;
pub mod trace;
pub mod walk;
