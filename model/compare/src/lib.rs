//! What the comparison of the built things with the model shares.
//!
//! | Module               | What it holds                                               |
//! |----------------------|-------------------------------------------------------------|
//! | [`built`]            | where the built program and library lie                     |
//! | [`library`]          | the calls of the built library                              |
//! | [`calls`]            | the same calls of the library, or of the model in its place |
//! | [`wrong`]            | wrong extracts, each of which the tests must find           |
//! | [`wrong_recordings`] | wrong recordings and checks of them, so too                 |
//! | [`wrong_orders`]     | wrong small orders, so too                                  |
//! | [`fast`]             | the same rules written for speed, with the state in place   |
//! | [`stream`]           | the same program over them                                  |
//! | [`workloads`]        | the policies and traces that speed is measured on           |
//!
//! The tests compare; the binary `bench` measures.

#![deny(unsafe_code)]

pub mod built;
pub mod calls;
pub mod fast;
pub mod library;
pub mod stream;
pub mod workloads;
pub mod wrong;
pub mod wrong_orders;
pub mod wrong_recordings;
