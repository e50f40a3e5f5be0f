//! Makes the bytes that the checks are tried on: document 01's examples, and
//! drawn tracks and bundles, good ones and damaged ones.
//!
//! This crate knows nothing of any checker. What it expects of a case follows
//! from how the case was made.

#![forbid(unsafe_code)]

pub mod blind;
pub mod bundle;
pub mod cases;
pub mod cuts;
pub mod damage;
pub mod decorate;
pub mod draw;
pub mod examples;
pub mod layout;
pub mod mix;
pub mod node;
pub mod pieces;
pub mod rng;
pub mod soup;
pub mod track;
