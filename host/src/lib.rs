//! Olivrescum for programs that run on a host.
//!
//! The seven calls of document 01 over lent slices of words, safe to call: each lends its slices to the proved library
//! (`ffi`, the only module with `unsafe`) and turns the report into a `Result`. Beside it stand the same seven calls
//! written a second time in plain Rust (`second`), a generator of inputs (`generate`), and what compares the two
//! (`compare`).

#![deny(unsafe_code)]

mod answer;
#[cfg(feature = "library")]
mod calls;
#[cfg(feature = "library")]
pub mod compare;
#[cfg(feature = "library")]
pub mod ffi;
pub mod generate;
pub mod second;

pub use answer::{ChartCounts, FlatCounts, Refusal};
#[cfg(feature = "library")]
pub use calls::{check_chart, check_flat, flatten, run_chart, run_flat, start_chart, start_flat};
