//! A second, independent implementation of the compressed-volume metadata
//! format, written from its papers alone, and what is needed to hold the
//! proved library to it.
//!
//! * [`model`] is the implementation.
//! * [`onepass`] is the benchmark's yardstick.
//! * [`ordinary`] is the program that the held index is measured against.
//! * [`ffi`] is the proved library's C interface.
//! * [`rng`] and [`inputs`] make reproducible test inputs; [`settings`] are a run's.
//! * [`timing`] is the benchmarks' clock, [`workload`] the writes of one of them.
//!
//! "01" in the comments is the paper with the exact rules, "02" the changes
//! requested since, "Decision n" an entry of the list of how open places of
//! both are read.

pub mod ffi;
pub mod inputs;
pub mod model;
pub mod onepass;
pub mod ordinary;
pub mod rng;
pub mod settings;
pub mod timing;
pub mod workload;
