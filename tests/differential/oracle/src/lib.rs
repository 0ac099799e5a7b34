//! The reference, built from its own source text by `build.rs`, and the job
//! reader and sheet writer around it.
#![allow(dead_code, unused_imports)]

#[path = "../build/faults.rs"]
pub mod faults;
#[path = "../build/parts.rs"]
pub mod parts;
#[path = "../build/substitutions.rs"]
pub mod substitutions;

include!(concat!(env!("OUT_DIR"), "/root.rs"));
