//! The Rust's scheduler as given.
#![allow(dead_code)]

include!(concat!(env!("OUT_DIR"), "/modules.rs"));
