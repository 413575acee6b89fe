//! The Rust's core as given, with the one type that it leans on and that isn't given.

include!(concat!(env!("OUT_DIR"), "/modules.rs"));

/// Stands in for the regions with holidays of their own: no value of it can be made.
#[derive(Debug, Clone, Copy, PartialEq, Eq)]
pub enum Region {}

impl Region {
    pub fn is_holiday(self, _: Date) -> bool {
        match self {}
    }
}
