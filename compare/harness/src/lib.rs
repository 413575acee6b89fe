//! Compares the scheduler with the Rust that it is a port of, over plan sheets.

pub mod bench;
pub mod call;
pub mod cases;
pub mod corpus;
pub mod faults;
pub mod generator;
pub mod in_process;
pub mod minimise;
pub mod oracle;
pub mod program;
pub mod project;
pub mod ratio;
pub mod read;
pub mod record;
pub mod recorded;
pub mod statistics;
pub mod text;
pub mod timing;
