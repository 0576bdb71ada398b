//! The original beside a stand-in for the dense matrix that it names.

pub mod matrix;

// Declares `pub mod sparse` at the path that SPARSE_RS gave to build.rs.
include!(concat!(env!("OUT_DIR"), "/original.rs"));
