//! A second model of the PCI 2.1 bus network of document 01.
//!
//! It was written from document 01 and not from the proved code, to be played
//! against the proved program. The modules follow the chapters of that document.

pub mod block; // Blocks of 512 bytes
pub mod event; // The nine kinds, and the refusal numbers in their order
pub mod files; // Streams in files, and the command line
pub mod generator; // Random streams
pub mod notes; // What happened in a run, counted
pub mod play; // From a stream to its log
pub mod random; // Random numbers that are the same for the same seed
pub mod state; // Entries and channels
pub mod table; // The network
pub mod tick; // Ticks and conflicts
