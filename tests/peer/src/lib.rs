//! An unwinder for Windows on 32-bit ARM, written from documents 01 and 02 and the page they cite, so
//! that the proved programs can be compared with something that is not built like them.
//!
//! It has no tables: codes are told apart by mask and value, a packed record becomes instructions
//! without passing through code bytes, which are written from the instructions, a pc finds its place by
//! laying instructions end to end, a guarded region looks for the smallest one that holds it, and code is
//! compared with all that could stand there, written out.
//! Offsets, lengths and sizes are bytes throughout, held in 64 bits so that no sum wraps.

pub mod batch;
pub mod bits;
pub mod codes;
pub mod cursor;
pub mod encode;
pub mod fits;
pub mod frame;
pub mod full;
pub mod function;
pub mod machine;
pub mod operations;
pub mod packed;
pub mod pdata;
pub mod record;
pub mod refusal;
pub mod regions;
pub mod report;
pub mod role;
pub mod text;
pub mod thumb;
pub mod walk;
