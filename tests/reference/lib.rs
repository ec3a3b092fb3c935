//! An implementation of document 01, and of what document 02 has asked for so
//! far, in ordinary Rust, written from the papers alone. The comparison holds
//! the programs `head`, `drill`, `console` and `converter` against it.
//!
//! Names are the field's; each definition says which word of document 01 it is.

pub mod console;
pub mod forms;
pub mod history;
pub mod migrate;
pub mod program;
pub mod record;
pub mod reduce;
pub mod slow;
pub mod state;
pub mod steps;
pub mod store;
pub mod taking;
pub mod topology;
