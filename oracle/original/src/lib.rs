//! The original's four btree files, unchanged, over stand-ins for what they
//! import: nodes in memory, no log, no value tables. [`btree::glue`] is the
//! way in.

mod column;
mod compress;
mod db;
mod error;
mod index;
mod log;
mod options;
mod parking_lot;
mod table;

pub use db::Operation;

/// The original. `glue` is our only file in it; it stands inside because most
/// of what it calls is private to this module.
#[allow(dead_code, unused, private_interfaces, unreachable_pub)]
#[allow(clippy::all)]
pub mod btree {
    include!(concat!(env!("ORIGINAL_BTREE"), "/mod.rs"));

    #[warn(dead_code, unused, private_interfaces, clippy::all)]
    pub mod glue;
}
