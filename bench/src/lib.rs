//! The same work as the label desk's, as one would write it in Rust without proofs: tables, masks, and time skipped to the next
//! second at which something can change.
pub mod calendar;
pub mod desk;
pub mod packet;
pub mod previews;
pub mod sheet;
pub mod turns;
