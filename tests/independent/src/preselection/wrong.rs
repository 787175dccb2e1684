//! Wrong readers, writers and printers, each with one fault. What the tests find with each of them shows what they would find in
//! the compiled code.
pub mod groups;
pub mod printing;
pub mod reading;
pub mod writing;
