//! Wrong readers, printers and makers of timers, each with one fault. What the tests find with each of them shows what they would find
//! in the compiled code.
mod codes;
mod formats;
pub mod making;
pub mod printing;
pub mod reading;
mod table;
mod titles;
mod words;
