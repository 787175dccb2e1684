//! What the comparing tests share: the compiled code's calls, the compiled programs, libzvbi, and Annex E.
pub mod annex;
pub mod command;
pub mod compare;
pub mod ours;
pub mod program;
pub mod rows;
pub mod threads;
pub mod walk;
pub mod zvbi;
