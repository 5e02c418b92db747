//! The channel rules of document 01, written plainly from the paper, and a
//! script reader that answers one line for each call.

pub mod generate;
pub mod headend;
pub mod line;
pub mod message;
pub mod print;
pub mod refusal;
pub mod script;
pub mod station;
pub mod time;
