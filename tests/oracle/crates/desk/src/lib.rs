//! The console of the ramp desk over the Rust source: the calls that document 01 names, with its
//! refusal numbers and bounds added around the source's own calls.

pub mod call;
pub mod desk;
pub mod lines;
pub mod marks;
pub mod metres;
pub mod parse;
pub mod script;

pub use desk::Desk;
pub use renew_ui as ui;
pub use script::{Runner, Step};
