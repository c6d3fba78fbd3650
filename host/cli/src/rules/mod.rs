//! Rules as people type them: a name, the model's proposition names, comments. What a rule means is asked of the proved
//! reader alone.

mod expected;
mod explain;
mod lines;
mod read;
mod translate;

pub use lines::{argument, file, Typed};
pub use read::{named, Ready, Refused};
pub use translate::with_names as rename;
