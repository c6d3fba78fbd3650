//! The calls from outside: the worked examples, every refusal, what becomes of lent slices; and the interface as the
//! header, the crate and the proved source have it.

mod declarations;
mod header;
mod inputs;
mod interface;
mod refusals;
mod rows;
mod slices;
mod source;
mod systems;
mod texts;
mod worked;
