//! What rulecheck says of an input that it has read to the end, and that it says nothing of any other.

mod failing_reads;
mod failing_writes;
mod inputs;
mod whole_inputs;
