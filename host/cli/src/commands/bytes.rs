//! `bytes`: the bytes of a rule.

use super::{names, rule};
use crate::args::Bytes;
use crate::model::hex_line;
use crate::output::Out;
use crate::trouble::End;
use crate::Status;

pub fn run(args: &Bytes, out: &mut Out) -> Result<Status, End> {
    let names = names(&args.names)?;
    let ready = rule(&args.rule, &names, &args.place)?;
    out.line(hex_line(ready.searched.bytes()))?;
    Ok(Status::Nothing)
}
