//! `model`: a model printed back from its bytes.

use crate::args::ShowModel;
use crate::model::{hexadecimal, text};
use crate::output::Out;
use crate::trouble::End;
use crate::warnings::Surveyed;
use crate::{dot, files, Status};
use gongcollar::Workspace;

pub fn run(args: &ShowModel, out: &mut Out) -> Result<Status, End> {
    let model = files::model(&args.model.path, args.model.bytes, true)?;
    if args.hex {
        out.text(&hexadecimal(model.bytes()))?;
    } else if args.raw {
        out.bytes(model.bytes())?;
    } else if args.dot {
        let surveyed = Surveyed::new(&model, &mut Workspace::new())?;
        out.text(&dot::model(&model, &surveyed, "", None))?;
    } else {
        out.text(&text(&model))?;
    }
    Ok(Status::Nothing)
}
