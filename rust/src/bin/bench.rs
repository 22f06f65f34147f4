//! Times the checks of a script: `bench FILE`. For each contract: its label and answer, the least time of some checks by the
//! proved library and by the model, and their ratio.

use goosedawn::library::Library;
use goosedawn::model::Model;
use goosedawn::script::named_by_argument;
use goosedawn::timing::{print_checks, time_checks};

fn main() {
    let script = named_by_argument("bench");
    print_checks(&script, ["proved", "model"], |contract, limit| {
        time_checks(&Library::default(), &Model, contract, limit)
    });
}
