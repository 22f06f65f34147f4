//! Plays every script of examples/library, and of the folder that GOOSEDAWN_VECTORS names, on the model and compares the
//! answers line for line.

use goosedawn::model::Model;
use goosedawn::script::play;
use std::path::Path;

const FOLDER: &str = "GOOSEDAWN_VECTORS";

fn compare(script: &Path, answers: &Path) {
    let said = play(&Model, &std::fs::read(script).expect("the script")).said;
    let right = std::fs::read_to_string(answers).expect("the answers");
    for (line, (said, right)) in said.lines().zip(right.lines()).enumerate() {
        assert!(said == right, "{}, answer {}: {said} instead of {right}", script.display(), line + 1);
    }
    assert_eq!(said.lines().count(), right.lines().count(), "{}", script.display());
}

fn compare_all(folder: &Path) {
    let mut played = 0;
    for entry in std::fs::read_dir(folder).expect("the folder") {
        let script = entry.expect("an entry").path();
        let answers = script.with_extension("answers");
        if script.extension().is_some_and(|end| end == "script") && answers.exists() {
            compare(&script, &answers);
            println!("{} agrees", script.display());
            played += 1;
        }
    }
    assert!(played > 0, "no script in the folder");
}

#[test]
fn vectors() {
    match std::env::var_os(FOLDER) {
        Some(folder) => compare_all(Path::new(&folder)),
        None => println!("skipped: {FOLDER} names no folder"),
    }
}

#[test]
fn examples_for_the_library() {
    compare_all(&Path::new(env!("CARGO_MANIFEST_DIR")).join("../examples/library"));
}
