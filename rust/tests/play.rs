//! The program `play`: the answers that it prints, and its status.

use std::io::Write;
use std::path::Path;
use std::process::{Command, Output, Stdio};

fn example(name: &str) -> String {
    Path::new(env!("CARGO_MANIFEST_DIR")).join("../examples").join(name).to_str().expect("a path").to_string()
}

/// Runs the program with words as its arguments and a text on its standard input.
fn run(words: &[&str], input: &str) -> Output {
    let mut program = Command::new(env!("CARGO_BIN_EXE_play"));
    program.args(words).stdin(Stdio::piped()).stdout(Stdio::piped()).stderr(Stdio::piped());
    let mut child = program.spawn().expect("the program");
    child.stdin.take().expect("its input").write_all(input.as_bytes()).expect("room");
    child.wait_with_output().expect("its answers")
}

fn prints(output: &Output, status: i32, said: &str) {
    assert_eq!(String::from_utf8_lossy(&output.stdout), said);
    assert_eq!(output.status.code(), Some(status));
}

#[test]
fn a_file() {
    let answers = std::fs::read_to_string(example("worked.answers")).expect("the answers");
    let output = run(&[&example("worked.script")], "");
    prints(&output, 0, &answers);
    assert!(output.stderr.is_empty());
}

#[test]
fn standard_input() {
    prints(&run(&[], "case a admit taken"), 0, "a refused 1 0\na taken none\n");
    prints(&run(&[], "shorter 2 1 0 0 and 0"), 0, "- shorter second 1: 0\n");
    prints(&run(&[], "merge 0 1 show"), 0, "- refused 51 0\n- table\n- marks 7\n");
    prints(&run(&[], "kinds 18446744073709551615 examine"), 0, "- refused 1 0\n");
    prints(&run(&[], ""), 0, "");
}

#[test]
fn a_fault() {
    let output = run(&[], "admit\nchek 5\nadmit");
    prints(&output, 2, "- refused 1 0\nline 2: found chek, expected a statement\n");
    assert!(output.stderr.is_empty());
}

#[test]
fn a_file_that_cannot_be_read() {
    let output = run(&[&example("no.script")], "");
    prints(&output, 2, "");
    assert!(String::from_utf8_lossy(&output.stderr).contains("no.script: "));
}

#[test]
fn usage() {
    let (asked, wrong) = (run(&["--help"], ""), run(&["a", "b"], ""));
    prints(&asked, 0, &String::from_utf8_lossy(&wrong.stderr));
    prints(&wrong, 2, "");
    assert!(asked.stdout.starts_with(b"usage: play [SCRIPT]\n"));
}
