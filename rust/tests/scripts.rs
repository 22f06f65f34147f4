//! The worked example, the scripts of every answer and of stay rules, the numbers taken, the shorter of two documents, two
//! output types merged, lists of kinds examined, and what a script with a fault prints.

use goosedawn::model::Model;
use goosedawn::script::{play, Played, HELP, MOST_BYTES};

#[test]
fn worked_example() {
    let script = include_bytes!("../../examples/worked.script");
    assert_eq!(play(&Model, script).said, include_str!("../../examples/worked.answers"));
}

#[test]
fn every_answer() {
    let script = include_bytes!("../../examples/answers.script");
    assert_eq!(play(&Model, script).said, include_str!("../../examples/answers.answers"));
}

#[test]
fn stay_rules() {
    let script = include_bytes!("../../examples/stay-rules.script");
    assert_eq!(play(&Model, script).said, include_str!("../../examples/stay-rules.answers"));
}

fn says(script: &str, said: &str) {
    assert_eq!(play(&Model, script.as_bytes()), Played { said: said.to_string(), fault: false }, "{script:?}");
}

/// The last line of what is said names the fault.
fn stops(script: &str, said: &str) {
    assert_eq!(play(&Model, script.as_bytes()), Played { said: said.to_string(), fault: true }, "{script:?}");
}

#[test]
fn nothing_to_answer() {
    says("", "");
    says(" \t\r\n# only a comment", "");
    says("show", "");
    says("case a symbols 2", "");
}

#[test]
fn the_label_is_any_token() {
    says("admit", "- refused 1 0\n");
    says("case check admit", "check refused 1 0\n");
    says("case 12 admit", "12 refused 1 0\n");
    says("case a#b\nadmit", "a refused 1 0\n");
}

/// A contract that takes any document of one sort of element and copies it.
const COPY: &str = "symbols 2 input-states 1 output-states 1 counts 0 input-rows 0 0 0 0 0 1 0 0 input-marks 1
    output-table 0 0 output-marks 1 nodes 1 0 0 0 0 2 0 1 0 0 2 0 2 0 0 1 1 0 1 2 rules 0 0 0 0 1 3 ";

#[test]
fn the_numbers_taken() {
    let of_copy = |script: &str, said: &str| says(&format!("{COPY} {script}"), said);
    of_copy("taken", "- taken none\n");
    of_copy("judge 1 0 0 1 9 taken", "- judged 1 3\n- taken 3\n");
    of_copy("run 9 0 0 taken", "- run 0 1\n- taken 1\n");
    of_copy("judge 1 0 0 judge 1 0 taken", "- judged 1 3\n- refused 12 2\n- taken none\n");
    of_copy("judge 1 0 0 run 0 0 taken", "- judged 1 3\n- refused 14 0\n- taken none\n");
}

/// Only documents with one root count, but others are judged and run too.
#[test]
fn any_number_of_roots() {
    let of_copy = |script: &str, said: &str| says(&format!("{COPY} {script}"), said);
    of_copy("judge 0 show", "- judged 0 1\n- words 8589934593 1 0 0 0\n");
    of_copy("judge 1 0 0 show", "- judged 1 3\n- words 4294967297 1 0 0 0\n");
    of_copy("judge 1 0 1 0 0 show", "- judged 0 5\n- words 1 1 0 0 0\n");
    of_copy("run 9 0 run 9 1 0 1 0 0", "- run 0 1\n- run 4 5\n");
    of_copy("output-marks 0 check 3 write 1 3", "- tree 1\n- written 3: 1 0 0\n");
}

#[test]
fn other_questions_leave_the_numbers_taken() {
    let script = format!("{COPY} judge 1 0 0 admit check 0 write 0 0 taken taken");
    says(&script, "- judged 1 3\n- admitted\n- refused 9 0\n- refused 18 0\n- taken 3\n- taken 3\n");
}

#[test]
fn the_numbers_taken_leave_what_is_shown() {
    says(&format!("{COPY} run 1 0 taken show"), "- run 0 1\n- taken 1\n- rows 0 0 0\n");
}

#[test]
fn the_shorter_of_two() {
    says("shorter 2 1 0 0 and 1 0 1 0 0", "- shorter first 3: 1 0 0\n");
    says("shorter 2 1 0 1 0 0 and 0 9 9 9 9 9 9", "- shorter second 1: 0\n");
    says("shorter 3 1 0 0 1 and 2 0 0", "- shorter first 3: 1 0 0\n");
    says("case a shorter 2\n1 0 0 # old\nand # new\n0 case b", "a shorter second 1: 0\n");
}

#[test]
fn the_shorter_of_two_refused() {
    says("shorter 0 and shorter 17 0 and 0 shorter 65535 0 and 0", "- refused 1 0\n- refused 1 0\n- refused 1 0\n");
    says("shorter 2 and shorter 2 1 0 and 5", "- refused 12 0\n- refused 12 2\n");
    says("shorter 2 0 and shorter 2 0 and 1 7 0", "- refused 55 0\n- refused 55 1\n");
    let long = "1 ".repeat(1024);
    says(&format!("shorter 2 {long} and 0 shorter 2 0 and {long}"), "- refused 11 1024\n- refused 54 1024\n");
}

#[test]
fn the_shorter_of_two_leaves_what_is_shown_and_taken() {
    for (question, answer) in [("shorter 2 1 0 0 and 0", "shorter second 1: 0"), ("shorter 0 and", "refused 1 0")] {
        let script = format!("{COPY} run 1 0 9 {question} show taken write 0 1");
        says(&script, &format!("- run 0 1\n- {answer}\n- rows 0 0 0\n- taken 1\n- written 1: 0\n"));
    }
}

#[test]
fn the_shorter_of_two_needs_one_word_between() {
    stops("shorter 2 1 0 0", "line 1: found the end of the script, expected the word and\n");
    stops("shorter 2 0\nshow", "line 2: found show, expected the word and\n");
    stops("shorter 2 0 And 0", "line 1: found And, expected the word and\n");
    stops("shorter 2 0 and 0\nand 0", "- shorter first 1: 0\nline 2: found and, expected a statement\n");
    stops("shorter 2 0 and and 0", "- refused 55 0\nline 1: found and, expected a statement\n");
    stops("and", "line 1: found and, expected a statement\n");
    says("case and shorter 1 0 and 0", "and shorter first 1: 0\n");
}

/// Two types over two symbols: in the first an element has the state of its left child, in the second of its right child.
const TYPES: &str = "symbols 2 output-states 2 output-table 0 0 0 1 1 output-marks 1 0
    second-symbols 2 second-states 2 second-table 0 0 1 0 1 second-marks 1 1 ";

#[test]
fn two_types_merged() {
    let merged = "- merged 4\n- table 0 0 1 0 1 0 1 0 1 2 3 2 3 2 3 2 3";
    says(&format!("{TYPES} merge 17 4"), "- merged 4\n");
    says(&format!("{TYPES} merge 17 4 show"), &format!("{merged}\n- marks 1 1 0 0\n"));
    says(&format!("{TYPES} merge 19 5 show"), &format!("{merged} 7 7\n- marks 1 1 0 0 7\n"));
    says(
        "case a symbols 1 output-states 1 output-table 0 output-marks 1 case b second-symbols 1
        second-states 1 second-table # the state of nothing\n0 second-marks 1 merge\n1 1 show",
        "b merged 1\nb table 0\nb marks 1\n",
    );
}

#[test]
fn two_types_not_merged() {
    let refused = |set: &str, refusal: &str| {
        says(&format!("{TYPES} {set} merge 2 1 show"), &format!("- refused {refusal}\n- table 7 7\n- marks 7\n"));
    };
    refused("output-marks 1 2", "51 10");
    refused("second-marks 1 2", "52 10");
    refused("second-symbols 1 second-table 0", "50 1");
    refused("output-states 3 output-table 0 0 0 0 0 0 0 0 0 0 output-marks 1 1 1", "53 6");
    refused("", "56 0");
    says(&format!("{TYPES} merge 17 3 merge 0 0 show"), "- refused 56 1\n- refused 56 0\n- table\n- marks\n");
}

#[test]
fn types_are_empty_until_they_are_set() {
    says("merge 0 0", "- refused 51 0\n");
    says("symbols 1 merge 0 0 output-states 1 merge 0 0", "- refused 51 1\n- refused 51 2\n");
    says(
        "symbols 1 output-states 1 output-table 0 merge 0 0 output-marks 1 merge 0 0",
        "- refused 51 3\n- refused 52 0\n",
    );
    let good = "symbols 1 output-states 1 output-table 0 output-marks 1 ";
    says(&format!("{good} second-symbols 1 merge 0 0 second-states 1 merge 0 0"), "- refused 52 1\n- refused 52 2\n");
    let second = "second-symbols 1 second-states 1 second-table 0";
    says(&format!("{good} {second} merge 0 0 second-marks 0 merge 0 0"), "- refused 52 3\n- refused 56 0\n");
}

#[test]
fn a_type_stays_until_it_is_set_anew() {
    let script = format!("{TYPES} case a merge 17 4 case b second-marks 0 1 merge 17 4 show");
    says(&script, "a merged 4\nb merged 4\nb table 0 0 1 0 1 0 1 0 1 2 3 2 3 2 3 2 3\nb marks 0 1 0 0\n");
    let script = format!("{TYPES} second-table merge 17 4 second-table 0 0 1 0 1 merge 17 4");
    says(&script, "- refused 52 2\n- merged 4\n");
}

#[test]
fn what_is_shown_is_of_the_last_question_with_buffers() {
    let second = "second-symbols 2 second-states 1 second-table 0 0 second-marks 1";
    let script =
        format!("{COPY} {second} check 3 merge 2 1 show run 1 0 show merge 0 0 admit taken shorter 2 0 and 0 show");
    let merged = "- pass 3\n- merged 1\n- table 0 0\n- marks 1\n";
    let refused = "- refused 56 0\n- admitted\n- taken 1\n- shorter first 1: 0\n- table\n- marks\n";
    says(&script, &format!("{merged}- run 0 1\n- rows 0 0 0\n{refused}"));
}

#[test]
fn merging_leaves_the_contract_the_rows_and_the_numbers_taken() {
    let script = format!("{COPY} run 1 0 9 merge 3 3 write 0 1 taken judge 1 0 0 show");
    let judged = "- judged 1 3\n- words 4294967297 1 0 0 0\n";
    says(&script, &format!("- run 0 1\n- refused 52 0\n- written 1: 0\n- taken 1\n{judged}"));
}

/// The kinds of `COPY`: the empty forest, one root, several roots.
const KINDS: &str = "kinds 8589934593 1 0 0 0   4294967297 1 0 0 0   1 1 0 0 0 ";

#[test]
fn a_list_examined() {
    let of_copy = |script: &str, said: &str| says(&format!("{COPY} {script}"), said);
    of_copy(&format!("{KINDS} examine"), "- accepted\n");
    of_copy(&format!("{KINDS} case a # twice\nexamine examine"), "a accepted\na accepted\n");
    // every bit but that of one root, but that of the empty forest, every bit
    of_copy("kinds 18446744069414584319 18446744073709551615 9 9 9 examine", "- refused 72 16777216\n");
    of_copy("kinds 18446744065119617023 18446744073709551615 9 9 9 examine", "- refused 71 0\n");
    of_copy("kinds 18446744073709551615 18446744073709551615 9 9 9 examine", "- refused 71 0\n");
    of_copy(&format!("{KINDS} output-marks 0 examine"), "- refused 73 1\n");
    of_copy("kinds 1 2 3 4 examine", "- refused 70 4\n");
    of_copy(&format!("kinds {} examine", "7 ".repeat(20_485)), "- refused 70 20485\n");
}

#[test]
fn a_list_is_empty_until_it_is_set() {
    says("examine", "- refused 1 0\n");
    says(&format!("{COPY} examine"), "- refused 71 0\n");
    says(&format!("{COPY} {KINDS} kinds examine"), "- refused 71 0\n");
    says(&format!("{COPY} {KINDS} kinds-of-check examine"), "- refused 71 0\n");
}

#[test]
fn the_kinds_of_a_check() {
    let of_copy = |script: &str, said: &str| says(&format!("{COPY} {script}"), said);
    of_copy("check 3 kinds-of-check examine", "- pass 3\n- accepted\n");
    of_copy("check 512 kinds-of-check examine", "- pass 3\n- accepted\n");
    // one kind missing, that of several roots: no row is listed behind a tree that breaks the contract
    of_copy("output-marks 0 check 9 kinds-of-check examine", "- tree 1\n- refused 72 16777217\n");
    // a stop and a refusal leave none
    of_copy("check 2 kinds-of-check examine", "- refused 10 2 1\n- refused 71 0\n");
    of_copy("check 3 check 0 kinds-of-check examine", "- pass 3\n- refused 9 0\n- refused 71 0\n");
    // a check does not change the list by itself, and what is asked in between does not change the check's
    of_copy(&format!("{KINDS} check 2 examine"), "- refused 10 2 1\n- accepted\n");
    of_copy("check 3 judge 0 run 1 0 kinds-of-check examine", "- pass 3\n- judged 0 1\n- run 0 1\n- accepted\n");
}

#[test]
fn examining_leaves_what_is_shown_and_taken_and_the_rows() {
    let script = format!("{COPY} run 1 0 9 {KINDS} examine kinds 1 examine show taken write 0 1");
    says(&script, "- run 0 1\n- accepted\n- refused 70 1\n- rows 0 0 0\n- taken 1\n- written 1: 0\n");
}

#[test]
fn an_unknown_word() {
    stops("admit\n\nchek 5\nadmit", "- refused 1 0\nline 3: found chek, expected a statement\n");
    stops("7", "line 1: found 7, expected a statement\n");
    stops("counts 0 1 1x", "line 1: found 1x, expected a statement\n");
    stops("Admit", "line 1: found Admit, expected a statement\n");
    let long = "x".repeat(40);
    stops(&long, &format!("line 1: found {}..., expected a statement\n", &long[..32]));
}

#[test]
fn a_number_that_is_too_large() {
    let expected = "expected a number from 0 to 65535\n";
    stops("symbols 65535 symbols 65536", &format!("line 1: found 65536, {expected}"));
    says("symbols 0065535 admit", "- refused 1 0\n");
    stops("judge 1 0\n99999999999999999999999", &format!("line 2: found 99999999999999999999999, {expected}"));
    stops("shorter 65536 0 and 0", &format!("line 1: found 65536, {expected}"));
    stops("shorter 2 0 65536 and 0", &format!("line 1: found 65536, {expected}"));
    stops("shorter 2 0 and 0 65536", &format!("line 1: found 65536, {expected}"));
    stops("second-symbols 65536", &format!("line 1: found 65536, {expected}"));
    stops("second-states 65536", &format!("line 1: found 65536, {expected}"));
    stops("second-table 0 65536", &format!("line 1: found 65536, {expected}"));
    stops("second-marks 0 65536", &format!("line 1: found 65536, {expected}"));
    stops("merge 65536 0", &format!("line 1: found 65536, {expected}"));
    stops("merge 0 65536", &format!("line 1: found 65536, {expected}"));
    let expected = "expected a number from 0 to 18446744073709551615\n";
    stops("kinds 18446744073709551616", &format!("line 1: found 18446744073709551616, {expected}"));
    stops("kinds 0\n99999999999999999999999", &format!("line 2: found 99999999999999999999999, {expected}"));
    says("kinds 65536 00018446744073709551615 examine", "- refused 1 0\n");
}

#[test]
fn a_statement_cut_off() {
    stops("admit check", "- refused 1 0\nline 1: found the end of the script, expected a number from 0 to 65535\n");
    stops("write 3\nshow", "line 2: found show, expected a number from 0 to 65535\n");
    stops("case # a\n", "line 2: found the end of the script, expected a name\n");
    stops("run\nadmit", "line 2: found admit, expected a number from 0 to 65535\n");
    stops("shorter and 0", "line 1: found and, expected a number from 0 to 65535\n");
    stops("second-symbols\nadmit", "line 2: found admit, expected a number from 0 to 65535\n");
    stops("second-states", "line 1: found the end of the script, expected a number from 0 to 65535\n");
    stops("merge\nshow", "line 2: found show, expected a number from 0 to 65535\n");
    stops("merge 3\nshow", "line 2: found show, expected a number from 0 to 65535\n");
    stops("merge 3 4 5", "- refused 51 0\nline 1: found 5, expected a statement\n");
    stops("kinds-of-check 5", "line 1: found 5, expected a statement\n");
    stops("examine 5", "- refused 1 0\nline 1: found 5, expected a statement\n");
}

#[test]
fn help_is_the_only_word() {
    says("# please\n help \n", HELP);
    stops("help admit", "line 1: found help, expected a statement\n");
    stops("admit help", "- refused 1 0\nline 1: found help, expected a statement\n");
}

#[test]
fn a_script_that_is_too_long() {
    let fault =
        |line: usize| format!("line {line}: found more than {MOST_BYTES} bytes, expected the end of the script\n");
    let mut script = "admit\n".to_string();
    script.push_str(&" ".repeat(MOST_BYTES - script.len()));
    says(&script, "- refused 1 0\n");
    script.push('\n');
    stops(&script, &format!("- refused 1 0\n{}", fault(2)));
    let mut script = " ".repeat(MOST_BYTES - 5);
    script.push_str("admit");
    says(&script, "- refused 1 0\n");
    script.push('x');
    stops(&script, &fault(1));
}
