//! Stay rules: contracts written down with the answers that they must have, by the model and by the proved library. What is
//! expected was worked out by hand.

use goosedawn::contract::Contract;
use goosedawn::counters::Counters;
use goosedawn::engine::{Answer, Engine};
use goosedawn::library::Library;
use goosedawn::model::kinds::Kinds;
use goosedawn::model::Model;
use goosedawn::script::{play, Played};
use goosedawn::stays::{chain, many_rounds, wrapping, MANY_ROUNDS};

/// Both engines answer a script so.
fn says(script: &str, said: &str) {
    let due = Played { said: said.to_string(), fault: false };
    assert_eq!(play(&Model, script.as_bytes()), due, "the model: {script}");
    assert_eq!(play(&Library::default(), script.as_bytes()), due, "the library: {script}");
}

/// Two symbols: 0 is nothing, 1 an element; every forest is of the input type. Output states: 0 nothing, 1 anything else; both
/// are allowed. A stay rule has symbol 2.
const ELEMENTS: &str = "symbols 2 input-states 1 output-states 2 input-rows 0 0 0 0 0 1 0 0 input-marks 1
    output-table 0 1 1 1 1 output-marks 1 1 ";

/// The first word of the kind of nothing, of one element, and of several roots.
const NOTHING: u64 = 8_589_934_593;
const ONE: u64 = 4_294_967_297;
const SEVERAL: u64 = 1;

/// Says what a document is judged as, and its kind: the first word, and the facts.
fn judged(contract: &str, document: &str, result: u64, kind: [u64; 2]) {
    let taken = document.split_whitespace().count();
    let said = format!("- judged {result} {taken}\n- words {} {} 0 0 0\n", kind[0], kind[1]);
    says(&format!("{contract} judge {document} show"), &said);
}

/// Procedures 0, 1 and 2 each call the next one at the same node; 3 makes nothing of an element. Fact 2 × p + q is that
/// procedure p gives state q.
const CHAIN: &str = "counts 0 0 0 0 nodes 1 0 0 0 0 2 1 0 0 0 2 2 0 0 0 2 3 0 0 0 ";

#[test]
fn facts_take_several_rounds() {
    // an element: 3 gives state 0 by its own rule, 2 in the first round, 1 in the second, 0 in the third
    let facts = 1 << 6 | 1 << 4 | 1 << 2 | 1;
    for rules in ["0 2 1 1 2 2 2 2 3 3 1 0", "3 1 0 2 2 3 1 2 2 0 2 1"] {
        let contract = format!("{ELEMENTS} {CHAIN} rules {rules}");
        judged(&contract, "1 0 0", 1, [ONE, facts]);
        judged(&contract, "1 1 0 0 0", 1, [ONE, facts]);
        judged(&contract, "1 0 1 0 0", 0, [SEVERAL, facts]);
        judged(&contract, "0", 0, [NOTHING, 0]);
    }
}

#[test]
fn the_empty_forest_is_closed_too() {
    for rules in ["0 2 1 1 2 2 2 2 3 3 0 0", "3 0 0 2 2 3 1 2 2 0 2 1"] {
        let contract = format!("{ELEMENTS} {CHAIN} rules {rules}");
        judged(&contract, "0", 0, [NOTHING, 85]);
        judged(&contract, "1 0 0", 1, [ONE, 0]);
        says(&format!("{contract} check 3"), "- pass 3\n");
    }
}

/// Both children of an element are the empty forest; what stay rules add to its kind is there for them.
#[test]
fn a_child_has_what_stay_rules_give_it() {
    let nodes = "nodes 1 0 0 0 0 2 1 0 0 0 2 0 1 0 0 1 1 0 2 2";
    // procedure 0 calls 1 at the same node, which makes nothing of nothing; of an element, 0 makes one over 0 of its left child
    let contract = format!("{ELEMENTS} counts 0 0 {nodes} rules 1 0 0 0 2 1 0 1 3");
    judged(&contract, "0", 0, [NOTHING, 1 << 2 | 1]);
    judged(&contract, "1 0 0", 1, [ONE, 1 << 1]);
    says(
        &format!("{contract} run 9 1 0 0 show"),
        "- run 2 3\n- rows 0 0 0 0 0 0 1 0 1 0 0 0 0 0 0 0 0 0 0 0 0 0 0 0 0 0 0\n",
    );
}

/// Four output states count the elements inside one another, up to three. Procedure 0 makes nothing of nothing, and puts an
/// element around whatever it makes.
#[test]
fn each_round_adds_a_state() {
    let counting = "output-states 4 output-table 0 1 1 1 1 2 2 2 2 3 3 3 3 3 3 3 3 output-marks 1 1 1 1";
    let contract = format!("{ELEMENTS} {counting} counts 0 nodes 1 0 0 0 0 2 0 0 0 0 1 1 0 1 0 rules 0 0 0 0 2 2");
    judged(&contract, "0", 0, [NOTHING, 0b1111]);
    // of an element it makes nothing by itself: the least set is empty, though all four states would be closed
    judged(&contract, "1 0 0", 1, [ONE, 0]);
    // two elements around, one of them by the right side itself
    let two = "nodes 1 0 0 0 0 2 0 0 0 0 1 1 0 1 0 1 1 0 2 0 rules 0 0 0 0 2 3";
    judged(&format!("{contract} {two}"), "0", 0, [NOTHING, 0b1101]);
}

#[test]
fn what_only_calls_itself_gives_nothing() {
    let alone = format!("{ELEMENTS} output-marks 0 0 counts 0 nodes 2 0 0 0 0 rules 0 2 0");
    judged(&alone, "1 0 0", 1, [ONE, 0]);
    says(&format!("{alone} check 3"), "- pass 3\n");
    says(&format!("{alone} run 9 1 0 0 run 9 0"), "- refused 15 4096\n- refused 15 4096\n");
    let two = format!("{ELEMENTS} output-marks 0 0 counts 0 0 nodes 2 0 0 0 0 2 1 0 0 0 rules 0 2 1 1 2 0");
    judged(&two, "1 0 0", 1, [ONE, 0]);
    says(&format!("{two} check 3 run 9 0"), "- pass 3\n- refused 15 4096\n");
    // with one way out there is one output
    let out = format!("{two} nodes 2 0 0 0 0 2 1 0 0 0 1 0 0 0 0 rules 0 2 1 1 2 0 1 1 2");
    judged(&out, "1 0 0", 2, [ONE, 1 << 2 | 1]);
    judged(&out, "0", 0, [NOTHING, 0]);
    says(&format!("{out} check 3 write 1 9"), "- tree 1\n- written 3: 1 0 0\n");
}

/// Facts of procedure 1, which has a parameter: 2 + 2 × q + x is that it gives q if its parameter has state x.
#[test]
fn parameters() {
    // node 2 is an element over the parameter twice, 3 procedure 1 with it, 4 procedure 1 with nothing
    let nodes = "counts 0 1 nodes 1 0 0 0 0 0 1 0 0 0 1 1 0 1 1 2 1 0 2 0 2 1 0 0 0";
    let contract = format!("{ELEMENTS} {nodes} rules 1 0 1 1 2 3 0 2 4");
    // by its own rule 1 gives its parameter: facts 2 and 5. The first round: with an element for nothing it gives one, 4; and 0
    // gives nothing, 0. The second: 0 gives an element too, 1.
    judged(&contract, "0", 0, [NOTHING, 1 << 5 | 1 << 4 | 1 << 2 | 1 << 1 | 1]);
    judged(&contract, "1 0 0", 1, [ONE, 0]);
}

/// Facts of procedure 1 as above, of procedure 2: 6 + q.
#[test]
fn an_argument_without_an_output() {
    // procedure 0 calls 1, which makes nothing whatever its parameter is, with what 2 makes
    let nodes = "counts 0 1 0 nodes 1 0 0 0 0 2 2 0 0 0 2 1 0 1 0";
    let contract = format!("{ELEMENTS} {nodes} rules 1 0 0 0 2 2");
    judged(&contract, "0", 0, [NOTHING, 1 << 3 | 1 << 2]);
    judged(&format!("{contract} rules 1 0 0 0 2 2 2 2 1"), "0", 0, [NOTHING, 1 << 3 | 1 << 2]);
    judged(&format!("{contract} rules 1 0 0 0 2 2 2 0 0"), "0", 0, [NOTHING, 1 << 6 | 1 << 3 | 1 << 2 | 1]);
    says(&format!("{contract} run 9 0"), "- refused 13 2\n");
}

/// Procedure 0 has a stay rule that makes nothing and one that makes an element, and a rule that makes two of an element.
const CHOICE: &str = "counts 0 nodes 1 0 0 0 0 1 1 0 0 0 1 1 0 0 1 ";

#[test]
fn a_run_prefers_the_rule_for_the_symbol() {
    let element = "- run 4 5\n- rows 0 0 0 0 0 0 0 0 0 1 1 2 1 0 3\n";
    let nothing = "- run 0 1\n- rows 0 0 0 0 0 0 0 0 0 0 0 0 0 0 0\n";
    for rules in ["0 2 0 0 2 1 0 1 2", "0 1 2 0 2 0 0 2 1", "0 2 0 0 1 2 0 2 1", "0 2 0 0 1 2 0 1 0 0 2 1"] {
        let contract = format!("{ELEMENTS} {CHOICE} rules {rules}");
        says(&format!("{contract} run 5 1 0 0 show"), element);
        says(&format!("{contract} run 5 0 show"), nothing);
        // outputs are all of them
        judged(&contract, "1 0 0", 1, [ONE, 0b11]);
        judged(&contract, "0", 0, [NOTHING, 0b11]);
        says(&format!("{contract} output-marks 0 1 check 3"), "- tree 1\n");
        says(&format!("{contract} output-marks 1 0 check 3"), "- tree 1\n");
    }
}

/// A copy of an element with what follows it, by a procedure that is called at the same node.
#[test]
fn a_run_goes_on_at_the_same_node() {
    // procedure 1, called by 0 with nothing, puts an element before 0 of the right child; on nothing it gives its parameter
    let nodes = "counts 0 1 nodes 1 0 0 0 0 2 1 0 0 0 2 0 2 0 0 1 1 0 0 2 0 1 0 0 0";
    let contract = format!("{ELEMENTS} {nodes} rules 0 2 1 1 1 3 1 0 4");
    // each 0 first makes nothing as an argument; the element over it: nothing inside, then the rest
    says(
        &format!("{contract} run 9 0 show"),
        "- run 0 1\n- rows 0 0 0 0 0 0 0 0 0 0 0 0 0 0 0 0 0 0 0 0 0 0 0 0 0 0 0\n",
    );
    says(&format!("{contract} run 9 1 0 1 0 0 write 6 9"), "- run 6 7\n- written 5: 1 0 1 0 0\n");
}

#[test]
fn no_rule() {
    let nodes = "counts 0 0 nodes 1 0 0 0 0 2 1 0 0 0 2 1 1 0 0";
    // 0 calls 1, which has no rule; none for nothing; one for nothing alone
    says(&format!("{ELEMENTS} {nodes} rules 0 2 1 run 9 0 run 9 1 0 0"), "- refused 13 1\n- refused 13 1\n");
    says(&format!("{ELEMENTS} {nodes} rules 0 2 1 1 1 0 run 9 0 run 9 1 0 0"), "- refused 13 1\n- run 0 1\n");
    says(&format!("{ELEMENTS} {nodes} rules 0 2 1 1 0 0 run 9 0 run 9 1 0 0"), "- run 0 1\n- refused 13 1\n");
    // the stay rule of 1 is none of 0's
    says(&format!("{ELEMENTS} {nodes} rules 1 2 0 run 9 0 run 9 1 0 0"), "- refused 13 0\n- refused 13 0\n");
    says(&format!("{ELEMENTS} {nodes} rules 1 2 0 0 1 2 run 9 0 run 9 1 0 0"), "- refused 13 0\n- run 0 1\n");
}

/// Elements each within the one before.
fn nested(elements: usize) -> String {
    format!("{}{}", "1 ".repeat(elements), "0 ".repeat(elements + 1))
}

/// Procedure 1 on an element calls itself twice on the left child, once within its argument, and makes its parameter of nothing:
/// on so many elements within each other there are 2 to their number of calls, with that of procedure 0.
const DOUBLING: &str = "counts 0 1 0 nodes 1 0 0 0 0 0 1 0 0 0 2 1 1 0 0 2 1 1 1 0 2 1 1 3 0 ";

#[test]
fn calls_are_fewer_with_a_stay_rule() {
    let rules = "1 0 1 1 1 4 0 1 2";
    let run = |rules: &str, elements| format!("{ELEMENTS} {DOUBLING} rules {rules} run 1 {}", nested(elements));
    // procedure 2 is never called
    for with_stay in [format!("{rules} 2 2 0"), format!("2 2 0 {rules}"), format!("{rules} 1 2 1")] {
        says(&run(&with_stay, 12), "- run 0 1\n");
        says(&run(&with_stay, 13), "- refused 15 4096\n");
        says(&run(&with_stay, 17), "- refused 15 4096\n");
    }
    for without in [rules.to_string(), format!("{rules} 2 1 0")] {
        says(&run(&without, 13), "- run 0 1\n");
        says(&run(&without, 16), "- run 0 1\n");
        says(&run(&without, 17), "- refused 15 65536\n");
    }
    // a call that stays in a node that no rule uses is no stay rule
    let unused = run(rules, 13).replace("rules", "2 0 0 0 0 rules");
    says(&unused, "- run 0 1\n");
}

#[test]
fn rows_and_calls() {
    // an element over nothing and over itself again: each call but the first follows one row, which is nothing
    let contract = format!("{ELEMENTS} counts 0 nodes 1 0 0 0 0 2 0 0 0 0 1 1 0 0 1 rules 0 2 2");
    says(&format!("{contract} run 0 0 run 9 0 run 4095 0"), "- refused 14 0\n- refused 14 9\n- refused 14 4095\n");
    says(&format!("{contract} run 4096 0 run 4097 0"), "- refused 15 4096\n- refused 9 0\n");
}

/// Nodes, of which the last two have calls of both sorts: 0 nothing; 1 to 3 procedure 0 at the node itself and at its children;
/// 4 the parameter; 5 an element over a call that stays, 6 over one that does not; 7 procedure 1 on the left child with a call
/// that stays, 8 procedure 1 at the node itself with one that does not.
const NODES: &str = "counts 0 1 nodes 1 0 0 0 0 2 0 0 0 0 2 0 1 0 0 2 0 2 0 0 0 1 0 0 0 1 1 0 0 1 1 1 0 0 2
    2 1 1 1 0 2 1 0 2 0 ";

#[test]
fn bad_rules() {
    let admit = |rules: &str| format!("{ELEMENTS} {NODES} rules {rules} admit");
    for good in
        ["", "0 0 0", "0 1 0", "0 2 0", "0 1 2", "0 1 3", "0 2 1", "0 1 6", "0 2 5", "1 2 4", "0 2 1 0 1 2 1 2 4"]
    {
        says(&admit(good), "- admitted\n");
    }
    // a call that stays for a symbol
    for bad in ["0 1 1", "0 0 1", "0 1 5", "0 0 5", "0 1 7", "0 1 8", "0 0 7", "0 0 8"] {
        says(&admit(bad), "- refused 7 0\n");
    }
    // a call on a child in a stay rule
    for bad in ["0 2 2", "0 2 3", "0 2 6", "0 2 7", "0 2 8"] {
        says(&admit(bad), "- refused 7 0\n");
    }
    // a symbol behind S; a parameter too many; a node and a procedure that are not there
    for bad in ["0 3 0", "0 3 1", "0 3 2", "0 4 0", "0 65535 0", "0 2 4", "0 2 9", "2 2 0"] {
        says(&admit(bad), "- refused 7 0\n");
    }
    says(&admit("0 2 1 0 1 2 1 2 4 0 1 1 0 2 2"), "- refused 7 3\n");
    // calls on the children are no better under symbol 0 than they were
    says(&admit("0 2 1 0 0 2"), "- refused 7 1\n");
}

#[test]
fn with_one_symbol() {
    let contract = "symbols 1 input-states 1 output-states 2 counts 0 0 input-rows 0 0 0 0 input-marks 1 output-table 1
        output-marks 1 1 nodes 1 0 0 0 0 2 1 0 0 0 2 1 1 0 0 ";
    says(&format!("{contract} rules 0 1 1 1 0 0 admit judge 0 show run 1 0 check 1"), {
        "- admitted\n- judged 0 1\n- words 8589934593 10 0 0 0\n- run 0 1\n- pass 1\n"
    });
    says(&format!("{contract} rules 0 1 2 admit rules 0 2 1 admit rules 0 0 1 admit"), {
        "- refused 7 0\n- refused 7 0\n- refused 7 0\n"
    });
}

#[test]
fn bad_calls() {
    let admit = |node: &str| format!("{ELEMENTS} counts 0 1 nodes 1 0 0 0 0 {node} rules 0 0 0 admit");
    for good in ["2 0 0 0 0", "2 0 1 0 0", "2 0 2 0 0", "2 1 0 0 0"] {
        says(&admit(good), "- admitted\n");
    }
    for child in ["2 0 3 0 0", "2 1 3 0 0", "2 0 65535 0 0", "2 1 3 1 1"] {
        says(&admit(child), "- refused 32 1\n");
    }
    // what else is wrong with a call that stays
    says(&admit("2 2 0 0 0"), "- refused 31 1\n");
    says(&admit("2 1 0 1 0"), "- refused 33 1\n");
    says(&admit("2 0 0 0 1"), "- refused 34 1\n");
    says(&admit("2 1 0 0 1"), "- refused 34 1\n");
}

/// The kinds of a check are accepted, and a list in which a stay rule's fact is missing is not.
#[test]
fn lists_of_kinds() {
    let contract = format!("{ELEMENTS} {CHAIN} rules 0 2 1 1 2 2 2 2 3 3 1 0");
    let kinds = "8589934593 0 0 0 0 4294967297 85 0 0 0 1 85 0 0 0";
    says(&format!("{contract} check 3 kinds-of-check examine"), "- pass 3\n- accepted\n");
    says(&format!("{contract} kinds {kinds} examine"), "- accepted\n");
    // without the last round's fact: symbol 1 over kinds 0 and 0
    says(&format!("{contract} kinds {} examine", kinds.replace(" 85 ", " 84 ")), "- refused 72 16777216\n");
    says(&format!("{contract} output-marks 0 1 kinds {kinds} examine"), "- refused 73 1\n");
    // with a rule for nothing instead the empty forest's kind has these facts
    let empty = format!("{ELEMENTS} {CHAIN} rules 0 2 1 1 2 2 2 2 3 3 0 0");
    says(&format!("{empty} kinds {kinds} examine"), "- refused 71 0\n");
    says(&format!("{empty} kinds 8589934593 85 0 0 0 4294967297 0 0 0 0 1 0 0 0 0 examine"), "- accepted\n");
}

/// Nodes within each other: node 0, and each other one made from the number of the one before.
fn within_each_other(first: &str, next: impl Fn(usize) -> String, count: usize) -> String {
    (1..count).fold(first.to_string(), |nodes, node| format!("{nodes} {}", next(node - 1)))
}

/// 4,096 calls within each other, and in each of them all nodes that there may be.
#[test]
fn the_deepest_runs() {
    // the call is within 255 elements, or within 255 arguments
    for next in [|node| format!("1 1 0 {node} 0"), |node| format!("2 1 0 {node} 0")] {
        let nodes = within_each_other("2 0 0 0 0", next, 256);
        let contract = format!("{ELEMENTS} counts 0 1 nodes {nodes} rules 0 2 255");
        says(&format!("{contract} run 4096 0"), "- refused 15 4096\n");
    }
    // first down to the document's last element, then staying there
    let nodes = within_each_other("2 0 1 0 0", |node| format!("1 1 0 {node} 0"), 128);
    let stay = within_each_other("2 0 0 0 0", |node| format!("1 1 0 {0} {0}", node + 128), 128);
    let contract = format!("{ELEMENTS} counts 0 nodes {nodes} {stay} rules 0 1 127 0 2 255");
    says(&format!("{contract} run 4096 {}", nested(511)), "- refused 15 4096\n");
}

/// An input type with few kinds, over seven symbols.
const FEW: Counters = Counters { symbols: 7, rights: &[3], lefts: &[2], totals: &[1], nodes: 4, idle: 0, common: 1 };

fn checked(engine: &impl Engine, contract: &Contract) -> (Answer, Vec<u16>, Vec<u64>) {
    let (mut rows, mut words) = (vec![7; 3 * 512], vec![7; 5 * 512]);
    (engine.check(contract, 512, &mut rows, &mut words), rows, words)
}

/// How many facts the kind of nothing has after each round, from none on.
fn facts_by_rounds(contract: &Contract) -> Vec<u32> {
    let rules = contract.rules.chunks(3).filter(|rule| usize::from(rule[1]) != contract.stay());
    let before = Contract { rules: rules.flatten().copied().collect(), ..contract.clone() };
    let (kinds, mut kind) = (Kinds::new(contract), Kinds::new(&before).empty());
    let mut facts = Vec::new();
    loop {
        facts.push(kind[1..].iter().map(|word| word.count_ones()).sum());
        let more = kinds.stay_round(&kind);
        if more == kind {
            assert_eq!(kind, kinds.empty());
            return facts;
        }
        kind = more;
    }
}

#[test]
fn contracts_of_many_rounds() {
    let contract = many_rounds(&FEW.contract());
    assert_eq!(facts_by_rounds(&contract), (64..=64 + MANY_ROUNDS as u32).collect::<Vec<_>>());
    let all = [u64::MAX; 4];
    let (answer, rows, words) = checked(&Library::default(), &contract);
    assert_eq!((answer, rows, words.clone()), checked(&Model, &contract));
    let count = answer.kinds().expect("a pass");
    assert!(count > 3 && words.chunks(5).take(count).all(|kind| kind[1..] == all));
    assert_eq!(facts_by_rounds(&chain(&FEW.contract())), (1..=16).collect::<Vec<_>>());
}

/// A transformation written with a stay rule has the same kinds as one with a rule for each symbol.
#[test]
fn copied_rules() {
    let types = FEW.contract();
    let counting = |symbol: usize, at: usize| (symbol + at / 2 + at % 2) as u16 % 2;
    let table = [0].into_iter().chain((1..7).flat_map(|symbol| (0..4).map(move |at| counting(symbol, at))));
    let types = Contract { output_table: table.collect(), ..types };
    for depth in [1, 2, 12] {
        for marks in [[1, 1], [1, 0], [0, 1]] {
            let types = Contract { output_marks: marks.to_vec(), ..types.clone() };
            let [by_stay_rule, by_symbol] = [true, false].map(|stay| wrapping(&types, depth, stay));
            let due = checked(&Model, &by_symbol);
            assert_eq!(checked(&Model, &by_stay_rule), due);
            assert_eq!(checked(&Library::default(), &by_symbol), due);
            assert_eq!(checked(&Library::default(), &by_stay_rule), due);
        }
    }
}
