//! Two output types merged: answers worked by hand and every refusal, by the model and by the proved library; and what merging
//! is for, by the model, with which the library is compared elsewhere. The merged type allows a tree exactly if both do, a
//! contract with it passes exactly if it passes with each, and order, grouping and self-merging change nothing.

use goosedawn::contract::{Contract, OutputTables, OutputType};
use goosedawn::engine::{Answer, Engine, Refusal};
use goosedawn::generator::{document, merging, output_tables, valid, Merging, Random, Size};
use goosedawn::library::Library;
use goosedawn::model::Model;
use goosedawn::script::{checks, play};
use goosedawn::trees::all_trees;

/// Numbers that no merged table and no marks hold.
const BEFORE: u16 = 7;

/// What an engine answers, and the two buffers after it.
fn merged_by(
    engine: &impl Engine,
    [first, second]: [OutputType<'_>; 2],
    [table_room, marks_room]: [usize; 2],
) -> (Result<usize, Refusal>, [Vec<u16>; 2]) {
    let mut buffers = [vec![BEFORE; table_room], vec![BEFORE; marks_room]];
    let [table, marks] = &mut buffers;
    (engine.merge(first, second, table, marks), buffers)
}

/// Sees that both engines merge two types to this table and these marks, in buffers that are just as long, and in longer
/// ones, which keep the rest.
fn gives(types: [OutputType<'_>; 2], table: &[u16], marks: &[u16]) {
    for rest in [0, 1, 300] {
        let rooms = [table.len() + rest, marks.len() + rest];
        let buffers = [table, marks].map(|merged| [merged.to_vec(), vec![BEFORE; rest]].concat());
        let due = (Ok(marks.len()), buffers);
        assert_eq!(merged_by(&Model, types, rooms), due, "{types:?}");
        assert_eq!(merged_by(&Library::default(), types, rooms), due, "{types:?}");
    }
}

/// Sees that both engines refuse to merge two types into buffers of these lengths, and write nothing.
fn refuses_in(rooms: [usize; 2], types: [OutputType<'_>; 2], refusal: Refusal) {
    let due = (Err(refusal), rooms.map(|room| vec![BEFORE; room]));
    assert_eq!(merged_by(&Model, types, rooms), due, "{types:?}");
    assert_eq!(merged_by(&Library::default(), types, rooms), due, "{types:?}");
}

/// The same in buffers with room for every merged type, in longer ones and in empty ones.
fn refuses(types: [OutputType<'_>; 2], refusal: Refusal) {
    for rooms in [[241, 4], [1000, 1000], [0, 0]] {
        refuses_in(rooms, types, refusal);
    }
}

/// A type over two symbols: the state of symbol 0, then of symbol 1 by left state and right state.
fn over_two<'a>(states: usize, table: &'a [u16], marks: &'a [u16]) -> OutputType<'a> {
    OutputType { symbols: 2, states, table, marks }
}

/// The state of an element is that of its left child.
const LEFT: OutputType = OutputType { symbols: 2, states: 2, table: &[0, 0, 0, 1, 1], marks: &[1, 0] };
/// The state of an element is that of its right child.
const RIGHT: OutputType = OutputType { symbols: 2, states: 2, table: &[0, 0, 1, 0, 1], marks: &[1, 1] };
/// One state, which is accepted.
const ANY: OutputType = OutputType { symbols: 2, states: 1, table: &[0, 0], marks: &[1] };
/// One state, which is not accepted.
const NONE: OutputType = OutputType { symbols: 2, states: 1, table: &[0, 0], marks: &[0] };
/// Three states: 0 nothing, 1 elements without anything in them, 2 anything else.
const FLAT: OutputType =
    OutputType { symbols: 2, states: 3, table: &[0, 1, 1, 2, 2, 2, 2, 2, 2, 2], marks: &[0, 1, 0] };

#[test]
fn left_and_right_children() {
    // (m, n) over (p, q) is (m, q), which is 2m + q: rows are (0, 0), (0, 1), (1, 0), (1, 1), and so are columns.
    gives([LEFT, RIGHT], &[0, 0, 1, 0, 1, 0, 1, 0, 1, 2, 3, 2, 3, 2, 3, 2, 3], &[1, 1, 0, 0]);
    // (m, n) over (p, q) is (p, n), which is 2p + n
    gives([RIGHT, LEFT], &[0, 0, 0, 2, 2, 1, 1, 3, 3, 0, 0, 2, 2, 1, 1, 3, 3], &[1, 0, 1, 0]);
}

#[test]
fn the_empty_forest() {
    let (zero, one) = (over_two(2, &[0; 5], &[1, 1]), over_two(2, &[1, 0, 0, 0, 0], &[1, 1]));
    let merged = |empty| [vec![empty], vec![0; 16]].concat();
    gives([zero, zero], &merged(0), &[1; 4]);
    gives([zero, one], &merged(1), &[1; 4]);
    gives([one, zero], &merged(2), &[1; 4]);
    gives([one, one], &merged(3), &[1; 4]);
}

#[test]
fn marks() {
    let of = |marks| OutputType { marks, ..LEFT };
    // (m, n) over any pair is (m, n)
    let merged_table = [0, 0, 0, 0, 0, 1, 1, 1, 1, 2, 2, 2, 2, 3, 3, 3, 3];
    gives([of(&[1, 0]), of(&[1, 0])], &merged_table, &[1, 0, 0, 0]);
    gives([of(&[1, 0]), of(&[0, 1])], &merged_table, &[0, 1, 0, 0]);
    gives([of(&[0, 1]), of(&[1, 0])], &merged_table, &[0, 0, 1, 0]);
    gives([of(&[0, 1]), of(&[0, 1])], &merged_table, &[0, 0, 0, 1]);
    gives([of(&[1, 1]), of(&[0, 1])], &merged_table, &[0, 1, 0, 1]);
    gives([of(&[0, 1]), of(&[1, 1])], &merged_table, &[0, 0, 1, 1]);
    gives([of(&[1, 1]), of(&[1, 1])], &merged_table, &[1, 1, 1, 1]);
    gives([of(&[0, 0]), of(&[1, 1])], &merged_table, &[0, 0, 0, 0]);
}

#[test]
fn one_state_beside_others() {
    for (other, marks) in [(LEFT, [1, 0].as_slice()), (FLAT, &[0, 1, 0]), (ANY, &[1])] {
        gives([ANY, other], other.table, marks);
        gives([other, ANY], other.table, marks);
        gives([NONE, other], other.table, &vec![0; other.states]);
        gives([other, NONE], other.table, &vec![0; other.states]);
    }
    let four: Vec<u16> = (0..17).map(|entry| entry * 3 % 4).collect();
    gives([over_two(4, &four, &[1, 0, 0, 1]), ANY], &four, &[1, 0, 0, 1]);
    gives([ANY, over_two(4, &four, &[0, 1, 1, 0])], &four, &[0, 1, 1, 0]);
}

#[test]
fn symbol_counts() {
    let one = OutputType { symbols: 1, states: 2, table: &[1], marks: &[0, 1] };
    gives([one, one], &[3], &[0, 0, 0, 1]);
    gives([one, OutputType { table: &[0], ..one }], &[2], &[0, 0, 0, 1]);
    let sixteen = |entry: u16| [vec![1], [entry, 0, 0, 1].repeat(15)].concat();
    let (first, second) = (sixteen(1), sixteen(0));
    let [first, second] = [&first, &second].map(|table| OutputType { symbols: 16, table, ..one });
    // the first's element over (0, 0) is 1, over (1, 1) too, otherwise 0; the second's is 1 over (1, 1) alone
    let square = [2, 2, 0, 0, 2, 3, 0, 1, 0, 0, 2, 2, 0, 1, 2, 3];
    gives([first, second], &[vec![3], square.repeat(15)].concat(), &[0, 0, 0, 1]);
    refuses_in([240, 4], [first, second], (56, 0));
}

/// Sees which place a type's fault has, in the first type and in the second.
fn faulty(with_fault: OutputType<'_>, place: usize) {
    refuses([with_fault, ANY], (51, place));
    refuses([ANY, with_fault], (52, place));
    refuses([with_fault, with_fault], (51, place));
}

#[test]
fn sizes() {
    for symbols in [0, 17, 65_535, 65_536, 1 << 32 | 2, 1 << 63, usize::MAX] {
        faulty(OutputType { symbols, ..LEFT }, 0);
        faulty(OutputType { symbols, states: 0, table: &[], marks: &[] }, 0);
        faulty(OutputType { symbols, states: usize::MAX, table: &[9; 500], marks: &[9; 500] }, 0);
    }
    for states in [0, 5, 65_535, 65_536, 1 << 32 | 2, 1 << 63, usize::MAX] {
        faulty(OutputType { states, ..LEFT }, 1);
        faulty(OutputType { states, table: &[], marks: &[], ..LEFT }, 1);
        faulty(OutputType { symbols: 16, states, table: &[9; 500], marks: &[9; 500] }, 1);
    }
}

#[test]
fn lengths() {
    for table in [[].as_slice(), &[0], &[0; 4], &[0; 6], &[0; 17], &[9; 4], &[0; 70_000]] {
        faulty(OutputType { table, ..LEFT }, 2);
        faulty(OutputType { table, marks: &[], ..LEFT }, 2);
    }
    for marks in [[].as_slice(), &[1], &[1; 3], &[9; 3], &[1; 70_000]] {
        faulty(OutputType { marks, ..LEFT }, 3);
        faulty(OutputType { marks, table: &[9; 5], ..LEFT }, 3);
    }
}

#[test]
fn bad_numbers() {
    for entry in 0..5 {
        for state in [2, 3, 65_535] {
            let mut table = LEFT.table.to_vec();
            table[entry] = state;
            faulty(OutputType { table: &table, ..LEFT }, 4 + entry);
            table[entry..].fill(state);
            faulty(OutputType { table: &table, marks: &[2, 2], ..LEFT }, 4 + entry);
        }
    }
    for mark in [2, 65_535] {
        faulty(OutputType { marks: &[mark, 1], ..LEFT }, 9);
        faulty(OutputType { marks: &[0, mark], ..LEFT }, 10);
        faulty(OutputType { marks: &[mark, mark], ..LEFT }, 9);
    }
    let most = OutputType { symbols: 16, states: 4, table: &[3; 241], marks: &[1, 1, 1, 2] };
    refuses([most, ANY], (51, 248));
    refuses([ANY, most], (52, 248));
}

#[test]
fn faults_go_before_differing_symbols() {
    let one = OutputType { symbols: 1, states: 1, table: &[0], marks: &[1] };
    refuses([OutputType { marks: &[2], ..ANY }, one], (51, 6));
    refuses([ANY, OutputType { marks: &[2], ..one }], (52, 5));
    refuses([OutputType { marks: &[2], ..ANY }, OutputType { symbols: 17, ..one }], (51, 6));
    refuses([ANY, one], (50, 1));
    refuses([one, ANY], (50, 2));
    let sixteen = OutputType { symbols: 16, states: 4, table: &[0; 241], marks: &[1; 4] };
    refuses([FLAT, sixteen], (50, 16));
    refuses([sixteen, FLAT], (50, 2));
}

#[test]
fn more_than_four_states() {
    let four = over_two(4, &[3; 17], &[1; 4]);
    let by_states = [ANY, LEFT, FLAT, four];
    for first in by_states {
        for second in by_states {
            let pairs = first.states * second.states;
            if pairs > 4 {
                refuses([first, second], (53, pairs));
            }
        }
    }
}

#[test]
fn buffers_that_are_too_short() {
    for rooms in [[16, 4], [16, 3], [0, 0], [0, 4]] {
        refuses_in(rooms, [LEFT, RIGHT], (56, 0));
    }
    for rooms in [[17, 3], [17, 0], [100, 3]] {
        refuses_in(rooms, [LEFT, RIGHT], (56, 1));
    }
    refuses_in([0, 0], [ANY, ANY], (56, 0));
    refuses_in([2, 0], [ANY, ANY], (56, 1));
}

/// The type that two good ones with at most four pairs of states merge to, by an engine.
fn merged_with(engine: &impl Engine, first: OutputType<'_>, second: OutputType<'_>) -> OutputTables {
    let states = first.states * second.states;
    let (mut table, mut marks) = (vec![BEFORE; 1 + (first.symbols - 1) * states * states], vec![BEFORE; states]);
    assert_eq!(engine.merge(first, second, &mut table, &mut marks), Ok(states));
    OutputTables { symbols: first.symbols, states, table, marks }
}

fn merged(first: OutputType<'_>, second: OutputType<'_>) -> OutputTables {
    merged_with(&Model, first, second)
}

/// The state of a document, from the leaves up: the table is taken apart into a square for each symbol from 1 on.
fn state(of: OutputType<'_>, document: &[u16]) -> usize {
    let squares: Vec<Vec<&[u16]>> =
        of.table[1..].chunks(of.states * of.states).map(|square| square.chunks(of.states).collect()).collect();
    let mut states: Vec<usize> = Vec::new();
    for &symbol in document.iter().rev() {
        let state = if symbol == 0 {
            of.table[0]
        } else {
            let (left, right) = (states.pop().expect("a left child"), states.pop().expect("a right child"));
            squares[usize::from(symbol) - 1][left][right]
        };
        states.push(usize::from(state));
    }
    states.pop().expect("a tree")
}

fn allows(of: OutputType<'_>, document: &[u16]) -> bool {
    of.marks[state(of, document)] == 1
}

/// Sees that a tree has the state of the pair, and is allowed exactly if both types allow it; tells whether each does.
fn allowed_as_by_both(
    first: OutputType<'_>,
    second: OutputType<'_>,
    merged: OutputType<'_>,
    tree: &[u16],
) -> [bool; 2] {
    assert_eq!(state(merged, tree), state(first, tree) * second.states + state(second, tree), "{tree:?} {merged:?}");
    let by_each = [allows(first, tree), allows(second, tree)];
    assert_eq!(allows(merged, tree), by_each[0] && by_each[1], "{tree:?} {first:?} {second:?} {merged:?}");
    by_each
}

#[test]
fn a_tree_is_allowed_exactly_if_both_allow_it() {
    let mut random = Random::new(1);
    let mut met = [[0; 2]; 2];
    for _ in 0..3000 {
        let symbols = random.within(1, 16);
        let (first, second) = [(1, 1), (1, 2), (2, 1), (1, 3), (3, 1), (1, 4), (4, 1), (2, 2), (2, 2)][random.below(9)];
        let (first, second) = (output_tables(&mut random, symbols, first), output_tables(&mut random, symbols, second));
        let (first, second) = (first.output_type(), second.output_type());
        let merged = merged(first, second);
        for size in 0..20 {
            let tree = document(&mut random, symbols, size);
            let by_each = allowed_as_by_both(first, second, merged.output_type(), &tree);
            met[usize::from(by_each[0])][usize::from(by_each[1])] += 1;
        }
    }
    println!("allowed by neither, the second, the first, both: {met:?}");
    assert!(met.iter().flatten().all(|&met| met > 5000), "{met:?}");
}

/// A merged type is merged again: whatever the order and the grouping, and however often a type is taken, a tree is allowed
/// exactly if all types allow it.
fn merges_in_any_way(engine: &impl Engine) {
    let mut random = Random::new(2);
    let mut met = [0; 4];
    for _ in 0..2000 {
        let symbols = random.within(1, 16);
        let sizes = [[2, 2, 1], [2, 1, 2], [1, 2, 2], [1, 1, 4], [4, 1, 1], [1, 3, 1], [2, 1, 1]][random.below(7)];
        let types = sizes.map(|states| output_tables(&mut random, symbols, states));
        let both = |first: &OutputTables, second: &OutputTables| {
            merged_with(engine, first.output_type(), second.output_type())
        };
        let [a, b, c] = &types;
        let mut ways = vec![
            both(&both(a, b), c),
            both(a, &both(b, c)),
            both(&both(b, a), c),
            both(c, &both(b, a)),
            both(&both(c, a), b),
        ];
        for (once, others) in [(a, both(b, c)), (b, both(a, c)), (c, both(a, b))] {
            if once.states * once.states * others.states <= 4 {
                ways.push(both(&both(once, once), &others));
            }
        }
        for size in 0..20 {
            let tree = document(&mut random, symbols, size);
            let allowing = types.iter().filter(|of| allows(of.output_type(), &tree)).count();
            for way in &ways {
                assert_eq!(allows(way.output_type(), &tree), allowing == 3, "{tree:?} {types:?}");
            }
            met[allowing] += 1;
        }
    }
    println!("allowed by none, one, two, all of three types: {met:?}");
    assert!(met.iter().all(|&met| met > 1000), "{met:?}");
}

#[test]
fn order_grouping_and_self_merging() {
    merges_in_any_way(&Model);
    merges_in_any_way(&Library::default());
}

/// All types over the symbols 0 and 1 with so many states, one or two.
fn all_types(states: usize) -> Vec<OutputTables> {
    let length = 1 + states * states;
    let digits = |code: usize, count: usize, base: usize| -> Vec<u16> {
        (0..count).map(|digit| (code / base.pow(digit as u32) % base) as u16).collect()
    };
    let tables = (0..states.pow(length as u32)).map(|code| digits(code, length, states));
    tables
        .flat_map(|table| (0..1 << states).map(move |code| (table.clone(), code)))
        .map(|(table, code)| OutputTables { symbols: 2, states, table, marks: digits(code, states, 2) })
        .collect()
}

#[test]
fn every_pair_of_small_types() {
    let types: Vec<_> = [1, 2].into_iter().flat_map(all_types).collect();
    assert_eq!(types.len(), 2 + 32 * 4);
    let trees = all_trees(2, 3);
    assert_eq!(trees.len(), 26);
    for first in &types {
        for second in &types {
            let (first, second) = (first.output_type(), second.output_type());
            let merged = merged(first, second);
            for tree in &trees {
                allowed_as_by_both(first, second, merged.output_type(), tree);
            }
        }
    }
}

/// A contract with another output type over as many symbols.
fn with_output(contract: &Contract, output: &OutputTables) -> Contract {
    Contract {
        output_states: output.states,
        output_table: output.table.clone(),
        output_marks: output.marks.clone(),
        ..contract.clone()
    }
}

/// The most kinds that a check lists.
const LIMIT: usize = 512;

/// What the check of a contract says: whether it passes, with the document that it shows otherwise; none if it is refused.
fn checked(contract: &Contract) -> Option<Result<(), Vec<u16>>> {
    let (mut rows, mut words) = (vec![BEFORE; 3 * LIMIT], vec![u64::from(BEFORE); 5 * LIMIT]);
    match Model.check(contract, LIMIT, &mut rows, &mut words) {
        Answer::Pass { .. } => Some(Ok(())),
        Answer::Tree { row } => {
            let mut document = vec![BEFORE; 1023];
            match Model.write_out(&rows, row, &mut document) {
                Answer::Written { count } => document.truncate(count),
                answer => panic!("{answer:?}"),
            }
            Some(Err(document))
        }
        _ => None,
    }
}

fn breaks(contract: &Contract, document: &[u16]) -> bool {
    matches!(Model.judge(contract, document, &mut [0; 5]), Answer::Judged { result: 2, .. })
}

/// A contract of any transformation, and two types with at most four pairs of states. Of a half every tree is of the input
/// type, since otherwise few have an output that counts.
fn contract_and_types(random: &mut Random) -> (Contract, [OutputTables; 2]) {
    let mut contract = valid(random, Size::Small);
    if random.once_in(2) {
        contract.input_states = 1;
        contract.input_rows = (0..contract.symbols as u16).flat_map(|symbol| [0, symbol, 0, 0]).collect();
        contract.input_marks = vec![1];
    }
    let states = [[1, 1], [1, 2], [2, 1], [1, 3], [3, 1], [1, 4], [4, 1], [2, 2], [2, 2], [2, 2]][random.below(10)];
    let types = states.map(|states| output_tables(random, contract.symbols, states));
    (contract, types)
}

#[test]
fn the_merged_contract_passes_exactly_if_each_alone_does() {
    let mut random = Random::new(2);
    let mut met = [[0; 2]; 2];
    let mut refused = 0;
    for _ in 0..6000 {
        let (contract, types) = contract_and_types(&mut random);
        let merged = with_output(&contract, &merged(types[0].output_type(), types[1].output_type()));
        let alone = types.each_ref().map(|output| with_output(&contract, output));
        let (Some(first), Some(second), Some(both)) = (checked(&alone[0]), checked(&alone[1]), checked(&merged)) else {
            refused += 1;
            continue;
        };
        assert_eq!(both.is_ok(), first.is_ok() && second.is_ok(), "{alone:?}");
        met[usize::from(first.is_ok())][usize::from(second.is_ok())] += 1;
        // what the merged one shows breaks one of the two, and what one of them shows breaks the merged one
        if let Err(document) = &both {
            assert!(alone.iter().any(|contract| breaks(contract, document)), "{document:?} {alone:?}");
        }
        for document in [first, second].iter().filter_map(|check| check.as_ref().err()) {
            assert!(breaks(&merged, document), "{document:?} {alone:?}");
        }
    }
    println!("neither passes, the second, the first, both: {met:?}; {refused} refused");
    assert!(met.iter().flatten().all(|&met| met > 200), "{met:?}");
}

/// In examples/receivers.script the contract is checked with two types and with what they merge to, which is what
/// examples/library/receivers.script shows.
#[test]
fn the_example_of_two_receivers() {
    let script = include_bytes!("../../examples/receivers.script");
    assert_eq!(play(&Model, script).said, include_str!("../../examples/receivers.answers"));
    let contracts = checks(script);
    let of_label = |label: &str| &contracts.iter().find(|(name, ..)| name == label).expect("a check").1;
    let [first, second, both] = ["first", "second", "both"].map(|label| of_label(label).output_type());
    assert_eq!(merged(first, second).output_type(), both);
    let shown = |word: &str, numbers: &[u16]| {
        let numbers: Vec<_> = numbers.iter().map(u16::to_string).collect();
        format!("receivers {word} {}\n", numbers.join(" "))
    };
    let merged = format!("receivers merged 4\n{}{}", shown("table", both.table), shown("marks", both.marks));
    assert!(include_str!("../../examples/library/receivers.answers").starts_with(&merged));
}

/// What the model writes, for any two types: all or nothing of the merged type, and never what follows.
#[test]
fn what_is_written() {
    let mut random = Random::new(3);
    for _ in 0..5000 {
        let Merging { first, second, table_room, marks_room } = merging(&mut random);
        let types = [first.output_type(), second.output_type()];
        let (answer, [table, marks]) = merged_by(&Model, types, [table_room, marks_room]);
        let (states, entries) = match answer {
            Ok(states) => (states, 1 + (first.symbols - 1) * states * states),
            Err(_) => (0, 0),
        };
        assert!(table[..entries].iter().all(|&state| usize::from(state) < states));
        assert!(marks[..states].iter().all(|&mark| mark <= 1));
        assert!(table[entries..].iter().chain(&marks[states..]).all(|&number| number == BEFORE));
    }
}
