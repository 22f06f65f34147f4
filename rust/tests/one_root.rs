//! Only documents with one root count: what judging says of others, what a check shows, and the two marks in a kind's first
//! word, by the model and by the proved library. Roots are counted in a document's numbers, never by its kind.

use goosedawn::contract::{tuple, Contract};
use goosedawn::engine::{Answer, Engine};
use goosedawn::generator::{document, one_root, valid, Random, Size};
use goosedawn::library::Library;
use goosedawn::model::Model;
use goosedawn::trees::{all_trees, row_height};
use std::collections::HashSet;

/// The marks of one root and of the empty forest, as document 01 numbers the bits, and the bits of 32 input states.
const ONE_ROOT: u64 = 4_294_967_296;
const EMPTY: u64 = 8_589_934_592;
const STATES: u64 = 4_294_967_295;

/// The most kinds that a check lists.
const LIMIT: usize = 512;

/// How many roots a document has: elements that follow each other, each with the forest inside it passed over.
fn roots(document: &[u16]) -> usize {
    let (mut roots, mut place) = (0, 0);
    while document[place] != 0 {
        roots += 1;
        place += 1;
        let mut due = 1;
        while due > 0 {
            due = if document[place] == 0 { due - 1 } else { due + 1 };
            place += 1;
        }
    }
    assert_eq!(place + 1, document.len());
    roots
}

#[test]
fn roots_are_counted() {
    assert_eq!(roots(&[0]), 0);
    assert_eq!(roots(&[1, 0, 0]), 1);
    assert_eq!(roots(&[1, 1, 0, 1, 0, 0, 0]), 1);
    assert_eq!(roots(&[1, 0, 1, 0, 0]), 2);
    assert_eq!(roots(&[1, 2, 0, 0, 1, 0, 1, 0, 0]), 3);
}

/// The marks of a document with so many roots.
fn marks(roots: usize) -> u64 {
    match roots {
        0 => EMPTY,
        1 => ONE_ROOT,
        _ => 0,
    }
}

/// Bits that are set for each place of a list that holds a number.
fn places(list: &[u16], number: u16) -> u64 {
    (0..list.len()).filter(|&place| list[place] == number).map(|place| 1 << place).sum()
}

/// Whether a kind has an accepted input state, and whether a state that is not accepted is given by procedure 0.
fn accepted_and_faulty(contract: &Contract, kind: &[u64]) -> (bool, bool) {
    (kind[0] & places(&contract.input_marks, 1) != 0, kind[1] & places(&contract.output_marks, 0) != 0)
}

fn judged(engine: &impl Engine, contract: &Contract, document: &[u16]) -> (u64, [u64; 5]) {
    let mut kind = [7; 5];
    match engine.judge(contract, document, &mut kind) {
        Answer::Judged { result, taken } if taken == document.len() => (result, kind),
        answer => panic!("{answer:?} {document:?} {contract:?}"),
    }
}

/// A document without a root, with one or with several.
fn any_document(random: &mut Random, symbols: usize) -> Vec<u16> {
    let size = random.within(0, 12);
    if random.once_in(2) {
        one_root(random, symbols, size)
    } else {
        document(random, symbols, size)
    }
}

/// Judging gives 0 unless the document has one root, and marks its kind by its roots; no other bit follows the states.
fn judges_by_roots(engine: &impl Engine) {
    let mut random = Random::new(1);
    // by none, one or several roots: how often the kind has no accepted state, has one and is not faulty, has one and is
    let mut met = [[0; 3]; 3];
    for _ in 0..6000 {
        let size = if random.once_in(8) { Size::Large } else { Size::Small };
        let contract = valid(&mut random, size);
        let document = any_document(&mut random, contract.symbols);
        let roots = roots(&document);
        let (result, kind) = judged(engine, &contract, &document);
        let due = match accepted_and_faulty(&contract, &kind) {
            (false, _) => 0,
            (true, false) => 1,
            (true, true) => 2,
        };
        assert_eq!(result, if roots == 1 { due } else { 0 }, "{document:?} {contract:?}");
        assert_eq!(kind[0] & !STATES, marks(roots), "{document:?} {contract:?}");
        assert_eq!((kind[0] & STATES) >> contract.input_states, 0, "{document:?} {contract:?}");
        met[roots.min(2)][due as usize] += 1;
    }
    println!("roots none, one, several, by what the kind says: {met:?}");
    assert!(met.iter().flatten().all(|&met| met > 30), "{met:?}");
}

#[test]
fn judging_by_roots() {
    judges_by_roots(&Model);
    judges_by_roots(&Library::default());
}

/// A check with the largest limit that was not refused: its answer, and the rows and kinds that stand after it.
struct Checked {
    answer: Answer,
    rows: Vec<[usize; 3]>,
    kinds: Vec<[u64; 5]>,
}

fn checked(engine: &impl Engine, contract: &Contract) -> Option<Checked> {
    let (mut rows, mut words) = (vec![7; 3 * LIMIT], vec![7; 5 * LIMIT]);
    let answer = engine.check(contract, LIMIT, &mut rows, &mut words);
    let count = match answer {
        Answer::Pass { count } => count,
        Answer::Tree { row } => row + 1,
        _ => return None,
    };
    let rows = (0..count).map(|row| tuple(&rows, row)).collect();
    let kinds = words.chunks(5).take(count).map(|kind| kind.try_into().expect("five words")).collect();
    Some(Checked { answer, rows, kinds })
}

/// The trees of rows, as documents, up to the first that has more numbers than judging takes.
fn trees(rows: &[[usize; 3]]) -> Vec<Vec<u16>> {
    let mut trees: Vec<Vec<u16>> = Vec::new();
    for &[symbol, left, right] in rows {
        let tree = match symbol {
            0 => vec![0],
            _ => [&[symbol as u16], trees[left].as_slice(), &trees[right]].concat(),
        };
        if tree.len() > 1023 {
            break;
        }
        trees.push(tree);
    }
    trees
}

/// Rows are marked by the roots of their trees; the tree shown has one root and is judged 2, and none before it is.
fn checks_by_roots(engine: &impl Engine) {
    let mut random = Random::new(2);
    // shown; passed though the empty forest, or only forests of several roots, would break it; passed otherwise
    let mut met = [0; 4];
    for _ in 0..15000 {
        let contract = valid(&mut random, Size::Small);
        let Some(Checked { answer, rows, kinds }) = checked(engine, &contract) else { continue };
        let would_break = |kind: &[u64; 5]| accepted_and_faulty(&contract, kind) == (true, true);
        for (row, (kind, &[symbol, _, right])) in kinds.iter().zip(&rows).enumerate() {
            // row 0 alone is the empty forest
            let due = if row == 0 { EMPTY } else { marks(if right == 0 { 1 } else { 2 }) };
            assert_eq!((symbol == 0, kind[0] & !STATES), (row == 0, due), "row {row} {contract:?}");
            let breaks = would_break(kind) && due == ONE_ROOT;
            assert_eq!(breaks, answer == Answer::Tree { row }, "row {row} {contract:?}");
        }
        for (tree, kind) in trees(&rows).iter().zip(&kinds) {
            let (result, judged) = judged(engine, &contract, tree);
            assert_eq!((result == 2, &judged), (would_break(kind) && roots(tree) == 1, kind), "{tree:?} {contract:?}");
        }
        met[match answer {
            Answer::Tree { .. } => 0,
            _ if would_break(&kinds[0]) => 1,
            _ if kinds.iter().any(would_break) => 2,
            _ => 3,
        }] += 1;
    }
    println!("shown; passed though an empty forest, several roots would break; passed otherwise: {met:?}");
    assert!(met.iter().all(|&met| met > 30), "{met:?}");
}

#[test]
fn checking_by_roots() {
    checks_by_roots(&Model);
    checks_by_roots(&Library::default());
}

/// The kinds that a pass lists are those of all trees, whatever their roots: none twice, each the kind of a tree, and every
/// symbol over two of their trees has one of them.
fn lists_all_trees(engine: &impl Engine) {
    let mut random = Random::new(3);
    let mut lists = 0;
    while lists < 200 {
        let contract = valid(&mut random, Size::Small);
        let Some(Checked { answer: Answer::Pass { count: 3..=12 }, rows, kinds }) = checked(engine, &contract) else {
            continue;
        };
        let trees = trees(&rows);
        if trees.iter().map(Vec::len).max() > Some(500) {
            continue;
        }
        lists += 1;
        let listed: HashSet<_> = kinds.iter().copied().collect();
        assert_eq!(listed.len(), kinds.len(), "{contract:?}");
        for (tree, kind) in trees.iter().zip(&kinds) {
            assert_eq!(&judged(engine, &contract, tree).1, kind, "{tree:?} {contract:?}");
        }
        for symbol in 1..contract.symbols as u16 {
            for (left, right) in trees.iter().flat_map(|left| trees.iter().map(move |right| (left, right))) {
                let tree = [&[symbol], left.as_slice(), right].concat();
                assert!(listed.contains(&judged(engine, &contract, &tree).1), "{tree:?} {contract:?}");
            }
        }
    }
}

#[test]
fn a_pass_lists_the_kinds_of_all_trees() {
    lists_all_trees(&Model);
    lists_all_trees(&Library::default());
}

/// No document breaks a contract that passes, and none of less height than the one shown: all trees of height 2 and less are
/// tried, over three symbols at most.
fn shows_the_least(engine: &impl Engine) {
    let mut random = Random::new(4);
    // shown with height 1, 2, 3 or more; passed
    let mut met = [0; 4];
    for _ in 0..8000 {
        let contract = valid(&mut random, Size::Small);
        if contract.symbols > 3 {
            continue;
        }
        let Some(Checked { answer, rows, .. }) = checked(engine, &contract) else { continue };
        let height = match answer {
            Answer::Tree { row } => row_height(&rows, row).min(3),
            _ => 4,
        };
        met[height - 1] += 1;
        for tree in all_trees(contract.symbols, height.min(3) - 1) {
            assert_ne!(judged(engine, &contract, &tree).0, 2, "{tree:?} {contract:?}");
        }
    }
    println!("shown with height 1, 2, 3 or more; passed: {met:?}");
    assert!(met.iter().all(|&met| met > 0), "{met:?}");
}

#[test]
fn the_least_height_of_one_root() {
    shows_the_least(&Model);
    shows_the_least(&Library::default());
}

/// A contract that copies a document of one sort of element, with an output type of three states, 0 nothing, 1 one root and
/// 2 several roots, of which some are accepted; and with so many input states, each of which every tree reaches.
fn copy(input_states: usize, output_marks: [u16; 3]) -> Contract {
    let states = 0..input_states as u16;
    Contract {
        symbols: 2,
        input_states,
        output_states: 3,
        counts: vec![0],
        input_rows: states.flat_map(|state| [state, 0, 0, 0, state, 1, 0, 0]).collect(),
        input_marks: vec![1; input_states],
        output_table: vec![0, 1, 2, 2, 1, 2, 2, 1, 2, 2],
        output_marks: output_marks.to_vec(),
        nodes: vec![1, 0, 0, 0, 0, 2, 0, 1, 0, 0, 2, 0, 2, 0, 0, 1, 1, 0, 1, 2],
        rules: vec![0, 0, 0, 0, 1, 3],
    }
}

/// Nothing and several roots break no contract, whichever outputs are allowed; one root does where its copy is not allowed.
fn takes_one_root_alone(engine: &impl Engine) {
    for input_states in [1, 2, 31, 32] {
        let low = (1 << input_states) - 1;
        let kinds = [[low | EMPTY, 1, 0, 0, 0], [low | ONE_ROOT, 2, 0, 0, 0], [low, 4, 0, 0, 0]];
        let documents: [&[u16]; 3] = [&[0], &[1, 1, 0, 1, 0, 0, 0], &[1, 0, 1, 0, 0]];
        for allowed in 0..8 {
            let contract = copy(input_states, [allowed & 1, allowed >> 1 & 1, allowed >> 2]);
            let one_root_breaks = contract.output_marks[1] == 0;
            let Checked { answer, rows, kinds: words } = checked(engine, &contract).expect("an answer");
            if one_root_breaks {
                assert_eq!((answer, words), (Answer::Tree { row: 1 }, kinds[..2].to_vec()));
            } else {
                assert_eq!((answer, words), (Answer::Pass { count: 3 }, kinds.to_vec()));
                assert_eq!(rows, [[0, 0, 0], [1, 0, 0], [1, 0, 1]]);
            }
            let results = [0, if one_root_breaks { 2 } else { 1 }, 0];
            for ((document, result), kind) in documents.into_iter().zip(results).zip(kinds) {
                assert_eq!(judged(engine, &contract, document), (result, kind), "{document:?} {contract:?}");
            }
        }
    }
}

#[test]
fn one_root_alone() {
    takes_one_root_alone(&Model);
    takes_one_root_alone(&Library::default());
}

/// What is run or compared may have any number of roots.
fn runs_any_roots(engine: &impl Engine) {
    let contract = copy(1, [1, 1, 1]);
    for document in [[0].as_slice(), &[1, 0, 0], &[1, 0, 1, 0, 0]] {
        let mut rows = [7; 30];
        let Answer::Run { root, taken, .. } = engine.run(&contract, document, &mut rows) else { panic!("no run") };
        let mut copy = vec![7; taken];
        assert_eq!(engine.write_out(&rows, root, &mut copy), Answer::Written { count: document.len() });
        assert_eq!(copy, document);
        assert_eq!(engine.shorter(2, document, &[1, 0, 1, 0, 1, 0, 0]), document);
    }
}

#[test]
fn running_and_comparing_take_any_roots() {
    runs_any_roots(&Model);
    runs_any_roots(&Library::default());
}
