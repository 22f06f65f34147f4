//! Lists of kinds from elsewhere: answers worked by hand and every refusal, by the model and by the proved library; and what
//! an acceptance means, by the library: no document breaks the contract, and the kinds of a check that passes are accepted.

use goosedawn::contract::Contract;
use goosedawn::counters;
use goosedawn::engine::{missing, Answer, Engine, Refusal, MOST_KINDS};
use goosedawn::generator::{contract, document, kinds_of, list, one_root, valid, Random, Size};
use goosedawn::library::Library;
use goosedawn::model::checking::first_kinds;
use goosedawn::model::kinds::{Kind, Kinds, EMPTY, ONE_ROOT};
use goosedawn::model::Model;

/// Sees what both engines say of a list.
fn examines(contract: &Contract, list: &[Kind], due: Result<(), Refusal>) {
    says(contract, &list.concat(), due);
}

/// The same of words that need not be whole kinds.
fn says(contract: &Contract, words: &[u64], due: Result<(), Refusal>) {
    assert_eq!(Model.examine(contract, words), due, "{words:?} {contract:?}");
    assert_eq!(Library::default().examine(contract, words), due, "{words:?} {contract:?}");
}

/// The place of refusal 72.
fn place(symbol: usize, left: usize, right: usize) -> usize {
    (symbol * 4096 + left) * 4096 + right
}

/// Any document of one sort of element is copied, and all outputs are allowed.
fn copy() -> Contract {
    Contract {
        symbols: 2,
        input_states: 1,
        output_states: 1,
        counts: vec![0],
        input_rows: vec![0, 0, 0, 0, 0, 1, 0, 0],
        input_marks: vec![1],
        output_table: vec![0, 0],
        output_marks: vec![1],
        nodes: vec![1, 0, 0, 0, 0, 2, 0, 1, 0, 0, 2, 0, 2, 0, 0, 1, 1, 0, 1, 2],
        rules: vec![0, 0, 0, 0, 1, 3],
    }
}

/// The same with no output allowed.
fn forbidden() -> Contract {
    Contract { output_marks: vec![0], ..copy() }
}

/// The kinds of copying: the empty forest, one root, several roots.
const NOTHING: Kind = [EMPTY | 1, 1, 0, 0, 0];
const ROOT: Kind = [ONE_ROOT | 1, 1, 0, 0, 0];
const ROOTS: Kind = [1, 1, 0, 0, 0];

#[test]
fn any_order() {
    examines(&copy(), &[NOTHING, ROOT, ROOTS], Ok(()));
    examines(&copy(), &[NOTHING, ROOTS, ROOT], Ok(()));
    examines(&copy(), &[ROOT, NOTHING, ROOTS], Ok(()));
    examines(&copy(), &[ROOT, ROOTS, NOTHING], Ok(()));
    examines(&copy(), &[ROOTS, NOTHING, ROOT], Ok(()));
    examines(&copy(), &[ROOTS, ROOT, NOTHING], Ok(()));
}

#[test]
fn a_kind_left_out() {
    examines(&copy(), &[ROOT, ROOTS], Err((71, 0)));
    examines(&copy(), &[NOTHING, ROOTS], Err((72, place(1, 0, 0))));
    examines(&copy(), &[NOTHING, ROOT], Err((72, place(1, 0, 1))));
    examines(&copy(), &[ROOT, NOTHING], Err((72, place(1, 0, 0))));
    examines(&copy(), &[ROOTS, NOTHING], Err((72, place(1, 0, 1))));
}

#[test]
fn the_empty_list() {
    examines(&copy(), &[], Err((71, 0)));
    examines(&forbidden(), &[], Err((71, 0)));
}

#[test]
fn lengths() {
    let words = |length| [NOTHING, ROOT, ROOTS].concat().into_iter().cycle().take(length).collect::<Vec<_>>();
    for length in [1, 2, 3, 4, 6, 7, 14, 16, 20_479, 20_481, 20_484, 20_485, 20_486, 100_000] {
        says(&copy(), &words(length), Err((70, length)));
    }
    for length in [15, 20, 20_475, 20_480] {
        says(&copy(), &words(length), Ok(()));
    }
}

#[test]
fn a_bad_contract_comes_before_a_wrong_length() {
    says(&Contract { symbols: 0, ..copy() }, &[7; 7], Err((1, 0)));
    says(&Contract { input_marks: vec![2], ..copy() }, &[7; 20_485], Err((4, 0)));
    says(&Contract { nodes: vec![1, 0, 0, 0, 1], ..copy() }, &[], Err((34, 0)));
    let many_facts = Contract {
        output_states: 4,
        counts: vec![0, 2, 2, 2, 2],
        output_table: vec![0; 17],
        output_marks: vec![1; 4],
        ..copy()
    };
    says(&many_facts, &[7; 4], Err((8, 260)));
}

#[test]
fn kinds_that_no_tree_has() {
    // also one with both marks, which no tree has: as a right kind it makes a symbol's tree one of one root
    let both = [EMPTY | ONE_ROOT | 1, 1, 0, 0, 0];
    examines(&copy(), &[NOTHING, both, ROOT, ROOTS], Ok(()));
    examines(&copy(), &[both, ROOT, ROOTS], Err((71, 0)));
    examines(&forbidden(), &[NOTHING, both, ROOT, ROOTS], Err((73, 1)));
    // over a kind without state and fact there is none, but the mark if nothing follows
    let (none, marked) = ([0; 5], [ONE_ROOT, 0, 0, 0, 0]);
    examines(&copy(), &[NOTHING, ROOT, ROOTS, none], Err((72, place(1, 3, 0))));
    examines(&copy(), &[NOTHING, ROOT, ROOTS, none, marked], Ok(()));
    // a state without a fact
    examines(&copy(), &[NOTHING, ROOT, ROOTS, [1, 0, 0, 0, 0]], Err((72, place(1, 3, 0))));
    examines(&copy(), &[NOTHING, ROOT, ROOTS, [1, 0, 0, 0, 0], [ONE_ROOT | 1, 0, 0, 0, 0]], Ok(()));
}

/// Left, right and the number of a breaking kind count the kinds of the list as it is sent.
#[test]
fn repeats_are_counted() {
    examines(&copy(), &[NOTHING, NOTHING, ROOT], Err((72, place(1, 0, 2))));
    examines(&copy(), &[NOTHING, NOTHING, NOTHING, ROOTS], Err((72, place(1, 0, 0))));
    examines(&copy(), &[ROOTS, ROOTS, NOTHING], Err((72, place(1, 0, 2))));
    examines(&forbidden(), &[NOTHING, ROOTS, ROOTS, NOTHING, ROOT, ROOT], Err((73, 4)));
}

#[test]
fn bits_that_stand_for_nothing() {
    let idle = [!(EMPTY | ONE_ROOT | 1), !1, u64::MAX, u64::MAX, u64::MAX];
    let with_idle = |kind: Kind| std::array::from_fn(|word| kind[word] | idle[word]);
    let list = [NOTHING, ROOT, ROOTS];
    examines(&copy(), &list.map(with_idle), Ok(()));
    examines(&copy(), &[with_idle(NOTHING), ROOT, with_idle(ROOTS)], Ok(()));
    examines(&copy(), &[NOTHING, ROOT].map(with_idle), Err((72, place(1, 0, 1))));
    examines(&forbidden(), &list.map(with_idle), Err((73, 1)));
    examines(&forbidden(), &[with_idle(NOTHING), with_idle(ROOT), ROOTS], Err((73, 1)));
}

/// A contract of one symbol with these sizes and no rule; how many facts it has.
fn of_one_symbol(input_states: usize, output_states: usize, counts: &[u16]) -> (Contract, usize) {
    let facts = counts.iter().map(|&count| output_states.pow(u32::from(count) + 1)).sum();
    let contract = Contract {
        symbols: 1,
        input_states,
        output_states,
        counts: counts.to_vec(),
        input_marks: vec![0; input_states],
        output_table: vec![0],
        output_marks: vec![0; output_states],
        ..Contract::default()
    };
    (contract, facts)
}

/// The empty forest's kind with one bit more is another kind exactly if the bit stands for a state, a mark or a fact.
#[test]
fn each_bit() {
    let sizes: [(usize, usize, &[u16]); 8] = [
        (1, 1, &[0]),
        (31, 2, &[0, 2, 1]),
        (32, 4, &[0, 0, 0, 1, 1, 1]),
        (32, 4, &[0, 0, 0, 0, 1, 1, 1]),
        (17, 3, &[0, 0, 0, 1, 2, 2]),
        (5, 4, &[0, 2, 2]),
        (16, 4, &[0, 2, 2, 1, 1, 1, 0, 0, 0]),
        (2, 4, &[0, 2, 2, 2, 1, 1, 1, 0, 0, 0]),
    ];
    let mut counted = Vec::new();
    for (input_states, output_states, counts) in sizes {
        let (contract, facts) = of_one_symbol(input_states, output_states, counts);
        for bit in (0..320).filter(|bit| *bit != 33) {
            let mut kind = [EMPTY, 0, 0, 0, 0];
            kind[bit / 64] |= 1 << (bit % 64);
            let stands = if bit < 64 { bit < input_states || bit == 32 } else { bit - 64 < facts };
            examines(&contract, &[kind], if stands { Err((71, 0)) } else { Ok(()) });
        }
        counted.push(facts);
    }
    assert_eq!(counted, [1, 14, 60, 64, 72, 132, 192, 256]);
}

#[test]
fn a_breaking_kind_is_told_last() {
    examines(&forbidden(), &[ROOT, ROOTS], Err((71, 0)));
    examines(&forbidden(), &[NOTHING, ROOT], Err((72, place(1, 0, 1))));
    examines(&forbidden(), &[ROOT, NOTHING], Err((72, place(1, 0, 0))));
    examines(&forbidden(), &[NOTHING, ROOT, ROOTS], Err((73, 1)));
    examines(&forbidden(), &[ROOTS, NOTHING, ROOT], Err((73, 2)));
}

/// Only documents with one root break a contract.
#[test]
fn a_breaking_kind_has_one_root() {
    let nothing_accepted = Contract { input_marks: vec![0], ..forbidden() };
    examines(&nothing_accepted, &[NOTHING, ROOT, ROOTS], Ok(()));
    // the procedure has no output on one root alone
    let no_output = [ONE_ROOT | 1, 0, 0, 0, 0];
    let no_rule = Contract { rules: vec![0, 0, 0], ..forbidden() };
    examines(&no_rule, &[NOTHING, no_output, [1, 0, 0, 0, 0]], Ok(()));
    examines(&no_rule, &[NOTHING, no_output, [1, 0, 0, 0, 0], ROOTS], Ok(()));
    examines(&no_rule, &[NOTHING, no_output, [1, 0, 0, 0, 0], ROOT], Err((73, 3)));
}

/// A contract in which only the last symbol over two kinds with state 1 gives state 2; every kind has state 0.
fn over_two_alone(symbols: u16) -> Contract {
    let every = (1..symbols).map(|symbol| [0, symbol, 0, 0]);
    let rows: Vec<_> = [[0; 4]].into_iter().chain(every).chain([[2, symbols - 1, 1, 1]]).collect();
    Contract {
        symbols: usize::from(symbols),
        input_states: 3,
        output_states: 1,
        counts: vec![0],
        input_rows: rows.concat(),
        input_marks: vec![1; 3],
        output_table: vec![0; usize::from(symbols)],
        output_marks: vec![1],
        ..Contract::default()
    }
}

/// A list of so many kinds for that contract, the last with state 1: its kind over itself is missing, and no other.
fn missing_at_the_end(kinds: usize) -> Vec<Kind> {
    let trees = [EMPTY | 1, ONE_ROOT | 1, 1].map(|word| [word, 0, 0, 0, 0]);
    trees.into_iter().cycle().take(kinds - 1).chain([[3, 0, 0, 0, 0]]).collect()
}

#[test]
fn the_first_that_is_missing() {
    for symbols in 2..=16 {
        let contract = over_two_alone(symbols);
        let last = usize::from(symbols) - 1;
        for kinds in [4, 5, 40] {
            let mut list = missing_at_the_end(kinds);
            examines(&contract, &list, Err((72, place(last, kinds - 1, kinds - 1))));
            list.swap(2, kinds - 1);
            examines(&contract, &list, Err((72, place(last, 2, 2))));
            // a kind of state 2, of several roots: over it there is no state 2
            list.push([5, 0, 0, 0, 0]);
            examines(&contract, &list, Ok(()));
        }
    }
}

/// Fifteen inner symbols and 4,096 kinds: the greatest place that there is.
#[test]
fn the_greatest_place() {
    let words = missing_at_the_end(MOST_KINDS).concat();
    let examined = Library::default().examine(&over_two_alone(16), &words);
    assert_eq!(examined, Err((72, (1 << 28) - 1)));
    assert_eq!(missing((1 << 28) - 1), [15, 4095, 4095]);
    assert_eq!(missing(place(1, 0, 4095)), [1, 0, 4095]);
    assert_eq!(missing(place(2, 4095, 0)), [2, 4095, 0]);
}

/// All kinds of a contract that has 4,096, more than a check can list, are accepted, in any order.
#[test]
fn the_most_kinds() {
    let contract = counters::WITH_MOST_KINDS.contract();
    let library = Library::default();
    let checked = library.check(&contract, 512, &mut [0; 3 * 512], &mut [0; 5 * 512]);
    assert!(matches!(checked, Answer::Stopped { .. }), "{checked}");
    let mut list = first_kinds(&contract, MOST_KINDS + 1);
    assert_eq!(list.len(), MOST_KINDS);
    assert_eq!(library.examine(&contract, &list.concat()), Ok(()));
    list.reverse();
    assert_eq!(library.examine(&contract, &list.concat()), Ok(()));
    list.push(list[7]);
    assert_eq!(library.examine(&contract, &list.concat()), Err((70, 20_485)));
}

/// Without any one of them they are not, and the place tells which one is missing.
#[test]
fn one_of_many_left_out() {
    let contract = counters::WITH_MOST_KINDS.contract();
    let (library, kinds) = (Library::default(), Kinds::new(&contract));
    let list = first_kinds(&contract, MOST_KINDS);
    assert_eq!(library.examine(&contract, &list[1..].concat()), Err((71, 0)));
    for number in (1..MOST_KINDS).step_by(97).chain([MOST_KINDS - 1]) {
        let mut rest = list.clone();
        let left_out = rest.remove(number);
        let Err((72, place)) = library.examine(&contract, &rest.concat()) else { panic!("{left_out:?} is not missed") };
        let [symbol, left, right] = missing(place);
        let [left, right] = [left, right].map(|number| kinds.parts(&rest[number]));
        assert_eq!(kinds.kind(symbol, &left, &right), left_out);
    }
}

/// What a check answers, and the words of the kinds that it lists; none where it is refused.
fn checked(contract: &Contract) -> (Answer, Vec<u64>) {
    let mut words = vec![7; 5 * 512];
    let answer = Library::default().check(contract, 512, &mut [7; 3 * 512], &mut words);
    words.truncate(5 * answer.kinds().unwrap_or(0));
    (answer, words)
}

/// "our own passes' counted kinds are accepted"; those of a check that shows a tree are not, nor are all kinds then.
#[test]
fn own_kinds() {
    let mut random = Random::new(33);
    let (mut passes, mut trees, mut most) = (0, 0, 0);
    for turn in 0..4000 {
        let size = if turn % 10 == 0 { Size::Large } else { Size::Small };
        let contract = valid(&mut random, size);
        let (answer, words) = checked(&contract);
        let examined = Library::default().examine(&contract, &words);
        match answer {
            Answer::Pass { count } => {
                assert_eq!(examined, Ok(()), "{contract:?}");
                passes += 1;
                most = most.max(count);
            }
            Answer::Tree { row } => {
                let number = examined.expect_err("a tree breaks the contract").0;
                assert!(number == 72 || number == 73, "{contract:?}");
                let all = first_kinds(&contract, 64);
                if all.len() < 64 {
                    assert_eq!(Library::default().examine(&contract, &all.concat()), Err((73, row)), "{contract:?}");
                    trees += 1;
                }
            }
            _ => {}
        }
    }
    println!("{passes} passes of at most {most} kinds, {trees} trees");
    assert!(passes > 1000 && trees > 200 && most > 400);
}

/// Documents of a contract, some with one root.
fn documents(random: &mut Random, symbols: usize) -> Vec<Vec<u16>> {
    (0..10).flat_map(|size| [document(random, symbols, size), one_root(random, symbols, size)]).collect()
}

/// "Acceptance means no document breaks the contract": none is shown, and none that is judged breaks it, whatever the list.
#[test]
fn what_an_acceptance_means() {
    let mut random = Random::new(32);
    let library = Library::default();
    let mut accepted = 0;
    for _ in 0..20_000 {
        let contract = contract(&mut random);
        let words = list(&mut random, &contract);
        if library.examine(&contract, &words).is_err() {
            continue;
        }
        assert!(matches!(checked(&contract).0, Answer::Pass { .. }), "{words:?} {contract:?}");
        accepted += 1;
        for document in documents(&mut random, contract.symbols) {
            let judged = library.judge(&contract, &document, &mut [0; 5]);
            assert!(matches!(judged, Answer::Judged { result: 0 | 1, .. }), "{document:?} {words:?} {contract:?}");
        }
    }
    println!("{accepted} accepted lists");
    assert!(accepted > 2000);
}

/// Lists of some hundred kinds, changed or not, by the library and by the model.
#[test]
fn longer_lists() {
    let mut random = Random::new(34);
    let (mut accepted, mut refused) = (0, 0);
    while accepted + refused < 50 {
        let contract = valid(&mut random, Size::Small);
        let list = kinds_of(&mut random, &contract, 700);
        if list.len() < 100 {
            continue;
        }
        let examined = Library::default().examine(&contract, &list.concat());
        assert_eq!(examined, Model.examine(&contract, &list.concat()), "{list:?} {contract:?}");
        match examined {
            Ok(()) => accepted += 1,
            Err(_) => refused += 1,
        }
    }
    println!("{accepted} accepted and {refused} refused alike");
    assert!(accepted > 10 && refused > 10);
}

/// The list of a check that passes is accepted as often as it fits in.
#[test]
fn a_list_again_and_again() {
    let mut random = Random::new(33);
    let mut accepted = 0;
    for _ in 0..200 {
        let contract = valid(&mut random, Size::Small);
        let (answer, mut words) = checked(&contract);
        if matches!(answer, Answer::Pass { .. }) {
            words = words.iter().copied().cycle().take(5 * MOST_KINDS).collect();
            assert_eq!(Library::default().examine(&contract, &words), Ok(()), "{contract:?}");
            accepted += 1;
        }
    }
    assert!(accepted > 50, "{accepted}");
}
