//! The generator makes what it says, and the comparison notices a wrong engine.

use goosedawn::comparison::compare;
use goosedawn::contract::{tuple, Contract, OutputType};
use goosedawn::engine::{missing, Answer, Engine};
use goosedawn::generator::{
    contract, damaged, document, list, merging, numbers, pair, valid, Merging, Pair, Random, Size,
};
use goosedawn::model::admission::node_uses;
use goosedawn::model::documents::{leading_document, right_children};
use goosedawn::model::examining::bits_of_kinds;
use goosedawn::model::kinds::{Kind, Kinds, EMPTY, ONE_ROOT};
use goosedawn::model::{Model, Refusal};
use goosedawn::trees::row_height;
use std::collections::HashSet;
use std::ptr;

#[test]
fn valid_contracts_are_admitted() {
    let mut random = Random::new(1);
    for turn in 0..2000 {
        let size = if turn % 10 == 0 { Size::Large } else { Size::Small };
        let contract = valid(&mut random, size);
        assert_eq!(Model.admit(&contract), Answer::Admitted, "{contract:?}");
    }
}

#[test]
fn damage_meets_every_refusal() {
    let mut random = Random::new(2);
    let mut seen = [0; 35];
    for _ in 0..6000 {
        let whole = valid(&mut random, Size::Small);
        if let Answer::Refused { number, .. } = Model.admit(&damaged(&mut random, whole)) {
            seen[number as usize] += 1;
        }
    }
    let mut due = (1..=5).chain([7]).chain(30..=34);
    assert!(due.all(|number| seen[number] > 0), "{seen:?}");
    assert_eq!(seen[6], 0, "6 no longer occurs");
}

#[test]
fn documents_are_documents() {
    let mut random = Random::new(3);
    for size in 0..500 {
        let contract = Contract { symbols: 3, ..valid(&mut random, Size::Small) };
        let numbers = document(&mut random, contract.symbols, size);
        assert_eq!(leading_document(3, &numbers), Ok(&numbers[..]));
    }
}

/// Whether a document is not empty and has nothing behind its root.
fn has_one_root(document: &[u16]) -> bool {
    document[0] != 0 && document[right_children(document)[0]] == 0
}

/// Numbers, and how many of them the model takes for a document.
type Case = fn(&[u16], Result<usize, Refusal>) -> bool;

#[test]
fn numbers_meet_every_case() {
    let cases: [(&str, Case); 16] = [
        ("a document alone", |numbers, taken| taken == Ok(numbers.len())),
        ("no root", |numbers, taken| taken.is_ok() && numbers[0] == 0),
        ("one root", |numbers, taken| taken.is_ok_and(|taken| has_one_root(&numbers[..taken]))),
        ("several roots", |numbers, taken| {
            taken.is_ok_and(|taken| numbers[0] != 0 && !has_one_root(&numbers[..taken]))
        }),
        ("the longest document, of one root", |numbers, taken| taken == Ok(1023) && has_one_root(&numbers[..1023])),
        ("something behind a document", |numbers, taken| taken.is_ok_and(|taken| taken < numbers.len())),
        ("no symbol right behind it", |numbers, taken| taken.is_ok_and(|taken| numbers.get(taken) > Some(&2))),
        ("very much behind it", |numbers, taken| taken.is_ok_and(|taken| taken < 100) && numbers.len() > 1024),
        ("the longest document", |numbers, taken| taken == Ok(1023) && numbers.len() == 1023),
        ("something behind the longest", |numbers, taken| taken == Ok(1023) && numbers.len() > 1023),
        ("a tree cut short", |numbers, taken| taken == Err((12, numbers.len())) && numbers.len() < 1023),
        ("1,023 numbers and no end", |numbers, taken| taken == Err((12, 1023)) && numbers.len() == 1023),
        ("1,024 numbers and no end", |numbers, taken| taken == Err((11, 1024)) && numbers.len() == 1024),
        ("no symbol at place 1,023", |numbers, taken| taken == Err((11, numbers.len())) && numbers[1023] > 2),
        ("no symbol at place 1,022", |numbers, taken| taken == Err((12, 1022)) && numbers.len() > 1023),
        ("no symbol, and very much behind it", |numbers, taken| {
            taken.is_err_and(|(number, place)| number == 12 && place < 100) && numbers.len() > 1024
        }),
    ];
    let mut random = Random::new(4);
    let made: Vec<_> = (0..4000).map(|_| numbers(&mut random, 3)).collect();
    for (name, case) in cases {
        let met = made.iter().filter(|numbers| case(numbers, leading_document(3, numbers).map(<[u16]>::len))).count();
        println!("{name}: {met}");
        assert!(met > 0, "{name}");
    }
}

/// A contract that is not refused with a limit of 64, the answer, and the kinds listed.
struct Checked {
    contract: Contract,
    answer: Answer,
    kinds: Vec<Kind>,
}

impl Checked {
    fn new(contract: Contract) -> Option<Checked> {
        let mut words = [0; 5 * 64];
        let answer = Model.check(&contract, 64, &mut [0; 3 * 64], &mut words);
        let kinds = words.chunks(5).take(answer.kinds()?).map(|kind| kind.try_into().expect("five words")).collect();
        Some(Checked { contract, answer, kinds })
    }

    /// Whether the contract passes, though one of the kinds with these marks would break it with the mark of one root.
    fn passes_by_roots(&self, marks: u64) -> bool {
        let passes = matches!(self.answer, Answer::Pass { .. });
        passes && self.kinds.iter().any(|kind| kind[0] >> 32 == marks >> 32 && would_break(&self.contract, kind))
    }

    /// Whether two kinds differ in these marks alone.
    fn differ_in(&self, marks: u64) -> bool {
        let differ = |a: &Kind, b: &Kind| a[0] ^ b[0] == marks && a[1..] == b[1..];
        self.kinds.iter().any(|a| self.kinds.iter().any(|b| differ(a, b)))
    }

    fn has_bits(&self, bits: u64) -> bool {
        self.kinds.iter().any(|kind| kind[0] & bits == bits)
    }
}

/// Whether a kind has an accepted input state, and procedure 0 gives a state that is not accepted.
fn would_break(contract: &Contract, kind: &Kind) -> bool {
    let has =
        |word: u64, list: &[u16], mark| list.iter().enumerate().any(|(bit, &m)| m == mark && word >> bit & 1 == 1);
    has(kind[0], &contract.input_marks, 1) && has(kind[1], &contract.output_marks, 0)
}

/// Whether a contract that was checked is such a case.
type CheckedCase = fn(&Checked) -> bool;

#[test]
fn contracts_meet_every_case() {
    let cases: [(&str, CheckedCase); 9] = [
        ("a document is shown", |checked| matches!(checked.answer, Answer::Tree { .. })),
        ("passes, though the empty forest would break it", |checked| checked.passes_by_roots(EMPTY)),
        ("passes, though several roots would break it", |checked| checked.passes_by_roots(0)),
        ("passes, though several roots alone would break it", |checked| {
            checked.passes_by_roots(0) && !checked.passes_by_roots(EMPTY)
        }),
        ("32 states in one kind", |checked| checked.has_bits(u64::from(u32::MAX))),
        ("state 31 and one root", |checked| checked.has_bits(1 << 31 | ONE_ROOT)),
        ("kinds that differ in one root alone", |checked| checked.differ_in(ONE_ROOT)),
        ("kinds that differ in being empty alone", |checked| checked.differ_in(EMPTY)),
        ("kinds that differ in both marks alone", |checked| checked.differ_in(ONE_ROOT | EMPTY)),
    ];
    let mut random = Random::new(8);
    let made: Vec<_> = (0..6000).filter_map(|_| Checked::new(contract(&mut random))).collect();
    for (name, case) in cases {
        let met = made.iter().filter(|checked| case(checked)).count();
        println!("{name}: {met}");
        assert!(met >= 10, "{name}");
    }
}

/// The contract without its stay rules.
fn without_stays(contract: &Contract) -> Contract {
    let rules = contract.rules.chunks(3).filter(|rule| usize::from(rule[1]) != contract.stay());
    Contract { rules: rules.flatten().copied().collect(), ..contract.clone() }
}

/// The kind of a document as the rules for its root make it, before its stay rules.
fn before_stays(contract: &Contract, document: &[u16]) -> Kind {
    let (kinds, without) = (Kinds::new(contract), without_stays(contract));
    let without = Kinds::new(&without);
    if document[0] == 0 {
        return without.empty();
    }
    let right = right_children(document)[0];
    let children = [&document[1..right], &document[right..]].map(|child| kinds.parts(&kinds.document(child)));
    without.kind(usize::from(document[0]), &children[0], &children[1])
}

/// How many rounds of the stay rules add a fact at the root of a document.
fn rounds(contract: &Contract, document: &[u16]) -> usize {
    let kinds = Kinds::new(contract);
    let mut listed = vec![before_stays(contract, document)];
    while listed.last() != Some(&kinds.document(document)) {
        listed.push(kinds.stay_round(listed.last().expect("a kind")));
    }
    listed.len() - 1
}

fn is_admitted(contract: &Contract) -> bool {
    Model.admit(contract) == Answer::Admitted
}

/// Whether the contract is refused by 7 at a rule whose node is a call, and this holds of its symbol and the call's child.
fn bad_rule(contract: &Contract, holds: fn(&Contract, usize, usize) -> bool) -> bool {
    let Answer::Refused { number: 7, place } = Model.admit(contract) else { return false };
    let [procedure, symbol, node] = contract.rule(place);
    if procedure >= contract.procedures() || node >= contract.node_count() {
        return false;
    }
    let [tag, _, child, ..] = contract.node_numbers(node);
    tag == 2 && holds(contract, symbol, child)
}

/// Whether all rules of a procedure are stay rules that call it, with at least one.
fn only_calls_itself(contract: &Contract, procedure: usize) -> bool {
    let rules: Vec<_> =
        (0..contract.rule_count()).map(|rule| contract.rule(rule)).filter(|rule| rule[0] == procedure).collect();
    let itself = |node| contract.node_numbers(node)[..3] == [2, procedure, 0];
    !rules.is_empty() && rules.iter().all(|&[_, symbol, node]| symbol == contract.stay() && itself(node))
}

/// Whether some stay rule is a call with an argument that is a call.
fn call_in_a_call(contract: &Contract) -> bool {
    (0..contract.rule_count()).map(|rule| contract.rule(rule)).any(|[_, symbol, node]| {
        let [tag, name, _, first, _] = contract.node_numbers(node);
        symbol == contract.stay() && tag == 2 && contract.count(name) > 0 && contract.node_numbers(first)[0] == 2
    })
}

/// Whether a contract with stay rules, or without, is such a case.
type StayCase = fn(&Contract) -> bool;

#[test]
fn stay_rules_meet_every_case() {
    let cases: [(&str, StayCase); 15] = [
        ("no stay rule", |c| is_admitted(c) && !c.has_stay_rules()),
        ("no stay rule, but a call that stays in a node that no rule uses", |c| {
            is_admitted(c) && !c.has_stay_rules() && node_uses(c).iter().any(|uses| uses.stays)
        }),
        ("stay rules and others", |c| is_admitted(c) && c.has_stay_rules() && !without_stays(c).rules.is_empty()),
        ("stay rules alone", |c| is_admitted(c) && c.has_stay_rules() && without_stays(c).rules.is_empty()),
        ("a node of both sorts of calls that no rule uses", |c| {
            is_admitted(c) && c.has_stay_rules() && node_uses(c).iter().any(|uses| uses.stays && uses.descends)
        }),
        ("an argument that is a call", |c| is_admitted(c) && call_in_a_call(c)),
        ("a procedure that only calls itself", |c| {
            is_admitted(c) && (0..c.procedures()).any(|procedure| only_calls_itself(c, procedure))
        }),
        ("facts of the empty forest by stay rules alone", |c| {
            is_admitted(c) && before_stays(c, &[0])[1..] == [0; 4] && rounds(c, &[0]) > 0
        }),
        ("three rounds or more at the empty forest", |c| is_admitted(c) && rounds(c, &[0]) >= 3),
        ("five rounds or more at a symbol", |c| is_admitted(c) && c.symbols > 1 && rounds(c, &[1, 0, 0]) >= 5),
        ("7, a symbol's rule whose call stays", |c| bad_rule(c, |c, symbol, child| symbol < c.stay() && child == 0)),
        ("7, a symbol's rule that stays in an argument alone", |c| {
            bad_rule(c, |c, symbol, child| symbol < c.stay() && symbol > 0 && child > 0)
        }),
        ("7, a stay rule that descends in an argument alone", |c| {
            bad_rule(c, |c, symbol, child| symbol == c.stay() && child == 0)
        }),
        ("7, a number behind the stay rules'", |c| bad_rule(c, |c, symbol, _| symbol == c.stay() + 1)),
        ("32", |c| matches!(Model.admit(c), Answer::Refused { number: 32, .. })),
    ];
    let mut random = Random::new(12);
    let made: Vec<_> = (0..12_000).map(|_| contract(&mut random)).collect();
    for (name, case) in cases {
        let met = made.iter().filter(|contract| case(contract)).count();
        println!("{name}: {met}");
        assert!(met >= 10, "{name}");
    }
}

/// A contract with stay rules, a document, and what a run answers.
struct Run {
    contract: Contract,
    document: Vec<u16>,
    answer: Answer,
}

impl Run {
    fn new(random: &mut Random) -> Option<Run> {
        let contract = valid(random, Size::Small);
        let size = random.within(0, 8);
        let document = document(random, contract.symbols, size);
        let answer = Model.run(&contract, &document, &mut vec![0; 3 * 4096]);
        contract.has_stay_rules().then_some(Run { contract, document, answer })
    }

    /// What a run answers by other rules for the same document.
    fn by(&self, other: fn(&Contract) -> Contract) -> Answer {
        Model.run(&other(&self.contract), &self.document, &mut vec![0; 3 * 4096])
    }

    fn is_refused(&self, due: u64) -> bool {
        matches!(self.answer, Answer::Refused { number, .. } if number == due)
    }
}

/// The contract without the rules for symbols of the procedures that have a stay rule.
fn stays_first(contract: &Contract) -> Contract {
    let stay = |rule: &[u16]| usize::from(rule[1]) == contract.stay();
    let stays = |rule: &[u16]| contract.rules.chunks(3).any(|other| other[0] == rule[0] && stay(other));
    let rules = contract.rules.chunks(3).filter(|rule| stay(rule) || !stays(rule));
    Contract { rules: rules.flatten().copied().collect(), ..contract.clone() }
}

/// Whether a run with stay rules is such a case.
type RunCase = fn(&Run) -> bool;

#[test]
fn runs_with_stay_rules_meet_every_case() {
    let cases: [(&str, RunCase); 6] = [
        ("an output by a stay rule", |run| {
            matches!(run.answer, Answer::Run { .. }) && run.by(without_stays) != run.answer
        }),
        ("an output by a symbol's rule before a stay rule", |run| {
            matches!(run.answer, Answer::Run { .. }) && run.by(stays_first) != run.answer
        }),
        ("13 in spite of stay rules", |run| run.is_refused(13)),
        ("14", |run| run.is_refused(14)),
        ("15", |run| run.answer == Answer::Refused { number: 15, place: 4096 }),
        ("15, and none without the stay rules", |run| {
            run.is_refused(15) && matches!(run.by(without_stays), Answer::Refused { number: 13, .. })
        }),
    ];
    let mut random = Random::new(13);
    let made: Vec<_> = (0..12_000).filter_map(|_| Run::new(&mut random)).collect();
    for (name, case) in cases {
        let met = made.iter().filter(|run| case(run)).count();
        println!("{name}: {met}");
        assert!(met >= 10, "{name}");
    }
}

/// What is refused of a pair.
fn refused(pair: &Pair) -> Option<Refusal> {
    Model.shorter_refusal(pair.symbols, pair.first(), pair.second())
}

/// How many numbers the documents of a pair have, of which nothing is refused.
fn lengths(pair: &Pair) -> Option<[usize; 2]> {
    let length = |numbers| leading_document(pair.symbols, numbers).expect("a document").len();
    refused(pair).is_none().then(|| [pair.first(), pair.second()].map(length))
}

/// Whether of two documents one starts within the other.
fn overlap(pair: &Pair, [first, second]: [usize; 2]) -> bool {
    let (a, b) = (pair.first()[..first].as_ptr_range(), pair.second()[..second].as_ptr_range());
    a.start != b.start && (a.contains(&b.start) || b.contains(&a.start))
}

/// Two buffers and a symbol count.
type PairCase = fn(&Pair) -> bool;

#[test]
fn pairs_meet_every_case() {
    let cases: [(&str, PairCase); 23] = [
        ("the first is shorter", |pair| lengths(pair).is_some_and(|[a, b]| a < b)),
        ("the second is shorter", |pair| lengths(pair).is_some_and(|[a, b]| b < a)),
        ("as long as each other", |pair| lengths(pair).is_some_and(|[a, b]| a == b) && pair.first() != pair.second()),
        ("the same buffer", |pair| lengths(pair).is_some() && ptr::eq(pair.first(), pair.second())),
        ("one within the other", |pair| lengths(pair).is_some_and(|lengths| overlap(pair, lengths))),
        ("the shorter in the longer buffer", |pair| {
            lengths(pair).is_some_and(|[a, b]| a < b && pair.first().len() > pair.second().len())
        }),
        ("no symbol right behind the shorter", |pair| {
            lengths(pair).is_some_and(|[a, b]| a > b && pair.second().get(b).is_some_and(|&next| next > 15))
        }),
        ("no symbol right behind the longer", |pair| {
            lengths(pair).is_some_and(|[a, b]| a < b && pair.second().get(b).is_some_and(|&next| next > 15))
        }),
        ("the longest first", |pair| lengths(pair).is_some_and(|[a, b]| a == 1023 && b < 1023)),
        ("the longest second", |pair| lengths(pair).is_some_and(|[a, b]| a < 1023 && b == 1023)),
        ("the longest twice", |pair| lengths(pair) == Some([1023, 1023]) && !ptr::eq(pair.first(), pair.second())),
        ("one symbol", |pair| pair.symbols == 1 && lengths(pair).is_some()),
        ("sixteen symbols", |pair| pair.symbols == 16 && lengths(pair).is_some()),
        ("no symbols", |pair| pair.symbols == 0),
        ("seventeen symbols", |pair| pair.symbols == 17),
        ("very many symbols", |pair| pair.symbols == usize::MAX),
        ("11", |pair| refused(pair).is_some_and(|(number, _)| number == 11)),
        ("12", |pair| refused(pair).is_some_and(|(number, _)| number == 12)),
        ("54", |pair| refused(pair).is_some_and(|(number, _)| number == 54)),
        ("55", |pair| refused(pair).is_some_and(|(number, _)| number == 55)),
        ("both refused", |pair| {
            refused(pair).is_some_and(|(number, _)| number == 11 || number == 12)
                && leading_document(pair.symbols, pair.second()).is_err()
        }),
        ("the first empty", |pair| refused(pair) == Some((12, 0)) && pair.first().is_empty()),
        ("the second empty", |pair| refused(pair) == Some((55, 0)) && pair.second().is_empty()),
    ];
    let mut random = Random::new(5);
    let made: Vec<_> = (0..4000).map(|_| pair(&mut random)).collect();
    for (name, case) in cases {
        let met = made.iter().filter(|pair| case(pair)).count();
        println!("{name}: {met}");
        assert!(met > 0, "{name}");
    }
}

/// What the model says of two types.
fn merged(merging: &Merging) -> Result<usize, Refusal> {
    let Merging { first, second, table_room, marks_room } = merging;
    Model.merge(first.output_type(), second.output_type(), &mut vec![7; *table_room], &mut vec![7; *marks_room])
}

/// What the model says of two types with room for whatever they merge to.
fn merged_with_room(merging: &Merging) -> Result<usize, Refusal> {
    merged(&Merging { table_room: 1000, marks_room: 1000, ..merging.clone() })
}

/// What the model says of the second type in the place of the first.
fn second_merged(merging: &Merging) -> Result<usize, Refusal> {
    merged(&Merging { first: merging.second.clone(), ..merging.clone() })
}

/// Whether two types with the lengths of two buffers are such a case.
type MergingCase = fn(&Merging) -> bool;

#[test]
fn mergings_meet_every_case() {
    let cases: [(&str, MergingCase); 33] = [
        ("one symbol", |m| merged(m).is_ok() && m.first.symbols == 1),
        ("sixteen symbols", |m| merged(m) == Ok(4) && m.first.symbols == 16),
        ("buffers just as long", |m| {
            merged(m) == Ok(4) && m.table_room == 1 + (m.first.symbols - 1) * 16 && m.marks_room == 4
        }),
        ("a longer table", |m| {
            merged(m).is_ok_and(|states| m.table_room > 1 + (m.first.symbols - 1) * states * states)
        }),
        ("longer marks", |m| merged(m).is_ok_and(|states| m.marks_room > states)),
        ("the first's symbols", |m| merged(m) == Err((51, 0))),
        ("no symbols", |m| merged(m) == Err((51, 0)) && m.first.symbols == 0),
        ("seventeen symbols", |m| merged(m) == Err((51, 0)) && m.first.symbols == 17),
        ("very many symbols", |m| merged(m) == Err((51, 0)) && m.first.symbols == usize::MAX),
        ("the first's states", |m| merged(m) == Err((51, 1))),
        ("no states", |m| merged(m) == Err((51, 1)) && m.first.states == 0),
        ("five states", |m| merged(m) == Err((51, 1)) && m.first.states == 5),
        ("very many states", |m| merged(m) == Err((51, 1)) && m.first.states == usize::MAX),
        ("the first's table", |m| merged(m) == Err((51, 2))),
        ("the first's marks", |m| merged(m) == Err((51, 3))),
        ("the first's first entry", |m| merged(m) == Err((51, 4))),
        ("the first's last entry", |m| merged(m) == Err((51, 3 + m.first.table.len())) && m.first.table.len() > 1),
        ("the first's first mark", |m| merged(m) == Err((51, 4 + m.first.table.len()))),
        ("the first's last mark", |m| merged(m) == Err((51, 7 + m.first.table.len())) && m.first.states == 4),
        ("the second's symbols", |m| merged(m) == Err((52, 0))),
        ("the second's states", |m| merged(m) == Err((52, 1))),
        ("the second's table", |m| merged(m) == Err((52, 2))),
        ("the second's marks", |m| merged(m) == Err((52, 3))),
        ("the second's last entry", |m| merged(m) == Err((52, 3 + m.second.table.len())) && m.second.table.len() > 1),
        ("the second's first mark", |m| merged(m) == Err((52, 4 + m.second.table.len()))),
        ("several faults in one", |m| {
            matches!(merged(m), Err((51, place)) if place > 3 && m.first.marks.iter().any(|&mark| mark > 1)
                && place < 4 + m.first.table.len())
        }),
        ("faults in both", |m| matches!(merged(m), Err((51, _))) && matches!(second_merged(m), Err((51, _)))),
        ("a fault, and other symbols", |m| {
            matches!(merged(m), Err((51 | 52, 4..))) && m.first.symbols != m.second.symbols
        }),
        ("other symbols", |m| merged(m) == Err((50, m.second.symbols))),
        ("other symbols, and too many states", |m| {
            matches!(merged(m), Err((50, _))) && m.first.states * m.second.states > 4
        }),
        ("too short a table", |m| {
            merged(m) == Err((56, 0)) && merged_with_room(m).is_ok_and(|states| m.marks_room >= states)
        }),
        ("too short marks", |m| merged(m) == Err((56, 1))),
        ("both too short", |m| {
            merged(m) == Err((56, 0)) && merged_with_room(m).is_ok_and(|states| m.marks_room < states)
        }),
    ];
    let mut random = Random::new(6);
    let made: Vec<_> = (0..8000).map(|_| merging(&mut random)).collect();
    for (name, case) in cases {
        let met = made.iter().filter(|merging| case(merging)).count();
        println!("{name}: {met}");
        assert!(met > 0, "{name}");
    }
    for first in 1..=4 {
        for second in 1..=4 {
            let pairs = first * second;
            let due = if pairs > 4 { Err((53, pairs)) } else { Ok(pairs) };
            let of_states = |m: &Merging| (m.first.states, m.second.states) == (first, second) && merged(m) == due;
            let met = made.iter().filter(|merging| of_states(merging)).count();
            println!("{first} and {second} states: {met}");
            assert!(met > 0, "{first} and {second} states");
        }
    }
}

/// A list of kinds for a contract, and what the model says of it.
struct List {
    contract: Contract,
    words: Vec<u64>,
    examined: Result<(), Refusal>,
}

impl List {
    fn new(random: &mut Random) -> List {
        let contract = contract(random);
        let words = list(random, &contract);
        let examined = Model.examine(&contract, &words);
        List { contract, words, examined }
    }

    fn accepted(&self) -> bool {
        self.examined.is_ok()
    }

    fn is_refused(&self, due: u64) -> bool {
        self.examined.is_err_and(|(number, _)| number == due)
    }

    /// The kinds of the list without the bits that stand for nothing.
    fn kinds(&self) -> Vec<Kind> {
        let bits = bits_of_kinds(&self.contract);
        self.words.chunks_exact(5).map(|kind| std::array::from_fn(|word| kind[word] & bits[word])).collect()
    }

    fn has_idle_bits(&self) -> bool {
        self.kinds().concat() != self.words
    }

    fn has_repeats(&self) -> bool {
        let kinds = self.kinds();
        kinds.iter().collect::<HashSet<_>>().len() < kinds.len()
    }

    fn begins_with_empty(&self) -> bool {
        self.kinds().first() == Some(&Kinds::new(&self.contract).empty())
    }

    /// The number of the first kind that breaks the contract.
    fn breaking(&self) -> Option<usize> {
        let kinds = Kinds::new(&self.contract);
        self.kinds().iter().position(|kind| kinds.breaks(kind))
    }

    /// Symbol, left and right of refusal 72.
    fn missing(&self) -> Option<[usize; 3]> {
        match self.examined {
            Err((72, place)) => Some(missing(place)),
            _ => None,
        }
    }
}

/// Whether a contract with a list is such a case.
type ListCase = fn(&List) -> bool;

#[test]
fn lists_meet_every_case() {
    let cases: [(&str, ListCase); 30] = [
        ("accepted, of many kinds", |l| l.accepted() && l.words.len() > 5 * 20),
        ("accepted, in another order", |l| l.accepted() && !l.begins_with_empty()),
        ("accepted, with repeats", |l| l.accepted() && l.has_repeats() && l.contract.symbols > 1),
        ("accepted, with idle bits", |l| l.accepted() && l.has_idle_bits() && l.contract.symbols > 1),
        ("accepted, of one symbol", |l| l.accepted() && l.contract.symbols == 1),
        ("accepted, of the most kinds", |l| l.accepted() && l.words.len() == 5 * 4096),
        ("accepted, with 32 states", |l| l.accepted() && l.contract.input_states == 32),
        ("accepted, of over 128 facts", |l| l.accepted() && bits_of_kinds(&l.contract)[3] != 0),
        ("accepted, with both marks in one kind", |l| {
            l.accepted() && l.kinds().iter().any(|kind| kind[0] & ONE_ROOT != 0 && kind[0] & EMPTY != 0)
        }),
        ("no contract", |l| l.examined.is_err_and(|(number, _)| number < 70)),
        ("no contract, and a wrong length", |l| {
            l.examined.is_err_and(|(number, _)| number < 70) && l.words.len() % 5 != 0
        }),
        ("no multiple of five", |l| l.is_refused(70) && l.words.len() < 5 * 4096),
        ("one kind too many", |l| l.examined == Err((70, 5 * 4097))),
        ("too many words, and no multiple", |l| l.is_refused(70) && l.words.len() > 20_480 && l.words.len() % 5 != 0),
        ("the empty list", |l| l.examined == Err((71, 0)) && l.words.is_empty()),
        ("without the empty kind", |l| l.examined == Err((71, 0)) && l.words.len() > 5 * 8),
        ("without the empty kind, with a breaking one", |l| l.is_refused(71) && l.breaking().is_some()),
        ("not closed at once", |l| l.missing() == Some([1, 0, 0])),
        ("closed under symbol 1, not under a later one", |l| l.missing().is_some_and(|[symbol, _, _]| symbol > 1)),
        ("not closed under a later left kind", |l| l.missing().is_some_and(|[_, left, _]| left > 0)),
        ("not closed over the last left kind alone", |l| {
            l.missing().is_some_and(|[_, left, _]| left > 0 && left + 1 == l.words.len() / 5)
        }),
        ("not closed over a later right kind", |l| l.missing().is_some_and(|[_, _, right]| right > 0)),
        ("not closed over the last right kind alone", |l| {
            l.missing().is_some_and(|[_, _, right]| right > 0 && right + 1 == l.words.len() / 5)
        }),
        ("not closed, with idle bits", |l| l.is_refused(72) && l.has_idle_bits()),
        ("not closed, with repeats", |l| l.is_refused(72) && l.has_repeats()),
        ("not closed, with a breaking kind", |l| l.is_refused(72) && l.breaking().is_some()),
        ("not closed, of the most kinds", |l| l.is_refused(72) && l.words.len() == 5 * 4096),
        ("a breaking kind", |l| l.is_refused(73) && l.contract.symbols > 1),
        ("a breaking kind, the first", |l| l.examined == Err((73, 0))),
        ("a breaking kind, the last", |l| l.is_refused(73) && l.breaking() == Some(l.words.len() / 5 - 1)),
    ];
    let mut random = Random::new(9);
    let made: Vec<_> = (0..8000).map(|_| List::new(&mut random)).collect();
    for (name, case) in cases {
        let met = made.iter().filter(|list| case(list)).count();
        println!("{name}: {met}");
        assert!(met > 0, "{name}");
    }
}

#[test]
fn the_same_seed_gives_the_same_questions() {
    let (mut a, mut b) = (Random::new(7), Random::new(7));
    for _ in 0..100 {
        let made = contract(&mut a);
        assert_eq!(made, contract(&mut b));
        assert_eq!(list(&mut a, &made), list(&mut b, &made));
        assert_eq!(pair(&mut a), pair(&mut b));
        assert_eq!(merging(&mut a), merging(&mut b));
    }
}

#[test]
fn a_model_agrees_with_itself() {
    let seen = compare(&Model, &Model, 11, 500).expect("no difference");
    assert!(seen.refused > 300 && seen.answered > 300, "{seen:?}");
}

/// The model but for one thing.
enum Wrong {
    /// The buffers of a check stay as they were.
    Untouched,
    /// A tree that has not one root is judged 2 where its states and facts would break the contract.
    AnyRoots,
    /// The kinds that a check lists are without marks.
    Unmarked,
    /// A stop tells the height of the last row's tree.
    LastRow,
    /// The shorter of two documents is a copy of it.
    Copied,
    /// What follows merged marks in their buffer is 0.
    Filled,
    /// A merging that is refused writes the first mark.
    Written,
    /// A list is accepted only if it begins with the empty forest's kind.
    EmptyFirst,
    /// A list is accepted only if it has no bits that stand for nothing.
    AnyBits,
    /// A breaking kind is told before a list that is not closed.
    BreakingFirst,
    /// The stay rules are gone through once at a document's root.
    OneRound,
    /// A run takes a stay rule before one for the symbol.
    StaysFirst,
    /// With stay rules too a run may make 65,536 calls.
    ManyCalls,
}

impl Wrong {
    /// What this engine says of a list of which the model says something else; the contract is admitted.
    fn examined(&self, list: &List) -> Option<Refusal> {
        match self {
            Wrong::EmptyFirst if list.accepted() && !list.begins_with_empty() => Some((71, 0)),
            Wrong::AnyBits if list.accepted() && list.has_idle_bits() => Some((71, 0)),
            Wrong::BreakingFirst if list.is_refused(72) => Some((73, list.breaking()?)),
            _ => None,
        }
    }
}

/// The height of the tree of the last row that a check lists before it stops, read off a check with the largest limit.
fn last_height(contract: &Contract, limit: usize) -> usize {
    let mut rows = vec![0; 3 * 512];
    Model.check(contract, 512, &mut rows, &mut vec![0; 5 * 512]);
    let rows: Vec<[usize; 3]> = (0..limit).map(|row| tuple(&rows, row)).collect();
    row_height(&rows, limit - 1)
}

impl Engine for Wrong {
    fn admit(&self, contract: &Contract) -> Answer {
        Model.admit(contract)
    }
    fn judge(&self, contract: &Contract, numbers: &[u16], kind: &mut [u64]) -> Answer {
        let answer = Model.judge(contract, numbers, kind);
        match (self, answer) {
            (Wrong::AnyRoots, Answer::Judged { result: 0, taken })
                if would_break(contract, (&*kind).try_into().expect("five words")) =>
            {
                Answer::Judged { result: 2, taken }
            }
            (Wrong::OneRound, Answer::Judged { taken, .. }) => {
                let kinds = Kinds::new(contract);
                let round = kinds.stay_round(&before_stays(contract, &numbers[..taken]));
                kind.copy_from_slice(&round);
                let result = u64::from(kinds.takes(&round)) + u64::from(kinds.breaks(&round));
                Answer::Judged { result, taken }
            }
            _ => answer,
        }
    }
    fn check(&self, contract: &Contract, limit: usize, rows: &mut [u16], words: &mut [u64]) -> Answer {
        match self {
            Wrong::Untouched => Model.check(contract, limit, &mut rows.to_vec(), &mut words.to_vec()),
            Wrong::Unmarked => {
                let answer = Model.check(contract, limit, rows, words);
                if !matches!(answer, Answer::Refused { .. }) {
                    words.iter_mut().step_by(5).for_each(|word| *word &= u64::from(u32::MAX));
                }
                answer
            }
            Wrong::LastRow => match Model.check(contract, limit, rows, words) {
                Answer::Stopped { limit, .. } => Answer::Stopped { limit, height: last_height(contract, limit) },
                answer => answer,
            },
            _ => Model.check(contract, limit, rows, words),
        }
    }
    fn run(&self, contract: &Contract, numbers: &[u16], rows: &mut [u16]) -> Answer {
        match self {
            Wrong::StaysFirst if is_admitted(contract) => Model.run(&stays_first(contract), numbers, rows),
            Wrong::ManyCalls => match Model.run(contract, numbers, rows) {
                Answer::Refused { number: 15, .. } => Answer::Refused { number: 15, place: 65_536 },
                answer => answer,
            },
            _ => Model.run(contract, numbers, rows),
        }
    }
    fn write_out(&self, rows: &[u16], row: usize, buffer: &mut [u16]) -> Answer {
        Model.write_out(rows, row, buffer)
    }
    fn shorter<'a>(&self, symbols: usize, first: &'a [u16], second: &'a [u16]) -> &'a [u16] {
        let shorter = Model.shorter(symbols, first, second);
        match self {
            Wrong::Copied => shorter.to_vec().leak(),
            _ => shorter,
        }
    }
    fn shorter_refusal(&self, symbols: usize, first: &[u16], second: &[u16]) -> Option<Refusal> {
        Model.shorter_refusal(symbols, first, second)
    }
    fn merge(
        &self,
        first: OutputType<'_>,
        second: OutputType<'_>,
        table: &mut [u16],
        marks: &mut [u16],
    ) -> Result<usize, Refusal> {
        let merged = Model.merge(first, second, table, marks);
        match (self, merged) {
            (Wrong::Filled, Ok(states)) => marks[states..].fill(0),
            (Wrong::Written, Err(_)) => marks.iter_mut().take(1).for_each(|mark| *mark = 0),
            _ => {}
        }
        merged
    }
    fn examine(&self, contract: &Contract, words: &[u64]) -> Result<(), Refusal> {
        let examined = Model.examine(contract, words);
        let list = List { contract: contract.clone(), words: words.to_vec(), examined };
        self.examined(&list).map_or(examined, Err)
    }
}

#[test]
fn a_wrong_engine_is_noticed() {
    let wrong_engines = [
        (Wrong::Untouched, "check "),
        (Wrong::AnyRoots, "judge "),
        (Wrong::Unmarked, "check "),
        (Wrong::LastRow, "check "),
        (Wrong::Copied, "shorter "),
        (Wrong::Filled, "merge "),
        (Wrong::Written, "merge "),
        (Wrong::EmptyFirst, "examine "),
        (Wrong::AnyBits, "examine "),
        (Wrong::BreakingFirst, "examine "),
        (Wrong::OneRound, "judge "),
        (Wrong::StaysFirst, "run "),
        (Wrong::ManyCalls, "run "),
    ];
    for (wrong, question) in wrong_engines {
        let difference = compare(&Model, &wrong, 11, 500).expect_err("a difference");
        assert!(difference.question.starts_with(question), "{difference:?}");
    }
}
