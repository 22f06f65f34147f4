//! The proved library answers every script of examples/library, and of the folder that GOOSEDAWN_VECTORS names, as its
//! answers say, and agrees with the model on random questions, valid and damaged, closing buffers included. Documents laid
//! end to end are judged and run one after another as each is alone.

use goosedawn::comparison::compare;
use goosedawn::contract::{Contract, OutputType};
use goosedawn::engine::{Answer, Engine, Refusal};
use goosedawn::generator::{document, valid, Random, Size};
use goosedawn::library::Library;
use goosedawn::model::Model;
use goosedawn::script::play;
use std::cell::Cell;
use std::fmt::Debug;
use std::path::Path;

const FOLDER: &str = "GOOSEDAWN_VECTORS";

/// How many seeds of random questions are tried, 10 where this names no number.
const SEEDS: &str = "GOOSEDAWN_SEEDS";

/// The library, with how often each operation is asked for.
#[derive(Default)]
struct Counted {
    library: Library,
    admissions: Cell<usize>,
    judgings: Cell<usize>,
    checks: Cell<usize>,
    runs: Cell<usize>,
    writings: Cell<usize>,
    pairs: Cell<usize>,
    mergings: Cell<usize>,
    lists: Cell<usize>,
}

fn count(cell: &Cell<usize>) {
    cell.set(cell.get() + 1);
}

impl Engine for Counted {
    fn admit(&self, contract: &Contract) -> Answer {
        count(&self.admissions);
        self.library.admit(contract)
    }
    fn judge(&self, contract: &Contract, numbers: &[u16], kind: &mut [u64]) -> Answer {
        count(&self.judgings);
        self.library.judge(contract, numbers, kind)
    }
    fn check(&self, contract: &Contract, limit: usize, rows: &mut [u16], words: &mut [u64]) -> Answer {
        count(&self.checks);
        self.library.check(contract, limit, rows, words)
    }
    fn run(&self, contract: &Contract, numbers: &[u16], rows: &mut [u16]) -> Answer {
        count(&self.runs);
        self.library.run(contract, numbers, rows)
    }
    fn write_out(&self, rows: &[u16], row: usize, buffer: &mut [u16]) -> Answer {
        count(&self.writings);
        self.library.write_out(rows, row, buffer)
    }
    fn shorter<'a>(&self, symbols: usize, first: &'a [u16], second: &'a [u16]) -> &'a [u16] {
        self.library.shorter(symbols, first, second)
    }
    fn shorter_refusal(&self, symbols: usize, first: &[u16], second: &[u16]) -> Option<Refusal> {
        count(&self.pairs);
        self.library.shorter_refusal(symbols, first, second)
    }
    fn merge(
        &self,
        first: OutputType<'_>,
        second: OutputType<'_>,
        table: &mut [u16],
        marks: &mut [u16],
    ) -> Result<usize, Refusal> {
        count(&self.mergings);
        self.library.merge(first, second, table, marks)
    }
    fn examine(&self, contract: &Contract, words: &[u64]) -> Result<(), Refusal> {
        count(&self.lists);
        self.library.examine(contract, words)
    }
}

/// Plays a script; says how many lines agree and how many answers of each operation they hold. True if all agree.
fn agrees(script: &Path, answers: &Path) -> bool {
    let engine = Counted::default();
    let said = play(&engine, &std::fs::read(script).expect("the script")).said;
    let right = std::fs::read_to_string(answers).expect("the answers");
    let lines = right.lines().count();
    let same = said.lines().zip(right.lines()).filter(|(said, right)| said == right).count();
    println!(
        "{}: {same} of {lines} lines agree; admit {}, judge {}, check {}, run {}, write {}, shorter {}, merge {}, \
        examine {}",
        script.file_name().expect("a name").to_string_lossy(),
        engine.admissions.get(),
        engine.judgings.get(),
        engine.checks.get(),
        engine.runs.get(),
        engine.writings.get(),
        engine.pairs.get(),
        engine.mergings.get(),
        engine.lists.get(),
    );
    if let Some((said, right)) = said.lines().zip(right.lines()).find(|(said, right)| said != right) {
        println!("  {said} instead of {right}");
    }
    same == lines && said.lines().count() == lines
}

/// Plays the scripts of a folder that have answers; there is one at least.
fn all_agree(folder: &Path) {
    let mut scripts: Vec<_> =
        std::fs::read_dir(folder).expect("the folder").map(|entry| entry.expect("one").path()).collect();
    scripts.retain(|script| script.extension().is_some_and(|end| end == "script"));
    scripts.retain(|script| script.with_extension("answers").exists());
    scripts.sort();
    let wrong = scripts.iter().filter(|script| !agrees(script, &script.with_extension("answers"))).count();
    assert!(!scripts.is_empty(), "no script in the folder");
    assert_eq!(wrong, 0, "scripts with a wrong answer");
}

#[test]
fn vectors() {
    match std::env::var_os(FOLDER) {
        Some(folder) => all_agree(Path::new(&folder)),
        None => println!("skipped: {FOLDER} names no folder"),
    }
}

/// The examples that have statements of these scripts alone.
#[test]
fn examples_for_the_library() {
    all_agree(&Path::new(env!("CARGO_MANIFEST_DIR")).join("../examples/library"));
}

#[test]
fn worked_example() {
    let script = include_bytes!("../../examples/worked.script");
    assert_eq!(play(&Library::default(), script).said, include_str!("../../examples/worked.answers"));
}

#[test]
fn every_answer() {
    let script = include_bytes!("../../examples/answers.script");
    assert_eq!(play(&Library::default(), script).said, include_str!("../../examples/answers.answers"));
}

#[test]
fn stay_rules() {
    let script = include_bytes!("../../examples/stay-rules.script");
    assert_eq!(play(&Library::default(), script).said, include_str!("../../examples/stay-rules.answers"));
}

#[test]
fn sizes_and_row_numbers_of_every_width() {
    let library = Library::default();
    for size in [17, 65_536, 1 << 32, (1 << 32) + 1, usize::MAX] {
        let contract = |symbols, input_states, output_states| Contract {
            symbols,
            input_states,
            output_states,
            counts: vec![0],
            ..Contract::default()
        };
        assert_eq!(library.admit(&contract(size, 1, 1)), Answer::Refused { number: 1, place: 0 });
        assert_eq!(library.admit(&contract(1, size << 1 | size, 1)), Answer::Refused { number: 1, place: 1 });
        assert_eq!(library.admit(&contract(1, 1, size)), Answer::Refused { number: 1, place: 2 });
        assert_eq!(library.write_out(&[0, 0, 0], size, &mut [7]), Answer::Refused { number: 18, place: size });
    }
}

#[test]
fn random_questions() {
    let seeds = std::env::var(SEEDS).ok().and_then(|seeds| seeds.parse().ok()).unwrap_or(10);
    for seed in 1..=seeds {
        match compare(&Model, &Library::default(), seed, 1000) {
            Ok(seen) => {
                println!("seed {seed}: {} refused and {} answered alike", seen.refused, seen.answered);
                assert!(seen.refused > 500 && seen.answered > 500, "{seen:?}");
            }
            Err(difference) => panic!("{difference:?}"),
        }
    }
}

/// Asks about documents laid end to end, each from where the last one ended, until one is refused. Sees that each is
/// answered as it is alone, closing buffer included, and tells how many were not refused.
fn answered_in_turn<B: PartialEq + Debug>(documents: &[Vec<u16>], ask: impl Fn(&[u16]) -> (Answer, B)) -> usize {
    let laid = documents.concat();
    let mut place = 0;
    for (answered, document) in documents.iter().enumerate() {
        let reply = ask(&laid[place..]);
        assert_eq!(reply, ask(document), "{document:?} at place {place} of {laid:?}");
        match reply.0.taken() {
            Some(taken) => place += taken,
            None => return answered,
        }
    }
    assert_eq!(place, laid.len());
    documents.len()
}

#[test]
fn documents_one_behind_another() {
    let library = Library::default();
    let mut random = Random::new(1);
    let mut runs = 0;
    for _ in 0..2000 {
        let contract = valid(&mut random, Size::Small);
        let sizes: Vec<_> = (0..random.within(2, 6)).map(|_| random.within(0, 12)).collect();
        let documents: Vec<_> = sizes.iter().map(|&size| document(&mut random, contract.symbols, size)).collect();
        let judged = answered_in_turn(&documents, |numbers| {
            let mut kind = [7; 5];
            (library.judge(&contract, numbers, &mut kind), kind)
        });
        assert_eq!(judged, documents.len());
        runs += answered_in_turn(&documents, |numbers| {
            let mut rows = [7; 300];
            (library.run(&contract, numbers, &mut rows), rows)
        });
    }
    println!("{runs} runs");
    assert!(runs > 500, "{runs}");
}
