//! What a stop at the limit tells: the greatest height such that every tree of that height or less has its kind among the
//! first L, by the model and by the proved library, where trees are written down and judged one by one; and, by the library,
//! heights under growing limits.

use goosedawn::contract::{tuple, Contract};
use goosedawn::counters::Counters;
use goosedawn::engine::{Answer, Engine};
use goosedawn::generator::{valid, Random, Size};
use goosedawn::library::Library;
use goosedawn::model::Model;
use goosedawn::trees::{all_trees, row_height};
use std::collections::{BTreeMap, HashSet};

/// The most kinds that a check lists.
const LIMIT: usize = 512;

fn checked(engine: &impl Engine, contract: &Contract, limit: usize) -> (Answer, Vec<u16>, Vec<u64>) {
    let (mut rows, mut words) = (vec![7; 3 * limit], vec![7; 5 * limit]);
    let answer = engine.check(contract, limit, &mut rows, &mut words);
    (answer, rows, words)
}

/// The height of a check that must stop at its limit; its buffers are all 0.
fn stopped(engine: &impl Engine, contract: &Contract, limit: usize) -> usize {
    let (answer, rows, words) = checked(engine, contract, limit);
    assert!(rows.iter().all(|number| *number == 0) && words.iter().all(|word| *word == 0), "{limit} {contract:?}");
    match answer {
        Answer::Stopped { limit: told, height } if told == limit => height,
        answer => panic!("{answer:?} {limit} {contract:?}"),
    }
}

/// A contract's kinds and the rows of their trees, all of them or up to the first that breaks it.
struct Listed {
    rows: Vec<[usize; 3]>,
    kinds: Vec<[u64; 5]>,
}

fn listed(engine: &impl Engine, contract: &Contract) -> Option<Listed> {
    let (answer, rows, words) = checked(engine, contract, LIMIT);
    let count = answer.kinds()?;
    Some(Listed {
        rows: (0..count).map(|row| tuple(&rows, row)).collect(),
        kinds: words.chunks(5).take(count).map(|kind| kind.try_into().expect("five words")).collect(),
    })
}

/// Whether every tree up to a height has its kind among the first; one that has must not be judged 2.
fn covers(engine: &impl Engine, contract: &Contract, first: &HashSet<[u64; 5]>, height: usize) -> bool {
    all_trees(contract.symbols, height).iter().all(|tree| {
        let mut kind = [7; 5];
        let judged = engine.judge(contract, tree, &mut kind);
        let among = first.contains(&kind);
        assert!(!among || !matches!(judged, Answer::Judged { result: 2, .. }), "{tree:?} {contract:?}");
        among
    })
}

/// Every limit at which a check stops, where the trees one higher than its height can be written down.
fn tells_the_greatest_height(engine: &impl Engine) {
    let mut random = Random::new(21);
    // by height: how often the limit just holds a round, and how often it ends within one
    let mut met = BTreeMap::new();
    for _ in 0..3000 {
        let contract = valid(&mut random, Size::Small);
        if contract.symbols > 3 {
            continue;
        }
        let Some(Listed { rows, kinds }) = listed(engine, &contract) else { continue };
        for limit in 1..kinds.len() {
            let height = stopped(engine, &contract, limit);
            if height > 5 - contract.symbols {
                break;
            }
            let first = kinds[..limit].iter().copied().collect();
            assert!(covers(engine, &contract, &first, height), "{limit} {height} {contract:?}");
            assert!(!covers(engine, &contract, &first, height + 1), "{limit} {height} {contract:?}");
            let within = row_height(&rows, limit - 1) == row_height(&rows, limit);
            met.entry(height).or_insert([0; 2])[usize::from(within)] += 1;
        }
    }
    println!("by height, limits that just hold a round and that end within one: {met:?}");
    assert!((1..=2).all(|height| met[&height].iter().all(|met| *met > 30)), "{met:?}");
}

#[test]
fn the_greatest_height() {
    tells_the_greatest_height(&Model);
    tells_the_greatest_height(&Library::default());
}

/// "a larger limit, if it stops too, never gives a smaller h"; it is one less than the height of the first tree left out.
#[test]
fn larger_limits() {
    let counters = Counters { symbols: 2, rights: &[7], lefts: &[7], totals: &[7], nodes: 4, idle: 1, common: 9 };
    let mut random = Random::new(22);
    let mut contracts: Vec<_> = (0..400).map(|_| valid(&mut random, Size::Small)).collect();
    contracts.push(counters.contract());
    let mut highest = 0;
    for contract in contracts {
        let Some(Listed { rows, kinds }) = listed(&Library::default(), &contract) else { continue };
        let mut last = 0;
        for limit in 1..kinds.len() {
            let height = stopped(&Library::default(), &contract, limit);
            assert_eq!(height + 1, row_height(&rows, limit), "{limit} {contract:?}");
            assert!(last <= height, "{limit} {contract:?}");
            last = height;
        }
        highest = highest.max(last);
    }
    println!("the greatest height of a stop: {highest}");
    assert!(highest > 5);
}
