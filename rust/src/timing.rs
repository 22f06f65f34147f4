//! How long questions take, by two engines in one run: one after the other, or in turns, which tells small differences.

use crate::comparison::agree;
use crate::contract::Contract;
use crate::engine::{verdict, Answer, Engine};
use crate::script::checks;
use std::ffi::c_int;
use std::fmt::{self, Debug, Display, Formatter};
use std::time::{Duration, Instant};

/// What both engines answer, the least time of each in microseconds, and the ratio of left to right.
#[derive(Clone, Debug)]
pub struct Times {
    pub answer: String,
    /// What the right one answers where it goes by other rules.
    pub other: Option<String>,
    pub left: f64,
    pub right: f64,
    pub ratio: f64,
}

/// The columns of a table, under their [`heads`].
impl Display for Times {
    fn fmt(&self, f: &mut Formatter<'_>) -> fmt::Result {
        let Times { answer, other, left, right, ratio } = self;
        write!(f, "{answer:<16} {left:>12.2} {right:>12.2} {ratio:>7.3}")?;
        match other {
            Some(other) => write!(f, "  (the other: {other})"),
            None => Ok(()),
        }
    }
}

/// The heads of the columns, for engines of these names.
pub fn heads([left, right]: [&str; 2]) -> String {
    format!("{:<16} {:>12} {:>12} {:>7}", "answer", format!("{left} us"), format!("{right} us"), "ratio")
}

/// Prints a table of the checks of a script.
pub fn print_checks(script: &[u8], names: [&str; 2], time: impl Fn(&Contract, usize) -> Times) {
    println!("{:<16} {}", "contract", heads(names));
    for (label, contract, limit) in checks(script) {
        println!("{label:<16} {}", time(&contract, usize::from(limit)));
    }
}

/// Each engine has this much time at least.
const SPENT: Duration = Duration::from_millis(300);

/// How often an engine is asked at least that is timed by itself.
const LEAST_QUESTIONS: usize = 3;

/// The answer to a question, and its least time in microseconds.
fn time<A>(mut ask: impl FnMut() -> A) -> (A, f64) {
    let began = Instant::now();
    let mut timed = || {
        let start = Instant::now();
        (ask(), start.elapsed())
    };
    let (mut answer, mut least) = timed();
    let mut questions = 1;
    while questions < LEAST_QUESTIONS || began.elapsed() < SPENT {
        let (again, elapsed) = timed();
        (answer, least) = (again, least.min(elapsed));
        questions += 1;
    }
    (answer, least.as_secs_f64() * 1e6)
}

/// Times a question about a contract by one engine and then by the other; gives the answer of both.
fn one_after_the_other<A: PartialEq + Debug>(
    contract: &Contract,
    left: impl FnMut() -> A,
    right: impl FnMut() -> A,
    words_of: impl Fn(A) -> String,
) -> Times {
    let (answer, left) = time(left);
    let (expected, right) = time(right);
    assert_eq!(answer, expected, "{contract:?}");
    Times { answer: words_of(answer), other: None, left, right, ratio: left / right }
}

/// Times a check by one engine and then by the other.
pub fn time_checks(left: &impl Engine, right: &impl Engine, contract: &Contract, limit: usize) -> Times {
    let (mut rows, mut words) = (vec![0; 3 * limit], vec![0; 5 * limit]);
    let (mut other_rows, mut other_words) = (rows.clone(), words.clone());
    one_after_the_other(
        contract,
        || left.check(contract, limit, &mut rows, &mut words),
        || right.check(contract, limit, &mut other_rows, &mut other_words),
        |answer| answer.to_string(),
    )
}

/// Times the examining of a list of kinds by one engine and then by the other.
pub fn time_examining(left: &impl Engine, right: &impl Engine, contract: &Contract, words: &[u64]) -> Times {
    one_after_the_other(contract, || left.examine(contract, words), || right.examine(contract, words), verdict)
}

/// A turn takes about this long: reading the clock is a small part of it.
const TURN: Duration = Duration::from_micros(50);

/// How many rounds there are at least.
const LEAST_ROUNDS: usize = 101;

/// Seconds and nanoseconds, as the clock gives them.
#[repr(C)]
#[derive(Default)]
struct ClockTime {
    seconds: i64,
    nanoseconds: i64,
}

extern "C" {
    /// Of the C library, which the standard library links.
    fn clock_gettime(clock: c_int, time: *mut ClockTime) -> c_int;
}

/// The clock of the calling thread's processor time, on Linux.
const PROCESSOR_CLOCK: c_int = 3;

/// The processor time of this thread, which stands still while the processor does something else.
fn processor_time() -> Duration {
    let mut time = ClockTime::default();
    // The clock writes one time, to memory that is live.
    let failed = unsafe { clock_gettime(PROCESSOR_CLOCK, &mut time) };
    assert_eq!(failed, 0, "no clock of processor time");
    Duration::new(time.seconds as u64, time.nanoseconds as u32)
}

/// Asks so many times, and gives the time of one in microseconds.
fn turn<B>(questions: u32, buffers: &mut B, ask: impl Fn(&mut B) -> Answer) -> f64 {
    let start = processor_time();
    for _ in 0..questions {
        ask(buffers);
    }
    (processor_time() - start).as_secs_f64() * 1e6 / f64::from(questions)
}

fn least(times: impl Iterator<Item = f64>) -> f64 {
    times.fold(f64::INFINITY, f64::min)
}

fn middle(mut ratios: Vec<f64>) -> f64 {
    ratios.sort_by(f64::total_cmp);
    ratios[ratios.len() / 2]
}

/// Sees that two engines give the same answer and leave the same buffers, and times them in turns.
pub fn in_turns<B: Clone + PartialEq + Debug>(
    question: impl Fn() -> String,
    buffers: B,
    left: impl Fn(&mut B) -> Answer,
    right: impl Fn(&mut B) -> Answer,
) -> Times {
    let answer = agree(buffers.clone(), question, &left, &right).unwrap_or_else(|difference| panic!("{difference:?}"));
    turns([answer, answer], buffers, left, right)
}

/// Times two engines in turns that may answer by different rules.
pub fn in_turns_by_other_rules<B: Clone>(
    buffers: B,
    left: impl Fn(&mut B) -> Answer,
    right: impl Fn(&mut B) -> Answer,
) -> Times {
    let answers = [left(&mut buffers.clone()), right(&mut buffers.clone())];
    turns(answers, buffers, left, right)
}

/// In a round each engine has a turn, on the same memory, and the order changes from round to round; the ratio is the middle
/// one of the rounds' ratios, since what changes the machine's speed for a while meets both sides of a round.
fn turns<B>(
    [answer, right_answer]: [Answer; 2],
    mut buffers: B,
    left: impl Fn(&mut B) -> Answer,
    right: impl Fn(&mut B) -> Answer,
) -> Times {
    let mut questions = 1;
    let mut rounds = Vec::new();
    let began = processor_time();
    while rounds.len() < LEAST_ROUNDS || processor_time() - began < 2 * SPENT {
        let (left, right) = if rounds.len() % 2 == 0 {
            let right = turn(questions, &mut buffers, &right);
            (turn(questions, &mut buffers, &left), right)
        } else {
            (turn(questions, &mut buffers, &left), turn(questions, &mut buffers, &right))
        };
        rounds.push((left, right));
        if left.min(right) * f64::from(2 * questions) < TURN.as_secs_f64() * 1e6 {
            questions *= 2;
        }
    }
    Times {
        answer: answer.to_string(),
        other: (right_answer != answer).then(|| right_answer.to_string()),
        left: least(rounds.iter().map(|round| round.0)),
        right: least(rounds.iter().map(|round| round.1)),
        ratio: middle(rounds.iter().map(|round| round.0 / round.1).collect()),
    }
}
