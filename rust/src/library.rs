//! The proved library as an engine: safe calls of its C functions.

use crate::contract::{Contract, OutputType};
use crate::engine::{Answer, Engine, Refusal};
#[cfg(feature = "compare")]
use std::mem::MaybeUninit;
use std::slice;
use std::thread;

/// What the deepest run of a contract without stay rules needs, and some room: running nests as deep as the document and the
/// expressions are.
pub const RUN_STACK: usize = 32 << 20;

/// The same for a contract with a stay rule: its calls may stay where they are, 4,096 of them within each other.
pub const STAY_RUN_STACK: usize = 128 << 20;

/// What the deepest run of a contract needs, and some room.
pub fn run_stack(contract: &Contract) -> usize {
    if contract.has_stay_rules() {
        STAY_RUN_STACK
    } else {
        RUN_STACK
    }
}

/// Which answer it is, and its values.
#[repr(C)]
#[derive(Clone, Copy, Debug, PartialEq, Eq)]
struct Reply {
    answer: usize,
    first: usize,
    second: usize,
    third: usize,
}

impl From<Reply> for Answer {
    fn from(reply: Reply) -> Answer {
        match reply.answer {
            0 if reply.first == 10 => Answer::Stopped { limit: reply.second, height: reply.third },
            0 => Answer::Refused { number: reply.first as u64, place: reply.second },
            1 => Answer::Admitted,
            2 => Answer::Judged { result: reply.first as u64, taken: reply.second },
            3 => Answer::Pass { count: reply.first },
            4 => Answer::Tree { row: reply.first },
            5 => Answer::Run { root: reply.first, used: reply.second, taken: reply.third },
            6 => Answer::Written { count: reply.first },
            other => panic!("the library gives no answer {other}"),
        }
    }
}

/// The reply of an older build, from before it got a third value or after; that value is not read. On x86-64 Linux both
/// are written to memory that the caller hands in, so that room for the longer reply is enough for either.
#[cfg(feature = "compare")]
#[repr(C)]
struct OldReply {
    answer: usize,
    first: usize,
    second: usize,
    _third: MaybeUninit<usize>,
}

/// An older build may not tell the numbers taken or the height of a stop: they are not to be read.
#[cfg(feature = "compare")]
impl From<OldReply> for Answer {
    fn from(OldReply { answer, first, second, .. }: OldReply) -> Answer {
        Answer::from(Reply { answer, first, second, third: 0 })
    }
}

/// Declares functions that take a contract first.
macro_rules! of_contract {
    ($reply:ty; $($name:ident($($rest:ident: $sort:ty),*);)*) => {
        extern "C" {
            $(fn $name(
                symbols: usize, input_states: usize, output_states: usize,
                counts: *const u16, count_numbers: usize,
                input_rows: *const u16, input_row_numbers: usize,
                input_marks: *const u16, input_mark_numbers: usize,
                output_table: *const u16, output_table_numbers: usize,
                output_marks: *const u16, output_mark_numbers: usize,
                nodes: *const u16, node_numbers: usize,
                rules: *const u16, rule_numbers: usize,
                $($rest: $sort),*
            ) -> $reply;)*
        }
    };
}

/// Calls a function with the tables of a contract, each as a pointer and a length, and what follows them.
macro_rules! call {
    ($name:ident, $contract:expr $(, $rest:expr)*) => {{
        let c: &Contract = $contract;
        // Each pair is a live slice of that length, and no slice that is written overlaps another.
        unsafe {
            $name(
                c.symbols, c.input_states, c.output_states,
                c.counts.as_ptr(), c.counts.len(),
                c.input_rows.as_ptr(), c.input_rows.len(),
                c.input_marks.as_ptr(), c.input_marks.len(),
                c.output_table.as_ptr(), c.output_table.len(),
                c.output_marks.as_ptr(), c.output_marks.len(),
                c.nodes.as_ptr(), c.nodes.len(),
                c.rules.as_ptr(), c.rules.len(),
                $($rest),*
            )
        }
    }};
}

/// The functions of a build of the library, made safe; a run is on the caller's stack.
#[derive(Clone, Copy, Debug)]
struct Functions {
    admit: fn(&Contract) -> Answer,
    judge: fn(&Contract, &[u16], &mut [u64]) -> Answer,
    check: fn(&Contract, usize, &mut [u16], &mut [u64]) -> Answer,
    run: fn(&Contract, &[u16], &mut [u16]) -> Answer,
    write_out: fn(&[u16], usize, &mut [u16]) -> Answer,
}

/// Declares the functions of a build by their names in its archive and by what they return, and gathers them.
macro_rules! build {
    ($build:ident: $reply:ty; $admit:ident, $judge:ident, $run:ident, $check:ident, $write_out:ident) => {
        of_contract! { $reply;
            $admit();
            $judge(numbers: *const u16, number_count: usize, kind: *mut u64, kind_words: usize);
            $run(numbers: *const u16, number_count: usize, rows: *mut u16, row_numbers: usize);
            $check(limit: usize, rows: *mut u16, row_numbers: usize, words: *mut u64, word_count: usize);
        }

        extern "C" {
            fn $write_out(
                rows: *const u16,
                row_numbers: usize,
                row: usize,
                buffer: *mut u16,
                buffer_numbers: usize,
            ) -> $reply;
        }

        const $build: Functions = Functions {
            admit: |contract| call!($admit, contract).into(),
            judge: |contract, numbers, kind| {
                call!($judge, contract, numbers.as_ptr(), numbers.len(), kind.as_mut_ptr(), kind.len()).into()
            },
            check: |contract, limit, rows, words| {
                call!($check, contract, limit, rows.as_mut_ptr(), rows.len(), words.as_mut_ptr(), words.len()).into()
            },
            run: |contract, numbers, rows| {
                call!($run, contract, numbers.as_ptr(), numbers.len(), rows.as_mut_ptr(), rows.len()).into()
            },
            write_out: |rows, row, buffer| {
                // Both pairs are live slices of those lengths, and the one that is written does not overlap the other.
                let reply = unsafe { $write_out(rows.as_ptr(), rows.len(), row, buffer.as_mut_ptr(), buffer.len()) };
                Answer::from(reply)
            },
        };
    };
}

build! { PRESENT: Reply; goosedawn_admit, goosedawn_judge, goosedawn_run, goosedawn_check, goosedawn_write_out }

#[cfg(feature = "compare")]
build! {
    OLD: OldReply;
    old_goosedawn_admit, old_goosedawn_judge, old_goosedawn_run, old_goosedawn_check, old_goosedawn_write_out
}

/// A stretch of numbers: where it starts, and how many there are.
#[repr(C)]
struct Stretch {
    numbers: *const u16,
    count: usize,
}

/// Why something is refused; number 0 where nothing is.
#[repr(C)]
struct Told {
    number: usize,
    place: usize,
}

impl Told {
    fn refusal(self) -> Option<Refusal> {
        (self.number != 0).then_some((self.number as u64, self.place))
    }
}

of_contract! { Told;
    goosedawn_examine(words: *const u64, word_count: usize);
}

/// How many states a merged type has, or why there is none; what is not told is 0.
#[repr(C)]
#[derive(Debug)]
struct Merging {
    states: usize,
    number: usize,
    place: usize,
}

extern "C" {
    fn goosedawn_shorter_into(
        symbols: usize,
        first: *const u16,
        first_length: usize,
        second: *const u16,
        second_length: usize,
        into: *mut Stretch,
    );
    fn goosedawn_shorter_refusal(
        symbols: usize,
        first: *const u16,
        first_length: usize,
        second: *const u16,
        second_length: usize,
    ) -> Told;
    fn goosedawn_merge(
        symbols: usize,
        states: usize,
        table: *const u16,
        table_length: usize,
        marks: *const u16,
        marks_length: usize,
        second_symbols: usize,
        second_states: usize,
        second_table: *const u16,
        second_table_length: usize,
        second_marks: *const u16,
        second_marks_length: usize,
        merged_table: *mut u16,
        merged_table_length: usize,
        merged_marks: *mut u16,
        merged_marks_length: usize,
    ) -> Merging;
}

/// The proved library; runs are made on a thread with a stack of `run_stack` bytes, or of what [`run_stack`] tells.
#[derive(Clone, Copy, Debug)]
pub struct Library {
    functions: Functions,
    run_stack: Option<usize>,
}

impl Default for Library {
    fn default() -> Library {
        Library { functions: PRESENT, run_stack: None }
    }
}

impl Library {
    /// The present build, with another stack for runs.
    pub fn with_run_stack(run_stack: usize) -> Library {
        Library { functions: PRESENT, run_stack: Some(run_stack) }
    }

    /// An older build, which `tests/compare` renames and links beside the present one. How many numbers a document took
    /// and the height of a stop are not to be read from its answers. `shorter`, `shorter_refusal`, `merge` and `examine`
    /// are the present build's: an older one may not have them.
    #[cfg(feature = "compare")]
    pub fn old() -> Library {
        Library { functions: OLD, run_stack: None }
    }

    /// A run on the caller's stack, which has to be large enough for it.
    pub fn run_here(&self, contract: &Contract, numbers: &[u16], rows: &mut [u16]) -> Answer {
        (self.functions.run)(contract, numbers, rows)
    }
}

impl Engine for Library {
    fn admit(&self, contract: &Contract) -> Answer {
        (self.functions.admit)(contract)
    }

    fn judge(&self, contract: &Contract, numbers: &[u16], kind: &mut [u64]) -> Answer {
        (self.functions.judge)(contract, numbers, kind)
    }

    fn check(&self, contract: &Contract, limit: usize, rows: &mut [u16], words: &mut [u64]) -> Answer {
        (self.functions.check)(contract, limit, rows, words)
    }

    fn run(&self, contract: &Contract, numbers: &[u16], rows: &mut [u16]) -> Answer {
        let run_stack = self.run_stack.unwrap_or_else(|| run_stack(contract));
        thread::scope(|scope| {
            let work = || self.run_here(contract, numbers, rows);
            let thread = thread::Builder::new().stack_size(run_stack).spawn_scoped(scope, work);
            thread.expect("a thread").join().expect("an answer")
        })
    }

    fn write_out(&self, rows: &[u16], row: usize, buffer: &mut [u16]) -> Answer {
        (self.functions.write_out)(rows, row, buffer)
    }

    fn shorter<'a>(&self, symbols: usize, first: &'a [u16], second: &'a [u16]) -> &'a [u16] {
        let mut into = Stretch { numbers: first.as_ptr(), count: 0 };
        // Both pairs are live slices of those lengths; the stretch that is written is live before too, and overlaps neither.
        unsafe {
            goosedawn_shorter_into(symbols, first.as_ptr(), first.len(), second.as_ptr(), second.len(), &mut into);
        }
        // It is proved to be a part of one of the two slices, and both live as long as what is handed back.
        unsafe { slice::from_raw_parts(into.numbers, into.count) }
    }

    fn shorter_refusal(&self, symbols: usize, first: &[u16], second: &[u16]) -> Option<Refusal> {
        // Both pairs are live slices of those lengths, and nothing is written.
        let told =
            unsafe { goosedawn_shorter_refusal(symbols, first.as_ptr(), first.len(), second.as_ptr(), second.len()) };
        told.refusal()
    }

    fn merge(
        &self,
        first: OutputType<'_>,
        second: OutputType<'_>,
        table: &mut [u16],
        marks: &mut [u16],
    ) -> Result<usize, Refusal> {
        // Each pair is a live slice of that length, and the two that are written overlap no other.
        let merging = unsafe {
            goosedawn_merge(
                first.symbols,
                first.states,
                first.table.as_ptr(),
                first.table.len(),
                first.marks.as_ptr(),
                first.marks.len(),
                second.symbols,
                second.states,
                second.table.as_ptr(),
                second.table.len(),
                second.marks.as_ptr(),
                second.marks.len(),
                table.as_mut_ptr(),
                table.len(),
                marks.as_mut_ptr(),
                marks.len(),
            )
        };
        match merging {
            Merging { states, number: 0, place: 0 } => Ok(states),
            Merging { states: 0, number: number @ 1.., place } => Err((number as u64, place)),
            other => panic!("the library does not answer {other:?}"),
        }
    }

    fn examine(&self, contract: &Contract, words: &[u64]) -> Result<(), Refusal> {
        let told: Told = call!(goosedawn_examine, contract, words.as_ptr(), words.len());
        told.refusal().map_or(Ok(()), Err)
    }
}
