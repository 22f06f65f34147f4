//! Scripts of questions, and their answers line for line. docs/FORMAT.md describes both; the statements `taken`, `shorter`,
//! `merge` and `examine`, and those that set a second output type or a list of kinds for them, belong to these scripts alone,
//! and the program `goosedawn` does not know them.

use crate::contract::{Contract, OutputTables, OutputType};
use crate::engine::{verdict, Answer, Engine, Refusal};
use std::fmt::Write;

/// The most bytes of a script that are read.
pub const MOST_BYTES: usize = 1_572_864;

/// The most bytes of a token that a fault shows.
pub const MOST_SHOWN: usize = 32;

/// What a fault says was expected.
const A_STATEMENT: &str = "a statement";
const A_NUMBER: &str = "a number from 0 to 65535";
const A_WORD: &str = "a number from 0 to 18446744073709551615";
const A_NAME: &str = "a name";
const THE_WORD_AND: &str = "the word and";

/// What `help` prints: the lines of the program `goosedawn`, and one for each statement that these scripts alone have.
pub const HELP: &str = "\
case NAME: the label of the answers that follow
symbols N: how many symbols there are
input-states N: how many input states there are
output-states N: how many output states there are
counts N ..: how many parameters each procedure has
input-rows N ..: state, symbol, left state, right state
input-marks N ..: 1 for each accepted input state, otherwise 0
output-table N ..: the state of symbol 0, then by symbol, left state and right state
output-marks N ..: 1 for each accepted output state, otherwise 0
nodes N ..: tag, name, child, first, second
rules N ..: procedure, symbol, node
admit: admit the contract
judge N ..: judge the document that the numbers begin with
check L: check the contract, listing at most L kinds
run R N ..: run the transformation on the document that the numbers begin with, with room for R rows
rows N ..: the row table that write reads
write J B: write out the tree of row J, with room for B numbers
show: the buffers as the last check, run or judge left them
taken: how many numbers the last judge or run took
shorter S N .. and N ..: the shorter of the documents over S symbols that the two lists begin with, the first on a tie
second-symbols N: how many symbols the second output type has
second-states N: how many states the second output type has
second-table N ..: the second output type's table, as output-table
second-marks N ..: the second output type's marks, as output-marks
merge T M: merge the contract's output type and the second into buffers of T and M numbers, which show prints then
kinds W ..: the list of kinds that examine reads, five words each
kinds-of-check: the kinds that the last check listed are that list
examine: examine the list: whether it holds the kinds of all trees, and none that breaks the contract
";

/// A token: where it starts, and its bytes.
#[derive(Clone, Copy, Debug)]
struct Token<'a> {
    place: usize,
    bytes: &'a [u8],
}

/// The place of a fault, what stood there and what was expected.
#[derive(Debug)]
struct Fault {
    place: usize,
    found: String,
    expected: String,
}

/// The text that is read and the place reached in it.
struct Reader<'a> {
    text: &'a [u8],
    /// Whether the script goes on behind the text.
    cut: bool,
    place: usize,
}

fn is_blank(byte: u8) -> bool {
    matches!(byte, b' ' | b'\t' | b'\r' | b'\n')
}

/// A sort of number: one of a table, or a word of a kind.
trait Number: TryFrom<u64> {
    const EXPECTED: &'static str;
}

impl Number for u16 {
    const EXPECTED: &'static str = A_NUMBER;
}

impl Number for u64 {
    const EXPECTED: &'static str = A_WORD;
}

/// A token that is a number is decimal digits alone; the value of one that is too large for its sort is `None`.
fn number<T: Number>(token: &[u8]) -> Option<Option<T>> {
    if token.is_empty() || !token.iter().all(u8::is_ascii_digit) {
        return None;
    }
    let add = |value: u64, digit: &u8| value.checked_mul(10)?.checked_add(u64::from(digit - b'0'));
    let value = token.iter().try_fold(0, add);
    Some(value.and_then(|value| T::try_from(value).ok()))
}

impl<'a> Reader<'a> {
    fn new(script: &'a [u8]) -> Reader<'a> {
        Reader { text: &script[..script.len().min(MOST_BYTES)], cut: script.len() > MOST_BYTES, place: 0 }
    }

    /// The next token, which is not taken yet; none at the end.
    fn peek(&self) -> Result<Option<Token<'a>>, Fault> {
        let mut place = self.place;
        while place < self.text.len() && (is_blank(self.text[place]) || self.text[place] == b'#') {
            if self.text[place] == b'#' {
                while place < self.text.len() && self.text[place] != b'\n' {
                    place += 1;
                }
            } else {
                place += 1;
            }
        }
        let bytes = &self.text[place..];
        let end = bytes.iter().position(|&byte| is_blank(byte) || byte == b'#').unwrap_or(bytes.len());
        if self.cut && end == bytes.len() {
            let (found, expected) = (format!("more than {MOST_BYTES} bytes"), "the end of the script".to_string());
            return Err(Fault { place, found, expected });
        }
        Ok((end > 0).then_some(Token { place, bytes: &bytes[..end] }))
    }

    fn take(&mut self, token: Token<'a>) {
        self.place = token.place + token.bytes.len();
    }

    fn fault(&self, token: Option<Token<'a>>, expected: &str) -> Fault {
        let (place, found) = match token {
            Some(token) => (token.place, shown(token.bytes)),
            None => (self.text.len(), "the end of the script".to_string()),
        };
        Fault { place, found, expected: expected.to_string() }
    }

    fn name(&mut self) -> Result<Vec<u8>, Fault> {
        match self.peek()? {
            Some(token) => {
                self.take(token);
                Ok(token.bytes.to_vec())
            }
            None => Err(self.fault(None, A_NAME)),
        }
    }

    fn number(&mut self) -> Result<u16, Fault> {
        let token = self.peek()?;
        match token.and_then(|token| number(token.bytes)) {
            Some(Some(value)) => {
                self.take(token.expect("a number is a token"));
                Ok(value)
            }
            _ => Err(self.fault(token, A_NUMBER)),
        }
    }

    /// The numbers up to the next word, or to the end.
    fn numbers<T: Number>(&mut self) -> Result<Vec<T>, Fault> {
        let mut values = Vec::new();
        while let Some(token) = self.peek()? {
            match number(token.bytes) {
                Some(Some(value)) => values.push(value),
                Some(None) => return Err(self.fault(Some(token), T::EXPECTED)),
                None => break,
            }
            self.take(token);
        }
        Ok(values)
    }

    /// The word between two lists of numbers.
    fn and(&mut self) -> Result<(), Fault> {
        let token = self.peek()?;
        match token {
            Some(word) if word.bytes == b"and" => {
                self.take(word);
                Ok(())
            }
            _ => Err(self.fault(token, THE_WORD_AND)),
        }
    }

    /// The line of a place, from 1.
    fn line(&self, place: usize) -> usize {
        1 + self.text[..place].iter().filter(|&&byte| byte == b'\n').count()
    }
}

fn shown(token: &[u8]) -> String {
    let most = &token[..token.len().min(MOST_SHOWN)];
    let rest = if token.len() > MOST_SHOWN { "..." } else { "" };
    format!("{}{rest}", String::from_utf8_lossy(most))
}

/// Which of two buffers a stretch is the start of.
fn buffer_of(stretch: &[u16], first: &[u16], second: &[u16]) -> &'static str {
    if stretch.as_ptr() == first.as_ptr() {
        "first"
    } else if stretch.as_ptr() == second.as_ptr() {
        "second"
    } else {
        panic!("the stretch is the start of neither buffer")
    }
}

/// The buffers as the last operation left them.
#[derive(Default)]
struct Left {
    rows: Option<Vec<u16>>,
    words: Option<Vec<u64>>,
    /// Of a merged type: the table and the marks.
    merged: Option<[Vec<u16>; 2]>,
}

/// A script being played.
struct Player<'e, E: Engine> {
    engine: &'e E,
    label: Vec<u8>,
    contract: Contract,
    /// The output type that `merge` takes beside the contract's.
    second: OutputTables,
    rows: Vec<u16>,
    left: Left,
    /// The words of the kinds that the last check listed.
    kinds_of_check: Vec<u64>,
    /// The list of kinds that `examine` reads.
    kinds: Vec<u64>,
    /// How many numbers the last document took.
    taken: Option<usize>,
    said: String,
}

/// A buffer holds this in every place before an operation.
const UNTOUCHED: u8 = 7;

impl<E: Engine> Player<'_, E> {
    fn say(&mut self, words: &str) {
        let label = String::from_utf8_lossy(&self.label);
        writeln!(self.said, "{label} {words}").expect("room");
    }

    fn say_list<T: ToString>(&mut self, word: &str, values: &[T]) {
        let mut line = word.to_string();
        for value in values {
            line.push(' ');
            line.push_str(&value.to_string());
        }
        self.say(&line);
    }

    fn say_refusal(&mut self, number: u64, place: usize) {
        self.say(&Answer::Refused { number, place }.to_string());
    }

    /// The rows that an operation leaves become the current ones unless it was refused without writing.
    fn keep_rows(&mut self, answer: Answer, rows: &[u16]) {
        let written = !matches!(answer, Answer::Refused { number, .. } if !(13..=15).contains(&number));
        if written {
            self.rows = rows.to_vec();
        }
    }

    fn check(&mut self, limit: u16) {
        let limit = usize::from(limit);
        let mut rows = vec![u16::from(UNTOUCHED); 3 * limit];
        let mut words = vec![u64::from(UNTOUCHED); 5 * limit];
        let answer = self.engine.check(&self.contract, limit, &mut rows, &mut words);
        self.say(&answer.to_string());
        self.keep_rows(answer, &rows);
        self.kinds_of_check = words[..5 * answer.kinds().unwrap_or(0)].to_vec();
        self.left = Left { rows: Some(rows), words: Some(words), ..Left::default() };
    }

    fn run(&mut self, free: u16, numbers: &[u16]) {
        let mut rows = vec![u16::from(UNTOUCHED); 3 * usize::from(free)];
        let answer = self.engine.run(&self.contract, numbers, &mut rows);
        self.say(&answer.to_string());
        self.keep_rows(answer, &rows);
        self.left = Left { rows: Some(rows), ..Left::default() };
        self.taken = answer.taken();
    }

    fn judge(&mut self, numbers: &[u16]) {
        let mut kind = [u64::from(UNTOUCHED); 5];
        let answer = self.engine.judge(&self.contract, numbers, &mut kind);
        self.say(&answer.to_string());
        self.left = Left { words: Some(kind.to_vec()), ..Left::default() };
        self.taken = answer.taken();
    }

    fn write(&mut self, row: u16, room: u16) {
        let mut buffer = vec![u16::from(UNTOUCHED); usize::from(room)];
        let answer = self.engine.write_out(&self.rows, usize::from(row), &mut buffer);
        match answer {
            Answer::Written { count } => self.say_list(&format!("{answer}:"), &buffer[..count]),
            _ => self.say(&answer.to_string()),
        }
    }

    fn show(&mut self) {
        let left = std::mem::take(&mut self.left);
        if let Some(rows) = &left.rows {
            self.say_list("rows", rows);
        }
        if let Some(words) = &left.words {
            self.say_list("words", words);
        }
        if let Some([table, marks]) = &left.merged {
            self.say_list("table", table);
            self.say_list("marks", marks);
        }
        self.left = left;
    }

    fn say_taken(&mut self) {
        match self.taken {
            Some(taken) => self.say(&format!("taken {taken}")),
            None => self.say("taken none"),
        }
    }

    fn shorter(&mut self, symbols: u16, first: &[u16], second: &[u16]) {
        let symbols = usize::from(symbols);
        if let Some((number, place)) = self.engine.shorter_refusal(symbols, first, second) {
            return self.say_refusal(number, place);
        }
        let shorter = self.engine.shorter(symbols, first, second);
        let buffer = buffer_of(shorter, first, second);
        self.say_list(&format!("shorter {buffer} {}:", shorter.len()), shorter);
    }

    fn merge(&mut self, table_room: u16, marks_room: u16) {
        let mut buffers = [table_room, marks_room].map(|room| vec![u16::from(UNTOUCHED); usize::from(room)]);
        let [table, marks] = &mut buffers;
        match self.engine.merge(self.contract.output_type(), self.second.output_type(), table, marks) {
            Ok(states) => self.say(&format!("merged {states}")),
            Err((number, place)) => self.say_refusal(number, place),
        }
        self.left = Left { merged: Some(buffers), ..Left::default() };
    }

    fn examine(&mut self) {
        let examined = self.engine.examine(&self.contract, &self.kinds);
        self.say(&verdict(examined));
    }

    /// One statement, or false at the end.
    fn statement(&mut self, reader: &mut Reader<'_>) -> Result<bool, Fault> {
        let Some(word) = reader.peek()? else { return Ok(false) };
        reader.take(word);
        match word.bytes {
            b"case" => self.label = reader.name()?,
            b"symbols" => self.contract.symbols = usize::from(reader.number()?),
            b"input-states" => self.contract.input_states = usize::from(reader.number()?),
            b"output-states" => self.contract.output_states = usize::from(reader.number()?),
            b"counts" => self.contract.counts = reader.numbers()?,
            b"input-rows" => self.contract.input_rows = reader.numbers()?,
            b"input-marks" => self.contract.input_marks = reader.numbers()?,
            b"output-table" => self.contract.output_table = reader.numbers()?,
            b"output-marks" => self.contract.output_marks = reader.numbers()?,
            b"nodes" => self.contract.nodes = reader.numbers()?,
            b"rules" => self.contract.rules = reader.numbers()?,
            b"rows" => self.rows = reader.numbers()?,
            b"admit" => {
                let answer = self.engine.admit(&self.contract);
                self.say(&answer.to_string());
            }
            b"judge" => {
                let numbers = reader.numbers()?;
                self.judge(&numbers);
            }
            b"check" => {
                let limit = reader.number()?;
                self.check(limit);
            }
            b"run" => {
                let free = reader.number()?;
                let numbers = reader.numbers()?;
                self.run(free, &numbers);
            }
            b"write" => {
                let row = reader.number()?;
                let room = reader.number()?;
                self.write(row, room);
            }
            b"show" => self.show(),
            b"taken" => self.say_taken(),
            b"shorter" => {
                let symbols = reader.number()?;
                let first = reader.numbers()?;
                reader.and()?;
                let second = reader.numbers()?;
                self.shorter(symbols, &first, &second);
            }
            b"second-symbols" => self.second.symbols = usize::from(reader.number()?),
            b"second-states" => self.second.states = usize::from(reader.number()?),
            b"second-table" => self.second.table = reader.numbers()?,
            b"second-marks" => self.second.marks = reader.numbers()?,
            b"merge" => {
                let table_room = reader.number()?;
                let marks_room = reader.number()?;
                self.merge(table_room, marks_room);
            }
            b"kinds" => self.kinds = reader.numbers()?,
            b"kinds-of-check" => self.kinds.clone_from(&self.kinds_of_check),
            b"examine" => self.examine(),
            _ => return Err(reader.fault(Some(word), A_STATEMENT)),
        }
        Ok(true)
    }
}

/// Whether `help` is the only word of a script.
fn asks_for_help(script: &[u8]) -> bool {
    let mut reader = Reader::new(script);
    match reader.peek() {
        Ok(Some(word)) if word.bytes == b"help" => {
            reader.take(word);
            matches!(reader.peek(), Ok(None))
        }
        _ => false,
    }
}

/// A script that was played: what it printed, and whether it ended with a fault.
#[derive(Clone, Debug, PartialEq, Eq)]
pub struct Played {
    pub said: String,
    pub fault: bool,
}

/// Plays a script on an engine.
pub fn play<E: Engine>(engine: &E, script: &[u8]) -> Played {
    if asks_for_help(script) {
        return Played { said: HELP.to_string(), fault: false };
    }
    let mut reader = Reader::new(script);
    let mut player = Player {
        engine,
        label: b"-".to_vec(),
        contract: Contract::default(),
        second: OutputTables::default(),
        rows: Vec::new(),
        left: Left::default(),
        kinds_of_check: Vec::new(),
        kinds: Vec::new(),
        taken: None,
        said: String::new(),
    };
    loop {
        match player.statement(&mut reader) {
            Ok(true) => {}
            Ok(false) => return Played { said: player.said, fault: false },
            Err(fault) => {
                let line = reader.line(fault.place);
                writeln!(player.said, "line {line}: found {}, expected {}", fault.found, fault.expected).expect("room");
                return Played { said: player.said, fault: true };
            }
        }
    }
}

/// The script in the file that the program's one argument names; ends the program where there is none.
pub fn named_by_argument(program: &str) -> Vec<u8> {
    let Some(path) = std::env::args().nth(1) else {
        eprintln!("usage: {program} FILE");
        std::process::exit(2);
    };
    std::fs::read(&path).unwrap_or_else(|error| {
        eprintln!("{path}: {error}");
        std::process::exit(2);
    })
}

/// The contracts of a script, each as it stands where its check is asked for, with the label and the limit.
pub fn checks(script: &[u8]) -> Vec<(String, Contract, u16)> {
    struct Collector(std::cell::RefCell<Vec<(Contract, u16)>>);
    impl Engine for Collector {
        fn admit(&self, _: &Contract) -> Answer {
            Answer::Admitted
        }
        fn judge(&self, _: &Contract, _: &[u16], _: &mut [u64]) -> Answer {
            Answer::Judged { result: 0, taken: 0 }
        }
        fn check(&self, contract: &Contract, limit: usize, _: &mut [u16], _: &mut [u64]) -> Answer {
            self.0.borrow_mut().push((contract.clone(), limit as u16));
            Answer::Pass { count: 0 }
        }
        fn run(&self, _: &Contract, _: &[u16], _: &mut [u16]) -> Answer {
            Answer::Run { root: 0, used: 0, taken: 0 }
        }
        fn write_out(&self, _: &[u16], _: usize, _: &mut [u16]) -> Answer {
            Answer::Written { count: 0 }
        }
        fn shorter<'a>(&self, _: usize, first: &'a [u16], _: &'a [u16]) -> &'a [u16] {
            &first[..0]
        }
        fn shorter_refusal(&self, _: usize, _: &[u16], _: &[u16]) -> Option<Refusal> {
            None
        }
        fn merge(&self, _: OutputType, _: OutputType, _: &mut [u16], _: &mut [u16]) -> Result<usize, Refusal> {
            Ok(0)
        }
        fn examine(&self, _: &Contract, _: &[u64]) -> Result<(), Refusal> {
            Ok(())
        }
    }
    let collector = Collector(std::cell::RefCell::new(Vec::new()));
    let said = play(&collector, script).said;
    let labels =
        said.lines().filter(|line| line.ends_with(" pass 0")).map(|line| line.trim_end_matches(" pass 0").to_string());
    labels.zip(collector.0.into_inner()).map(|(label, (contract, limit))| (label, contract, limit)).collect()
}
