//! How many bytes of stack a script needs when the proved library plays it: `stack FILE`.
//!
//! Children of this program play the script, all of it, on stacks of ever closer sizes; one that is too small ends the
//! child.

use goosedawn::library::Library;
use goosedawn::script::play;
use std::process::{exit, Command, Stdio};
use std::thread;

/// The size is found to this many bytes, a page.
const PAGE: usize = 4096;

/// The largest size that is tried, four times what the deepest run of all is given.
const MOST: usize = 1 << 30;

fn fits(file: &str, run_stack: usize) -> bool {
    let program = std::env::current_exe().expect("this program");
    let mut child = Command::new(program);
    child.args([file, &run_stack.to_string()]).stdout(Stdio::null()).stderr(Stdio::null());
    child.status().expect("a child").success()
}

fn main() {
    let words: Vec<String> = std::env::args().skip(1).collect();
    match words.as_slice() {
        [file] => {
            let (mut small, mut large) = (0, MOST / PAGE);
            if !fits(file, large * PAGE) {
                println!("{file}: more than {} bytes", large * PAGE);
                exit(1);
            }
            while large - small > 1 {
                let middle = (small + large) / 2;
                if fits(file, middle * PAGE) {
                    large = middle;
                } else {
                    small = middle;
                }
            }
            println!("{file}: {} bytes", large * PAGE);
        }
        [file, size] => {
            let script = std::fs::read(file).expect("the script");
            let run_stack = size.parse().expect("a size");
            let player = move || play(&Library::with_run_stack(run_stack), &script);
            let thread = thread::Builder::new().stack_size(run_stack).spawn(player).expect("a thread");
            print!("{}", thread.join().expect("the answers").said);
        }
        _ => {
            eprintln!("usage: stack FILE");
            exit(2);
        }
    }
}
