//! Asks the compiled library and compares it with the oracle. Whatever the library is lent lies at
//! the very start and then at the very end of its pages, between pages that can't be touched, and
//! the bytes that it is asked about can only be read.

// The oracle's own sources; not all of each is used here.
#[allow(dead_code)]
#[path = "../oracle/src/answer.rs"]
mod answer;
#[path = "../oracle/src/cases.rs"]
mod cases;
#[path = "../oracle/src/line_programs.rs"]
mod line_programs;
#[allow(dead_code)]
#[path = "../oracle/src/list.rs"]
mod list;
#[path = "../oracle/src/nesting.rs"]
mod nesting;
#[path = "../oracle/src/numbers.rs"]
mod numbers;
#[path = "../oracle/src/pdb.rs"]
mod pdb;
#[path = "../oracle/src/previews.rs"]
mod previews;
#[path = "../oracle/src/random.rs"]
mod random;
#[path = "../oracle/src/reading.rs"]
mod reading;
#[path = "../oracle/src/records.rs"]
mod records;
#[path = "../oracle/src/row.rs"]
mod row;
#[path = "../oracle/src/scopes.rs"]
mod scopes;
#[path = "../oracle/src/squeeze.rs"]
mod squeeze;
#[path = "../oracle/src/squeezes.rs"]
mod squeezes;
#[path = "../oracle/src/steps.rs"]
mod steps;
#[path = "../oracle/src/words.rs"]
mod words;

mod library;
mod noise;
mod pages;

use std::error::Error;
use std::fmt::Display;
use std::fs::File;
use std::io::{self, BufReader};
use std::process::{self, ExitCode};
use std::sync::atomic::{AtomicPtr, Ordering};
use std::{iter, ptr};

// pdb's files name one another from the crate's root.
use fallible_iterator::FallibleIterator;
use pdb::{common, msf, symbol, tpi};

use answer::Op;
use library::{Call, OPS};
use list::{parse_number, text, Case, Question};
use pages::{Lent, Place, Room};
use random::Random;

const USAGE: &str = "usage: guard list FILE                the cases of a list
       guard ask GROUP COUNT SEED ..  questions of a group, of one group or more";

fn main() -> ExitCode {
    match run() {
        Ok(0) => ExitCode::SUCCESS,
        Ok(_) => ExitCode::FAILURE,
        Err(error) => {
            eprintln!("{error}");
            ExitCode::from(2)
        }
    }
}

/// The number of differences.
fn run() -> Result<u64, Box<dyn Error>> {
    let args: Vec<String> = std::env::args().skip(1).collect();
    let args: Vec<&str> = args.iter().map(String::as_str).collect();
    report_faults();
    let mut guard = Guard::new()?;
    guard.compare_giants()?;
    match args[..] {
        ["list", file] => guard.compare_list(file)?,
        ["ask", ref groups @ ..] if !groups.is_empty() => guard.compare_groups(groups)?,
        _ => return Err(USAGE.into()),
    }
    guard.report();
    Ok(guard.differences)
}

/// What the library is being asked, for the message about a fault.
static ASKED: AtomicPtr<Question> = AtomicPtr::new(ptr::null_mut());

fn report_faults() {
    const SIGSEGV: i32 = 11;
    extern "C" {
        fn signal(number: i32, handler: extern "C" fn(i32)) -> usize;
    }
    extern "C" fn faulted(_: i32) {
        // SAFETY: the question outlives the call, in which the process now ends.
        match unsafe { ASKED.load(Ordering::Relaxed).as_ref() } {
            Some(question) => eprintln!("{question}\n  faults"),
            None => eprintln!("a stream of the greatest length\n  faults"),
        }
        process::exit(3);
    }
    // SAFETY: the handler never returns.
    unsafe { signal(SIGSEGV, faulted) };
}

/// How often an operation was asked, and how often the oracle answered.
#[derive(Clone, Copy, Default)]
struct Tally {
    asked: u64,
    answered: u64,
}

struct Guard {
    lent: Lent,
    out: Room<u64>,
    buffer: Room<u8>,
    tallies: [Tally; OPS.len()],
    differences: u64,
}

impl Guard {
    fn new() -> io::Result<Self> {
        Ok(Guard {
            lent: Lent::new()?,
            out: Room::new(1, 0xa5c3_0f96_5a3c_f069)?,
            buffer: Room::new(16, 0xa5)?,
            tallies: Default::default(),
            differences: 0,
        })
    }

    fn compare_list(&mut self, file: &str) -> io::Result<()> {
        let mut list = BufReader::new(File::open(file)?);
        while let Some(block) = list::read_block(&mut list)? {
            let mut rest = &block[..];
            while rest.first().is_some_and(|op| *op != 0) {
                self.compare(&list::take_case(&mut rest)?);
            }
        }
        Ok(())
    }

    fn compare_groups(&mut self, groups: &[&str]) -> Result<(), Box<dyn Error>> {
        for group in groups.chunks(3) {
            let [group, count, seed] = *group else {
                return Err(USAGE.into());
            };
            for question in questions(group, parse_number(count)?, parse_number(seed)?)? {
                let words = answer::answer(&question);
                self.compare(&Case { question, words });
            }
        }
        Ok(())
    }

    /// Streams about the greatest length. A longer one is refused before it is looked at.
    fn compare_giants(&mut self) -> io::Result<()> {
        const GREATEST: usize = u32::MAX as usize;
        let last = GREATEST as u64 - 1;
        let mut giant = |op, bytes, length, arg, expected: &[u64]| {
            let start = 0;
            let call = Call {
                op,
                bytes,
                length,
                arg,
                start,
            };
            self.ask(
                call,
                Place::End,
                expected,
                &format!("{} {arg} in {length} bytes", op.name()),
            );
        };
        let untouchable = pages::untouchable(GREATEST + 1)?;
        for op in [
            Op::Step,
            Op::Check,
            Op::Walk,
            Op::Jump,
            Op::Climb,
            Op::Squeeze,
            Op::Preview,
        ] {
            giant(op, untouchable, GREATEST + 1, 0, &[5, 0, 0]);
        }
        let zeros = pages::zeros(GREATEST)?;
        giant(Op::Step, zeros, GREATEST, last, &[1, last, 0]);
        giant(Op::Step, zeros, GREATEST, last - 1, &[2, last + 1, 0]);
        giant(Op::Step, zeros, GREATEST, last + 1, &[0, 0, last + 1]);
        Ok(())
    }

    /// Asks the library what the case asks, at both places, if it exports the operation.
    fn compare(&mut self, case: &Case) {
        let Case { question, words } = case;
        let Some(place) = OPS.iter().position(|(op, _)| *op == question.op) else {
            return;
        };
        self.tallies[place].asked += 1;
        self.tallies[place].answered += u64::from(words[0] == 0);
        ASKED.store(ptr::from_ref(question).cast_mut(), Ordering::Relaxed);
        for place in Place::ALL {
            let call = Call {
                op: question.op,
                bytes: self.lent.lend(&question.bytes, place),
                length: question.bytes.len(),
                arg: question.arg,
                start: question.start,
            };
            self.ask(call, place, words, question);
        }
    }

    /// Whatever is written, and nothing else, is what was expected.
    fn ask(&mut self, call: Call, place: Place, expected: &[u64], question: &dyn Display) {
        let Some(&(_, words)) = OPS.iter().find(|(op, _)| *op == call.op) else {
            unreachable!("the library does not export {}", call.op.name());
        };
        let room = call.room();
        let out = self.out.lend(words, place);
        let buffer = room.map_or(ptr::null_mut(), |room| self.buffer.lend(room, place));
        // SAFETY: the bytes are lent for longer than the call, and what it writes to too.
        let number = unsafe { call.make(buffer, out) };
        let (told, bytes) = written(call.op, expected);
        let (lent, told) = self.out.lent(words, place, &told[1..]);
        let wrote = room.map_or(true, |room| self.buffer.lent(room, place, &bytes).1);
        if told && wrote && u64::from(number) == expected[0] {
            return;
        }
        self.differences += 1;
        if self.differences <= 20 {
            let got = [&[number.into()], lent].concat();
            println!(
                "{question}\n  expected {}\n  got      {}",
                text(expected),
                text(&got)
            );
            if !wrote {
                println!("  and other bytes in the buffer");
            }
        }
    }

    fn report(&self) {
        for ((op, _), tally) in OPS.iter().zip(&self.tallies) {
            println!(
                "{}: {} asked, {} answered",
                op.name(),
                tally.asked,
                tally.answered
            );
        }
        let asked: u64 = self.tallies.iter().map(|tally| tally.asked).sum();
        println!(
            "{asked} questions, each at both places, {} differences",
            self.differences
        );
    }
}

/// The number and the words of an answer, and the bytes that come with them: those of a squeeze, eight to a word.
fn written(op: Op, answer: &[u64]) -> (&[u64], Vec<u8>) {
    match *answer {
        [0, length, ref packed @ ..] if op == Op::Squeeze => {
            let bytes = packed.iter().flat_map(|word| word.to_le_bytes());
            (&answer[..2], bytes.take(length as usize).collect())
        }
        _ => (answer, Vec::new()),
    }
}

fn questions(group: &str, count: u64, seed: u64) -> Result<cases::Questions, String> {
    if group == "noise" {
        let mut random = Random(seed);
        let questions = iter::repeat_with(move || noise::question(&mut random));
        return Ok(Box::new(questions.take(count as usize)));
    }
    cases::questions(group, count, seed)
        .ok_or_else(|| format!("{group:?} is none of the groups: {}, noise", cases::GROUPS))
}
