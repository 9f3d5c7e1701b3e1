//! The oracle: the answers to which the port is held, pdb's own and those of plain code over it.

mod answer;
mod cases;
mod line_programs;
mod list;
mod nesting;
mod numbers;
mod pdb;
mod previews;
mod random;
mod reading;
mod records;
mod row;
mod scopes;
mod squeeze;
mod squeezes;
mod steps;
mod words;

use std::collections::BTreeMap;
use std::error::Error;
use std::io::{self, BufRead, BufReader, BufWriter, Write};
use std::process::ExitCode;

// pdb's files name one another from the crate's root.
use fallible_iterator::FallibleIterator;
use pdb::{common, msf, symbol, tpi};

use answer::answer;
use list::{parse_number, Case};

const USAGE: &str =
    "usage: oracle answer                   questions in lines OP ARG START HEX to answers
       oracle list GROUP COUNT SEED .. a list of questions with answers, of one group or more
       oracle text                     a list to lines OP ARG START HEX = WORDS";

fn main() -> ExitCode {
    let args: Vec<String> = std::env::args().skip(1).collect();
    let args: Vec<&str> = args.iter().map(String::as_str).collect();
    let outcome = match args[..] {
        ["answer"] => answer_lines(),
        ["list", ref groups @ ..] if !groups.is_empty() => write_list(groups),
        ["text"] => write_text(),
        _ => Err(USAGE.into()),
    };
    match outcome {
        Ok(()) => ExitCode::SUCCESS,
        Err(error) => {
            eprintln!("{error}");
            ExitCode::from(2)
        }
    }
}

type Outcome = Result<(), Box<dyn Error>>;

fn answer_lines() -> Outcome {
    let mut out = io::stdout().lock();
    for (place, line) in io::stdin().lock().lines().enumerate() {
        let question = list::parse_question(&line?);
        let question = question.map_err(|reason| format!("line {}: {reason}", place + 1))?;
        let words = answer(&question);
        writeln!(out, "{}", list::text(&words))?;
    }
    Ok(())
}

fn write_list(groups: &[&str]) -> Outcome {
    let mut out = list::Writer::new(BufWriter::new(io::stdout().lock()));
    for group in groups.chunks(3) {
        let [group, count, seed] = *group else {
            return Err(USAGE.into());
        };
        let questions = cases::questions(group, parse_number(count)?, parse_number(seed)?)
            .ok_or_else(|| format!("{group:?} is none of the groups: {}", cases::GROUPS))?;
        // How many cases of each op came out with each number.
        let mut outcomes = BTreeMap::new();
        for question in questions {
            let words = answer(&question);
            *outcomes.entry((question.op as u8, words[0])).or_insert(0) += 1;
            out.write(&Case { question, words })?;
        }
        summarize(group, &outcomes);
    }
    Ok(out.finish()?)
}

fn summarize(group: &str, outcomes: &BTreeMap<(u8, u64), u64>) {
    let total: u64 = outcomes.values().sum();
    eprintln!("{group}: {total} cases");
    for op in answer::Op::ALL {
        let of_op = outcomes.range((*op as u8, 0)..=(*op as u8, u64::MAX));
        let counts: Vec<String> = of_op
            .map(|((_, number), count)| match number {
                0 => format!("{count} answered"),
                _ => format!("{count} refused {number}"),
            })
            .collect();
        if !counts.is_empty() {
            eprintln!("  {}: {}", op.name(), counts.join(", "));
        }
    }
}

fn write_text() -> Outcome {
    let mut input = BufReader::new(io::stdin().lock());
    let mut out = BufWriter::new(io::stdout().lock());
    while let Some(block) = list::read_block(&mut input)? {
        let mut rest = &block[..];
        while rest.first().is_some_and(|op| *op != 0) {
            let Case { question, words } = list::take_case(&mut rest)?;
            writeln!(out, "{question} = {}", list::text(&words))?;
        }
    }
    Ok(out.flush()?)
}
