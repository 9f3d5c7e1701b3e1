//! The groups of questions of which a list can be made.

use std::iter;

use crate::answer::Op;
use crate::list::Question;
use crate::random::Random;
use crate::{line_programs, numbers, previews, records, scopes, squeezes, steps};

pub const GROUPS: &str =
    "constants, numbers, records, steps, nesting, squeeze, preview, real, signed, annotations, brief, sites";

pub type Questions = Box<dyn Iterator<Item = Question>>;

/// A group's questions; of constants, signed, brief and sites they are all there are, whatever the count.
pub fn questions(group: &str, count: u64, seed: u64) -> Option<Questions> {
    let count = count as usize;
    let mut random = Random(seed);
    match group {
        "constants" => Some(Box::new(constants())),
        "numbers" => Some(mixed(numbers::grid, numbers::question, count, random)),
        "records" => Some(mixed(records::grid, records::question, count, random)),
        "steps" => Some(mixed(steps::grid, steps::question, count, random)),
        "nesting" => Some(mixed(scopes::grid, scopes::question, count, random)),
        "squeeze" => {
            let grid = squeezes::grid(&mut random);
            let more = iter::repeat_with(move || squeezes::questions(&mut random));
            Some(grid_and_more(grid, more.flatten(), count))
        }
        "preview" => {
            let grid = previews::grid(&mut random);
            let more = iter::repeat_with(move || previews::questions(&mut random));
            Some(grid_and_more(grid, more.flatten(), count))
        }
        "real" => Some(mixed(|_| Vec::new(), scopes::real_question, count, random)),
        "signed" => Some(Box::new(records::signed())),
        "annotations" => Some(mixed(
            line_programs::grid,
            line_programs::question,
            count,
            random,
        )),
        "brief" => Some(Box::new(line_programs::brief())),
        "sites" => Some(Box::new(line_programs::sites())),
        _ => None,
    }
}

fn constants() -> impl Iterator<Item = Question> {
    let all =
        |op: Op| (0..=op.largest() as usize).map(move |code| Question::new(op, code, Vec::new()));
    [Op::Kind, Op::Processor, Op::Language]
        .into_iter()
        .flat_map(all)
}

/// Questions of a grid, and then random ones.
fn mixed(
    grid: fn(&mut Random) -> Vec<Question>,
    question: fn(&mut Random) -> Question,
    count: usize,
    mut random: Random,
) -> Questions {
    let grid = grid(&mut random);
    let more = iter::repeat_with(move || question(&mut random));
    grid_and_more(grid, more, count)
}

/// Questions of a grid, half of the count at most and evenly chosen, and then more.
fn grid_and_more(
    grid: Vec<Question>,
    more: impl Iterator<Item = Question> + 'static,
    count: usize,
) -> Questions {
    let step = grid.len().div_ceil((count / 2).max(1)).max(1);
    let grid = grid.into_iter().step_by(step);
    Box::new(grid.chain(more).take(count))
}
