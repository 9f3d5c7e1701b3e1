//! Questions of no form: random bytes for every operation, and records of the real example with bytes changed or cut off.

use crate::answer::Op;
use crate::library::OPS;
use crate::list::Question;
use crate::random::Random;
use crate::scopes::REAL_RECORDS;
use crate::steps;

pub fn question(random: &mut Random) -> Question {
    let (op, _) = random.pick(&OPS);
    let about_record = matches!(op, Op::Decode | Op::Name | Op::Register | Op::Scope);
    let bytes = if about_record && random.one_in(2) {
        real_record(random)
    } else {
        let length = random.below(200);
        random.bytes(length)
    };
    let position = |random: &mut Random| steps::position(bytes.len(), &[0, 4], random);
    let arg = match op {
        Op::Register => random.below(4) as u64,
        Op::Squeeze => random.below(300) as u64,
        _ => position(random),
    };
    let start = position(random);
    Question {
        op,
        arg,
        start,
        bytes,
    }
}

fn real_record(random: &mut Random) -> Vec<u8> {
    let mut record = random.pick(&REAL_RECORDS).to_vec();
    for _ in 0..random.below(4) {
        let place = random.below(record.len());
        record[place] = random.number() as u8;
    }
    if random.one_in(3) {
        record.truncate(random.below(record.len() + 1));
    }
    record
}
