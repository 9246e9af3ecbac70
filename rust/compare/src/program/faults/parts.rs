//! Faults in one part of an answer.

use reference::answer::Answer;
use reference::line::Name;

/// The number of another refusal, or of one where there is none.
const NUMBER: &str = "answer-number";

/// A word more.
const WORDS: &str = "answer-words";

/// The last bit of the generator.
const GENERATOR: &str = "answer-generator";

/// Another digest.
const DIGEST: &str = "answer-digest";

/// The last value one more, modulo 2^32.
const VALUE: &str = "answer-value";

/// A value too many.
const MORE: &str = "answer-value-more";

/// The last value missing.
const FEWER: &str = "answer-value-fewer";

/// The faults of a kind of line. That of a generator alone has no values.
pub fn of(name: Name) -> Vec<&'static str> {
    let all = [NUMBER, WORDS, GENERATOR, DIGEST, MORE, VALUE, FEWER];
    let count = if name == Name::Seed { 5 } else { all.len() };
    all[..count].to_vec()
}

/// An answer with this fault in it, or as it is.
pub fn planted(mut answer: Answer, fault: &str) -> Answer {
    match fault {
        NUMBER => answer.number += 1,
        WORDS => answer.words = answer.words.wrapping_add(1),
        GENERATOR => answer.state[3] ^= 1 << 63,
        DIGEST => answer.digest += 1,
        VALUE => {
            if let Some(last) = answer.values.last_mut() {
                *last = last.wrapping_add(1);
            }
        }
        MORE => answer.values.push(0),
        FEWER => drop(answer.values.pop()),
        _ => {}
    }
    answer
}
