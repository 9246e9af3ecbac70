//! Faults that can be put into the program's answers, so that a comparison is seen to fail: a line is answered with an error in
//! it, and that answer is taken where it is not rand's. Those of [`calls`] are in what a call does, those of [`parts`] in one part of its
//! answer, and those of [`texts`] in which lines are calls.

mod calls;
mod parts;
mod texts;

use reference::State;
use reference::call::Call;
use reference::generator::Generator;
use reference::line::{Line, Name, ROOMS, written};

use crate::kind::Kind;
use crate::seeding::{FromSeed, SeedFromU64};

/// The faults that a kind of line can have.
pub fn of(name: Name) -> Vec<&'static str> {
    [calls::of(name), parts::of(name)].concat()
}

/// The faults that a line by its text can have.
pub fn of_texts() -> Vec<&'static str> {
    texts::names()
}

/// Those of all lines.
pub fn names() -> Vec<&'static str> {
    let names = Name::ALL.into_iter().flat_map(of);
    names.chain(of_texts()).collect()
}

/// The answer to a line with this fault in it, or without one where the line cannot have it.
pub fn answer(text: &str, fault: &str) -> String {
    if let Some(answer) = texts::answer(text, fault) {
        return answer;
    }
    let call = Line::parse(text).and_then(|line| {
        let from = seeded(line.generator, fault);
        Call::from_state(&line, from, ROOMS)
    });
    let calls = calls::planted(fault);
    written(call.map(|call| parts::planted(call.answer_by(&calls), fault)))
}

/// Whether a fault shows in a line.
#[cfg(test)]
pub fn shows(text: &str, fault: &str) -> bool {
    answer(text, fault) != reference::line::answer(text)
}

/// The state of a generator with the planted fault in its seeding.
fn seeded(generator: Generator, fault: &str) -> State {
    let plant = Some(fault);
    match generator {
        Generator::Number(seed) => SeedFromU64::new(plant).port(&seed),
        Generator::Bytes(seed) => FromSeed::new(plant).port(&seed),
        Generator::Zero => generator.state(),
    }
}

#[cfg(test)]
mod tests {
    use reference::line::{Name, answer};

    use super::{of, of_texts, shows};
    use crate::inputs::Source;
    use crate::program::{random, spoilt};

    /// Random lines in which a fault must show.
    const LINES: usize = 20_000;

    /// No kind of line is without a fault, and random lines of the kind are enough to find each that it can have.
    #[test]
    fn every_kind_of_line_has_faults_that_show() {
        for name in Name::ALL {
            assert!(!of(name).is_empty(), "{name} has no fault");
            for fault in of(name) {
                let mut source = Source::new(1);
                let mut lines = (0..LINES).map(|_| random::line(name, &mut source).to_string());
                let is_found = lines.any(|text| shows(&text, fault));
                assert!(is_found, "{fault} shows in no line of {name}");
            }
        }
    }

    #[test]
    fn every_fault_of_texts_shows() {
        for fault in of_texts() {
            let mut source = Source::new(1);
            let mut texts = (0..LINES).map(|_| spoilt::text(&mut source));
            let is_found = texts.any(|text| shows(&text, fault));
            assert!(is_found, "{fault} shows in no line");
        }
    }

    /// So that nothing but the fault is found.
    #[test]
    fn a_line_that_cannot_have_a_fault_is_answered_as_rand_does() {
        let mut source = Source::new(1);
        for name in Name::ALL {
            for _ in 0..50 {
                let text = random::line(name, &mut source).to_string();
                let faulty = super::answer(&text, "none of these");
                assert_eq!(faulty, answer(&text), "{text}");
            }
        }
        for _ in 0..500 {
            let text = spoilt::text(&mut source);
            let faulty = super::answer(&text, "none of these");
            assert_eq!(faulty, answer(&text), "{text}");
        }
    }
}
