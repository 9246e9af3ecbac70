//! The port's calls, as far as they have a function at the C boundary. The others are rand's: they are made by the Rattle program alone.

use reference::call::{Calls, RAND};

use crate::{choose, fill, sample, shuffle, stratified, view, weights, word};

/// The port's calls.
pub const PORT: Calls = Calls {
    next_u32: word::port,
    sample: sample::port::end,
    view: view::port::view,
    partial_shuffle: shuffle::port::partial_shuffle,
    shuffle: shuffle::port::shuffle,
    sample_fill: fill::port::sample_fill,
    choose: choose::port::choose,
    choose_stable: choose::port::choose_stable,
    weights: weights::PORT,
    sample_stratified: stratified::port::end,
    ..RAND
};

/// The fixed list holds the C boundary too. Its answers are rand's; the Rattle program is held to them in the gate.
#[cfg(test)]
mod tests {
    use std::fs;

    use reference::line::{CLASS, Name, call, is_skipped, written};

    use super::PORT;

    /// How many lines of each call the list has at least.
    const LEAST: [(Name, usize); 11] = [
        (Name::NextU32, 50),
        (Name::Sample, 100),
        (Name::IndexedSamples, 40),
        (Name::PartialShuffle, 50),
        (Name::Shuffle, 10),
        (Name::SampleFill, 20),
        (Name::Choose, 40),
        (Name::ChooseStable, 40),
        (Name::Pick, 80),
        (Name::Weight, 40),
        (Name::SampleStratified, 60),
    ];

    #[test]
    fn the_port_gives_the_answers_of_the_list() {
        let file = |name| {
            let path = format!("{}/../../crates/draw/{name}", env!("CARGO_MANIFEST_DIR"));
            fs::read_to_string(path).expect("the list is there")
        };
        let (list, answers) = (file("stdin"), file("stdout"));
        // Not `lines`: a line may end with a carriage return, which makes it wrong.
        let mut lines = list.split_terminator('\n');
        assert_eq!(lines.next(), Some(CLASS));
        let lines = lines.filter(|line| !is_skipped(line));
        let mut counts = [0; Name::ALL.len()];
        assert_eq!(lines.clone().count(), answers.lines().count());
        for (line, answer) in lines.zip(answers.lines()) {
            let call = call(line);
            if let Some(call) = &call {
                counts[call.line().name as usize] += 1;
            }
            let port = written(call.map(|call| call.answer_by(&PORT)));
            assert_eq!(port, answer, "{line}");
        }
        for (name, least) in LEAST {
            assert!(counts[name as usize] >= least, "{name}: {counts:?}");
        }
    }
}
