//! Lines that count as smaller than another. No chain of them is endless: the generator is named by bytes, then by a number, and else a
//! text gets shorter, or a number in it gets smaller, or a list.

use reference::State;
use reference::call::Call;
use reference::choose_line::{Choosing, Hints};
use reference::generator::Generator;
use reference::line::{Line, Rooms, call, is_skipped};
use reference::weights_line::{Changed, Looking, Picking};

use super::process::Asked;
use super::random::is_endless;
use crate::choose::{self, Choose};
use crate::inputs::{smaller, smaller_states};
use crate::kind::Kind;
use crate::stratified;
use crate::weights::lists;

/// The most words of a line of which each is looked at.
const FEW: usize = 100;

/// A line of more numbers than this only gets shorter: it has too many neighbours to try them all.
const LONG: usize = 500;

/// Small seeds, to be named in place of bytes.
const SEEDS: u64 = 8;

/// The lines that are one step smaller than this one.
pub fn than(asked: &Asked) -> Vec<Asked> {
    let text = asked.line();
    let mut texts = Vec::new();
    if asked.text() != text {
        texts.push(text.to_owned());
    }
    match Line::parse(text) {
        Some(line) if line.numbers.len() > LONG => {
            texts.extend(halved(&line).iter().map(Line::to_string));
        }
        Some(line) => {
            texts.extend(lines(&line).iter().map(Line::to_string));
            texts.extend(spelled(text));
            // The characters matter where the line is wrong, or written in another way than it need be.
            if call(text).is_none() || line.to_string() != text {
                texts.extend(shorter(text));
            }
        }
        None => texts.extend(shorter(text)),
    }
    // A text that is written anew may be the same line: it is no smaller one.
    texts.retain(|less| *less != asked.text() && is_asked(less));
    texts.into_iter().map(Asked::new).collect()
}

/// Whether a text can be asked: it is one line, and its call ends.
fn is_asked(text: &str) -> bool {
    let is_endless = Line::parse(text).is_some_and(|line| is_endless(&line));
    !is_endless && !is_skipped(text) && !text.contains('\n')
}

/// The line with a smaller number and all other words as they are written.
fn spelled(text: &str) -> Vec<String> {
    let words: Vec<&str> = text.split(' ').collect();
    let mut texts = Vec::new();
    for place in 2..words.len().min(FEW) {
        let number = words[place].parse().unwrap_or(0);
        texts.extend(smaller(number).map(|less| {
            let less = less.to_string();
            let mut words = words.clone();
            words[place] = &less;
            words.join(" ")
        }));
    }
    texts
}

/// The generator of a line alone, and the text of the line without a word or without a character.
fn shorter(text: &str) -> Vec<String> {
    let words: Vec<&str> = text.split(' ').collect();
    let mut texts = Vec::new();
    if words.len() > 2 {
        texts.push(format!("seed {}", words[1]));
    }
    for place in 0..words.len().min(FEW) {
        let (front, back) = (&words[..place], &words[place + 1..]);
        texts.push([front, back].concat().join(" "));
    }
    let places = text.char_indices().take(2 * FEW);
    texts.extend(places.map(|(place, character)| {
        let behind = place + character.len_utf8();
        [&text[..place], &text[behind..]].concat()
    }));
    texts
}

/// A long line with the front or the back of its list, without its last entry or some parts, or from the first seed.
fn halved(line: &Line) -> Vec<Line> {
    let generator = Generator::Number(0);
    let seeded = Line {
        generator,
        ..line.clone()
    };
    let mut lines = vec![seeded];
    if let Some(call) = unbounded(line) {
        let halves = match &call {
            Call::Choose(call) => each(ends(call), Call::Choose),
            Call::ChooseStable(call) => each(ends(call), Call::ChooseStable),
            Call::Pick(call) => each(fronts(&call.table), |table| {
                Call::Pick(Picking {
                    table,
                    ..call.clone()
                })
            }),
            Call::Weight(call) => each(fronts(&call.table), |table| {
                Call::Weight(Looking {
                    table,
                    ..call.clone()
                })
            }),
            Call::SampleStratified(call) => {
                let mut calls = stratified::fewer(call);
                calls.truncate(FEW);
                each(calls, Call::SampleStratified)
            }
            _ => Vec::new(),
        };
        lines.extend(named(line, halves));
    }
    lines
}

/// Choices from the last half of the items and from all but the first, with the hints that they have there.
fn ends(call: &Choosing) -> Vec<Choosing> {
    let Hints::Given(lower, upper) = &call.hints else {
        return Vec::new();
    };
    let len = call.items_len;
    let mut choices = Vec::new();
    for items_len in [len / 2, len.saturating_sub(1)] {
        let [lower, upper] = [lower, upper].map(|list| {
            let gone = (len - items_len).min(list.len());
            list[gone..].to_vec()
        });
        choices.push(Choosing {
            items_len,
            hints: Hints::Given(lower, upper),
            ..call.clone()
        });
    }
    choices
}

/// Tables of the first half of the weights, of all but the last, and without a change.
fn fronts(table: &Changed) -> Vec<Changed> {
    let len = table.weights.len();
    let mut tables = Vec::new();
    for len in [len / 2, len.saturating_sub(1)] {
        let weights = table.weights[..len].to_vec();
        tables.push(Changed {
            weights,
            ..table.clone()
        });
    }
    tables.push(Changed {
        places: Vec::new(),
        changes: Vec::new(),
        ..table.clone()
    });
    tables
}

/// The call of a line, without regard to rooms.
fn unbounded(line: &Line) -> Option<Call> {
    let rooms = Rooms {
        entries: usize::MAX,
        numbers: usize::MAX,
    };
    Call::of(line, rooms)
}

/// The lines of calls, with the generator named as in this one.
fn named(line: &Line, calls: Vec<Call>) -> Vec<Line> {
    let lines = calls.into_iter().map(|call| Line {
        generator: line.generator,
        ..call.line()
    });
    lines.collect()
}

/// Lines with smaller lists or with a smaller generator.
fn lines(line: &Line) -> Vec<Line> {
    let mut lines = structured(line);
    lines.extend(generators(line.generator).map(|generator| Line {
        generator,
        ..line.clone()
    }));
    lines
}

/// Smaller generators: of a number a smaller one, and of bytes a small number or a smaller state.
fn generators(generator: Generator) -> Box<dyn Iterator<Item = Generator>> {
    match generator {
        Generator::Zero => Box::new([].into_iter()),
        Generator::Number(seed) => Box::new(smaller(seed).map(Generator::Number)),
        Generator::Bytes(_) => {
            let seeds = (0..SEEDS).map(Generator::Number);
            let states = smaller_states(generator.state()).map(Generator::of_state);
            Box::new(seeds.chain(states))
        }
    }
}

/// Lines with smaller lists of hints, places, weights and parts. The generator is named as before.
fn structured(line: &Line) -> Vec<Line> {
    let calls = match unbounded(line) {
        Some(Call::Choose(call)) => each(choices(&call), Call::Choose),
        Some(Call::ChooseStable(call)) => each(choices(&call), Call::ChooseStable),
        Some(Call::Pick(call)) => each(tables(&call.table), |table| {
            Call::Pick(Picking {
                table,
                ..call.clone()
            })
        }),
        Some(Call::Weight(call)) => each(tables(&call.table), |table| {
            Call::Weight(Looking {
                table,
                ..call.clone()
            })
        }),
        Some(Call::SampleStratified(call)) => {
            let calls = [stratified::fewer(&call), stratified::lists(&call)].concat();
            each(calls, Call::SampleStratified)
        }
        _ => Vec::new(),
    };
    named(line, calls)
}

fn each<T>(inputs: Vec<T>, make: impl Fn(T) -> Call) -> Vec<Call> {
    inputs.into_iter().map(make).collect()
}

/// Choices with fewer items or smaller hints, or with hints that are made.
fn choices(call: &Choosing) -> Vec<Choosing> {
    let Hints::Given(lower, upper) = &call.hints else {
        return Vec::new();
    };
    let with = |items_len, hints| Choosing {
        items_len,
        hints,
        ..call.clone()
    };
    let made = [Hints::None, Hints::Exact].map(|hints| with(call.items_len, hints));
    let input = choose::Input {
        from: no_state(),
        items: vec![0; call.items_len],
        lower: lower.clone(),
        upper: upper.clone(),
        budget: 0,
    };
    let inputs = Choose::smaller(&input).into_iter();
    let given = inputs.map(|less| with(less.items.len(), Hints::Given(less.lower, less.upper)));
    made.into_iter().chain(given).collect()
}

/// A state that has no smaller ones, for an input of which the lists alone matter.
fn no_state() -> State {
    [0; 4]
}

/// Tables with one list made smaller.
fn tables(table: &Changed) -> Vec<Changed> {
    let with = |change: &dyn Fn(&mut Changed)| {
        let mut less = table.clone();
        change(&mut less);
        less
    };
    let weights = lists(&table.weights).into_iter();
    let mut tables: Vec<Changed> = weights
        .map(|less| with(&|table| table.weights = less.clone()))
        .collect();
    let places = lists(&table.places).into_iter();
    tables.extend(places.map(|less| with(&|table| table.places = less.clone())));
    let changes = lists(&table.changes).into_iter();
    tables.extend(changes.map(|less| with(&|table| table.changes = less.clone())));
    let both = table.places.len().min(table.changes.len());
    tables.extend((0..both).map(|at| {
        with(&|table| {
            table.places.remove(at);
            table.changes.remove(at);
        })
    }));
    tables
}

#[cfg(test)]
mod tests {
    use reference::line::Name;

    use super::than;
    use crate::inputs::Source;
    use crate::program::process::Asked;
    use crate::program::{faults, random, spoilt};

    /// The smallest line that a fault shows in, from this one on.
    fn smallest(text: String, fault: &str) -> Asked {
        let mut found = Asked::new(text);
        let shows = |asked: &Asked| faults::shows(asked.line(), fault);
        for _ in 0..1000 {
            match than(&found).into_iter().find(shows) {
                Some(less) => found = less,
                None => return found,
            }
        }
        panic!("{fault} has an endless chain: {}", found.line());
    }

    fn first(fault: &str, mut texts: impl Iterator<Item = String>) -> String {
        let shows = |text: &String| faults::shows(text, fault);
        texts.find(shows).expect("the fault shows")
    }

    #[test]
    fn lines_get_small() {
        for (name, fault, least) in [
            (Name::Seed, "answer-generator", "seed 0"),
            (Name::NextU32, "word-unadvanced", "next_u32 0"),
            (Name::Sample, "answer-value-more", "sample 0 0 0 0 0 0"),
            (Name::Shuffle, "shuffle-moves-nothing", "shuffle 0 2 1"),
            (Name::Weight, "weight-beyond", "weight 0 1 0 0 0 1"),
            (Name::Choose, "answer-value-more", "choose 0 0 0 0"),
            (
                Name::SampleStratified,
                "strata-empty-skipped",
                "sample_stratified 0 1 1 0 2 1 1 0 1",
            ),
        ] {
            let mut source = Source::new(1);
            let lines = (0..).map(|_| random::line(name, &mut source).to_string());
            let text = first(fault, lines);
            assert_eq!(smallest(text, fault).line(), least, "{fault}");
        }
    }

    #[test]
    fn texts_get_small() {
        for fault in faults::of_texts() {
            let mut source = Source::new(1);
            let text = first(fault, (0..).map(|_| spoilt::text(&mut source)));
            let least = smallest(text, fault);
            // A line with too many numbers has no small one.
            let most = if fault.starts_with("numbers") {
                70_000
            } else {
                100
            };
            assert!(least.line().len() < most, "{fault}: {}", least.line());
        }
    }

    /// What stands before a line goes first.
    #[test]
    fn a_line_gets_rid_of_the_skipped_ones() {
        let asked = Asked::new("seed 1".to_owned()).behind("# a");
        assert_eq!(than(&asked)[0].text(), "seed 1");
    }
}
