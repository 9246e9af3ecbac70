//! Faults in which lines are calls: some that are wrong are answered, and some that are calls are not.

use reference::call::Call;
use reference::generator::Generator;
use reference::line::{self, Line, ROOMS, Rooms, WRONG, written};

/// What a wrong line is taken for.
type Taken = fn(&str) -> String;

/// The faults by which wrong lines are taken, each for another line.
const TAKEN: [(&str, Taken); 12] = [
    ("blanks-trimmed", |text| text.trim_matches(' ').to_owned()),
    ("blanks-doubled", |text| text.replace("  ", " ")),
    ("return-taken", |text| text.replace('\r', "")),
    ("tab-as-blank", |text| text.replace('\t', " ")),
    ("word-more", |text| {
        text.rsplit_once(' ')
            .map_or(String::new(), |(front, _)| front.to_owned())
    }),
    ("word-missing", |text| format!("{text} 0")),
    ("number-modulo", |text| words(text, modulo)),
    ("sign-taken", |text| text.replace('+', "")),
    ("entry-modulo", |text| words(text, low_half)),
    ("name-case", |text| text.to_lowercase()),
    ("digits-short", digits_short),
    ("name-longer", |text| text.replacen("_ ", " ", 1)),
];

/// The faults by which there is one room more than there is: an entry of a slice, or a number of a line.
const MORE: [(&str, Rooms); 2] = [
    (
        "room-more",
        Rooms {
            entries: ROOMS.entries + 1,
            ..ROOMS
        },
    ),
    (
        "numbers-more",
        Rooms {
            numbers: ROOMS.numbers + 1,
            ..ROOMS
        },
    ),
];

/// Whether a call is not taken.
type Refused = fn(&str) -> bool;

/// The faults by which calls are taken for wrong lines.
const REFUSED: [(&str, Refused); 7] = [
    ("digits-upper", |text| {
        text.bytes().any(|byte| byte.is_ascii_uppercase())
    }),
    ("leading-zero", |text| {
        let mut words = text.split(' ').skip(2);
        words.any(|word| word.len() > 1 && word.starts_with('0'))
    }),
    ("greatest-number", |text| {
        text.split(' ').any(|word| word == u64::MAX.to_string())
    }),
    ("room-full", |text| {
        let rooms = Rooms {
            entries: ROOMS.entries - 1,
            ..ROOMS
        };
        Line::parse(text).is_some_and(|line| Call::of(&line, rooms).is_none())
    }),
    ("numbers-full", |text| {
        Line::parse(text).is_some_and(|line| line.numbers.len() == ROOMS.numbers)
    }),
    ("zero-unknown", |text| {
        Line::parse(text).is_some_and(|line| line.generator == Generator::Zero)
    }),
    ("zero-bytes-unknown", |text| {
        Line::parse(text).is_some_and(|line| line.generator == Generator::Bytes([0; 32]))
    }),
];

/// The names of all.
pub fn names() -> Vec<&'static str> {
    let taken = TAKEN.into_iter().map(|(name, _)| name);
    let refused = REFUSED.into_iter().map(|(name, _)| name);
    let more = MORE.into_iter().map(|(name, _)| name);
    taken.chain(more).chain(refused).collect()
}

/// The answer to a line with this fault in it, where it is one of these.
pub fn answer(text: &str, fault: &str) -> Option<String> {
    let is_wrong = line::call(text).is_none();
    if let Some((_, taken)) = TAKEN.into_iter().find(|(name, _)| *name == fault) {
        let text = if is_wrong { &taken(text) } else { text };
        return Some(line::answer(text));
    }
    if let Some((_, rooms)) = MORE.into_iter().find(|(name, _)| *name == fault) {
        let line = Line::parse(text);
        let call = line.and_then(|line| Call::of(&line, rooms));
        return Some(written(call.map(|call| call.answer())));
    }
    let (_, is_refused) = REFUSED.into_iter().find(|(name, _)| *name == fault)?;
    Some(match is_refused(text) {
        true => WRONG.to_owned(),
        false => line::answer(text),
    })
}

/// The line with each word changed so.
fn words(text: &str, change: fn(&str) -> String) -> String {
    let words: Vec<String> = text.split(' ').map(change).collect();
    words.join(" ")
}

/// The generator of 63 digits with one more.
fn digits_short(text: &str) -> String {
    words(text, |word| match word.len() {
        63 => format!("{word}0"),
        _ => word.to_owned(),
    })
}

/// A number that is too large, modulo 2^64.
fn modulo(word: &str) -> String {
    let number = word.parse::<u128>();
    number.map_or(word.to_owned(), |number| (number as u64).to_string())
}

/// A number, modulo 2^32.
fn low_half(word: &str) -> String {
    let number = word.parse::<u64>();
    number.map_or(word.to_owned(), |number| (number as u32).to_string())
}
