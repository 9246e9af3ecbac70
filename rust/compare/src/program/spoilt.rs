//! Random lines by their text: those that are wrong in each way that there is, and good ones that are next to being so.

use reference::line::{Line, Name, ROOM, ROOMS, is_skipped};

use super::random;
use crate::inputs::Source;

/// Words that are no numbers.
const NO_NUMBERS: [&str; 14] = [
    "",
    "-1",
    "+1",
    "1.0",
    "0x1",
    "1e3",
    "1_000",
    "one",
    "18446744073709551616",
    "18446744073709551617",
    "99999999999999999999",
    "340282366920938463463374607431768211456",
    "1\t",
    "\u{b2}",
];

/// Words that are no names.
const NO_NAMES: [&str; 8] = [
    "", "wrong", "random", "nextu64", "shuffles", "choos", "sample\0", "zero",
];

/// A way to change the text of a line.
type Change = fn(&mut Source, Vec<String>) -> Vec<String>;

/// The changes of words. Each is as likely as another.
const CHANGES: [Change; 9] = [
    drop_word,
    add_word,
    no_number,
    edge_number,
    leading_zeros,
    other_generator,
    other_case,
    other_name,
    blank,
];

/// A random line that may be wrong, with one or two changes of a random line.
pub fn text(source: &mut Source) -> String {
    let name = source.one_of(&Name::ALL);
    let line = random::line(name, source).to_string();
    let mut words: Vec<String> = line.split(' ').map(str::to_owned).collect();
    if source.below(512) == 0 {
        words = many_numbers(source, words);
    }
    let text = changed(source, words);
    let is_endless = Line::parse(&text).is_some_and(|line| random::is_endless(&line));
    if is_endless || is_skipped(&text) || text.contains('\n') {
        return self::text(source);
    }
    text
}

/// The line of these words, with one or two changes.
pub fn changed(source: &mut Source, mut words: Vec<String>) -> String {
    for _ in 0..=source.below(8) / 7 {
        words = source.one_of(&CHANGES)(source, words);
    }
    let text = words.join(" ");
    match source.below(8) {
        0 => bytes(source, &text),
        _ => text,
    }
}

/// A lookup with as many numbers as there is room for, or with one more or one less.
fn many_numbers(source: &mut Source, words: Vec<String>) -> Vec<String> {
    let front = ["weight", words.get(1).map_or("zero", String::as_str)];
    let count = ROOMS.numbers - 1 + source.below(3) as usize;
    let sums = source.one_of(&[ROOM, 0]).to_string();
    let table = ["3", &sums, "0", "0"];
    let weights = (0..count - table.len()).map(|place| if place % 2 == 0 { "0" } else { "7" });
    let words = front.into_iter().chain(table).chain(weights);
    words.map(str::to_owned).collect()
}

/// One of the places of a list, if it has any.
fn place<T>(source: &mut Source, list: &[T]) -> Option<usize> {
    let len = list.len() as u32;
    (len > 0).then(|| source.below(len) as usize)
}

/// The place of a number, if there is one.
fn number(source: &mut Source, words: &[String]) -> Option<usize> {
    place(source, words.get(2..)?).map(|place| place + 2)
}

fn drop_word(source: &mut Source, mut words: Vec<String>) -> Vec<String> {
    if let Some(place) = place(source, &words) {
        words.remove(place);
    }
    words
}

fn add_word(source: &mut Source, mut words: Vec<String>) -> Vec<String> {
    let word = source.below(4).to_string();
    match source.below(2) {
        0 => words.push(word),
        _ => words.insert(source.below(words.len() as u32 + 1) as usize, word),
    }
    words
}

fn no_number(source: &mut Source, mut words: Vec<String>) -> Vec<String> {
    if let Some(place) = number(source, &words) {
        words[place] = match source.below(4) {
            0 => format!("+{}", words[place]),
            _ => source.one_of(&NO_NUMBERS).to_owned(),
        };
    }
    words
}

/// A number at an edge of what is taken somewhere: a slice's room, 32 bits, 64 bits.
fn edge_number(source: &mut Source, mut words: Vec<String>) -> Vec<String> {
    let room = ROOM as u64;
    let edges = [0, 1, 2, room - 1, room, room + 1, 1 << 32, u64::MAX];
    if let Some(place) = number(source, &words) {
        words[place] = source.one_of(&edges).to_string();
    }
    words
}

fn leading_zeros(source: &mut Source, mut words: Vec<String>) -> Vec<String> {
    if let Some(place) = number(source, &words) {
        let zeros = "0".repeat(source.below(30) as usize);
        words[place].insert_str(0, &zeros);
    }
    words
}

/// A generator that is none, or one that is next to none.
fn other_generator(source: &mut Source, mut words: Vec<String>) -> Vec<String> {
    let Some(word) = words.get_mut(1) else {
        return words;
    };
    match source.below(8) {
        0 => drop(word.pop()),
        1 => word.push('0'),
        2 => word.replace_range(..0, "0"),
        3 => *word = source.one_of(&["zeros", "Zero", "zer", "", "-"]).to_owned(),
        4 => *word = source.one_of(&NO_NUMBERS).to_owned(),
        5 => *word = "0".repeat(62 + source.below(5) as usize),
        6 => *word = format!("{}g", "0".repeat(63)),
        _ => *word = u64::MAX.to_string(),
    }
    words
}

/// Letters of the name or digits of the generator in the other case.
fn other_case(source: &mut Source, mut words: Vec<String>) -> Vec<String> {
    let place = source.below(2) as usize;
    if let Some(word) = words.get_mut(place) {
        *word = word.to_uppercase();
    }
    words
}

fn other_name(source: &mut Source, mut words: Vec<String>) -> Vec<String> {
    if let Some(word) = words.get_mut(0) {
        *word = match source.below(4) {
            0 => source.one_of(&NO_NAMES).to_owned(),
            1 => word.chars().skip(1).collect(),
            2 => format!("{word}_"),
            _ => source.one_of(&Name::ALL).to_string(),
        };
    }
    words
}

/// A blank too many: at an end, or two in a row.
fn blank(source: &mut Source, mut words: Vec<String>) -> Vec<String> {
    let place = match source.below(3) {
        0 => 0,
        1 => words.len(),
        _ => source.below(words.len() as u32 + 1) as usize,
    };
    words.insert(place, String::new());
    words
}

/// A character in place of any other or of a blank, or at the end.
fn bytes(source: &mut Source, text: &str) -> String {
    let odd = ['\r', '\t', '\0', '\u{7f}', '\u{e9}', ',', '_', '#'];
    let character = source.one_of(&odd);
    let mut characters: Vec<char> = text.chars().collect();
    match (source.below(3), place(source, &characters)) {
        (0, Some(place)) => characters[place] = character,
        (1, _) => return text.replacen(' ', &character.to_string(), 1),
        _ => characters.push(character),
    }
    characters.into_iter().collect()
}

#[cfg(test)]
mod tests {
    use reference::line::call;

    use super::text;
    use crate::inputs::Source;

    #[test]
    fn texts_are_wrong_more_often_than_not() {
        let mut source = Source::new(1);
        let texts = (0..5000).map(|_| text(&mut source));
        let good = texts.filter(|text| call(text).is_some()).count();
        assert!((200..2500).contains(&good), "{good}");
    }
}
