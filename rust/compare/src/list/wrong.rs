//! Lines that are wrong in each way, and good ones that are next to being so.

use reference::line::{ROOM, call};

use crate::contents::Section;

/// Lines that are no calls: by their blanks, names, generators, counts of numbers, numbers, and numbers that their calls do not take.
const WRONG: [&str; 81] = [
    // blanks and what is none
    " seed 1",
    "seed 1 ",
    "seed  1",
    "seed\t1",
    "seed 1\r",
    "seed 1\t",
    " ",
    "\r",
    "sample 1 10 3 0 3  0",
    // names
    "seed_from_u64 1",
    "Seed 1",
    "SEED 1",
    "see 1",
    "seeds 1",
    "zero",
    "wrong",
    "1 seed",
    "next_u 1",
    "weighted_index 1 2 3",
    "stratified 1 9 3 0 0",
    "random_range_within 1 6 9",
    "lent_words 1 3",
    " # a comment that does not begin the line",
    // generators
    "seed",
    "seed ",
    "seed -1",
    "seed +1",
    "seed 1.0",
    "seed one",
    "seed Zero",
    "seed zero0",
    "seed 0x1",
    "seed 18446744073709551616",
    "seed ab",
    "seed 000000000000000000000000000000000000000000000000000000000000000g",
    "seed abababababababababababababababababababababababababababababababa",
    "seed ababababababababababababababababababababababababababababababababa",
    "seed 00000000000000000000000000000000000000000000000000000000000000001 2",
    // counts of numbers
    "seed 1 2",
    "next_u64 1 1",
    "next_u32 1 1",
    "random_range 1 6",
    "random_range 1 6 9 9",
    "uniform_int 1",
    "sample 1 10 3 0 3",
    "sample 1 10 3 0 3 0 0",
    "indexed_samples 1 10 3 0 3",
    "partial_shuffle 1 10 3",
    "partial_shuffle 1 10 3 9 9",
    "shuffle 1 2",
    "shuffle 1 2 9 9",
    "tail 1 5",
    "head 1 5 2 1",
    "sample_fill 1 10 3",
    "sample_fill 1 10 3 9 9",
    "choose 1 10 9",
    "choose 1 10 9 1 1",
    "choose_stable 1 10 9 0 0",
    "choose 1 1 9 2",
    "pick 1 1 9 2 0",
    "weight 1 0 2 0",
    "sample_stratified 1 9 3 0",
    "sample_stratified 1 9 3 0 2 5",
    // numbers
    "shuffle 1 -1 9",
    "shuffle 1 +1 9",
    "shuffle 1 1 9a",
    "shuffle 1 1 18446744073709551616",
    "partial_shuffle 1 3 36893488147419103233 9",
    "sample 1 10 3 1.5 3 0",
    "sample_stratified 1 9 3 0 1 18446744073709551616 0",
    // what the calls do not take
    "random_range 1 0 9",
    "random_range 1 4294967296 9",
    "uniform_int 1 0 9",
    "choose 1 1 9 3",
    "choose 1 1 9 2 3 1 0",
    "choose_stable 1 1 9 2 2 1 0 4294967296 0",
    "pick 1 1 9 2 1 1 0",
    "pick 1 1 9 2 0 0 1 4294967296",
    "weight 1 0 2 1 1 0 4294967296 1",
    "sample_stratified 1 9 3 0 3 5 5",
    "sample_stratified 1 9 3 0 18446744073709551615 5 1",
];

/// Good lines that are next to wrong ones: zeros before numbers, places and numbers at their greatest, lists of no entries.
const GOOD: [&str; 16] = [
    "seed 007",
    "seed 00000000000000000000000000000000000000000000000000000000000001",
    "random_range 00 06 09",
    "shuffle 1 00000000000000000000000000000000000000003 09",
    "random_range 1 4294967295 18446744073709551615",
    "sample 1 18446744073709551615 18446744073709551615 18446744073709551615 0 0",
    "partial_shuffle 1 3 18446744073709551615 18446744073709551615",
    "tail 1 3 18446744073709551615",
    "choose 1 0 9 2 1 0 4294967295",
    "choose 1 0 9 2 0",
    "pick 1 0 0 0 0 0",
    "weight zero 0 0 1 0 18446744073709551615 1",
    "sample_stratified 1 0 0 0 0",
    "sample_stratified 1 09 03 00 2 05 5 01 2",
    "sample_stratified 1 9 3 0 0 18446744073709551615",
    "sample_stratified 1 18446744073709551615 3 0 2 5 18446744073709551615",
];

/// All these lines of the list.
pub fn sections() -> Vec<Section> {
    vec![wrong(), good(), rooms(), skipped()]
}

fn wrong() -> Section {
    assert!(WRONG.iter().all(|text| call(text).is_none()));
    let lines = WRONG.map(str::to_owned).to_vec();
    Section::of_lines("Lines that are no calls", lines)
}

fn good() -> Section {
    assert!(GOOD.iter().all(|text| call(text).is_some()));
    let lines = GOOD.map(str::to_owned).to_vec();
    Section::of_lines("Lines that are next to wrong ones", lines)
}

/// Slices that take all the room there is, and one entry more.
fn rooms() -> Section {
    let mut lines = Vec::new();
    for (len, is_good) in [(ROOM, true), (ROOM + 1, false)] {
        let hinted = len - 1;
        let asked = [
            format!("sample 1 10 3 9 {len} 0"),
            format!("sample 1 10 3 9 3 {len}"),
            format!("indexed_samples 1 {len} 3 9 3 0"),
            format!("indexed_samples 1 10 3 9 {len} 0"),
            format!("indexed_samples 1 10 3 9 3 {len}"),
            format!("partial_shuffle 1 {len} 2 9"),
            format!("shuffle zero {len} 9"),
            format!("tail 1 {len} 65534"),
            format!("head 1 {len} 3"),
            format!("sample_fill 1 {len} 2 99999"),
            format!("sample_fill 1 2 {len} 0"),
            format!("choose 1 {hinted} 9 1"),
            format!("choose_stable 1 {hinted} 9 0"),
            format!("choose 1 {len} 9 2 0"),
            format!("pick 1 1 9 {len} 0 0 2 0 3"),
            format!("pick zero {len} 9 2 0 0 2 0 3"),
            format!("weight 1 1 {len} 0 0 2 5"),
            format!("sample_stratified 1 9 {len} 0 2 9 5 2 1"),
            format!("sample_stratified 1 9 3 {len} 2 9 5 2 1"),
        ];
        assert!(asked.iter().all(|line| call(line).is_some() == is_good));
        lines.extend(asked);
    }
    for name in ["tail", "head", "shuffle"] {
        lines.push(format!("{name} 1 18446744073709551615 1"));
    }
    for name in ["partial_shuffle", "sample_fill"] {
        lines.push(format!("{name} 1 18446744073709551615 1 9"));
    }
    Section::of_lines(
        "Slices that take all the room, and those that do not fit",
        lines,
    )
}

/// Lines that have no answer, before and between others.
fn skipped() -> Section {
    let lines = ["", "seed 1", "", "", "#", "#seed 1", "seed 2", "##"];
    Section::of_lines("Lines that are skipped", lines.map(str::to_owned).to_vec())
}
