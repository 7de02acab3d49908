//! Questions about the names table.

use super::{damaged_everywhere, damaged_somewhere, short_strings, Sink};
use crate::call::Question;
use crate::limits::{MAX_NAMES, MAX_NAME_BYTES};
use crate::names::is_name;
use crate::random::Random;
use std::collections::BTreeSet;

/// Numbers that `read_name` is asked for: in use or just not, and those whose
/// low bytes alone would be in use.
const NUMBERS: [u32; 11] = [0, 1, 2, 3, 4, 255, 256, 65_535, 65_536, 65_537, u32::MAX];

/// Page lengths that are tried one by one.
const SHORT_PAGES: usize = 40;

const LETTERS: &[u8] = b"abcdefghijklmnopqrstuvwxyzABCDEFGHIJKLMNOPQRSTUVWXYZ_";
const REST: &[u8] = b"0123456789abcdefghijklmnopqrstuvwxyzABCDEFGHIJKLMNOPQRSTUVWXYZ_";

pub fn questions(random: &mut Random, rounds: usize, ask: Sink) {
    short_pages(ask);
    short_names(ask);
    long_names(ask);
    damaged_tables(random, ask);
    long_pages(random, ask);
    full_tables(random, ask);
    for _ in 0..rounds {
        ask(empty_names(random));
        ask(add_name(random));
        ask(find_name(random));
        ask(read_name(random));
    }
}

// ---- Tables and names ----

/// The bytes of any names up to the last one, in form or not.
pub fn table(names: &[Vec<u8>]) -> Vec<u8> {
    let mut bytes = (names.len() as u16).to_be_bytes().to_vec();
    for name in names {
        bytes.push(name.len() as u8);
        bytes.extend(name);
    }
    bytes
}

/// A table of words, on a page of the given length (at least the table's own).
pub fn table_on(words: &[&str], length: usize) -> Vec<u8> {
    let names: Vec<Vec<u8>> = words.iter().map(|word| word.as_bytes().to_vec()).collect();
    let mut page = table(&names);
    page.resize(length.max(page.len()), 0);
    page
}

/// As many different names as asked for, the shortest there are: one letter, then two bytes.
pub fn shortest_names(count: usize) -> Vec<Vec<u8>> {
    let one = LETTERS.iter().map(|&letter| vec![letter]);
    let two = LETTERS.iter().flat_map(|&letter| REST.iter().map(move |&other| vec![letter, other]));
    one.chain(two).take(count).collect()
}

/// A name of the given length.
pub fn name_of(random: &mut Random, length: usize) -> Vec<u8> {
    let mut name = vec![*random.pick(LETTERS)];
    name.extend((1..length).map(|_| *random.pick(REST)));
    name
}

/// A name of a kind that a careless table would confuse with another.
pub fn some_name(random: &mut Random) -> Vec<u8> {
    match random.below(8) {
        // Prefixes of one another.
        0 | 1 => {
            let length = random.below(MAX_NAME_BYTES) + 1;
            b"mmabcdefghijklmnopqrstuvwxyzABC"[..length].to_vec()
        }
        // Upper and lower case, underscore and digit.
        2 | 3 => {
            let mut name = vec![*random.pick(b"mM_")];
            name.extend((0..random.below(3)).map(|_| *random.pick(b"mM_0")));
            name
        }
        4 => {
            let length = MAX_NAME_BYTES - random.below(2);
            name_of(random, length)
        }
        _ => {
            let length = random.below(4) + 1;
            name_of(random, length)
        }
    }
}

/// Mostly a name; else something that misses being one.
fn some_word(random: &mut Random) -> Vec<u8> {
    match random.below(12) {
        0 => Vec::new(),
        1 => {
            let length = MAX_NAME_BYTES + 1 + random.below(3);
            name_of(random, length)
        }
        2 => [&[*random.pick(b"0123456789")][..], &some_name(random)[1..]].concat(),
        3 => {
            let name = some_name(random);
            damaged_somewhere(&name, random)
        }
        _ => some_name(random),
    }
}

/// Different names, of all kinds.
pub fn different_names(random: &mut Random, count: usize) -> Vec<Vec<u8>> {
    let mut known = BTreeSet::new();
    let mut names = Vec::new();
    while names.len() < count {
        let name = some_name(random);
        if known.insert(name.clone()) {
            names.push(name);
        }
    }
    names
}

/// How many names a table gets: few, or seldom about as many as there may be.
fn some_count(random: &mut Random) -> usize {
    if random.once_in(40) {
        *random.pick(&[MAX_NAMES - 2, MAX_NAMES - 1, MAX_NAMES, MAX_NAMES + 1])
    } else {
        random.below(7)
    }
}

/// Words that are usually different names, and one to ask of them: one of them,
/// one that begins or goes on like one of them, or any other.
fn names_and_word(random: &mut Random) -> (Vec<Vec<u8>>, Vec<u8>) {
    let count = some_count(random);
    let mut names = different_names(random, count);
    if count > 1 && random.once_in(10) {
        let (from, to) = (random.below(count), random.below(count));
        names[to] = names[from].clone();
    }
    if count > 0 && random.once_in(10) {
        names[random.below(count)] = some_word(random);
    }
    if count == 0 {
        return (names, some_word(random));
    }
    let known = random.pick(&names).clone();
    let word = match random.below(6) {
        0 | 1 => known,
        2 => known[..known.len().saturating_sub(1)].to_vec(),
        3 => [known, vec![*random.pick(REST)]].concat(),
        _ => some_word(random),
    };
    (names, word)
}

/// A page of the names with about as much room as the word needs, seldom damaged.
fn page_for(names: &[Vec<u8>], word: &[u8], random: &mut Random) -> Vec<u8> {
    let mut page = table(names);
    let need = 1 + word.len();
    let room = *random.pick(&[0, 1, need - 1, need, need, need + 1, 40]);
    page.resize(page.len() + room, 0);
    match random.below(10) {
        0 => damaged_somewhere(&page, random),
        _ => page,
    }
}

// ---- One random question of each call ----

pub fn empty_names(random: &mut Random) -> Question {
    let length = *random.pick(&[0, 1, 2, 3, 30, 60]);
    let page: Vec<u8> = (0..length).map(|_| random.byte()).collect();
    Question::empty_names(&page)
}

pub fn add_name(random: &mut Random) -> Question {
    let (names, word) = names_and_word(random);
    Question::add_name(&page_for(&names, &word, random), &word)
}

pub fn find_name(random: &mut Random) -> Question {
    let (names, word) = names_and_word(random);
    Question::find_name(&page_for(&names, &word, random), &word)
}

pub fn read_name(random: &mut Random) -> Question {
    let (names, word) = names_and_word(random);
    let page = page_for(&names, &word, random);
    let number = match random.below(4) {
        0 => *random.pick(&NUMBERS),
        _ => random.below(names.len() + 1) as u32,
    };
    Question::read_name(&page, number)
}

// ---- Exhaustive and damaged questions ----

/// Every call that is lent a names page, on that page. `unit_text` is asked too,
/// since it judges the page by the same rule.
fn ask_all(page: &[u8], words: &[&[u8]], ask: Sink) {
    ask(Question::empty_names(page));
    for word in words {
        ask(Question::add_name(page, word));
        ask(Question::find_name(page, word));
    }
    for number in NUMBERS {
        ask(Question::read_name(page, number));
    }
    // m; s/m in the wrong order; a symbol seldom in use; no count; exponent 0; no unit.
    let units: [&[u8]; 7] = [
        &[0],
        &[1, 0, 0, 1],
        &[2, 1, 0, 1, 0, 255, 255],
        &[1, 2, 255, 255],
        &[],
        &[1, 0, 0, 0],
        &[255],
    ];
    for unit in units {
        ask(Question::unit_text(page, unit));
    }
}

fn small_tables() -> Vec<Vec<u8>> {
    vec![
        table_on(&["m"], 0),
        table_on(&["m", "s"], 0),
        table_on(&["m", "mm", "M", "_m"], 0),
        table_on(&["m", "s", "m"], 0),
        table(&[vec![b'm'; MAX_NAME_BYTES], b"m".to_vec()]),
        table(&[vec![b'm'; MAX_NAME_BYTES + 1], b"m".to_vec()]),
        table_on(&["a", "b", "c", "d", "e", "f", "g", "h", "i", "j", "k"], 0),
    ]
}

/// Pages of each short length: of zeros, of 255s, and of tables cut short or followed by zeros.
fn short_pages(ask: Sink) {
    let longest = [b'n'; MAX_NAME_BYTES];
    let words: [&[u8]; 7] = [b"", b"m", b"s", b"mm", b"2mm", b"new", &longest];
    for length in 0..=SHORT_PAGES {
        ask_all(&vec![0; length], &words, ask);
        ask_all(&vec![255; length], &words, ask);
        for mut page in small_tables() {
            page.resize(length, 0);
            ask_all(&page, &words, ask);
        }
    }
}

/// Every name of up to two bytes, against a table that has some of them.
fn short_names(ask: Sink) {
    let page = table_on(&["m", "mm", "M", "_", "a0", "Zz"], 40);
    for name in short_strings() {
        ask(Question::add_name(&page, &name));
        ask(Question::find_name(&page, &name));
    }
}

/// Names of every length up to 64 and beyond a byte, and names of the greatest
/// length with each byte at each place.
fn long_names(ask: Sink) {
    let longest = [b'n'; MAX_NAME_BYTES];
    let mut table = table(&[longest.to_vec(), longest[1..].to_vec()]);
    table.resize(400, 0);

    for length in (0..=64).chain([255, 256, 257, 256 + 31, 65_536 + 1]) {
        let name = vec![b'n'; length];
        ask(Question::add_name(&table, &name));
        ask(Question::find_name(&table, &name));
    }
    for place in 0..MAX_NAME_BYTES {
        for byte in 0..=255 {
            let mut name = longest;
            name[place] = byte;
            ask(Question::add_name(&table, &name));
            ask(Question::find_name(&table, &name));
        }
    }
}

fn damaged_tables(random: &mut Random, ask: Sink) {
    for table in small_tables() {
        for room in [0, 2, 3, 7] {
            let page = [table.clone(), vec![0; room]].concat();
            for damaged in damaged_everywhere(&page, random) {
                ask_all(&damaged, &[b"m", b"s", b"2"], ask);
            }
        }
    }
}

/// Pages longer than any table, one of them past two bytes of length, with a
/// byte other than zero at the far end or none.
fn long_pages(random: &mut Random, ask: Sink) {
    for length in [8_193, 8_194, 8_195, 65_535, 65_536, 70_000] {
        let mut page = table_on(&["m", "s", "mm"], length);
        ask_all(&page, &[b"m", b"new"], ask);
        page[length - 1] = random.byte() | 1;
        ask_all(&page, &[b"m", b"new"], ask);
    }
}

/// Tables of 254 to 257 names with just enough room, one byte less and one more;
/// and a table grown name by name until it is full, of short names and of the longest.
fn full_tables(random: &mut Random, ask: Sink) {
    for count in MAX_NAMES - 2..=MAX_NAMES + 1 {
        for room in [0, 2, 3, 4, 10] {
            let mut page = table(&shortest_names(count));
            page.resize(page.len() + room, 0);
            ask_all(&page, &[b"m", b"zz", b"new", b"9"], ask);
            let damaged = damaged_somewhere(&page, random);
            ask_all(&damaged, &[b"m", b"zz", b"new", b"9"], ask);
        }
    }
    let longest = (0..MAX_NAMES + 1).map(|_| name_of(random, MAX_NAME_BYTES)).collect::<Vec<_>>();
    for names in [shortest_names(MAX_NAMES + 1), different_names(random, MAX_NAMES + 1), longest] {
        grow(&names, 2 + MAX_NAMES * (1 + MAX_NAME_BYTES), ask);
        grow(&names, 600, ask);
    }
}

/// Adds the names one after another, each to the page as the last one left it.
fn grow(names: &[Vec<u8>], length: usize, ask: Sink) {
    let mut page = vec![0; length];
    for name in names {
        assert!(is_name(name), "only names are added here");
        page = ask(Question::add_name(&page, name)).page;
    }
    for number in [0, 1, 254, 255, 256] {
        ask(Question::read_name(&page, number));
    }
}
